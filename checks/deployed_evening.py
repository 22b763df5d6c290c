"""The parts of checks/deploy for an evening that goes wrong: logs, slow downloads, a certificate, a disk, a clock, and many people behind one address."""
import functools
import os
import random
import re
import resource
import shutil
import socket
import threading
import time
from typing import Optional

from deployed import CLERK, CUT, bars, body, bundle_of, directly, in_threads, part, tally
from deployed_bars import OWN, after_a_cut, files_in, token_of
from deployed_files import script
from front import HOST, Front, Office, Recorder, Reply, called, expired, read_reply, request, text_of
from served import TOP

REPLY = b"HTTP/1.1 404 Not Found\r\nContent-Length: 0\r\nConnection: close\r\n\r\n"
SECONDS = 5

# how long the page asks a busy office again, and its longest pause, in seconds
Known = tuple[float, float]
# a visit: the seconds until the seat, what did not come, and how often it had to ask again
Visit = tuple[Optional[float], list[str], int]


def size_of(folder: str) -> int:
    return sum(os.path.getsize(f"{folder}/{it}") for it in os.listdir(folder))


# ---- logs


def asks_on(nginx: Front, path: str, until: float, source: str = "127.0.0.31") -> int:
    """Asks for paths that are not there over one connection, as fast as replies come; returns how often."""
    count = 0
    while time.monotonic() < until:
        with nginx.connected(source) as link:
            held = b""
            while time.monotonic() < until and count % 1000 != 999:
                link.sendall(request("GET", path.format(count), host=f"{HOST}:{nginx.port}"))
                came, held = read_reply(link, held)
                count += 1
                if came.fields.get("connection") == "close":
                    break
            count += 1
    return count


@part("bar: logs of one address", ["nginx", "openssl"])
def logs(room: str, program: str) -> None:
    with Recorder(REPLY) as office, Front(room, f"127.0.0.1:{office.port}") as nginx:
        for label, path in (("pages that are not there", "/none/{}/" + "x" * 700), ("questions that are not there", "/v1/none/{}/" + "y" * 700), ("a page", "/candidate/?{}" + "z" * 700)):
            time.sleep(1.5)
            before, end = size_of(f"{room}/logs"), time.monotonic() + SECONDS
            asked = sum(it for it in in_threads([functools.partial(asks_on, nginx, path, end)] * 20) if isinstance(it, int))
            time.sleep(1.5)
            grown = size_of(f"{room}/logs") - before
            bars.add(f"20 connections of one address ask for {label} for {SECONDS} s: at most 1 MB of logs", f"{grown / 1e6:.2f} MB of {asked} requests", 0 < grown <= 1_000_000 and asked > 1000)
        one = nginx.ask("GET", "/none?token=secret0secret0", fields=["Referer: https://office.example/?token=secret1secret1"], source="127.0.0.33")
        tally.same(one.status, 404, "a page that is not there")
        told = [it for it in nginx.logged() if it["peer"] == "127.0.0.33"]
        tally.same([it["path"] for it in told], ["/none"], "the log has the path that was asked for, without its query")
    with open(f"{room}/logs/nachodune-error.log", encoding="utf-8") as it:
        tally.same(it.read(), "", "no error line of a page that is not there")
    tally.holds("secret" not in text_of(f"{room}/logs/nachodune.log"), "no query and no Referer in the log")


# ---- slow downloads


@part("bar: slow downloads of one address", ["nginx", "openssl", "root"])
def slow_downloads(room: str, program: str) -> None:
    """Clients that ask for a large paper, and read nothing of it: without TLS for the load's sake, so behind a server that adds it."""
    many = 6000
    with Recorder(REPLY) as office, Front(room, f"127.0.0.1:{office.port}") as nginx:
        with open(f"{room}/season/round-1.txt", "w", encoding="ascii") as paper:
            paper.write("x" * 8_000_000)
        links: list[socket.socket] = []
        threads = 12
        lock = threading.Lock()

        def client(number: int) -> None:
            for _ in range(many // threads):
                link = None
                try:
                    link = nginx.connected("127.0.0.34")
                    link.setsockopt(socket.SOL_SOCKET, socket.SO_RCVBUF, 4096)
                    link.sendall(request("GET", "/season/round-1.txt", host=f"{HOST}:{nginx.port}"))
                    with lock:
                        links.append(link)
                except OSError:
                    if link:
                        link.close()

        soft, hard = resource.getrlimit(resource.RLIMIT_NOFILE)
        resource.setrlimit(resource.RLIMIT_NOFILE, (min(hard, 16384), hard))
        try:
            in_threads([functools.partial(client, it) for it in range(threads)])
            time.sleep(1)
            held = held_by(nginx)
            other = nginx.ask("GET", "/season/round-1.txt", source="127.0.0.35")
        finally:
            for it in links:
                it.close()
            resource.setrlimit(resource.RLIMIT_NOFILE, (soft, hard))
        bars.add(f"{many} slow downloads of one address: at most 500 are held", f"{held} held of {len(links)}", 0 < held <= 500 and len(links) > many // 2)
        tally.same((other.status, len(other.body)), (200, 8_000_000), "another address gets the paper meanwhile")


def held_by(nginx: Front) -> int:
    """How often nginx's workers have the paper open."""
    count = 0
    for pid in called(["pgrep", "-P", str(nginx.child.pid)]).split():
        for it in os.listdir(f"/proc/{pid.decode()}/fd"):
            try:
                count += os.readlink(f"/proc/{pid.decode()}/fd/{it}").endswith("/season/round-1.txt")
            except OSError:
                continue
    return count


# ---- what `watch` finds


@part("watch asks its own site", ["nginx", "openssl"])
def watches(room: str, program: str) -> None:
    state = b'HTTP/1.1 200 OK\r\nContent-Type: application/json\r\nContent-Length: 2\r\nConnection: close\r\n\r\n{}'
    log, store = f"{room}/logs/nachodune.log", f"{room}/season.db"
    with open(store, "wb") as it:
        it.write(b"x" * 4096)
    with Recorder(state) as office:
        nginx = Front(room, f"127.0.0.1:{office.port}")

        def looks(*more: str) -> tuple[int, str]:
            return script("watch", ["--host", HOST, "--at", f"127.0.0.1:{nginx.port}", "--ca", f"{room}/cert.pem", *more, log, store], program)

        with nginx:
            status, wrote = looks()
            tally.holds(status == 0 and wrote.startswith("502: 0, 503: 0, 429: 0 of 1 requests"), "watch asks the site and finds its line in the log", f"{status} {wrote}")
            status, wrote = script("watch", ["--host", "other.example", "--at", f"127.0.0.1:{nginx.port}", "--ca", f"{room}/cert.pem", log, store], program)
            tally.holds(status == 1 and "LOOK: " in wrote, "watch says that the certificate has another name, or none", f"{status} {wrote}")
        status, wrote = looks()
        tally.holds(status == 1 and "does not answer" in wrote, "watch says that nginx is away", f"{status} {wrote}")
        for days, told in ((-1, "is refused: certificate has expired"), (9, "ends in 9 days"), (20, "")):
            shutil.copy(expired(room, days), f"{room}/cert.pem")
            with nginx:
                begun = time.monotonic()
                status, wrote = looks()
                secs = time.monotonic() - begun
            tally.holds(status == (1 if told else 0) and told in wrote and secs < 50, f"watch looks at a certificate of {days} days", f"{status} {wrote} {secs:.0f} s")
        shutil.copy(expired(room, 30), f"{room}/cert.pem")
        os.remove(log)
        os.symlink("/dev/full", log)
        with nginx:
            status, wrote = looks()
        tally.holds(status == 1 and "nginx logs nothing" in wrote, "watch says that nothing is logged", f"{status} {wrote}")


# ---- a clock


@part("a clock that is set back by a day")
def clock(room: str, program: str) -> None:
    """The copies of the wrong day are no newer than those that were made later, and no reason to make none."""
    store, folder = f"{room}/season.db", f"{room}/copies"
    with Office(program, room) as office:
        office.start("new", bundle=bundle_of())
        office.kill()
    status, wrote = script("keep-copy", [store, folder], program)
    name = os.listdir(folder)[0]
    tomorrow = time.strftime("%Y%m%dT%H%M%S.0Z", time.gmtime(time.time() + 86_400))
    os.rename(f"{folder}/{name}", f"{folder}/{tomorrow}")
    os.utime(f"{folder}/{tomorrow}/of.txt", (time.time() + 86_400,) * 2)
    with Office(program, room) as office:
        office.start("kept")
        directly(office, "POST", "/v1/cut", CLERK, CUT)
        directly(office, "POST", "/v1/answer", "tok00001", body(cand=1, window=1, turn=1, choice="float"))
        office.kill()
    status, wrote = script("keep-copy", [store, folder], program)
    tally.holds(status == 0 and wrote.startswith("kept "), "a start makes a copy after the clock was set back", f"{status} {wrote}")
    status, wrote = script("keep-copy", ["--check", folder], program)
    tally.holds(status == 0, "the copies are checked", f"{status} {wrote}")
    status, wrote = script("counts", [folder], program)
    tally.holds(status == 0 and tomorrow not in wrote and "window 1: 4 seats are offered" in wrote and "1 answered" in wrote, "counts reads the copy that was made last", f"{status} {wrote}")
    status, wrote = script("keep-copy", [store, folder], program)
    tally.holds("nothing changed since" in wrote and tomorrow not in wrote, "keep-copy knows which copy is the newest", f"{status} {wrote}")


# ---- many people behind one address


def patience() -> Known:
    """How long the page asks a busy office again, and its longest pause, in seconds."""
    given = text_of(f"{TOP}/web/ask.js")
    whole, longest = (int(it) / 1000 for name in ("PATIENCE", "LONGEST_WAIT") for it in re.findall(rf"^const {name} = ([0-9_]+);", given, re.M))
    return whole, longest


class Visitor:
    """Somebody who asks over a kept connection, and again after 429 and 502 as the page does."""

    def __init__(self, nginx: Front, source: str, known: Known) -> None:
        self.nginx, self.source, self.known = nginx, source, known
        self.link: Optional[socket.socket] = None
        self.held, self.waits = b"", 0
        self.lacks: list[str] = []

    def once(self, path: str, token: Optional[str]) -> Optional[Reply]:
        """The reply, or None if the connection ended before it."""
        try:
            self.link = self.link or self.nginx.connected(self.source)
            self.link.sendall(request("GET", path, token, host=f"{HOST}:{self.nginx.port}"))
            came, self.held = read_reply(self.link, self.held)
            return came
        except (OSError, EOFError):
            self.close()
            return None

    def asked(self, path: str, token: Optional[str] = None) -> Optional[Reply]:
        """The reply that ends the asking; notes what did not come."""
        begun, (whole, longest) = time.monotonic(), self.known
        tries = 0
        while True:
            came = self.once(path, token)
            if came and came.status not in (429, 502):
                return came
            if time.monotonic() - begun > whole:
                self.lacks.append(path)
                return came
            self.waits += 1
            time.sleep(min(longest, 0.5 * 2**tries) * random.uniform(0.7, 1.3))
            tries += 1

    def close(self) -> None:
        if self.link:
            self.link.close()
        self.link, self.held = None, b""


def patient_visit(nginx: Front, cand: int, source: str, known: Known) -> Visit:
    """A visit: the seconds until the seat, what did not come, and how often it had to ask again."""
    begun, visitor = time.monotonic(), Visitor(nginx, source, known)
    seat: Optional[float] = None
    page = visitor.asked("/candidate/")
    for it in files_in(page.body if page else b"", "/candidate/"):
        visitor.asked(it)
    for it in OWN:
        came = visitor.asked("/v1/" + it.format(cand), token_of(cand))
        if it.startswith("seat") and came and came.status == 200:
            seat = time.monotonic() - begun
    visitor.close()
    return seat, visitor.lacks, visitor.waits


@part("bar: 2,000 visitors of one address", ["nginx", "openssl"])
def crowd_of_one(room: str, program: str) -> None:
    many, seconds, known = 2000, 60, patience()
    with after_a_cut(room, program) as (nginx, _, people):

        def visitor(number: int) -> Visit:
            time.sleep(seconds * number / many)
            return patient_visit(nginx, number % people + 1, "127.0.0.21", known)

        came = in_threads([functools.partial(visitor, it) for it in range(many)])
        fine = [it for it in came if isinstance(it, tuple)]
        seats = [it[0] for it in fine if it[0] is not None]
        whole = sum(not it[1] and it[0] is not None for it in fine)
        waits = sum(it[2] for it in fine)
        told = f"{len(seats)} of {many} have their seat, half within {sorted(seats)[len(seats) // 2]:.1f} s, the last after {max(seats, default=0):.1f} s; {whole} visits are whole, {waits} replies were 429"
        bars.add(f"{many} visitors of one address within {seconds} s get their seat", told, len(seats) == many == whole, f"{[it for it in fine if it[1]][:2]}")


@part("a known large address, and files for finders", ["nginx", "openssl"])
def known_large(room: str, program: str) -> None:
    """An address that LARGE names has ten times the limit; and what CONTACT and headers.conf give."""
    with Recorder(REPLY) as office, Front(room, f"127.0.0.1:{office.port}", LARGE="127.0.0.36,10.0.0.0/8", CONTACT="https://board.example/contact") as nginx:
        for source, is_large in (("127.0.0.36", True), ("127.0.0.37", False)):
            calls = [functools.partial(statuses_of, nginx, source, 150)] * 10
            seen = [status for it in in_threads(calls) if isinstance(it, list) for status in it]
            tally.holds((429 in seen) != is_large and 404 in seen, f"1,500 questions at once from {'a known large' if is_large else 'another'} address", f"{seen.count(429)} of {len(seen)} are refused")
        told = nginx.ask("GET", "/.well-known/security.txt")
        tally.holds(told.status == 200 and b"Contact: https://board.example/contact\nExpires: 20" in told.body and told.fields["content-type"].startswith("text/plain"), "security.txt", f"{told}")
        told = nginx.ask("GET", "/robots.txt")
        tally.holds(told.status == 200 and b"Disallow: /v1/" in told.body, "robots.txt", f"{told}")
        for path in ("/", "/candidate/", "/season/none", "/robots.txt"):
            tally.same(nginx.ask("GET", path).fields.get("x-frame-options"), "DENY", f"{path} is in no frame")
        for path, words in (("/assets/", b"There is nothing to see"), ("/season/", b"There is nothing to see"), ("/clerk/", b"This page is closed here")):
            told = nginx.ask("GET", path)
            tally.holds(told.status == 403 and words in told.body, f"{path}: a page for people", f"{told}")
    shutil.rmtree(f"{room}/conf")
    with Recorder(REPLY) as office, Front(room, f"127.0.0.1:{office.port}") as nginx:
        tally.same(nginx.ask("GET", "/.well-known/security.txt").status, 404, "no security.txt without CONTACT")


def statuses_of(nginx: Front, source: str, many: int) -> list[int]:
    """The statuses of questions over one connection."""
    found, held = [], b""
    with nginx.connected(source) as link:
        for _ in range(many):
            link.sendall(request("GET", "/v1/none", host=f"{HOST}:{nginx.port}"))
            came, held = read_reply(link, held)
            found.append(came.status)
    return found
