"""The bars that the service has to clear on results day, with the limits as they are shipped: each part puts what it saw into one table, which checks/deploy prints."""
import contextlib
import functools
import gzip
import os
import re
import shutil
import signal
import socket
import ssl
import subprocess
import time
import urllib.parse
from typing import Any, Callable, Iterator, Optional, Sequence, Union

import browser
import front
from deployed import CLERK, bars, body, bundle_of, directly, fronted, in_threads, part, tally, timed
from deployed_front import PROXYD, haproxied, in_network_of, in_new_network, worker_group
from front import CLERK_AT, HOST, Front, Office, Reply, called, found, read_reply, request, until

SCHOOL = "127.0.0.20"
PAPERS = ("window.json", "names.json", "programmes.json", "notice.txt", "round-1.txt")
OWN = ("state", "seat/{}", "register/{}", "choices/{}", "answers/{}", "list/1/P00", "cutoffs/1/P00")

# the statuses of a visit by its paths
Told = dict[str, int]


def season_of(program: str) -> tuple[int, bytes]:
    """A generated season whose first round has many seats: as many candidates as the program makes in a moment."""
    _, secs = timed(lambda: called([program, "generate", "2000", "7", "text"]))
    many = 50_000 if secs < 0.5 else 400
    return many, called([program, "generate", str(many), "7", "text"]).partition(b"[requests]")[0]


@contextlib.contextmanager
def after_a_cut(room: str, program: str, **how: Any) -> Iterator[tuple[Front, Office, int]]:
    many, season = season_of(program)
    with fronted(room, program, season, workers=64, **how) as (nginx, office):
        came, secs = timed(lambda: nginx.ask("POST", "/v1/cut", CLERK, body(window=0), source=CLERK_AT))
        tally.status(came, 200, f"a cut over {many} candidates, {secs:.1f} s")
        yield nginx, office, many


def token_of(cand: int) -> str:
    return f"g{cand:08}"


# ---- visitors


def files_in(body: bytes, page: str) -> list[str]:
    """What a browser asks for because of a page or a script."""
    text = gzip.decompress(body) if body.startswith(b"\x1f\x8b") else body
    named = re.findall(rb'(?:src|href)="([^"]+\.(?:js|css|svg))"|^(?:import|export)\b[^"\n]*"([^"]+\.js)"', text, re.M)
    return [urllib.parse.urljoin(page, (one or other).decode()) for one, other in named]


def visit(nginx: Front, cand: int, source: str) -> tuple[Told, Optional[float]]:
    """The statuses of a visit, each with its path, and the seconds until the seat is there."""
    begun = time.monotonic()
    told: Told = {}
    seat: Optional[float] = None
    with nginx.connected(source) as link:
        held = b""

        def ask(path: str, token: Optional[str] = None) -> Reply:
            nonlocal held
            link.sendall(request("GET", path, token, fields=["Accept-Encoding: gzip"], host=f"{HOST}:{nginx.port}"))
            came, held = read_reply(link, held)
            told[path] = came.status
            return came

        page: Optional[str] = "/candidate/"
        left: list[str] = []
        while page:
            left += [it for it in files_in(ask(page).body, page) if it not in told and it not in left]
            page = left.pop(0) if left else None
        for it in OWN:
            came = ask("/v1/" + it.format(cand), token_of(cand))
            seat = seat or (time.monotonic() - begun if it.startswith("seat") and came.status == 200 else None)
        for it in PAPERS:
            ask(f"/season/{it}")
    return told, seat


def visits(nginx: Front, many: int, seconds: float) -> tuple[int, list[object], float]:
    """So many visitors of one address within these seconds: how many got everything, what went wrong, and the longest wait for a seat."""

    def visitor(number: int) -> tuple[Told, Optional[float]]:
        time.sleep(seconds * number / many)
        return visit(nginx, number + 1, SCHOOL)

    came = in_threads([functools.partial(visitor, it) for it in range(many)])
    fine = [(refused_of(it[0]), it[1]) for it in came if isinstance(it, tuple)]
    whole = sum(not refused and seat is not None for refused, seat in fine)
    odd: list[object] = [*(it for refused, _ in fine for it in refused), *(it for it in came if not isinstance(it, tuple))]
    return whole, odd[:3], max((seat for _, seat in fine if seat is not None), default=99)


def refused_of(told: Told) -> list[tuple[str, int]]:
    """What a visitor did not get. A program from before there were these questions knows no such page, and papers are optional."""
    return [(path, status) for path, status in told.items() if status != 200 and not (status == 404 and re.search("/season/|/register/|/answers/|/cutoffs/", path))]


@part("bar: visitors of one address", ["nginx", "openssl"])
def visitors(room: str, program: str) -> None:
    with after_a_cut(room, program) as (nginx, _, _):
        for many, seconds in ((40, 1), (300, 60)):
            whole, odd, longest = visits(nginx, many, seconds)
            what = f"{many} visitors of one address within {seconds} s get the page and their seat"
            bars.add(what, f"{whole} of {many}, the slowest seat after {longest:.1f} s", whole == many, f"{odd}")


# ---- a crowd


@contextlib.contextmanager
def crowd(url: str, addresses: Sequence[str], at_once: int, most: int = 10_000_000, words: Sequence[str] = ()) -> Iterator[list[subprocess.Popen[bytes]]]:
    """From each address a curl that asks for a page as fast as it can, until the end of the block or so many times."""
    given = [found("curl"), "-s", "-o", "/dev/null", "--no-progress-meter", "-Z", "--parallel-max", str(at_once), *words]
    children = [subprocess.Popen([*given, "--interface", it, f"{url}?[1-{most}]"], stdout=subprocess.DEVNULL, stderr=subprocess.DEVNULL) for it in addresses]
    try:
        time.sleep(0.5)
        yield children
    finally:
        for it in children:
            it.kill()
            it.wait()


def over_tls(nginx: Front, token: str) -> list[str]:
    """The words by which curl reaches nginx with a token."""
    return ["--cacert", nginx.cert, "--resolve", f"{HOST}:{nginx.port}:127.0.0.1", "-H", f"X-Office-Token: {token}"]


def through(nginx: Front) -> Callable[[int], Reply]:
    """How somebody at an address of their own asks for a seat by way of nginx."""
    return lambda cand: nginx.ask("GET", f"/v1/seat/{cand}", token_of(cand), source=f"127.0.{10 + cand // 200}.{cand % 200 + 1}")


def others(ask: Callable[[int], Reply], many: int, seconds: float) -> tuple[list[Union[int, str]], float]:
    """So many clients, one after another within these seconds: the statuses that came, and the longest wait."""

    def client(number: int) -> tuple[Reply, float]:
        time.sleep(seconds * number / many)
        return timed(lambda: ask(number + 1))

    came = in_threads([functools.partial(client, it) for it in range(many)])
    statuses: list[Union[int, str]] = [it[0].status if isinstance(it, tuple) else repr(it) for it in came]
    return statuses, max((it[1] for it in came if isinstance(it, tuple)), default=99)


@part("bar: ten addresses at full speed", ["nginx", "openssl", "curl"])
def ten_addresses(room: str, program: str) -> None:
    with after_a_cut(room, program) as (nginx, _, _):
        with crowd(f"{nginx.origin}/v1/seat/1", [f"127.0.9.{it}" for it in range(1, 11)], 50, words=over_tls(nginx, token_of(1))):
            statuses, longest = others(through(nginx), 100, 4)
            clerk = [timed(lambda: nginx.ask("POST", "/v1/cut", CLERK, body(window=0), source=CLERK_AT)) for _ in range(5)]
        asked = len(nginx.logged())
        fine = statuses.count(200)
        slowest = max(secs for _, secs in clerk)
        told = f"{fine} of 100, the slowest after {longest:.2f} s; the clerk after {slowest:.2f} s, next to {asked} requests"
        held = fine == 100 and longest <= 2 and slowest <= 2 and all(came.status == 200 for came, _ in clerk)
        bars.add("10 addresses at full speed: 100 others and the clerk are answered within 2 s", told, held, f"{[it for it in statuses if it != 200][:5]} {[came.status for came, _ in clerk]}")


@part("bar: 500 requests for the text of a round", ["nginx", "openssl", "curl"])
def round_texts(room: str, program: str) -> None:
    with after_a_cut(room, program) as (nginx, _, many):
        with crowd(f"{nginx.origin}/v1/round/1", ["127.0.9.1"], 300, 500, over_tls(nginx, token_of(1))):
            statuses, longest = others(through(nginx), 60, 3)
        size = len(nginx.ask("GET", "/v1/round/1").body)
        told = f"{statuses.count(200)} of 60, the slowest after {longest:.2f} s; the text has {size / 1e6:.1f} MB"
        bars.add("one address asks 500 times for a round's text: others wait at most 1 s", told, statuses.count(200) == 60 and longest <= 1, f"{[it for it in statuses if it != 200][:5]}")


@part("bar: the office itself and its longest text", ["curl"])
def office_texts(room: str, program: str) -> None:
    """Without nginx: the office copies the bytes of a text."""
    many, season = season_of(program)
    with Office(program, room) as office:
        office.start("new", workers=64, bundle=season)
        directly(office, "POST", "/v1/cut", CLERK, body(window=0))

        def asks(cand: int) -> Reply:
            return directly(office, "GET", f"/v1/seat/{cand}", token_of(cand), None)

        with crowd(f"http://127.0.0.1:{office.port}/v1/round/1", ["127.0.9.1"], 300, 500, ["-H", "Connection: close"]):
            statuses, longest = others(asks, 60, 3)
        told = f"{statuses.count(200)} of 60, the slowest after {longest:.2f} s, {many} candidates"
        bars.add("one client asks the office itself 500 times for a round's text: others wait at most 0.3 s", told, statuses.count(200) == 60 and longest <= 0.3)


# ---- an office that does not answer for a while


@contextlib.contextmanager
def with_the_door(room: str, program: str) -> Iterator[tuple[str, Office]]:
    """The office in a network of its own, and the door of the units, with the descriptors that they give it."""
    text = front.text_of(f"{front.DEPLOY}/nachodune-door.service")
    found_most, found_files = re.search(r"--connections-max=\d+", text), re.search(r"^LimitNOFILE=(\d+)", text, re.M)
    assert found_most, "the door has no --connections-max"
    most, files = found_most[0], found_files[1] if found_files else "1024"
    os.makedirs(f"{room}/office")
    with Office(program, f"{room}/office", 8080) as office:
        office.start("new", workers=64, bundle=bundle_of(), wait=False, preexec_fn=in_new_network)
        sock = f"{room}/door.sock"
        words = ["prlimit", f"--nofile={files}", found("systemd-socket-activate"), "-l", sock, PROXYD, most, "127.0.0.1:8080"]
        with open(f"{room}/door.log", "wb") as log:
            time.sleep(0.3)
            proxy = subprocess.Popen(words, stdout=log, stderr=log, preexec_fn=functools.partial(in_network_of, office.child.pid))
        try:
            until(lambda: os.path.exists(sock), "the door")
            os.chmod(sock, 0o660)
            shutil.chown(sock, "root", worker_group())
            yield sock, office
        finally:
            proxy.terminate()
            proxy.wait()


def stalls(office: Office, ask: Callable[[str], Reply], many: int) -> tuple[list[Union[int, str]], int, float]:
    """Has the office stall for 4 seconds while so many clients ask once: the statuses, how many connections the office's kernel refused meanwhile, and the seconds."""
    before = overflows(office)
    office.child.send_signal(signal.SIGSTOP)
    # a program of its own, because a thread would wait for the clients' threads where the machine is busy
    with subprocess.Popen(["sh", "-c", f"sleep 4; kill -CONT {office.child.pid}"]):
        came, secs = timed(lambda: in_threads([functools.partial(ask, f"127.0.{20 + it // 100}.{it % 100 + 1}") for it in range(many)]))
    return [getattr(it, "status", repr(it)) for it in came], overflows(office) - before, secs


def overflows(office: Office) -> int:
    """How often the kernel refused a connection to the office, because those that wait for a worker were too many."""
    names, numbers = [it.split() for it in front.text_of(f"/proc/{office.child.pid}/net/netstat").splitlines()[:2]]
    return int(numbers[names.index("ListenOverflows")])


DOORS = ["openssl", "root", "prlimit", "systemd-socket-activate", PROXYD]


@part("bar: 500 requests wait while the office stalls", ["nginx", *DOORS])
def stalled(room: str, program: str) -> None:
    with with_the_door(room, program) as (sock, office), Front(room, f"unix:{sock}") as nginx:
        until(lambda: nginx.ask("GET", "/v1/state").status == 200, "the office behind the door", 60)
        statuses, refused, secs = stalls(office, lambda source: nginx.ask("GET", "/v1/state", source=source), 500)
        told = f"{statuses.count(200)} of 500 are answered, all within {secs:.1f} s; the kernel had {refused} come again"
        bars.add("500 requests wait while the office stalls for 4 s: none is reset", told, statuses.count(200) == 500, f"{[it for it in statuses if it != 200][:5]}")


@part("bar: 500 requests wait in the queue of haproxy", ["haproxy", *DOORS])
def queued(room: str, program: str) -> None:
    with with_the_door(room, program) as (sock, office), haproxied(room, f"unix@{sock}") as (cert, port):
        context = ssl.create_default_context(cafile=cert)

        def ask(source: str) -> Reply:
            with socket.create_connection(("127.0.0.1", port), timeout=30, source_address=(source, 0)) as bare, context.wrap_socket(bare, server_hostname=HOST) as link:
                link.sendall(request("GET", "/v1/state"))
                return read_reply(link)[0]

        until(lambda: ask("127.0.0.5").status == 200, "the office behind haproxy and the door", 60)
        statuses, refused, secs = stalls(office, ask, 500)
        told = f"{statuses.count(200)} of 500 are answered, all within {secs:.1f} s; the kernel had {refused} come again"
        bars.add("500 requests wait in haproxy while the office stalls for 4 s: none is reset", told, statuses.count(200) == 500 and not refused, f"{[it for it in statuses if it != 200][:5]}")


# ---- a slow phone

SLOW_3G = {"offline": False, "latency": 400, "downloadThroughput": 50_000, "uploadThroughput": 50_000}


@part("bar: a slow phone", ["nginx", "openssl"] + ([] if browser.program() else ["chromium"]))
def slow_phone(room: str, program: str) -> None:
    with fronted(room, program) as (nginx, _):
        nginx.ask("POST", "/v1/cut", CLERK, body(window=0), source=CLERK_AT)
        many = [f'{{"code":"X{it}","institute":"I{it % 100}","list":1,"steps":{{"OPEN":{{"seats":{it % 50},"protect":{{"W":{it % 9},"D":{it % 3}}}}}}}}}' for it in range(8000)]
        with open(f"{room}/season/programmes.json", "w", encoding="utf-8") as it:
            it.write(f'{{"version":1,"rounds":2,"published":1,"programmes":[{",".join(many)}]}}')
        with browser.Browser(f"{room}/browser", HOST, nginx.cert) as page:
            page.call("Network.enable")
            page.call("Network.emulateNetworkConditions", **SLOW_3G)
            begun = time.monotonic()
            page.go(f"{nginx.origin}/candidate/")
            page.until("document.querySelector('#sign-in button') && document.getElementById('number').checkVisibility()")
            page.fill("number", "2")
            page.fill("token", "tok00002")
            page.click("#sign-in button:not([type=button])")
            page.until("document.getElementById('seat').innerText.includes('B')", 60)
            secs = time.monotonic() - begun
        bars.add("over slow 3G (400 kbit/s, 400 ms) the seat is there within 4 s of the first request", f"{secs:.1f} s", secs <= 4)

