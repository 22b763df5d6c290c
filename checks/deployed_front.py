"""The parts of checks/deploy that ask through nginx and haproxy: statuses, hosts and origins, limits, many clients, restarts, and the door."""
import contextlib
import ctypes
import fcntl
import functools
import os
import re
import resource
import shutil
import socket
import ssl
import struct
import subprocess
import threading
import time
from typing import Any, Callable, Iterator, Optional, Sequence

import front
from deployed import ANSWER, CLERK, CUT, SECOND, THIRD, body, bundle_of, directly, fronted, in_threads, no_tokens, part, tally, timed
from front import CLERK_AT, DEPLOY, HOST, OTHER_AT, Front, Office, Recorder, Reply, called, found, read_reply, request, text_of, until
from served import Wrong, free_port, listeners

SLOW = 2.0
FIELDS = {
    "content-security-policy": "frame-ancestors 'none'",
    "x-content-type-options": "nosniff",
    "referrer-policy": "no-referrer",
    "cross-origin-opener-policy": "same-origin",
    "cross-origin-resource-policy": "same-origin",
    "strict-transport-security": "max-age=",
}
# asks for something from an address, for the time of this number: the reply, and the seconds
Ask = Callable[[str, int], tuple[Reply, float]]
AWAY, BUSY = b'{"front":"away"}', b'{"front":"busy"}'


# ---- statuses and bodies

# what is asked one after another over the season of five candidates, with the status that the office gives
ASKED = [
    (200, "GET", "/v1/state", None, None),
    (200, "POST", "/v1/cut", CLERK, CUT),
    (200, "GET", "/v1/seat/2", SECOND, None),
    (200, "GET", "/v1/seat/2", CLERK, None),
    (200, "GET", "/v1/why/2/A", SECOND, None),
    (200, "GET", "/v1/list/1/A", None, None),
    (200, "GET", "/v1/round/1", None, None),
    (200, "GET", "/v1/choices/2", SECOND, None),
    (200, "GET", "/v1/state?x=1", None, None),
    (200, "POST", "/v1/answer", SECOND, ANSWER),
    (200, "POST", "/v1/answer?q=1", SECOND, ANSWER),
    (200, "POST", "/v1/raise", CLERK, body(window=1, programme="A", step="OPEN", seats=2)),
    (403, "GET", "/v1/seat/2", None, None),
    (403, "GET", "/v1/seat/2", THIRD, None),
    (403, "GET", "/v1/choices/2", THIRD, None),
    (403, "POST", "/v1/answer", THIRD, ANSWER),
    (404, "GET", "/v1/seat/9", CLERK, None),
    (404, "GET", "/v1/why/2/C", SECOND, None),
    (404, "GET", "/v1/list/7/A", None, None),
    (404, "GET", "/v1/round/7", None, None),
    (404, "GET", "/v1/nothing", None, None),
    (404, "GET", "/v1/%73tate", None, None),
    (404, "GET", "/v1/state/", None, None),
    (405, "GET", "/v1/cut", None, None),
    (405, "POST", "/v1/state", None, b""),
    (405, "DELETE", "/v1/state", None, None),
    (409, "POST", "/v1/answer", SECOND, body(cand=2, window=1, turn=3, choice="freeze")),
    (409, "POST", "/v1/cut", CLERK, body(window=5)),
    (400, "POST", "/v1/answer", SECOND, b"{}"),
    (400, "POST", "/v1/answer", SECOND, b" " * 4096),
    (411, "POST", "/v1/answer", SECOND, None),
]


def same_reply(one: Reply, other: Reply) -> bool:
    return one[0::2] == other[0::2] and all(one.fields.get(it) == other.fields.get(it) for it in ("allow", "content-type"))


def has_fields(reply: Reply, label: str, cache: str) -> None:
    lacking = [name for name, value in FIELDS.items() if value not in reply.fields.get(name, "")]
    tally.same(lacking, [], f"fields of a reply, {label}")
    tally.same(reply.fields.get("cache-control"), cache, f"no reply is kept, {label}")
    tally.holds(not any(it.startswith("access-control") for it in reply.fields), f"no field for other origins, {label}")


@part("statuses and bodies through nginx", ["nginx", "openssl"])
def statuses(room: str, program: str) -> None:
    with fronted(room, program) as (nginx, office):
        for status, method, path, token, given in ASKED:
            label = f"{method} {path} -> {status}"
            straight = directly(office, method, path, token, given)
            came = nginx.ask(method, path, token, given, source=CLERK_AT)
            tally.status(straight, status, f"{label}, of the office")
            wanted = straight if came.body or straight.status != 404 else straight
            tally.holds(same_reply(came, wanted), f"{label}, through the front", f"{came} and not {straight}")
            has_fields(came, label, "no-store")
            if found("curl"):
                status_told, body_told = curled(nginx, method, path, token, given)
                tally.holds((status_told, body_told) == (straight.status, straight.body), f"{label}, over HTTP/2", f"{status_told} {body_told!r:.200}")
        if not found("curl"):
            tally.skips("statuses over HTTP/2", "curl")
        limits(nginx, office)


def curled(nginx: Front, method: str, path: str, token: Optional[str], given: Optional[bytes]) -> tuple[int, bytes]:
    """The status and the body over HTTP/2, from the clerk's address."""
    words = [found("curl"), "-s", "--http2", "--cacert", nginx.cert, "--resolve", f"{HOST}:{nginx.port}:127.0.0.1", "--interface", CLERK_AT, "-X", method]
    words += ["-H", f"X-Office-Token: {token}"] if token else []
    words += ["--data-binary", "@-", "-H", "Content-Type:"] if given else ["-d", ""] if given is not None else []
    wrote = called([*words, "-w", "\n%{http_code} %{http_version}", f"{nginx.origin}{path}"], given or b"")
    told, _, last = wrote.rpartition(b"\n")
    status, version = last.decode().split()
    if version != "2":
        raise Wrong(f"curl speaks HTTP/{version}")
    return int(status), told


def limits(nginx: Front, office: Office) -> None:
    """What nginx answers itself, and what it makes whole for the office."""
    before = len(nginx.logged())
    came = nginx.ask("POST", "/v1/answer", SECOND, b" " * 4097)
    tally.status(came, 413, "a body of 4,097 bytes")
    came = nginx.raw(request("GET", "/v1/state", fields=[f"X-Long: {'x' * 5000}"]))
    tally.status(came, 400, "a head above 4 kB")
    came = nginx.raw(request("GET", f"/v1/state?{'x' * 5000}"))
    tally.status(came, 414, "a target above 4 kB")
    until(lambda: len(nginx.logged()) >= before + 3, "the log")
    tally.holds(all(it["up"] == "" for it in nginx.logged()[before:]), "too long a message does not reach the office", f"{nginx.logged()[before:]}")
    chunked = request("POST", "/v1/answer", SECOND, fields=["Transfer-Encoding: chunked"]) + b"%x\r\n%s\r\n0\r\n\r\n" % (len(ANSWER), ANSWER)
    came = nginx.raw(chunked)
    tally.holds(came.status == 200 and b'"noted"' in came.body, "a chunked body is given a length", f"{came}")
    came = nginx.ask("HEAD", "/v1/state")
    tally.status(came, 405, "HEAD")


# bytes beyond which no file of the office may grow, so that its log is full after some 30 answers
FULL = 400_000


@part("a full disk through nginx", ["nginx", "openssl"])
def full_disk(room: str, program: str) -> None:
    """503 comes through, and the same answer is taken when there is room again."""

    def small() -> None:
        resource.setrlimit(resource.RLIMIT_FSIZE, (FULL, FULL))

    answers = ((f"tok{cand:05}", body(cand=cand, window=1, turn=turn, choice="float")) for turn in range(1, 17) for cand in range(1, 5))
    with fronted(room, program, preexec_fn=small, restore_signals=False) as (nginx, office):
        came = nginx.ask("POST", "/v1/cut", CLERK, CUT, source=CLERK_AT)
        tally.status(came, 200, "a cut before the disk is full")
        taken = []
        for token, given in answers:
            came = nginx.ask("POST", "/v1/answer", token, given)
            if came.status != 200:
                break
            taken.append((token, given, came.body))
        tally.holds((came.status, came.body) == (503, b'{"fault":"keeper"}') and taken, "503 comes through", f"{came} after {len(taken)} answers")
        has_fields(came, "503", "no-store")
        office.kill()
        office.start()
        came = nginx.ask("POST", "/v1/answer", token, given)
        tally.status(came, 200, "the same answer is taken when there is room")
        again = [nginx.ask("POST", "/v1/answer", token, given).body for token, given, _ in taken]
        tally.holds(again == [body for *_, body in taken], "all answers before it are there, and give their receipts again", f"{again[:2]}")


# ---- what reaches the office

STATE = b'HTTP/1.1 200 OK\r\nContent-Type: application/json\r\nContent-Length: 50\r\n\r\n{"now":0,"published":0,"reply":"state","rounds":2}'
MEMORY = b'HTTP/1.1 507 Insufficient Storage\r\nContent-Type: application/json\r\nContent-Length: 18\r\n\r\n{"fault":"memory"}'


@part("what reaches the office", ["nginx", "openssl"])
def reaches(room: str, program: str) -> None:
    with Recorder(STATE) as office, Front(room, f"127.0.0.1:{office.port}") as nginx:
        fields = ["Cookie: a=b", "User-Agent: x", "Accept: */*", "Content-Type: text/plain", "X-Forwarded-For: 10.0.0.1"]
        fields += ["Connection: keep-alive", "Expect: 100-continue"]
        with nginx.connected() as link:
            link.sendall(request("POST", "/v1/answer?q=1", SECOND, ANSWER, fields, f"{HOST}:{nginx.port}"))
            came, held = read_reply(link)
            came = read_reply(link, held)[0] if came.status == 100 else came
        tally.status(came, 200, "a request with many fields")
        head, _, given = office.seen[-1].partition(b"\r\n\r\n")
        first, *lines = head.decode().split("\r\n")
        wanted = {"Host: 127.0.0.1", "Connection: close", f"X-Office-Token: {SECOND}", f"Content-Length: {len(ANSWER)}"}
        tally.same((first, given), ("POST /v1/answer?q=1 HTTP/1.1", ANSWER), "the office gets the request and its body")
        tally.same(sorted(lines), sorted(wanted), "the office gets the token and the length, and no other field")
        nginx.ask("GET", "/v1/state")
        bare = b"GET /v1/state HTTP/1.1\r\nConnection: close\r\nHost: 127.0.0.1\r\n\r\n"
        tally.same(office.seen[-1], bare, "without a token there is none")

        # a kept connection of a client is a connection for each request at the office
        before = len(office.seen)
        with nginx.connected() as link:
            held = b""
            for _ in range(30):
                link.sendall(request("GET", "/v1/state", SECOND, host=f"{HOST}:{nginx.port}"))
                came, held = read_reply(link, held)
        tally.same(len(office.seen) - before, 30, "30 requests on a kept connection are 30 connections to the office")
        office.reply = MEMORY
        came = nginx.ask("GET", "/v1/state")
        tally.holds((came.status, came.body) == (507, b'{"fault":"memory"}'), "507 comes through", f"{came}")
        before = len(office.seen)
        office.reply = STATE
        foreign(nginx, office)
    no_tokens(nginx.logs(), bundle_of(), "what reaches the office")


def foreign(nginx: Front, office: Recorder) -> None:
    """Another Host, another origin, another name in TLS: the office is not asked."""
    own = f"{HOST}:{nginx.port}"
    before = len(office.seen)

    def of_host(label: str, given: bytes, status: int, plain: bool = False) -> None:
        came = nginx.raw(given, plain=plain)
        tally.status(came, status, label)

    of_host("another Host", request("GET", "/v1/state", host="evil.example"), 421)
    of_host("the address as Host", request("GET", "/v1/state", host="127.0.0.1"), 421)
    of_host("two Hosts", request("GET", "/v1/state", fields=["Host: evil.example"], host=own), 400)
    of_host("no Host", b"GET /v1/state HTTP/1.1\r\n\r\n", 400)
    of_host("HTTP/1.0 without a Host", b"GET /v1/state HTTP/1.0\r\n\r\n", 421)
    of_host("an absolute target of another host", request("GET", "http://evil.example/v1/state", host=own), 421)
    for name in ("evil.example", "127.0.0.1", None):
        try:
            nginx.connected(name=name).close()
            tally.holds(False, f"TLS for {name or 'no name'}", "it is taken")
        except ssl.SSLError:
            tally.holds(True, f"TLS for {name or 'no name'}")
    with nginx.connected(plain=True) as link:
        link.sendall(request("GET", "/", host="evil.example"))
        tally.holds(link.recv(1) == b"", "another name at the plain port gets nothing")
    came = nginx.raw(request("GET", "/candidate/"), plain=True)
    tally.holds((came.status, came.fields.get("location")) == (301, f"{nginx.origin}/candidate/"), "the plain port sends to TLS", f"{came}")

    foreign_pages(nginx, office, before)


def foreign_pages(nginx: Front, office: Recorder, before: int) -> None:
    """What a browser sends for pages of another origin."""
    own = f"{HOST}:{nginx.port}"
    for label, method, fields in [
        ("a foreign origin", "POST", ["Origin: https://evil.example"]),
        ("the origin null", "POST", ["Origin: null"]),
        ("our name without TLS as origin", "POST", [f"Origin: http://{own}"]),
        ("a page of another site", "POST", ["Sec-Fetch-Site: cross-site", "Sec-Fetch-Mode: no-cors"]),
        ("a page of the same site", "GET", ["Sec-Fetch-Site: same-site"]),
        ("an image of another site", "GET", ["Sec-Fetch-Site: cross-site", "Sec-Fetch-Dest: image"]),
        ("a preflight", "OPTIONS", ["Origin: https://evil.example", "Access-Control-Request-Method: POST", "Access-Control-Request-Headers: x-office-token"]),
    ]:
        came = nginx.ask(method, "/v1/answer", SECOND if method == "POST" else None, ANSWER if method == "POST" else None, fields)
        tally.status(came, 403, label)
        has_fields(came, label, "no-store")
    came = nginx.ask("GET", "/v1/cut", None, None)
    tally.status(came, 403, "the clerk's request from elsewhere")
    tally.holds(len(office.seen) == before, "none of these reaches the office", f"{office.seen[before:]}")

    own_pages: list[tuple[str, list[str]]] = [
        ("our origin", [f"Origin: {nginx.origin}", "Sec-Fetch-Site: same-origin"]),
        ("no page", ["Sec-Fetch-Site: none"]),
        ("no such fields", []),
    ]
    for label, fields in own_pages:
        came = nginx.ask("POST", "/v1/answer", SECOND, ANSWER, fields)
        tally.status(came, 200, label)
    tally.holds(len(office.seen) == before + 3, "these reach the office", f"{len(office.seen) - before}")


@part("the page through nginx", ["nginx", "openssl"])
def pages(room: str, program: str) -> None:
    with fronted(room, program) as (nginx, _):
        files = set()
        for path in ("/", "/candidate/", "/clerk/", "/hi/", "/candidate/hi/", "/clerk/hi/"):
            came = nginx.ask("GET", path, source=CLERK_AT)
            tally.holds(came.status == 200 and came.fields.get("content-type", "").startswith("text/html"), path, f"{came.status} {came.fields}")
            has_fields(came, path, "no-cache")
            files |= set(re.findall(rb'(?:src|href)="(/assets/[^"]+)"', came.body))
        tally.holds(len(files) == 9, "the pages name six scripts, one for old browsers, a sheet and an icon", f"{sorted(files)}")
        for path in sorted(it.decode() for it in files):
            came = nginx.ask("GET", path)
            tally.holds(came.status == 200, f"{path} is there", f"{came.status}")
            has_fields(came, path, "public, max-age=31536000, immutable")
        with open(f"{room}/season/programmes.json", "w", encoding="utf-8") as it:
            it.write("{}")
        came = nginx.ask("GET", "/season/programmes.json")
        tally.holds((came.status, came.body) == (200, b"{}"), "the public texts", f"{came}")
        has_fields(came, "the public texts", "no-cache")
        os.symlink(f"{room}/key.pem", f"{room}/season/key.txt")
        for method, path, status in [
            ("GET", "/none.html", 404),
            ("GET", "/season/", 403),
            ("GET", "/season/../key.pem", 404),
            ("GET", "/season/..%2fkey.pem", 404),
            ("GET", "/season../key.pem", 404),
            ("GET", "/season/key.txt", 403),
            ("POST", "/", 403),
            ("PUT", "/season/x.txt", 403),
        ]:
            came = nginx.ask(method, path, body=b"" if method != "GET" else None)
            tally.holds(came.status == status and b"PRIVATE" not in came.body, f"{method} {path} -> {status}", f"{came}")
        came = nginx.ask("GET", "/candidate")
        tally.holds((came.status, came.fields.get("location")) == (301, "/candidate/"), "a folder without its slash", f"{came}")
        for path in ("/clerk/", "/clerk/index.html", "//clerk/", "/%63lerk/", "/./clerk/", "/x/../clerk/"):
            tally.holds(nginx.ask("GET", path).status == 403, f"{path} from elsewhere", f"{nginx.ask('GET', path)}")
        came = nginx.ask("GET", "/clerk/", source=CLERK_AT)
        tally.status(came, 200, "/clerk/ from the clerk's address")


@part("the clerk's requests by address", ["nginx", "openssl"])
def clerks(room: str, program: str) -> None:
    with fronted(room, program) as (nginx, _):
        for path, status in [
            ("/v1/cut", 403),
            ("/v1/cut?x", 403),
            ("/v1//cut", 403),
            ("//v1/cut", 403),
            ("/v1/%63ut", 403),
            ("/v1/./cut", 403),
            ("/v1/x/../cut", 403),
            (f"https://{HOST}:{nginx.port}/v1/cut", 403),
            ("/v1/cut/", 404),
            ("/v1/cut%3f", 404),
            ("/v1/cut;", 404),
            ("/v1/CUT", 404),
            ("/v1/raise", 403),
        ]:
            came = nginx.ask("POST", path, CLERK, CUT)
            tally.status(came, status, f"{path} from elsewhere -> {status}")
        came = nginx.ask("GET", "/v1/state")
        tally.holds(b'"now":0' in came.body, "nothing was cut", f"{came}")
        came = nginx.ask("POST", "/v1/cut", CLERK, CUT, source=CLERK_AT)
        tally.status(came, 200, "a cut from the clerk's address")


@part("the clerk's token and the lists by address", ["nginx", "openssl"])
def clerks_alone(room: str, program: str) -> None:
    """With the file of `begin` the clerk's token opens nothing from elsewhere, and with PUBLIC=cutoffs neither rounds nor lists are for everybody."""
    os.makedirs(f"{room}/desk")
    with open(f"{room}/desk/clerk-token.conf", "w", encoding="ascii") as it:
        it.write(f'"{CLERK}" 1;\n')
    os.makedirs(f"{room}/office")
    with Office(program, f"{room}/office") as office, Front(room, f"127.0.0.1:{office.port}", PUBLIC="cutoffs", DESK=f"{room}/desk") as nginx:
        office.start("new", bundle=bundle_of())
        tally.status(nginx.ask("POST", "/v1/cut", CLERK, CUT, source=CLERK_AT), 200, "a cut from the clerk's address")
        names = ["round-1.txt", "lists-1.txt", "institute-1-I1.txt", "places-1-I1.csv", "mock-round.txt", "mock-institute-I1.txt", "special-lists.txt", "special.txt", "final.txt"]
        for name in [*names, "cutoffs-1.csv", "closing-1.csv", "mock-cutoffs.csv", "programmes.json"]:
            for end in ("", ".gz"):
                with open(f"{room}/season/{name}{end}", "w", encoding="utf-8") as it:
                    it.write("x")
        own = ["/v1/seat/2", "/v1/register/2", "/v1/choices/2", "/v1/answers/2", "/v1/why/2/A"]
        for path in own:
            seen = [nginx.ask("GET", path, token, source=it).status for token, it in ((CLERK, CLERK_AT), (CLERK, OTHER_AT), (SECOND, OTHER_AT))]
            tally.same(seen, [200, 403, 200], f"{path} by the clerk's token at the clerk's address alone, and by the candidate's anywhere")
        for path in ("/v1/round/1", "/v1/list/1/A", *(f"/season/{it}{end}" for it in names for end in ("", ".gz"))):
            seen = [nginx.ask("GET", path, source=it).status for it in (CLERK_AT, OTHER_AT)]
            tally.same(seen, [200, 403], f"{path} for the clerk's addresses alone")
        for path in ("/v1/state", "/v1/cutoffs/1/A", "/season/cutoffs-1.csv", "/season/closing-1.csv", "/season/mock-cutoffs.csv", "/season/programmes.json"):
            tally.status(nginx.ask("GET", path), 200, f"{path} for everybody")
        came = nginx.ask("GET", "/season/round-1.txt")
        tally.holds(b"lists of seats" in came.body, "a page for people says so", f"{came}")
    no_tokens(nginx.logs(), bundle_of(), "the clerk's token and the lists by address")


@part("limits by address", ["nginx", "openssl"])
def by_address(room: str, program: str) -> None:
    with fronted(room, program) as (nginx, _):
        nginx.ask("POST", "/v1/cut", CLERK, CUT, source=CLERK_AT)
        guess = request("GET", "/v1/seat/2", THIRD, host=f"{HOST}:{nginx.port}")

        def guesses() -> Optional[Reply]:
            """What comes last to up to 500 guesses over one connection."""
            with nginx.connected("127.0.0.2") as link:
                held, came = b"", None
                for _ in range(500):
                    link.sendall(guess)
                    came, held = read_reply(link, held)
                    if came.status != 403:
                        break
            return came

        came = max((it for it in in_threads([guesses] * 8) if isinstance(it, Reply)), key=lambda it: it.status)
        tally.holds((came.status, came.body) == (429, BUSY), "guesses from one address are slowed", f"{came}")
        has_fields(came, "429", "no-store")
        came = nginx.ask("GET", "/v1/seat/2", SECOND, source="127.0.0.3")
        tally.status(came, 200, "candidate 2 is not locked out by the guesses of others")
        came = nginx.ask("GET", "/", source="127.0.0.2")
        tally.status(came, 200, "that address still gets the page")


# ---- many clients


def longest(nginx: Front, before: int) -> float:
    return max(float(it["secs"]) for it in nginx.logged()[before:])


def sixteen(ask: Ask, label: str) -> None:
    """16 clients with 40 requests each, each from an address of its own."""

    def client(number: int) -> list[tuple[Reply, float]]:
        return [ask(f"127.0.2.{number + 1}", at) for at in range(40)]

    given, secs = timed(lambda: in_threads([functools.partial(client, it) for it in range(16)]))
    fine = [it for one in given if isinstance(one, list) for it in one]
    slow = max((secs for _, secs in fine), default=99)
    tally.same([reply.status for reply, _ in fine], [200] * 640, f"{label}: 640 requests of 16 clients at once")
    tally.holds(slow < SLOW, f"{label}: no request above {SLOW} s", f"the longest took {slow:.2f} s of {secs:.1f}")


def over_kept(linked: Callable[[str], socket.socket], host: str) -> Ask:
    """How a client asks for the state over one connection of its own, which it keeps."""
    links = {}

    def ask(source: str, _: object) -> tuple[Reply, float]:
        if source not in links:
            links[source] = linked(source)
        links[source].sendall(request("GET", "/v1/state", host=host))
        return timed(lambda: read_reply(links[source])[0])

    return ask


@part("16 clients at once", ["nginx", "openssl"])
def at_once(room: str, program: str) -> None:
    """Each of them asks for the seats of a generated season, and for its first round."""
    season = called([program, "generate", "160", "7", "text"]).partition(b"[requests]")[0]
    with fronted(room, program, season, workers=4) as (nginx, _):
        came = nginx.ask("POST", "/v1/cut", CLERK, CUT, source=CLERK_AT)
        tally.status(came, 200, "a cut of a generated season")
        before = len(nginx.logged())

        def ask(source: str, at: int) -> tuple[Reply, float]:
            cand = (int(source.rpartition(".")[2]) * 40 + at) % 160 + 1
            return timed(lambda: nginx.ask("GET", f"/v1/seat/{cand}", f"g{cand:08}", source=source))

        sixteen(ask, "nginx")
        sixteen(lambda source, _: timed(lambda: nginx.ask("GET", "/v1/round/1", source=source)), "nginx, the text of a round")
        sixteen(over_kept(nginx.connected, f"{HOST}:{nginx.port}"), "nginx, kept connections")
        tally.holds(longest(nginx, before) < SLOW, f"nginx: no request above {SLOW} s by its log", f"{longest(nginx, before)}")


@part("silent and half-sent clients", ["nginx", "openssl"])
def slow_clients(room: str, program: str) -> None:
    """With one worker of the office."""
    with fronted(room, program, workers=1) as (nginx, _):
        links = [nginx.connected(f"127.0.3.{it + 1}") for it in range(60)]
        half = [nginx.connected(f"127.0.4.{it + 1}") for it in range(60)]
        for it in half:
            it.sendall(request("POST", "/v1/cut", CLERK, CUT, host=f"{HOST}:{nginx.port}")[:-3])
        bare = [socket.create_connection(("127.0.0.1", nginx.port), source_address=(f"127.0.5.{it + 1}", 0)) for it in range(30)]
        idle = [nginx.connected(f"127.0.6.{it + 1}") for it in range(30)]
        for it in idle:
            it.sendall(request("GET", "/v1/state", host=f"{HOST}:{nginx.port}"))
            read_reply(it)
        taken = [timed(lambda: nginx.ask("GET", "/v1/state")) for _ in range(10)]
        tally.holds(all(reply.status == 200 for reply, _ in taken), "10 requests next to 60 silent, 60 half-sent and 60 kept clients", f"{taken[:2]}")
        tally.holds(max(secs for _, secs in taken) < SLOW, f"none of them above {SLOW} s", f"{max(secs for _, secs in taken):.2f} s")
        sixteen(lambda source, _: timed(lambda: nginx.ask("GET", "/v1/state", source=source)), "next to silent and half-sent clients")
        tally.holds(b'"now":0' in taken[-1][0].body, "a half-sent cut is not asked for", f"{taken[-1]}")
        # one more, because nginx has closed the first ones by now if the machine is busy: it waits for 10 seconds
        half.append(nginx.connected("127.0.4.61"))
        half[-1].sendall(request("POST", "/v1/cut", CLERK, CUT, host=f"{HOST}:{nginx.port}")[:-3])
        time.sleep(3)
        half[-1].sendall(CUT[-3:])
        tally.holds(read_reply(half[-1])[0].status == 403, "its end comes late, and from an address that is not the clerk's")
        for it in [*links, *half, *bare, *idle]:
            it.close()


@part("the office is killed and started under load", ["nginx", "openssl"])
def killed(room: str, program: str) -> None:
    with fronted(room, program) as (nginx, office):
        stop, came = threading.Event(), []

        def client(source: str) -> None:
            while not stop.is_set():
                came.append(nginx.ask("GET", "/v1/state", source=source))
                time.sleep(0.02)

        clients = [threading.Thread(target=client, args=(f"127.0.7.{it + 1}",), daemon=True) for it in range(8)]
        for it in clients:
            it.start()
        first = []
        for _ in range(3):
            time.sleep(0.4)
            office.kill()
            time.sleep(0.3)
            office.start()
            first.append(nginx.ask("GET", "/v1/state", source="127.0.7.99"))
        stop.set()
        for it in clients:
            it.join(10)
        away = [it for it in came if it.status == 502]
        tally.holds({it.status for it in came} <= {200, 502}, "killed three times: only 200 and 502", f"{sorted({it.status for it in came})} of {len(came)}")
        tally.same({(it.body, it.fields.get("retry-after")) for it in away}, {(AWAY, "2")}, "502 says that the office is away")
        tally.holds([it.status for it in first] == [200] * 3, "the first request after each start is answered", f"{first}")
        if away:
            has_fields(away[0], "502", "no-store")


@part("the office uses up its connections", ["nginx", "openssl"])
def used_up(room: str, program: str) -> None:
    with fronted(room, program, conns=50) as (nginx, office):
        stop, ends, seen = threading.Event(), [], []

        def restarter() -> None:
            while not stop.is_set():
                try:
                    ends.append(office.child.wait(0.05))
                except subprocess.TimeoutExpired:
                    continue
                if not stop.is_set():
                    office.start(conns=50, wait=False)
                    time.sleep(0.1)

        keeper = threading.Thread(target=restarter, daemon=True)
        keeper.start()

        def client(number: int) -> int:
            done = 0
            for _ in range(60):
                for again in range(60):
                    came = nginx.ask("GET", "/v1/state", source=f"127.0.8.{number + 1}")
                    seen.append(came.status)
                    if came.status == 200:
                        done += 1
                        break
                    time.sleep(0.05)
            return done

        done = in_threads([functools.partial(client, it) for it in range(8)])
        stop.set()
        keeper.join(10)
        tally.holds(done == [60] * 8, "480 requests are answered in the end", f"{done}")
        tally.holds(set(seen) <= {200, 502}, "used up: only 200 and 502", f"{set(seen)}")
        tally.holds(len(ends) >= 4 and set(ends) == {0}, "the office ends by itself with status 0, and is started again", f"{ends}")


# ---- haproxy


@contextlib.contextmanager
def haproxied(room: str, server: str, maxconn: int = 64) -> Iterator[tuple[str, int]]:
    """haproxy by deploy/haproxy.cfg in front of a server, and its port; afterwards the checks look at its log."""
    cert, port = front.certificate(room), free_port()
    with open(f"{room}/both.pem", "w", encoding="utf-8") as it:
        it.write(text_of(cert) + text_of(f"{room}/key.pem"))
    text = text_of(f"{DEPLOY}/haproxy.cfg")
    for old, new in [
        ("bind :443 ssl crt /etc/haproxy/office.example.pem", f"bind 127.0.0.1:{port} ssl crt {room}/both.pem"),
        ("https://office.example", f"https://office.example:{port}"),
        ("log /dev/log local0", "log stdout format raw daemon"),
        ("server office unix@/run/nachodune/door.sock", f"server office {server}"),
        ("maxconn 64", f"maxconn {maxconn}"),
        ("!{ src 127.0.0.1 }", f"!{{ src {CLERK_AT} }}"),
    ]:
        tally.holds(text.count(old) == 1, f"haproxy.cfg has {old!r} once")
        text = text.replace(old, new)
    with open(f"{room}/haproxy.cfg", "w", encoding="utf-8") as it:
        it.write(text)
    called([found("haproxy"), "-c", "-f", f"{room}/haproxy.cfg"])
    tally.holds(True, "haproxy takes its configuration")
    with open(f"{room}/haproxy.log", "wb") as log:
        child = subprocess.Popen([found("haproxy"), "-f", f"{room}/haproxy.cfg"], stdout=log, stderr=log)
    try:
        until(lambda: listeners(port), "the port of haproxy")
        yield cert, port
    finally:
        child.terminate()
        child.wait()
    told = text_of(f"{room}/haproxy.log")
    tally.holds("/v1/state" in told, "haproxy logs", told[-200:])
    no_tokens(told, bundle_of(), "haproxy")


@part("haproxy", ["haproxy", "openssl"])
def haproxy(room: str, program: str) -> None:
    os.makedirs(f"{room}/office")
    with Office(program, f"{room}/office") as office:
        office.start("new", workers=4, bundle=bundle_of())
        with haproxied(room, f"127.0.0.1:{office.port}", maxconn=2) as (cert, port):
            through_haproxy(cert, port, office)


def through_haproxy(cert: str, port: int, office: Office) -> None:
    context = ssl.create_default_context(cafile=cert)

    def linked(source: str, name: str = HOST) -> socket.socket:
        link = socket.create_connection(("127.0.0.1", port), timeout=30, source_address=(source, 0))
        return context.wrap_socket(link, server_hostname=name)

    def ask(method: str, path: str, token: Optional[str] = None, given: Optional[bytes] = None, fields: Sequence[str] = (), source: str = OTHER_AT, host: str = HOST) -> Reply:
        with linked(source) as link:
            link.sendall(request(method, path, token, given, fields, host))
            return read_reply(link)[0]

    for status, method, path, token, given in [it for it in ASKED if it[0] != 411]:
        straight = directly(office, method, path, token, given)
        came = ask(method, path, token, given, source=CLERK_AT)
        tally.holds((came.status, came.body) == (status, straight.body), f"haproxy: {method} {path} -> {status}", f"{came} and not {straight}")
        tally.holds(came.fields.get("cache-control") == "no-store", f"haproxy: {method} {path} is not kept", f"{came.fields}")
    haproxy_refuses(ask, port)
    try:
        linked(OTHER_AT, "evil.example").close()
        tally.holds(False, "haproxy: TLS for another name", "it is taken")
    except ssl.SSLError:
        tally.holds(True, "haproxy: TLS for another name")
    idle = [linked(f"127.0.6.{it + 1}") for it in range(60)]
    for it in idle[:30]:
        it.sendall(request("POST", "/v1/answer", SECOND, ANSWER)[:-3])
    for it in idle[30:]:
        it.sendall(request("GET", "/v1/state"))
        read_reply(it)
    sixteen(lambda source, _: timed(lambda: ask("GET", "/v1/state", source=source)), "haproxy")
    sixteen(over_kept(linked, HOST), "haproxy, kept connections")
    for it in idle:
        it.close()


def haproxy_refuses(ask: Callable[..., Reply], port: int) -> None:
    """What haproxy refuses by itself, and our own origin."""
    tries: list[tuple[str, int, dict[str, Any]]] = [
        ("another Host", 421, {"host": "evil.example"}),
        ("a list of hosts", 421, {"host": f"evil.example,{HOST}"}),
        ("a foreign origin", 403, {"fields": ["Origin: https://evil.example"]}),
        ("a page of another site", 403, {"fields": ["Sec-Fetch-Site: cross-site"]}),
        ("our origin", 200, {"fields": [f"Origin: https://{HOST}:{port}"]}),
    ]
    for label, status, how in tries:
        came = ask("GET", "/v1/state", **how)
        tally.status(came, status, f"haproxy: {label} -> {status}")
    came = ask("POST", "/v1/cut", CLERK, CUT)
    tally.status(came, 403, "haproxy: a cut from elsewhere")
    came = ask("GET", "/index.html")
    tally.status(came, 404, "haproxy: no page")
    came = ask("POST", "/v1/answer", SECOND, b" " * 4097)
    tally.status(came, 413, "haproxy: a body of 4,097 bytes")


# ---- the door

NEW_NETWORK = 0x40000000
PROXYD = "/lib/systemd/systemd-socket-proxyd"


def in_new_network() -> None:
    """In a child: a network of its own, as PrivateNetwork= gives it, with its loopback up."""
    if ctypes.CDLL(None, use_errno=True).unshare(NEW_NETWORK):
        raise OSError(ctypes.get_errno(), "unshare")
    with socket.socket() as it:
        # SIOCSIFFLAGS with IFF_UP | IFF_LOOPBACK | IFF_RUNNING
        fcntl.ioctl(it, 0x8914, struct.pack("16sh14x", b"lo", 0x1 | 0x8 | 0x40))


def in_network_of(child: int) -> None:
    with open(f"/proc/{child}/ns/net", "rb") as it:
        if ctypes.CDLL(None, use_errno=True).setns(it.fileno(), NEW_NETWORK):
            raise OSError(ctypes.get_errno(), "setns")


@part("the door of systemd-socket-proxyd", ["nginx", "openssl", "root", "systemd-socket-activate", PROXYD])
def door(room: str, program: str) -> None:
    """The office in a network of its own: nginx reaches it through the door, and nobody else does."""
    os.makedirs(f"{room}/office")
    with Office(program, f"{room}/office", 8080) as office:
        office.start("new", bundle=bundle_of(), wait=False, preexec_fn=in_new_network)
        sock = f"{room}/door.sock"
        # systemd-socket-activate starts the proxy at the first connection, in its own network
        words = [found("systemd-socket-activate"), "-l", sock, PROXYD, "--connections-max=512", "127.0.0.1:8080"]
        with open(f"{room}/door.log", "wb") as log:
            time.sleep(0.3)
            proxy = subprocess.Popen(words, stdout=log, stderr=log, preexec_fn=functools.partial(in_network_of, office.child.pid))
        try:
            until(lambda: os.path.exists(sock), "the door")
            os.chmod(sock, 0o660)
            shutil.chown(sock, "root", worker_group())
            with Front(room, f"unix:{sock}") as nginx:
                until(lambda: nginx.ask("GET", "/v1/state").status == 200, "the office behind the door", 20)
                came = nginx.ask("POST", "/v1/cut", CLERK, CUT, source=CLERK_AT)
                tally.status(came, 200, "a cut through the door")
                sixteen(lambda source, _: timed(lambda: nginx.ask("GET", "/v1/state", source=source)), "the door")
            with socket.socket() as it:
                tally.holds(it.connect_ex(("127.0.0.1", office.port)) != 0, "the port is closed to other users of the machine")
            tally.holds(is_closed_to_others(sock), "the door is closed to other users")
        finally:
            proxy.terminate()
            proxy.wait()


def is_closed_to_others(sock: str) -> bool:
    """Whether a user with no rights, in a process of its own, is refused at a socket."""
    child = os.fork()
    if not child:
        refused = False
        try:
            os.setgroups([])
            os.setgid(12345)
            os.setuid(12345)
            socket.socket(socket.AF_UNIX).connect(sock)
        except PermissionError:
            refused = True
        finally:
            os._exit(0 if refused else 1)
    return os.waitpid(child, 0)[1] == 0


def worker_group() -> str:
    """The group of nginx's workers, where root starts it."""
    told = re.search(rb"--group=(\S+)", subprocess.run([found("nginx"), "-V"], stdout=subprocess.PIPE, stderr=subprocess.STDOUT).stdout)
    return told[1].decode() if told else "nogroup"
