"""The program under `serve`, over real sockets: scripts as messages over loopback against the plain office (checks/plain_office.py), messages at their limits, raw ones
(checks/raw_messages.py), bytes cut anywhere, clients side by side, a server that is killed, clients that go away, and how it ends. checks/repository runs it where
the program has the command."""
import collections
import contextlib
import functools
import itertools
import json
import os
import random
import re
import resource
import shutil
import signal
import socket
import sqlite3
import struct
import subprocess
import tempfile
import threading
import time
from typing import Any, Callable, Concatenate, Iterable, Iterator, Optional, ParamSpec, Union

import openapi
import raw_messages
from cases import READS_STORES, ROOMS, SECONDS, Case
from plain_http import asked, message, replied, reply_bytes
from plain_office import Office, Person, Season

TOP = os.path.dirname(os.path.dirname(os.path.realpath(__file__)))
LOOPBACK, LISTENS = "0100007F", "0A"
# messages that a connection takes, and seconds that a silent one is waited for within a message, between messages, and for a whole message
MOST_MESSAGES, PATIENCE, BETWEEN, WHOLE = 100, 30, 2, 60
NO_PORT = (b"", b"cannot bind port\n", 1)
# ports in the same order in each run of a checkout, and in another one in other checkouts, which may run at the same time
PORTS = itertools.cycle(random.Random(TOP).sample(range(15_000, 30_000), 15_000))
TABLES = ("answer", "lift", "allot", "phase")
Given = ParamSpec("Given")
# a status and a body, and the rows of the tables of a store
Reply = tuple[int, bytes]
Tables = dict[str, list[tuple[int, ...]]]


class Wrong(Exception):
    """What the program does otherwise."""


def want(holds: bool, label: str, what: object) -> None:
    if not holds:
        raise Wrong(f"{label}: {what}")


# ---- a server


def rows_of_sockets() -> list[list[str]]:
    with open("/proc/net/tcp", encoding="ascii") as table:
        return [it.split() for it in table.readlines()[1:]]


def free_port() -> int:
    """A port that nobody has, below those from which clients get theirs; no two calls give the same one. It is looked up and not tried, since a socket bound for
    that would stay with each program that another thread is just starting."""
    taken = {row[1].split(":")[1] for row in rows_of_sockets()}
    return next(port for port in PORTS if f"{port:04X}" not in taken)


def listeners(port: int) -> set[str]:
    """The addresses at which somebody listens on a port."""
    return {row[1].split(":")[0] for row in rows_of_sockets() if row[3] == LISTENS and row[1].endswith(f":{port:04X}")}


class Server:
    """The program serving: so many connections of each of so many workers, from a bundle or from what a store keeps."""

    def __init__(self, program: str, room: str, label: str, conns: int, workers: int = 1, start: str = "new", store: str = "memory", bundle: bytes = b"") -> None:
        self.label, self.total = label, conns * workers
        # somebody else may have taken a port since it was looked up
        for _ in range(3):
            found = self.begun([program, "serve", str(conns), str(workers), start], store, room, bundle)
            if found or self.child.poll() != NO_PORT[2]:
                break
        if found != {LOOPBACK}:
            why = f"it listens at {sorted(found)}" if found else f"it does not listen, and ended with {self.stop()}"
            raise Wrong(f"{label}: {why}")

    def begun(self, words: list[str], store: str, room: str, bundle: bytes) -> set[str]:
        """Begins the program at a free port, and gives the addresses at which somebody listens there once it does, or has ended."""
        self.port = free_port()
        self.child = subprocess.Popen([*words, str(self.port), store], cwd=room, stdin=subprocess.PIPE, stdout=subprocess.PIPE, stderr=subprocess.PIPE)
        assert self.child.stdin
        with contextlib.suppress(BrokenPipeError):
            self.child.stdin.write(bundle)
            self.child.stdin.close()
        self.child.stdin = None
        until = time.monotonic() + SECONDS
        while not listeners(self.port) and self.child.poll() is None and time.monotonic() < until:
            time.sleep(0.005)
        return listeners(self.port) if self.child.poll() is None else set()

    def connected(self) -> socket.socket:
        link = socket.create_connection(("127.0.0.1", self.port), timeout=SECONDS)
        link.setsockopt(socket.IPPROTO_TCP, socket.TCP_NODELAY, 1)
        return link

    def talk(self, pieces: Iterable[bytes]) -> bytes:
        """What comes back over one connection on which these pieces are written, until it is ended from the other side, and then no more."""
        with self.connected() as link:
            with contextlib.suppress(BrokenPipeError, ConnectionResetError):
                for piece in pieces:
                    link.sendall(piece)
            with contextlib.suppress(OSError):
                link.shutdown(socket.SHUT_WR)
            return rest_of(link)

    def ended(self) -> tuple[str, str, int]:
        """What was written, and the status, once it has ended by itself."""
        try:
            wrote, said = self.child.communicate(timeout=SECONDS)
        except subprocess.TimeoutExpired:
            self.stop()
            raise Wrong(f"{self.label}: it goes on after its last connection") from None
        return wrote.decode(errors="replace"), said.decode(errors="replace"), self.child.returncode

    def used_up(self) -> None:
        """Takes all connections that are left, each by a client that says nothing."""
        until = time.monotonic() + SECONDS
        while self.child.poll() is None and time.monotonic() < until:
            with contextlib.suppress(OSError):
                self.talk([])

    def stop(self) -> int:
        self.child.kill()
        self.child.communicate()
        return self.child.returncode

    def __enter__(self) -> "Server":
        return self

    def __exit__(self, *_: object) -> None:
        if self.child.poll() is None:
            self.stop()


def rest_of(link: socket.socket) -> bytes:
    """All bytes that still come over a connection."""
    found = b""
    with contextlib.suppress(ConnectionResetError):
        while piece := link.recv(1 << 16):
            found += piece
    return found


def read_reply(link: socket.socket, held: bytes = b"") -> tuple[int, bytes, bool, bytes]:
    """The next reply on a connection as status, body and whether it closes, with what came after it."""
    while b"\r\n\r\n" not in held:
        piece = link.recv(1 << 16)
        if not piece:
            raise EOFError(*[held] if held else [])
        held += piece
    head, _, held = held.partition(b"\r\n\r\n")
    lines = head.decode().split("\r\n")
    length = next(int(it.split(": ")[1]) for it in lines if it.startswith("Content-Length: "))
    while len(held) < length:
        piece = link.recv(1 << 16)
        if not piece:
            raise EOFError(head)
        held += piece
    return int(lines[0].split()[1]), held[:length], "Connection: close" in lines, held[length:]


def trial(tried: Callable[Concatenate[str, Given], None]) -> Callable[Given, Optional[str]]:
    """A trial in a folder of its own, which gives its fault or None."""

    @functools.wraps(tried)
    def gives(*given: Given.args, **more: Given.kwargs) -> Optional[str]:
        with tempfile.TemporaryDirectory(prefix="served-", dir=ROOMS) as room:
            try:
                tried(room, *given, **more)
            except Wrong as why:
                return str(why)
            except (OSError, EOFError) as why:
                return f"{tried.__name__}: {type(why).__name__} {why}"
        return None

    return gives


def same(label: str, came: bytes, wanted: bytes) -> None:
    if came != wanted:
        at = next((at for at, (one, other) in enumerate(zip(came, wanted)) if one != other), min(len(came), len(wanted)))
        raise Wrong(f"{label}: from byte {at} on {came[at : at + 60]!r} comes, and not {wanted[at : at + 60]!r}")


def ends_well(server: Server, office: Office, label: str) -> None:
    """The last lines say how far the office is and how much it accepted. Standard error said once where it listened."""
    wrote, said, status = server.ended()
    entries = len(office.answers) + len(office.raises) + office.cuts
    told = f"state window {office.cuts} rounds {office.season.rounds} published {len(office.rounds)}\nentries {entries}\n"
    want((wrote, status) == (told, 0), label, f"it ended with status {status} and wrote {wrote!r:.100}, and not {told!r}")
    want(said.count("\n") == 1 and f"127.0.0.1:{server.port}" in said, label, f"standard error is {said!r:.100}, and not one line that says where it listens")


def kept_rows(store: str) -> Tables:
    connection = sqlite3.connect(store)
    try:
        return {name: connection.execute(f"SELECT * FROM {name} ORDER BY 1, 2").fetchall() for name in TABLES}
    finally:
        connection.close()


# ---- scripts


def batches(items: list[bytes]) -> list[list[bytes]]:
    return [items[at : at + MOST_MESSAGES] for at in range(0, len(items), MOST_MESSAGES)]


class Script:
    """A season with requests, their messages, and the plain office's replies."""

    def __init__(self, label: str, text: str, rows: list[str]) -> None:
        self.label, self.text, self.rows = label, text, rows
        self.season = Season(text)
        self.office = Office(self.season)
        self.asks = [asked(self.season, it) for it in rows]
        self.messages = [message(*it) for it in self.asks]
        self.replies = [replied(it, self.office.reply(it)) for it in rows]

    def told(self, first: int = 0, last: Optional[int] = None) -> bytes:
        """The bytes of the replies of one connection."""
        found = self.replies[first:last]
        return b"".join(reply_bytes(*it, closes=at == MOST_MESSAGES) for at, it in enumerate(found, 1))

    def not_described(self) -> Optional[str]:
        return next((why for (method, path, *_), reply in zip(self.asks, self.replies) for why in [openapi.fault_of(method, path, *reply)] if why), None)


@trial
def scripted(room: str, program: str, script: Script, cuts: Optional[int], store: str) -> None:
    """A script, each of its messages on a connection after a hundred others, in pieces of so many bytes."""
    want(script.not_described() is None, script.label, script.not_described())
    parts = batches(script.messages)
    with Server(program, room, script.label, len(parts), store=store, bundle=script.text.encode()) as server:
        for number, part in enumerate(parts):
            given = b"".join(part)
            pieces = [given[at : at + cuts] for at in range(0, len(given), cuts)] if cuts else [given]
            same(script.label, server.talk(pieces), script.told(number * MOST_MESSAGES, (number + 1) * MOST_MESSAGES))
        ends_well(server, script.office, script.label)
    if store != "memory" and READS_STORES:
        want(kept_rows(f"{room}/{store}") == script.office.rows(), script.label, "the store has other rows than the plain office accepted")


def worked_scripts(found: Iterable[Case]) -> list[Script]:
    """The scripts that run well in the cases, once each."""
    seen: dict[tuple[str, str], str] = {}
    for case in found:
        for call in (it for it in case.steps if not isinstance(it, str)):
            text, begin, script = b"".join(call.source).decode(errors="replace").partition("[requests]\n")
            if call.words[:1] == ["run"] and call.status == 0 and begin and not case.is_large():
                seen.setdefault((text, script), case.label)
    return [Script(label, text, [it for it in script.split("\n") if it]) for (text, script), label in seen.items()]


# ---- messages at their limits


def get(*fields: str, target: str = "/v1/state", version: str = "1.1", end: str = "\r\n") -> bytes:
    return end.join([f"GET {target} HTTP/{version}", *fields, "", ""]).encode()


def post(route: str, body: bytes, *fields: str) -> bytes:
    return "\r\n".join([f"POST /v1/{route} HTTP/1.1", *fields, "", ""]).encode() + body


def padded(length: int) -> bytes:
    """A message whose head has so many bytes."""
    plain = len(get("X: "))
    return get(f"X: {'x' * (length - plain)}")


CLERK, SECOND = "X-Office-Token: clerk0001", "X-Office-Token: tok00002"
LEAVE = b'{"cand":2,"window":0,"turn":1,"choice":"withdraw"}'
STATE = reply_bytes(200, b'{"now":0,"published":0,"reply":"state","rounds":2}')
STATE_CLOSED = reply_bytes(200, b'{"now":0,"published":0,"reply":"state","rounds":2}', closes=True)
LEFT = reply_bytes(200, b'{"cand":2,"choice":"withdraw","reply":"noted","turn":1,"window":0}')
LEFT_LATER = LEFT.replace(b'"window":0', b'"window":1')
CUTS = [
    reply_bytes(200, b'{"reply":"published","round":1,"seated":4}'),
    reply_bytes(200, b'{"reply":"published","round":2,"seated":1}'),
    reply_bytes(200, b'{"admitted":0,"reply":"final"}'),
]
DENIED = reply_bytes(403, b'{"name":"Denied","refused":3,"reply":"refused","rule":1}')
NOT_ASKED = reply_bytes(403, b'{"name":"Denied","refused":3,"reply":"refused","rule":3}')
BAD, NONE, BAD_CLOSED = reply_bytes(400), reply_bytes(404), reply_bytes(400, closes=True)


def length(count: Union[int, str]) -> str:
    return f"Content-Length: {count}"


def as_answer(body: bytes) -> bytes:
    return post("answer", body, SECOND, length(len(body)))


def as_cut(window: int) -> bytes:
    return post("cut", b'{"window":%d}' % window, CLERK, length(12))


def as_round(number: int, *lines: str) -> bytes:
    return reply_bytes(200, b'{"reply":"round","round":%d,"text":"%s"}' % (number, "".join(f"{it}\\n" for it in lines).encode()))


def as_choices(cand: int, *codes: str) -> bytes:
    return reply_bytes(200, b'{"cand":%d,"programmes":[%s],"reply":"choices"}' % (cand, ",".join(f'"{it}"' for it in codes).encode()))


def as_entry(cand: int) -> bytes:
    return reply_bytes(200, b'{"cand":%d,"category":"GEN","places":["%d",null,null,null],"reply":"register","traits":"-"}' % (cand, cand))


def as_answers(cand: int, *answers: tuple[int, int, str]) -> bytes:
    told = ",".join(f'{{"choice":"{choice}","turn":{turn},"window":{window}}}' for window, turn, choice in answers)
    return reply_bytes(200, b'{"answers":[%s],"cand":%d,"reply":"answers"}' % (told.encode(), cand))


def as_cutoffs(number: int, code: str, *lines: str) -> bytes:
    text = "".join(f"{it}\\n" for it in (f"cutoffs {number} {code}", *lines, "end cutoffs"))
    return reply_bytes(200, b'{"programme":"%s","reply":"cutoffs","round":%d,"text":"%s"}' % (code.encode(), number, text.encode()))


def not_published(count: int) -> bytes:
    return reply_bytes(404, b'{"name":"NoSuchRound","published":%d,"refused":14,"reply":"refused"}' % count)


FIRST = as_round(1, "round 1 seated 4", "allot 1 A OPEN", "allot 2 B OPEN", "allot 3 C OPEN", "allot 4 E OPEN", "end round")
NO_PAGES: tuple[str, ...] = ("nothing", "state/", "seat/0", "seat/01", "seat/+1", "seat/1000000000", "why/1", "list/65536/A", "list/1/A.B")
NO_PAGES += ("round", "round/", "round/01", "round/65536", "round/1/A", "rounds/1", "choices/0", "choices/02", "choices/1000000000", "choices/2/A")
NO_PAGES += ("cutoffs/1", "cutoffs/01/A", "cutoffs/65536/A", "cutoffs/1/A/", "cutoff/1/A", "register/0", "register/2/A", "answers/0", "answers/1000000000")

# what is sent over one connection to the season of five candidates, and what comes back
EXCHANGES = {
    "no byte": (b"", b""),
    "an end inside a head": (get()[:-1], b""),
    "an end inside a body": (post("answer", LEAVE[:-1], SECOND, length(len(LEAVE))), b""),
    "lines of a head that end with LF alone, after empty lines": (b"\r\n\n" + get(end="\n") + get(), STATE * 2),
    "an empty line after the last message": (get() + b"\r\n", STATE),
    "a question": (get(target="/v1/state?x=1") + get(target="/v1/state?"), STATE * 2),
    "a connection that is asked to end": (get("Connection: keep-alive, Close") + get(), STATE_CLOSED),
    "one that is asked to end in a second field": (get("Connection: x", "connection: close") + get(), STATE_CLOSED),
    "an older version": (get(version="1.0") + get(), STATE_CLOSED),
    "a head of 8,192 bytes": (padded(8192) + get(), STATE * 2),
    "a head of 8,193 bytes": (padded(8193) + get(), reply_bytes(431, closes=True)),
    "empty lines of 8,192 bytes": (b"\r\n" * 4096 + get(), reply_bytes(431, closes=True)),
    "64 fields": (get(*[f"X{at}: x" for at in range(64)]), STATE),
    "65 fields": (get(*[f"X{at}: x" for at in range(65)]) + get(), BAD_CLOSED),
    "no HTTP": (b"hello\r\n\r\n" + get(), BAD_CLOSED),
    "a transfer coding": (post("answer", b"", SECOND, "transfer-encoding: chunked", length("x")) + get(), reply_bytes(501, closes=True)),
    "no length": (post("cut", b"", CLERK) + get(), reply_bytes(411, closes=True)),
    "a length of 18 digits, then of 19": (
        post("answer", LEAVE, SECOND, length(f"{len(LEAVE):018}")) + post("answer", LEAVE, SECOND, length(f"{len(LEAVE):019}")),
        LEFT + BAD_CLOSED,
    ),
    "two lengths that are equal, then two that are not": (
        post("answer", LEAVE, SECOND, length(50), length("050")) + post("answer", LEAVE, SECOND, length(50), length(51)),
        LEFT + BAD_CLOSED,
    ),
    "lengths that are no digits": (get(length("+1")), BAD_CLOSED),
    "a body of 4,096 bytes, then of 4,097": (
        as_answer(LEAVE + b" " * (4096 - len(LEAVE))) + as_answer(LEAVE + b" " * (4097 - len(LEAVE))),
        LEFT + reply_bytes(413, closes=True),
    ),
    "a body of a page that is read": (get(length(3)) + b"abc" + get(), STATE * 2),
    "a long body of a page that is read": (get(length(4097)) + get(), reply_bytes(413, closes=True)),
    "no page": (b"".join(get(target=f"/v1/{it}") for it in NO_PAGES), NONE * len(NO_PAGES)),
    "no page, nor a path": (get(target="http://127.0.0.1/v1/state") + get(target="/v1/%73tate") + get(target="*"), NONE * 3),
    "another method": (
        get(target="/v1/cut") + b"".join(post(it, b"{}", length(2)) for it in ("state", "round/1", "choices/2", "cutoffs/1/A", "register/2", "answers/2")) + get().replace(b"GET", b"HEAD") + get().replace(b"GET", b"get"),
        reply_bytes(405, allow="POST") + reply_bytes(405, allow="GET") * 8,
    ),
    "rounds before the first cut and after it": (
        get(target="/v1/round/0") + get(target="/v1/round/1") + as_cut(0) + get(target="/v1/round/1") + get(SECOND, target="/v1/round/1?x=2") + get(target="/v1/round/2"),
        not_published(0) * 2 + CUTS[0] + FIRST * 2 + not_published(1),
    ),
    "rounds and the final admissions after the last cut": (
        b"".join(map(as_cut, range(3))) + b"".join(get(target=f"/v1/round/{it}") for it in (1, 2, 3, 4, 65535)),
        b"".join(CUTS) + FIRST + as_round(2, "round 2 seated 1", "allot 5 E OPEN", "end round") + as_round(3, "final 0", "end final") + not_published(2) * 2,
    ),
    "choice lists, by the candidate, the clerk, another one and nobody": (
        get(SECOND, target="/v1/choices/2") + get(CLERK, target="/v1/choices/3") + get(SECOND, target="/v1/choices/3") + get(target="/v1/choices/2") + get(CLERK, target="/v1/choices/9"),
        as_choices(2, "A", "B") + as_choices(3, "B", "C") + NOT_ASKED * 2 + reply_bytes(404, b'{"name":"UnknownCandidate","refused":1,"reply":"refused"}'),
    ),
    "entries of the register and answers, by the candidate, the clerk, another one and nobody": (
        get(SECOND, target="/v1/register/2") + get(CLERK, target="/v1/register/3?x") + get(SECOND, target="/v1/register/3") + get(SECOND, target="/v1/answers/2") + as_cut(0)
        + as_answer(LEAVE.replace(b'"window":0', b'"window":1')) + get(SECOND, target="/v1/answers/2") + get(CLERK, target="/v1/answers/3") + get(target="/v1/answers/2"),
        as_entry(2) + as_entry(3) + NOT_ASKED + as_answers(2) + CUTS[0] + LEFT_LATER + as_answers(2, (1, 1, "withdraw")) + as_answers(3) + NOT_ASKED,
    ),
    "cutoffs before the first cut and after it": (
        get(target="/v1/cutoffs/1/A") + as_cut(0) + get(target="/v1/cutoffs/1/A") + get(SECOND, target="/v1/cutoffs/1/C?x=2") + get(target="/v1/cutoffs/2/A") + get(target="/v1/cutoffs/1/Z"),
        not_published(0) + CUTS[0] + as_cutoffs(1, "A", "OPEN - 1") + as_cutoffs(1, "C", "OPEN - 3") + not_published(1) + reply_bytes(404, b'{"name":"UnknownProgramme","refused":2,"reply":"refused"}'),
    ),
    "another method, and the end": (get("Connection: close", target="/v1/cut"), reply_bytes(405, allow="POST", closes=True)),
    "bodies that are not what the page needs": (
        b"".join(as_answer(it) for it in (b"", b"{}", b"[]", b"x", LEAVE[:-1], LEAVE + b"x", LEAVE.replace(b":1,", b":1.0,"), LEAVE.replace(b":1,", b":0,"), LEAVE.replace(b":2", b":-2"), LEAVE.replace(b"withdraw", b"Withdraw"))),
        BAD * 10,
    ),
    "seats of a raise": (
        b"".join(post("raise", it, CLERK, length(len(it))) for it in (b'{"window":0,"programme":"A","step":"%s","seats":%s}' % one for one in ((b"OPEN", b"0"), (b"OPEN", b"4001"), (b"D", b"2"), (b"OPEN", b'"2"')))),
        BAD * 4,
    ),
    "other members, other spellings, no type": (as_answer(b' { "choice" : "withdraw", "x": [1.5, null], "turn":1, "window":0, "cand":2 } '), LEFT),
    "no token, another one, and the second of two": (
        post("answer", LEAVE, length(50)) + post("answer", LEAVE, "X-Office-Token: tok00003", length(50)) + post("answer", LEAVE, "x-office-token: no", SECOND, length(50)),
        DENIED * 3,
    ),
    "a token with blanks round it, and its name in small letters": (post("answer", LEAVE, "x-office-token: \t tok00002 ", length(50)), LEFT),
    "a hundred and one messages": (get() * 101, STATE * 99 + STATE_CLOSED),
    "a hundred messages": (get() * 100, STATE * 99 + STATE_CLOSED),
}


@trial
def exchanges(room: str, program: str, bundle: bytes, cuts: Optional[int]) -> None:
    """Each exchange on a server of its own: the bytes at once, or in pieces of so many."""
    for label, (given, told) in EXCHANGES.items():
        label = f"{label}, in pieces of {cuts or 'all'} bytes"
        with Server(program, room, label, 1, bundle=bundle) as server:
            same(label, server.talk([given[at : at + (cuts or len(given))] for at in range(0, len(given), cuts or len(given) or 1)]), told)
            wrote, _, status = server.ended()
            entries = sum(it in told for it in (LEFT, LEFT_LATER, *CUTS))
            want(status == 0 and wrote.endswith(f"entries {entries}\n"), label, f"it ended with status {status} and wrote {wrote!r}")


@trial
def raw_exchanges(room: str, program: str, bundle: bytes, cuts: Optional[int]) -> None:
    """Each raw message on a connection of its own, at once or in pieces of so many bytes: its replies, and what follows it. Nothing of all this is accepted: at last the
    cut that was hidden in many of them is the first one."""
    label = f"raw messages, in pieces of {cuts or 'all'} bytes"
    found = raw_messages.messages()
    office = Office(Season(bundle.decode()))
    with Server(program, room, label, len(found) + 1, bundle=bundle) as server:
        for it in found:
            given, told = it.exchange()
            same(f"{label}: {it.label}", server.talk([given[at : at + (cuts or len(given))] for at in range(0, len(given), cuts or len(given) or 1)]), told)
        same(f"{label}: the hidden cut by itself", server.talk([raw_messages.SMUGGLED]), CUTS[0])
        office.reply("cut,clerk,0")
        ends_well(server, office, label)


@trial
def torn(room: str, program: str, bundle: bytes) -> None:
    """Each beginning of a message gets no reply, and the next connection is served."""
    given = as_answer(LEAVE)
    with Server(program, room, "torn messages", len(given) + 1, bundle=bundle) as server:
        for at in range(len(given)):
            same(f"the first {at} bytes of a message", server.talk([given[:at]]), b"")
        same("the message after all its beginnings", server.talk([given]), LEFT)
        wrote, _, status = server.ended()
        want(status == 0 and wrote.endswith("entries 1\n"), "torn messages", f"it ended with status {status} and wrote {wrote!r}")


# ---- clients side by side


class Client(threading.Thread):
    """A client with one request after another, some to a connection. What it asks next may depend on how far it knows the office to be."""

    def __init__(self, server: Server, season: Season, draw: random.Random, next_row: Callable[["Client"], Optional[str]]) -> None:
        super().__init__(daemon=True)
        self.server, self.season, self.draw, self.next_row = server, season, draw, next_row
        self.came: list[tuple[str, Reply]] = []
        self.fault: Optional[str] = None
        self.now = 0

    def run(self) -> None:
        try:
            row = self.next_row(self)
            while row:
                with self.server.connected() as link:
                    row = self.over(link, row, self.draw.randint(1, 5))
        except (OSError, EOFError) as why:
            self.fault = f"{type(why).__name__} {why}"

    def over(self, link: socket.socket, row: str, count: int) -> Optional[str]:
        """So many requests over one connection, from this one on; the next one after them."""
        held = b""
        sent: Optional[float] = None
        for _ in range(count):
            before, sent = sent, time.monotonic()
            try:
                link.sendall(message(*asked(self.season, row)))
                status, body, closes, held = read_reply(link, held)
            except (EOFError, BrokenPipeError, ConnectionResetError) as why:
                # a kept connection that is silent for too long is closed before the next message is read: that one comes again over a new connection
                if before is None or time.monotonic() - before < BETWEEN or isinstance(why, EOFError) and why.args:
                    raise
                return row
            self.came.append((row, (status, body)))
            following = self.next_row(self)
            if not following or closes:
                return following
            row = following
        return row


class Crowd:
    """The clients of a season: its candidates, its clerk, and others who only look."""

    def __init__(self, server: Server, season: Season, seed: int, count: int) -> None:
        self.season, self.over = season, threading.Event()
        self.clients: list[Client] = []
        self.choices = season.choices
        for number in range(count - 1):
            draw = random.Random(seed * 100 + number)
            people = season.people
            row: Callable[[Client], Optional[str]] = self.of_anybody
            if number < len(people):
                row = functools.partial(self.of_candidate, people[number])
            self.clients.append(Client(server, season, draw, row))
        self.clerk = Client(server, season, random.Random(seed * 100 + 99), self.of_clerk)
        self.clerk_rows = iter(self.rows_of_clerk())
        self.left: collections.Counter[Client] = collections.Counter()

    def goes_on(self, client: Client) -> bool:
        """Until the clerk is done, and some requests more; the state was asked if the client does not know how far the office is."""
        if self.over.is_set():
            self.left[client] += 1
        if client.came:
            status, body = client.came[-1][1]
            told = json.loads(body)
            client.now = told.get("now", client.now)
        return self.left[client] < 5 and len(client.came) < 2000

    def of_candidate(self, person: Person, client: Client) -> Optional[str]:
        if not self.goes_on(client):
            return None
        cand, draw = person.id, client.draw
        own = [it for row, (status, _) in client.came for it in [row.split(",")] if it[0] == "answer" and status == 200 and int(it[3]) == client.now]
        turn = max((int(it[4]) for it in own), default=0) + 1
        answer = f"answer,{cand},{cand},{client.now},{turn},{draw.choice(('float', 'float', 'slide', 'freeze', 'withdraw') if draw.random() < 0.2 else ('float', 'slide'))}"
        code = draw.choice(sorted(self.season.programmes))
        return draw.choice([answer, answer, f"seat,{cand},{cand}", f"choices,{cand},{cand}", f"why,{cand},{cand},{code}", "state,nobody"])

    def of_anybody(self, client: Client) -> Optional[str]:
        if not self.goes_on(client):
            return None
        code = client.draw.choice(sorted(self.season.programmes))
        number = client.draw.randint(0, self.season.rounds + 2)
        return client.draw.choice(["state,nobody", f"round,nobody,{number}", f"list,nobody,{number},{code}"])

    def rows_of_clerk(self) -> Iterator[str]:
        """All cuts, with raises and repeated cuts between them, each window open until the others asked some more."""
        draw = self.clerk.draw
        for window in range(self.season.rounds + 1):
            self.wait_for(40)
            for code in sorted(self.season.programmes):
                if draw.random() < 0.3:
                    yield f"raise,clerk,{window},{code},OPEN,{draw.randint(1, 3)}"
            yield f"cut,clerk,{window}"
            yield f"cut,clerk,{max(window - draw.randint(0, 1), 0)}"
        self.over.set()

    def wait_for(self, more: int) -> None:
        before, until = sum(len(it.came) for it in self.clients), time.monotonic() + 5
        while sum(len(it.came) for it in self.clients) < before + more and time.monotonic() < until:
            time.sleep(0.001)

    def of_clerk(self, _: Client) -> Optional[str]:
        return next(self.clerk_rows, None)

    def served(self) -> list[Client]:
        everybody = [*self.clients, self.clerk]
        for it in everybody:
            it.start()
        for it in everybody:
            it.join(SECONDS)
            want(not it.is_alive(), "clients side by side", "a client waits for its reply")
            want(it.fault is None, "clients side by side", it.fault)
        return everybody


class History:
    """The one history that the rows of a store are, as the plain office accepts it, and the office after each of its cuts."""

    def __init__(self, season: Season, rows: Tables) -> None:
        self.season = season
        self.offices: list[Office] = []
        codes, steps, choices = list(season.programmes), ("OPEN", "EWS", "OBC", "SC", "ST", "D"), ("freeze", "float", "slide", "withdraw")
        office = Office(season)
        for window in range(rows["phase"][0][1] + 1):
            self.offices.append(forked(office))
            script = [f"raise,clerk,{w},{codes[prog]},{steps[step]},{seats}" for _, w, prog, step, seats in rows["lift"] if w == window]
            script += [f"answer,{c},{c},{w},{turn},{choices[choice]}" for _, w, c, turn, choice in rows["answer"] if w == window]
            script += [f"cut,clerk,{window}"] if window < rows["phase"][0][1] else []
            for row in script:
                before = count_of(office)
                reply = office.reply(row)
                want(count_of(office) == before + 1, "clients side by side", f"the kept row {row} is not newly accepted at its place: {reply!r:.60}")
        self.last = office
        want(office.rows() == rows, "clients side by side", "the kept rows are not those of the history")

    def replies(self, row: str, cuts: int, own: list[str]) -> tuple[str, int]:
        """The reply to a row at so many cuts, of one who knows of these accepted rows of the open window, and how many cuts there are after it."""
        word, by, *fields = row.split(",")
        if word == "cut" and by == "clerk" and int(fields[0]) == cuts and cuts + 1 < len(self.offices):
            return forked(self.offices[cuts + 1]).reply(row), cuts + 1
        office = forked(self.offices[cuts])
        for it in own:
            office.reply(it)
        return office.reply(row), cuts

    def holds(self, came: list[tuple[str, Reply]]) -> None:
        """The replies of one client in their order, each at a place of the history not before that of the last one."""
        cuts = 0
        own: list[str] = []
        for row, reply in came:
            for at in range(cuts, len(self.offices)):
                text, after = self.replies(row, at, own if at == cuts else [])
                if replied(row, text) == reply:
                    own = (own if after == cuts else []) + ([row] if row.split(",")[0] in ("answer", "raise") and reply[0] == 200 else [])
                    cuts = after
                    break
            else:
                raise Wrong(f"clients side by side: at no place of the history, from cut {cuts} on, {row} is replied by {reply}")


def count_of(office: Office) -> int:
    return len(office.answers) + len(office.raises) + office.cuts


def forked(office: Office) -> Office:
    made = Office(office.season)
    made.answers, made.raises, made.cuts, made.rounds = [*office.answers], [*office.raises], office.cuts, [*office.rounds]
    return made


@trial
def side_by_side(room: str, program: str, text: str, seed: int, workers: int, count: int) -> None:
    """So many workers and clients at once: afterwards the file's rows are one history, which has what each client was told, each once and in its order."""
    if not READS_STORES:
        return
    season = Season(text)
    label = f"{workers} workers and {count} clients"
    with Server(program, room, label, 100_000, workers, store="season.db", bundle=text.encode()) as server:
        everybody = Crowd(server, season, seed, count).served()
        # it ends with its connections alone, so it is stopped; what was answered is kept
        server.child.send_signal(signal.SIGKILL)
        server.child.communicate()
    kept = kept_rows(f"{room}/season.db")
    history = History(season, kept)
    for client in everybody:
        history.holds(client.came)
    noted = sorted({row for it in everybody for row, (status, _) in it.came if status == 200 and row.split(",")[0] in ("answer", "raise")})
    stand = len(kept["answer"]) + len(kept["lift"])
    want(len(noted) == stand, label, f"{len(noted)} answers and raises had a reply that accepts them, and {stand} are kept")
    want(kept["phase"] == [(1, season.rounds + 1)], label, "not all windows are cut")


# ---- a server that is killed


@trial
def killed(room: str, program: str, script: Script, at: int, delay: float) -> None:
    """It is killed while request `at` is under way, and taken up again with what its store keeps: nothing that was answered is lost, and the season goes on. What was
    accepted or only read is asked again: it changes nothing, and what was accepted gives its receipt."""
    label = f"{script.label}, killed at request {at}"
    with Server(program, room, label, 1, store="season.db", bundle=script.text.encode()) as server:
        with server.connected() as link:
            link.sendall(get())
            *_, held = read_reply(link)
            for one, reply in zip(script.messages[:at], script.replies):
                link.sendall(one)
                *came, _, held = read_reply(link, held)
                want(tuple(came) == reply, label, f"{came} comes, and not {reply}")
            link.sendall(script.messages[at])
            time.sleep(delay)
            server.stop()
    office = Office(script.season)
    for row in script.rows[: at + 1]:
        office.reply(row)
    done = [it for it in range(at) if script.replies[it][0] == 200]
    told = [script.replies[at], *(replied(script.rows[it], forked(office).reply(script.rows[it])) for it in done)]
    with Server(program, room, label, 2, start="kept", store="season.db") as server:
        given = b"".join(script.messages[it] for it in (at, *done))
        same(f"{label}, and asked again", server.talk([given]), b"".join(reply_bytes(*it) for it in told))
        same(f"{label}, and going on", server.talk([b"".join(script.messages[at + 1 :])]), script.told(at + 1))
        ends_well(server, script.office, label)
    want(not READS_STORES or kept_rows(f"{room}/season.db") == script.office.rows(), label, "the store has other rows than the plain office accepted")


# ---- clients that go away


@trial
def gone(room: str, program: str, bundle: bytes) -> None:
    """Clients that go away, in the middle of a request, of many, or before a reply, and one that takes no reply: the next ones are served."""
    label = "clients that go away"
    with Server(program, room, label, 5, bundle=bundle) as server:
        for given in (b"", get()[:-3], get() * 50, as_answer(LEAVE)):
            with server.connected() as link:
                link.setsockopt(socket.SOL_SOCKET, socket.SO_LINGER, struct.pack("ii", 1, 0))
                link.sendall(given)
        reply = server.talk([post("answer", LEAVE, SECOND, length(len(LEAVE)))])
        same(label, reply, LEFT)
        wrote, _, status = server.ended()
        want(status == 0 and wrote.endswith("entries 1\n"), label, f"it ended with status {status} and wrote {wrote!r}")


@trial
def silent(room: str, program: str, bundle: bytes) -> None:
    """A client that says no more in the middle of a message fails its own connection, and the one after it is served."""
    label = "a silent client"
    with Server(program, room, label, 2, bundle=bundle) as server:
        begun = time.monotonic()
        with server.connected() as link:
            link.sendall(get()[:-3])
            same(label, server.talk([get()]), STATE)
            waited = time.monotonic() - begun
            want(PATIENCE - 5 <= waited <= PATIENCE + 15, label, f"it was waited for {waited:.0f} seconds")
            same(label, rest_of(link), b"")
        wrote, _, status = server.ended()
        want(status == 0 and wrote.endswith("entries 0\n"), label, f"it ended with status {status} and wrote {wrote!r}")


@trial
def kept_silent(room: str, program: str, bundle: bytes) -> None:
    """A connection that was answered and says no more is given up after some 2 seconds, and its worker serves the next one."""
    label = "a silent kept connection"
    with Server(program, room, label, 2, bundle=bundle) as server:
        with server.connected() as link:
            link.sendall(get())
            read_reply(link)
            begun = time.monotonic()
            same(label, rest_of(link), b"")
            waited = time.monotonic() - begun
            want(BETWEEN - 1 <= waited <= BETWEEN + 6, label, f"it was waited for {waited:.1f} seconds")
        same(label, server.talk([get()]), STATE)
        want(server.ended()[2] == 0, label, "it did not end well")


@trial
def slow(room: str, program: str, bundle: bytes) -> None:
    """A message takes a minute at most, however its bytes come: a client that sends one every 5 seconds loses its connection."""
    label = "a slow message"
    with Server(program, room, label, 2, bundle=bundle) as server:
        begun = time.monotonic()
        with server.connected() as link, contextlib.suppress(OSError):
            for byte in get():
                link.sendall(bytes([byte]))
                link.settimeout(5)
                with contextlib.suppress(TimeoutError):
                    same(label, rest_of(link), b"")
                    break
        waited = time.monotonic() - begun
        want(WHOLE - 5 <= waited <= WHOLE + 15, label, f"it was taken for {waited:.0f} seconds")
        same(label, server.talk([get()]), STATE)


@trial
def refused_early(room: str, program: str, bundle: bytes) -> None:
    """A message that is refused by its head, while its body still comes, has its reply whole."""
    label = "a body that is refused while it comes"
    body = b"x" * (1 << 20)
    with Server(program, room, label, 1, bundle=bundle) as server, server.connected() as link:
        with contextlib.suppress(BrokenPipeError, ConnectionResetError):
            link.sendall(b"POST /v1/answer HTTP/1.1\r\nHost: x\r\nContent-Length: %d\r\n\r\n" % len(body) + body)
        want(rest_of(link).startswith(b"HTTP/1.1 413 "), label, "its reply does not come whole")


@trial
def short_of_descriptors(room: str, program: str, bundle: bytes) -> None:
    """Where the system has no descriptor for a connection, it is taken later, and one line on standard error says so."""
    label = "no descriptor is left"
    with Server(program, room, label, 2, bundle=bundle) as server:
        most = resource.prlimit(server.child.pid, resource.RLIMIT_NOFILE)[1]
        held = {int(it) for it in os.listdir(f"/proc/{server.child.pid}/fd")}
        next_free = next(it for it in itertools.count() if it not in held)
        resource.prlimit(server.child.pid, resource.RLIMIT_NOFILE, (next_free, most))
        # the worker already waits for this one, and the system took a descriptor for it before
        same(label, server.talk([get()]), STATE)
        with server.connected() as link:
            link.sendall(get("Connection: close"))
            time.sleep(1)
            resource.prlimit(server.child.pid, resource.RLIMIT_NOFILE, (most, most))
            want(rest_of(link).startswith(b"HTTP/1.1 200 "), label, "the connection is not answered later")
        _, said, status = server.ended()
        want(status == 0 and said.count("cannot accept a connection") == 1, label, f"it ended with status {status}, and standard error has {said!r}")


# ---- how it ends


def ended(program: str, room: str, words: list[str], **how: Any) -> tuple[bytes, bytes, int]:
    ran = subprocess.run([program, *words], cwd=room, capture_output=True, timeout=SECONDS, **how)
    return ran.stdout, ran.stderr, ran.returncode


@trial
def port_taken(room: str, program: str, bundle: bytes) -> None:
    """A port that somebody has: nothing is read, nothing is written, and the store has no season."""
    with socket.socket() as it:
        it.bind(("127.0.0.1", 0))
        it.listen()
        port = str(it.getsockname()[1])
        for store in ("memory", "season.db"):
            came = ended(program, room, ["serve", "1", "1", "new", port, store], input=bundle)
            want(came == NO_PORT, "a port that is taken", f"{came} comes, and not {NO_PORT}")
    came = ended(program, room, ["resume", "season.db"], input=b"")
    want(came == (b"fault: keeper holds no season\n", b"", 3), "a store after a port that is taken", f"{came} comes")


@trial
def no_season(room: str, program: str, bundle: bytes) -> None:
    """What ends a server before its first connection: faults of the bundle and of the store, an input that is closed, a store that cannot be opened."""
    requests = bundle + b"[requests]\nstate,nobody\n"
    ended(program, room, ["run", "held.db"], input=requests)
    ended(program, room, ["resume", "empty.db"], input=b"")
    line = bundle.count(b"\n") + 1
    trials_of = [
        (["new", "memory"], requests, f"fault: bundle line {line} Section\n", 3),
        (["new", "memory"], b"office bundle 1\n[season]\nrounds", "fault: bundle line 4 Section\n", 3),
        (["new", "memory"], b"office bundle 3\n", "fault: bundle BadFirstLine\n", 3),
        (["new", "held.db"], bundle, "fault: keeper holds a season\n", 3),
        (["kept", "memory"], b"", "fault: keeper holds no season\n", 3),
        (["kept", "empty.db"], b"", "fault: keeper holds no season\n", 3),
    ]
    for (start, store), given, told, status in trials_of:
        wrote, _, came = ended(program, room, ["serve", "1", "1", start, str(free_port()), store], input=given)
        want((wrote.decode(), came) == (told, status), f"serve {start} {store}", f"it wrote {wrote!r:.80} and ended with status {came}, and not {told!r} and {status}")
    closed = ended("/bin/sh", room, ["-c", f'exec "$0" serve 1 1 new {free_port()} memory <&-', program])
    want((closed[0], closed[2]) == (b"fault: read\n", 4), "serve with its input closed", f"{closed} comes")
    with open("/dev/full", "wb") as full:
        child = subprocess.Popen([program, "serve", "1", "1", "new", str(port := free_port()), "memory"], cwd=room, stdin=subprocess.PIPE, stdout=full, stderr=subprocess.DEVNULL)
        assert child.stdin
        child.stdin.write(bundle)
        child.stdin.close()
        until = time.monotonic() + SECONDS
        while not listeners(port) and time.monotonic() < until:
            time.sleep(0.005)
        socket.create_connection(("127.0.0.1", port), timeout=SECONDS).close()
        want(child.wait(SECONDS) == 5, "serve with a full output", f"it ended with status {child.returncode}")


@trial
def one_connection(room: str, program: str, bundle: bytes) -> None:
    """After its one connection it takes no other and ends."""
    with Server(program, room, "one connection", 1, bundle=bundle) as server:
        same("one connection", server.talk([get()]), STATE)
        ends_well(server, Office(Season(bundle.decode())), "one connection")
        with contextlib.suppress(ConnectionRefusedError):
            server.connected().close()
            raise Wrong("one connection: another one is taken after the end")


# ---- the tour of docs/HTTP.md


def tour_of(text: str) -> tuple[list[tuple[str, str]], str]:
    """The calls of `curl` in the part of the page that serves an office, each with the reply below it."""
    part = text.partition("\n## A season with curl\n")[2].partition("\n## ")[0]
    blocks = [it.strip() for it in re.findall(r"(?:^ {4}.*\n)+", part, re.M)]
    return [(one, other) for one, other in zip(blocks, blocks[1:]) if one.startswith("curl ")], part


@trial
def tour(room: str, program: str, bundle: bytes) -> None:
    """Each call of the tour is replied as it says there, and so is the end."""
    with open(f"{TOP}/docs/HTTP.md", encoding="utf-8") as it:
        calls, part = tour_of(it.read())
    want(len(calls) >= 7, "the tour of docs/HTTP.md", f"it has {len(calls)} calls")
    if not shutil.which("curl"):
        return
    with Server(program, room, "the tour of docs/HTTP.md", len(calls), store="season.db", bundle=bundle) as server:
        for call, told in calls:
            said = subprocess.run(["sh", "-c", call.replace(":8080/", f":{server.port}/")], cwd=room, capture_output=True, text=True, timeout=SECONDS).stdout
            want(said == told, "the tour of docs/HTTP.md", f"{call} is replied by {said!r:.200}")
        wrote, _, status = server.ended()
        lacking = [it for it in wrote.splitlines() if f"`{it}`" not in part]
        want(status == 0 and wrote != "" and not lacking, "the tour of docs/HTTP.md", f"it ended with status {status} and wrote {wrote!r}")


def has_serve(program: str) -> bool:
    """Whether the program knows the command: where it does not, its words are none."""
    with tempfile.TemporaryDirectory(prefix="served-") as room:
        return ended(program, room, ["serve", "1", "1", "kept", str(free_port()), "memory"], input=b"")[2] != 2


def trials(program: str, bundle: bytes, worked: Iterable[Case], drawn: Iterable[tuple[str, str, list[str], list[str], Tables]], is_long: bool) -> Iterator[Callable[[], Optional[str]]]:
    """What is tried, each a call that gives a fault or None: over the season of five candidates, worked scripts of cases, and drawn ones of a season of several rounds."""
    of_cases = worked_scripts(worked)
    scripts = [Script(label, text, rows) for label, text, rows, *_ in drawn]
    for script in of_cases + scripts:
        yield functools.partial(scripted, program, script, None, "season.db")
    for script in (of_cases + scripts)[:: 5 if is_long else 20]:
        for cuts in (1, 2, 3, 7) if is_long else (3,):
            yield functools.partial(scripted, program, script, cuts, "memory")
    for pieces in (None, 1, 2, 3, 7) if is_long else (None,):
        yield functools.partial(exchanges, program, bundle, pieces)
        yield functools.partial(raw_exchanges, program, bundle, pieces)
    long = Script("two hundred and fifty requests", bundle.decode(), ["state,nobody", "seat,1,1"] * 125)
    yield functools.partial(scripted, program, long, None, "memory")
    text = scripts[-1].text
    for seed in range(20 if is_long else 2):
        yield functools.partial(side_by_side, program, text, seed, 4, 8)
    for number, script in enumerate(scripts[:: 10 if is_long else len(scripts)]):
        for at in (0, len(script.rows) // 2, len(script.rows) - 1) if is_long else (len(script.rows) // 2,):
            yield functools.partial(killed, program, script, at, 0.0005 * (number % 4))
    for tried in (torn, gone, port_taken, no_season, one_connection, tour, kept_silent, refused_early, short_of_descriptors, *([silent, slow] if is_long else [])):
        yield functools.partial(tried, program, bundle)
