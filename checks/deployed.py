"""What the parts of checks/deploy share: the tally, a folder for each part, an office with nginx in front of it, and the season of five candidates."""
import contextlib
import functools
import json
import os
import re
import socket
import tempfile
import threading
import time
from typing import Any, Callable, Iterator, Optional, Sequence, TypeVar, Union

from cases import ROOMS
from front import Front, Office, Reply, found, read_reply, request, text_of
from plain_office import Season
from served import TOP

CLERK, SECOND, THIRD = "clerk0001", "tok00002", "tok00003"


class Tally:
    """What held, what did not, and what was not looked at."""

    def __init__(self) -> None:
        self.passed, self.failed = 0, 0
        self.skipped: list[str] = []

    def holds(self, it: object, label: str, what: object = "") -> None:
        if it:
            self.passed += 1
        else:
            self.failed += 1
            print(f"FAILED {label}{': ' if what else ''}{what}"[:600], flush=True)

    def same(self, came: object, wanted: object, label: str) -> None:
        self.holds(came == wanted, label, f"{came} and not {wanted}")

    def status(self, reply: Reply, wanted: int, label: str) -> None:
        self.holds(reply.status == wanted, label, f"{reply} and not {wanted}")

    def skips(self, what: str, lacking: str) -> None:
        self.skipped.append(what)
        print(f"SKIPPED {what}: it needs {lacking}", flush=True)


class Bars:
    """What results day asks of the service, and what was seen of each."""

    def __init__(self) -> None:
        self.rows: list[tuple[str, str, str]] = []

    def add(self, bar: str, figure: str, is_held: bool, what: object = "") -> None:
        self.rows.append((bar, figure, "held" if is_held else "NOT HELD"))
        tally.holds(is_held, bar, f"{figure} {what}")

    def table(self) -> list[str]:
        wide = [max((len(row[at]) for row in self.rows), default=0) for at in range(2)]
        return [f"{bar:{wide[0]}}  {figure:{wide[1]}}  {held}" for bar, figure, held in self.rows]


tally, bars = Tally(), Bars()
Given = TypeVar("Given")
# a part of the check: it gets a folder and the program
Part = Callable[[str, str], None]
PARTS: list[tuple[str, Callable[[str], None]]] = []


def part(label: str, needs: Sequence[str] = (), rooms: Optional[str] = ROOMS) -> Callable[[Part], Callable[[str], None]]:
    """A part of the check in a folder of its own; what it needs has to be installed. A program can be run from `rooms` None, wherever that is."""

    def taken(tried: Part) -> Callable[[str], None]:
        @functools.wraps(tried)
        def gives(program: str) -> None:
            lacking = [it for it in needs if not (os.geteuid() == 0 if it == "root" else found(it) or os.path.exists(it))]
            if lacking:
                tally.skips(label, ", ".join(lacking))
                return
            with tempfile.TemporaryDirectory(prefix="deploy-", dir=rooms) as room:
                os.chmod(room, 0o755)
                try:
                    tried(room, program)
                except Exception as why:  # a part that breaks is a part that does not hold
                    tally.holds(False, label, f"{type(why).__name__} {why}")

        PARTS.append((label, gives))
        return gives

    return taken


def bundle_of(name: str = "five-candidates") -> bytes:
    with open(f"{TOP}/examples/{name}/bundle.txt", "rb") as it:
        return it.read()


def body(**members: object) -> bytes:
    return json.dumps(members, separators=(",", ":")).encode()


@contextlib.contextmanager
def fronted(room: str, program: str, bundle: Optional[bytes] = None, **how: Any) -> Iterator[tuple[Front, Office]]:
    """A new office and nginx in front of it; afterwards no log of either has a token of the bundle."""
    bundle = bundle or bundle_of()
    os.makedirs(f"{room}/office")
    with Office(program, f"{room}/office") as office, Front(room, f"127.0.0.1:{office.port}") as nginx:
        office.start("new", bundle=bundle, **how)
        yield nginx, office
    no_tokens(nginx.logs() + text_of(f"{room}/office/office.log"), bundle, os.path.basename(room))


def no_tokens(text: str, bundle: bytes, label: str) -> None:
    tokens = set(tokens_of(bundle))
    lengths = {len(it) for it in tokens}
    # a season has 50,000 tokens and a log 14 MB, so each word of the log is looked up, and not each token
    words = set(re.findall(f"[A-Za-z0-9]{{{min(lengths)},}}", text))
    seen = {it[at : at + length] for it in words for length in lengths for at in range(len(it) - length + 1)} & tokens
    tally.holds(not seen and all(it.isalnum() for it in tokens), f"no token in a log ({label})", f"{sorted(seen)[:3]}")


def tokens_of(bundle: bytes) -> list[str]:
    season = Season(bundle.decode().partition("[requests]")[0])
    return [season.clerk, *(it.token for it in season.people)]


def in_threads(calls: Sequence[Callable[[], Given]]) -> list[Union[Given, OSError, EOFError, None]]:
    """Runs these at once, and gives what each of them gives."""
    given: list[Union[Given, OSError, EOFError, None]] = [None] * len(calls)

    def run(at: int) -> None:
        try:
            given[at] = calls[at]()
        except (OSError, EOFError) as why:
            given[at] = why

    threads = [threading.Thread(target=run, args=(at,), daemon=True) for at in range(len(calls))]
    for it in threads:
        it.start()
    for it in threads:
        it.join(120)
    return given


def timed(call: Callable[[], Given]) -> tuple[Given, float]:
    begun = time.monotonic()
    return call(), time.monotonic() - begun


CUT, ANSWER = body(window=0), body(cand=2, window=1, turn=1, choice="float")


def directly(office: Office, method: str, path: str, token: Optional[str], given: Optional[bytes]) -> Reply:
    with socket.create_connection(("127.0.0.1", office.port), timeout=30) as link:
        link.sendall(request(method, path, token, given))
        return read_reply(link)[0]
