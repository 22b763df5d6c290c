"""The cases of cases/: what the program answers to whole inputs. cases/README.md says how they are written; checks/repository runs them."""
import os
import re
import shlex
import sqlite3
import subprocess
import tempfile
from typing import Callable, Optional, Union

SECONDS = 120
# the tables of a store are strict, which older ones do not know
READS_STORES = sqlite3.sqlite_version_info >= (3, 37)
# where a sync costs nothing, if there is such a place
ROOMS = "/dev/shm" if os.access("/dev/shm", os.W_OK) else None
ESCAPE = re.compile(r"\\(?:x([0-9A-F]{2})|([rnt\\]))")
OF_LETTER = {"r": b"\r", "n": b"\n", "t": b"\t", "\\": b"\\"}


class Wrong(Exception):
    """A file of cases that is written wrongly, or a case that is answered otherwise."""


class Call:
    """The program called once: its words, its input, and how it has to end."""

    source: list[bytes]
    wanted: list[bytes]
    row: Optional[int]

    def __init__(self, words: str) -> None:
        self.piped = [shlex.split(it) for it in words.split(" | ")]
        self.words, self.source, self.wanted, self.status, self.row = self.piped[-1], [], [], 0, None

    def copy(self) -> "Call":
        made = Call("")
        made.__dict__.update(self.__dict__, source=[*self.source], wanted=[*self.wanted])
        return made


class Case:
    """Calls of the program, and statements on its store between them, one after another in a folder of their own."""

    steps: list[Union[Call, str]]
    rows: list[tuple[int, str, str]]

    def __init__(self, label: str) -> None:
        self.label, self.steps, self.rows = label, [], []

    def is_one_call(self) -> bool:
        return len(self.steps) == 1 and isinstance(self.steps[0], Call) and len(self.steps[0].piped) == 1

    def is_large(self) -> bool:
        return any(not isinstance(it, str) and sum(map(len, it.source)) > 1_000_000 for it in self.steps)

    def of_row(self, number: int, given: str, line: str) -> "Case":
        """The case of one row of a table: what is given replaces the statement of the line `!=`, or else the line `>=`, or else follows the input."""
        made = Case(f"{self.label}, line {number}")
        made.steps = [it.copy() if isinstance(it, Call) else it or given for it in self.steps]
        call = made.steps[-1]
        assert isinstance(call, Call)
        if call.row is not None:
            call.source.insert(call.row, unescaped(given) + b"\n" * (given != ""))
        elif "" not in self.steps:
            call.source.append(unescaped(given))
        call.wanted.append(unescaped(line) + b"\n")
        return made


def unescaped(text: str) -> bytes:
    def one(found: re.Match[str]) -> bytes:
        return bytes([int(found[1], 16)]) if found[1] else OF_LETTER[found[2]]

    parts: list[bytes] = []
    at = 0
    for found in ESCAPE.finditer(text):
        parts += [text[at : found.start()].encode(), one(found)]
        at = found.end()
    return b"".join([*parts, text[at:].encode()])


# ---- large inputs, each by a call in a line `>! NAME NUMBER..`


def candidates(count: int) -> str:
    return "".join(f"1{at:06},GEN,-,token{at:06},1{at:06}\n" for at in range(count))


def programmes(count: int, seats: int) -> str:
    return "".join(f"P{at},I1,1,OPEN,{seats}\n" for at in range(count))


def longest_choices(count: int) -> str:
    """So many candidates who each name a thousand programmes."""
    names = ",".join(f"P{at}" for at in range(1000))
    return "".join(f"1{at:06},{names}\n" for at in range(count))


def choices_of_one(count: int) -> str:
    """Candidate 1, who names programme A so many times."""
    return "1" + ",A" * count + "\n"


def empty_lines(count: int) -> str:
    return "\n" * count


LARGE: dict[str, Callable[..., str]] = {
    "candidates": candidates,
    "programmes": programmes,
    "longest_choices": longest_choices,
    "choices_of_one": choices_of_one,
    "empty_lines": empty_lines,
}


# ---- reading


class Reader:
    cases: list[Case]
    case: Optional[Case]
    text: Optional[list[bytes]]

    def __init__(self, path: str, texts: dict[str, list[bytes]]) -> None:
        self.path, self.texts = path, texts
        self.cases, self.case, self.text, self.comment = [], None, None, ""

    def line(self, number: int, line: str) -> None:
        mark, _, rest = line.partition(" ")
        if not line:
            self.end()
        elif mark == "#":
            self.comment = rest
        elif mark == "@":
            self.end()
            self.text = self.texts.setdefault(rest, [])
        elif mark == "$":
            self.text = None
            if self.case is None:
                self.case = Case(f"{self.path}:{number}" + (f" ({self.comment})" if self.comment else ""))
            self.case.steps.append(Call(rest))
        elif self.text is not None and mark.startswith(">"):
            self.given(self.text, mark, rest)
        elif self.case is not None and mark in ("!", "!="):
            self.case.steps.append(rest)
        elif self.case is not None and isinstance(self.case.steps[-1], Call) and self.of_call(self.case.steps[-1], number, mark, rest):
            pass
        else:
            raise Wrong(f"{self.path}:{number}: no line of a case begins so")

    def of_call(self, call: Call, number: int, mark: str, rest: str) -> bool:
        if mark == ">=":
            call.row = len(call.source)
        elif mark.startswith(">"):
            self.given(call.source, mark, rest)
        elif mark.startswith("<"):
            self.given(call.wanted, mark.replace("<", ">"), rest)
        elif mark == "?":
            call.status = int(rest)
        elif mark == "=":
            given, arrow, line = rest.rpartition("-> ")
            if not arrow:
                return False
            assert self.case
            self.case.rows.append((number, given.removesuffix(" "), line))
        else:
            return False
        return True

    def given(self, pieces: list[bytes], mark: str, rest: str) -> None:
        if mark == ">":
            pieces.append(unescaped(rest) + b"\n")
        elif mark == ">-":
            pieces.append(unescaped(rest))
        elif mark == ">@" and rest in self.texts:
            pieces += self.texts[rest]
        elif mark == ">!" and rest.split()[0] in LARGE:
            name, *numbers = rest.split()
            pieces.append(LARGE[name](*map(int, numbers)).encode())
        else:
            raise Wrong(f"{self.path}: nothing is called {rest}")

    def end(self) -> None:
        case, self.case, self.text, self.comment = self.case, None, None, "" if self.case else self.comment
        if case and case.rows:
            self.cases += [case.of_row(*it) for it in case.rows]
        elif case:
            self.cases.append(case)


def read(folder: str) -> tuple[list[Case], dict[str, bytes]]:
    """The cases of a folder's files, in their order, and the texts of texts.txt, which are known in all of them."""
    found: list[Case] = []
    texts: dict[str, list[bytes]] = {}
    for name in sorted(os.listdir(folder), key=lambda it: (it != "texts.txt", it)):
        if name.endswith(".txt"):
            reader = Reader(f"{folder}/{name}", texts if name == "texts.txt" else dict(texts))
            with open(f"{folder}/{name}", encoding="utf-8", newline="\n") as it:
                for number, line in enumerate(it.read().split("\n"), 1):
                    reader.line(number, line)
            reader.end()
            found += reader.cases
    return found, {name: b"".join(pieces) for name, pieces in texts.items()}


# ---- running


def called(program: str, words: list[str], given: bytes, room: str) -> tuple[bytes, Optional[int]]:
    """What the program writes, and its status, or None where it does not end."""
    try:
        ran = subprocess.run([program, *words], input=given, stdout=subprocess.PIPE, stderr=subprocess.DEVNULL, cwd=room, timeout=SECONDS)
    except subprocess.TimeoutExpired:
        return b"", None
    return ran.stdout, ran.returncode


def changed(store: str, statements: str) -> None:
    connection = sqlite3.connect(store)
    try:
        connection.executescript(statements)
        connection.commit()
    finally:
        connection.close()


def first_difference(wrote: bytes, wanted: bytes) -> str:
    pairs = zip(wrote.split(b"\n") + [b""], wanted.split(b"\n") + [b""])
    at, (one, other) = next(((at, it) for at, it in enumerate(pairs, 1) if it[0] != it[1]), (0, (b"", b"")))
    return f"line {at} is {one.decode(errors='replace')!r:.120}, and not {other.decode(errors='replace')!r:.120}"


def fault_of_call(program: str, call: Call, room: str) -> Optional[str]:
    given = b"".join(call.source)
    for words in call.piped[:-1]:
        given, status = called(program, words, given, room)
        if status:
            return f"{' '.join(words)} ended with status {status}"
    wrote, status = called(program, call.words, given, room)
    wanted = b"".join(call.wanted)
    if wrote != wanted:
        return f"{' '.join(call.words)}: {first_difference(wrote, wanted)}"
    return None if status == call.status else f"{' '.join(call.words)}: ended with status {status}, and not {call.status}"


def fault_of(program: str, case: Case) -> Optional[str]:
    """Why the program does not answer the case as it is written, or None."""
    if not READS_STORES and any(isinstance(it, str) for it in case.steps):
        return None
    with tempfile.TemporaryDirectory(prefix="case-", dir=ROOMS) as room:
        for step in case.steps:
            if isinstance(step, str):
                changed(f"{room}/season.db", step)
                continue
            why = fault_of_call(program, step, room)
            if why:
                return f"{case.label}: {why}"
    return None
