"""Cuts bundles, dossiers and step sheets into their parts, and asks the office; the tools share it."""
import csv
import io
import os
import re
import sqlite3
import subprocess
import sys
import tempfile
from typing import Callable, NamedTuple, Optional

from formats import FIRST_LINES, SECTIONS, UNITS_LINE

TOP = os.path.dirname(os.path.dirname(os.path.realpath(__file__)))
MARK = "\ufeff"
NO_PROGRAM = 1
# a call of the office: from its words and its input to what it writes and its status, or None where it does not end
Call = Callable[[list[str], bytes], tuple[bytes, Optional[int]]]


class Refused(Exception):
    """What the office wrote instead, and its status."""

    def __init__(self, wrote: bytes, status: int) -> None:
        super().__init__(wrote)
        self.wrote, self.status = wrote, status


def office(words: list[str], given: bytes) -> tuple[bytes, int]:
    """Returns what the office writes on these words and this input, and its status."""
    program = os.environ.get("OFFICE") or f"{TOP}/office"
    try:
        ran = subprocess.run([program, *words], input=given, stdout=subprocess.PIPE)
    except OSError as why:
        raise Refused(f"office: {program} cannot be called: {why.strerror}\n".encode(), NO_PROGRAM) from why
    return ran.stdout, ran.returncode


def told(call: Call, words: list[str], given: bytes) -> bytes:
    """Returns what a call of the office writes if it exits with status 0."""
    wrote, status = call(words, given)
    if status != 0:
        raise Refused(wrote, NO_PROGRAM if status is None else status)
    return wrote


def ended(text: bytes) -> bytes:
    return text if not text or text.endswith(b"\n") else text + b"\n"


# ---- lines and sections


def lines_of(data: bytes) -> list[bytes]:
    """Returns the lines of bytes, each with its end."""
    return re.findall(rb"[^\n]*\n|[^\n]+", data)


def title(line: bytes) -> bytes:
    """Returns a line without its end and its commas."""
    return line.removesuffix(b"\n").removesuffix(b"\r").rstrip(b",")


class Section(NamedTuple):
    """The body of a section, and the number of its first line in the input."""

    body: bytes
    line: int


# the sections of a bundle by their names; what comes before the first is the section None
Sections = dict[Optional[str], Section]


def sections(data: bytes, first: int = 1) -> Sections:
    """Returns the sections of a bundle by their names; what comes before the first is the section None."""
    found: dict[Optional[str], tuple[list[bytes], int]] = {None: ([], first)}
    name: Optional[str] = None
    for number, line in enumerate(lines_of(data), first):
        if line.startswith(b"["):
            name = title(line).decode(errors="replace").strip("[]")
            found.setdefault(name, ([], number + 1))
        else:
            found[name][0].append(line)
    return {name: Section(b"".join(lines), number) for name, (lines, number) in found.items()}


def split_at(data: bytes, name: str) -> tuple[bytes, Optional[bytes], int]:
    """Returns the bytes before and after the first line that is the title of this section, and the number of the line after it; the second part is None if there is no such line."""
    at = 0
    for number, line in enumerate(lines_of(data), 1):
        if title(line) == f"[{name}]".encode():
            return data[:at], data[at + len(line) :], number + 1
        at += len(line)
    return data, None, 0


def without_special(published: bytes) -> bytes:
    """Returns the published texts of a season without the sections of a special round behind them."""
    texts, lists, _ = split_at(published, "lists")
    return published if lists is None or split_at(lists, "special")[1] is None else texts


# ---- rows


class Row(NamedTuple):
    """A record of a section: its number as the office counts, the line of its section where it begins, counted from 0, and its fields."""

    number: int
    line: int
    fields: list[str]


def numbered_rows(body: bytes) -> list[Row]:
    """Returns the records of a section. Empty fields at an end are left out, and records without fields are not counted."""
    csv.field_size_limit(sys.maxsize)
    text = body.decode(errors="replace").removeprefix(MARK)
    reader, before = csv.reader(io.StringIO(text, newline="")), 0
    found: list[Row] = []
    for fields in reader:
        line, before = before, reader.line_num
        while fields and not fields[-1]:
            fields.pop()
        if fields:
            found.append(Row(len(found) + 1, line, fields))
    return found


def rows(body: bytes) -> list[list[str]]:
    """Returns the fields of the records of a section."""
    return [it.fields for it in numbered_rows(body)]


def table(body: bytes) -> list[list[str]]:
    """Returns the rows of a section below its header."""
    return rows(body)[1:]


def season_of(bundle: bytes) -> dict[str, str]:
    """Returns the values of the season's rows, by their keys."""
    return dict(row[:2] for row in rows(sections(bundle)["season"].body))


def is_bundle(data: bytes) -> bool:
    return title(lines_of(data.removeprefix(MARK.encode()))[:1][0] if data else b"").decode(errors="replace") in FIRST_LINES


def is_units(data: bytes) -> bool:
    """Returns whether an input is a bundle with units."""
    return title(lines_of(data.removeprefix(MARK.encode()))[0] if data else b"").decode(errors="replace") == UNITS_LINE


def season_in(store: str) -> bytes:
    """Returns the bundle that a store keeps."""
    base = sqlite3.connect(store)
    try:
        return b"".join(it for (it,) in base.execute("SELECT bytes FROM season ORDER BY part"))
    finally:
        base.close()


def plain_bundle(call: Call, data: bytes) -> bytes:
    """Returns the plain bundle of a bundle with units, with the same requests. The office itself makes it, in a store that is thrown away."""
    season, requests, _ = split_at(data, "requests")
    with tempfile.TemporaryDirectory(prefix="units-") as room:
        told(call, ["units", f"{room}/season.db"], season)
        plain = ended(season_in(f"{room}/season.db"))
    return plain if requests is None else plain + b"[requests]\n" + requests


def missing_sections(data: bytes) -> list[str]:
    """Returns the names of the sections that a bundle lacks."""
    found = sections(data)
    return [it for it in SECTIONS[:-1] if it not in found]
