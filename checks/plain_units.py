"""A plain program for home-state quotas, outside of the office and its proofs: what a bundle with units comes to, or the line of its first fault.

It reads the forms of docs/FORMATS.md by itself, line by line and byte by byte. Of a bundle it knows what its section lines are and no more."""
import re
from typing import Callable, Iterator, Optional

MOST_BYTES = 134_217_728
TITLES = (b"[season]", b"[register]", b"[matrix]", b"[choices]")
MARK = b"\xef\xbb\xbf"


class Fault(Exception):
    """The first fault, as its line."""


def without_mark(text: bytes) -> bytes:
    return text[len(MARK) :] if text.startswith(MARK) else text


def lines_of(text: bytes) -> list[bytes]:
    """The lines with their ends."""
    return re.findall(rb"[^\n]*\n|[^\n]+", text)


def title(line: bytes) -> bytes:
    """A section line's name, or a first line, without its end and the commas before it."""
    line = line[:-1] if line.endswith(b"\n") else line
    line = line[:-1] if line.endswith(b"\r") else line
    return line.rstrip(b",")


def is_empty(line: bytes) -> bool:
    return line in (b"\n", b"\r\n", b"\r")


# ---- records


def records(body: bytes) -> Iterator[list[bytes]]:
    """The comma-separated records of a body, each with its fields."""
    body, field, at = without_mark(body), bytearray(), 0
    fields: list[bytes] = []
    quoted, begun = False, False
    while at < len(body):
        byte = body[at : at + 1]
        at += 1
        if quoted:
            if byte != b'"':
                field += byte
            elif body[at : at + 1] == b'"':
                field += byte
                at += 1
            else:
                quoted = False
        elif byte in b"\r\n":
            if begun:
                yield [*fields, bytes(field)]
            fields, field, begun = [], bytearray(), False
        elif byte == b",":
            fields.append(bytes(field))
            field, begun = bytearray(), True
        elif byte == b'"' and not field:
            quoted = begun = True
        else:
            field += byte
            begun = True
    if begun:
        yield [*fields, bytes(field)]


def rows_of(body: bytes) -> list[list[bytes]]:
    """The rows of a body: empty fields at a record's end are none, and a record without fields is none."""
    rows = []
    for record in records(body):
        while record and not record[-1]:
            record.pop()
        if record:
            rows.append(record)
    return rows


def quoted_row(row: list[bytes]) -> bytes:
    return b",".join(b'"' + it.replace(b"\n", b" ").replace(b'"', b'""') + b'"' for it in row) + b"\n"


# ---- what comes before the bundle


def line_fault(number: int) -> Fault:
    return Fault(f"fault: units line {number} Section")


def cut(lines: list[bytes]) -> tuple[bytes, bytes, bytes]:
    """The bodies of the units and of the states, and the bundle with the number of its first line, from 1."""
    if not lines or title(lines[0]) != b"office units 1":
        raise Fault("fault: units BadFirstLine")
    begin = next((at for at in range(1, len(lines)) if lines[at].startswith(b"office bundle")), len(lines))
    at = 1
    while at < begin and is_empty(lines[at]):
        at += 1
    bodies = []
    for name in (b"[units]", b"[states]"):
        if at == begin:
            raise line_fault(at + 1)
        if title(lines[at]) != name:
            raise line_fault(at + 1)
        end = next((it for it in range(at + 1, begin) if lines[it].startswith(b"[")), begin)
        bodies.append(b"".join(lines[at + 1 : end]))
        at = end
    if at < begin or begin == len(lines):
        raise line_fault(at + 1)
    return bodies[0], bodies[1], b"".join(lines[begin:])


def homes(rows: list[list[bytes]], most: int, is_key: Callable[[bytes], object], fault: str) -> dict[bytes, bytes]:
    """The state of each key, by the rows of a section."""
    states: dict[bytes, bytes] = {}
    for number, row in enumerate(rows, 1):
        if len(row) != 2 or number > most or row[0] in states or not is_key(row[0]) or not re.fullmatch(rb"[A-Z]{2}", row[1]):
            raise Fault(fault % number)
        states[row[0]] = row[1]
    return states


# ---- the bundle


def choices_of(bundle: bytes) -> Optional[tuple[int, int]]:
    """Where the choices of a bundle begin and end; nothing where it is not cut into its sections."""
    try:
        bundle.decode("utf-8")
    except UnicodeDecodeError:
        return None
    lines = lines_of(without_mark(bundle))
    if not lines or title(lines[0]) not in (b"office bundle 1", b"office bundle 2"):
        return None
    at, place = 1, len(bundle) - sum(map(len, lines[1:]))
    while at < len(lines) and is_empty(lines[at]):
        place += len(lines[at])
        at += 1
    found = []
    while at < len(lines):
        name, at, place = title(lines[at]), at + 1, place + len(lines[at])
        begin = place
        while at < len(lines) and not lines[at].startswith(b"["):
            place += len(lines[at])
            at += 1
        found.append((name, begin, place))
    names = [it[0] for it in found]
    if names[:4] != list(TITLES) or names[4:] not in ([], [b"[requests]"]):
        return None
    return found[3][1:]


def mapped(row: list[bytes], number: int, units: dict[bytes, bytes], states: dict[bytes, bytes]) -> list[bytes]:
    """A row of choices with units in the place of divided programmes."""
    fields = row[:1]
    for field in row[1:]:
        if field[-3:] in (b"-HS", b"-OS") and field[:-3] in units:
            raise Fault(f"fault: choices row {number} DirectUnit")
        if field in units:
            if row[0] not in states:
                raise Fault(f"fault: choices row {number} NoState")
            field += b"-HS" if states[row[0]] == units[field] else b"-OS"
        fields.append(field)
    return fields


def plain_bundle(text: bytes) -> bytes:
    """The plain bundle that a bundle with units comes to; a `Fault` where it has one."""
    if len(text) > MOST_BYTES:
        raise Fault("fault: units TooLong")
    units_body, states_body, bundle = cut(lines_of(without_mark(text)))
    is_code = re.compile(rb"[A-Za-z0-9-]{1,13}").fullmatch
    is_number = re.compile(rb"[1-9][0-9]{0,8}").fullmatch
    units = homes(rows_of(units_body), 2000, is_code, "fault: units row %d BadUnit")
    states = homes(rows_of(states_body), 250_000, is_number, "fault: states row %d BadState")
    place = choices_of(bundle)
    if place is None:
        return bundle
    rows = rows_of(bundle[place[0] : place[1]])
    rows = rows[:1] + [mapped(row, number, units, states) for number, row in enumerate(rows[1:], 2)]
    return bundle[: place[0]] + b"".join(map(quoted_row, rows)) + bundle[place[1] :]
