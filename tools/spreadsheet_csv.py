"""Writes tables that LibreOffice and Excel open rightly: UTF-8 with a byte order mark, and codes as text.

A spreadsheet reads `007` as 7, `1E5` as 100000, `3-4` as a day, and a field that begins with = as a formula. Such a field is written as ="007", which both
programs show as the text that it was. All other fields are written plainly. `plain` of a field gives the text back."""
import csv
import functools
import io
import os
import re
from typing import Iterable, List, Sequence

MARK = "\ufeff"
MONTHS = "jan|feb|mar|apr|may|jun|jul|aug|sep|oct|nov|dec"
# a number that would lose its zeros or its last digits, a power of ten, a day, a truth value, and the beginning of a formula
CHANGED = re.compile(
    rf"0\d+|\d{{12,}}|[+-]?\d+(\.\d+)?e[+-]?\d+|\d+[-/:]\d+([-/:]\d+)?|\d+\.\d+\.\d+|({MONTHS})[a-z]*[-/ ]?\d+|\d+[-/ ]?({MONTHS})[a-z]*([-/ ]\d+)?|true|false|[=+@-].*|[\t\r].*",
    re.I | re.S,
)
# a text in a formula has at most 255 letters in Excel
MOST_TEXT = 255


@functools.lru_cache(maxsize=1 << 16)
def is_changed(text: str) -> bool:
    """Returns whether a spreadsheet would read this as something else than the text."""
    return CHANGED.fullmatch(text) is not None and text != "-"


def kept(text: str) -> str:
    """Returns a field that a spreadsheet shows as this text."""
    if len(text) > MOST_TEXT:
        return f" {text}"
    return '="' + text.replace('"', '""') + '"'


def plain(field: str) -> str:
    """Returns the text of a field that was written here."""
    found = re.fullmatch('="(.*)"', field, re.S)
    if len(field) > MOST_TEXT and field.startswith(" ") and is_changed(field[1:]):
        return field[1:]
    return found[1].replace('""', '"') if found else field


def fields_of(column: List[str]) -> List[str]:
    """Returns the fields of a column. If one number must be kept as text, all numbers of the column are, so that they sort as one kind."""
    is_code = any(is_changed(it) and it.isdecimal() for it in column)
    return [kept(it) if is_changed(it) or is_code and it.isdecimal() else it for it in column]


def written(header: Sequence[str], rows: Iterable[Sequence[object]]) -> List[List[str]]:
    """Returns the fields of a table, column by column as a spreadsheet needs them."""
    texts = [["" if it is None else str(it) for it in row] for row in rows]
    columns = [fields_of([row[at] for row in texts]) for at in range(len(header))]
    return [fields_of([*header]), *(list(row) for row in zip(*columns))]


def text(header: Sequence[str], rows: Iterable[Sequence[object]]) -> str:
    """Returns a table as the text of its file."""
    out = io.StringIO(newline="")
    out.write(MARK)
    csv.writer(out).writerows(written(header, rows))
    return out.getvalue()


def write(path: str, header: Sequence[str], rows: Iterable[Sequence[object]], is_public: bool = False) -> None:
    """Writes a table, whole or not at all. Unless it is public, only its owner may read it."""
    mode = 0o644 if is_public else 0o600
    with open(os.open(f"{path}.part", os.O_CREAT | os.O_WRONLY | os.O_TRUNC, mode), "w", encoding="utf-8", newline="") as it:
        os.fchmod(it.fileno(), mode)
        it.write(text(header, rows))
    os.replace(f"{path}.part", path)
