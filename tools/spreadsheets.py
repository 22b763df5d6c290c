"""Reads the files that a spreadsheet writes, and collects everything that is wrong or unusual in them; tools/season uses it."""
import collections
import csv
import io
import os
import re
import sys
from typing import Iterable, NamedTuple, Optional

import books
from formats import TOKEN, listed

# signs that people do not see: no-break space, zero-width signs, byte order mark, marks of direction, soft hyphen
UNSEEN = "\u00a0\u00ad\u200b\u200c\u200d\u200e\u200f\u202a\u202b\u202c\u202d\u202e\u2060\u2066\u2067\u2068\u2069\ufeff"
DELIMITERS = ",;\t"
NAMES = {",": "commas", ";": "semicolons", "\t": "tabs"}
BOOKS = {b"PK\x03\x04": "a workbook", b"\xd0\xcf\x11\xe0": "an old workbook"}
ENDINGS = (".csv", *books.LIBRARIES)
# examples in a line of messages, and signs of a value that are shown
EXAMPLES, SHOWN = 5, 60
# rows in which values of columns without a name are looked for
LOOKED = 1_000
# a row of a table: its number in the spreadsheet, and its fields
Row = tuple[int, list[str]]


def letters(at: int) -> str:
    """Returns the letters by which a spreadsheet calls its column, counted from 0."""
    name = ""
    at += 1
    while at:
        at, rest = divmod(at - 1, 26)
        name = chr(65 + rest) + name
    return name


def stripped(text: str) -> str:
    return text.strip() if text.isascii() else text.strip().strip(UNSEEN + " \t").strip()


def shown(text: str) -> str:
    """Returns a value for a message: signs that nobody sees are named, and a long value is cut."""
    seen = text if text.isascii() and text.isprintable() else "".join(f"<U+{ord(it):04X}>" if it in UNSEEN or not it.isprintable() else it for it in text)
    return f"`{seen[:SHOWN]}`.." if len(seen) > SHOWN else f"`{seen}`"


def counted(count: int, what: str) -> str:
    return f"{count:,} {what}{'s' * (count != 1)}"


def some(items: Iterable[object], most: int = 10) -> str:
    """Joins the first items, and says how many more there are."""
    words = [str(it) for it in items]
    return ", ".join(words[:most]) + (f" and {len(words) - most:,} more" if len(words) > most else "")


class Cell(NamedTuple):
    """A field of a spreadsheet: where it is, and its text without blanks around it."""

    file: str
    row: int
    column: str
    at: int
    text: str

    def of(self) -> str:
        """Returns the column, by its name and its letters."""
        return f"{self.column} ({letters(self.at)})" if self.column else letters(self.at)

    def place(self) -> str:
        return f"{self.file}, row {self.row}, column {self.of()}"

    def value(self) -> str:
        return shown(self.text) if self.text else "nothing"


class Error(NamedTuple):
    """What is wrong with one field: the field, its value as it may be shown, and why."""

    cell: Cell
    value: str
    why: str

    def line(self) -> str:
        return f"{self.cell.place()}: {self.value}: {self.why}"


class Spelling(NamedTuple):
    """What was read otherwise than it is written: how often, the row where it is first, and an example."""

    times: int
    first: int
    example: str


class Findings:
    """What the files have: errors, questions that a person has to answer, spellings that were read as others, and remarks."""

    def __init__(self, answered: set[str]) -> None:
        self.causes: list[str] = []
        self.files: list[str] = []
        # errors by file and kind, and the fields with a note of each question
        self.kinds: dict[tuple[str, str], list[Error]] = {}
        self.questions: dict[str, list[tuple[Cell, str]]] = {}
        self.spellings: dict[tuple[str, str, str], Spelling] = {}
        self.remarks: list[str] = []
        self.answered = answered
        self.asked: dict[str, str] = {}

    def wrong(self, cell: Cell, why: str, secret: bool = False) -> None:
        """Takes an error of one field. The value of a token is never shown."""
        value = f"a text of {len(cell.text)} signs" if secret else cell.value()
        kind = re.sub(r"`[^`]*`|[0-9]+|\b[A-Z][A-Z0-9-]*\b", "", why.partition(";")[0])
        self.kinds.setdefault((cell.file, kind), []).append(Error(cell, value, why))

    def wrong_file(self, file: str, why: str) -> None:
        self.files.append(f"{file}: {why}")

    def wrong_form(self, file: str, why: str) -> None:
        """Takes an error of a whole file that other errors may follow from, such as a missing column. It is reported before these, and without them."""
        self.causes.append(f"{file}: {why}")

    def doubts(self, name: str, question: str, cell: Cell, note: str = "") -> bool:
        """Takes a doubt that a question names; returns whether the words of the call answered it with yes."""
        self.asked[name] = question
        if name in self.answered or "all" in self.answered:
            return True
        self.questions.setdefault(name, []).append((cell, note))
        return False

    def read_as(self, cell: Cell, value: object, kind: Optional[str] = None) -> None:
        """Notes that a field was written otherwise than the office spells it."""
        key = (cell.file, cell.column, kind or f"{shown(cell.text)} as {value}")
        known = self.spellings.get(key) or Spelling(0, cell.row, f"{shown(cell.text)} as {value}")
        self.spellings[key] = known._replace(times=known.times + 1)

    def count(self) -> int:
        return len(self.files) + sum(map(len, self.kinds.values()))

    def is_clean(self) -> bool:
        return not self.causes and not self.count() and not self.questions


def in_one_line(found: list[Error]) -> str:
    """Returns errors of one kind as one line: how many fields, in which rows, with which values, and why."""
    first = found[0].cell
    values = collections.Counter(it.value for it in found)
    most = [value if count == 1 else f"{value} ({count:,} times)" for value, count in values.most_common()]
    rows = some(dict.fromkeys(it.cell.row for it in found), EXAMPLES)
    columns = "" if len({it.cell.at for it in found}) == 1 else " and others"
    return f"{first.file}, column {first.of()}{columns}: {len(found):,} fields, in rows {rows}: {some(most, EXAMPLES)}: {found[0].why}"


# ---- tables


class Header(NamedTuple):
    """The header of a table: the row or the two rows in which it is, and the name of each column."""

    rows: tuple[int, ...]
    names: list[str]

    def where(self) -> str:
        return f"row {self.rows[0]}" if len(self.rows) == 1 else f"rows {self.rows[0]} and {self.rows[1]}"


class Table:
    """A spreadsheet that was read: its rows, and what each of its columns means. A column without a meaning is left out."""

    def __init__(self, file: str, findings: Findings, header: Header, rows: list[Row], means: dict[str, int]) -> None:
        self.file, self.findings, self.header, self.rows, self.means = file, findings, header, rows, means
        self.left_out = [at for at, name in enumerate(header.names) if name and at not in means.values()]
        self.columns: dict[str, tuple[Optional[int], str]] = {}
        # whether the first row names the columns by the tool's own words
        self.is_by_words = False

    def has(self, meaning: str) -> bool:
        return meaning in self.means

    def name(self, at: int) -> str:
        return self.header.names[at] if at < len(self.header.names) else ""

    def cell(self, number: int, fields: list[str], meaning: str) -> Cell:
        """Returns the field of a row that has a meaning; a column that is missing is empty."""
        known = self.columns.get(meaning)
        if known is None:
            known = self.columns[meaning] = self.column(meaning)
        return self.field(number, fields, *known)

    def column(self, meaning: str) -> tuple[Optional[int], str]:
        """Returns the column with a meaning, and how messages call it."""
        at = self.means.get(meaning)
        name = self.name(at) if at is not None else meaning
        if self.is_by_words:
            name = meaning if name.lower() == meaning.lower() else name.lower()
        return at, name

    def field(self, number: int, fields: list[str], at: Optional[int], name: str) -> Cell:
        written = fields[at] if at is not None and at < len(fields) else ""
        text = stripped(written) if written else ""
        cell = Cell(self.file, number, name, at or 0, text)
        if text != written and text:
            self.findings.read_as(cell._replace(text=written), shown(text), "fields with blanks around them")
        return cell

    def tells_left_out(self) -> list[str]:
        """Returns the lines of the report on columns that were not read."""
        named = [self.header.names[at] for at in self.left_out]
        lines = [f"{self.file}: left out: {', '.join(named)}"] if named else []
        unnamed = sorted({at for _, fields in self.rows[:LOOKED] for at, it in enumerate(fields) if it and not self.name(at) and at not in self.means.values()})
        if unnamed and not self.is_by_words:
            lines.append(f"{self.file}: left out, and without a name: {listed((f'column {letters(it)}' for it in unnamed), 'and')}")
        if any(re.fullmatch("gender|sex", it.lower()) for it in named):
            lines.append(f"{self.file}: the office reads no gender: {'seats for women are in the column W of their step' if self.has('seats') else 'women have the trait W in the column traits'}")
        return lines

    def looks_beyond(self) -> None:
        """Reports fields in columns without a name."""
        for number, fields in self.rows:
            for at, field in enumerate(fields):
                text = stripped(field)
                if text and not self.name(at) and at not in self.means.values():
                    may_be_token = TOKEN.has(len(text)) and text.isalnum()
                    self.findings.wrong(Cell(self.file, number, "", at, text), "this column has no name in the header", secret=may_be_token)


# ---- from bytes to rows


def text_of(file: str, data: bytes, findings: Findings) -> Optional[str]:
    """Returns the text of a file, or None if it is none: UTF-8, UTF-16 with or without its mark, or letters of one byte."""
    book = next((name for mark, name in BOOKS.items() if data.startswith(mark)), None)
    if book:
        findings.wrong_form(file, f"this is {book} and no CSV: save it as CSV UTF-8 in the spreadsheet program")
        return None
    sides = data[:2000][::2].count(0), data[:2000][1::2].count(0)
    wide = "utf-16" if data[:2] in (b"\xff\xfe", b"\xfe\xff") else "utf-16-be" if sides[0] > len(data[:2000]) // 4 else "utf-16-le" if sides[1] > len(data[:2000]) // 4 else None
    try:
        text = data.decode(wide or "utf-8-sig")
        if wide:
            findings.remarks.append(f"{file}: read as UTF-16")
        return text.removeprefix("\ufeff")
    except UnicodeDecodeError:
        if wide:
            findings.wrong_form(file, "it begins as UTF-16 and has no whole letters: save it anew as CSV UTF-8")
            return None
    findings.remarks.append(f"{file}: it is not UTF-8; letters outside of ASCII are read as Windows writes them (cp1252), so look at the names, or save it anew as CSV UTF-8")
    return data.decode("cp1252", errors="replace")


def records(text: str, delimiter: str) -> tuple[list[list[str]], Optional[int]]:
    """Returns the records of a text, and the number of the first that cannot be read, or None."""
    csv.field_size_limit(sys.maxsize)
    found: list[list[str]] = []
    try:
        # line by line, because a StringIO would hold four bytes for each letter
        lines = (it[0] for it in re.finditer("[^\r\n]*(?:\r\n|\r|\n)|[^\r\n]+", text))
        for row in csv.reader(lines, delimiter=delimiter, strict=True):
            found.append(row)
    except csv.Error:
        return found, len(found) + 1
    return found, None


def delimiter_of(text: str, known: Iterable[str] = ()) -> tuple[str, str]:
    """Returns the sign between the fields, and the text after a line that names it: the one that gives the first rows most known names, and most fields."""
    named = re.match("sep=(.)\r?\n", text)
    if named:
        return named[1], text[named.end() :]
    head = text[:20_000]

    def fields(sign: str) -> tuple[int, int]:
        rows = [row for row in records(head, sign)[0][:20] if any(map(stripped, row))]
        named = {stripped(it).lower() for row in rows[:1] for it in row}
        return len(named & {*known}), sum(sum(map(bool, row)) - 1 for row in rows)

    return max(DELIMITERS, key=fields), text


def rows_of_text(file: str, data: bytes, findings: Findings, known: Iterable[str] = ()) -> Optional[list[list[str]]]:
    """Returns the rows of a file of text, each with its number, or None if it is none."""
    whole = text_of(file, data, findings)
    if whole is None:
        return None
    delimiter, text = delimiter_of(whole, known)
    if delimiter != ",":
        findings.remarks.append(f"{file}: its fields are between {NAMES.get(delimiter, f'signs {delimiter}')}")
    found, bad = records(text, delimiter)
    if "??" in text or "\ufffd" in text:
        tell_lost_letters(file, [*enumerate(found, 1)], findings)
    if bad:
        findings.wrong_form(file, f"row {bad}: a quote is not closed, or something follows a closing quote; the rows after it were not read")
    return found


def rows_of_book(file: str, path: str, names: list[str], findings: Findings) -> Optional[list[list[str]]]:
    """Returns the rows of a sheet of a workbook, or None if it cannot be read."""
    try:
        sheet, others = books.sheet_of(path, os.path.splitext(file)[1], names)
    except books.NoBook as why:
        findings.wrong_form(file, str(why))
        return None
    if others:
        findings.remarks.append(f"{file}: read is the sheet {shown(sheet.name)}, and not {listed(map(shown, others), 'and')}")
    return sheet.rows


def file_of(folder: str, stem: str, findings: Findings) -> Optional[str]:
    """Returns the name of the file of a table, or None if there is none; names what is there under another name."""
    names = sorted(os.listdir(folder))
    found = [stem + it for it in ENDINGS if stem + it in names]
    if len(found) > 1:
        findings.remarks.append(f"{found[0]} is read, and not {listed(found[1:], 'and')}")
    if found:
        return found[0]
    near = [it for it in names if os.path.splitext(it)[0].lower() == stem]
    there = f"; there is {listed(near, 'and')}: save it as {stem}.csv" if near else ""
    findings.wrong_form(f"{stem}.csv", f"it cannot be read: No such file or directory{there}")
    return None


def read(folder: str, file: str, known: Iterable[str], findings: Findings) -> Optional[list[Row]]:
    """Returns the rows of a named file of text that are not empty, each with its number in the spreadsheet, or None if it cannot be read."""
    try:
        with open(f"{folder}/{file}", "rb") as it:
            found = rows_of_text(file, it.read(), findings, known)
    except OSError as why:
        findings.wrong_form(file, f"it cannot be read: {why.strerror}")
        return None
    return None if found is None else [(number, fields) for number, fields in enumerate(found, 1) if any(map(stripped, fields))]


def read_table(folder: str, stem: str, findings: Findings, known: Iterable[str] = (), sheet: str = "") -> tuple[str, Optional[list[Row]]]:
    """Returns the name of the file of a table and its rows that are not empty, each with its number in the spreadsheet; the rows are None if it cannot be read."""
    file = file_of(folder, stem, findings)
    if file is None:
        return f"{stem}.csv", None
    if os.path.splitext(file)[1] not in books.LIBRARIES:
        return file, read(folder, file, known, findings)
    found = rows_of_book(file, f"{folder}/{file}", [sheet, stem], findings)
    return file, None if found is None else [(number, fields) for number, fields in enumerate(found, 1) if any(map(stripped, fields))]


def tell_lost_letters(file: str, rows: list[Row], findings: Findings) -> None:
    """Remarks on fields in which letters were lost when the file was saved: each became a question mark."""
    lost = [(number, field) for number, fields in rows for field in fields if "??" in field or "\ufffd" in field]
    if lost:
        findings.remarks.append(f"{file}: {counted(len(lost), 'field')} with `??`, first in row {lost[0][0]}: letters were lost when the file was saved, so save it anew as CSV UTF-8")


def width_of(numbers: list[str], what: str) -> tuple[int, str]:
    """Returns how many digits some numbers may have had before their zeros were lost, and why; 0 if nothing speaks for lost zeros, as in 1, 2, 3 and so on."""
    padded = [len(it) for it in numbers if re.fullmatch("0[0-9]+", it)]
    if padded:
        return max(padded), f"other {what} have {max(padded)} digits and zeros before them"
    widths = collections.Counter(map(len, numbers))
    usual, times = max(widths.items(), key=lambda it: it[1], default=(0, 0))
    is_counted = max(widths, default=0) <= len(str(len(numbers))) and sorted(map(int, numbers)) == [*range(1, len(numbers) + 1)]
    return (0, "") if 2 * times <= len(numbers) or is_counted else (usual, f"most {what} have {usual} digits")


# ---- writing


def written(rows: Iterable[Iterable[object]], begin: str = "\ufeff") -> bytes:
    """Returns rows as CSV with a byte order mark, by which a spreadsheet program knows that it is UTF-8."""
    out = io.StringIO(newline="")
    out.write(begin)
    csv.writer(out).writerows(rows)
    return out.getvalue().encode("utf-8", errors="replace")


def put_file(path: str, data: bytes, mode: int = 0o600) -> None:
    """Writes a file whole or not at all."""
    part = f"{path}.part"
    try:
        with open(os.open(part, os.O_CREAT | os.O_WRONLY | os.O_TRUNC, mode), "wb") as it:
            os.fchmod(it.fileno(), mode)
            it.write(data)
            it.flush()
            os.fsync(it.fileno())
        os.replace(part, path)
    except OSError:
        if os.path.exists(part):
            os.remove(part)
        raise


