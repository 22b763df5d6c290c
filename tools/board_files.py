"""Reads what a board keeps next to a season: its own columns of candidates, names for codes, and where admitted candidates report.

tools/tables, tools/letters and deploy/counts share it. An error names the file, the row, the column and the value."""
import os
import re
import sys
from typing import Dict, Iterable, List, NamedTuple, Optional, Tuple

from dossier_papers import Wrong
from formats import NUMBER
from spreadsheets import Findings, letters, read, stripped, tell_lost_letters

NUMBER_COLUMNS = ("number", "candidate", "id")
# columns of the file of tokens that repeat the number
OFFICE_COLUMNS = ("number", "candidate")
SECRET_COLUMNS = ("token",)
REPORT_COLUMNS = ("institute", "date", "place")
MOST_NAME = 200
# what a row names, and the form of its code
CODES = "[A-Za-z0-9-]{1,16}"
KINDS = {"programme": CODES, "institute": CODES, "short": CODES, "list": "[1-4]", "rank": "[1-4]-(?:0|[1-9][0-9]{0,6}R?)", "board": "", "season": ""}


class Columns(NamedTuple):
    """The board's own columns: their names, and what they have of each candidate."""

    names: List[str]
    of: Dict[int, List[str]]

    def fields(self, number: int) -> List[str]:
        return self.of.get(number, [""] * len(self.names))

    def missing(self, numbers: Iterable[int]) -> List[int]:
        return [it for it in numbers if it not in self.of]


NO_COLUMNS = Columns([], {})


class Table(NamedTuple):
    """A table of the board's: the number and the fields of its first row and of the others, each without blanks around them."""

    first: int
    header: List[str]
    rows: List[Tuple[int, List[str]]]

    def column(self, *names: str) -> Optional[int]:
        """Returns where the first of these columns is that the table has."""
        small = [it.lower() for it in self.header]
        return next((small.index(name) for name in names if name in small), None)


def look_at_letters(path: str) -> None:
    """Refuses a file of bytes that are no UTF-8, because names that are read otherwise come out wrong; UTF-16 has zero bytes, and is read too."""
    with open(path, "rb") as it:
        data = it.read()
    try:
        if b"\0" not in data:
            data.decode()
    except UnicodeDecodeError as why:
        number = data.count(b"\n", 0, why.start) + 1
        raise Wrong(f"{path}, line {number}: the byte {data[why.start]:02X} begins no letter of UTF-8: save the file as CSV UTF-8 in the spreadsheet program") from None


def table(path: str, known: Iterable[str]) -> Table:
    """Returns a table of the board's; whatever a spreadsheet wrote that is no table is an error. Writes where letters were lost."""
    findings, lost = Findings(set()), Findings(set())
    if os.path.isfile(path):
        look_at_letters(path)
    rows = read(os.path.dirname(path) or ".", os.path.basename(path), {*known}, findings)
    if findings.causes:
        raise Wrong(f"{path}: {str(findings.causes[0]).partition(': ')[2]}")
    if not rows:
        raise Wrong(f"{path}: it is empty")
    tell_lost_letters(path, rows, lost)
    for line in lost.remarks:
        print(f"{os.path.basename(sys.argv[0])}: {line}", file=sys.stderr)
    stripped_rows = [(number, [stripped(it) for it in fields]) for number, fields in rows]
    width = max(2, *(len(fields) for _, fields in stripped_rows))
    full = [(number, [*fields, *[""] * (width - len(fields))]) for number, fields in stripped_rows]
    return Table(full[0][0], full[0][1], full[1:])


def place_of(path: str, row: int, header: List[str], at: int) -> str:
    return f"{path}, row {row}, column {header[at] if at < len(header) else ''} ({letters(at)})"


def number_of(path: str, row: int, header: List[str], at: int, value: str) -> int:
    """Returns the number of the candidate of a row; a spreadsheet may have written 12 as 12.0."""
    text = re.sub(r"\.0+$", "", value)
    if not (text.isascii() and text.isdecimal() and NUMBER.has(int(text))):
        raise Wrong(f"{place_of(path, row, header, at)}: `{value:.60}`: a candidate number is {NUMBER.range()}, as the season has it")
    return int(text)


def own_columns(it: Table, at: int) -> List[int]:
    """Returns where the board's own columns are: not the numbers and the tokens, nor any column that has a token in it."""
    token = it.column(*SECRET_COLUMNS)
    secrets = {fields[token] for _, fields in it.rows if token is not None} - {""}
    others = [place for place, name in enumerate(it.header) if name and place != at and name.lower() not in (*OFFICE_COLUMNS, *SECRET_COLUMNS)]
    return [place for place in others if not any(fields[place] in secrets for _, fields in it.rows)]


def columns(path: str) -> Columns:
    """Returns the board's own columns from the file of tokens, or from another table with candidate numbers. The tokens stay behind."""
    it = table(path, (*NUMBER_COLUMNS, *SECRET_COLUMNS))
    at = it.column(*NUMBER_COLUMNS)
    if at is None:
        raise Wrong(f"{path}, row {it.first}: there is no column `number`, `candidate` or `id` with the numbers of the season")
    numbers = [place for place, name in enumerate(it.header) if name.lower() in NUMBER_COLUMNS]
    shown = own_columns(it, at)
    found: Dict[int, List[str]] = {}
    for row, fields in it.rows:
        if any(fields[place].lower() == "clerk" for place in numbers):
            continue
        number = number_of(path, row, it.header, at, fields[at])
        own = [fields[place] for place in shown]
        if found.setdefault(number, own) != own:
            raise Wrong(f"{place_of(path, row, it.header, at)}: `{number}`: an earlier row of this candidate has other values")
    return Columns([it.header[place] for place in shown], found)


class Names(NamedTuple):
    """Names for codes of programmes and institutes, for merit lists and the lists of ranks in them, and of the board and the season."""

    programmes: Dict[str, str]
    institutes: Dict[str, str]
    lists: Dict[str, str]
    board: str
    season: str
    ranks: Dict[str, str] = {}

    def institute(self, code: str) -> str:
        return self.institutes.get(code, code)

    def rank(self, merit: int, place: str, said: str = "{rank} in {list}", unnamed: str = "merit list {number}") -> str:
        """Returns a place of a merit list as the candidate knows it, in the words `said`: where several lists of ranks were joined, the rank in its list."""
        firsts = {int(code.partition("-")[2].rstrip("R")): name for code, name in self.ranks.items() if code.startswith(f"{merit}-")}
        first = max((it for it in firsts if it < int(place.rstrip("R") or 0)), default=None)
        if first is None:
            return said.format(rank=place, list=self.lists.get(str(merit)) or unnamed.format(number=merit))
        return said.format(rank=int(place.rstrip("R")) - first, list=firsts[first])

    def programme(self, code: str, base: str) -> str:
        """Returns the name of a programme; a unit of a divided one may have a name of its own."""
        return self.programmes.get(code) or self.programmes.get(base) or base


NO_NAMES = Names({}, {}, {}, "", "")
NAME_ROWS = "a row is `programme,CODE,NAME`, `institute,CODE,NAME`, `short,CODE,NAME`, `list,NUMBER,NAME`, `rank,LIST-PLACE,NAME`, `board,,NAME` or `season,,NAME`"


def names(path: str, in_hindi: bool = False) -> Names:
    """Returns the names of a file in the form of `announce`, which may name merit lists too. Names in Hindi are in the fourth column, where a row has one."""
    it = table(path, KINDS)
    found: Dict[Tuple[str, str], str] = {}
    for row, fields in [(it.first, it.header), *it.rows]:
        kind, code, name, other = [*fields, "", "", "", ""][:4]
        name = other if in_hindi and other else name
        if kind not in KINDS or not re.fullmatch(KINDS[kind], code):
            raise Wrong(f"{path}, row {row}: `{','.join(fields).rstrip(',')[:60]}`: {NAME_ROWS}")
        if not 1 <= len(name) <= MOST_NAME:
            raise Wrong(f"{path}, row {row}, column C: `{name:.60}`: a name has 1 to {MOST_NAME} letters")
        if found.setdefault((kind, code), name) != name:
            raise Wrong(f"{path}, row {row}, column C: `{name:.60}`: an earlier row has another name for this {kind}")
    by_kind = {kind: {code: name for (other, code), name in found.items() if other == kind} for kind in KINDS}
    return Names(by_kind["programme"], by_kind["institute"], by_kind["list"], by_kind["board"].get("", ""), by_kind["season"].get("", ""), by_kind["rank"])


class Reporting(NamedTuple):
    """When and where a candidate reports."""

    date: str
    place: str


def reporting(path: str) -> Dict[str, Reporting]:
    """Returns where the candidates of each institute report; the institute of a row may be empty, for all that have no row."""
    it = table(path, REPORT_COLUMNS)
    places = [it.column(name) for name in REPORT_COLUMNS]
    if None in places:
        raise Wrong(f"{path}, row {it.first}: there is no column `{REPORT_COLUMNS[places.index(None)]}`; needed are {', '.join(REPORT_COLUMNS)}")
    found: Dict[str, Reporting] = {}
    for row, fields in it.rows:
        institute, date, place = (fields[at] for at in places if at is not None)
        if not date or not place:
            at = places[1] if not date else places[2]
            raise Wrong(f"{place_of(path, row, it.header, at or 0)}: nothing: a row has a date and a place")
        if found.setdefault(institute, Reporting(date, place)) != (date, place):
            raise Wrong(f"{place_of(path, row, it.header, places[0] or 0)}: `{institute}`: an earlier row has this institute too")
    return found
