"""Reads the papers of a season: what a dossier says of programmes, people, choices, rounds, lists and final admissions, and the text of a special round.

tools/tables, tools/letters and tools/left share it. Nothing here is proved, and nothing here judges an allocation: `./office audit` does that."""
import csv
import re
from typing import Callable, Dict, List, NamedTuple, Optional, Tuple, Union

from bundles import Row, Section, numbered_rows, sections, split_at, without_special
from formats import ALLOWED, CATEGORIES, HEADERS, LISTS, NUMBER, OTHER_WORDS, SEATS, TRAITS, Limit
from formats import STEPS as STEPS_OF_MATRIX

DE_RESERVED = "D"
STEPS = (*STEPS_OF_MATRIX, DE_RESERVED)
HOME, OTHERS = "-HS", "-OS"
QUOTAS = {HOME: "HS", OTHERS: "OS"}
ALL_INDIA = "AI"
FINAL, SPECIAL = "final", "special"
OTHER_FILES = {b"SQLite format 3\0": "a store: tools/dossier --store makes the dossier of it", b"PK\x03\x04": "a workbook and no dossier"}
FIRST = re.compile(r"round (\d+) seated (\d+)|final (\d+)|list (\d+) (\S+)")
ALLOT = re.compile(rf"(?:allot|admit) (\d+) (\S+) ({'|'.join(STEPS)})")
STEP = re.compile(rf"step ({'|'.join(STEPS)}) seats (\d+) candidates (\d+) admitted (\d+)")
BELOW = re.compile(rf"(\d+) ([{''.join(TRAITS)}-])")
# who has which seat, or is admitted in the end: programme and step
Seats = Dict[int, Tuple[str, str]]


class Wrong(Exception):
    """What is wrong with a file, in a sentence with its place."""


class Programme(NamedTuple):
    """A programme of the seat matrix: where it is, its merit list, and the protected seats of its steps."""

    code: str
    institute: str
    merit: int
    protections: Dict[str, Dict[str, int]]


class Person(NamedTuple):
    """A row of the register."""

    number: int
    category: str
    traits: str
    places: List[str]

    def place(self, merit: int) -> str:
        return self.places[merit - 1] if merit <= len(self.places) else ""


class Step(NamedTuple):
    """A step of a published list: its seats, and who is admitted with which letter."""

    seats: int
    admitted: Dict[int, str]


class Seat(NamedTuple):
    """A seat that a text gives a candidate, with the letter of the protected seat that it fills, or `-`; nothing if no list says it, as for the special round."""

    number: int
    code: str
    step: str
    letter: str


# ---- rows of the bundle


class Rows:
    """The rows of a section of the dossier; an error names the line, the row, the column and the value."""

    def __init__(self, file: str, name: str, section: Section) -> None:
        self.file, self.name, self.section = file, name, section
        try:
            self.rows = numbered_rows(section.body)
        except csv.Error as why:
            raise Wrong(f"{file}, line {section.line} and after it, [{name}]: these are no comma-separated records: {why}") from None

    def wrong(self, row: Row, at: int, allowed: str) -> Wrong:
        column = HEADERS.get(self.name, ())[at : at + 1] or (f"field {at + 1}",)
        value = row.fields[at] if at < len(row.fields) else ""
        shown = "(token)" if column[0] == "token" else f"`{value:.60}`" if value else "nothing"
        return Wrong(f"{self.file}, line {self.section.line + row.line}, row {row.number} of [{self.name}], column {column[0]}: {shown}: {allowed}")

    def field(self, row: Row, at: int, allowed: str, is_right: Callable[[str], object]) -> str:
        value = row.fields[at] if at < len(row.fields) else ""
        if not is_right(value):
            raise self.wrong(row, at, allowed)
        return value

    def number(self, row: Row, at: int, limit: Limit, allowed: str) -> int:
        return int(self.field(row, at, allowed, lambda it: re.fullmatch("[0-9]{1,9}", it) and limit.has(int(it))))


def people_of(rows: Rows) -> Dict[int, Person]:
    """Returns the people of the register, in its order."""
    found: Dict[int, Person] = {}
    for row in rows.rows[1:]:
        number = rows.number(row, 0, NUMBER, ALLOWED["id"])
        if number in found:
            raise rows.wrong(row, 0, "an earlier row has this number too")
        category = rows.field(row, 1, ALLOWED["category"], lambda it: OTHER_WORDS.get(it, it) in CATEGORIES)
        traits = rows.field(row, 2, ALLOWED["traits"], lambda it: it in ("", "-") or set(it) <= set(TRAITS) and len(set(it)) == len(it))
        for at in range(4, len(row.fields)):
            rows.field(row, at, ALLOWED["place"], lambda it: re.fullmatch("([1-9][0-9]{0,6}R?)?", it))
        found[number] = Person(number, OTHER_WORDS.get(category, category), traits.replace("-", ""), row.fields[4:8])
    return found


def programmes_of(rows: Rows) -> Dict[str, Programme]:
    """Returns the programmes of the matrix, in the order in which they first appear."""
    found: Dict[str, Programme] = {}
    letters = [*TRAITS]
    for row in rows.rows[1:]:
        code = rows.field(row, 0, ALLOWED["code"], lambda it: re.fullmatch("[A-Za-z0-9-]{1,16}", it))
        institute = rows.field(row, 1, ALLOWED["code"], lambda it: re.fullmatch("[A-Za-z0-9-]{1,16}", it))
        merit = rows.number(row, 2, LISTS, ALLOWED["list"])
        step = rows.field(row, 3, ALLOWED["step"], lambda it: OTHER_WORDS.get(it, it) in STEPS_OF_MATRIX)
        rows.number(row, 4, SEATS, ALLOWED["seats"])
        counts = {it: rows.number(row, 5 + at, SEATS, ALLOWED["protection"]) for at, it in enumerate(letters) if 5 + at < len(row.fields) and row.fields[5 + at]}
        programme = found.setdefault(code, Programme(code, institute, merit, {}))
        programme.protections[OTHER_WORDS.get(step, step)] = {it: count for it, count in counts.items() if count}
    return found


def choices_of(rows: Rows, people: Dict[int, Person], programmes: Dict[str, Programme]) -> Dict[int, List[str]]:
    """Returns the choice lists by candidate."""
    found: Dict[int, List[str]] = {}
    for row in rows.rows[1:]:
        number = rows.number(row, 0, NUMBER, ALLOWED["id"])
        if number not in people:
            raise rows.wrong(row, 0, "the register has no candidate of this number")
        for at in range(1, len(row.fields)):
            rows.field(row, at, "the matrix has no programme of this code", programmes.__contains__)
        found[number] = row.fields[1:]
    return found


# ---- published texts


class Lines:
    """The lines of what was published, one after another, each with its number in the dossier."""

    def __init__(self, file: str, data: bytes, first: int):
        self.file, self.first, self.at = file, first, 0
        self.lines = data.decode(errors="replace").split("\n")
        if self.lines[-1] == "":
            self.lines.pop()

    def wrong(self, why: str, at: Optional[int] = None) -> Wrong:
        at = self.at if at is None else at
        shown = f"`{self.lines[at]:.60}`" if at < len(self.lines) else "the end of the file"
        return Wrong(f"{self.file}, line {self.first + at}: {shown}: {why}")

    def is_at_end(self) -> bool:
        return self.at >= len(self.lines)

    def taken(self, form: Union[str, re.Pattern[str]], why: str) -> re.Match[str]:
        """Returns the next line as the form matches it, and goes on."""
        found = None if self.is_at_end() else re.fullmatch(form, self.lines[self.at])
        if not found:
            raise self.wrong(why)
        self.at += 1
        return found


class Papers:
    """The papers of a season, as far as it is published."""

    def __init__(self, file: str, data: bytes):
        self.file = file
        bundle, requests, published, first = parts_of(file, data)
        found = sections(bundle)
        missing = [it for it in ("season", "register", "matrix", "choices") if it not in found]
        if missing:
            raise Wrong(f"{file}: there is no line [{missing[0]}]: a dossier begins with a whole bundle")
        self.bundle, self.requests, self.rounds = bundle, requests, rounds_of(Rows(file, "season", found["season"]))
        self.people = people_of(Rows(file, "register", found["register"]))
        self.programmes = programmes_of(Rows(file, "matrix", found["matrix"]))
        self.choices = choices_of(Rows(file, "choices", found["choices"]), self.people, self.programmes)
        self.seats: List[Seats] = []
        self.lists: Dict[Tuple[int, str], Dict[str, Step]] = {}
        self.final: Optional[Seats] = None
        self.special: Optional[Seats] = None
        self.read(Lines(file, published, first))

    # ---- reading

    def read(self, lines: Lines) -> None:
        """Reads the published texts: rounds with their lists, and the final admissions."""
        while not lines.is_at_end():
            at = lines.at
            begun = lines.taken(FIRST, "here a text begins with `round`, `list` or `final`")
            if begun[4]:
                self.lists[int(begun[4]), self.known(lines, begun[5], at)] = self.list_of(lines)
            else:
                self.take(lines, at, begun[1], self.text_of(lines, int(begun[2] or begun[3]), "final" if begun[3] else "round", at))
        for number, seats in enumerate(self.seats, 1):
            self.agrees(number, seats)

    def take(self, lines: Lines, at: int, number: Optional[str], seats: Seats) -> None:
        if number is None:
            if len(self.seats) != self.rounds:
                raise lines.wrong(f"the final admissions come after round {self.rounds}", at)
            self.final = seats
        elif int(number) != len(self.seats) + 1:
            raise lines.wrong(f"here round {len(self.seats) + 1} is expected", at)
        else:
            self.seats.append(seats)

    def known(self, lines: Lines, code: str, at: int) -> str:
        if code not in self.programmes:
            raise lines.wrong("the matrix has no programme of this code", at)
        return code

    def text_of(self, lines: Lines, count: int, kind: str, begin: int) -> Seats:
        """Returns who has which seat in a round, or is admitted in the end: programme and step."""
        found: Seats = {}
        word = "admit" if kind == "final" else "allot"
        while not lines.is_at_end() and lines.lines[lines.at].startswith(f"{word} "):
            at = lines.at
            row = lines.taken(ALLOT, f"a line here is `{word}`, a candidate number, a programme and a step")
            if int(row[1]) not in self.people or int(row[1]) in found:
                raise lines.wrong("an earlier line has this candidate too" if int(row[1]) in found else "the register has no candidate of this number", at)
            found[int(row[1])] = (self.known(lines, row[2], at), row[3])
        lines.taken(f"end {kind}", f"here a line `{word} ..` or `end {kind}` is expected")
        if len(found) != count:
            raise lines.wrong(f"{len(found)} lines follow it", begin)
        return found

    def list_of(self, lines: Lines) -> Dict[str, Step]:
        """Returns the steps of a programme's list."""
        found: Dict[str, Step] = {}
        for name in STEPS:
            at = lines.at
            step = lines.taken(STEP, f"here a line `step {name} seats N candidates N admitted N` is expected")
            if step[1] != name:
                raise lines.wrong(f"here the step {name} is expected", at)
            lines.taken(r"honoured \d+", "here a line `honoured N` is expected")
            admitted: Dict[int, str] = {}
            for _ in range(int(step[4])):
                row = lines.taken(BELOW, "here a candidate number with a letter or `-` is expected")
                admitted[int(row[1])] = row[2]
            found[name] = Step(int(step[2]), admitted)
        lines.taken("end list", "here the line `end list` is expected")
        return found

    def add_special(self, file: str, data: bytes) -> None:
        """Reads what `special` wrote: its seats go to candidates without a final admission."""
        if self.final is None:
            raise Wrong(f"{self.file}: the last cut is not made, so there was no special round")
        lines = Lines(file, data, 1)
        lines.taken(r"special seats \d+ seated \d+", "the text of a special round begins with `special seats N seated N`")
        at = lines.at
        begun = lines.taken(r"round 1 seated (\d+)", "here the line `round 1 seated N` is expected")
        self.special = self.text_of(lines, int(begun[1]), "round", at)
        twice = next((it for it in self.special if it in self.final), None)
        if twice is not None:
            raise Wrong(f"{file}: candidate {twice} has a final admission, and so no seat of the special round of this season")

    def agrees(self, number: int, seats: Seats) -> None:
        """Looks whether a round and its lists name the same people."""
        missing = next((code for code in self.programmes if (number, code) not in self.lists), None)
        if missing:
            raise Wrong(f"{self.file}: round {number} has no list of {missing}: tools/dossier writes a dossier with all lists")
        unranked = next((cand for cand, (code, _) in seats.items() if not self.people[cand].place(self.programmes[code].merit)), None)
        if unranked is not None:
            raise Wrong(f"{self.file}: candidate {unranked} has a seat of {seats[unranked][0]}, and no place in its merit list: have the dossier audited")
        listed = {cand: (code, step) for code in self.programmes for step, it in self.lists[number, code].items() for cand in it.admitted}
        for cand in sorted({*seats, *listed}):
            if seats.get(cand) != listed.get(cand):
                shown = [" ".join(it[cand]) if cand in it else "no seat" for it in (seats, listed)]
                raise Wrong(f"{self.file}: candidate {cand} has {shown[0]} in round {number}, and {shown[1]} in its lists: have the dossier audited")

    # ---- what was published

    def newest(self) -> Optional[str]:
        """Returns the name of the newest text: `special`, `final`, or the number of the last round."""
        names = self.names()
        return names[-1] if names else None

    def names(self) -> List[str]:
        """Returns the names of all texts, the oldest first."""
        later = [name for name, seats in ((FINAL, self.final), (SPECIAL, self.special)) if seats is not None]
        return [*(str(number) for number in range(1, len(self.seats) + 1)), *later]

    def steps(self, name: str, code: str) -> Dict[str, Step]:
        """Returns the list of a programme that goes with a text; the last round goes with the final admissions and the special round."""
        return self.lists[len(self.seats) if name in (FINAL, SPECIAL) else int(name), code]

    def seats_of(self, name: str) -> List[Seat]:
        """Returns the seats of a text by programme, step and merit place."""
        text = self.final if name == FINAL else self.special if name == SPECIAL else self.seats[int(name) - 1]
        assert text is not None
        order = {code: at for at, code in enumerate(self.programmes)}
        found = [Seat(cand, code, step, self.letter(name, cand, code, step)) for cand, (code, step) in text.items()]
        return sorted(found, key=lambda it: (order[it.code], STEPS.index(it.step), place_number(self.place(it))))

    def letter(self, name: str, cand: int, code: str, step: str) -> str:
        if name == SPECIAL:
            return ""
        admitted = self.steps(name, code)[step].admitted
        if cand not in admitted:
            raise Wrong(f"{self.file}: candidate {cand} has {code} {step} in the final admissions, and not in the last round: have the dossier audited")
        return admitted[cand]

    def place(self, seat: Seat) -> str:
        """Returns the place of a seated candidate in the merit list of the programme."""
        return self.people[seat.number].place(self.programmes[seat.code].merit)

    # ---- divided programmes

    def unit(self, code: str) -> Tuple[str, str]:
        """Returns the programme that a code names and its quota: a code is a unit if both units of the programme are in the matrix."""
        for end, quota in QUOTAS.items():
            base = code.removesuffix(end)
            if base != code and all(f"{base}{it}" in self.programmes for it in QUOTAS):
                return base, quota
        return code, ALL_INDIA


def place_number(place: str) -> int:
    return int(place.rstrip("R") or 0)


def parts_of(file: str, data: bytes) -> Tuple[bytes, bytes, bytes, int]:
    """Returns the bundle, the requests and the published texts of a dossier, and the number of the first line of the last."""
    kind = next((it for mark, it in OTHER_FILES.items() if data.startswith(mark)), None)
    if kind:
        raise Wrong(f"{file}: this is {kind}")
    bundle, rest, first = split_at(data, "requests")
    requests, published, second = split_at(rest or b"", "published")
    if not data.removeprefix(b"\xef\xbb\xbf").startswith(b"office bundle "):
        raise Wrong(f"{file}, line 1: `{data[:40].decode(errors='replace').splitlines()[0] if data.strip() else ''}`: a dossier begins with `office bundle 1` or `office bundle 2`")
    if rest is None or published is None:
        raise Wrong(f"{file}: this is no dossier, because a line [requests] and after it a line [published] are needed: tools/dossier makes it of a bundle or a store")
    return bundle, requests, without_special(published), first + second - 1


def rounds_of(rows: Rows) -> int:
    """Returns the number of rounds of the season."""
    found = next((row for row in rows.rows if row.fields[0] == "rounds"), None)
    if found is None:
        raise Wrong(f"{rows.file}: [season] has no row `rounds,N`")
    return int(rows.field(found, 1, ALLOWED["rounds"], lambda it: re.fullmatch("[1-9]|10", it)))


def papers(path: str, special: Optional[str] = None) -> Papers:
    """Returns the papers of a dossier's file, with the special round whose text is in another file."""
    with open(path, "rb") as it:
        found = Papers(path, it.read())
    if special is not None:
        with open(special, "rb") as it:
            found.add_special(special, it.read())
    return found


def chosen_text(it: Papers, asked: Optional[str]) -> str:
    """Returns the name of the text that is asked for, or of the newest."""
    newest = it.newest()
    if newest is None:
        raise Wrong(f"{it.file}: no round is published yet")
    if asked is None or asked in it.names():
        return asked or newest
    raise Wrong(f"--round {asked}: published are {', '.join(it.names())}")
