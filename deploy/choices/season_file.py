"""Reads what the choices need of a season: the register, the tokens and the seat matrix of a bundle."""
import csv
import io
import re
from typing import NamedTuple, Optional

from dossier_papers import DE_RESERVED, FINAL, Papers

MARK = "\ufeff"
NUMBER = re.compile(r"[1-9][0-9]{0,8}")
CODE = re.compile(r"[A-Za-z0-9-]{1,16}")
TOKEN = re.compile(r"[A-Za-z0-9]{8,32}")
PLACE = re.compile(r"([1-9][0-9]{0,6}R?)?")


class Wrong(Exception):
    """What in a file cannot be read."""


class Candidate(NamedTuple):
    """A row of the register, with the candidate's home state and first list."""

    number: int
    category: str
    traits: str
    token: str
    places: tuple[str, ...]
    state: str
    codes: tuple[str, ...]


class Programme(NamedTuple):
    """A programme with the merit list that it uses; a divided one has a home state, and a list for candidates of other states."""

    code: str
    institute: str
    merit: int
    home: str
    merit_of_others: int

    def merit_for(self, state: str) -> Optional[int]:
        """Returns the merit list in which a candidate of this state needs a place, or None if no candidate without a state may list the programme."""
        if not self.home:
            return self.merit
        if not state:
            return None
        return self.merit if state == self.home else self.merit_of_others


class Season(NamedTuple):
    """The candidates and programmes of a season. For a special round, `vacant` has the vacant seats of programmes, and `admitted` who has a final admission, and where."""

    candidates: list[Candidate]
    programmes: list[Programme]
    vacant: dict[str, int] = {}
    admitted: dict[int, str] = {}


def sections(text: str) -> dict[str, list[list[str]]]:
    """Returns the rows of each section by its name, without empty rows."""
    found: dict[str, list[list[str]]] = {}
    for part in re.split(r"^(?=\[)", text.removeprefix(MARK), flags=re.M)[1:]:
        title, _, body = part.partition("\n")
        rows = csv.reader(io.StringIO(body.removeprefix(MARK), newline=""))
        found[title.strip().rstrip(",").strip("[]")] = [row for row in rows if any(row)]
    return found


def matrix_of(rows: list[list[str]], homes: dict[str, str]) -> list[Programme]:
    """Returns the programmes of a seat matrix, in the order in which they first appear; both units of a divided programme are one."""
    found: dict[str, tuple[str, int]] = {}
    for row in rows[1:]:
        if len(row) < 5 or not CODE.fullmatch(row[0]) or row[2] not in ("1", "2", "3", "4"):
            raise Wrong(f"matrix: the row `{','.join(row)[:60]}` is none of a seat matrix")
        found.setdefault(row[0], (row[1], int(row[2])))
    programmes: dict[str, Programme] = {}
    for code, (institute, merit) in found.items():
        whole = code[:-3] if code[-3:] in ("-HS", "-OS") and code[:-3] in homes else code
        if whole == code:
            programmes[code] = Programme(code, institute, merit, "", merit)
            continue
        before = programmes.get(whole, Programme(whole, institute, merit, homes[whole], merit))
        programmes[whole] = before._replace(merit=merit) if code.endswith("-HS") else before._replace(merit_of_others=merit)
    return list(programmes.values())


def candidate_of(row: list[str], states: dict[str, str], lists: dict[str, tuple[str, ...]]) -> Candidate:
    """Returns the candidate of a row of the register."""
    number, category, traits, token, *places = [*row, *[""] * 8][: max(8, len(row))]
    is_row = NUMBER.fullmatch(number) and TOKEN.fullmatch(token) and len(places) == 4 and all(PLACE.fullmatch(it) for it in places)
    if not is_row:
        raise Wrong(f"register: the row of candidate `{number[:16]}` is none of a register")
    return Candidate(int(number), category, "" if traits == "-" else traits, token, tuple(places), states.get(number, ""), lists.get(number, ()))


def season_of(text: str) -> Season:
    """Returns the season of a bundle, with or without units."""
    at = re.search(rf"^{MARK}?office bundle [12]\b", text, re.M)
    if not at:
        raise Wrong("this is no bundle: no line begins with `office bundle`")
    before, found = sections(text[: at.start()]), sections(text[at.start() :])
    lacking = [it for it in ("register", "matrix", "choices") if it not in found]
    if lacking:
        raise Wrong(f"the bundle has no section [{lacking[0]}]")
    homes = {row[0]: row[1] for row in before.get("units", []) if len(row) > 1}
    states = {row[0]: row[1] for row in before.get("states", []) if len(row) > 1}
    lists = {row[0]: tuple(it for it in row[1:] if it) for row in found["choices"][1:]}
    return Season([candidate_of(row, states, lists) for row in found["register"][1:]], matrix_of(found["matrix"], homes))


def special_of(text: str) -> Season:
    """Returns what lists for a special round need of a dossier: its season without lists, the vacant seats, and who has a final admission."""
    papers = Papers("the dossier", text.encode())
    if papers.final is None:
        raise Wrong("the last cut is not made, or its text is not in the dossier: a special round comes after the final admissions")
    taken = [code for code, _ in papers.final.values()]
    seats = {code: sum(it.seats for step, it in papers.steps(FINAL, code).items() if step != DE_RESERVED) for code in papers.programmes}
    vacant = {code: count - taken.count(code) for code, count in seats.items() if count > taken.count(code)}
    season = season_of(text)
    candidates = [it._replace(codes=()) for it in season.candidates]
    return Season(candidates, season.programmes, vacant, {it: code for it, (code, _) in papers.final.items()})
