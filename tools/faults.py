"""Finds the field that a fault line of the office means, and says what is allowed there; tools/explain uses it.

Each finder gets the rows of its section and the number of the faulty row. It returns the field, counted from 0, or None if the fault is of the whole row,
and a sentence."""
import re
from typing import Callable, Iterable, Optional

from bundles import Row, Sections, numbered_rows
from formats import ALLOWED, ALL_CHOICES, ALL_SEATS, ANSWERS, CANDIDATES, CHOICES, CODE, HEADERS, MERIT_LISTS, NUMBER, OTHER_WORDS, Limit
from formats import PLACE, PROGRAMMES, RAISED, REQUESTS, SEATS, STEPS, TOKEN, TRAITS, TURN, WINDOW, listed

# the field of a fault, and a sentence; and what finds them in the rows of a section
Found = tuple[Optional[int], str]
Finder = Callable[["Rows"], Found]


def is_number(text: str, limit: Limit) -> bool:
    return re.fullmatch("0|[1-9][0-9]*", text) is not None and limit.has(int(text))


def is_code(text: str) -> bool:
    return CODE.has(len(text)) and re.fullmatch("[A-Za-z0-9-]+", text) is not None


def is_token(text: str) -> bool:
    return TOKEN.has(len(text)) and re.fullmatch("[A-Za-z0-9]+", text) is not None


def is_step(text: str) -> bool:
    return OTHER_WORDS.get(text, text) in STEPS


def is_place(text: str) -> bool:
    return not text or is_number(text.removesuffix("R"), PLACE)


class Input:
    """The sections of an input, each cut into rows when they are asked for. A section that the input does not have has no rows."""

    def __init__(self, sections: Sections) -> None:
        self.sections = sections
        self.cut: dict[str, list[Row]] = {}

    def has(self, name: str) -> bool:
        return name in self.sections

    def rows(self, name: str) -> list[Row]:
        if name not in self.cut:
            self.cut[name] = numbered_rows(self.sections[name].body) if self.has(name) else []
        return self.cut[name]

    def line(self, name: str, row: Row) -> int:
        """Returns the line of the input where a row begins."""
        return self.sections[name].line + row.line


class Rows:
    """The rows of a section up to the faulty one, and the rest of the input for what they refer to."""

    def __init__(self, given: Input, section: str, number: int) -> None:
        self.given, found = given, given.rows(section)
        self.before = found[: number - 1]
        self.fields = found[number - 1].fields if number <= len(found) else []

    def field(self, at: int) -> str:
        return self.fields[at] if at < len(self.fields) else ""

    def earlier(self, is_same: Callable[[list[str]], bool]) -> str:
        """Says in which earlier row something is, or nothing."""
        row = next((it for it in self.before if is_same(it.fields)), None)
        return f"row {row.number} has it too; " if row else ""

    def first(self, columns: Iterable[int], is_right: Callable[[str], bool]) -> Optional[int]:
        """Returns the first of these columns whose field is not right, or None."""
        return next((at for at in columns if not is_right(self.field(at))), None)


# ---- the register


def header_of(section: str) -> Finder:
    def found(rows: Rows) -> Found:
        wanted = HEADERS[section]
        at = next((at for at in range(max(len(wanted), len(rows.fields))) if rows.field(at) != (wanted[at] if at < len(wanted) else "")), None)
        return at, f"the first row is {','.join(wanted)}"

    return found


def wrong_place(rows: Rows) -> Found:
    at = rows.first(range(4, 4 + len(MERIT_LISTS)), is_place)
    return (8, "a row has at most eight fields") if at is None else (at, ALLOWED["place"])


def repeated_place(rows: Rows) -> Found:
    for at in range(4, 4 + len(MERIT_LISTS)):
        bare = rows.field(at).removesuffix("R")
        where = bare and rows.earlier(lambda it: at < len(it) and it[at].removesuffix("R") == bare)
        if where:
            return at, f"{where}in one merit list all numbers differ, common or relaxed"
    return None, "in one merit list all numbers differ, common or relaxed"


def wrong_token(rows: Rows) -> Found:
    where = rows.earlier(lambda it: len(it) > 3 and it[3] == rows.field(3)) if rows.field(3) else ""
    return 3, f"{where}{ALLOWED['token']}"


REGISTER: dict[str, Finder] = {
    "BadHeader": header_of("register"),
    "TooMany": lambda rows: (None, f"a register has at most {CANDIDATES.most:,} candidates"),
    "BadId": lambda rows: (0, ALLOWED["id"]),
    "RepeatedId": lambda rows: (0, f"{rows.earlier(lambda it: it[0] == rows.field(0))}a candidate has one row"),
    "BadCategory": lambda rows: (1, f"{ALLOWED['category']}; {listed(OTHER_WORDS)} is the same as {listed(OTHER_WORDS.values())}"),
    "BadTrait": lambda rows: (2, ALLOWED["traits"]),
    "BadPlace": wrong_place,
    "RepeatedPlace": repeated_place,
    "RelaxedGeneral": lambda rows: (rows.first(range(4, 8), lambda it: not it.endswith("R")), "R is for places that count for the candidate's category only, and a GEN candidate has none"),
    "BadToken": wrong_token,
}

# ---- the matrix


def wrong_code(rows: Rows) -> Found:
    at = rows.first((0, 1), is_code)
    return (at, ALLOWED["code"]) if at is not None else (3, ALLOWED["step"])


def wrong_number(rows: Rows) -> Found:
    if not is_number(rows.field(4), SEATS):
        return 4, ALLOWED["seats"]
    at = rows.first(range(5, 5 + len(TRAITS)), lambda it: not it or is_number(it, SEATS))
    return (5 + len(TRAITS), "a row has at most eleven fields") if at is None else (at, ALLOWED["protection"])


def too_much(rows: Rows) -> Found:
    if len({it.fields[0] for it in rows.before[1:]} | {rows.field(0)}) > PROGRAMMES.most:
        return 0, f"a matrix has at most {PROGRAMMES.most:,} programmes"
    return 4, f"all rows together have at most {ALL_SEATS.most:,} seats"


def other_row(rows: Rows, at: int) -> Found:
    """Says in which earlier row the programme has another value in this field."""
    row = next((it for it in rows.before[1:] if it.fields[0] == rows.field(0)), None)
    return at, f"row {row.number} has programme {row.fields[0]} with {row.fields[at]}; a programme has one {HEADERS['matrix'][at]}" if row else f"a programme has one {HEADERS['matrix'][at]}"


def same_row(rows: Rows) -> Found:
    step = OTHER_WORDS.get(rows.field(3), rows.field(3))
    where = rows.earlier(lambda it: len(it) > 3 and it[0] == rows.field(0) and OTHER_WORDS.get(it[3], it[3]) == step)
    return 3, f"{where}a programme has one row for each step"


MATRIX: dict[str, Finder] = {
    "BadHeader": header_of("matrix"),
    "BadCode": wrong_code,
    "RepeatedRow": same_row,
    "BadNumber": wrong_number,
    "ProtectionsExceedSeats": lambda rows: (4, f"{sum(int(it or 0) for it in rows.fields[5:])} seats are protected in the columns W to L; at most as many as there are seats"),
    "UnknownList": lambda rows: (2, ALLOWED["list"]),
    "TwoInstitutes": lambda rows: other_row(rows, 1),
    "TwoLists": lambda rows: other_row(rows, 2),
    "TooMany": too_much,
}

# ---- the choices


def units_of(rows: Rows) -> Callable[[str], str]:
    """Returns a function from a choice of the row to the code in the matrix: that of a divided programme becomes one of its units."""
    homes = {it.fields[0]: it.fields[1] for it in rows.given.rows("units") if len(it.fields) == 2}
    state = next((it.fields[1] for it in rows.given.rows("states") if it.fields[0] == rows.field(0) and len(it.fields) == 2), None)
    return lambda code: f"{code}-{'HS' if homes[code] == state else 'OS'}" if code in homes else code


def unknown_programme(rows: Rows) -> Found:
    known, unit = {it.fields[0] for it in rows.given.rows("matrix")}, units_of(rows)
    at = rows.first(range(1, len(rows.fields)), lambda code: unit(code) in known) if known else None
    if at is not None and unit(rows.field(at)) != rows.field(at):
        return at, f"for this candidate the choice is the unit {unit(rows.field(at))}, and the matrix has no such programme"
    return at, "each choice is the code of a programme of the matrix, letter by letter"


def repeated_programme(rows: Rows) -> Found:
    at = next((at for at in range(1, len(rows.fields)) if rows.fields[at] in rows.fields[1:at]), None)
    return at, f"a list names a programme once{f'; the row has it before, in field {rows.fields.index(rows.fields[at], 1) + 1}' if at else ''}"


def without_place(rows: Rows) -> Found:
    merit = {it.fields[0]: it.fields[2] for it in rows.given.rows("matrix")[1:] if len(it.fields) > 2}
    person: list[str] = next((it.fields for it in rows.given.rows("register")[1:] if it.fields[0] == rows.field(0)), [])
    at, unit = None, units_of(rows)
    if person and merit:
        at = rows.first(range(1, len(rows.fields)), lambda code: unit(code) not in merit or any(person[3 + int(merit[unit(code)]) :][:1]))
    return at, "a candidate lists only programmes in whose merit list they have a place" + (f"; this one has merit list {merit[unit(rows.fields[at])]}" if at else "")


def direct_unit(rows: Rows) -> Found:
    divided = [it.fields[0] for it in rows.given.rows("units")]
    units = {f"{code}-{end}" for code in divided for end in ("HS", "OS")}
    return rows.first(range(1, len(rows.fields)), lambda it: it not in units), "a choice names the programme, and never one of its units -HS and -OS"


def without_state(rows: Rows) -> Found:
    divided = {it.fields[0] for it in rows.given.rows("units")}
    return rows.first(range(1, len(rows.fields)), lambda it: it not in divided), "a candidate who lists a divided programme has a row in [states]"


CHOICE_LISTS: dict[str, Finder] = {
    "BadHeader": header_of("choices"),
    "UnknownCandidate": lambda rows: (0, "the first field is the number of a candidate of the register"),
    "RepeatedCandidate": lambda rows: (0, f"{rows.earlier(lambda it: it[0] == rows.field(0))}a candidate has one row"),
    "TooLong": lambda rows: (CHOICES.most + 1, f"a list has at most {CHOICES.most:,} programmes"),
    "TooMany": lambda rows: (None, f"all rows together have at most {ALL_CHOICES.most:,} programmes"),
    "UnknownProgramme": unknown_programme,
    "RepeatedProgramme": repeated_programme,
    "NotRankedThere": without_place,
    "DirectUnit": direct_unit,
    "NoState": without_state,
}

# ---- the rows of the season, of units and of requests


def wrong_season(rows: Rows) -> Found:
    keys = [it.fields[0] for it in rows.before]
    key = rows.field(0)
    if not rows.fields:
        return None, f"the row {' and the row '.join(it for it in ('rounds,N', 'clerk,TOKEN') if it.split(',')[0] not in keys)} is missing"
    if key not in ("rounds", "clerk") or key in keys:
        return 0, f"{rows.earlier(lambda it: it[0] == key)}the rows are rounds,N and clerk,TOKEN, each once"
    if len(rows.fields) > 2:
        return 2, "a row of the season has two fields"
    if key == "rounds":
        return 1, ALLOWED["rounds"]
    return 1, ALLOWED["token"] if not is_token(rows.field(1)) else "the clerk's token is no candidate's"


def wrong_of_pair(allowed: str, is_right: Callable[[str], bool], most: int) -> Finder:
    """A row of two fields, of which the second is a state."""

    def found(rows: Rows) -> Found:
        if len(rows.fields) > 2:
            return 2, "a row has two fields"
        if not is_right(rows.field(0)):
            return 0, allowed
        if not re.fullmatch("[A-Z]{2}", rows.field(1)):
            return 1, "a state is two letters A to Z"
        where = rows.earlier(lambda it: it[0] == rows.field(0))
        return 0, where + "it has one row" if where else f"there are at most {most:,} rows"

    return found


def is_asker(text: str) -> bool:
    return text in ("clerk", "nobody") or is_number(text, NUMBER)


IS_RIGHT: dict[str, Callable[[str], bool]] = {
    "CAND": lambda it: is_number(it, NUMBER),
    "WINDOW": lambda it: is_number(it, WINDOW),
    "ROUND": lambda it: is_number(it, WINDOW),
    "TURN": lambda it: is_number(it, TURN),
    "SEATS": lambda it: is_number(it, RAISED),
    "CHOICE": ANSWERS.__contains__,
    "PROG": is_code,
    "STEP": is_step,
}


def wrong_request(rows: Rows) -> Found:
    kind = rows.field(0)
    if kind not in REQUESTS:
        return 0, f"the first field of a request is {listed(REQUESTS)}"
    form = REQUESTS[kind]
    spelled = f"a row is {','.join([kind, 'BY', *form])}"
    if len(rows.fields) > len(form) + 2:
        return len(form) + 2, spelled
    if not is_asker(rows.field(1)):
        return 1, f"{spelled}; {ALLOWED['asker']}"
    at = next((at for at, name in enumerate(form, 2) if not IS_RIGHT[name](rows.field(at))), None)
    return at, f"{spelled}; {ALLOWED[form[at - 2]]}" if at else spelled


FINDERS: dict[tuple[str, str], Finder] = {
    ("register", kind): it for kind, it in REGISTER.items()
} | {("matrix", kind): it for kind, it in MATRIX.items()} | {("choices", kind): it for kind, it in CHOICE_LISTS.items()} | {
    ("season", "BadSeason"): wrong_season,
    ("requests", "BadRequest"): wrong_request,
    ("units", "BadUnit"): wrong_of_pair(f"a divided programme has a code of at most {CODE.most - 3} signs A to Z, a to z, 0 to 9 and -", lambda it: is_code(it) and len(it) <= CODE.most - 3, PROGRAMMES.most),
    ("states", "BadState"): wrong_of_pair(ALLOWED["CAND"], lambda it: is_number(it, NUMBER), CANDIDATES.most),
    ("special", "Admitted"): lambda rows: (0, "a candidate with a final admission keeps it, and hands in no list for the special round"),
}

# ---- the names of the columns


def column_name(section: str, at: int, fields: list[str]) -> str:
    """Returns what a field is called: by its header, or by its place in a request."""
    if section == "requests":
        form = ("the request", "BY", *REQUESTS.get(fields[0] if fields else "", ()))
        return form[at] if at < len(form) else f"field {at + 1}"
    header = {"units": ("CODE", "STATE"), "states": ("CAND", "STATE"), "season": ("the key", *fields[:1]), "special": HEADERS["choices"]}.get(section, HEADERS.get(section, ()))
    if section in ("choices", "special") and at >= 1:
        return f"choice {at}"
    return header[at] if at < len(header) else f"field {at + 1}"


def shown_fields(section: str, fields: list[str]) -> str:
    """Returns fields for a message: never a token, and a long row cut short."""
    hidden = 3 if section == "register" else 1 if section == "season" and fields[:1] == ["clerk"] else None
    text = ",".join("(token)" if at == hidden and it else it for at, it in enumerate(fields[:60]))
    return text if len(text) <= 100 and len(fields) <= 60 else f"{text[:100]}.."


def is_secret(section: str, at: int, fields: list[str]) -> bool:
    return section == "register" and at == 3 or section == "season" and at == 1 and fields[0] == "clerk"
