"""The limits, words and spellings of docs/FORMATS.md that the tools use. checks/tools compares them with that page.

Nothing here is proved. The office itself looks at every input, and has the last word."""
from typing import Iterable, NamedTuple

# ---- limits, as the table of all limits has them


class Limit(NamedTuple):
    """A row of the table of all limits: of what, which count, and its least and most."""

    of: str
    what: str
    least: int
    most: int

    def range(self) -> str:
        return f"{self.least:,} to {self.most:,}"

    def has(self, number: int) -> bool:
        return self.least <= number <= self.most


SHEET_BYTES = Limit("a step sheet", "bytes", 0, 16_777_216)
SHEET_CANDIDATES = Limit("a step sheet", "candidates", 0, 250_000)
BYTES = Limit("a season bundle, requests alone, a dossier", "bytes", 0, 134_217_728)
ROUNDS = Limit("a season", "rounds", 1, 10)
CANDIDATES = Limit("a merit register", "candidates", 0, 250_000)
NUMBER = Limit("a candidate", "the number", 1, 999_999_999)
PLACE = Limit("a candidate", "a place in a merit list", 1, 9_999_999)
TOKEN = Limit("a token", "bytes", 8, 32)
CODE = Limit("a code of a programme or institute", "bytes", 1, 16)
PROGRAMMES = Limit("a seat matrix", "programmes", 0, 2_000)
LISTS = Limit("a seat matrix", "merit lists", 1, 4)
SEATS = Limit("a seat matrix", "seats of a step; protections of a trait", 0, 4_000)
ALL_SEATS = Limit("a seat matrix", "seats of all steps together", 0, 1_000_000)
CHOICES = Limit("choice lists", "programmes on one list", 0, 1_000)
ALL_CHOICES = Limit("choice lists", "programmes on all lists", 0, 5_000_000)
WINDOW = Limit("a request", "a window, a round", 0, 65_535)
TURN = Limit("a request", "a turn", 1, 65_535)
RAISED = Limit("a request", "seats of a raise", 1, 4_000)

# ---- words

FIRST_LINES = ("office bundle 1", "office bundle 2")
UNITS_LINE, SHEET_LINE = "office units 1", "step sheet 1"
SECTIONS = ("season", "register", "matrix", "choices", "requests")
CATEGORIES = {"GEN": "general", "EWS": "economically weaker sections", "OBC": "other backward classes", "SC": "scheduled castes", "ST": "scheduled tribes"}
TRAITS = {"W": "women", "D": "persons with disabilities", "X": "ex-servicemen", "S": "sports", "F": "dependants of freedom fighters", "L": "local area"}
STEPS = ("OPEN", "EWS", "OBC", "SC", "ST")
# other spellings that a bundle may have too
OTHER_WORDS = {"GEN-EWS": "EWS", "OBC-NCL": "OBC"}
ANSWERS = ("freeze", "float", "slide", "withdraw")
MERIT_LISTS = tuple(f"m{it}" for it in range(LISTS.least, LISTS.most + 1))
HEADERS: dict[str, tuple[str, ...]] = {
    "register": ("id", "category", "traits", "token", *MERIT_LISTS),
    "matrix": ("programme", "institute", "list", "step", "seats", *TRAITS),
    "choices": ("candidate", "programmes"),
}
REQUESTS: dict[str, tuple[str, ...]] = {
    "answer": ("CAND", "WINDOW", "TURN", "CHOICE"),
    "cut": ("WINDOW",),
    "raise": ("WINDOW", "PROG", "STEP", "SEATS"),
    "seat": ("CAND",),
    "choices": ("CAND",),
    "register": ("CAND",),
    "answers": ("CAND",),
    "why": ("CAND", "PROG"),
    "list": ("ROUND", "PROG"),
    "cutoffs": ("ROUND", "PROG"),
    "round": ("ROUND",),
    "state": (),
}

# ---- what is allowed, in a sentence each


def listed(words: Iterable[str], last: str = "or") -> str:
    """Joins words for a sentence: A, B or C."""
    words = [*words]
    return words[0] if len(words) == 1 else f"{', '.join(words[:-1])} {last} {words[-1]}"


ALLOWED = {
    "id": f"a candidate number is {NUMBER.range()}, without a sign or a leading zero",
    "category": f"a category is {listed(CATEGORIES)}",
    "traits": f"traits are distinct letters of {listed((f'{letter} ({words})' for letter, words in TRAITS.items()), 'and')} in this order, or - for none",
    "place": f"a place is a number {PLACE.range()}, with R behind it if it counts for the category only, or nothing",
    "token": f"a token is {TOKEN.range()} letters A to Z, a to z and digits, and no two are the same",
    "code": f"a code is {CODE.range()} of the signs A to Z, a to z, 0 to 9 and -",
    "list": f"the merit list is {LISTS.range()}",
    "step": f"a step is {listed(STEPS)}; the office makes the de-reserved step itself",
    "seats": f"seats are {SEATS.range()}",
    "wide seats": f"seats are {SEATS.range()}, and nothing means 0",
    "protection": f"protected seats are {SEATS.range()}, and nothing means 0",
    "rounds": f"rounds are {ROUNDS.range()}",
    "asker": "who asks is clerk, nobody or a candidate number",
    "CAND": f"a candidate number is {NUMBER.range()}",
    "WINDOW": f"a window is {WINDOW.range()}",
    "ROUND": f"a round is {WINDOW.range()}",
    "TURN": f"a turn is {TURN.range()}",
    "SEATS": f"the seats of a raise are {RAISED.range()}",
    "CHOICE": f"an answer is {listed(ANSWERS)}",
}
ALLOWED |= {"PROG": ALLOWED["code"], "STEP": ALLOWED["step"]}
