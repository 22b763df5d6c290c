"""A plain reader of scripts without quotes, and a worked script with one of its letters damaged: what the program makes of it is held against what the
plain reader and the plain office make of it."""
import re
from typing import Callable, Iterator, Optional

from plain_office import CHOICES, MOST_SEATS, OTHER_WORDS, STEPS, Office, Season

# rows of each kind, and rows that are skipped
SCRIPT = """cut,clerk,0
state,nobody
answer,2,2,1,1,slide,,

,,
seat,clerk,2
choices,4,4
register,4,4
answers,2,2
cutoffs,3,1,B
why,3,3,A
list,nobody,1,B
round,5,1
raise,clerk,1,B,OBC-NCL,2
answer,4,4,1,1,withdraw
answer,5,5,1,1,float
cut,clerk,1
"""
OTHERS = ("", ",", "\n", "0", "1", "x", "-", "clerk", "65536")
MOST_CANDIDATES, MOST_SHORT = 999_999_999, 65_535


def damaged_scripts() -> Iterator[str]:
    """The script itself, one without rows, and the script with another text in place of each letter."""
    yield SCRIPT
    yield ""
    for at in range(len(SCRIPT)):
        for other in OTHERS:
            yield SCRIPT[:at] + other + SCRIPT[at + 1 :]


def is_number(text: str, low: int, high: int) -> bool:
    return re.fullmatch("0|[1-9][0-9]*", text) is not None and low <= int(text) <= high


def is_candidate(text: str) -> bool:
    return is_number(text, 1, MOST_CANDIDATES)


def is_short(text: str) -> bool:
    return is_number(text, 0, MOST_SHORT)


def is_turn(text: str) -> bool:
    return is_number(text, 1, MOST_SHORT)


def is_code(text: str) -> bool:
    return re.fullmatch("[A-Za-z0-9-]{1,16}", text) is not None


def is_step(text: str) -> bool:
    return OTHER_WORDS.get(text, text) in STEPS[:-1]


def is_raised(text: str) -> bool:
    return is_number(text, 1, MOST_SEATS)


def is_asker(text: str) -> bool:
    return text in ("clerk", "nobody") or is_candidate(text)


# what the fields of a row are behind its kind and who asks
FIELDS: dict[str, tuple[Callable[[str], bool], ...]] = {
    "answer": (is_candidate, is_short, is_turn, lambda text: text in CHOICES),
    "cut": (is_short,),
    "seat": (is_candidate,),
    "choices": (is_candidate,),
    "register": (is_candidate,),
    "answers": (is_candidate,),
    "why": (is_candidate, is_code),
    "list": (is_short, is_code),
    "cutoffs": (is_short, is_code),
    "round": (is_short,),
    "state": (),
    "raise": (is_short, is_code, is_step, is_raised),
}


def is_request(row: list[str]) -> bool:
    fields = FIELDS.get(row[0])
    return fields is not None and len(row) == len(fields) + 2 and is_asker(row[1]) and all(it(text) for it, text in zip(fields, row[2:]))


def rows_of(script: str) -> tuple[list[list[str]], Optional[int]]:
    """The rows of a script that are not empty, as fields without the empty ones at an end; and the number of the first that is no request, or None."""
    rows = [row for row in (line.rstrip(",").split(",") for line in script.split("\n")) if row != [""]]
    return rows, next((number for number, row in enumerate(rows, 1) if not is_request(row)), None)


def told(season: str, script: str) -> tuple[str, str, int]:
    """What `check` and `run` write of a season with this script, and their status."""
    rows, bad = rows_of(script)
    if bad:
        fault = f"fault: requests row {bad} BadRequest\n"
        return fault, fault, 3
    known = Season(season)
    office = Office(known)
    choices = sum(map(len, known.choices.values()))
    counts = f"bundle candidates {len(known.people)} programmes {len(known.programmes)} choices {choices} rounds {known.rounds}\n"
    return counts, "".join(office.reply(",".join(row)) for row in rows), 0
