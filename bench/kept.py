"""What a store keeps, as a moment of a history, and the receipts that were sent until then."""
from __future__ import annotations

import dataclasses
import json
import re
import sqlite3
from typing import Any, Optional

from history import CHOICES, STEPS

TABLES = ("season", "answer", "lift", "allot", "phase")
# the bodies of replies over HTTP that say what was accepted
BODIES = re.compile(r'\{"[^{}]*(?:\{[^{}]*\}[^{}]*)*"reply":"(?:noted|answers|raised|published|final|state)"[^{}]*\}')

# the rows of a store by its tables, and a receipt: what was accepted, as the row of its table, or a cut
Tables = dict[str, list[tuple[Any, ...]]]
Receipt = tuple[Any, ...]


def tables_of(path: str) -> Tables | None:
    """Returns the rows of a store that the office has closed, or None if it has no tables."""
    base = sqlite3.connect(path)
    try:
        return {name: base.execute(f"SELECT * FROM {name} ORDER BY 1, 2").fetchall() for name in TABLES}
    except sqlite3.DatabaseError:
        return None
    finally:
        base.close()


@dataclasses.dataclass
class Kept:
    """The history that a store kept at its end. Each earlier moment has a beginning of its answers and raises, and the seats of its cuts."""

    tables: Tables

    @property
    def cuts(self) -> int:
        count: int = self.tables["phase"][0][1]
        return count

    def fault_of(self, found: Tables | None, receipts: set[Receipt], has_begun: bool) -> str | None:
        """Returns why these tables are no moment of the history, or lack what a receipt says."""
        if found is None or not found["phase"]:
            if has_begun or receipts:
                return f"no season is kept, and {len(receipts)} receipts were sent"
            return None if found is None or not any(found.values()) else "rows without a season"
        cuts = found["phase"][0][1]
        for name in ("answer", "lift"):
            rows, all_rows = found[name], self.tables[name]
            if rows != all_rows[: len(rows)]:
                return f"the rows of {name} are no beginning of those of the history"
            if any(row[1] > cuts for row in rows) or any(row[1] < cuts for row in all_rows[len(rows) :]):
                return f"the rows of {name} are not those of a moment after {cuts} cuts"
        if found["season"] != self.tables["season"]:
            return "the season is another one"
        if cuts > self.cuts or found["allot"] != [row for row in self.tables["allot"] if row[0] <= cuts]:
            return "the seats are not those of the cuts"
        held = {("answer", *row[1:]) for row in found["answer"]} | {("lift", *row[1:]) for row in found["lift"]} | {("cut", it) for it in range(1, cuts + 1)}
        lost = receipts - held
        return f"{len(lost)} receipts are lost, such as {sorted(lost)[0]}" if lost else None


# ---- receipts


class Receipts:
    """What the bytes say that left the office: accepted answers and raises, and cuts, as replies in text or over HTTP, also where they reply to questions."""

    def __init__(self, rounds: int):
        self.rounds = rounds
        self.found: set[Receipt] = set()
        self.held: dict[int, str] = {}

    def add(self, descriptor: int, given: bytes) -> None:
        """Takes bytes that were sent over a descriptor. A line of text counts once it is whole, and a reply over HTTP at once."""
        text = given.decode(errors="replace")
        for it in BODIES.finditer(text):
            self.add_body(json.loads(it[0]))
        *lines, self.held[descriptor] = (self.held.get(descriptor, "") + text).split("\n")
        for line in lines:
            self.add_line(line.split(" "))

    def add_body(self, told: dict[str, Any]) -> None:
        said = told["reply"]
        if said == "noted":
            self.found.add(("answer", told["window"], told["cand"], told["turn"], CHOICES.index(told["choice"])))
        elif said == "answers":
            self.found |= {("answer", it["window"], told["cand"], it["turn"], CHOICES.index(it["choice"])) for it in told["answers"]}
        elif said == "raised":
            self.found.add(("lift", told["window"], "ABCD".index(told["programme"]), STEPS.index(told["step"]), told["seats"]))
        elif said in ("published", "state", "final"):
            self.add_cuts(told["round"] if said == "published" else told["now"] if said == "state" else self.rounds + 1)

    def add_line(self, words: list[str]) -> None:
        if words[0] == "noted" and len(words) == 7:
            self.found.add(("answer", int(words[3]), int(words[1]), int(words[5]), CHOICES.index(words[6])))
        elif words[0] == "raised":
            self.found.add(("lift", int(words[4]), "ABCD".index(words[1]), STEPS.index(words[2]), int(words[6])))
        elif words[0] in ("published", "final") and len(words) > 2:
            self.add_cuts(int(words[1]) if words[0] == "published" else self.rounds + 1)
        elif words[0] == "state" and len(words) > 2:
            self.add_cuts(int(words[2]))

    def add_row(self, row: str) -> None:
        """Takes a request as if it were accepted."""
        word, _, *fields = row.split(",")
        if word == "answer":
            self.found.add(("answer", int(fields[1]), int(fields[0]), int(fields[2]), CHOICES.index(fields[3])))
        elif word == "raise":
            self.found.add(("lift", int(fields[0]), "ABCD".index(fields[1]), STEPS.index(fields[2]), int(fields[3])))
        elif word == "cut":
            self.add_cuts(int(fields[0]) + 1)

    def add_cuts(self, count: int) -> None:
        self.found |= {("cut", it) for it in range(1, count + 1)}
