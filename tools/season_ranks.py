"""Makes one merit list of a common rank list and the rank lists of categories and of persons with disabilities; tools/season uses it.

The rule, which the report states: a rank in the common list is the place. Who has none, and has a rank in the list of their category, has a relaxed place behind all
common ones, so it counts for the category alone. Who is ranked by the standard for persons with disabilities alone has a common place behind all others, so it counts
for the protected seats of every step. Among those of one list the order is that of the list."""
from typing import Any, Iterable, NamedTuple, Optional

from formats import CATEGORIES, PLACE
from season_words import number
from spreadsheets import Cell, Findings, Table, counted

VERTICAL = tuple(it for it in CATEGORIES if it != "GEN")
# the lists behind the common one, in the order of their places; those behind the first four are relaxed ones too, and the last is common
BEHIND = (*VERTICAL, *(f"{it} PwD" for it in VERTICAL), "PwD")
NO_RANK = ("", "-", "--", "na", "n/a", "nil", "0")
RANK = f"a rank is a number {PLACE.range()}, or nothing"
ASKS_ORDER = "a list has another order than the common list: does the common list count?"
ASKS_PWD = "these persons with disabilities have a relaxed rank in their category, so they stand for its seats and for no open seat, also none that is protected for D: is that meant? With their rank in a common list for persons with disabilities alone, they have a common place behind all others."


class Ranked(NamedTuple):
    """A candidate of a merit list: the ranks by their lists, each with its field, and the columns of ranks that cannot be read. The common list is the list ``."""

    one: Any
    ranks: dict[str, int]
    cells: dict[str, Cell]
    unread: set[str]

    def first(self) -> Optional[str]:
        """Returns the list that decides the place."""
        of = self.one.category
        return next((it for it in ("", of, "PwD", f"{of} PwD") if it in self.ranks), None)


def lists_of(name: str, table: Table) -> dict[str, str]:
    """Returns the meanings of a table that are ranks of a merit list, each with the list: `` is the common one."""
    return {it: it.removeprefix(name).strip() for it in table.means if it == name or it.startswith(f"{name} ")}


def read_ranks(one: Any, merit: str, cells: dict[str, Cell], findings: Findings) -> Ranked:
    """Returns the ranks of a candidate, from fields by their lists. A rank in the list of another category is wrong."""
    found = Ranked(one, {}, {}, set())
    for of, cell in cells.items():
        if cell.text.lower() in NO_RANK:
            if cell.text:
                findings.read_as(cell, "no rank")
            continue
        rank = number(cell, PLACE, RANK, findings)
        name = of.replace("category", one.category or "")
        category = name.removesuffix("PwD").strip()
        if rank is None:
            one.refused.add(merit)
            found.unread.add(of)
        elif category and category != one.category and one.category:
            findings.wrong(cell, f"this is the list of {category}, and the candidate's category is {one.category}")
            one.refused.add(merit)
        elif name.endswith("PwD") and "D" not in one.traits:
            findings.wrong(cell, "this is a list of persons with disabilities, and the candidate has not the trait D")
            one.refused.add(merit)
        elif category != "GEN" or name.endswith("PwD"):
            name = "PwD" if name == "GEN PwD" else name
            found.ranks.setdefault(name, rank)
            found.cells.setdefault(name, cell)
    return found


def looks_at_repeats(people: Iterable[Ranked], findings: Findings) -> None:
    """Reports two candidates with one rank in one list."""
    taken: dict[tuple[str, int], Any] = {}
    for it in people:
        for of, rank in it.ranks.items():
            other = taken.setdefault((of, rank), it.one)
            if other is not it.one:
                findings.wrong(it.cells[of], f"row {other.row} ({other.called()}) has this place too; in one list all places differ")


def looks_at_order(people: list[Ranked], findings: Findings) -> None:
    """Asks if the list of a category has another order than the common list, or ranks somebody without a common rank before somebody with one. Who has a rank that
    could not be read is left out, because that error is reported already."""
    for of in BEHIND:
        within = sorted((it for it in people if of in it.ranks and not it.unread), key=lambda it: it.ranks[of])
        keys = [(it.ranks.get("", PLACE.most + 1), it.ranks[of]) for it in within]
        for before, after, one, other in zip(keys, keys[1:], within, within[1:]):
            if before > after:
                note = f"{other.one.called()} is behind {one.one.called()} (row {one.one.row}) here, and before them in the common list"
                findings.doubts("order", ASKS_ORDER, other.cells[of], note)


def begins(people: list[Ranked]) -> Optional[dict[str, int]]:
    """Returns the number behind which the places of each list are, or None if they do not fit: a thousand, ten thousand and so on, so that a rank can be read off."""
    used = [of for of in BEHIND if any(it.first() == of for it in people)]
    common = max((it.ranks[""] for it in people if "" in it.ranks), default=0)
    behind = max((it.ranks[of] for it in people for of in used if it.first() == of), default=0)
    if not used:
        return {}
    for unit in (*(10**at for at in range(3, 7)), *range(100_000, 5_000_000, 100_000)):
        first = -(-(common + 1) // unit) * unit
        if unit > behind and first + unit * max(len(used) - 1, 0) + behind <= PLACE.most:
            return {of: first + at * unit for at, of in enumerate(used)}
    return None


def give_places(name: str, people: list[Ranked], findings: Findings, file: str) -> list[str]:
    """Gives each candidate the place in a merit list that their ranks make, and returns the lines of the report on them."""
    looks_at_repeats(people, findings)
    looks_at_order(people, findings)
    first = begins(people)
    if first is None:
        findings.wrong_file(file, f"the ranks of {name} are too large to be put behind each other: the places of a merit list are {PLACE.range()}")
        return []
    counts: dict[str, int] = {}
    for it in people:
        of = it.first()
        if of is None:
            continue
        if of not in ("", "PwD") and "D" in it.one.traits:
            findings.doubts("PwD-ranks", ASKS_PWD, it.cells[of], it.one.called())
        it.one.places[name] = f"{first.get(of, 0) + it.ranks[of]}{'R' if of not in ('', 'PwD') else ''}"
        counts[of] = counts.get(of, 0) + 1
    return [*lines(name, counts, first, heading(people))]


def rank_rows(number: int, people: list[Ranked]) -> list[list[str]]:
    """Returns the rows of names.csv that say behind which place of a merit list the places are ranks in which list, R for relaxed ones; no row where there is one list alone."""
    columns, first = heading(people), begins(people)
    if not first:
        return []
    common = [["rank", f"{number}-0", columns[""]]] if "" in columns else []
    return [*common, *(["rank", f"{number}-{place}{'' if of == 'PwD' else 'R'}", columns[of]] for of, place in first.items())]


def heading(people: list[Ranked]) -> dict[str, str]:
    """Returns the column of each list, as the sheet calls it."""
    found: dict[str, str] = {}
    for it in people:
        for of, cell in it.cells.items():
            found.setdefault(of, cell.column)
    return found


def lines(name: str, counts: dict[str, int], first: dict[str, int], columns: dict[str, str]) -> Iterable[str]:
    """Gives the lines of the report: how a rank becomes a place."""
    yield f"places in {name}: the rank in `{columns.get('', 'the common list')}`, {counted(counts.get('', 0), 'candidate')}"
    for of in BEHIND:
        if of in counts:
            kind = "a common place behind all others, because their standard is relaxed for disability alone" if of == "PwD" else f"a relaxed place (R), which counts for {of.removesuffix(' PwD')} alone"
            yield f"    without that rank: {first[of]:,} and the rank in `{columns[of]}`, {counted(counts[of], 'candidate')}: {kind}"


def cells_of(table: Table, number_of_row: int, fields: list[str], name: str) -> dict[str, Cell]:
    """Returns the fields of a row that have ranks of a merit list, by their lists."""
    return {of: table.cell(number_of_row, fields, meaning) for meaning, of in lists_of(name, table).items()}
