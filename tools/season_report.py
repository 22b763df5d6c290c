"""What tools/season says on standard error: why there is no bundle, or in words what the bundle has."""
from typing import Any, Iterable

from formats import CATEGORIES, STEPS, TRAITS
from spreadsheets import Findings, counted, in_one_line, some

# errors of one kind that have a line each, and fields that are shown of a question
SHOWN, OF_QUESTION = 5, 20


# ---- a refusal


def refusal(findings: Findings, left_out: list[str], whole: bool) -> Iterable[str]:
    """Gives the lines on why there is no bundle. Errors that others may follow from come first, and alone unless all are asked for."""
    yield from (*findings.causes, *findings.remarks, *left_out)
    if whole or not findings.causes:
        yield from errors(findings, whole)
        yield from questions(findings, whole)
    others = f"{counted(findings.count(), 'error')} and {counted(len(findings.questions), 'open question')}"
    if not findings.causes:
        yield f"{others}: no bundle was written"
    elif findings.count() or findings.questions:
        this, it = ("this", "it") if len(findings.causes) == 1 else ("these", "them")
        yield f"mend {this} first: {others} may follow from {it}{'' if whole else ', and --all lists them'}. No bundle was written"
    else:
        yield f"{counted(len(findings.causes), 'error')}: no bundle was written"


def errors(findings: Findings, whole: bool) -> Iterable[str]:
    """Gives the errors: many of one kind in one line."""
    yield from findings.files
    for found in findings.kinds.values():
        if whole or len(found) <= SHOWN:
            yield from (it.line() for it in found)
        else:
            yield in_one_line(found)


def questions(findings: Findings, whole: bool) -> Iterable[str]:
    """Gives the open questions with the words that answer them."""
    for name, cells in findings.questions.items():
        yield f"question {name}: {findings.asked[name]} Change the fields, or answer yes with --yes={name}"
        for cell, note in cells if whole else cells[:OF_QUESTION]:
            yield f"    {cell.place()}: {cell.value()}{f': {note}' if note else ''}"
        if len(cells) > OF_QUESTION and not whole:
            yield f"    and {len(cells) - OF_QUESTION:,} more: --all lists them"


# ---- a bundle


def seats_lines(matrix: Any) -> list[str]:
    """Returns the seats by programme and step, as a table."""
    rows: list[tuple[Any, ...]] = [("programme", "institute", "list", *STEPS, "all")]
    for name, it in matrix.programmes.items():
        counts = [it.steps.get(step, (0, 0))[1] for step in STEPS]
        rows.append((name, it.institute, it.merit, *counts, sum(counts)))
    rows.append(("all", "", "", *(sum(row[at] for row in rows[1:]) for at in range(3, len(rows[0])))))
    widths = [max(len(str(row[at])) for row in rows) for at in range(len(rows[0]))]
    return ["  ".join(str(it).ljust(width) if at < 2 else str(it).rjust(width) for at, (it, width) in enumerate(zip(row, widths))) for row in rows]


def protected_line(matrix: Any) -> str:
    """Returns how many seats are protected for which trait, in words."""
    counts = {letter: sum(row[5 + at] for row in matrix.rows) for at, letter in enumerate(TRAITS)}
    found = [f"{count} for {letter} ({TRAITS[letter]})" for letter, count in counts.items() if count]
    return f"protected seats among them: {', '.join(found) or 'none'}"


def people_lines(register: Any) -> Iterable[str]:
    """Gives how many candidates have which category and trait, in words."""
    people = register.people.values()
    for name, words in CATEGORIES.items():
        yield f"{name}: {words}, {sum(it.category == name for it in people)} candidates"
    for letter, words in TRAITS.items():
        count = sum(letter in it.traits for it in people)
        if count:
            yield f"{letter}: {words}, {counted(count, 'candidate')}"


def units_lines(register: Any, matrix: Any) -> Iterable[str]:
    """Gives which programmes are divided by state, and how many candidates have which of these states."""
    people = [it for it in register.people.values() if it.state]
    if not matrix.units:
        if people:
            yield f"the states of {counted(len(people), 'candidate')} are left out, because no programme is divided by state"
        return
    yield f"divided by state into -HS and -OS: {counted(len(matrix.units), 'programme')}: {some(f'{name} ({home})' for name, home in matrix.units.items())}"
    counts = {home: sum(it.state == home for it in people) for home in dict.fromkeys(matrix.units.values())}
    without = len(register.people) - len(people)
    found = [f"{count} of {home}" for home, count in counts.items()]
    yield f"candidates by state: {', '.join(found)}, {len(people) - sum(counts.values())} of other states, {without} without a state"


def odd_lines(read: Any) -> Iterable[str]:
    """Gives what no rule forbids, and a clerk may not have meant."""
    people, lists = read.register.people, read.choices.lists
    for what, found in (("without a place in any list", [it for it in people.values() if not it.places]), ("without choices", [it for id, it in people.items() if not lists.get(id)])):
        if found:
            yield f"candidates {what}: {len(found)}: {some(it.application or it.id for it in found)}"
    named = {name for codes in lists.values() for name in codes}
    unlisted = [name for name in read.matrix.choosable() if name not in named]
    if unlisted:
        yield f"programmes that nobody lists: {len(unlisted)}: {some(unlisted)}"
    for what, codes in (("programmes", read.matrix.programmes), ("institutes", {it.institute for it in read.matrix.programmes.values()})):
        by_letters: dict[str, list[str]] = {}
        for it in sorted(codes):
            by_letters.setdefault(it.lower(), []).append(it)
        for alike in by_letters.values():
            if len(alike) > 1:
                yield f"codes of {what} that differ only in case: {', '.join(alike)}"


def spelling_lines(findings: Findings) -> Iterable[str]:
    """Gives what was read otherwise than it is written."""
    for (file, column, kind), (count, first, example) in findings.spellings.items():
        where = f"{file}, column {column}" if column else file
        text = kind if kind == example else f"{kind}, {example}"
        yield f"{where}: read {text}, {count} time{'s' * (count > 1)}, first in row {first}"


def report(read: Any, findings: Findings, counts: dict[str, int], papers: list[str], path: str) -> Iterable[str]:
    """Gives the lines on a bundle that was written."""
    season, register, matrix = read.season, read.register, read.matrix
    yield f"version {season.version} of the rules, rounds: {season.rounds}, candidates: {len(register.people)}, programmes: {len(matrix.programmes)}"
    yield from people_lines(register)
    yield from ("seats by programme and step:", *(f"    {it}" for it in seats_lines(matrix)), protected_line(matrix))
    yield from (*units_lines(register, matrix), *register.remarks, *matrix.remarks, *odd_lines(read), *findings.remarks)
    yield from read.left_out()
    yield from spelling_lines(findings)
    yield from (f"answered yes: {name}: {findings.asked[name]}" for name in findings.asked)
    if any(it.application for it in register.people.values()):
        yield f"the candidates' numbers are given by the tool, 1 to {max(register.people, default=0)}: {path} has them next to the application numbers"
    yield f"tokens: {counts['given']} were given, {counts['kept']} are of an earlier call, {counts['made']} were made" + (f"; all are in {path}" if papers else "")
    yield from filter(None, papers[1:])
    command = "check units" if matrix.units else "check"
    yield f"The bundle has every token: keep it as closely as the tokens. Its last word is the office's: ./office {command} < bundle.txt"
