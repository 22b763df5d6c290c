"""The cutoffs of a published round by trying, held against what the program replies.

A cutoff says whom a step would admit in addition. So one candidate more, with every set of traits and at every place, is put among those who stood for the
step, and the step chooses anew by its definition (checks/plain_office.py). Nothing here works a cutoff out from those who were admitted, apart from the
wrong rules of WRONG: each is known to be wrong, and the comparison has to find it."""
import collections
import functools
import math
import os
import re
import subprocess
import sys
import tempfile
from typing import Callable, Iterable, Iterator, Mapping, Optional

from cases import SECONDS
from plain_markets import Market, Wrong, drawn_script, may_have, replies_of, seats_in
from plain_office import STEPS, TRAITS, Person, Protections, Season, StepList, chosen, greatest
from plain_trials import Draw, Seats, Trial

# the lines of a step: letters, and the last place that is within
Lines = list[tuple[str, float]]
# whether one candidate more is admitted, for each set of traits and each place
Table = dict[tuple[str, float], bool]
# gives the lines of a step from its list, the merit list, and who applied to the programme in merit order
Rule = Callable[[StepList, int, list[Person]], Lines]
SETS = ["".join(letter for at, letter in enumerate(TRAITS) if number >> at & 1) for number in range(64)]
# how many seasons are drawn, and how many of them with checks/repository alone
ALL, FEW = 300, 4
# and how many rounds with a candidate who may join them
ALL_JOINED, FEW_JOINED = 1000, 20
TOOL = f"{os.path.dirname(os.path.dirname(os.path.realpath(__file__)))}/tools/cutoffs"


# ---- a reply, and how it is read


def lines_in(replies: str, number: int, code: str) -> dict[str, Lines]:
    """The lines of a programme's cutoffs in a round, for each step: the letters, and the last place that is within, infinity for every place."""
    found = re.search(rf"^cutoffs {number} {code}\n((?:\w+ [-{TRAITS}]+ (?:\d+|any)\n)*)end cutoffs$", replies, re.M)
    if not found:
        raise Wrong(f"there are no cutoffs of {code} in round {number}")
    lines = [line.split(" ") for line in found[1].splitlines()]
    if sorted(lines, key=lambda it: STEPS.index(it[0])) != lines:
        raise Wrong(f"the steps of the cutoffs of {code} in round {number} are not in order")
    return {step: [(traits.strip("-"), math.inf if last == "any" else int(last)) for word, traits, last in lines if word == step] for step in STEPS}


def last_of(lines: Iterable[tuple[str, float]], traits: str) -> float:
    """The last place that is within for these traits: 0 for none. The lines whose letters are all held count, and the widest of them."""
    return max((last for letters, last in lines if set(letters) <= set(traits)), default=0)


def step_met(season: Season, code: str, lines: dict[str, Lines], person: Person) -> Optional[str]:
    """The first step of a programme for which somebody may stand and whose cutoff they are within, or None."""
    place = person.rank(season.merit(code))
    met = (step for step in STEPS if may_have(person, season, code, step) and place <= last_of(lines[step], person.traits))
    return next(met, None)


# ---- one candidate more, at every place


def only(traits: str, protections: Protections) -> str:
    """The traits that the step protects: the others decide nothing there."""
    return "".join(letter for letter, count in zip(TRAITS, protections) if count and letter in traits)


def table_of(found: StepList, merit: int) -> Table:
    """Whether one candidate more is admitted, for each set of traits and each place: that of somebody who stood for the step, or behind all."""
    people = tuple(only(it.traits, found.protections) for it in found.people)
    places = [*(it.rank(merit) for it in found.people), math.inf]

    @functools.lru_cache(maxsize=None)
    def admits(traits: str, at: int) -> bool:
        return at in chosen((*people[:at], traits, *people[at:]), found.seats, found.protections)

    return {(traits, place): admits(only(traits, found.protections), at) for traits in SETS for at, place in enumerate(places)}


def fault_of_lines(table: Table, lines: Lines) -> Optional[str]:
    """Why these lines do not say of each set of traits and each place whether it is admitted, or could be fewer, or None."""
    for (traits, place), is_admitted in table.items():
        if is_admitted != (place <= last_of(lines, traits)):
            return f"one candidate more with the traits {traits or '-'} at place {place} is {'' if is_admitted else 'not '}admitted, and the lines {lines} say otherwise"
    numbers = [SETS.index(letters) for letters, _ in lines]
    if numbers != sorted(set(numbers)):
        return f"the lines {lines} are not in the order of their sets"
    for letters, last in lines:
        if last <= last_of([it for it in lines if it[0] != letters], letters):
            return f"the line {letters or '-'} {last} says no more than the others of {lines}"
    return None


def lines_by(last: Mapping[str, float]) -> Lines:
    """The lines of a step from the last place that is within for each set of traits."""
    return [(it, last[it]) for it in SETS if last[it] > max((last[other] for other in SETS if set(other) < set(it)), default=0)]


# ---- rules that are wrong, and the one that is right


def by_rule(found: StepList, merit: int, of_those: Callable[..., float] = max) -> dict[str, float]:
    """The last place for each set of traits by the rule: of the members in whose place a holder honours as many protections, that of the worst."""
    held = [it.traits for it in found.admitted]
    last: dict[str, float] = {}
    honoured: Callable[[list[str]], int] = lambda people: greatest(tuple(people), found.protections)
    for traits in SETS:
        is_open = len(held) < found.seats or found.seats and honoured([*held, traits]) > honoured(held)
        replaced = [it.rank(merit) for at, it in enumerate(found.admitted) if honoured([*held[:at], *held[at + 1 :], traits]) >= honoured(held)]
        last[traits] = math.inf if is_open else of_those(replaced, default=0)
    return last


def open_to_all(found: StepList, merit: int, applied: list[Person]) -> StepList:
    """The step OPEN with relaxed places among the others."""
    return StepList(found.step, found.seats, found.protections, applied) if found.step == "OPEN" else found


RIGHT: Rule = lambda found, merit, applied: lines_by(by_rule(found, merit))
WRONG: dict[str, Rule] = {
    "the best place in place of the worst": lambda found, merit, applied: lines_by(by_rule(found, merit, min)),
    "a full step admits anybody": lambda found, merit, applied: lines_by({it: last and math.inf for it, last in by_rule(found, merit).items()}),
    "a line too many": lambda found, merit, applied: [(it, last) for it, last in by_rule(found, merit).items() if last and it in ("", "W", "D", "WD")],
    "a line too few": lambda found, merit, applied: RIGHT(found, merit, applied)[:-1],
    "relaxed places at OPEN": lambda found, merit, applied: lines_by(by_rule(open_to_all(found, merit, applied), merit)),
}


# ---- drawn seasons


def applicants(season: Season, sought: dict[int, list[str]], seats: Seats, code: str) -> list[Person]:
    """Who applied to a programme, in merit order: who sought it, and has no seat that they sought more."""
    tried = {cand: own[: own.index(seats[cand][0]) + 1] if cand in seats else own for cand, own in sought.items()}
    return sorted((it for it in season.people if code in tried[it.id]), key=lambda it: it.rank(season.merit(code)))


class Tried:
    """A drawn season: its script with all questions for cutoffs, and what comes of one candidate more at each step of its rounds."""

    def __init__(self, draw: Draw, number: int) -> None:
        market = Market(draw, draw.below(3) + 1)
        self.label, self.text = f"cutoffs, season {number}", market.text(market.choices)
        self.season = Season(self.text)
        self.rows, self.office = drawn_script(draw, self.season)
        self.asked = [(at, code) for at in range(1, len(self.office.rounds) + 1) for code in self.season.programmes]
        self.rows += [f"cutoffs,nobody,{at},{code}" for at, code in self.asked]

    @functools.cached_property
    def steps(self) -> list[tuple[int, str, StepList, Table, list[Person]]]:
        """Each step of each round, with its table, the round and the programme, and who applied there."""
        told: list[tuple[int, str, StepList, Table, list[Person]]] = []
        for at, code in self.asked:
            this, merit = self.office.rounds[at - 1], self.season.merit(code)
            applied = applicants(self.season, this.sought, this.seats, code)
            told += [(at, code, found, table_of(found, merit), applied) for found in this.lists[code]]
        return told

    def found_wrong(self) -> collections.Counter[str]:
        """How often each wrong rule is found wrong. Ends where the right one is."""
        seen: collections.Counter[str] = collections.Counter()
        for at, code, found, table, applied in self.steps:
            of_step = (found, self.season.merit(code), applied)
            if fault_of_lines(table, RIGHT(*of_step)):
                raise Wrong(f"round {at}, {code} {found.step}: the rule of docs/RULES.md: {fault_of_lines(table, RIGHT(*of_step))}")
            seen.update(name for name, rule in WRONG.items() if fault_of_lines(table, rule(*of_step)))
        return seen


def fault_of_season(program: str, tried: Tried) -> Optional[str]:
    """Why the program's cutoffs are not those that trying gives, or None."""
    try:
        replies = replies_of(program, tried.text, tried.rows)
        told = {it: lines_in(replies, *it) for it in tried.asked}
        for at, code, found, table, _ in tried.steps:
            why = fault_of_lines(table, told[at, code][found.step])
            if why:
                raise Wrong(f"round {at}, {code} {found.step}: {why}")
    except Wrong as why:
        return f"{tried.label}: {why}"
    return None


# ---- the tool that works cutoffs out of a dossier


def compared(dossier: str, published: str, name: str = "published") -> tuple[str, int]:
    """What tools/cutoffs says of a file of published cutoffs, and its status."""
    with tempfile.TemporaryDirectory(prefix="cutoffs-") as room:
        for file, text in (("dossier", dossier), (name, published)):
            with open(f"{room}/{file}", "w", encoding="utf-8") as it:
                it.write(text)
        ran = subprocess.run([sys.executable, TOOL, f"{room}/dossier", f"{room}/{name}"], stdout=subprocess.PIPE, stderr=subprocess.STDOUT, text=True, timeout=SECONDS)
    return ran.stdout.strip(), ran.returncode


def table_of_round(replies: str, number: int, codes: list[str]) -> str:
    """The table of a round's cutoffs as deploy/papers writes it."""
    rows = [f"{code},I1,{step},{letters or '-'},{'any' if last == math.inf else last}\n" for code in codes
            for step, lines in lines_in(replies, number, code).items() for letters, last in lines]
    return "programme,institute,step,traits,place\n" + "".join(rows)


def fault_of_tool(program: str, tried: Tried) -> Optional[str]:
    """Why tools/cutoffs does not find the program's cutoffs right by its lists, or one that was changed wrong, or None."""
    try:
        asked = [f"list,nobody,{at},{code}" for at, code in tried.asked]
        replies = replies_of(program, tried.text, [*tried.rows, *asked])
    except Wrong as why:
        return f"{tried.label}: {why}"
    dossier = f"{tried.text}[requests]\n[published]\n{replies}"
    first = [code for at, code in tried.asked if at == 1]
    for given in ((replies,), *([(table_of_round(replies, 1, first), "cutoffs-1.csv")] if first else [])):
        said, status = compared(dossier, *given)
        if status:
            return f"{tried.label}: tools/cutoffs ended with status {status}: {said}"
    spoiled = re.sub(r"^(cutoffs .*\n\w+ \S+ )(?:\d+|any)$", r"\g<1>77", replies, count=1, flags=re.M)
    said, status = compared(dossier, spoiled)
    return None if spoiled == replies or status == 10 else f"{tried.label}: tools/cutoffs ended with status {status} on a wrong cutoff: {said}"


@functools.lru_cache(maxsize=None)
def drawn_cutoffs(count: int) -> list[Tried]:
    draw = Draw(7)
    return [Tried(draw, number) for number in range(count)]


def not_found(drawn: list[Tried]) -> Optional[str]:
    """What keeps the drawn seasons from telling the rule from each wrong one, or None."""
    seen: collections.Counter[str] = collections.Counter()
    try:
        for it in drawn:
            seen += it.found_wrong()
    except Wrong as why:
        return f"drawn cutoffs: {why}"
    missed = [name for name in WRONG if not seen[name]]
    return f"drawn cutoffs: no season shows that this is wrong: {', '.join(missed)}" if missed else None


# ---- a candidate who did not take part


class Joined:
    """A drawn round in which a candidate hands in no list, or a list of one programme."""

    def __init__(self, draw: Draw, number: int) -> None:
        self.label, self.market = f"cutoffs, newcomer {number}", Market(draw)
        self.cand = self.market.candidate
        self.codes = self.market.listable[self.cand]
        self.others = {cand: own for cand, own in self.market.choices.items() if cand != self.cand}

    def with_list(self, own: list[str]) -> str:
        return self.market.text({**self.others, self.cand: own})


def fault_of_newcomer(program: str, joined: Joined) -> Optional[str]:
    """Why somebody who is within no cutoff of a programme would have had its seat by the list of it alone, and so by some list, or None.

    The converse is false: cases/counterexamples.txt has somebody who is within and would have had no seat."""
    try:
        replies = replies_of(program, joined.with_list([]), ["cut,clerk,0", *(f"cutoffs,nobody,1,{it}" for it in joined.codes)])
        season = Season(joined.with_list([]))
        person = season.registered(joined.cand)
        for code in joined.codes:
            met = step_met(season, code, lines_in(replies, 1, code), person)
            seat = seats_in(replies_of(program, joined.with_list([code]), ["cut,clerk,0"])).get(joined.cand)
            if seat and not met:
                raise Wrong(f"{joined.cand} is within no cutoff of {code}, and has its seat by a list of it alone")
    except Wrong as why:
        return f"{joined.label}: {why}"
    return None


@functools.lru_cache(maxsize=None)
def drawn_newcomers(count: int) -> list[Joined]:
    draw = Draw(5)
    return [Joined(draw, number) for number in range(count)]


# ---- a step with as many as there can be


def largest(seats: int = 4000, letters: str = TRAITS) -> tuple[str, str]:
    """A season whose one step has the most seats, all protected and all needed: the letters hold the places in turn. And the lines of its cutoffs: nobody can be
    replaced but by a holder of their letter."""
    share = [len(range(TRAITS.index(it), seats, len(letters))) if it in letters else 0 for it in TRAITS]
    text = "office bundle 1\n[season]\nrounds,1\nclerk,clerk0001\n[register]\nid,category,traits,token,m1,m2,m3,m4\n"
    text += "".join(f"{it + 1},GEN,{letters[it % len(letters)]},tok{it + 1:05d},{it + 1}\n" for it in range(seats))
    text += f"[matrix]\nprogramme,institute,list,step,seats,W,D,X,S,F,L\nA,I1,1,OPEN,{seats},{','.join(map(str, share))}\n"
    text += "[choices]\ncandidate,programmes\n" + "".join(f"{it + 1},A\n" for it in range(seats))
    last = {letter: seats - (seats - 1 - at) % len(letters) for at, letter in enumerate(letters)}
    lines = lines_by({it: max((last.get(letter, 0) for letter in it), default=0) for it in SETS})
    return text, "".join(f"OPEN {it} {place}\n" for it, place in lines)


def fault_of_largest(program: str, letters: str) -> Optional[str]:
    """Why the cutoffs of the largest step are not those that a person works out, or None. bench/cutoffs measures how long they take."""
    text, lines = largest(letters=letters)
    try:
        replies = replies_of(program, text, ["cut,clerk,0", "cutoffs,nobody,1,A"])
    except Wrong as why:
        return f"cutoffs of 4,000 seats: {why}"
    return None if replies.endswith(f"end round\ncutoffs 1 A\n{lines}end cutoffs\n") else f"cutoffs of 4,000 seats: the lines are not {lines!r}"


def trials(program: str, is_long: bool) -> Iterator[Trial]:
    """What is tried, each a call that gives a fault or None."""
    drawn = drawn_cutoffs(ALL if is_long else FEW)
    yield functools.partial(not_found, drawn)
    yield from (functools.partial(fault_of_largest, program, it) for it in (TRAITS, "W"))
    yield from (functools.partial(fault_of_season, program, it) for it in drawn)
    yield from (functools.partial(fault_of_tool, program, it) for it in drawn)
    yield from (functools.partial(fault_of_newcomer, program, it) for it in drawn_newcomers(ALL_JOINED if is_long else FEW_JOINED))
