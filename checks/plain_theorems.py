"""Theorems of a round and of a season, tried on drawn markets: docs/promises/ says them in words, and checks/plain_laws.py draws the markets.

Each function raises Wrong where the program publishes what a theorem excludes, and counts what it looked at, so that no theorem holds of nothing."""
import collections
import copy
import itertools
from typing import Callable, Iterator, Optional, cast

from plain_cutoffs import Lines, applicants, last_of, lines_in, step_met
from plain_markets import Market, Steps, Wrong, drawn_script, lists_in, may_have, rank, replies_of, seats_in
from plain_office import STEPS, Person, Season, lists_of
from plain_trials import Draw, Seats, fair_ones, in_order

# how often each thing was seen
Seen = collections.Counter[str]
# what each one sought for a round
Sought = dict[int, list[str]]
# the lines of each step of each programme
Cutoffs = dict[str, dict[str, Lines]]

# ---- theorems of a round: what each one sought, the seats and the lists


def first_open(person: Person, season: Season, own: list[str], seats: Seats) -> Optional[str]:
    """The first programme of a list that is open to somebody: a seat there, of a step for which they may stand, is of one who is no better and holds no other trait."""
    for code in own:
        for cand, (other, step) in seats.items():
            holder, merit = season.registered(cand), season.merit(code)
            if other == code and may_have(person, season, code, step) and set(holder.traits) <= set(person.traits) and holder.rank(merit) >= person.rank(merit):
                return code
    return None


def closing_places_decide(season: Season, sought: Sought, seats: Seats, seen: Seen) -> None:
    for person in season.people:
        found, has = first_open(person, season, sought[person.id], seats), seats.get(person.id, (None,))[0]
        seen["seats that closing places tell"] += has is not None
        if found != has:
            raise Wrong(f"the first programme that is open to {person.id} is {found}, and the seat is of {has}")


def no_seat_is_wasted(season: Season, sought: Sought, seats: Seats, lists: dict[str, Steps], seen: Seen) -> None:
    for code, steps in lists.items():
        for step in (it for it, (count, people) in steps.items() if len(people) < count):
            for person in (it for it in season.people if code in sought[it.id] and may_have(it, season, code, step)):
                seen["empty seats that somebody sought"] += 1
                if rank(sought[person.id], seats.get(person.id)) > sought[person.id].index(code):
                    raise Wrong(f"{code} {step} has an empty seat, and {person.id}, who sought it and may have it, has {seats.get(person.id)}")


def with_lists(season: Season, lists: dict[int, list[str]]) -> Season:
    """The season with other lists of some."""
    other = copy.copy(season)
    other.choices = {**season.choices, **lists}
    return other


def only_the_round_is_safe(season: Season, seats: Seats, seen: Seen) -> None:
    """Where a list ends with the seat of the round, every fair allocation gives that seat. So a rule that gives less rewards the shorter list."""
    fair = [*fair_ones(season)]
    for cand, seat in seats.items():
        own = season.choices[cand]
        seen["fair allocations that reward a shorter list"] += sum(rank(own, it.get(cand)) > rank(own, seat) for it in fair)
        for other in fair_ones(with_lists(season, {cand: own[: own.index(seat[0]) + 1]})):
            if cand not in other:
                raise Wrong(f"{cand}, who has {seat}, has no seat in the fair allocation {other} for the list that ends there")


# ---- theorems that compare two rounds


def renamed(market: Market, old: str, new: str) -> Market:
    """The rows of a market with another name of a category."""
    other = copy.copy(market)
    other.register = [it.replace(f",{old},", f",{new},") for it in market.register]
    other.matrix = [it.replace(f",{old},", f",{new},") for it in market.matrix]
    return other


def rules_from_narrow(market: Market) -> list[str]:
    """The texts of a market without a seat of SC: under the rule without de-reservation, under version 1, and under version 2. SC leaves no seat to others under
    version 1, so OBC that is called SC leaves none either."""
    bare = renamed(market, "SC", "ST")
    bare.matrix = [it for it in market.matrix if ",SC," not in it]
    found = []
    for version, it in ((1, renamed(bare, "OBC", "SC")), (1, bare), (2, copy.copy(bare))):
        it.version = version
        found.append(it.text(it.choices))
    return found


def dereservation_hurts_nobody(program: str, market: Market, seen: Seen) -> None:
    texts = rules_from_narrow(market)
    given = [seats_in(replies_of(program, it, ["cut,clerk,0"])) for it in texts]
    for text, seats, wider in zip(texts, given, given[1:]):
        seen["markets that de-reservation changes"] += seats != wider
        for fair in [seats, *fair_ones(Season(text))]:
            for cand, own in market.choices.items():
                if rank(own, wider.get(cand)) > rank(own, fair.get(cand)):
                    raise Wrong(f"with more de-reservation {cand} has {wider.get(cand)}, and without it {fair.get(cand)}")


def only_the_order_counts(program: str, draw: Draw, market: Market, seats: Seats, seen: Seen) -> None:
    """The same order with other places, other ids and another order of the register gives everybody the same seat."""
    rows = [it.split(",") for it in market.register]
    ids = dict(zip((it[0] for it in rows), in_order([f"{7 * at + 3}" for at in range(len(rows))], draw.below(720))))
    shift = draw.below(4)
    stretched: Callable[[str], str] = lambda it: f"{(int(it.rstrip('R')) + shift) ** 2}{'R' * it.endswith('R')}" if it else ""
    other = copy.copy(market)
    other.register = in_order([",".join([ids[it[0]], *it[1:4], *map(stretched, it[4:])]) for it in rows], draw.below(720))
    text = other.text({int(ids[str(cand)]): own for cand, own in market.choices.items()})
    told = seats_in(replies_of(program, text, ["cut,clerk,0"]))
    seen["seats after other numbers"] += len(told)
    if told != {int(ids[str(cand)]): seat for cand, seat in seats.items()}:
        raise Wrong(f"with other numbers in the same order the seats are {told}, and not {seats}")


def drawn_group(draw: Draw, market: Market) -> dict[int, list[str]]:
    """Some candidates with other lists."""
    group = in_order([*market.choices], draw.below(720))[: 2 + draw.below(2)]
    return {cand: in_order(market.listable[cand], draw.below(6))[: draw.below(4)] for cand in group}


def no_group_gains(program: str, draw: Draw, market: Market, season: Season, seats: Seats, seen: Seen) -> None:
    lists = drawn_group(draw, market)
    told = seats_in(replies_of(program, market.text({**market.choices, **lists}), ["cut,clerk,0"]))
    fair = [*fair_ones(with_lists(season, lists))]
    if told not in fair:
        raise Wrong(f"with the lists {lists} the round {told} is no fair allocation")
    for other in fair:
        gains = [rank(market.choices[it], other.get(it)) < rank(market.choices[it], seats.get(it)) for it in lists]
        seen["groups of whom some gain"] += any(gains)
        if all(gains):
            raise Wrong(f"by the lists {lists} all of them gain: {other}, in place of {seats}")


# ---- theorems of cutoffs, over the rounds of a season


class Published:
    """What the program published of a drawn season, and what each one sought for each round."""

    def __init__(self, program: str, draw: Draw, text: str) -> None:
        self.season = Season(text)
        rows, office = drawn_script(draw, self.season)
        self.sought, numbers = [it.sought for it in office.rounds], range(1, len(office.rounds) + 1)
        codes = [*self.season.programmes]
        asked = [f"{word},nobody,{at},{code}" for at in numbers for code in codes for word in ("list", "cutoffs")]
        replies = replies_of(program, text, [*rows, *asked])
        rounds = replies.split("\nround ")[1:]
        self.seats = [seats_in(it.partition("end round")[0]) for it in rounds]
        self.lists = [lists_in(replies, at) for at in numbers]
        self.cutoffs = [{code: lines_in(replies, at, code) for code in codes} for at in numbers]

    def rounds(self) -> Iterator[tuple[Sought, Seats, dict[str, Steps], Cutoffs]]:
        return zip(self.sought, self.seats, self.lists, self.cutoffs)


class Newcomer(Person):
    """Somebody whose places lie half a place before those of the fields."""

    def place(self, merit: int) -> float:
        return cast(float, super().place(merit)) - 0.5


def newcomer(draw: Draw) -> Newcomer:
    """One candidate more, whose places lie between those of the others, or behind all."""
    category = ("GEN", "EWS", "OBC", "SC", "ST")[draw.below(5)]
    relaxed = "R" if category != "GEN" and draw.below(3) == 0 else ""
    return Newcomer(["0", category, ("-", "W", "D", "WD", "X")[draw.below(5)], "", *[f"{1 + draw.below(7)}{relaxed}"] * 4])


def cutoffs_decide_a_programme(person: Person, season: Season, steps: Steps, applied: list[Person], code: str, lines: dict[str, Lines], seen: Seen) -> None:
    """One candidate more is admitted by the first step whose cutoff they are within, and else by none."""
    count = {(code, step): seats for step, (seats, _) in steps.items() if step != "D"}
    told = next((it.step for it in lists_of(season, count, code, [*applied, person]) if person in it.admitted), None)
    seen["newcomers whom a programme admits"] += told is not None
    seen["newcomers whom a programme refuses"] += told is None
    if step_met(season, code, lines, person) != told:
        raise Wrong(f"{code} admits {person.category} {person.traits or '-'} at {person.places[0]}, half a place better, under {told}, and the cutoffs {lines} say otherwise")


def cutoffs_tell_seats(season: Season, sought: Sought, seats: Seats, cutoffs: Cutoffs, seen: Seen) -> None:
    for person in season.people:
        met = ((code, step_met(season, code, cutoffs[code], person)) for code in sought[person.id])
        first = next(((code, step) for code, step in met if step), None)
        seen["seats that cutoffs tell"] += first is not None
        if first != seats.get(person.id):
            raise Wrong(f"{person.id} is first within the cutoffs of {first}, and has {seats.get(person.id)}")


def cutoffs_only_widen(before: Cutoffs, after: Cutoffs, seen: Seen) -> None:
    for code, step, traits in itertools.product(before, STEPS, ("", "W", "D", "WD")):
        one, other = last_of(before[code][step], traits), last_of(after[code][step], traits)
        seen["cutoffs that widen"] += one < other
        if one > other:
            raise Wrong(f"the cutoff of {code} {step} {traits or '-'} falls from {one} to {other}")


def no_vacancy_fills(before: dict[str, Steps], after: dict[str, Steps], seen: Seen) -> None:
    """From a round to the next no programme has more holders than before, but for as many as its seats were raised by."""
    for code, steps in after.items():
        raised = sum(count - before[code][step][0] for step, (count, _) in steps.items() if step != "D")
        more = sum(len(people) for _, people in steps.values()) - sum(len(people) for _, people in before[code].values())
        seen["programmes with fewer holders than before"] += more < 0
        seen["programmes with more holders after a raise"] += more > 0
        if more > raised:
            raise Wrong(f"{code} has {more} holders more than the round before, and {raised} seats more")


def hold_rounds(program: str, draw: Draw, text: str, seen: Seen) -> None:
    """The theorems of a round in each round of a season, and those from each round to the next."""
    told = Published(program, draw, text)
    season = told.season
    for sought, seats, lists, cutoffs in told.rounds():
        closing_places_decide(season, sought, seats, seen)
        no_seat_is_wasted(season, sought, seats, lists, seen)
        cutoffs_tell_seats(season, sought, seats, cutoffs, seen)
        for code, steps in lists.items():
            applied = applicants(season, sought, seats, code)
            for _ in range(6):
                cutoffs_decide_a_programme(newcomer(draw), season, steps, applied, code, cutoffs[code], seen)
    for (lists, cutoffs), (later, wider) in itertools.pairwise(zip(told.lists, told.cutoffs)):
        no_vacancy_fills(lists, later, seen)
        cutoffs_only_widen(cutoffs, wider, seen)
