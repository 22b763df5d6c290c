#!/usr/bin/env python3
"""What the rule is worth to the people under it, tried on drawn markets: the program held against laws and theorems, and not against another program.

    checks/plain_laws.py PROGRAM [SHARE [SEED]]     all of the drawing, or a share of it as 0.1, from this seed on; else from seed 1

checks/repository --try draws a tenth. checks/plain_markets.py draws the markets, and the program gets each as a bundle under `run memory`. The laws:

- rural hospitals: all fair allocations of a round seat the same people and fill as many seats of each programme, and the published round is one of them;
- one round is strategy-proof: no other list gives a candidate a seat in round 1 that is earlier on the true list;
- no envy among equals: if you are better in merit than somebody with a seat, may have a seat of that step and hold every trait that they hold, then you
  have a seat of that programme or of one that you prefer, if it is on your list;
- de-reservation comes last: no seat of a category stays empty while the programme refuses one of that category, and only seats that categories left are
  given to others;
- the order within a window does not matter: the same answers of each candidate and the same raises, in another order, give the same replies, rounds and
  final admissions.

The theorems of a round (checks/plain_theorems.py):

- closing places decide: your seat is of the first programme that you sought in which a seat that you may have is of somebody who is no better than you and
  holds no trait that you lack;
- only the round is safe: if your list ends with your seat, every fair allocation gives you that seat, so a rule that gives you less rewards the shorter list;
- no seat is wasted: if a step has an empty seat, everybody who sought it and may have it has a seat there, or one that they sought more;
- de-reservation hurts nobody: version 2 gives nobody less than version 1, and version 1 nobody less than the rule without de-reservation;
- only the order counts: other places in the same order, other ids and another order of the register change no seat;
- no group gains: no lists that some candidates hand in together give each of them a better seat.

And those of the rounds of a season, with answers and raises:

- no vacancy fills by itself: no programme has more holders than in the round before, but for as many as its seats were raised by;
- cutoffs decide a programme: one candidate more is admitted by the first step whose cutoff they are within, and else by none; at each step,
  checks/plain_cutoffs.py tries one candidate more at every place;
- cutoffs decide a round: your seat is that of the first programme that you sought whose cutoffs you are within;
- cutoffs only widen: no cutoff of a later round is stricter."""
import collections
import concurrent.futures
import functools
import itertools
import os
import re
import sys
from typing import Iterator, NamedTuple, Optional, Union

from cases import first_difference
import plain_theorems
from plain_markets import Market, Rows, Steps, Wrong, drawn_window, lists_in, may_have, rank, replies_of, seats_in
from plain_office import STEPS, Office, Season
from plain_theorems import Seen
from plain_trials import Draw, Seats, Trial, fair_ones

# the rows of a season, each with who asks it: a candidate, or the clerk
Order = list[tuple[Union[int, str], str]]


class Drawn(NamedTuple):
    """How many markets and seasons are drawn, and how many orders of each season are tried."""

    markets: int
    seasons: int
    orders: int


ALL = Drawn(2000, 600, 4)
# which categories leave their empty seats to others, by the version of the bundle
LEAVING = {1: ("OBC",), 2: ("EWS", "OBC")}

# ---- the laws of a round


def rural_hospitals(season: Season, seats: Seats, found: Seen) -> None:
    fair = [*fair_ones(season)]
    found["markets with several fair allocations"] += len(fair) > 1
    if seats not in fair:
        raise Wrong(f"the round {seats} is no fair allocation")
    for other in fair:
        if set(other) != set(seats):
            raise Wrong(f"the fair allocation {other} seats other people than the round {seats}")
        if collections.Counter(code for code, _ in other.values()) != collections.Counter(code for code, _ in seats.values()):
            raise Wrong(f"the fair allocation {other} fills other numbers of seats than the round {seats}")


def strategy_proof(program: str, market: Market, seats: Seats, found: Seen) -> None:
    cand, own = market.candidate, market.choices[market.candidate]
    for other in market.other_lists() if own else []:
        given = seats_in(replies_of(program, market.text({**market.choices, cand: other}), ["cut,clerk,0"]))
        found["other lists"] += 1
        found["other lists that lose a seat"] += rank(own, given.get(cand)) > rank(own, seats.get(cand))
        if rank(own, given.get(cand)) < rank(own, seats.get(cand)):
            raise Wrong(f"candidate {cand} gets {given[cand]} by the list {other}, and {seats.get(cand)} by the true one, {own}")


def no_envy(season: Season, seats: Seats, found: Seen) -> None:
    for person, (cand, (code, step)) in itertools.product(season.people, seats.items()):
        other, own = season.registered(cand), season.choices.get(person.id, [])
        if person.id == cand or code not in own or not may_have(person, season, code, step):
            continue
        if person.rank(season.merit(code)) < other.rank(season.merit(code)) and set(other.traits) <= set(person.traits):
            found["pairs of a better one and one with a seat"] += 1
            if rank(own, seats.get(person.id)) > own.index(code):
                raise Wrong(f"{person.id} is better than {cand}, who has {code} {step}, and has {seats.get(person.id)}")


def dereserved_last(season: Season, seats: Seats, lists: dict[str, Steps], found: Seen) -> None:
    for code, steps in lists.items():
        applied = [it for it in season.people for own in [season.choices.get(it.id, [])] if code in own and own.index(code) <= rank(own, seats.get(it.id))]
        empty = {step: count - len(people) for step, (count, people) in steps.items() if step not in ("OPEN", "D")}
        for step, count in empty.items():
            refused = [it.id for it in applied if it.category == step and seats.get(it.id, ("",))[0] != code]
            if count > 0 and refused:
                raise Wrong(f"{code} has {count} empty seats of {step}, and refuses {refused} of that category")
        left, given = sum(empty[it] for it in LEAVING[season.version]), len(steps["D"][1])
        found["seats of the de-reserved step"] += given
        if given > left:
            raise Wrong(f"{code} gives {given} seats to others, and its categories left {left}")


def fault_of_market(program: str, label: str, market: Market, draw: Draw, found: Seen) -> Optional[str]:
    """Why the first round of a market is against a law, or None. What was seen is counted. The other numbers and the group are drawn."""
    try:
        text = market.text(market.choices)
        season = Season(text)
        replies = replies_of(program, text, ["cut,clerk,0", *(f"list,nobody,1,{code}" for code in season.programmes)])
        seats, lists = seats_in(replies), lists_in(replies)
        if set(lists) != set(season.programmes) or any(set(it) != set(STEPS) for it in lists.values()):
            raise Wrong("the program does not write the lists of all programmes")
        rural_hospitals(season, seats, found)
        no_envy(season, seats, found)
        dereserved_last(season, seats, lists, found)
        strategy_proof(program, market, seats, found)
        plain_theorems.only_the_round_is_safe(season, seats, found)
        plain_theorems.dereservation_hurts_nobody(program, market, found)
        plain_theorems.only_the_order_counts(program, draw, market, seats, found)
        plain_theorems.no_group_gains(program, draw, market, season, seats, found)
    except Wrong as why:
        return f"{label}: {why}"
    return None


# ---- the law of a season


def merged(draw: Draw, rows: Rows) -> Order:
    """The rows of a window in an order that keeps what each one asks in order."""
    left = {who: [*own] for who, own in rows.items()}
    order: Order = []
    while left:
        who = sorted(left, key=str)[draw.below(len(left))]
        order.append((who, left[who].pop(0)))
        left = {it: own for it, own in left.items() if own}
    return order


def drawn_orders(draw: Draw, season: Season, count: int) -> Iterator[Order]:
    """So many orders of one drawn season, each the rows with who asks them."""
    office = Office(season)
    windows: list[Rows] = []
    for window in range(season.rounds + 1):
        windows.append(drawn_window(draw, office))
        office.reply(f"cut,clerk,{window}")
    for _ in range(count):
        yield [it for window, rows in enumerate(windows) for it in [*merged(draw, rows), ("clerk", f"cut,clerk,{window}")]]


def replies_by_asker(program: str, text: str, order: Order) -> dict[Union[int, str], str]:
    """What each one is replied, one after another, and the texts of the cuts."""
    lines = replies_of(program, text, [row for _, row in order]).splitlines(keepends=True)
    found: dict[Union[int, str], str] = collections.defaultdict(str)
    for who, _ in order:
        found[who] += lines[0]
        has_text, lines = lines[0].startswith(("published ", "final ")), lines[1:]
        while has_text:
            found[who] += lines[0]
            has_text, lines = not lines[0].startswith("end "), lines[1:]
    return dict(found)


def fault_of_orders(program: str, label: str, text: str, orders: list[Order], found: Seen) -> Optional[str]:
    """Why another order within the windows of a season changes a reply, or None."""
    try:
        first, *others = (replies_by_asker(program, text, it) for it in orders)
        found["accepted answers and raises"] += sum(len(re.findall("^(?:noted|raised) ", it, re.M)) for it in first.values())
        for other, order in zip(others, orders[1:]):
            found["other orders"] += order != orders[0]
            for who, replies in first.items():
                if other[who] != replies:
                    raise Wrong(f"in another order {who} is replied otherwise: {first_difference(other[who].encode(), replies.encode())}")
    except Wrong as why:
        return f"{label}: {why}"
    return None


def fault_of_rounds(program: str, label: str, text: str, draw: Draw, found: Seen) -> Optional[str]:
    """Why the rounds of a season, with drawn answers and raises, are against a theorem, or None."""
    try:
        plain_theorems.hold_rounds(program, draw, text, found)
    except Wrong as why:
        return f"{label}: {why}"
    return None


# ---- all of it

# what has to come at least, of all that is drawn
LEAST = {
    "markets with several fair allocations": 80,
    "other lists that lose a seat": 6000,
    "pairs of a better one and one with a seat": 3000,
    "seats of the de-reserved step": 400,
    "other orders": 1200,
    "accepted answers and raises": 3000,
    "seats that closing places tell": 2500,
    "fair allocations that reward a shorter list": 100,
    "empty seats that somebody sought": 2500,
    "markets that de-reservation changes": 600,
    "seats after other numbers": 4000,
    "groups of whom some gain": 100,
    "programmes with fewer holders than before": 150,
    "programmes with more holders after a raise": 20,
    "newcomers whom a programme admits": 6000,
    "newcomers whom a programme refuses": 4000,
    "seats that cutoffs tell": 2500,
    "cutoffs that widen": 1500,
}


class Laws:
    """This share of the drawing: what is tried, each a call that gives a fault or None, and what was seen in it."""

    def __init__(self, program: str, share: float, seed: int = 1) -> None:
        self.share, draw = share, Draw(seed)
        self.tried: list[Trial] = []
        self.seen: Seen = collections.Counter()
        for number in range(round(ALL.markets * share)):
            own = Draw(seed * 65537 + number)
            self.tried.append(functools.partial(fault_of_market, program, f"laws, market {number} of seed {seed}", Market(draw), own, self.seen))
        for number in range(round(ALL.seasons * share)):
            market = Market(draw, draw.below(3) + 1)
            text = market.text(market.choices)
            orders = [*drawn_orders(draw, Season(text), ALL.orders)]
            self.tried.append(functools.partial(fault_of_orders, program, f"laws, season {number} of seed {seed}", text, orders, self.seen))

        for number in range(round(ALL.seasons * share)):
            own = Draw(seed * 257 + number)
            market = Market(own, own.below(3) + 1)
            self.tried.append(functools.partial(fault_of_rounds, program, f"laws, rounds {number} of seed {seed}", market.text(market.choices), own, self.seen))

    def lacking(self) -> Optional[str]:
        """Of what too little was seen, so that a law would hold of nothing; to be asked when all was tried. A share may have less by chance."""
        few = [f"{self.seen[name]} {name}" for name, least in LEAST.items() if self.seen[name] < int(least * self.share / 2)]
        return f"drawn laws: there are only {', '.join(few)}" if few else None


def fault_by(trial: Trial) -> Optional[str]:
    return trial()


def main(words: list[str]) -> int:
    if words == ["--help"]:
        print(__doc__)
        return 0
    if not 1 <= len(words) <= 3:
        sys.exit(__doc__)
    share, seed = float(words[1]) if len(words) > 1 else 1, int(words[2]) if len(words) > 2 else 1
    laws = Laws(os.path.abspath(words[0]), share, seed)
    with concurrent.futures.ThreadPoolExecutor(os.cpu_count()) as lanes:
        faults = [it for it in lanes.map(fault_by, laws.tried) if it]
    faults += [it for it in [laws.lacking()] if it]
    for it in faults:
        print(it)
    print(f"checks/plain_laws.py: {len(laws.tried)} markets and seasons of seed {seed}")
    for name, count in sorted(laws.seen.items()):
        print(f"{count:8,} {name}")
    print(f"checks/plain_laws.py: {len(faults)} faults" if faults else "checks/plain_laws.py: ok")
    return 1 if faults else 0


if __name__ == "__main__":
    sys.exit(main(sys.argv[1:]))
