"""Drawn markets and seasons, and what the program publishes of them: what checks/plain_laws.py holds against the laws and the theorems.

A market has 2 to 6 candidates of all categories, with traits, relaxed places and up to 3 merit lists, and 1 to 3 programmes with protections, under both
versions."""
import itertools
import re
from typing import Iterable, Iterator, Mapping, Optional, Union

from cases import called
from plain_office import Office, Person, Season, Seat
from plain_trials import Draw, Seats, in_order

# each step of a programme with its seats and who is admitted
Steps = dict[str, tuple[int, list[int]]]
# rows of a window by who asks: a candidate, or the clerk by the word `raises`
Rows = dict[Union[int, str], list[str]]
CATEGORIES = ("GEN", "EWS", "OBC", "SC", "ST")

# ---- markets


def register_of(draw: Draw, people: int, lists: int) -> Iterator[str]:
    """The rows of candidates, each with a place in most of the merit lists."""
    merit = [in_order(tuple(range(1, people + 1)), draw.below(720)) for _ in range(lists)]
    for number, places in enumerate(zip(*merit), 1):
        category = CATEGORIES[draw.of(10, (4, 0), (6, 2), (8, 1), (9, 3), (10, 4))]
        traits = draw.of(8, (2, "W"), (3, "D"), (4, "WD"), (8, "-"))
        fields = [f"{place}{'R' if category != 'GEN' and draw.below(3) == 0 else ''}" if draw.below(9) else "" for place in places]
        yield f"{number},{category},{traits},tok0000{number},{','.join(fields)}".rstrip(",")


def matrix_of(draw: Draw, codes: str, lists: int) -> Iterator[str]:
    """The rows of programmes: most have a merit list of their own and few open seats, and some have steps of categories."""
    for at, code in enumerate(codes):
        merit = at % lists + 1 if draw.below(6) else draw.below(lists) + 1
        institute = draw.below(2) + 1
        for step in CATEGORIES:
            seats = draw.of(8, (1, 0), (6, 1), (8, 2)) if step == "GEN" else draw.of(8, (5, 0), (7, 1), (8, 2))
            women = min(draw.below(2), seats)
            disabled = min(draw.of(3, (2, 0), (3, 1)), seats - women)
            if step == "GEN" or seats:
                yield f"{code},I{institute},{merit},{'OPEN' if step == 'GEN' else step},{seats},{women or ''},{disabled or ''}".rstrip(",")


def spelled(rounds: int, version: int, register: Iterable[str], matrix: Iterable[str], choices: Mapping[int, list[str]]) -> str:
    text = f"office bundle {version}\n[season]\nrounds,{rounds}\nclerk,clerk0001\n[register]\nid,category,traits,token,m1,m2,m3,m4\n"
    text += "".join(f"{it}\n" for it in register) + "[matrix]\nprogramme,institute,list,step,seats,W,D,X,S,F,L\n"
    text += "".join(f"{it}\n" for it in matrix) + "[choices]\ncandidate,programmes\n"
    return text + "".join(f"{cand},{','.join(own)}\n" for cand, own in sorted(choices.items()) if own)


class Market:
    """A drawn bundle up to its requests, in its parts, so that a list can be replaced."""

    def __init__(self, draw: Draw, rounds: int = 1) -> None:
        people, lists = draw.of(12, (1, 2), (2, 3), (5, 4), (8, 5), (12, 6)), draw.of(6, (1, 1), (3, 2), (6, 3))
        codes, plain = "ABC"[: draw.of(8, (1, 1), (3, 2), (8, 3))], draw.below(3) == 0
        self.rounds, self.version = rounds, draw.below(2) + 1
        lists = len(codes) if plain else lists
        self.register, self.matrix = [*register_of(draw, people, lists)], [*matrix_of(draw, codes, lists)]
        if plain:
            # open seats alone, one of each programme, in merit lists of their own: several allocations are fair more often
            self.matrix = [",".join([code, f"I{at % 2 + 1}", f"{at % lists + 1}", "OPEN,1"]) for at, code in enumerate(codes)]
            self.register = [row.replace("R", "") for row in self.register]
        bare = Season(self.text({}))
        self.listable = {it.id: [code for code in codes if it.place(bare.merit(code))] for it in bare.people}
        self.choices = {cand: in_order(own, draw.below(6))[: draw.of(8, (1, 1), (2, 2), (8, 3))] for cand, own in self.listable.items()}
        if draw.below(2):
            # everybody likes best where the others are better
            place = {(it.id, code): it.rank(bare.merit(code)) for it in bare.people for code in self.listable[it.id]}
            self.choices = {cand: sorted(own, key=lambda code: -place[cand, code]) for cand, own in self.choices.items()}
        self.candidate = draw.below(people) + 1

    def text(self, choices: Mapping[int, list[str]]) -> str:
        return spelled(self.rounds, self.version, self.register, self.matrix, choices)

    def other_lists(self) -> list[list[str]]:
        """All other lists of the drawn candidate."""
        own = self.listable[self.candidate]
        every = itertools.chain.from_iterable(itertools.permutations(own, count) for count in range(len(own) + 1))
        return [[*it] for it in every if [*it] != self.choices[self.candidate]]


# ---- what the program publishes


class Wrong(Exception):
    """What the program does against a law."""


def replies_of(program: str, text: str, rows: Iterable[str]) -> str:
    given = f"{text}[requests]\n" + "".join(f"{it}\n" for it in rows)
    wrote, status = called(program, ["run", "memory"], given.encode(), "/")
    if status:
        raise Wrong(f"it ended with status {status} after {wrote!r:.80}")
    return wrote.decode()


def seats_in(replies: str) -> Seats:
    """The seat of each candidate in a published round: programme and step."""
    return {int(cand): (code, step) for cand, code, step in re.findall(r"^allot (\d+) (\S+) (\S+)$", replies, re.M)}


def lists_in(replies: str, number: int = 1) -> dict[str, Steps]:
    """For each programme whose lists of a round were asked for, its steps with their seats and who is admitted."""
    found = {}
    for code, body in re.findall(rf"^list {number} (\S+)\n(.*?)^end list$", replies, re.M | re.S):
        steps = re.findall(r"^step (\w+) seats (\d+) candidates \d+ admitted \d+\nhonoured \d+\n((?:\d+ \S\n)*)", body, re.M)
        found[code] = {step: (int(seats), [int(it.split()[0]) for it in people.splitlines()]) for step, seats, people in steps}
    return found


def rank(own: list[str], seat: Optional[Seat]) -> int:
    """The place of a seat on a list: the smaller the better, and none is last."""
    return own.index(seat[0]) if seat and seat[0] in own else len(own)


def may_have(person: Person, season: Season, code: str, step: str) -> bool:
    """Whether a person may have a seat of a step of a programme."""
    merit = season.merit(code)
    return person.place(merit) is not None and (person.is_common(merit) if step in ("OPEN", "D") else person.category == step)


# ---- drawn seasons


def drawn_window(draw: Draw, office: Office) -> Rows:
    """The rows of a window by who asks: the answers of each candidate, and the raises. Some are refused."""
    season, window = office.season, office.cuts
    rows: Rows = {}
    for person in season.people:
        for _ in range(draw.of(6, (1, 0), (4, 1), (6, 2))):
            choice = draw.of(12, (5, "float"), (8, "slide"), (10, "freeze"), (12, "withdraw" if draw.below(3) == 0 else "float"))
            row = f"answer,{person.id},{person.id},{window},{office.last_turn(person.id, window) + 1},{choice}"
            rows.setdefault(person.id, []).append(row)
            office.reply(row)
    for code in season.programmes:
        if draw.below(3) == 0:
            row = f"raise,clerk,{window},{code},{draw.of(3, (2, 'OPEN'), (3, 'OBC'))},{draw.below(3) + 1}"
            rows.setdefault("raises", []).append(row)
            office.reply(row)
    return rows


def drawn_script(draw: Draw, season: Season) -> tuple[list[str], Office]:
    """The rows of a drawn season up to its end, and the plain office after them."""
    office = Office(season)
    rows: list[str] = []
    for window in range(season.rounds + 1):
        rows += [row for own in drawn_window(draw, office).values() for row in own]
        rows.append(f"cut,clerk,{window}")
        office.reply(rows[-1])
    return rows, office
