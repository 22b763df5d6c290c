"""The rule of a programme in the order of the judgments, held against what the program admits. docs/COURT.md has the steps in words.

The steps are taken one by one, as Tamannaben (High Court of Gujarat 2020) and Saurav Yadav (2020) have them: take the best, count the holders of a trait, strike
out the last who are not needed, bring up the next holders. Nobody of the drawn people holds two traits. Nothing here counts what a set honours or compares sets.
Each rule of WRONG is a known misreading, and the drawn programmes have to refute it."""
import collections
import functools
from typing import Callable, Dict, Iterator, List, NamedTuple, Optional, Tuple

from cases import called
from plain_markets import lists_in, spelled
from plain_office import STEPS, TRAITS, step_lines
from plain_trials import Draw

# how many sheets and how many programmes are drawn, and how many of them with checks/repository alone
ALL, FEW = (2000, 2000), (40, 20)
CLASSES = ("EWS", "OBC", "SC", "ST")
Kept = Dict[str, int]


class Applicant(NamedTuple):
    """Somebody who applies: the number, which is the place in merit too, the category, one trait or none, and whether the place is relaxed."""

    id: int
    category: str
    trait: str
    is_relaxed: bool


# ---- the steps


def holders(people: List[Applicant], trait: str) -> List[Applicant]:
    """Returns those who hold the trait, in merit order."""
    return [it for it in people if it.trait == trait]


def needed(chosen: List[Applicant], kept: Kept) -> List[Applicant]:
    """Returns the best holders of each trait, up to the number of seats that are kept for it."""
    return [it for trait, count in kept.items() for it in holders(chosen, trait)[:count]]


def one_list(people: List[Applicant], seats: int, kept: Kept) -> List[Applicant]:
    """Makes one list from people in merit order: steps 2 and 3."""
    chosen, below = people[:seats], people[seats:]
    brought = []
    for trait, count in kept.items():
        missing = max(count - len(holders(chosen, trait)), 0)
        brought += holders(below, trait)[:missing]
    others = [it for it in chosen if it not in needed(chosen, kept)]
    struck = others[len(others) - len(brought) :] if brought else []
    return sorted([it for it in chosen if it not in struck] + brought)


def in_order(people: List[Applicant], seats: Dict[str, int], kept: Dict[str, Kept], version: int) -> Dict[str, List[Applicant]]:
    """Makes the lists of a programme: the open one, then each class from its members who are not on it, then what OBC, or EWS too, left empty."""
    lists = {"OPEN": one_list([it for it in people if not it.is_relaxed], seats["OPEN"], kept["OPEN"])}
    for step in CLASSES:
        lists[step] = one_list([it for it in people if it.category == step and it not in lists["OPEN"]], seats[step], kept[step])
    left = sum(seats[step] - len(lists[step]) for step in (("OBC",) if version == 1 else ("EWS", "OBC")))
    taken = [it for own in lists.values() for it in own]
    return {**lists, "D": [it for it in people if not it.is_relaxed and it not in taken][:left]}


# ---- misreadings


def as_a_share(people: List[Applicant], seats: int, kept: Kept) -> List[Applicant]:
    """Keeps the seats as a share of their own: the best others first, and then the holders on the kept seats alone."""
    own = needed(people, kept)
    free = seats - sum(kept.values())
    return sorted(own + [it for it in people if it.trait not in kept][: max(free, 0)])


def of_the_class_alone(people: List[Applicant], seats: int, kept: Kept) -> List[Applicant]:
    """Counts for the kept open seats only those of the general category, as Saurav Yadav forbids."""
    return one_list([it if it.category == "GEN" else it._replace(trait="") for it in people], seats, kept)


def classes_first(people: List[Applicant], seats: Dict[str, int], kept: Dict[str, Kept], version: int) -> Dict[str, List[Applicant]]:
    """Fills the seats of the classes before the open ones."""
    lists = {step: one_list([it for it in people if it.category == step], seats[step], kept[step]) for step in CLASSES}
    taken = [it for own in lists.values() for it in own]
    lists["OPEN"] = one_list([it for it in people if not it.is_relaxed and it not in taken], seats["OPEN"], kept["OPEN"])
    return {**in_order(people, seats, kept, version), **lists}


def open_by(make: Callable[..., List[Applicant]]) -> Callable[..., Dict[str, List[Applicant]]]:
    """Returns the rule in order with another way to make the open list."""
    def made(people: List[Applicant], seats: Dict[str, int], kept: Dict[str, Kept], version: int) -> Dict[str, List[Applicant]]:
        return {**in_order(people, seats, kept, version), "OPEN": make([it for it in people if not it.is_relaxed], seats["OPEN"], kept["OPEN"])}
    return made


WRONG: Dict[str, Callable[..., Dict[str, List[Applicant]]]] = {
    "kept seats as a share of their own": open_by(as_a_share),
    "kept open seats for the general category alone": open_by(of_the_class_alone),
    "the seats of classes before the open ones": classes_first,
}


# ---- what is drawn


def drawn_kept(draw: Draw, seats: int) -> Kept:
    """Draws how many seats of a step are kept for women, for persons with disabilities and for sports."""
    kept, left = {}, seats
    for trait in "WDS":
        count = min(draw.of(4, (2, 0), (3, 1), (4, 2)), left)
        left -= count
        if count:
            kept[trait] = count
    return kept


def drawn_people(draw: Draw) -> List[Applicant]:
    """Draws 3 to 16 people in merit order, of whom nobody holds two traits."""
    found = []
    for number in range(1, 4 + draw.below(14)):
        category = draw.of(10, (4, "GEN"), (5, "EWS"), (8, "OBC"), (9, "SC"), (10, "ST"))
        trait = draw.of(10, (3, "W"), (4, "D"), (5, "S"), (10, ""))
        found.append(Applicant(number, category, trait, category != "GEN" and draw.below(5) == 0))
    return found


class Programme:
    """A drawn programme and its applicants, with the bundle that asks for its lists."""

    def __init__(self, draw: Draw, number: int) -> None:
        self.label, self.version, self.people = f"judgments, programme {number}", draw.below(2) + 1, drawn_people(draw)
        self.seats = {step: draw.below(6) if step == "OPEN" else draw.below(4) for step in STEPS[:-1]}
        self.kept = {step: drawn_kept(draw, self.seats[step]) for step in STEPS[:-1]}
        register = [f"{it.id},{it.category},{it.trait or '-'},tok{it.id:05d},{it.id}{'R' * it.is_relaxed}" for it in self.people]
        counts = {step: ",".join(str(self.kept[step].get(it, 0)) for it in TRAITS) for step in STEPS[:-1]}
        matrix = [f"A,I1,1,{step},{self.seats[step]},{counts[step]}" for step in STEPS[:-1]]
        self.text = spelled(1, self.version, register, matrix, {it.id: ["A"] for it in self.people})

    def lists(self, rule: Callable[..., Dict[str, List[Applicant]]]) -> Dict[str, List[int]]:
        """Returns whom each step admits by a rule, by their numbers."""
        return {step: [it.id for it in rule(self.people, self.seats, self.kept, self.version)[step]] for step in STEPS}


@functools.lru_cache(maxsize=None)
def drawn_programmes(count: int) -> Tuple[Programme, ...]:
    """Draws so many programmes, the same ones in each run."""
    draw = Draw(11)
    return tuple(Programme(draw, number) for number in range(count))


# ---- trials


def fault_of_programme(program: str, tried: Programme) -> Optional[str]:
    """Returns why the program's lists are not those of the steps in order, or None."""
    given = f"{tried.text}[requests]\ncut,clerk,0\nlist,nobody,1,A\n"
    wrote, status = called(program, ["run", "memory"], given.encode(), "/")
    found = {step: people for step, (_, people) in lists_in(wrote.decode(errors="replace")).get("A", {}).items()}
    wanted = tried.lists(in_order)
    return None if status == 0 and found == wanted else f"{tried.label}: the program admits {found}, and the steps in order {wanted}"


def fault_of_sheet(program: str, number: int) -> Optional[str]:
    """Returns why the program's list of a drawn sheet is not the one of the steps in order, or None."""
    draw = Draw(1000 + number)
    people, seats = drawn_people(draw), draw.below(8)
    kept = drawn_kept(draw, seats)
    sheet = f"step sheet 1\nseats,{seats}\n" + "".join(f"protect,{it},{count}\n" for it, count in kept.items())
    sheet += "".join(f"cand,{it.id},{it.trait or '-'}\n" for it in people)
    chosen = one_list(people, seats, kept)
    letters = [it.trait if it in needed(chosen, kept) else "-" for it in chosen]
    wanted = step_lines("", seats, len(people), [it.id for it in chosen], letters) + "end\n"
    wrote, _ = called(program, ["step"], sheet.encode(), "/")
    return None if wrote.decode(errors="replace") == wanted else f"judgments, sheet {number}: the program writes {wrote!r}, and the steps in order give {wanted!r}"


def not_refuted(count: int) -> Optional[str]:
    """Returns which misreading no drawn programme refutes, or None."""
    seen = collections.Counter(name for it in drawn_programmes(count) for name, rule in WRONG.items() if it.lists(rule) != it.lists(in_order))
    missed = [name for name in WRONG if not seen[name]]
    return f"judgments: no programme shows that this is wrong: {', '.join(missed)}" if missed else None


def trials(program: str, is_long: bool) -> Iterator[Callable[[], Optional[str]]]:
    """Gives what is tried, each a call that returns a fault or None."""
    sheets, programmes = ALL if is_long else FEW
    yield functools.partial(not_refuted, programmes)
    yield from (functools.partial(fault_of_sheet, program, number) for number in range(sheets))
    yield from (functools.partial(fault_of_programme, program, it) for it in drawn_programmes(programmes))
