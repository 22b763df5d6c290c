"""A plain slow office, outside of the program and its proofs: what the program's replies and its kept rows are held against.

Each request is answered by going through all that was accepted before it. A round is made by having all who still seek a seat apply to the next programme of
their lists, each programme choosing anew from all who applied; a step chooses by trying all sets of its people, and counts what a set honours by trying
every placement. So it serves for a handful of candidates. It reads the forms of docs/FORMATS.md by itself, and knows of no fault in them."""
import functools
import itertools
import math
from typing import Callable, Iterable, Iterator, Optional, Sequence, Union, cast

STEPS = ("OPEN", "EWS", "OBC", "SC", "ST", "D")
# what a seat may be had as: under a step, or kept beyond the seats of all steps, which is nobody's yet
SEAT_KINDS = (*STEPS, "KEPT")
TRAITS = "WDXSFL"
CHOICES = ("freeze", "float", "slide", "withdraw")
STAYS = ("freeze", "float", "slide")
MOST_TURNS = 16
MOST_SEATS = 4000
MOST_SEATS_IN_ALL = 1_000_000
OTHER_WORDS = {"GEN-EWS": "EWS", "OBC-NCL": "OBC"}

Protections = tuple[int, ...]
# the code of a programme, and a step
Seat = tuple[str, str]
# a window, a candidate, a turn and a choice
Answer = tuple[int, int, int, str]
# a window, the code of a programme, a step and its seats
Raise = tuple[int, str, str, int]

# ---- the choice of a step, from its definition


@functools.lru_cache(maxsize=None)
def greatest(people: tuple[str, ...], left: Protections) -> int:
    """How many of the people, each given by traits, can stand on what is left of the protected positions: the first takes none, or on a trait held."""
    if not people:
        return 0
    return max([greatest(people[1:], left), *(1 + greatest(people[1:], rest) for _, rest in stands(people[0], left))])


def stands(person: str, left: Protections) -> list[tuple[int, Protections]]:
    """The traits on which a person may stand, each with what is left for the others."""
    return [(t, (*left[:t], left[t] - 1, *left[t + 1 :])) for t, letter in enumerate(TRAITS) if letter in person and left[t]]


@functools.lru_cache(maxsize=None)
def chosen(people: tuple[str, ...], seats: int, protections: Protections) -> tuple[int, ...]:
    """Whom a step admits of its people, by their numbers in merit order: the one set within the seats that is as good as every other."""
    sets = [it for size in range(min(seats, len(people)) + 1) for it in itertools.combinations(range(len(people)), size)]
    honours = {it: greatest(tuple(people[at] for at in it), protections) for it in sets}

    def is_as_good(one: tuple[int, ...], other: tuple[int, ...]) -> bool:
        no_worse = len(one) >= len(other) and all(a <= b for a, b in zip(one, other))
        return honours[one] > honours[other] or (honours[one] == honours[other] and no_worse)

    (best,) = [it for it in sets if all(is_as_good(it, other) for other in sets)]
    return best


@functools.lru_cache(maxsize=None)
def certificate(people: tuple[str, ...], left: Protections) -> tuple[str, ...]:
    """The letter of the position that each of the people fills, or a dash: the first of the longest placements."""
    if not people:
        return ()
    for t, rest in stands(people[0], left):
        if 1 + greatest(people[1:], rest) == greatest(people, left):
            return (TRAITS[t], *certificate(people[1:], rest))
    return ("-", *certificate(people[1:], left))


def step_lines(step: str, seats: int, candidates: int, admitted: Sequence[Union[int, str]], letters: Sequence[str]) -> str:
    """The lines of a step: its numbers, how much is honoured, and each of the admitted with the letter of the position."""
    text = f"step {step}seats {seats} candidates {candidates} admitted {len(admitted)}\nhonoured {len(letters) - letters.count('-')}\n"
    return text + "".join(f"{cand} {letter}\n" for cand, letter in zip(admitted, letters))


def sheet_text(sheet: str) -> str:
    """What the step of a sheet without a fault admits."""
    rows = [line.rstrip(",\r").split(",") for line in sheet.removeprefix("\ufeff").split("\n")[1:]]
    seats = next(int(row[1]) for row in rows if row[0] == "seats")
    counts = {row[1]: int(row[2]) for row in rows if row[0] == "protect"}
    protections = tuple(counts.get(it, 0) for it in TRAITS)
    people = [(row[1], "".join(row[2:]).strip("-")) for row in rows if row[0] == "cand"]
    admitted = [people[at] for at in chosen(tuple(traits for _, traits in people), seats, protections)]
    letters = certificate(tuple(traits for _, traits in admitted), protections)
    return step_lines("", seats, len(people), [cand for cand, _ in admitted], letters) + "end\n"


# ---- the season


class Person:
    def __init__(self, fields: list[str]) -> None:
        self.id, self.category, self.traits, self.token = int(fields[0]), OTHER_WORDS.get(fields[1], fields[1]), fields[2].strip("-"), fields[3]
        self.places = [*fields[4:], "", "", "", ""]

    def place(self, merit: int) -> Optional[float]:
        """The number of the place in a merit list, None for none."""
        text = self.places[merit - 1]
        return int(text.rstrip("R")) if text else None

    def rank(self, merit: int) -> float:
        """The number of the place in a merit list that has the person: who applies to a programme has a place in its list."""
        return cast(float, self.place(merit))

    def is_common(self, merit: int) -> bool:
        return self.places[merit - 1].isdigit()


class Season:
    def __init__(self, text: str) -> None:
        first, *lines = text.split("\n")
        sections: dict[str, list[list[str]]] = {}
        name = ""
        for line in filter(None, lines):
            if line.startswith("["):
                name = line.strip("[]")
            sections.setdefault(name, []).append(line.split(","))
        self.version = int(first.split(" ")[-1])
        rows = dict(sections["season"][1:])
        self.rounds, self.clerk = int(rows["rounds"]), rows["clerk"]
        self.people = sorted((Person(row) for row in sections["register"][2:]), key=lambda it: it.id)
        self.programmes: dict[str, tuple[str, int]] = {}
        self.seats: dict[Seat, int] = {}
        self.protections: dict[Seat, Protections] = {}
        for code, institute, merit, step, seats, *protections in sections["matrix"][2:]:
            step = OTHER_WORDS.get(step, step)
            self.programmes.setdefault(code, (institute, int(merit)))
            self.seats[code, step] = int(seats)
            self.protections[code, step] = tuple(int(it or 0) for it in [*protections, *[""] * 6][:6])
        self.choices = {int(row[0]): row[1:] for row in sections["choices"][2:]}

    def person(self, cand: int) -> Optional[Person]:
        return next((it for it in self.people if it.id == cand), None)

    def registered(self, cand: int) -> Person:
        """The person of a number that the register has."""
        person = self.person(cand)
        assert person, f"the register has no candidate {cand}"
        return person

    def merit(self, code: str) -> int:
        return self.programmes[code][1]


class StepList:
    """A step of a programme: its seats, how many stood for them, whom it admits and the letters of their positions."""

    def __init__(self, step: str, seats: int, protections: Protections, people: list[Person]) -> None:
        traits = tuple(it.traits for it in people)
        self.step, self.seats, self.protections, self.people, self.candidates = step, seats, protections, people, len(people)
        self.admitted = [people[at] for at in chosen(traits, seats, protections)]
        self.letters = certificate(tuple(it.traits for it in self.admitted), protections)


def lists_of(season: Season, seats: dict[Seat, int], code: str, applicants: Iterable[Person]) -> list[StepList]:
    """The six lists of a programme from its applicants."""
    merit, empty = season.merit(code), 0
    lists: list[StepList] = []
    taken: set[int] = set()
    people = sorted(applicants, key=lambda it: it.rank(merit))
    for step in STEPS:
        stand = [it for it in people if it.id not in taken and (it.is_common(merit) if step in ("OPEN", "D") else it.category == step)]
        count = empty if step == "D" else seats.get((code, step), 0)
        found = StepList(step, count, season.protections.get((code, step), (0,) * 6), stand)
        if step == "OBC" or (step == "EWS" and season.version == 2):
            empty += count - len(found.admitted)
        taken |= {it.id for it in found.admitted}
        lists.append(found)
    return lists


def cutoff_of(found: StepList, merit: int, traits: str) -> float:
    """The last place with which a step admits one candidate more of these traits: 0 for none, infinity for every place. The candidate is tried before each who stood for the step, and behind all."""
    people = tuple(it.traits for it in found.people)
    tried = range(len(people), -1, -1)
    last = next((at for at in tried if at in chosen((*people[:at], traits, *people[at:]), found.seats, found.protections)), None)
    if last is None:
        return 0
    return math.inf if last == len(people) else found.people[last].rank(merit)


def cutoffs_of(found: StepList, merit: int) -> list[tuple[str, float]]:
    """The lines of a step: each set of protected traits whose place is worse than that of each smaller set, with that place."""
    letters = [letter for letter, count in zip(TRAITS, found.protections) if count]
    sets = sorted(("".join(it) for size in range(len(letters) + 1) for it in itertools.combinations(letters, size)), key=lambda it: sum(1 << TRAITS.index(letter) for letter in it))
    last = {it: cutoff_of(found, merit, it) for it in sets}
    return [(it, last[it]) for it in sets if all(last[it] > last[other] for other in sets if set(other) < set(it)) and last[it]]


def list_text(number: int, code: str, lists: list[StepList]) -> str:
    """The text of a programme's lists in a round."""
    steps = (step_lines(f"{it.step} ", it.seats, it.candidates, [person.id for person in it.admitted], it.letters) for it in lists)
    return f"list {number} {code}\n{''.join(steps)}end list\n"


def cutoffs_text(number: int, code: str, lists: list[StepList], merit: int) -> str:
    """The text of a programme's cutoffs in a round."""
    lines = ((found.step, *line) for found in lists for line in cutoffs_of(found, merit))
    told = "".join(f"{step} {traits or '-'} {'any' if last == math.inf else last}\n" for step, traits, last in lines)
    return f"cutoffs {number} {code}\n{told}end cutoffs\n"


class Round:
    """The round on what everybody seeks: the seat of each candidate, and the lists of each programme."""

    def __init__(self, season: Season, seats: dict[Seat, int], sought: dict[int, list[str]]) -> None:
        self.sought, tried = sought, dict.fromkeys(sought, 1)
        while True:
            applied = {code: [it for it in season.people if code in sought[it.id][: tried[it.id]]] for code in season.programmes}
            self.lists = {code: lists_of(season, seats, code, people) for code, people in applied.items()}
            self.seats = {it.id: (code, found.step) for code, lists in self.lists.items() for found in lists for it in found.admitted}
            going_on = [cand for cand, codes in sought.items() if cand not in self.seats and tried[cand] < len(codes)]
            if not going_on:
                break
            for cand in going_on:
                tried[cand] += 1


# ---- the office


def is_wider(left: str, choice: str) -> bool:
    """Whether an answer is wider than what the last cut left."""
    return (left, choice) in (("slide", "float"), ("freeze", "float"), ("freeze", "slide"))


class Office:
    """The season, what was accepted in its order, and the rounds that were published."""

    answers: list[Answer]
    raises: list[Raise]
    rounds: list[Round]

    def __init__(self, season: Season) -> None:
        self.season, self.answers, self.raises, self.cuts, self.rounds = season, [], [], 0, []

    # what was accepted: answers are (window, candidate, turn, choice), raises (window, code, step, seats)

    def kept(self, cand: int, window: int) -> list[Answer]:
        return [it for it in self.answers if it[:2] == (window, cand)]

    def last_turn(self, cand: int, window: int) -> int:
        return max((turn for _, _, turn, _ in self.kept(cand, window)), default=0)

    def seats(self) -> dict[Seat, int]:
        found = dict(self.season.seats)
        found.update({(code, step): seats for _, code, step, seats in self.raises})
        return found

    def seat_after(self, cand: int, window: int) -> Optional[Seat]:
        return self.rounds[window].seats.get(cand) if window < len(self.rounds) else None

    def last_seat(self, cand: int) -> Optional[Seat]:
        return self.rounds[-1].seats.get(cand) if self.rounds else None

    def answered(self, cand: int, window: int, left: str) -> str:
        """How the answers of a window leave a candidate whom the cut before it left so."""
        kept = self.kept(cand, window)
        return {"withdraw": "withdrawn"}.get(kept[-1][3], kept[-1][3]) if kept else left

    def left(self, cand: int, window: int) -> str:
        """How the cut before a window left the candidate."""
        left = "waiting"
        for earlier in range(window):
            left = self.answered(cand, earlier, left)
            if left == "offered":
                left = "noshow"
            elif left == "waiting" and self.seat_after(cand, earlier):
                left = "offered"
        return left

    def standing(self, cand: int, window: int) -> str:
        return self.answered(cand, window, self.left(cand, window))

    def sought(self, cand: int) -> list[str]:
        """What a candidate seeks next."""
        standing, held, own = self.standing(cand, self.cuts), self.last_seat(cand), self.season.choices.get(cand, [])
        up_to_held = own[: own.index(held[0]) + 1] if held else own
        if standing == "waiting":
            return own
        if standing == "freeze":
            return [it for it in own if held and it == held[0]]
        if standing == "float":
            return up_to_held
        if standing == "slide":
            institute = self.season.programmes[held[0]][0] if held else None
            return [it for it in up_to_held if self.season.programmes[it][0] == institute]
        return []

    # ---- replies

    def reply(self, row: str) -> str:
        """The reply to a request as a row of the script spells it."""
        word, by, *fields = row.split(",")
        reply_to: Callable[..., str] = getattr(self, f"reply_to_{word}")
        return reply_to(by, *(int(it) if it.isdigit() else it for it in fields))

    def closed(self, window: int) -> Optional[str]:
        if window < self.cuts:
            return f"refused 6 Late now {self.cuts}\n"
        if window > self.cuts or window > self.season.rounds:
            return f"refused 7 Ahead now {self.cuts}\n"
        return None

    def reply_to_answer(self, by: str, cand: int, window: int, turn: int, choice: str) -> str:
        if not self.season.person(cand):
            return "refused 1 UnknownCandidate\n"
        if by != str(cand):
            return "refused 3 Denied rule 1\n"
        kept = next((it[3] for it in self.kept(cand, window) if it[2] == turn), None)
        if kept not in (None, choice):
            return f"refused 5 TurnUsed kept {kept}\n"
        refused = None if kept else self.refused_answer(cand, window, turn, choice)
        if refused:
            return refused
        if not kept:
            self.answers.append((window, cand, turn, choice))
        return f"noted {cand} window {window} turn {turn} {choice}\n"

    def refused_answer(self, cand: int, window: int, turn: int, choice: str) -> Optional[str]:
        last, left, standing = self.last_turn(cand, self.cuts), self.left(cand, self.cuts), self.standing(cand, self.cuts)
        if self.closed(window):
            return self.closed(window)
        if turn != last + 1:
            return f"refused 8 Gap last {last}\n"
        if standing in ("withdrawn", "noshow"):
            return f"refused 9 Gone {standing}\n"
        if not self.last_seat(cand) and choice != "withdraw":
            return "refused 10 NoSeat\n"
        if is_wider(left, choice):
            return f"refused 11 Widening standing {left}\n"
        if turn > MOST_TURNS and choice != "withdraw":
            return "refused 12 TooManyTurns\n"
        return None

    def reply_to_cut(self, by: str, window: int) -> str:
        if by != "clerk":
            return "refused 3 Denied rule 2\n"
        if window > self.cuts or window == self.cuts > self.season.rounds:
            return f"refused 7 Ahead now {self.cuts}\n"
        if window == self.cuts:
            if window < self.season.rounds:
                sought = {it.id: self.sought(it.id) for it in self.season.people}
                self.rounds.append(Round(self.season, self.seats(), sought))
            self.cuts += 1
        text = self.published_text(window + 1)
        count = text.split("\n", 1)[0].split(" ")[-1]
        return f"published {window + 1} seated {count}\n{text}" if window < self.season.rounds else f"final admitted {count}\n{text}"

    def published_text(self, number: int) -> str:
        """What was published under a number: a round, or the final admissions under one more than the number of rounds."""
        if number > self.season.rounds:
            rows = [f"admit {cand} {code} {step}\n" for cand, code, step in self.admitted()]
            return f"final {len(rows)}\n{''.join(rows)}end final\n"
        rows = [f"allot {cand} {code} {step}\n" for cand, (code, step) in sorted(self.rounds[number - 1].seats.items())]
        return f"round {number} seated {len(rows)}\n{''.join(rows)}end round\n"

    def admitted(self) -> list[tuple[int, str, str]]:
        """Those who kept a seat at the last cut."""
        found = [(it.id, self.last_seat(it.id)) for it in self.season.people if self.standing(it.id, self.season.rounds) in STAYS]
        return [(cand, *seat) for cand, seat in found if seat]

    def refused_own(self, by: str, cand: int) -> Optional[str]:
        """Why a question that only the candidate and the clerk may ask is refused, or None."""
        if not self.season.person(cand):
            return "refused 1 UnknownCandidate\n"
        return None if by in ("clerk", str(cand)) else "refused 3 Denied rule 3\n"

    def reply_to_seat(self, by: str, cand: int) -> str:
        refused = self.refused_own(by, cand)
        if refused:
            return refused
        standing, held = self.standing(cand, self.cuts), self.last_seat(cand)
        what = " ".join(held) if held and standing in ("offered", *STAYS) else "none"
        return f"seat {cand} round {len(self.rounds)} {standing} {what}\n"

    def reply_to_choices(self, by: str, cand: int) -> str:
        return self.refused_own(by, cand) or " ".join(["choices", str(cand), *self.season.choices.get(cand, [])]) + "\n"

    def reply_to_register(self, by: str, cand: int) -> str:
        refused = self.refused_own(by, cand)
        if refused:
            return refused
        person = self.season.registered(cand)
        return " ".join(["register", str(cand), person.category, person.traits or "-", *(it or "-" for it in person.places[:4])]) + "\n"

    def reply_to_answers(self, by: str, cand: int) -> str:
        refused = self.refused_own(by, cand)
        if refused:
            return refused
        kept = sorted((window, turn, choice) for window, who, turn, choice in self.answers if who == cand)
        receipts = (f"noted {cand} window {window} turn {turn} {choice}\n" for window, turn, choice in kept)
        return f"answers {cand} noted {len(kept)}\n{''.join(receipts)}end answers\n"

    def reply_to_why(self, by: str, cand: int, code: str) -> str:
        person, own = self.season.person(cand), self.season.choices.get(cand, [])
        if not person:
            return "refused 1 UnknownCandidate\n"
        if code not in self.season.programmes:
            return "refused 2 UnknownProgramme\n"
        if by not in ("clerk", str(cand)):
            return "refused 3 Denied rule 3\n"
        if code not in own:
            return "refused 13 NotChosen\n"
        if not self.rounds:
            return "refused 14 NoSuchRound published 0\n"
        held = self.last_seat(cand)
        if held and held[0] == code:
            return f"why {cand} {code} admitted {held[1]}\n"
        if held and own.index(held[0]) < own.index(code):
            return f"why {cand} {code} better {held[0]}\n"
        if code not in self.rounds[-1].sought[cand]:
            return f"why {cand} {code} notsought\n"
        return f"why {cand} {code} refused\n{''.join(self.steps_against(person, code))}end why\n"

    def steps_against(self, person: Person, code: str) -> Iterator[str]:
        """What stood against a person, step after step."""
        merit = self.season.merit(code)
        for found in self.rounds[-1].lists[code]:
            if person.is_common(merit) if found.step in ("OPEN", "D") else person.category == found.step:
                worse = any(it.rank(merit) > person.rank(merit) for it in found.admitted)
                yield f"{found.step} seats {found.seats} worse {'yes' if worse else 'no'}\n"

    def refused_shown(self, number: int, code: str) -> Optional[str]:
        """Why a question about a programme in a round is refused, or None."""
        if code not in self.season.programmes:
            return "refused 2 UnknownProgramme\n"
        return None if 1 <= number <= len(self.rounds) else f"refused 14 NoSuchRound published {len(self.rounds)}\n"

    def reply_to_cutoffs(self, _: str, number: int, code: str) -> str:
        refused = self.refused_shown(number, code)
        if refused:
            return refused
        return cutoffs_text(number, code, self.rounds[number - 1].lists[code], self.season.merit(code))

    def reply_to_list(self, _: str, number: int, code: str) -> str:
        refused = self.refused_shown(number, code)
        if refused:
            return refused
        return list_text(number, code, self.rounds[number - 1].lists[code])

    def reply_to_round(self, _: str, number: int) -> str:
        return self.published_text(number) if 1 <= number <= self.cuts else f"refused 14 NoSuchRound published {len(self.rounds)}\n"

    def reply_to_state(self, _: str) -> str:
        return f"state window {self.cuts} rounds {self.season.rounds} published {len(self.rounds)}\n"

    def reply_to_raise(self, by: str, window: int, code: str, step: str, seats: int) -> str:
        if code not in self.season.programmes:
            return "refused 2 UnknownProgramme\n"
        if by != "clerk":
            return "refused 3 Denied rule 4\n"
        row = (window, code, OTHER_WORDS.get(step, step), seats)
        if row not in self.raises:
            refused = self.refused_raise(*row)
            if refused:
                return refused
            self.raises.append(row)
        return f"raised {code} {row[2]} window {window} seats {seats}\n"

    def refused_raise(self, window: int, code: str, step: str, seats: int) -> Optional[str]:
        now, total = self.seats().get((code, step), 0), sum(self.seats().values())
        if self.closed(window):
            return self.closed(window)
        if window == self.season.rounds:
            return "refused 15 LastWindow\n"
        if step == "D":
            return "refused 16 StepFixed\n"
        if seats <= now:
            return f"refused 17 Falling seats {now}\n"
        if seats > MOST_SEATS or total - now + seats > MOST_SEATS_IN_ALL:
            return f"refused 18 SeatLimit total {total}\n"
        return None

    def rows(self) -> dict[str, list[tuple[int, ...]]]:
        """The rows of the tables of a store, as docs/FORMATS.md has them."""
        number = {code: at for at, code in enumerate(self.season.programmes)}
        allots = [(at, cand, *seat) for at, it in enumerate(self.rounds, 1) for cand, seat in sorted(it.seats.items())]
        if self.cuts > self.season.rounds:
            allots += [(self.season.rounds + 1, *it) for it in self.admitted()]
        return {
            "answer": [(at, w, c, t, CHOICES.index(choice)) for at, (w, c, t, choice) in enumerate(self.answers, 1)],
            "lift": [(at, w, number[code], STEPS.index(step), seats) for at, (w, code, step, seats) in enumerate(self.raises, 1)],
            "allot": [(r, c, number[code], STEPS.index(step)) for r, c, code, step in allots],
            "phase": [(1, self.cuts)],
        }
