"""The special round, plainly and outside of the program and its proofs: what final admissions left of a season, and one round more over it.

The seats that are left are made by taking them away one by one, final row after final row, as the rule says: each row takes one of its own step, and then
each row of the de-reserved step takes one of OBC while one is left there, and else one of EWS. It serves for a handful of candidates, as the plain office does."""
import copy
import csv
from typing import TYPE_CHECKING, Optional, Protocol, Sequence, TypeVar

from plain_office import STEPS, TRAITS, Office, Protections, Round, Season, Seat, certificate, cutoffs_text, list_text

if TYPE_CHECKING:
    from plain_trials import Draw

Item = TypeVar("Item")
# choice lists by candidate
Choices = dict[int, list[str]]
MOST_ROW_CHOICES = 1000
LAST_ID = 999_999_999


class InOrder(Protocol):
    """Returns items in the order of a number, each order having one."""

    def __call__(self, items: Sequence[Item], number: int) -> list[Item]: ...


# ---- what is left of the seats and the protections


def seats_left(office: Office) -> dict[Seat, int]:
    """The seats of each step that the final rows leave."""
    left = dict(office.seats())
    finals = office.admitted()
    for _, code, step in finals:
        if step != "D":
            left[code, step] -= 1
    for _, code, step in finals:
        if step == "D":
            left[code, "OBC" if left.get((code, "OBC"), 0) > 0 else "EWS"] -= 1
    return left


def protections_left(office: Office, left: dict[Seat, int]) -> dict[Seat, Protections]:
    """The protections of each step that the certificate of its final persons leaves, as far as there are seats."""
    season = office.season
    found: dict[Seat, Protections] = {}
    for (code, step), old in season.protections.items():
        merit = season.merit(code)
        persons = sorted((season.registered(cand) for cand, *seat in office.admitted() if tuple(seat) == (code, step)), key=lambda it: it.rank(merit))
        letters = certificate(tuple(it.traits for it in persons), old)
        room = left[code, step]
        kept: list[int] = []
        for trait, count in zip(TRAITS, old):
            kept.append(max(min(count - letters.count(trait), room), 0))
            room -= kept[-1]
        found[code, step] = tuple(kept)
    return found


def season_left(office: Office, choices: Choices) -> Season:
    """The season of one round that is left, with these lists."""
    season = copy.copy(office.season)
    season.rounds, season.choices = 1, choices
    season.seats = seats_left(office)
    season.protections = protections_left(office, season.seats)
    return season


# ---- the lists


def rows_of(lists: str) -> list[list[str]]:
    """The rows of lists, without the empty fields at their ends and without rows that are empty then."""
    found = []
    for row in csv.reader(lists.split("\n")):
        while row and not row[-1]:
            row.pop()
        if row:
            found.append(row)
    return found


def kind_of(season: Season, known: Choices, row: list[str]) -> Optional[str]:
    """What is wrong with a row after the lists that are known, or None."""
    cand = int(row[0]) if row[0].isdigit() and row[0] == str(int(row[0])) and int(row[0]) <= LAST_ID else 0
    person = season.person(cand)
    if not person:
        return "UnknownCandidate"
    if cand in known:
        return "RepeatedCandidate"
    if len(row) - 1 > MOST_ROW_CHOICES:
        return "TooLong"
    for at, code in enumerate(row[1:], 1):
        if code not in season.programmes:
            return "UnknownProgramme"
        if code in row[1:at]:
            return "RepeatedProgramme"
        if person.place(season.merit(code)) is None:
            return "NotRankedThere"
    return None


def read_lists(office: Office, lists: str) -> tuple[Choices, Optional[str]]:
    """The choices that lists spell, or none and the line of their fault."""
    known: Choices = {}
    rows = rows_of(lists)
    if not rows or rows[0] != ["candidate", "programmes"]:
        return {}, "fault: choices row 1 BadHeader\n"
    for number, row in enumerate(rows[1:], 2):
        kind = kind_of(office.season, known, row)
        if kind:
            return {}, f"fault: choices row {number} {kind}\n"
        known[int(row[0])] = row[1:]
    admitted = {cand for cand, *_ in office.admitted()}
    for number, row in enumerate(rows[1:], 2):
        if int(row[0]) in admitted:
            return {}, f"fault: special row {number} Admitted\n"
    return known, None


# ---- the round


def listed(season: Season, made: Round) -> str:
    """The list and the cutoffs of each programme in a special round, as the office's replies spell them."""
    return "".join(list_text(1, code, found) + cutoffs_text(1, code, found, season.merit(code)) for code, found in made.lists.items())


def special_text(office: Office, lists: str, with_lists: bool = False) -> tuple[str, bool]:
    """What the command on an office's records writes for these lists, alone or with the list and the cutoffs of each programme, and whether that is a fault."""
    if office.cuts <= office.season.rounds:
        return f"fault: special NotFinal now {office.cuts}\n", True
    choices, fault = read_lists(office, lists)
    if fault:
        return fault, True
    vacant = sum(office.seats().values()) - len(office.admitted())
    season = season_left(office, choices)
    made = Round(season, season.seats, {it.id: choices.get(it.id, []) for it in season.people})
    rows = "".join(f"allot {cand} {code} {step}\n" for cand, (code, step) in sorted(made.seats.items()))
    seated = len(made.seats)
    papers = listed(season, made) if with_lists else ""
    return f"special seats {vacant} seated {seated}\nround 1 seated {seated}\n{rows}end round\n{papers}", False


def wrongs_of(office: Office, lists: str) -> list[str]:
    """What is wrong with the special round by its promises: nobody with a final row has a seat of it, and no programme gives more seats than it has."""
    choices, fault = read_lists(office, lists)
    if fault:
        return []
    season = season_left(office, choices)
    made = Round(season, season.seats, {it.id: choices.get(it.id, []) for it in season.people})
    finals = office.admitted()
    said = [f"{cand} has a final row and a seat" for cand, *_ in finals if cand in made.seats]
    for code in season.programmes:
        most = sum(office.seats().get((code, step), 0) for step in STEPS)
        taken = sum(it[1] == code for it in finals) + sum(it[0] == code for it in made.seats.values())
        if taken > most:
            said.append(f"{code} gives {taken} of {most} seats")
    said += [f"{code} {step} has {seats} seats left" for (code, step), seats in season.seats.items() if seats < 0]
    return said


def office_after(text: str) -> Office:
    """The office after the requests of a bundle with its script."""
    season, _, script = text.partition("[requests]\n")
    office = Office(Season(season))
    for row in filter(None, script.split("\n")):
        office.reply(row)
    return office


# ---- drawn seasons that are over


def drawn_season(draw: "Draw", in_order: InOrder) -> str:
    """A bundle with a script to its end: two programmes, in which categories leave seats, with protections, and maybe a raise. In each window somebody asks for
    what the next cut publishes, before it and after it, and for a choice list."""
    rounds, people = draw.below(2) + 1, 7
    text = f"office bundle {draw.below(2) + 1}\n[season]\nrounds,{rounds}\nclerk,clerk0001\n[register]\nid,category,traits,token,m1,m2,m3,m4\n"
    merit = [in_order(tuple(range(1, people + 1)), draw.below(5040)) for _ in range(2)]
    for number, places in enumerate(zip(*merit), 1):
        category, relaxed = draw.of(8, (4, ("GEN", "")), (5, ("OBC", "R")), (6, ("OBC", "")), (7, ("EWS", "")), (8, ("EWS", "R")))
        traits = draw.of(6, (1, "W"), (2, "D"), (3, "WD"), (6, "-"))
        text += f"{number},{category},{traits},tok0000{number},{places[0]}{relaxed},{places[1]}\n"
    text += "[matrix]\nprogramme,institute,list,step,seats,W,D,X,S,F,L\n"
    for merit_list, code in enumerate("AB", 1):
        for step, most in (("OPEN", 2), ("OBC", 3), ("EWS", 3), ("SC", 2)):
            seats = draw.below(most)
            text += f"{code},I1,{merit_list},{step},{seats},{draw.below(seats + 1) if step != 'SC' else 0}\n"
    text += "[choices]\ncandidate,programmes\n"
    for number in range(1, people + 1):
        own = in_order("AB", draw.below(2))[: draw.below(4)]
        text += ",".join([str(number), *own]) + "\n" if own else ""
    text += "[requests]\n"
    for window in range(rounds + 1):
        for cand in range(1, people + 1):
            choice = draw.of(10, (5, "float"), (7, "freeze"), (8, "withdraw"), (10, None))
            text += f"answer,{cand},{cand},{window},1,{choice}\n" if choice and window else ""
        text += f"raise,clerk,{window},A,{draw.of(3, (1, 'OPEN'), (2, 'OBC'), (3, 'EWS'))},{draw.below(3) + 1}\n" if draw.below(3) == 0 else ""
        question = f"round,nobody,{window + 1}\n"
        text += f"{question}cut,clerk,{window}\nchoices,{window + 1},{window + 1}\n{question}"
    return text


def drawn_lists(draw: "Draw", in_order: InOrder, office: Office) -> str:
    """Lists of those without a final row, and now and then a row of somebody with one."""
    admitted = {cand for cand, *_ in office.admitted()}
    text = "candidate,programmes\n"
    for person in office.season.people:
        if draw.below(4) and (person.id not in admitted or draw.below(30) == 0):
            text += ",".join([str(person.id), *in_order("AB", draw.below(2))[: draw.below(3)]]) + "\n"
    return text
