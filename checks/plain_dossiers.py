"""Drawn dossiers, each damaged in one place or in none: the program's verdict on them is held against that of the plain auditor."""
import functools
import itertools
import os
import re
import runpy
import subprocess
import sys
from typing import TYPE_CHECKING, Callable, Iterable, Iterator, Mapping, Optional, Sequence, Union

from cases import SECONDS, called, first_difference
from plain_audit import MOST_INPUT, applies, verdict
from plain_office import SEAT_KINDS, STEPS, Answer, Office, Person, Raise, Season, Seat, StepList, certificate
from plain_special import Choices, InOrder, Item, drawn_lists, drawn_season, read_lists, season_left

TOP = os.path.dirname(os.path.dirname(os.path.realpath(__file__)))
OF_BUNDLE: Callable[[Callable[[list[str], bytes], tuple[bytes, Optional[int]]], bytes], bytes] = runpy.run_path(f"{TOP}/tools/dossier")["of_bundle"]

if TYPE_CHECKING:
    from plain_trials import Draw

# the seats of a round by candidate, and its lists by programme
Seats = dict[int, Seat]
Lists = Mapping[str, Sequence[Union[StepList, "Made"]]]
# a dossier: its label, its bytes, the plain auditor's verdict on them, and the status
Judged = tuple[str, bytes, bytes, int]

# ---- dossiers that can be damaged


class Dossier:
    """A dossier that can be damaged: the season and its script, and what the plain office published for it."""

    def __init__(self, text: str) -> None:
        season, _, script = text.partition("[requests]\n")
        self.bundle, self.requests = season, script
        self.season = Season(season)
        # the office before each cut: how many cuts there were, the answers and the raises
        self.before: list[tuple[int, list[Answer], list[Raise]]] = []
        office = Office(self.season)
        for row in filter(None, script.split("\n")):
            if row.startswith("cut,clerk") and office.cuts <= self.season.rounds:
                self.before.append((office.cuts, list(office.answers), list(office.raises)))
            office.reply(row)
        self.office = office
        self.rounds = [(dict(it.seats), {code: [*lists] for code, lists in it.lists.items()}) for it in office.rounds]
        self.texts = [self.round_lines(at, *it) for at, it in enumerate(self.rounds)]
        self.last = office.published_text(self.season.rounds + 1).split("\n")[:-1] if office.cuts > self.season.rounds else []

    def round_lines(self, at: int, seats: Seats, lists: Lists) -> list[str]:
        rows = [f"allot {cand} {code} {step}" for cand, (code, step) in sorted(seats.items())]
        return [f"round {at + 1} seated {len(rows)}", *rows, "end round", *(line for code in self.season.programmes for line in list_lines(at + 1, code, lists[code]))]

    def published(self) -> list[str]:
        return [*(line for lines in self.texts for line in lines), *self.last]

    def given(self, lines: Optional[list[str]] = None) -> bytes:
        lines = self.published() if lines is None else lines
        return f"{self.bundle}[requests]\n{self.requests}[published]\n{''.join(f'{it}{chr(10)}' for it in lines)}".encode()

    def with_seats(self, at: int, seats: Seats) -> bytes:
        """The same with other seats in a round, and its lists made anew for them."""
        office = Office(self.season)
        office.cuts, office.answers, office.raises = self.before[at]
        office.rounds = self.office.rounds[:at]
        sought, given = {it.id: office.sought(it.id) for it in self.season.people}, office.seats()
        self.texts[at] = self.round_lines(at, seats, {code: [*lists_for(self.season, given, code, sought, seats)] for code in self.season.programmes})
        return self.given()


class Special(Dossier):
    """The dossier of a season that is over, with the special round behind it, which can be damaged: the season that the final admissions left, and what the plain office publishes for it."""

    def __init__(self, dossier: Dossier, lists: str, choices: Choices) -> None:
        self.front, self.handed_in = dossier.given(), lists
        self.season, self.before, self.last = season_left(dossier.office, choices), [(0, [], [])], []
        self.office = Office(self.season)
        self.office.reply("cut,clerk,0")
        self.rounds = [(dict(it.seats), {code: [*lists] for code, lists in it.lists.items()}) for it in self.office.rounds]
        self.texts = [self.round_lines(at, *it) for at, it in enumerate(self.rounds)]

    def given(self, lines: Optional[list[str]] = None) -> bytes:
        lines = self.published() if lines is None else lines
        return self.front + f"[lists]\n{self.handed_in}[special]\n{''.join(f'{it}{chr(10)}' for it in lines)}".encode()


def list_lines(number: int, code: str, lists: Iterable[Union[StepList, "Made"]]) -> Iterator[str]:
    yield f"list {number} {code}"
    for it in lists:
        yield f"step {it.step} seats {it.seats} candidates {it.candidates} admitted {len(it.admitted)}"
        yield f"honoured {len(it.letters) - it.letters.count('-')}"
        yield from (f"{person.id} {letter}" for person, letter in zip(it.admitted, it.letters))
    yield "end list"


class Made:
    """A step made anew for those who have its seats."""

    def __init__(self, step: str, seats: int, candidates: int, admitted: list[Person], letters: list[str]) -> None:
        self.step, self.seats, self.candidates, self.admitted, self.letters = step, seats, candidates, admitted, letters


def lists_for(season: Season, given: Mapping[Seat, int], code: str, sought: dict[int, list[str]], seats: Seats) -> Iterator[Made]:
    """The lists of a programme that name those who have its seats, by merit and with the best certificate, and with numbers as they come to then."""
    merit = season.merit(code)
    named: set[int] = set()
    held: dict[str, int] = {}
    by_merit = sorted((it for it in season.people if it.place(merit)), key=lambda it: it.rank(merit))
    for step in STEPS:
        people = [it for it in by_merit if applies(it.id, code, sought, seats) and it.id not in named and (it.is_common(merit) if step in ("OPEN", "D") else it.category == step)]
        admitted = [it for it in by_merit if tuple(seats.get(it.id, ())) == (code, step)]
        held[step] = len(admitted)
        count = given.get((code, step), 0)
        if step == "D":
            count = max(sum(given.get((code, it), 0) - held[it] for it in (("OBC", "EWS") if season.version == 2 else ("OBC",))), 0)
        letters = [*certificate(tuple(it.traits for it in admitted), season.protections.get((code, step), (0,) * 6))]
        named.update(it.id for it in admitted)
        yield Made(step, count, len(people), admitted, letters)


def one_of(draw: "Draw", items: Iterable[Item]) -> Item:
    known = [*items]
    return known[draw.below(len(known))]


def one_if_any(draw: "Draw", items: Iterable[Item]) -> Optional[Item]:
    known = [*items]
    return one_of(draw, known) if known else None


# ---- the damages; each gives the bytes of a damaged dossier, or None where there is nothing of its kind


def nothing(draw: "Draw", dossier: Dossier) -> bytes:
    return dossier.given()


def quoted(draw: "Draw", dossier: Dossier) -> bytes:
    """Some fields of the bundle and of the requests are in quotes, as a spreadsheet or `units` writes them; nothing else changes."""
    def in_quotes(line: str) -> str:
        return line if line.startswith(("[", "office")) or not line else ",".join(f'"{it}"' if draw.below(2) else it for it in line.split(","))

    dossier.bundle, dossier.requests = ("\n".join(map(in_quotes, it.split("\n"))) for it in (dossier.bundle, dossier.requests))
    return dossier.given()


def seats_changed(draw: "Draw", dossier: Dossier) -> Optional[bytes]:
    """One seat of a round is given, taken, handed on, exchanged or listed under another step; the lists are made anew."""
    at = draw.below(len(dossier.texts) or 1)
    if not dossier.texts:
        return None
    seats, ids = dict(dossier.rounds[at][0]), [it.id for it in dossier.season.people]
    one, other = one_of(draw, ids), one_of(draw, ids)
    kind = draw.below(5)
    if kind == 0:
        seats[one] = (one_of(draw, dossier.season.programmes), one_of(draw, SEAT_KINDS))
    elif kind == 1:
        seats.pop(one, None)
    elif kind == 2 and one in seats:
        seats[other] = seats.pop(one)
    elif kind == 3 and one in seats and other in seats:
        seats[one], seats[other] = seats[other], seats[one]
    elif one in seats:
        seats[one] = (seats[one][0], one_of(draw, SEAT_KINDS))
    return dossier.with_seats(at, seats)


def round_changed(draw: "Draw", dossier: Dossier) -> Optional[bytes]:
    """A round's text gives somebody another seat, or none, and the lists stay."""
    if not dossier.texts:
        return None
    at = draw.below(len(dossier.texts))
    seats, lines = dict(dossier.rounds[at][0]), dossier.texts[at]
    cand = one_of(draw, [it.id for it in dossier.season.people])
    if draw.below(2) and cand in seats:
        del seats[cand]
    elif dossier.season.choices.get(cand):
        seats[cand] = (one_of(draw, dossier.season.choices[cand]), one_of(draw, SEAT_KINDS))
    rows = [f"allot {cand} {code} {step}" for cand, (code, step) in sorted(seats.items())]
    dossier.texts[at] = [f"round {at + 1} seated {len(rows)}", *rows, *lines[lines.index("end round") :]]
    return dossier.given()


def best_handed_on(draw: "Draw", dossier: Dossier) -> Optional[bytes]:
    """A seat goes to somebody worse who wants it too; the lists are made anew."""
    if not dossier.texts:
        return None
    at = draw.below(len(dossier.texts))
    seats = dict(dossier.rounds[at][0])
    one = one_if_any(draw, seats)
    other = one_if_any(draw, [it.id for it in dossier.season.people if it.id not in seats and one and seats[one][0] in dossier.season.choices.get(it.id, [])])
    if one and other:
        seats[other] = seats.pop(one)
    return dossier.with_seats(at, seats)


def nobody_stays(draw: "Draw", dossier: Dossier) -> Optional[bytes]:
    """Somebody has no seat any more, and the lists are made anew; where somebody else can have it, that one has."""
    at = draw.below(len(dossier.texts) or 1)
    if len(dossier.texts) < 2 or not at or not dossier.rounds[at][0]:
        return None
    seats = dict(dossier.rounds[at][0])
    seats.pop(one_of(draw, seats))
    return dossier.with_seats(at, seats)


def line_changed(draw: "Draw", dossier: Dossier) -> Optional[bytes]:
    """A line is left out, told twice, moved, or has one of its words changed."""
    lines = dossier.published()
    if not lines:
        return dossier.given(["end round"])
    at, kind = draw.below(len(lines)), draw.below(8)
    parts = lines[at].split(" ")
    if kind == 0:
        del lines[at]
    elif kind == 1:
        lines.insert(at, lines[at])
    elif kind == 2:
        lines.insert(at, lines.pop())
    else:
        word = draw.below(len(parts))
        parts[word] = one_of(draw, ("0", "1", "2", "7", "8", "01", "A", "B", "OPEN", "OBC", "D", "W", "-", "", "4294967296", str(int(parts[word]) + 1) if parts[word].isdigit() else "x"))
        lines[at] = " ".join(parts)
    return dossier.given(lines)


def cut_short(draw: "Draw", dossier: Dossier) -> Optional[bytes]:
    """The end is missing, or there is more."""
    given = dossier.given()
    start = given.index(b"[published]\n") + 12
    return given[: start + draw.below(len(given) - start + 1)] + (b"", b"x", b"\n")[draw.below(3)]


def number_changed(draw: "Draw", dossier: Dossier) -> Optional[bytes]:
    """The seats or the candidates of a listed step are other ones."""
    lines = dossier.published()
    at = one_if_any(draw, [at for at, it in enumerate(lines) if it.startswith("step ")])
    if at is None:
        return None
    parts = lines[at].split(" ")
    word = (3, 5)[draw.below(2)]
    parts[word] = str(int(parts[word]) + 1)
    lines[at] = " ".join(parts)
    return dossier.given(lines)


def letter_changed(draw: "Draw", dossier: Dossier) -> Optional[bytes]:
    """Who is listed fills another position, or none, or one more."""
    lines = dossier.published()
    at = one_if_any(draw, [at for at, it in enumerate(lines) if re.fullmatch(r"\d+ \S", it)])
    if at is None:
        return None
    cand, letter = lines[at].split(" ")
    lines[at] = f"{cand} {one_of(draw, 'WD-')}"
    above = max(it for it in range(at) if lines[it].startswith("honoured "))
    count = sum(not it.endswith("-") for it in itertools.takewhile(lambda it: re.fullmatch(r"\d+ \S", it), lines[above + 1 :]))
    lines[above] = f"honoured {count}"
    return dossier.given(lines)


def order_changed(draw: "Draw", dossier: Dossier) -> Optional[bytes]:
    """Two who are listed next to each other have changed places."""
    lines = dossier.published()
    at = one_if_any(draw, [at for at in range(len(lines) - 1) if all(re.fullmatch(r"\d+ \S", it) for it in lines[at : at + 2])])
    if at is None:
        return None
    lines[at : at + 2] = lines[at + 1], lines[at]
    return dossier.given(lines)


def final_changed(draw: "Draw", dossier: Dossier) -> Optional[bytes]:
    """A final row is missing, or has another seat."""
    rows = dossier.last[1:-1]
    if not rows:
        return None
    at = draw.below(len(rows))
    if draw.below(2):
        del rows[at]
    else:
        cand = rows[at].split(" ")[1]
        rows[at] = f"admit {cand} {one_of(draw, dossier.season.programmes)} {one_of(draw, SEAT_KINDS)}"
    dossier.last = [f"final {len(rows)}", *rows, "end final"]
    return dossier.given()


def season_changed(draw: "Draw", dossier: Dossier) -> Optional[bytes]:
    """The register, the matrix, a choice list or a request is another one than that for which the texts were published."""
    text = dossier.bundle + "[requests]\n" + dossier.requests
    lines = text.split("\n")
    of = [at for at, it in enumerate(lines) if re.match(r"\d+,[A-Z]|answer,|raise,|[AB],I1,\d,", it)]
    at = one_of(draw, of)
    if re.match(r"\d+,[AB]", lines[at]):
        cand, *codes = lines[at].split(",")
        lines[at] = ",".join([cand, *codes[::-1]][: draw.below(3) + 1])
    elif lines[at].startswith(("answer,", "raise,")):
        lines.pop(at)
    elif re.match(r"\d+,", lines[at]):
        lines[at] = lines[at].replace(",W,", ",-,") if ",W," in lines[at] else lines[at].replace(",-,", ",W,")
    else:
        parts = lines[at].split(",")
        parts[4] = str(int(parts[4]) + 1)
        lines[at] = ",".join(parts)
    dossier.bundle, _, dossier.requests = "\n".join(lines).partition("[requests]\n")
    return dossier.given()


def season_broken(draw: "Draw", dossier: Dossier) -> Optional[bytes]:
    """The bundle or the requests have a fault, or one of the marks between the parts is not there."""
    given = dossier.given()
    old, new = one_of(draw, (
        (b"office bundle", b"office bundles"),
        (b"rounds,", b"rounds,0"),
        (b"[matrix]", b"[matrices]"),
        (b"[season]", b"0\n[season]"),
        (b"candidate,programmes\n", b"candidate,programmes\n8,A\n"),
        (b"candidate,programmes\n", b"candidate,programmes\n1,C\n"),
        (b"cut,clerk,0", b"cut,clerk,-1"),
        (b"cut,clerk,0", b"cut,clerk,\xff"),
        (b"office bundle", b"office bundle\xff"),
        (b"[requests]", b"[request]"),
        (b"[published]", b"[publish]"),
        (b"[requests]\n", b"[requests],,\r\n"),
        (b"[requests]\n", b""),
        (b"[published]\n", b"[published],\r\n"),
    ))
    return given.replace(old, new, 1)


Damage = Callable[["Draw", Dossier], Optional[bytes]]
DAMAGES: tuple[Damage, ...] = (nothing, quoted, seats_changed, seats_changed, round_changed, best_handed_on, best_handed_on, nobody_stays, line_changed, line_changed, cut_short, number_changed, letter_changed, order_changed, final_changed, season_changed, season_broken)
CLAUSES = ("NotSought", "Fell", "Unlisted", "WrongNumbers", "NotCandidate", "WrongSize", "BadCertificate", "Overtaken", "FinalDiffers")
DAMAGES_OF_SPECIAL: tuple[Damage, ...] = (nothing, seats_changed, seats_changed, round_changed, best_handed_on, best_handed_on, line_changed, cut_short, number_changed, letter_changed, order_changed)
CLAUSES_OF_SPECIAL = tuple(it for it in CLAUSES if it not in ("Fell", "FinalDiffers"))
FAULTS = ("dossier NoSection", "bundle NotUtf8", "bundle BadFirstLine", "bundle line", "season row", "choices row", "requests row", "published line", "special NotFinal", "special row", "special line")


def drawn_dossiers(draw: "Draw", in_order: InOrder, seasons: int, count: int) -> list[Judged]:
    """From each of some seasons so many dossiers, each damaged in one place or in none, with what the plain auditor says of them."""
    found = []
    for number in range(seasons):
        text = drawn_season(draw, in_order)
        for other in range(count):
            dossier, damage = Dossier(text), DAMAGES[draw.below(len(DAMAGES))]
            given = damage(draw, dossier) or dossier.given()
            found.append((f"dossier {number}.{other} ({damage.__name__})", given, *verdict(given)))
    return found


def drawn_specials(draw: "Draw", in_order: InOrder, seasons: int, count: int) -> list[Judged]:
    """The same with a special round behind each season, which is damaged in one place or in none; now and then the season is not over, or the lists have a fault."""
    found = []
    for number in range(seasons):
        text = drawn_season(draw, in_order)
        lists = drawn_lists(draw, in_order, Dossier(text).office)
        text = text.removesuffix("\n").rpartition("cut,clerk")[0] if draw.below(20) == 0 else text
        for other in range(count):
            dossier, damage = Dossier(text), DAMAGES_OF_SPECIAL[draw.below(len(DAMAGES_OF_SPECIAL))]
            choices, _ = read_lists(dossier.office, lists)
            special = Special(dossier, lists, choices or {})
            given = damage(draw, special) or special.given()
            found.append((f"special round {number}.{other} ({damage.__name__})", given, *verdict(given)))
    return found


def lacking(dossiers: list[Judged]) -> Optional[str]:
    """Which clause or fault none of the dossiers has."""
    told = [wrote.decode() for _, _, wrote, _ in dossiers]
    lost = [f"special {it}" for it in CLAUSES_OF_SPECIAL if not any(f"broken special {it} " in line for line in told)]
    lost += [it for it in CLAUSES if not any(f" {it} " in line for line in told)] + [it for it in FAULTS if not any(line.startswith(f"fault: {it}") for line in told)]
    return f"drawn dossiers: none has {', '.join(lost)}" if lost else None


# ---- the trials


def fault_of_audit(program: str, label: str, given: bytes, told: bytes, status: int) -> Optional[str]:
    """Why the program's verdict is not the plain one, or None."""
    found = called(program, ["audit"], given, "/")
    return None if found == (told, status) else f"{label}: audit ended with status {found[1]}: {first_difference(found[0], told)}"


def fault_of_length(program: str) -> Optional[str]:
    """Why a dossier with one byte more than may be read is not refused for it, or None."""
    return fault_of_audit(program, "a dossier that is too long", b"\n" * (MOST_INPUT + 1), b"fault: dossier TooLong\n", 3)


def fault_of_generated(program: str, count: int, seed: int, plainly: bool) -> Optional[str]:
    """Why the dossier of a generated season, as tools/dossier makes it of what the program publishes, is not sound, or None. The plain auditor is asked too."""
    bundle, _ = called(program, ["generate", str(count), str(seed), "text"], b"", "/")
    given = OF_BUNDLE(lambda words, it: called(program, words, it, "/"), bundle)
    told = b"audit sound rounds 6\n", 0
    if plainly and verdict(given) != told:
        return f"the dossier of generate {count} {seed}: the plain auditor says {verdict(given)[0]!r}"
    return fault_of_audit(program, f"the dossier of generate {count} {seed}", given, *told)


def without_lists(lines: list[str]) -> list[str]:
    """Returns the lines of published texts that belong to rounds and to final admissions."""
    kept: list[str] = []
    inside = False
    for line in lines:
        inside = inside or line.startswith(("round ", "final "))
        kept += [line] if inside else []
        inside = inside and not line.startswith("end ")
    return kept


def fault_of_own(program: str, label: str, given: bytes) -> Optional[str]:
    """Returns why a dossier that the program calls sound and best has other rounds or final admissions than the plain office publishes for it, or None."""
    wrote, status = called(program, ["audit", "best"], given, "/")
    if status:
        return None
    season, _, published = re.sub(r"^(\[\w+\]),*\r?$", r"\1", given.decode(), flags=re.M).partition("[published]\n")
    # no field of a drawn season has a comma or a quotation mark in it, and the plain office reads none that is quoted
    own, found = (without_lists(it) for it in (Dossier(season.replace('"', "")).published(), published.partition("[lists]\n")[0].split("\n")))
    return None if own == found else f"{label}: {wrote.decode().split()} of rounds and final admissions that are not the office's"


def fault_of_divided(program: str) -> Optional[str]:
    """Why the dossier of examples/two-states with all its cuts and a question of each kind is not sound and best by both auditors, or None."""
    with open(f"{TOP}/examples/two-states/divided.txt", "rb") as it:
        asked = b"seat,1,1\nchoices,1,1\nregister,1,1\nanswers,1,1\nwhy,3,3,N-HS\nlist,nobody,1,N-HS\ncutoffs,nobody,1,N-OS\nround,nobody,1\nstate,nobody\n"
        bundle = it.read() + b"answer,1,1,1,1,freeze\nanswer,2,2,1,1,float\n" + asked + b"cut,clerk,1\ncut,clerk,2\n"
    given = OF_BUNDLE(lambda words, it: called(program, words, it, "/"), bundle)
    told = b"audit sound rounds 2\nbest\n", 0
    if b'"' not in given or verdict(given, True) != told:
        return f"the dossier of two-states: the plain auditor says {verdict(given, True)[0]!r}"
    found = called(program, ["audit", "best"], given, "/")
    ran = subprocess.run([sys.executable, f"{TOP}/checks/plain_audit.py", "--best"], input=given, capture_output=True, timeout=SECONDS)
    by_command = ran.stdout, ran.returncode
    return None if found == by_command == told else f"the dossier of two-states: audit best says {found}, and the plain auditor as a command {by_command}"


def trials(program: str, dossiers: Iterable[Judged], seasons: Iterable[tuple[int, int]]) -> Iterator[Callable[[], Optional[str]]]:
    """What is tried, each a call that gives a fault or None: the verdict on each of these dossiers, that those which are sound and best have the office's own rounds,
    and that the dossiers of seasons that are generated from these numbers are sound."""
    yield functools.partial(fault_of_divided, program)
    for label, given, told, status in dossiers:
        yield functools.partial(fault_of_audit, program, label, given, told, status)
        if not status:
            yield functools.partial(fault_of_own, program, label, given)
    for count, seed in seasons:
        yield functools.partial(fault_of_generated, program, count, seed, count <= 1000)
