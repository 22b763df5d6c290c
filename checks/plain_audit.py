#!/usr/bin/env python3
"""A plain auditor, outside of the program and its proofs: what is wrong with a published season, by going through the clauses one after another.

    python3 plain_audit.py < dossier.txt           prints the line that `office audit` prints, and exits with its status
    python3 plain_audit.py --best < dossier.txt    does the same for `audit best`

It reads a dossier, which is a bundle with its requests and the texts that were published for it, and replays the season with the rounds that it finds there. Whom a
step should have admitted is not made: each clause is tried on what is listed, and each exchange by trying every placement. So it serves for small dossiers, and for a season of
some hundred candidates. Of the faults of a season it knows the few
that are drawn in checks/plain_dossiers.py or are in cases/audit.txt."""
import argparse
import csv
import io
import itertools
import re
import sys
from typing import Collection, Generator, Iterable, Iterator, Optional, Union

from plain_office import SEAT_KINDS, STAYS, STEPS, TRAITS, Answer, Office, Person, Protections, Round, Season, Seat, greatest
from plain_scripts import is_request
from plain_special import read_lists, season_left

MOST_INPUT = 134_217_728
MOST_32_BITS = 4_294_967_295
NUMBER_OF_32_BITS = None
# a line that may come next: for each of its words those that may be there
Form = tuple[Optional[Collection[str]], ...]
# a text that is published: it gives the forms of its lines one by one, and gets the lines
Text = Generator[Form, str, None]
# a row of a round or of the final admissions: a candidate, a programme and a step
Row = tuple[int, str, str]
SECTIONS = ("[season]", "[register]", "[matrix]", "[choices]")


class Fault(Exception):
    """A dossier that cannot be read, by the rest of the line that says so."""


# ---- the three parts of a dossier


def lines_of(given: bytes) -> Iterator[tuple[int, int, bytes]]:
    """The lines of bytes, each with its end, and with it."""
    at = 0
    while at < len(given):
        end = given.find(b"\n", at) + 1 or len(given)
        yield at, end, given[at:end]
        at = end


def title(line: bytes) -> bytes:
    """A line without its end and its commas."""
    return line.removesuffix(b"\n").removesuffix(b"\r").rstrip(b",")


def parts_of(given: bytes) -> tuple[bytes, bytes, bytes]:
    """The bundle, the requests and what is published."""
    if len(given) > MOST_INPUT:
        raise Fault("dossier TooLong")
    marks: list[int] = []
    names = [b"[requests]", b"[published]"]
    for at, end, line in lines_of(given):
        if title(line.removeprefix(b"\xef\xbb\xbf") if at == 0 else line) == names[0]:
            marks += [at, end]
            names.pop(0)
            if not names:
                return given[: marks[0]], given[marks[1] : marks[2]], given[marks[3] :]
    raise Fault("dossier NoSection")


def special_parts_of(published: bytes) -> Optional[tuple[bytes, bytes, bytes]]:
    """What is published of the season, and behind it the lists and the texts of a special round; nothing if one of their section lines is missing."""
    marks: list[int] = []
    names = [b"[lists]", b"[special]"]
    for at, end, line in lines_of(published):
        if names and title(line) == names[0]:
            marks += [at, end]
            names.pop(0)
    return None if names else (published[: marks[0]], published[marks[1] : marks[2]], published[marks[3] :])


# ---- the season and its script


def records(text: str) -> list[list[str]]:
    """Returns the comma-separated records of a text, with or without quotes. Empty fields at an end are none, and a record without fields is none."""
    csv.field_size_limit(sys.maxsize)
    found = []
    # Python before 3.11 reads no zero bytes; no field may have one
    for fields in csv.reader(io.StringIO(text.replace("\0", "?"), newline="")):
        while fields and not fields[-1]:
            fields.pop()
        if fields:
            found.append(fields)
    return found


def season_of(bundle: bytes) -> Season:
    """The season of a bundle without a fault, but for the few faults that are known here."""
    try:
        text = bundle.decode().removeprefix("\ufeff")
    except UnicodeDecodeError:
        raise Fault("bundle NotUtf8") from None
    whole = [it for _, _, it in lines_of(text.encode())]
    lines = [title(it).decode() for it in whole]
    if not lines or lines[0] not in ("office bundle 1", "office bundle 2"):
        raise Fault("bundle BadFirstLine")
    named = [(number, it) for number, it in enumerate(lines, 1) if it.startswith("[")]
    early = next((number for number, it in enumerate(lines[1:], 2) if it), None)
    for at, name in enumerate(SECTIONS):
        if at < len(named) and named[at][1] != name or at == 0 and early and not lines[early - 1].startswith("["):
            raise Fault(f"bundle line {early if at == 0 else named[at][0]} Section")
        if at >= len(named):
            raise Fault(f"bundle line {len(lines) + 1} Section")
    if len(named) > len(SECTIONS):
        raise Fault(f"bundle line {named[len(SECTIONS)][0]} Section")
    body = {name: records(b"".join(whole[number : end - 1]).decode()) for (number, name), (end, _) in zip(named, [*named[1:], (len(lines) + 1, "")])}
    for number, row in enumerate(body["[season]"], 1):
        if row[0] == "rounds" and (len(row) != 2 or row[1] not in [str(it) for it in range(1, 11)]):
            raise Fault(f"season row {number} BadSeason")
    codes, people = {row[0] for row in body["[matrix]"][1:]}, {row[0] for row in body["[register]"][1:]}
    for number, row in enumerate(body["[choices]"][1:], 2):
        if row[0] not in people:
            raise Fault(f"choices row {number} UnknownCandidate")
        if not codes.issuperset(row[1:]):
            raise Fault(f"choices row {number} UnknownProgramme")
    return Season("\n".join([lines[0], *(line for name in SECTIONS for line in (name, *map(",".join, body[name])))]))


def script_of(requests: bytes) -> list[list[str]]:
    """The rows of a script."""
    try:
        text = requests.decode().removeprefix("\ufeff")
    except UnicodeDecodeError:
        raise Fault("bundle NotUtf8") from None
    rows = records(text)
    for number, row in enumerate(rows, 1):
        if not is_request(row):
            raise Fault(f"requests row {number} BadRequest")
    return rows


def cuts_of(season: Season, rows: list[list[str]]) -> int:
    """How many cuts of the script are accepted."""
    now = 0
    for row in rows:
        now += row == ["cut", "clerk", str(now)] and now <= season.rounds
    return now


# ---- what is published: each text by the lines that may come next, and what has then been said


def is_number(word: str) -> bool:
    return re.fullmatch("0|[1-9][0-9]*", word) is not None and int(word) <= MOST_32_BITS


def fits(form: Form, line: str) -> bool:
    """Whether a line is of a form: each of its words is one of those that may be there."""
    words = line.split(" ")
    return len(words) == len(form) and all(is_number(it) if may is NUMBER_OF_32_BITS else it in may for it, may in zip(words, form))


def could_fit(form: Form, piece: str) -> bool:
    """Whether more letters may make a line of the form of what is there."""
    *whole, last = piece.split(" ")
    if len(whole) >= len(form) or not fits(form[: len(whole)], " ".join(whole)) and whole:
        return False
    may = form[len(whole)]
    return not last or is_number(last) if may is NUMBER_OF_32_BITS else any(it.startswith(last) for it in may)


def words(*texts: str) -> list[set[str]]:
    return [{it} for text in texts for it in text.split()]


def rows_text(season: Season, name: list[set[str]], row: str, end: str, found: list[Row]) -> Text:
    """A text of rows: its number, its rows by rising candidates, and its end. Each line that may come next is given, and the one that came is taken."""
    ids = [it.id for it in season.people]
    line = yield (*name, {str(it) for it in range(len(ids) + 1 if season.programmes else 1)})
    left = int(line.split(" ")[-1])
    while left:
        line = yield ({row}, {str(it) for it in ids[: len(ids) - left + 1]}, season.programmes, SEAT_KINDS)
        _, cand, code, step = line.split(" ")
        ids = ids[ids.index(int(cand)) + 1 :]
        found.append((int(cand), code, step))
        left -= 1
    yield tuple(words(end))


def list_text(season: Season, number: int, code: str, found: dict[str, "Listed"]) -> Text:
    """The list of a programme: its steps, each with its numbers, its persons by the letters of their positions, and as many of these as it says."""
    ids = [str(it.id) for it in season.people]
    yield tuple(words(f"list {number} {code}"))
    for step in STEPS:
        up_to = [str(it) for it in range(len(ids) + 1)]
        line = yield (*words(f"step {step} seats"), NUMBER_OF_32_BITS, {"candidates"}, NUMBER_OF_32_BITS, {"admitted"}, set(up_to))
        seats, candidates, admitted = (int(it) for it in line.split(" ")[3::2])
        line = yield ({"honoured"}, set(up_to[:1] if step == "D" else up_to[: admitted + 1]))
        honoured = int(line.split(" ")[1])
        persons: list[tuple[str, str]] = []
        for left in range(admitted, 0, -1):
            may = {*(TRAITS if honoured else ""), *("-" if honoured < left else "")}
            line = yield (set(ids).difference(it for it, _ in persons), may)
            cand, letter = line.split(" ")
            persons.append((cand, letter))
            honoured -= not line.endswith("-")
        found[step] = Listed(seats, candidates, [int(it) for it, _ in persons], [it for _, it in persons])
    yield tuple(words("end list"))


class Listed:
    """A step as it is listed."""

    def __init__(self, seats: int, candidates: int, admitted: list[int], letters: list[str]) -> None:
        self.seats, self.candidates, self.admitted, self.letters = seats, candidates, admitted, letters


class Papers:
    """What is published: the rows of each round, its lists by programme and step, and the final rows."""

    def __init__(self, season: Season, cuts: int) -> None:
        count = min(cuts, season.rounds)
        self.rounds: list[list[Row]] = [[] for _ in range(count)]
        self.lists: list[dict[str, dict[str, Listed]]] = [{code: {} for code in season.programmes} for _ in range(count)]
        self.finals: Optional[list[Row]] = [] if cuts > season.rounds else None

    def texts(self, season: Season) -> Iterator[Text]:
        for at, (rows, lists) in enumerate(zip(self.rounds, self.lists), 1):
            yield rows_text(season, words(f"round {at} seated"), "allot", "end round", rows)
            for code, found in lists.items():
                yield list_text(season, at, code, found)
        if self.finals is not None:
            yield rows_text(season, words("final"), "admit", "end final", self.finals)


def papers_of(season: Season, cuts: int, published: bytes, name: str = "published") -> Papers:
    """What is published, or the first line with which it begins nothing that may be."""
    papers, number = Papers(season, cuts), 0
    lines = iter([it.decode("latin-1") for _, _, it in lines_of(published)])
    for text in papers.texts(season):
        form: Optional[Form] = next(text)
        while form is not None:
            number, line = number + 1, next(lines, "")
            if not line.endswith("\n"):
                raise Fault(f"{name} line {number + 1 if line and could_fit(form, line) else number}")
            line = line[:-1]
            if not fits(form, line):
                raise Fault(f"{name} line {number}")
            try:
                form = text.send(line)
            except StopIteration:
                form = None
    if next(lines, None) is not None:
        raise Fault(f"{name} line {number + 1}")
    return papers


# ---- the replay


class Published:
    """A round as it is published."""

    def __init__(self, rows: list[Row], lists: dict[str, dict[str, Listed]]) -> None:
        self.rows, self.lists = rows, lists
        self.seats: dict[int, Seat] = {cand: (code, step) for cand, code, step in rows}


class Audited(Office):
    """An office that takes each round from the papers and makes none. It stops at the first clause that is broken."""

    def __init__(self, season: Season, papers: Papers, is_best: bool) -> None:
        super().__init__(season)
        self.is_best = is_best
        self.papers, self.seen = papers, 0
        self.broken: Optional[str] = None
        # what was accepted by window and candidate
        self.known: dict[tuple[int, int], list[Answer]] = {}
        # the first round that is not the best one, with the first candidate whom the best one gives a better place
        self.worse: Optional[tuple[int, int]] = None

    def kept(self, cand: int, window: int) -> list[Answer]:
        for it in self.answers[self.seen :]:
            self.known.setdefault(it[:2], []).append(it)
        self.seen = len(self.answers)
        return self.known.get((window, cand), [])

    def reply(self, row: str) -> str:
        """Takes what changes the season; a question changes nothing."""
        return super().reply(row) if row.partition(",")[0] in ("answer", "cut", "raise") else ""

    def reply_to_cut(self, by: str, window: int) -> str:
        if by == "clerk" and window == self.cuts <= self.season.rounds:
            if window < self.season.rounds:
                found = Published(self.papers.rounds[window], self.papers.lists[window])
                self.broken = next(broken_in(self, found), None)
                if self.is_best and not self.broken and not self.worse:
                    self.worse = next(((window + 1, cand) for cand in self.gainers(found)), None)
                self.rounds.append(found)  # type: ignore[arg-type]  # the replay asks a round for its seats alone
            elif self.papers.finals != self.admitted():
                self.broken = "FinalDiffers - -"
            self.cuts += 1
        return ""

    def gainers(self, found: Published) -> Iterator[int]:
        """The candidates whom the best round gives a better place than the published one, in the order of the register."""
        sought = {it.id: self.sought(it.id) for it in self.season.people}
        best = Round(self.season, self.seats(), sought).seats
        for cand, codes in sought.items():
            if cand in best and (cand not in found.seats or codes.index(best[cand][0]) < codes.index(found.seats[cand][0])):
                yield cand


def broken_in(office: Office, found: Published) -> Iterator[str]:
    """The clauses that are broken in a round, in their order, each with the programme and the candidate that it names."""
    season, sought = office.season, {it.id: office.sought(it.id) for it in office.season.people}
    for cand, code, _ in found.rows:
        if code not in sought[cand]:
            yield f"NotSought {code} {cand}"
    for it in season.people:
        if office.standing(it.id, office.cuts) in STAYS and it.id not in found.seats:
            yield f"Fell - {it.id}"
    for code, lists in found.lists.items():
        named: dict[int, list[str]] = {}
        for step, listed in lists.items():
            for cand in listed.admitted:
                named.setdefault(cand, []).append(step)
        told = {cand: [step] for cand, (of, step) in found.seats.items() if of == code}
        for it in season.people:
            if named.get(it.id) != told.get(it.id):
                yield f"Unlisted {code} {it.id}"
    for code, lists in found.lists.items():
        yield from broken_in_lists(office, code, lists, [it for it in season.people if applies(it.id, code, sought, found.seats)])


def applies(cand: int, code: str, sought: dict[int, list[str]], seats: dict[int, Seat]) -> bool:
    """Whether a candidate seeks a programme and has no seat, or it, or one that is sought less."""
    own = sought[cand]
    return code in own and (cand not in seats or seats[cand][0] in own[own.index(code) :])


def broken_in_lists(office: Office, code: str, lists: dict[str, Listed], applicants: list[Person]) -> Iterator[str]:
    """The clauses that are broken in the lists of one programme."""
    season, seats = office.season, office.seats()
    merit = season.merit(code)
    named: set[int] = set()
    by_merit = sorted(applicants, key=lambda it: it.rank(merit))
    for step, listed in lists.items():
        people = [it for it in by_merit if it.id not in named and (it.is_common(merit) if step in ("OPEN", "D") else it.category == step)]
        given = seats.get((code, step), 0)
        if step == "D":
            of = ("OBC", "EWS") if season.version == 2 else ("OBC",)
            given = sum(seats.get((code, it), 0) - len(lists[it].admitted) for it in of)
        clause = broken_in_step(listed, people, given, merit, season.protections.get((code, step), (0,) * 6))
        if clause:
            name, cand = clause
            yield f"{name} {code} {cand}"
            return
        named.update(listed.admitted)


def broken_in_step(listed: Listed, people: list[Person], seats: int, merit: int, protections: Protections) -> Optional[tuple[str, Union[int, str]]]:
    """The first clause that is broken in a step whose people, best first, and seats are these, with the candidate that it names."""
    if (listed.seats, listed.candidates) != (seats, len(people)):
        return "WrongNumbers", "-"
    persons: list[Person] = []
    last = 0.0
    for cand in listed.admitted:
        person = next((it for it in people if it.id == cand), None)
        if person is None or person.rank(merit) < last:
            return "NotCandidate", cand
        last = person.rank(merit)
        persons.append(person)
    if len(persons) != min(seats, len(people)):
        return "WrongSize", "-"
    pairs = [(person, letter) for person, letter in zip(persons, listed.letters) if letter != "-"]
    is_placed = all(letter in person.traits for person, letter in pairs) and all(listed.letters.count(it) <= most for it, most in zip(TRAITS, protections))
    if not is_placed or len(pairs) != honoured(people, protections):
        return "BadCertificate", "-"
    for it in people:
        if it not in persons and overtakes(it, persons, merit, protections):
            return "Overtaken", it.id
    return None


def overtakes(person: Person, persons: list[Person], merit: int, protections: Protections) -> bool:
    """Whether the persons with this one in the place of a worse one honour no less."""
    now = honoured(persons, protections)
    worse = [it for it in persons if it.rank(merit) > person.rank(merit)]
    return any(honoured([person, *(other for other in persons if other is not it)], protections) >= now for it in worse)


def honoured(people: Iterable[Person], protections: Protections) -> int:
    """How much people honour: of those with the same traits no more than there are protected seats can stand on one."""
    most, kinds = sum(protections), sorted(it.traits for it in people if it.traits)
    few = [it for _, same in itertools.groupby(kinds) for it in itertools.islice(same, most)]
    return greatest(tuple(few), protections)


# ---- the special round


def special_of(office: Audited, lists: bytes, published: bytes) -> tuple[Season, Papers]:
    """The season that the final admissions left, and the papers of its one round; or the first fault of the lists, and then of the texts."""
    if office.cuts <= office.season.rounds:
        raise Fault(f"special NotFinal now {office.cuts}")
    choices, fault = read_lists(office, lists.decode(errors="replace").removeprefix("\ufeff"))
    if fault:
        raise Fault(fault.removeprefix("fault: ").removesuffix("\n"))
    season = season_left(office, choices)
    return season, papers_of(season, 1, published, "special")


# ---- the verdict


def read(given: bytes) -> tuple[Season, list[list[str]], Papers, Optional[tuple[bytes, bytes]]]:
    """A season, its script and its papers, and the lists and the texts of the special round behind them, if there is one."""
    bundle, requests, published = parts_of(given)
    season = season_of(bundle)
    rows = script_of(requests)
    cuts = cuts_of(season, rows)
    try:
        return season, rows, papers_of(season, cuts, published), None
    except Fault:
        behind = special_parts_of(published)
        if not behind:
            raise
    of_season, lists, special = behind
    return season, rows, papers_of(season, cuts, of_season), (lists, special)


def replayed(season: Season, rows: list[list[str]], papers: Papers, is_best: bool) -> Audited:
    """The office after the rows of a script, or at the first clause that is broken."""
    office = Audited(season, papers, is_best)
    for row in rows:
        office.reply(",".join(row))
        if office.broken:
            break
    return office


def second_line(office: Audited, special: Optional[Audited]) -> tuple[bytes, int]:
    """The second line: whether each round is the best one, the special round last; and the status."""
    if office.worse:
        return b"not best round %d %d\n" % (office.worse[0], int(office.worse[1])), 10
    if special and special.worse:
        return b"not best special %d\n" % int(special.worse[1]), 10
    return b"best\n", 0


def judged(given: bytes, is_best: bool) -> tuple[bytes, int]:
    """The verdict on bytes that have no fault, and maybe the second one."""
    season, rows, papers, behind = read(given)
    office, special = replayed(season, rows, papers, is_best), None
    if office.broken:
        return f"audit broken round {office.cuts} {office.broken}\n".encode(), 10
    if behind:
        left, round_papers = special_of(office, *behind)
        special = replayed(left, [["cut", "clerk", "0"]], round_papers, is_best)
        if special.broken:
            return f"audit broken special {special.broken}\n".encode(), 10
    sound = f"audit sound rounds {len(papers.rounds)}{' special' if behind else ''}\n".encode()
    second, status = second_line(office, special) if is_best else (b"", 0)
    return sound + second, status


def verdict(given: bytes, is_best: bool = False) -> tuple[bytes, int]:
    """What the audit of a dossier comes to: its line, and the status; with a second line on whether each round is the best one, where that is asked."""
    try:
        return judged(given, is_best)
    except Fault as fault:
        return f"fault: {fault}\n".encode(), 3


def main() -> int:
    """Writes the verdict on the dossier of the standard input; returns the status that the program would have."""
    words = argparse.ArgumentParser(description="Prints the verdict on a dossier, which is read from standard input.")
    words.add_argument("--best", action="store_true", help="also prints whether each published round is the best one")
    is_best_asked = words.parse_args().best
    wrote, status = verdict(sys.stdin.buffer.read(), is_best_asked)
    sys.stdout.buffer.write(wrote)
    return status


if __name__ == "__main__":
    sys.exit(main())
