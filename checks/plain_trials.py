"""The program held against plain ones outside of it, on inputs that are drawn and not written down: checks/repository runs it."""
import functools
import itertools
import os
import re
import sqlite3
import sys
import tempfile
from typing import Callable, Iterable, Iterator, NamedTuple, Optional, Sequence, TypeVar, Union

import plain_dossiers
import plain_scripts
from cases import READS_STORES, ROOMS, Call, Case, called, first_difference
from plain_audit import verdict
from plain_office import MOST_SEATS, TRAITS, Office, Person, Season, Seat, lists_of, sheet_text
from plain_special import drawn_lists, drawn_season, office_after, special_text, wrongs_of
from plain_units import Fault, plain_bundle

sys.path.append(f"{os.path.dirname(os.path.dirname(os.path.realpath(__file__)))}/bench")
import generated  # noqa: E402

Item = TypeVar("Item")
# what is tried: a call that gives a fault or None
Trial = Callable[[], Optional[str]]
# the tables of a store by name, and what a script comes to: its label, the season, its rows, their replies and the tables
Tables = dict[str, list[tuple[int, ...]]]
Script = tuple[str, str, list[str], list[str], Tables]
# the label of a call, its words, its input and its output
Output = tuple[str, list[str], str, str]
# an allocation: the seat of each candidate who has one
Seats = dict[int, Seat]
# a special round: its label, the season, the lists, what is written without and with the lists of programmes, the status, and what is wrong with it
Special = tuple[str, str, str, tuple[str, str], int, list[str]]


class Drawn(NamedTuple):
    """How much is drawn: scripts for each season, markets, sheets, programmes, each how-many-th damaged script, seasons with twenty dossiers each, and the
    candidates and seeds of seasons whose dossiers are sound, and of generated texts."""

    scripts: int
    markets: int
    sheets: int
    programmes: int
    damaged: int
    dossiers: int
    sound: tuple[tuple[int, int], ...]
    texts: tuple[tuple[int, int], ...]


ALL = Drawn(200, 1000, 2000, 1000, 1, 60, ((2, 1), (800, 7)), ((1, 0), (1, 2**32 - 1), (2, 7), (20, 0), (20, 7), (800, 7), (801, 3), (100_000, 7)))
FEW = Drawn(3, 40, 40, 20, 100, 2, ((2, 1),), ((2, 7), (20, 7)))
MOST_INPUT = 134_217_728
REQUESTS = 40

# ---- drawn scripts


class Draw:
    """Numbers that follow no plain rule, the same ones in each run."""

    def __init__(self, state: int) -> None:
        self.state = state

    def below(self, count: int) -> int:
        self.state = (self.state * 1_664_525 + 1_013_904_223) % 2**32
        return (self.state >> 16) % count

    def of(self, count: int, *bounds: tuple[int, Item]) -> Item:
        """The first of the bounds' items that the number drawn is below, else the last item."""
        number = self.below(count)
        return next(item for bound, item in bounds if number < bound)

    def near(self, number: int) -> int:
        """Mostly this number, and now and then one of the next smaller or greater ones."""
        return {0: max(number - 1, 0), 1: number + 1, 2: number + 2}.get(self.below(12), number)

    def candidate(self) -> int:
        number = self.below(24)
        return number % 5 + 1 if number else 6

    def seats(self) -> int:
        number = self.below(12)
        return {0: 4000, 1: 4001}.get(number, number % 4)

    def request(self, office: Office) -> str:
        """A request to an office that is as far as this one, as a row of a script."""
        window, cand = self.near(office.cuts), self.candidate()
        code = self.of(16, (1, "Z"), (6, "A"), (11, "B"), (16, "C"))
        kinds = ((2, "cut"), (3, "seat"), (4, "choices"), (5, "register"), (6, "answers"), (8, "why"), (9, "list"), (10, "cutoffs"), (11, "round"), (12, "state"), (14, "raise"), (25, "answer"))
        kind = self.of(25, *kinds)
        usual = str(cand)
        fields: list[Union[int, str]] = []
        if kind == "cut":
            usual, fields = "clerk", [window]
        elif kind in ("seat", "choices", "register", "answers"):
            fields = [cand]
        elif kind == "why":
            fields = [cand, code]
        elif kind in ("list", "cutoffs"):
            usual, fields = "nobody", [window, code]
        elif kind == "round":
            usual, fields = "nobody", [window]
        elif kind == "state":
            usual = "nobody"
        elif kind == "raise":
            step = self.of(12, (1, "D"), (2, "SC"), (4, "EWS"), (6, "OBC"), (12, "OPEN"))
            usual, fields = "clerk", [window, code, step, self.seats()]
        else:
            turn = self.near(office.last_turn(cand, window) + 1)
            fields = [cand, window, turn, self.of(12, (1, "withdraw"), (4, "freeze"), (7, "slide"), (12, "float"))]
        by = self.of(12, (1, "clerk"), (2, "nobody"), (3, "2"), (12, usual))
        return ",".join(map(str, [kind, by, *fields]))


def is_readable(row: str) -> bool:
    """Whether the row can be in a script: no turn is 0, no seats are 0 or above 4,000, and the seats left unfilled are no step of the matrix."""
    word, _, *fields = row.split(",")
    return not (word == "answer" and fields[2] == "0") and not (word == "raise" and (fields[2] == "D" or not 1 <= int(fields[3]) <= MOST_SEATS))


def drawn_script(season: Season, draw: Draw, count: int) -> tuple[list[str], list[str], Office]:
    """So many drawn requests, without those that no script can have and that are refused, and the office to which they lead, with its replies."""
    office = Office(season)
    rows: list[str] = []
    replies: list[str] = []
    for _ in range(count):
        row = draw.request(office)
        reply = office.reply(row)
        if is_readable(row):
            rows.append(row)
            replies.append(reply)
        elif not reply.startswith("refused "):
            raise ValueError(f"{row}: {reply}")
    return rows, replies, office


# What each reply begins with that comes on drawn scripts. The final admissions begin otherwise where they are asked for than where a cut makes them.
REPLIES = ["noted", "raised", "published", "final admitted", "seat", "choices", "register", "answers", "why", "list", "cutoffs", "round", "final", "state"]
REPLIES += [f"refused {it}" for it in (1, 2, 3, 5, 6, 7, 8, 9, 10, 11, 13, 14, 15, 17)]


@functools.lru_cache(maxsize=None)
def drawn_scripts(seasons: tuple[str, ...], count: int) -> list[Script]:
    """For each season so many scripts, with their replies and the rows that are kept of them."""
    draw = Draw(1)
    found: list[Script] = []
    for text in seasons:
        season = Season(text)
        for number in range(count):
            rows, replies, office = drawn_script(season, draw, REQUESTS)
            found.append((f"drawn script {number} of {season.rounds} rounds", text, rows, replies, office.rows()))
    return found


def kept_rows(store: str) -> Tables:
    connection = sqlite3.connect(store)
    try:
        return {name: connection.execute(f"SELECT * FROM {name} ORDER BY 1, 2").fetchall() for name in ("answer", "lift", "allot", "phase")}
    finally:
        connection.close()


def fault_of_script(program: str, label: str, text: str, rows: list[str], replies: list[str], kept: Tables) -> Optional[str]:
    """Why the office does not answer a script as the plain one does, or keeps other rows, or None."""
    with tempfile.TemporaryDirectory(prefix="script-", dir=ROOMS) as room:
        given = f"{text}[requests]\n" + "".join(f"{it}\n" for it in rows)
        wrote, status = called(program, ["run", "season.db"], given.encode(), room)
        wanted = "".join(replies).encode()
        if wrote != wanted:
            return f"{label}: the plain office replies otherwise: {first_difference(wrote, wanted)}"
        if status:
            return f"{label}: ended with status {status}"
        stand = kept_rows(f"{room}/season.db") if READS_STORES else kept
        return next((f"{label}: the table {name} has other rows than the plain office accepted" for name in kept if stand[name] != kept[name]), None)


def lacking(scripts: list[Script]) -> Optional[str]:
    words_of = [it.split() for _, _, _, replies, _ in scripts for it in replies]
    begun = {" ".join(it[: 2 if it[0] == "refused" or it[1] == "admitted" else 1]) for it in words_of}
    lost = [it for it in REPLIES if it not in begun]
    return f"drawn scripts: no reply begins so: {', '.join(lost)}" if lost else None


def fault_of_summary(program: str, count: int, seed: int) -> Optional[str]:
    """Why the summary of a generated season is not what the replies to its requests come to, or None."""
    names = ["generate", str(count), str(seed)]
    bundle, _ = called(program, [*names, "text"], b"", "/")
    replies = called(program, ["run", "memory"], bundle, "/")[0].decode()
    seated = re.findall(r"^published (\d+) seated (\d+)$", replies, re.M)
    numbers = [len(re.findall(rf"^{it}", replies, re.M)) for it in ("noted ", "refused ")]
    wanted = f"generated {count} seed {seed}\n" + "".join(f"round {number} seated {it}\n" for number, it in seated)
    wanted += f"noted {numbers[0]} refused {numbers[1]}\nfinal admitted {re.findall(r'^final admitted (.*)$', replies, re.M)[0]}\n"
    if len(seated) != 6 or sum(numbers) != 6 * count:
        return f"generate {count} {seed}: {len(seated)} rounds, and {sum(numbers)} answers"
    for _ in range(2):
        wrote, status = called(program, [*names, "run"], b"", "/")
        if wrote != wanted.encode() or status:
            return f"generate {count} {seed} run: ended with status {status}: {first_difference(wrote, wanted.encode())}"
    return None


# ---- small markets: four candidates, some with lists of nothing, and three programmes with merit lists of their own


def in_order(items: Sequence[Item], number: int) -> list[Item]:
    """The items in the order of this number, each order having one."""
    order: list[Item] = []
    for item in items:
        order.insert(number % (len(order) + 1), item)
        number //= len(order)
    return order


def drawn_market(draw: Draw) -> str:
    """A bundle up to its requests. Some candidates are of OBC, some of these with relaxed places; programmes have open seats and perhaps one of OBC."""
    version = draw.below(2) + 1
    text = f"office bundle {version}\n[season]\nrounds,1\nclerk,clerk0001\n[register]\nid,category,traits,token,m1,m2,m3,m4\n"
    merit = [in_order((1, 2, 3, 4), draw.below(24)) for _ in range(3)]
    for number, (one, two, three) in enumerate(zip(*merit), 1):
        category, relaxed = {0: ("OBC", "R"), 1: ("OBC", "")}.get(draw.below(4), ("GEN", ""))
        traits = "W" if draw.below(3) == 0 else "-"
        text += f"{number},{category},{traits},tok0000{number},{one}{relaxed},{two}{relaxed},{three}\n"
    text += "[matrix]\nprogramme,institute,list,step,seats,W,D,X,S,F,L\n"
    for merit_list, code in enumerate("ABC", 1):
        seats, women = 2 if draw.below(4) == 0 else 1, draw.below(2)
        text += f"{code},I1,{merit_list},OPEN,{seats},{women}\n{code},I1,{merit_list},OBC,{1 if draw.below(4) == 0 else 0}\n"
    text += "[choices]\ncandidate,programmes\n"
    for number in range(1, 5):
        own = in_order("ABC", draw.below(6))[: draw.below(8)]
        text += ",".join([str(number), *own]) + "\n" if own else ""
    return text


def fair_ones(season: Season) -> Iterator[Seats]:
    """All allocations in which each programme admits, of those who apply to it, exactly those who hold a seat of it. An allocation names the programme of each
    candidate, None for none: the programme's choice gives the step of a seat. A candidate applies down their list to the programme held, or to its end."""
    own = [season.choices.get(it.id, []) for it in season.people]

    @functools.lru_cache(maxsize=None)
    def told(code: str, people: tuple[Person, ...]) -> dict[int, str]:
        return {it.id: found.step for found in lists_of(season, season.seats, code, people) for it in found.admitted}

    for held in itertools.product(*[[None, *it] for it in own]):
        seats: Seats = {}
        for code in season.programmes:
            applies = [code in codes and (mine is None or codes.index(code) <= codes.index(mine)) for codes, mine in zip(own, held)]
            admits = told(code, tuple(itertools.compress(season.people, applies)))
            if set(admits) != {it.id for it, mine in zip(season.people, held) if mine == code}:
                break
            seats.update({cand: (code, step) for cand, step in admits.items()})
        else:
            yield seats


def best_of(season: Season, fair: list[Seats]) -> Seats:
    """The one fair allocation in which nobody is worse off than in any other."""

    def rank(cand: int, seats: Seats) -> int:
        own = season.choices.get(cand, [])
        return own.index(seats[cand][0]) if cand in seats else len(own)

    (best,) = [it for it in fair if all(rank(one.id, it) <= rank(one.id, other) for other in fair for one in season.people)]
    return best


@functools.lru_cache(maxsize=None)
def drawn_markets(count: int) -> tuple[list[tuple[str, str, str]], int]:
    """So many markets, with the text of the first round, which is the best of all fair allocations; and how many have several of these."""
    draw, several = Draw(1), 0
    found: list[tuple[str, str, str]] = []
    for number in range(count):
        text = drawn_market(draw)
        season = Season(text)
        fair = list(fair_ones(season))
        several += len(fair) > 1
        rows = "".join(f"allot {cand} {code} {step}\n" for cand, (code, step) in sorted(best_of(season, fair).items()))
        seated = rows.count("\n")
        found.append((f"market {number}", text, f"published 1 seated {seated}\nround 1 seated {seated}\n{rows}end round\n"))
    return found, several


def fault_of_output(program: str, label: str, words: list[str], given: str, told: str, ends: int = 0) -> Optional[str]:
    """Why the program does not write this output and end so, or None."""
    wrote, status = called(program, words, given.encode(), "/")
    return None if (wrote, status) == (told.encode(), ends) else f"{label}: {words[0]} ended with status {status}: {first_difference(wrote, told.encode())}"


def fault_of_market(program: str, label: str, text: str, told: str) -> Optional[str]:
    """Why the first round is not the best of all fair allocations, or None."""
    return fault_of_output(program, label, ["run", "memory"], f"{text}[requests]\ncut,clerk,0\n", told)


# ---- sheets: at most seven people over six traits


def drawn_sheet(draw: Draw) -> str:
    """A sheet of up to seven people, most of whom have some of three traits, with the protections within the seats."""
    seats, left, text = draw.below(6), 0, ""
    traits = TRAITS[:3] if draw.below(4) else TRAITS
    text += f"step sheet 1\nseats,{seats}\n"
    for letter in traits:
        count = min(draw.below(3), seats - left)
        left += count
        text += f"protect,{letter},{count}\n" if count or draw.below(2) else ""
    for number in range(draw.below(8)):
        own = "".join(letter for letter in traits if draw.below(5) < 2)
        text += f"cand,{7 * number % 8 + 1},{own or '-'}\n"
    return text


@functools.lru_cache(maxsize=None)
def drawn_sheets(count: int) -> tuple[list[Output], int]:
    """So many sheets with the text of the step, and in how many of these one is admitted after another who is not."""
    draw, passed = Draw(1), 0
    found: list[Output] = []
    for number in range(count):
        text = drawn_sheet(draw)
        told = sheet_text(text)
        admitted = [line.split(" ")[0] for line in told.split("\n")[2:-2]]
        passed += admitted != re.findall(r"^cand,(\d+)", text, re.M)[: len(admitted)]
        found.append((f"sheet {number}", ["step"], text, told))
    return found, passed


# ---- programmes: six candidates of all categories, and two programmes with seats of every kind, whose lists are asked after the first round


def drawn_programmes_of(draw: Draw) -> str:
    """A bundle up to its requests."""
    text = f"office bundle {draw.below(2) + 1}\n[season]\nrounds,1\nclerk,clerk0001\n[register]\nid,category,traits,token,m1,m2,m3,m4\n"
    merit = [in_order((1, 2, 3, 4, 5, 6), draw.below(720)) for _ in range(2)]
    for number, (one, two) in enumerate(zip(*merit), 1):
        category = ("GEN", "EWS", "OBC", "OBC", "SC", "ST")[draw.below(6)]
        relaxed = ["R" if category != "GEN" and draw.below(3) == 0 else "" for _ in merit]
        traits = "".join(letter for letter in "WD" if draw.below(3) == 0) or "-"
        text += f"{number},{category},{traits},tok0000{number},{one}{relaxed[0]},{two}{relaxed[1]}\n"
    text += "[matrix]\nprogramme,institute,list,step,seats,W,D,X,S,F,L\n"
    for code, merit_list in (("A", 1), ("B", 2)):
        for step, most in (("OPEN", 3), ("EWS", 2), ("OBC", 3), ("SC", 2), ("ST", 2)):
            seats = draw.below(most)
            women = min(draw.below(2), seats)
            disabled = min(draw.below(2), seats - women)
            text += f"{code},I1,{merit_list},{step},{seats},{women},{disabled}\n"
    text += "[choices]\ncandidate,programmes\n"
    return text + "".join(f"{number},{'A,B' if draw.below(2) else 'B,A'}\n" for number in range(1, 7))


@functools.lru_cache(maxsize=None)
def drawn_programmes(count: int) -> tuple[list[Output], set[str]]:
    """So many bundles that ask for the lists of both programmes, with the replies of the plain office, and the steps that admit somebody in any of them."""
    draw = Draw(1)
    found: list[Output] = []
    filled: set[str] = set()
    rows = ("cut,clerk,0", "list,nobody,1,A", "list,nobody,1,B")
    for number in range(count):
        text = drawn_programmes_of(draw)
        office = Office(Season(text))
        told = "".join(office.reply(row) for row in rows)
        filled |= set(re.findall(r"^step (\w+) .* admitted [1-9]", told, re.M))
        found.append((f"programmes {number}", ["run", "memory"], f"{text}[requests]\n" + "".join(f"{row}\n" for row in rows), told))
    return found, filled


# ---- damaged scripts, and generated seasons


def fault_of_damaged(program: str, label: str, season: str, script: str) -> Optional[str]:
    """Why `check` or `run` does not take a script as the plain reader does, or None."""
    counts, replies, status = plain_scripts.told(season, script)
    given = f"{season}[requests]\n{script}"
    return fault_of_output(program, label, ["check"], given, counts, status) or fault_of_output(program, label, ["run", "memory"], given, replies, status)


def text_of(count: int, seed: int) -> str:
    """The text of a generated season by the plain recipe."""
    return "".join(f"{line}\n" for line in generated.generated(count, seed))


def fault_of_text(program: str, count: int, seed: int) -> Optional[str]:
    """Why a generated season is not the text of the plain recipe, or None."""
    told = text_of(count, seed)
    return fault_of_output(program, f"generate {count} {seed} text", ["generate", str(count), str(seed), "text"], "", told)


# ---- drawn bundles with units


def spelled(draw: Draw, field: str) -> str:
    """A field of a record as it may be spelled; now and then another one."""
    return draw.of(40, (24, field), (34, f'"{field}"'), (36, f'"{field}\n"'), (37, f"{field} "), (38, f'"[{field}\n[x]"'), (39, f'"{field}""'), (40, f"{field}-OS"))


def record(draw: Draw, fields: list[str]) -> str:
    return ",".join(it if draw.below(20) else spelled(draw, it) for it in fields) + draw.of(20, (16, "\n"), (17, "\r\n"), (18, ",,\n"), (19, "\r"), (20, "\n\n"))


def drawn_divided(draw: Draw, register: str) -> bytes:
    """A bundle with units over these candidates; some have a fault in their units, their states or their choices, or are cut wrongly."""
    codes = [it for it in ("N", "M", "A-1") if draw.below(4)]
    units = [[it, draw.of(2, (1, "KA"), (2, "TN"))] for it in codes] + [["N", "KA"]] * (draw.below(12) == 0)
    states = [[str(it), draw.of(3, (1, "KA"), (2, "TN"), (3, "KL"))] for it in range(1, 7) if draw.below(10)] + [["1", "ka"]] * (draw.below(12) == 0)
    matrix = "".join(f"{it}{end},I1,1,OPEN,1\n" for it in ("N", "M", "A-1") for end in ("-HS", "-OS", ""))
    named: Callable[[], str] = lambda: draw.of(30, (10, "N"), (20, "M"), (29, "A-1"), (30, "N-HS"))
    rows = [[str(it), *[named() for _ in range(draw.below(3))]] for it in range(1, 6)]
    parts = [("[units]", units), ("[states]", states), ("office bundle 1\n[season]", [["rounds", "2"], ["clerk", "clerk0001"]])]
    parts = [it for it in parts if draw.below(40)]
    text = draw.of(20, (18, ""), (20, "\ufeff")) + draw.of(30, (29, "office units 1\n"), (30, "office units 2\n"))
    text += "".join(f"{name}\n{''.join(record(draw, it) for it in body)}" for name, body in parts)
    text += f"{register}[matrix]\nprogramme,institute,list,step,seats,W,D,X,S,F,L\n{matrix}[choices]\n"
    text += "candidate,programmes\n" + "".join(record(draw, it) for it in rows)
    return (text + "[requests]\ncut,clerk,0\n").encode()


def fault_of_divided(program: str, label: str, given: bytes) -> Optional[str]:
    """Why a bundle with units is not run as the plain bundle that it comes to, or its fault not told, or None."""
    try:
        wanted = called(program, ["run", "memory"], plain_bundle(given), "/")
    except Fault as fault:
        wanted = f"{fault}\n".encode(), 3
    wrote = called(program, ["units", "memory"], given, "/")
    return None if wrote == wanted else f"{label}: ended with status {wrote[1]}: {first_difference(wrote[0], wanted[0])}"


# ---- special rounds over drawn seasons that are over


@functools.lru_cache(maxsize=None)
def drawn_specials(count: int) -> tuple[list[Special], int]:
    """So many seasons with their scripts, each with lists for its special round, what comes of it, and whether that is a fault; and how many have final rows of
    the de-reserved step and seats in the special round."""
    draw, both = Draw(1), 0
    found: list[Special] = []
    for number in range(count):
        text = drawn_season(draw, in_order)
        office = office_after(text)
        lists = drawn_lists(draw, in_order, office)
        (told, is_fault), (papers, _) = special_text(office, lists), special_text(office, lists, with_lists=True)
        both += any(step == "D" for *_, step in office.admitted()) and "allot" in told
        wrong = wrongs_of(office, lists)
        found.append((f"special round {number}", text, lists, (told, papers), 3 if is_fault else 0, wrong))
    return found, both


def fault_of_special(program: str, label: str, text: str, lists: str, told: tuple[str, str], status: int, wrong: list[str]) -> Optional[str]:
    """Why a special round is not the plain one, or the plain one breaks its promises, or None."""
    if wrong:
        return f"{label}: the plain office: {wrong[0]}"
    with tempfile.TemporaryDirectory(prefix="special-", dir=ROOMS) as room:
        called(program, ["run", "season.db"], text.encode(), room)
        for words, text in zip((["special", "season.db"], ["special", "lists", "season.db"]), told):
            found = called(program, words, lists.encode(), room)
            if found != (text.encode(), status):
                return f"{label}: {' '.join(words)}: ended with status {found[1]}: {first_difference(found[0], text.encode())}"
        return None


def trials(program: str, texts: dict[str, bytes], drawn: Drawn) -> Iterator[Trial]:
    """What is tried, each a call that gives a fault or None, of so much that is drawn. That all replies come, markets with several fair allocations, sheets
    where protections pass over a candidate, and each step with an admitted, is said of all of them."""
    scripts = drawn_scripts(tuple(texts[it].decode() for it in ("five candidates", "mixed candidates")), drawn.scripts)
    markets, several = drawn_markets(drawn.markets)
    sheets, passed = drawn_sheets(drawn.sheets)
    programmes, filled = drawn_programmes(drawn.programmes)
    if drawn == ALL:
        yield lambda: lacking(scripts)
        yield lambda: None if several >= 20 else f"drawn markets: {several} have several fair allocations"
        yield lambda: None if passed >= 200 else f"drawn sheets: in {passed} a candidate is passed over"
        yield lambda: None if len(filled) == 6 else f"drawn programmes: only {sorted(filled)} admit somebody"
    for script in scripts:
        yield functools.partial(fault_of_script, program, *script)
    for market in markets:
        yield functools.partial(fault_of_market, program, *market)
    for told in [*sheets, *programmes]:
        yield functools.partial(fault_of_output, program, *told)
    for number, damaged in itertools.islice(enumerate(plain_scripts.damaged_scripts()), 0, None, drawn.damaged):
        yield functools.partial(fault_of_damaged, program, f"damaged script {number}", texts["mixed candidates"].decode(), damaged)
    for count, seed in drawn.texts:
        yield functools.partial(fault_of_text, program, count, seed)
    draw, register = Draw(3), texts["register of five"].decode()
    for number in range(drawn.markets):
        yield functools.partial(fault_of_divided, program, f"units {number}", drawn_divided(draw, register))
    specials, both = drawn_specials(drawn.markets)
    if drawn == ALL:
        yield lambda: None if both >= 100 else f"drawn special rounds: {both} have seats and final rows of the de-reserved step"
    for special in specials:
        yield functools.partial(fault_of_special, program, *special)
    for count, seed in ((2, 1), (40, 7)):
        yield functools.partial(fault_of_summary, program, count, seed)
    dossiers = plain_dossiers.drawn_dossiers(Draw(5), in_order, drawn.dossiers, 20)
    dossiers += plain_dossiers.drawn_specials(Draw(8), in_order, drawn.dossiers, 20)
    if drawn == ALL:
        yield functools.partial(plain_dossiers.lacking, dossiers)
        yield functools.partial(plain_dossiers.fault_of_length, program)
    yield from plain_dossiers.trials(program, dossiers, drawn.sound)


def plainly(call: Call, kept: str) -> Optional[str]:
    """What a call without a fault comes to by the plain office: the list of a sheet, the replies to requests, the verdict on a dossier, or the special round
    over what a call before it kept. None where the call is none of these."""
    given = b"".join(call.source)
    if call.words[:1] == ["units"]:
        try:
            given = plain_bundle(given).replace(b'"', b"")
        except Fault as fault:
            return f"{fault}\n"
    text = given.decode(errors="replace")
    season, begin, script = text.partition("[requests]\n")
    if call.status == 0 and call.words[:1] == ["step"]:
        return sheet_text(text)
    if call.status == 0 and call.words[:1] in (["run"], ["units"]) and begin:
        office = Office(Season(season))
        return "".join(office.reply(it) for it in script.split("\n") if it)
    if call.words in (["audit"], ["audit", "best"]):
        judged: bytes = verdict(b"".join(call.source), "best" in call.words)[0]
        return judged.decode()
    if call.words[:1] == ["special"] and kept and len(text) <= MOST_INPUT:
        special: str = special_text(office_after(kept), text, with_lists=call.words[1:2] == ["lists"])[0]
        return special
    return None


def otherwise(found: Iterable[Case]) -> list[str]:
    """The cases whose output, as it is written down, is not that of the plain office."""
    said = []
    for case in found:
        kept = ""
        for call in (it for it in case.steps if not isinstance(it, str)):
            plain, wanted = plainly(call, kept), b"".join(call.wanted)
            if call.words[:1] == ["run"] and call.status == 0:
                kept = b"".join(call.source).decode(errors="replace")
            if plain is not None and plain.encode() != wanted:
                said.append(f"{case.label}: the plain office answers otherwise: {first_difference(wanted, plain.encode())}")
    return said
