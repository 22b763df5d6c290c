"""Eight clients of a served office under kills and restarts, and whether all that they were replied has a place in the one history that the store kept.

The history is the accepted answers, raises and cuts in an order that the store and the clock allow. A reply fits a place in it if the plain office of checks/,
after the requests up to there, gives the same status and body. Its place must not be before that of a reply which had come when it was asked,
nor after a request that was asked when it had come."""
import collections
import http.client
import json
import os
import random
import sqlite3
import subprocess
import sys
import threading
import time
from typing import Callable, Optional

TOP = os.path.dirname(os.path.dirname(os.path.abspath(__file__)))
sys.path.insert(0, f"{TOP}/checks")
import plain_http
from plain_office import CHOICES as CHOICES, STEPS as STEPS, Answer, Office, Raise, Round, Season

# a status and a body
Reply = tuple[int, bytes]

ROUNDS, CANDIDATES, PROGRAMMES = 4, (1, 2, 3, 4, 5, 6), ("A", "B", "C", "D")
BUNDLE = """office bundle 1
[season]
rounds,4
clerk,clerk0001
[register]
id,category,traits,token,m1,m2,m3,m4
1,GEN,W,tok00001,1
2,OBC,-,tok00002,2
3,GEN,-,tok00003,3
4,SC,W,tok00004,4
5,OBC,D,tok00005,5,,,
6,GEN,-,tok00006,6
[matrix]
programme,institute,list,step,seats,W,D,X,S,F,L
A,I1,1,OPEN,1,1
B,I1,1,OPEN,1
C,I2,1,OBC,1
D,I2,1,OPEN,1
[choices]
candidate,programmes
1,A,B,D
2,A,C,B,D
3,B,A,D
4,A,D,B
5,C,A,B
6,B,D,A
"""


class Op:
    """A request that a client sent: when it was asked, and what came, and when, if anything came."""

    def __init__(self, row: str) -> None:
        self.row, self.asked, self.replied = row, time.monotonic(), float("inf")
        self.reply: Optional[Reply] = None


class Served:
    """The office over a store, which is killed and started again at the same port."""

    child: subprocess.Popen[bytes]

    def __init__(self, program: str, folder: str, port: int) -> None:
        self.program, self.store, self.port = program, f"{folder}/season.db", port

    def start(self, start: str, bundle: bytes = b"") -> Reply:
        words = [self.program, "serve", "100000", "8", start, str(self.port), self.store]
        self.child = subprocess.Popen(words, stdin=subprocess.PIPE, stdout=subprocess.DEVNULL, stderr=subprocess.DEVNULL)
        assert self.child.stdin
        self.child.stdin.write(bundle)
        self.child.stdin.close()
        for _ in range(12_000):
            try:
                return self.asked("GET", "/v1/state", None, b"")
            except (OSError, http.client.HTTPException):
                if self.child.poll() is not None:
                    sys.exit(f"bench: the office ended with {self.child.returncode}")
                time.sleep(0.01)
        sys.exit("bench: the office does not listen")

    def asked(self, method: str, path: str, token: Optional[str], body: bytes) -> Reply:
        link = http.client.HTTPConnection("127.0.0.1", self.port, timeout=30)
        try:
            link.request(method, path, body=body or None, headers={"X-Office-Token": token} if token else {})
            got = link.getresponse()
            return got.status, got.read()
        finally:
            link.close()

    def kill(self) -> None:
        self.child.kill()
        self.child.wait()


# ---- the clients


class Client(threading.Thread):
    """Asks one request after another. One without a reply is asked again, until there is one."""

    def __init__(self, name: str, served: Served, season: Season, seed: str, more: bool) -> None:
        super().__init__(daemon=True)
        self.name, self.served, self.season, self.draws, self.more = name, served, season, random.Random(seed), more
        self.ops: list[Op] = []
        self.stop = threading.Event()
        self.window, self.turn, self.pace, self.cut_at = 0, 1, 0.0, 0.0

    def run(self) -> None:
        while not self.stop.is_set():
            row = self.next_row()
            while not self.stop.is_set():
                op = Op(row)
                self.ops.append(op)
                try:
                    op.reply = self.served.asked(*plain_http.asked(self.season, row))
                except (OSError, http.client.HTTPException):
                    time.sleep(0.02)
                    continue
                op.replied = time.monotonic()
                self.saw(row, *op.reply)
                break
            time.sleep(self.draws.uniform(0, 0.04))

    def saw(self, row: str, status: int, body: bytes) -> None:
        """Learns how far the office is, as a page does."""
        told = json.loads(body) if body else {}
        if told.get("name") in ("Late", "Ahead") or told.get("reply") == "state":
            now = told["now"]
            self.window, self.turn = now, 1 if now != self.window else self.turn
        elif told.get("reply") == "noted":
            self.turn = told["turn"] + 1
        elif told.get("name") == "Gap":
            self.turn = told["last"] + 1

    def next_row(self) -> str:
        row_of: Callable[[], str] = getattr(self, f"row_of_{self.name.rstrip('0123456789')}")
        return row_of()

    def row_of_candidate(self) -> str:
        cand = self.name[len("candidate") :]
        drawn = self.draws.random()
        if drawn < 0.1:
            return "state,nobody"
        if drawn < 0.55:
            turn = self.turn if self.draws.random() < 0.9 else self.draws.randint(1, 4)
            choice = self.draws.choice(CHOICES[:3] * 6 + ("withdraw",)) if self.window > 1 else self.draws.choice(("float", "float", "slide"))
            return f"answer,{cand},{cand},{self.window},{turn},{choice}"
        asked = ["seat", "choices", *(["register", "answers"] if self.more else [])]
        return self.draws.choice([f"{it},{cand},{cand}" for it in asked] + [f"why,{cand},{cand},{self.draws.choice(self.season.choices[int(cand)])}"])

    def row_of_onlooker(self) -> str:
        number, code = self.draws.randint(1, ROUNDS + 1), self.draws.choice(PROGRAMMES)
        rows = ["state,nobody", f"list,nobody,{number},{code}", f"round,nobody,{number}", "seat,nobody,1"]
        return self.draws.choice(rows + ([f"cutoffs,nobody,{number},{code}"] if self.more else []))

    def row_of_clerk(self) -> str:
        drawn = self.draws.random()
        if drawn < 0.15:
            return "state,nobody"
        if self.window <= ROUNDS and time.monotonic() > self.cut_at:
            self.cut_at = time.monotonic() + self.pace
            return f"cut,clerk,{self.window}"
        if drawn < 0.5:
            return f"raise,clerk,{self.window},{self.draws.choice(PROGRAMMES)},{self.draws.choice(('OPEN', 'OBC'))},{self.draws.randint(1, 3)}"
        return f"seat,clerk,{self.draws.choice(CANDIDATES)}"


def asked_by_eight(program: str, folder: str, port: int, seconds: int, seed: int, more: bool) -> tuple[str, list[Op], int]:
    """Runs eight clients for so many seconds, with kills in between: what they asked, and how often the office was killed."""
    season, draws = Season(BUNDLE), random.Random(seed)
    served = Served(program, folder, port)
    served.start("new", BUNDLE.encode())
    names = [*(f"candidate{it}" for it in CANDIDATES[:4]), "clerk", "onlooker1", "onlooker2", "onlooker3"]
    clients = [Client(name, served, season, f"{seed} {name}", more) for name in names]
    for it in clients:
        # the last cut comes a little before the end
        it.pace = seconds / (ROUNDS + 2)
        it.start()
    end, kills = time.monotonic() + seconds, 0
    while time.monotonic() < end:
        time.sleep(draws.uniform(0.1, 1.2))
        served.kill()
        served.start("kept")
        kills += 1
    for it in clients:
        it.stop.set()
    for it in clients:
        it.join(60)
    served.kill()
    return served.store, [op for it in clients for op in it.ops], kills


# ---- the history

# the rows of each window, in their order
Windows = dict[int, list[str]]


class Write:
    """An accepted request with the row that asked for it, first asked and first replied at these moments."""

    def __init__(self, row: str, ops: list[Op]) -> None:
        mine = [it for it in ops if it.row == row]
        self.row, self.asked = row, min((it.asked for it in mine), default=float("inf"))
        self.replied = min((it.replied for it in mine if it.reply and it.reply[0] == 200), default=float("inf"))


def rows_of(store: str) -> tuple[Windows, Windows, int]:
    """The accepted answers and raises of a store, window by window, and the number of cuts."""
    base = sqlite3.connect(store)
    try:
        answers = base.execute("SELECT win, cand, turn, choice FROM answer ORDER BY seq").fetchall()
        raises = base.execute("SELECT win, prog, step, seats FROM lift ORDER BY seq").fetchall()
        ((cuts,),) = base.execute("SELECT cuts FROM phase").fetchall()
    finally:
        base.close()
    said: Windows = collections.defaultdict(list)
    lifted: Windows = collections.defaultdict(list)
    for window, cand, turn, choice in answers:
        said[window].append(f"answer,{cand},{cand},{window},{turn},{CHOICES[choice]}")
    for window, programme, step, seats in raises:
        lifted[window].append(f"raise,clerk,{window},{PROGRAMMES[programme]},{STEPS[step]},{seats}")
    return said, lifted, cuts


def merged(one: list[Write], other: list[Write]) -> list[Write]:
    """Two lists of writes, each in its order, in one order: always the one that had to be replied to earlier, itself or one behind it."""
    found: list[Write] = []
    lists = [list(one), list(other)]
    while lists[0] or lists[1]:
        due = [min((it.replied for it in rest), default=float("inf")) for rest in lists]
        at = 0 if lists[0] and (not lists[1] or due[0] <= due[1]) else 1
        found.append(lists[at].pop(0))
    return found


def history_of(store: str, ops: list[Op]) -> list[Write]:
    """The accepted requests of a store in one order."""
    said, lifted, cuts = rows_of(store)
    found: list[Write] = []
    for window in range(ROUNDS + 2):
        found += merged([Write(row, ops) for row in said[window]], [Write(row, ops) for row in lifted[window]])
        if window < cuts:
            found.append(Write(f"cut,clerk,{window}", ops))
    return found


class Past:
    """What the plain office replies after each prefix of the history."""

    def __init__(self, history: list[Write]) -> None:
        self.season = Season(BUNDLE)
        self.kept: dict[tuple[int, str], Reply] = {}
        self.states: list[tuple[list[Answer], list[Raise], int, list[Round]]] = []
        office = Office(self.season)
        for row in [None, *(it.row for it in history)]:
            if row:
                office.reply(row)
            self.states.append((list(office.answers), list(office.raises), office.cuts, list(office.rounds)))

    def reply(self, place: int, row: str) -> Reply:
        if (place, row) not in self.kept:
            office = Office(self.season)
            answers, raises, office.cuts, rounds = self.states[place]
            office.answers, office.raises, office.rounds = list(answers), list(raises), list(rounds)
            self.kept[place, row] = plain_http.replied(row, office.reply(row))
        return self.kept[place, row]


def fault_of(history: list[Write], ops: list[Op], past: Past) -> Optional[str]:
    """Why some reply has no place in the history, or None."""
    for at, it in enumerate(history):
        if it.asked == float("inf"):
            return f"the store has {it.row}, and nobody asked for it"
        if any(later.replied < it.asked for later in history[at:]):
            return f"{it.row} is before a request whose reply had come when it was asked"
    number = {it.row: at for at, it in enumerate(history)}
    done: list[tuple[float, int]] = []
    least, waiting = 0, sorted((it for it in ops if it.reply), key=lambda it: it.asked)
    for op in waiting:
        assert op.reply
        least = max([least, *(place for replied, place in done if replied < op.asked)])
        done = [it for it in done if it[0] >= op.asked]
        most = next((at for at, it in enumerate(history) if it.asked > op.replied), len(history))
        first = least
        if op.row.partition(",")[0] in ("answer", "raise", "cut") and op.reply[0] == 200:
            if op.row not in number:
                return f"{op.row} was accepted, and the store does not have it"
            first = max(least, number[op.row] + 1)
        place = next((at for at in range(first, most + 1) if past.reply(at, op.row) == op.reply), None)
        if place is None:
            return f"no place from {first} to {most} of {len(history)} for {op.row} -> {op.reply}, but {past.reply(min(first, len(history)), op.row)}"
        done.append((op.replied, place))
    return None


def changed(ops: list[Op], past: Past, draws: random.Random) -> tuple[Op, Reply]:
    """One reply in the place of another: that of another moment, or a number in it changed. None if the plain office always replies the same."""
    op = draws.choice([it for it in ops if it.reply and it.reply[0] in (200, 409)])
    assert op.reply
    others = {past.reply(at, op.row) for at in range(len(past.states))} - {op.reply}
    status, body = op.reply
    digits = [at for at, it in enumerate(body) if 48 <= it <= 57]
    if others and draws.random() < 0.5:
        return op, sorted(others)[draws.randrange(len(others))]
    at = draws.choice(digits)
    return op, (status, body[:at] + bytes([48 + (body[at] - 47) % 10]) + body[at + 1 :])
