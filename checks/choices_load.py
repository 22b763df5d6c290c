"""Candidates who make their lists all at once, while the service is killed again and again. Every receipt must be in what the clerk gets."""
import asyncio
import csv
import dataclasses
import hashlib
import os
import random
import secrets
import signal
import subprocess
import sys
import time
from typing import Any, Iterator, Optional, TypeVar
from urllib.parse import urlencode

from served import TOP, Wrong

CHOICES = f"{TOP}/deploy/choices/choices"
PROGRAMMES = [f"P{it}" for it in range(400)]
# one candidate in so many saves a second list
TWICE = 8
Own = TypeVar("Own", bound="Service")


@dataclasses.dataclass
class Sent:
    """A list that was sent, and its receipt once one came."""

    codes: tuple[str, ...]
    receipt: Optional[int] = None


def bundle(count: int) -> tuple[str, dict[int, str]]:
    """Returns a bundle of so many candidates without lists, and the token of each."""
    tokens = {it: secrets.token_hex(16) for it in range(1, count + 1)}
    rows = ["office bundle 1", "[season]", "rounds,3", f"clerk,{secrets.token_hex(16)}", "[register]", "id,category,traits,token,m1,m2,m3,m4"]
    rows += [f"{it},GEN,-,{token},{it}" for it, token in tokens.items()]
    rows += ["[matrix]", "programme,institute,list,step,seats,W,D,X,S,F,L", *(f"{it},I{at % 40},1,OPEN,60" for at, it in enumerate(PROGRAMMES))]
    return "\n".join([*rows, "[choices]", "candidate,programmes", ""]), tokens


class Service:
    """The service over a store, at a socket in its folder. It may be killed and started again."""

    def __init__(self, room: str, *words: str, **how: Any) -> None:
        self.room, self.words, self.how = room, words, how
        self.begun: Optional[subprocess.Popen[bytes]] = None
        self.socket = f"{room}/choices.sock"

    @property
    def child(self) -> "subprocess.Popen[bytes]":
        """Returns the service that was begun last."""
        assert self.begun, "the service was not begun"
        return self.begun

    def start(self: Own) -> Own:
        """Starts the service, and waits until it serves."""
        call = [sys.executable, CHOICES, "serve", f"{self.room}/choices.db", "--socket", self.socket, "--papers", f"{self.room}/season", "--web", f"{self.room}/web", *self.words]
        self.log = open(f"{self.room}/service.log", "ab")
        self.begun = subprocess.Popen(call, stdout=subprocess.PIPE, stderr=self.log, **self.how)
        assert self.child.stdout
        if self.child.stdout.readline() != b"choices: serving\n":
            raise Wrong(f"the service does not start: status {self.child.wait()}")
        return self

    def kill(self, by: int = signal.SIGKILL) -> None:
        """Kills the service."""
        self.child.send_signal(by)
        self.child.wait()
        assert self.child.stdout
        self.child.stdout.close()
        self.log.close()

    __enter__ = start

    def __exit__(self, *_: object) -> None:
        if self.child.poll() is None:
            self.kill()


def called(*words: str, given: str = "", status: int = 0) -> str:
    """Returns what a call of `choices` writes, if it has this status."""
    ran = subprocess.run([sys.executable, CHOICES, *words], input=given.encode(), stdout=subprocess.PIPE, stderr=subprocess.PIPE)
    if ran.returncode != status:
        raise Wrong(f"choices {words[0]}: status {ran.returncode} and not {status}: {ran.stderr.decode()[-300:]}")
    return (ran.stdout if not status else ran.stderr).decode()


class Link:
    """A connection of a client to the service."""

    def __init__(self, reader: asyncio.StreamReader, writer: asyncio.StreamWriter) -> None:
        self.reader, self.writer = reader, writer

    async def post(self, path: str, form: dict[str, object], cookie: str = "") -> tuple[int, dict[str, str], str]:
        """Sends a form, and returns status, fields and text of the reply."""
        body = urlencode(form).encode()
        head = f"POST {path} HTTP/1.1\r\nContent-Type: application/x-www-form-urlencoded\r\nContent-Length: {len(body)}\r\nCookie: {cookie}\r\n\r\n"
        self.writer.write(head.encode() + body)
        head = (await self.reader.readuntil(b"\r\n\r\n")).decode()
        fields = dict(line.split(": ", 1) for line in head.split("\r\n")[1:-2])
        return int(head.split()[1]), fields, (await self.reader.readexactly(int(fields["Content-Length"]))).decode()


class Candidates:
    """All candidates, so many at a time, each with a list of their own; and what they were told."""

    def __init__(self, socket: str, tokens: dict[int, str], seed: int) -> None:
        self.socket, self.tokens, self.drawn = socket, tokens, random.Random(seed)
        self.left: Iterator[int] = iter(tokens)
        # of each candidate the lists that were sent, with the receipt of those that were told to be kept
        self.sent: dict[int, list[Sent]] = {it: [] for it in tokens}
        self.done, self.broken, self.slowest, self.is_over = 0, 0, 0.0, False

    def lists(self, number: int) -> list[tuple[str, ...]]:
        """Returns the lists that a candidate saves, one after another."""
        count = 1 if number % TWICE else 2
        return [tuple(self.drawn.sample(PROGRAMMES, self.drawn.randint(1, 40))) for _ in range(count)]

    async def at_a_time(self, count: int) -> None:
        """Lets so many candidates be there at once until all were."""
        await asyncio.gather(*(self.one_after_another() for _ in range(count)))

    async def one_after_another(self) -> None:
        """Is one candidate after another, over a connection that is made again where it breaks."""
        link: Optional[Link] = None
        for number in self.left:
            if self.is_over:
                return
            wanted = self.lists(number)
            while wanted:
                try:
                    link = link or Link(*await asyncio.open_unix_connection(self.socket))
                    await self.visit(link, number, wanted)
                except (OSError, asyncio.IncompleteReadError):
                    self.broken += 1
                    link = None
                    await asyncio.sleep(0.2)
            self.done += 1

    async def visit(self, link: Link, number: int, wanted: list[tuple[str, ...]]) -> None:
        """Signs in, and saves each list that is wanted; what has a receipt is wanted no more."""
        status, fields, text = await link.post("/choices/enter", {"number": number, "token": self.tokens[number]})
        if status != 303:
            raise Wrong(f"candidate {number} signs in: status {status}")
        cookie, form = fields["Set-Cookie"].split(";")[0], text.split()[-1]
        while wanted:
            began = time.monotonic()
            sent = Sent(wanted[0])
            self.sent[number].append(sent)
            status, fields, text = await link.post("/choices/list", {"form": form, "list": " ".join(wanted[0]), "do": "save"}, cookie)
            self.slowest = max(self.slowest, time.monotonic() - began)
            if status != 303:
                raise Wrong(f"candidate {number} saves: status {status}: {text[-300:]}")
            _, receipt, _, _, digest = text.split()
            if digest != hashlib.sha256(",".join([str(number), *wanted[0]]).encode()).hexdigest()[:16]:
                raise Wrong(f"receipt {receipt} of candidate {number} has another digest: {digest}")
            sent.receipt = int(receipt)
            wanted.pop(0)


def rows_of(path: str) -> list[list[str]]:
    """Returns the rows of a file that the clerk gets, below the header."""
    csv.field_size_limit(1 << 24)
    with open(path, encoding="utf-8", newline="") as it:
        return [*csv.reader(it)][1:]


def faults(folder: str, sent: dict[int, list[Sent]]) -> list[str]:
    """Returns what in the clerk's files is not as the candidates were told."""
    kept = {int(row[0]): (int(row[1]), tuple(row[5].split())) for row in rows_of(f"{folder}/receipts.csv")}
    lists = {int(row[0]): tuple(row[1:]) for row in rows_of(f"{folder}/choices.csv")}
    found = []
    for number, attempts in sent.items():
        if not attempts:
            # the candidate did not come within the time, and the sets below are compared too
            continue
        for it in attempts:
            if it.receipt and kept.get(it.receipt) != (number, it.codes):
                found.append(f"receipt {it.receipt} of candidate {number}: {it.codes[:3]} and not {kept.get(it.receipt)}")
        # the list that counts is the last one that has a receipt, or one that was sent after it and whose reply did not come
        last = max((at for at, it in enumerate(attempts) if it.receipt), default=0)
        if lists.get(number) not in [it.codes for it in attempts[last:]]:
            found.append(f"the list of candidate {number}: {str(lists.get(number))[:60]}")
    if set(lists) != {it for it in sent if sent[it]}:
        found.append("other candidates have a list than saved one")
    return found


async def killed(service: Service, candidates: Candidates, kills: int, at_a_time: int, seconds: float) -> None:
    """Lets all candidates come, or as many as come while the service is up for so long, and kills it so often meanwhile."""
    up, each, all_of = time.monotonic(), seconds / (kills + 1), len(candidates.tokens)
    crowd = asyncio.create_task(candidates.at_a_time(at_a_time))
    for turn in range(1, kills + 1):
        # the time for which the service is down counts for nothing
        while candidates.done < all_of * turn / (kills + 1) and time.monotonic() - up < each and not crowd.done():
            await asyncio.sleep(0.01)
        service.kill()
        await asyncio.to_thread(service.start)
        up = time.monotonic()
    while not crowd.done():
        candidates.is_over |= time.monotonic() - up > each
        await asyncio.sleep(0.05)
    await crowd


def tried(room: str, count: int, kills: int, at_a_time: int, together: int, seconds: float) -> str:
    """Runs the load, and returns its figures. A fault is raised."""
    given, tokens = bundle(count)
    called("begin", f"{room}/choices.db", given=given)
    candidates = Candidates(f"{room}/choices.sock", tokens, 1)
    with Service(room, "--together", str(together)) as service:
        began = time.monotonic()
        asyncio.run(killed(service, candidates, kills, at_a_time, seconds))
        took = time.monotonic() - began
        # the clerk closes while the service runs
        called("close", f"{room}/choices.db", f"{room}/lists")
    found = faults(f"{room}/lists", candidates.sent)
    receipts = sum(bool(it.receipt) for sent in candidates.sent.values() for it in sent)
    lost = sum(not it.receipt for sent in candidates.sent.values() for it in sent)
    if found:
        raise Wrong(f"{len(found)} faults, the first: {found[0]}")
    return (
        f"{count} candidates, {at_a_time} at a time, {kills} kills: {candidates.done} came, and {receipts} receipts were given in {took:.0f} seconds, "
        f"{receipts / took:.0f} a second, the slowest after {candidates.slowest:.1f} seconds. {candidates.broken} connections broke, and {lost} saves had no reply "
        f"and were sent again. All receipts are in the clerk's files; the store has {os.path.getsize(f'{room}/choices.db') >> 20} MiB."
    )
