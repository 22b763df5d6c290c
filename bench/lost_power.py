"""What a lost power may leave of files, from a record of bench/watched_disk: each write, length, sync and name, with its bytes.

At every moment the disk has what was synced, and of what was not synced any part: each operation done, not done, or torn. A file and its length may be apart,
and the names of a folder are only there for sure once the folder was synced."""
from __future__ import annotations

import dataclasses
import itertools
import os
import random
import struct
from collections.abc import Callable, Iterator
from typing import Optional

HEAD = struct.Struct("<6Q")
SECTORS = (512, 4096)
MOST_PENDING, TORN_EACH, DRAWS = 10, 6, 3
# which operations are done, by their id: each whole, or only in these parts of its bytes
Parts = dict[int, Optional[list[tuple[int, int]]]]


@dataclasses.dataclass
class Event:
    """An operation, in the order in which the operations ended."""

    kind: str
    file: int
    offset: int
    count: int
    result: int
    bytes: bytes


def events_of(path: str) -> list[Event]:
    """Reads a record."""
    with open(path, "rb") as it:
        given = it.read()
    found, at = [], 0
    while at < len(given):
        kind, file, offset, count, result, length = HEAD.unpack_from(given, at)
        result -= 1 << 64 if result >> 63 else 0
        at += HEAD.size
        found.append(Event(chr(kind), file, offset, count, result, given[at : at + length]))
        at += length
    return found


@dataclasses.dataclass
class Done:
    """An operation on a file or a folder that may not be on the disk yet: a write, a length, a name made or a name removed."""

    kind: str
    offset: int = 0
    bytes: bytes = b""
    name: str = ""
    file: int = 0

    def on(self, content: bytearray, parts: list[tuple[int, int]] | None = None) -> None:
        """Does it to the content of a file, or only the parts of its bytes between these places."""
        if self.kind == "T":
            del content[self.offset :]
            content.extend(bytes(self.offset - len(content)))
            return
        for begin, end in [(0, len(self.bytes))] if parts is None else parts:
            if begin < end:
                content.extend(bytes(max(0, self.offset + begin - len(content))))
                content[self.offset + begin : self.offset + end] = self.bytes[begin:end]


class Changed:
    """What was done to a file or a folder since the disk has it for sure, and the syncs that have begun."""

    def __init__(self) -> None:
        self.pending: list[Done] = []
        self.begun: dict[int, int] = {}

    def sync_began(self, number: int) -> None:
        self.begun[number] = len(self.pending)

    def sync_ended(self, number: int, is_done: bool) -> bool:
        """Moves what was done before the sync began to the disk; returns whether there was any."""
        count = self.begun.pop(number)
        if not is_done:
            return False
        for it in self.pending[:count]:
            self.settle(it)
        del self.pending[:count]
        self.begun = {other: max(0, at - count) for other, at in self.begun.items()}
        return count > 0

    def settle(self, done: Done) -> None:
        """Moves one operation to the disk."""
        raise NotImplementedError


class File(Changed):
    """A file: what the disk has for sure, and what was done to it since."""

    def __init__(self, content: bytes = b"") -> None:
        super().__init__()
        self.sure = bytearray(content)

    def settle(self, done: Done) -> None:
        done.on(self.sure)


class Folder(Changed):
    """The names of a folder, and the files that they name."""

    def __init__(self, names: dict[str, int]) -> None:
        super().__init__()
        self.sure = dict(names)

    def settle(self, done: Done) -> None:
        self.named(self.sure, done)

    @staticmethod
    def named(names: dict[str, int], done: Done) -> None:
        if done.kind == "N":
            names[done.name] = done.file
        else:
            names.pop(done.name, None)


State = tuple[tuple[str, bytes], ...]


class Disk:
    """The files of one store and the names of its folder, moved on event by event."""

    def __init__(self, files: dict[str, bytes], without_sync: int | None = None):
        self.given, self.without_sync = files, without_sync
        self.files: dict[int, File] = {}
        self.folder = Folder({})
        self.folders: set[int] = set()
        self.syncs = 0

    def moved(self, event: Event) -> bool:
        """Takes one event; returns whether what a lost power may leave has changed."""
        take: Callable[[Event], bool] = getattr(self, f"moved_{event.kind}", lambda _: False)
        return take(event)

    def moved_O(self, event: Event) -> bool:
        if event.bytes.endswith(b"/"):
            self.folders.add(event.file)
            return False
        name = os.path.basename(event.bytes.decode())
        if event.file not in self.files:
            content = b"" if event.count else self.given[name]
            self.files[event.file] = File(content)
            if event.count:
                self.folder.pending.append(Done("N", name=name, file=event.file))
                return True
            self.folder.sure[name] = event.file
        if event.offset & os.O_TRUNC:
            self.files[event.file].pending.append(Done("T"))
            return True
        return False

    def moved_W(self, event: Event) -> bool:
        self.files[event.file].pending.append(Done("W", event.offset, event.bytes))
        return True

    def moved_T(self, event: Event) -> bool:
        self.files[event.file].pending.append(Done("T", event.offset))
        return True

    def moved_U(self, event: Event) -> bool:
        self.folder.pending.append(Done("U", name=os.path.basename(event.bytes.decode())))
        return True

    def moved_B(self, event: Event) -> bool:
        self.of_sync(event).sync_began(event.offset)
        return False

    def moved_E(self, event: Event) -> bool:
        self.syncs += 1
        return self.of_sync(event).sync_ended(event.offset, event.result == 0 and event.offset != self.without_sync)

    def of_sync(self, event: Event) -> Changed:
        return self.folder if event.file in self.folders else self.files[event.file]

    # ---- what may be left

    def states(self, draws: random.Random) -> Iterator[State]:
        """Yields what a lost power may leave at this moment, some of it drawn."""
        every = [(number, done) for number, it in self.files.items() for done in it.pending]
        names = list(self.folder.pending)
        yield from self.with_names(names, {})
        yield from self.with_names([], {})
        whole: Parts = {id(done): None for _, done in every}
        yield self.state(names, whole)
        yield self.state(names, {})
        for some in self.subsets(every):
            yield self.state(names, {id(done): None for done in some})
        for _, done in self.few(every, draws):
            if done.kind == "W":
                yield from self.torn(names, whole, done, draws)
        for _ in range(DRAWS):
            for unit in (*SECTORS, 1):
                yield self.state(names, {id(done): mixed(done, unit, draws) for _, done in every if done.kind == "W" or draws.random() < 0.5})
        yield from self.apart(names, every, draws)

    def with_names(self, names: list[Done], parts: Parts) -> Iterator[State]:
        """Yields each beginning of the changes of names, with all and with nothing of the files' bytes."""
        whole: Parts = {id(done): None for it in self.files.values() for done in it.pending}
        for count in range(len(names) + 1):
            yield self.state(names[:count], whole)
            yield self.state(names[:count], parts)

    @staticmethod
    def few(every: list[tuple[int, Done]], draws: random.Random) -> list[tuple[int, Done]]:
        return every if len(every) <= MOST_PENDING else [*every[:3], *draws.sample(every[3:-3], MOST_PENDING - 6), *every[-3:]]

    def subsets(self, every: list[tuple[int, Done]]) -> Iterator[list[Done]]:
        """Yields each operation alone, all but each, and fronts and backs."""
        done = [it for _, it in every]
        some = range(len(done)) if len(done) <= 3 * MOST_PENDING else [*range(MOST_PENDING), *range(len(done) - MOST_PENDING, len(done))]
        for at in some:
            yield [done[at]]
            yield done[:at] + done[at + 1 :]
            yield done[: at + 1]
            yield done[at:]

    def torn(self, names: list[Done], whole: Parts, done: Done, draws: random.Random) -> Iterator[State]:
        """Yields the front and the back of one write, cut at sectors and at single bytes, with all others and with none."""
        length = len(done.bytes)
        cuts = {at for unit in SECTORS for at in range(unit - done.offset % unit, length, unit)}
        cuts = {*draws.sample(sorted(cuts), min(len(cuts), TORN_EACH)), *(draws.randrange(length) for _ in range(2))} - {0}
        for cut in sorted(cuts):
            for parts in ([(0, cut)], [(cut, length)]):
                yield self.state(names, {**whole, id(done): parts})
                yield self.state(names, {id(done): parts})

    def apart(self, names: list[Done], every: list[tuple[int, Done]], draws: random.Random) -> Iterator[State]:
        """Yields files that have grown and whose new bytes are zeros or garbage."""
        whole: Parts = {id(done): None for _, done in every}
        for number, it in self.files.items():
            grown = bytearray(it.sure)
            for done in it.pending:
                done.on(grown)
            if len(grown) > len(it.sure):
                more = len(grown) - len(it.sure)
                for filled in (bytes(more), draws.randbytes(more)):
                    yield self.state(names, whole, {number: bytes(it.sure) + filled})

    def state(self, names: list[Done], parts: Parts, instead: dict[int, bytes] | None = None) -> State:
        """The files by their names, where of the pending operations these are done, each whole or in these parts."""
        found = dict(self.folder.sure)
        for it in names:
            Folder.named(found, it)
        return tuple(sorted((name, (instead or {}).get(number) or self.content(number, parts)) for name, number in found.items()))

    def content(self, number: int, parts: Parts) -> bytes:
        it = self.files[number]
        content = bytearray(it.sure)
        for done in it.pending:
            if id(done) in parts:
                done.on(content, parts[id(done)])
        return bytes(content)


def mixed(done: Done, unit: int, draws: random.Random) -> list[tuple[int, int]]:
    """The parts of a write of which each unit is new or old, by chance."""
    length, chance = len(done.bytes), draws.choice((0.1, 0.5, 0.9))
    places = [0, *range(unit - done.offset % unit, length, unit), length]
    return [(begin, end) for begin, end in itertools.pairwise(places) if draws.random() < chance]
