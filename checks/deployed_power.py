"""The parts of checks/deploy that cut the power after each call of `go-back` and `keep-copy --check`: what a disk has of their folders is whole or is not there.

The disk is an ext4 in a file, which writes nothing by itself for five minutes. So at a cut the file has what was synced; and with one more sync of another file, it also
has all names so far, and of bytes that were not synced none, or zeros."""
import contextlib
import functools
import itertools
import os
import shutil
import subprocess
import time
from typing import Callable, Iterator, TypeVar

from cases import READS_STORES
from deployed import part, tally
from deployed_killed import Rows, after_kill, bytes_of, copies_made, driven, gone_back, kept_aside, rows_of, store_and_copy, torn
from front import SYSTEM, called

NEEDS = ["root", "mount", "mkfs.ext4"]
# the weakest order that ext4 keeps, with lengths that wait for their bytes, and with lengths that do not: the tries take turns
DISKS = ("data=writeback,noauto_da_alloc", "data=writeback,noauto_da_alloc,nodelalloc")
CUTS = ("what was synced", "all names too")

Given = TypeVar("Given")


class Disk:
    """A file system in a file, at a folder."""

    def __init__(self, room: str, at: str, how: str, put: Callable[[], object]) -> None:
        """Makes the file system, and puts files into it."""
        self.image, self.at, self.how = f"{room}/disk-{DISKS.index(how)}.img", at, how
        self.made: list[str] = []
        os.makedirs(at, exist_ok=True)
        with open(self.image, "wb") as it:
            it.truncate(24 << 20)
        called(["mkfs.ext4", "-q", "-F", "-J", "size=4", self.image])
        with self.mounted(self.image):
            put()
            called(["sync", "-f", at])

    def copied(self, source: str) -> str:
        """Copies a disk to a file that was never mounted: a program with a namespace of its own may have taken a mount along, and then its file system lives on."""
        self.made.append(f"{self.image}.{len(self.made)}")
        shutil.copyfile(source, self.made[-1])
        return self.made[-1]

    @contextlib.contextmanager
    def mounted(self, image: str) -> Iterator[None]:
        called(["mount", "-o", f"loop,commit=300,{self.how}", image, self.at])
        try:
            yield
        finally:
            for _ in range(100):
                if subprocess.run(["umount", self.at], stderr=subprocess.DEVNULL, env=SYSTEM).returncode == 0:
                    break
                time.sleep(0.05)
            else:
                raise OSError(f"{self.at} stays mounted")

    def cut(self, call: Callable[[], Given]) -> tuple[Given, list[tuple[str, str]]]:
        """Lets a call change the files that were put, and cuts the power; returns what the call gives, and the files that a disk may have then."""
        for of_before in self.made[-1 - len(CUTS) :]:
            os.remove(of_before)
        begun = self.copied(self.image)
        left: list[tuple[str, str]] = []
        with self.mounted(begun):
            came = call()
            for label in CUTS:
                left.append((label, self.copied(begun)))
                with open(f"{self.at}/other", "wb") as it:
                    it.write(b"x")
                    it.flush()
                    os.fsync(it.fileno())
        return came, left


@part("go-back under a lost power", NEEDS)
def back_without_power(room: str, program: str) -> None:
    if not READS_STORES:
        tally.skips("go-back under a lost power", "SQLite 3.37 in Python")
        return
    copy, old, new = store_and_copy(room, program)
    disks = [Disk(room, f"{room}/at", how, lambda: shutil.copytree(f"{room}/made", f"{room}/at", dirs_exist_ok=True)) for how in DISKS]
    seen: set[str] = set()
    for at, mode in itertools.product(range(1, 200), ("in", "after")):
        disk = disks[(at + (mode == "in")) % 2]
        (ran, _), left = disk.cut(functools.partial(gone_back, program, room, at, mode, copy))
        odd = list(odd_stores(disk, program, room, copy, left, old, new, seen))
        tally.holds(not odd, f"go-back {mode} call {at}, and the power is lost ({disk.how})", f"{odd[:2]}")
        if ran.returncode == 0:
            break
    tally.holds(at > 15 and seen == {"none", "the old one", "the copy"}, "go-back loses its power at many calls", f"{at} {seen}")


def odd_stores(disk: Disk, program: str, room: str, copy: str, left: list[tuple[str, str]], old: Rows, new: Rows, seen: set[str]) -> Iterator[str]:
    """What is wrong with the stores that a disk may have after a cut, and with the next call over each; notes which stores there were."""
    for label, image in left:
        with disk.mounted(image):
            yield from (f"{label}: {it}" for it in after_kill(program, room, old, new))
            there = os.path.exists(f"{room}/at/season.db")
            came = rows_of(program, f"{room}/at/season.db", f"{room}/look") if there else None
            seen.add("none" if not there else "the old one" if came == old else "the copy" if came == new else "another")
            ran, _ = gone_back(program, room, 0, "before", copy)
            again = rows_of(program, f"{room}/at/season.db", f"{room}/look")
            if ran.returncode or again != new:
                yield f"{label}: the next call: {ran.returncode} {ran.stderr} {again and len(again[1])}"
            if not kept_aside(room):
                yield f"{label}: the old store is nowhere"


@part("keep-copy --check under a lost power", NEEDS)
def check_without_power(room: str, program: str) -> None:
    if not READS_STORES:
        tally.skips("keep-copy --check under a lost power", "SQLite 3.37 in Python")
        return
    folder = copies_made(program, room)
    wanted = {it: bytes_of(f"{folder}/{it}/season.db") for it in os.listdir(folder)}
    plain = (f"{room}/plain", f"{room}/plain-second")
    shutil.copytree(folder, plain[0])
    tally.same(driven(program, 0, "before", *plain), 0, "a check whose power stays")
    names = [sorted(os.listdir(it)) for it in plain]
    pair = (f"{room}/disk/try", f"{room}/disk/second")
    disks = [Disk(room, f"{room}/disk", how, lambda: shutil.copytree(folder, pair[0])) for how in DISKS]
    for at in range(1, 300):
        disk, odd = disks[at % 2], []
        status, left = disk.cut(functools.partial(driven, program, at, "in", *pair))
        for label, image in left:
            with disk.mounted(image):
                again = driven(program, 0, "before", *pair)
                there = [sorted(os.listdir(it)) for it in pair]
                odd += [f"{label}: the next check ends with {again} and leaves {there}"] if (again, there) != (0, names) else []
                odd += [f"{label}: {it}" for it in torn(pair, wanted)]
        tally.holds(not odd, f"keep-copy --check at call {at}, and the power is lost ({disk.how})", f"{odd[:2]}")
        if status == 0:
            break
    tally.holds(at > 40, "keep-copy --check loses its power at many calls", f"{at}")
