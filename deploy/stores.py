"""How the scripts read a copy of a store: from a copy of the copy, so that the copy stays byte by byte what it was."""
import contextlib
import os
import re
import shutil
import sqlite3
import tempfile
from typing import Iterator, Optional


COPY = re.compile(r"\d{8}T\d{6}\.\d+Z")
MADE = re.compile(r"number (\d+)\n((?:season\.db(?:-wal)? \d+\n)+)")


def made_of(copy: str) -> tuple[int, Optional[dict[str, int]]]:
    """Returns the number of a copy in the order of making, and the sizes of its files; 0 and None for a copy from before there were numbers."""
    try:
        with open(f"{copy}/made.txt", encoding="ascii") as it:
            told = MADE.fullmatch(it.read())
    except (OSError, UnicodeError):
        told = None
    return (int(told[1]), {line.split()[0]: int(line.split()[1]) for line in told[2].splitlines()}) if told else (0, None)


def copies(folder: str) -> list[str]:
    """Returns the paths of the copies, the one that was made first in front. Names have the hour, and clocks are set back, so numbers come before names."""
    there = [it for it in os.listdir(folder) if COPY.fullmatch(it)] if os.path.isdir(folder) else []
    return [f"{folder}/{it}" for it in sorted(there, key=lambda it: (made_of(f"{folder}/{it}")[0], it))]


def newest_copy(path: str) -> str:
    """Returns the store below a path: in the newest copy of a folder of copies, in a copy, or the path itself."""
    path = next(iter(copies(path)[::-1]), path)
    return f"{path}/season.db" if os.path.isdir(path) else path


@contextlib.contextmanager
def opened(store: str) -> Iterator[sqlite3.Connection]:
    """A database with the rows of a store and of its log. The store must not be open elsewhere. The room is next to the store, if this user may write there."""
    folder = os.path.dirname(os.path.abspath(store))
    with tempfile.TemporaryDirectory(prefix="look-", dir=folder if os.access(folder, os.W_OK) else None) as room:
        for end in ("", "-wal"):
            if os.path.exists(store + end):
                shutil.copyfile(store + end, f"{room}/store{end}")
        base = sqlite3.connect(f"{room}/store")
        try:
            yield base
        finally:
            base.close()
