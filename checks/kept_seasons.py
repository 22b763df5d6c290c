#!/usr/bin/env python3
"""Stores and dossiers that earlier versions made, in cases/kept: the present program continues each of them as that version would have.

    python3 checks/kept_seasons.py PROGRAM      keeps what this program makes, under the number of VERSION: a part of making a version

bundle.txt has a season that is kept in its last window, and next.txt the requests that come then. For each version there are its store, its replies to next.txt, and
the dossier that was made of it after them. The dossier has fresh tokens in place of those of the season."""
import functools
import os
import re
import shutil
import subprocess
import sys
import tempfile
from typing import Callable, Iterator, Optional

import cases

TOP = os.path.dirname(os.path.dirname(os.path.realpath(__file__)))
KEPT = f"{TOP}/cases/kept"
SOUND = b"audit sound rounds 2\nbest\n"


def bytes_of(path: str) -> bytes:
    with open(path, "rb") as it:
        return it.read()


def copy_store(store: str, to: str) -> None:
    """Copies a store with its log."""
    for end in ("", "-wal"):
        if os.path.exists(store + end):
            shutil.copy(store + end, to + end)


def versions() -> list[str]:
    """The versions of which something is kept, the oldest first."""
    found = (re.fullmatch(r"(\d+)\.(\d+)\.(\d+)\.db", it) for it in os.listdir(KEPT))
    return [".".join(it.groups()) for it in sorted(filter(None, found), key=lambda it: tuple(map(int, it.groups())))]


def dossier_of(program: str, store: str) -> bytes:
    ran = subprocess.run([sys.executable, f"{TOP}/tools/dossier", "--without-tokens", "--store", store], stdout=subprocess.PIPE, stderr=subprocess.PIPE, env={**os.environ, "OFFICE": program}, check=True)
    return ran.stdout


def texts_of(dossier: bytes) -> bytes:
    return dossier.partition(b"[published]\n")[2]


def fault_of(program: str, version: str) -> Optional[str]:
    """Why the program does not continue the store of a version as that version did, or judges its dossier otherwise, or None."""
    with tempfile.TemporaryDirectory(prefix="kept-", dir=cases.ROOMS) as room:
        copy_store(f"{KEPT}/{version}.db", f"{room}/season.db")
        wrote, status = cases.called(program, ["resume", "season.db"], bytes_of(f"{KEPT}/next.txt"), room)
        if (wrote, status) != (bytes_of(f"{KEPT}/{version}-replies.txt"), 0):
            return f"cases/kept/{version}.db: resume has status {status}, {cases.first_difference(wrote, bytes_of(f'{KEPT}/{version}-replies.txt'))}"
        dossier, kept = dossier_of(program, f"{room}/season.db"), bytes_of(f"{KEPT}/{version}-dossier.txt")
        verdicts = [cases.called(program, ["audit", "best"], it, room) for it in (dossier, kept)]
    if verdicts != [(SOUND, 0)] * 2:
        return f"cases/kept/{version}: the verdicts on the dossiers are {verdicts}"
    return None if texts_of(dossier) == texts_of(kept) else f"cases/kept/{version}: what is published differs from the dossier of that version"


def trials(program: str) -> Iterator[Callable[[], Optional[str]]]:
    found = versions()
    with open(f"{TOP}/VERSION", encoding="ascii") as it:
        if found and it.read().strip() not in found:
            yield lambda: "cases/kept has no store of the version in VERSION: python3 checks/kept_seasons.py PROGRAM makes it"
    for version in found:
        yield functools.partial(fault_of, program, version)


def keep(program: str) -> Optional[str]:
    """Makes the store, the replies and the dossier of this version, and keeps them."""
    with open(f"{TOP}/VERSION", encoding="ascii") as it:
        version = it.read().strip()
    with tempfile.TemporaryDirectory(prefix="kept-") as room:
        for words, given in ((["run", "season.db"], "bundle.txt"), (["resume", "season.db"], "next.txt")):
            wrote, status = cases.called(program, words, bytes_of(f"{KEPT}/{given}"), room)
            if status:
                return f"{words}: status {status}, {wrote[-200:]!r}"
            if words[0] == "run":
                copy_store(f"{room}/season.db", f"{KEPT}/{version}.db")
        for name, data in ((f"{version}-replies.txt", wrote), (f"{version}-dossier.txt", dossier_of(program, f"{room}/season.db"))):
            with open(f"{KEPT}/{name}", "wb") as it:
                it.write(data)
    return None


if __name__ == "__main__":
    sys.exit(keep(os.path.abspath(sys.argv[1])) if len(sys.argv) == 2 and not sys.argv[1].startswith("-") else __doc__)
