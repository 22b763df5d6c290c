"""The calls that README, TUTORIAL, CHECKING, CLERK and COURT show, as a reader makes them: one after another in a folder with the examples, each with the output below it.
What is asked over HTTP is held by the tour of checks/served.py."""
import functools
import os
import re
import shutil
import subprocess
import tempfile
from typing import Callable, Iterator, Optional

from cases import SECONDS, first_difference

TOP = os.path.dirname(os.path.dirname(os.path.realpath(__file__)))
DOCUMENTS = ("README.md", "docs/TUTORIAL.md", "docs/CHECKING.md", "docs/CLERK.md", "docs/COURT.md")
BEGINS = ("./office ", "echo ", "cat ", "sed ", "tools/", "rm ", "mkdir ", "cp ")
# what ends by itself only after its connections, and forms with words behind them
SKIPPED = re.compile(r"^\./office (serve|WORDS|try|check units|--version)|^curl |^deploy/| {4}", re.M)


def calls_of(text: str) -> list[tuple[str, str]]:
    """The calls, each with the output that is shown right below it, which may be none."""
    parts, found = [*re.finditer(r"(?:^ {4}.*\n)+", text, re.M)], []
    blocks = [re.sub(r"^ {4}", "", it[0], flags=re.M) for it in parts]
    for at, call in enumerate(blocks):
        if call.startswith(BEGINS) and not SKIPPED.search(call):
            after = blocks[at + 1] if at + 1 < len(blocks) and not text[parts[at].end() : parts[at + 1].start()].strip() else ""
            found.append((call, "" if after.startswith((*BEGINS, "curl ", "deploy/")) else after))
    return found


def is_shown(wrote: str, shown: str) -> bool:
    """Whether the output is what is shown. A line `..` is for some lines that are left out."""
    parts = [re.escape(it) for it in re.split(r"^\.\.\n", shown, flags=re.M)]
    return re.fullmatch(r"(?:.*\n)*?".join(parts), wrote) is not None


def fault_of(program: str, name: str) -> Optional[str]:
    """Why a call of the document does not do what the document shows, or None."""
    with open(f"{TOP}/{name}", encoding="utf-8") as it:
        calls = calls_of(it.read())
    with tempfile.TemporaryDirectory(prefix="tour-") as room:
        os.symlink(f"{TOP}/examples", f"{room}/examples")
        shutil.copytree(f"{TOP}/tools", f"{room}/tools")
        with open(f"{room}/office", "w", encoding="utf-8") as it:
            it.write(f'#!/bin/sh\nexec "{program}" "$@"\n')
        # not by this process, in which another thread may just be starting a program
        subprocess.run(["chmod", "755", f"{room}/office"], check=True)
        for call, shown in calls:
            wrote = subprocess.run(["sh", "-c", call], cwd=room, stdout=subprocess.PIPE, stderr=subprocess.DEVNULL, text=True, timeout=SECONDS).stdout
            if shown and not is_shown(wrote, shown):
                return f"{name}: {call.splitlines()[0]}: {first_difference(wrote.encode(), shown.encode())}"
    return None if len(calls) > 1 else f"{name}: it shows {len(calls)} calls"


# ---- the refusals that CHECKING compares with a cutoff

FIRST_CUT = "cut,clerk,0\n"
COMPARED = re.compile(r"^\| `([\w-]+)` \| (\d+) \| (\d+) \| ([\w-]+) \| (\d+) \| (.*?) \| .*\|$", re.M)


def script_of(example: str, number: int) -> tuple[list[str], str]:
    """The words that run an example, and its input as far as the cut that publishes the round of this number."""
    folder = f"{TOP}/examples/{example}"
    name = next(it for it in ("bundle.txt", "divided.txt", "dossier.txt") if os.path.exists(f"{folder}/{it}"))
    with open(f"{folder}/{name}", encoding="utf-8") as it:
        season, _, requests = it.read().partition("[published]")[0].partition("[requests]\n")
    kept = re.match(rf"(?:(?:.*\n)*?cut,.*\n){{{number}}}", requests)
    return ["units" if name == "divided.txt" else "run", "memory"], f"{season}[requests]\n{kept[0] if kept else FIRST_CUT}"


def comparison(program: str, example: str, number: str, cand: str, code: str, place: str, lines: str) -> Optional[str]:
    """Why the program does not show the place and the cutoffs that a row of the table compares, or None."""
    words, script = script_of(example, int(number))
    asked = f"{script}register,clerk,{cand}\ncutoffs,nobody,{number},{code}\n"
    wrote = subprocess.run([program, *words], input=asked, stdout=subprocess.PIPE, stderr=subprocess.DEVNULL, text=True, timeout=SECONDS).stdout
    entry, found = re.search(rf"^register {cand} \S+ \S+ (\S+) ", wrote, re.M), re.search(rf"^cutoffs {number} {code}\n((?:.*\n)*?)end cutoffs\n", wrote, re.M)
    shown = re.findall(r"`([^`]+)`", lines)
    if entry and found and entry[1].rstrip("R") == place and found[1].splitlines() == shown:
        return None
    return f"docs/CHECKING.md: {example}, round {number}, candidate {cand}, {code}: the program shows otherwise: {wrote[-200:]!r}"


def comparisons(program: str) -> list[Callable[[], Optional[str]]]:
    with open(f"{TOP}/docs/CHECKING.md", encoding="utf-8") as it:
        rows = COMPARED.findall(it.read())
    return [functools.partial(comparison, program, *row) for row in rows] or [lambda: "docs/CHECKING.md: no refusal is compared with a cutoff"]


def trials(program: str) -> Iterator[Callable[[], Optional[str]]]:
    for name in DOCUMENTS:
        yield functools.partial(fault_of, program, name)
    yield from comparisons(program)
