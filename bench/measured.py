"""Measures a program over an input: its best wall time, its peak memory, and how many instructions it takes."""
import os
import re
import subprocess
import sys
import time
from typing import Callable, Iterable

TOP = os.path.dirname(os.path.dirname(os.path.realpath(__file__)))
PROGRAM = os.path.join(TOP, "crates", "allocation_cli", "out", "allocation_cli")
RUNS = 5


def measure(words: list[str], path: str, before: Callable[[], object] = lambda: None) -> tuple[float, int]:
    """The best wall time of some runs in seconds, and the peak memory in bytes. `before` is done before each run."""
    best, peak = float("inf"), 0
    for _ in range(RUNS):
        before()
        with open(path, "rb") as source:
            begun = time.perf_counter()
            child = subprocess.Popen(words, stdin=source, stdout=subprocess.DEVNULL)
            _, status, used = os.wait4(child.pid, 0)
            taken = time.perf_counter() - begun
        if status != 0:
            sys.exit(f"bench: {words[0]} ended with wait status {status}")
        best = min(best, taken)
        peak = max(peak, used.ru_maxrss * 1024)
    return best, peak


def write_lines(path: str, lines: Iterable[str]) -> int:
    """Writes the lines one by one, so that a large input does not lie in memory while a program is measured."""
    with open(path, "w", encoding="ascii") as out:
        out.writelines(line + "\n" for line in lines)
    return os.path.getsize(path)


def built(name: str, folder: str) -> str:
    """A plain program of bench/, built."""
    program = os.path.join(folder, name)
    subprocess.run(["rustc", "-O", "-o", program, os.path.join(TOP, "bench", name, "main.rs")], check=True)
    return program


def instructions(words: list[str], path: str, folder: str) -> int:
    """How many instructions a program runs over an input."""
    out = os.path.join(folder, "callgrind.out")
    with open(path, "rb") as source:
        done = subprocess.run(["valgrind", "--tool=callgrind", f"--callgrind-out-file={out}", *words], stdin=source,
                              stdout=subprocess.DEVNULL, stderr=subprocess.PIPE, text=True, check=True)
    found = re.search(r"Collected : (\d+)", done.stderr)
    assert found, done.stderr
    return int(found[1])
