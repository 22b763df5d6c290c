"""Trials side by side, and those that the machine disturbed once more, one at a time.

A trial gives its fault or None. Where it ends with an exception, it said nothing of the program: a file was busy, a child could not be started, or a call took too long
on a machine with other work. A trial of TIMED holds the program to seconds of the clock, and other work may delay its clients. Both are tried again after all others,
alone. What they say then counts, and a line tells what came first. Every other fault counts at once."""
import concurrent.futures
import os
import traceback
from typing import Callable, Optional

Trial = Callable[[], Optional[str]]
# trials of checks/served.py with a clock
TIMED = ("kept_silent", "silent", "slow", "refused_early", "short_of_descriptors")


def of_exception(label: str, why: Exception) -> str:
    """The line for an exception: the trial, the exception, and the last place of our own in its trace."""
    places = [it for it in traceback.extract_tb(why.__traceback__) if os.path.dirname(it.filename) == os.path.dirname(os.path.abspath(__file__))]
    place = f" at {os.path.basename(places[-1].filename)}:{places[-1].lineno}" if places else ""
    return f"{label}: {type(why).__name__}{place}: {why}"


def tried(label: str, trial: Trial) -> tuple[Optional[str], bool]:
    """The fault of a trial, or None, and whether it is worth another try alone."""
    try:
        fault = trial()
    except Exception as why:
        return of_exception(label, why), True
    return fault, fault is not None and label.split(" ")[0] in TIMED


def faults(lanes: concurrent.futures.Executor, trials: list[tuple[str, Trial]]) -> list[Optional[str]]:
    """The faults of all these trials, each with its label, tried side by side, in their order."""
    found = [*lanes.map(lambda it: tried(*it), trials)]
    said = [fault for fault, _ in found]
    for at, (label, trial) in enumerate(trials):
        first, again = found[at]
        if again:
            said[at] = tried(label, trial)[0]
            print(f"checks/repository: disturbed, and tried again alone {'without a fault' if said[at] is None else 'with a fault'}: {first}", flush=True)
    return said
