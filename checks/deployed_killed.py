"""The parts of checks/deploy that kill `keep-copy --check` and `go-back` before, in and after each of their calls: what is left is whole or is not there."""
import os
import shutil
import signal
import sqlite3
import subprocess
import sys
from typing import Callable, Iterable, Iterator, Optional

from cases import READS_STORES
from deployed import CLERK, CUT, body, bundle_of, directly, part, tally
from front import CALLERS_MASK, DEPLOY, SYSTEM, Office, called

# runs keep-copy with few copies to keep, and kills it before the call of this number that changes a file or starts a program
DRIVER = r"""
import os, shutil, signal, sys
at, mode, path = int(sys.argv[1]), sys.argv[2], sys.argv[3]
changes, seen = ("os.rename", "os.remove", "os.rmdir", "os.mkdir", "subprocess.Popen", "shutil.copyfile"), [0]
def looked(event, given):
    if event in changes or event == "open" and isinstance(given[1], str) and set(given[1]) & set("wax+"):
        seen[0] += 1
        if seen[0] == at:
            if mode == "in" and event == "shutil.copyfile":
                with open(given[0], "rb") as one, open(given[1], "wb") as other:
                    other.write(one.read()[: os.path.getsize(given[0]) // 2])
            os.kill(os.getpid(), signal.SIGKILL)
sys.argv, sys.dont_write_bytecode = sys.argv[3:], True
sys.path.insert(0, os.path.dirname(path))
with open(path) as it:
    text = it.read().replace("ROOM = 30, 3, 600, 3", "ROOM = 2, 1, 600, 3")
sys.addaudithook(looked)
exec(compile(text, path, "exec"), {"__name__": "__main__", "__file__": path})
"""
# stands in for a program that go-back calls: it kills the whole call before, in or after the call of this number
SHIM = r"""#!/bin/sh
name=$(basename "$0"); count=$(($(/bin/cat "$ROOM/count") + 1)); echo $count > "$ROOM/count"
run() { case $name in systemctl) : ;; office) "$REAL_OFFICE" "$@" ;; *) /bin/$name "$@" 2> /dev/null || /usr/bin/$name "$@" ;; esac; }
[ $count = "$AT" ] || { run "$@"; exit; }
case $MODE in
    before) kill -9 0 ;;
    in) if [ $name = cp ]; then for to; do :; done; shift; /usr/bin/head -c 4500 "$1" > "$to"; fi; kill -9 0 ;;
    after) run "$@" > "$ROOM/ran" 2>&1; kill -9 0 ;;
esac
"""
# what the office says of a copy of a store, and the answers in it; None where it does not take it
Rows = Optional[tuple[bytes, list[tuple[int, int, int, int]]]]
# what a call of go-back came to, and how many calls it made
Back = tuple[subprocess.CompletedProcess[str], int]
CALLED = ("cp", "mv", "rm", "mkdir", "mktemp", "sync", "chown", "stat", "cat", "systemctl", "office")


def rows_of(program: str, store: str, room: str) -> Rows:
    """Returns what the office says of a copy of a store, and the answers in it; None where it does not take it."""
    shutil.rmtree(room, ignore_errors=True)
    os.makedirs(room)
    for end in ("", "-wal"):
        if os.path.exists(store + end):
            shutil.copyfile(store + end, f"{room}/season.db{end}")
    ran = subprocess.run([program, "resume", f"{room}/season.db"], input=b"state,nobody\n", capture_output=True)
    if ran.returncode:
        return None
    base = sqlite3.connect(f"{room}/season.db")
    rows = sorted(base.execute("SELECT cand, win, turn, choice FROM answer"))
    base.close()
    return ran.stdout, rows


def count_of(rows: Rows) -> Optional[int]:
    """Returns how many answers these are."""
    return len(rows[1]) if rows else None


def bytes_of(store: str) -> list[bytes]:
    """Returns the bytes of a store and of its log."""
    found = []
    for end in ("", "-wal"):
        if os.path.exists(store + end):
            with open(store + end, "rb") as it:
                found.append(it.read())
    return found


def answered(program: str, room: str, begins: bool, turns: Iterable[int]) -> None:
    """Lets an office answer these turns, and kills it, so that its log is left."""
    with Office(program, room) as office:
        office.start("new" if begins else "kept", bundle=bundle_of() if begins else b"")
        if begins:
            directly(office, "POST", "/v1/cut", CLERK, CUT)
        for turn in turns:
            for cand in (1, 2, 3):
                directly(office, "POST", "/v1/answer", f"tok{cand:05}", body(cand=cand, window=1, turn=turn, choice="float"))
        office.kill()


# ---- keep-copy --check


def copies_made(program: str, room: str) -> str:
    """A folder with copies of a season at five moments, of which the last is not checked."""
    folder = f"{room}/copies"
    for number in range(5):
        answered(program, room, number == 0, range(1 + 2 * number, 3 + 2 * number))
        for it in os.listdir(folder) if os.path.isdir(folder) else []:
            os.utime(f"{folder}/{it}/of.txt", (0, 0))
        called([f"{DEPLOY}/keep-copy", f"{room}/season.db", folder], OFFICE=program)
        if number < 4:
            called([f"{DEPLOY}/keep-copy", "--check", folder], OFFICE=program)
    return folder


def driven(program: str, at: int, mode: str, folder: str, second: str) -> int:
    words = [sys.executable, "-c", DRIVER, str(at), mode, f"{DEPLOY}/keep-copy", "--check", folder, second]
    return subprocess.run(words, capture_output=True, umask=CALLERS_MASK, env={**SYSTEM, "OFFICE": program}).returncode


@part("keep-copy --check killed at each call")
def check_killed(room: str, program: str) -> None:
    if not READS_STORES:
        tally.skips("keep-copy --check killed at each call", "SQLite 3.37 in Python")
        return
    folder = copies_made(program, room)
    wanted = {it: bytes_of(f"{folder}/{it}/season.db") for it in os.listdir(folder)}
    counts = {count_of(rows_of(program, f"{folder}/{it}/season.db", f"{room}/look")) for it in wanted}
    tally.same(counts, {6, 12, 18, 24, 30}, "five copies, each with more answers")
    plain = (f"{room}/plain", f"{room}/plain-second")
    shutil.copytree(folder, plain[0])
    tally.same(driven(program, 0, "before", *plain), 0, "a check that nobody kills")
    at, kills = 0, 0
    while True:
        at, odd, ended = at + 1, [], []
        for mode in ("before", "in"):
            pair = (f"{room}/try", f"{room}/try-second")
            for it in pair:
                shutil.rmtree(it, ignore_errors=True)
            shutil.copytree(folder, pair[0])
            ended.append(driven(program, at, mode, *pair))
            kills += ended[-1] == -signal.SIGKILL
            odd += [f"{mode} {it}" for it in torn(pair, wanted)]
            again = driven(program, 0, "before", *pair)
            left = [sorted(os.listdir(it)) for it in pair]
            odd += [] if (again, left) == (0, [sorted(os.listdir(it)) for it in plain]) else [f"{mode}: the next check ends with {again} and leaves {left}"]
        tally.holds(not odd, f"keep-copy --check killed at call {at}", f"{odd[:2]}")
        if 0 in ended or at > 300:
            break
    tally.holds(kills > 40, "keep-copy --check is killed at many calls", f"{kills}")


def torn(pair: tuple[str, str], wanted: dict[str, list[bytes]]) -> Iterator[str]:
    """Returns the copies that are marked as good and are not byte by byte what was copied."""
    for folder in pair:
        for name in os.listdir(folder) if os.path.isdir(folder) else []:
            if name in wanted and os.path.exists(f"{folder}/{name}/state.txt") and bytes_of(f"{folder}/{name}/season.db") != wanted[name]:
                yield f"{os.path.basename(folder)}/{name} is another one"


# ---- go-back


def gone_back(program: str, room: str, at: int, mode: str, copy: str) -> Back:
    """Calls go-back over a store, with stand-ins for what it calls."""
    with open(f"{room}/count", "w", encoding="ascii") as it:
        it.write("0")
    env = {**SYSTEM, "PATH": f"{room}/bin:{SYSTEM['PATH']}", "ROOM": room, "AT": str(at), "MODE": mode, "OFFICE": f"{room}/bin/office", "REAL_OFFICE": program}
    ran = subprocess.run([f"{DEPLOY}/go-back", copy, f"{room}/at/season.db"], capture_output=True, env=env, umask=CALLERS_MASK, start_new_session=True, text=True)
    with open(f"{room}/count", encoding="ascii") as it:
        return ran, int(it.read())


def put_shims(room: str) -> None:
    os.makedirs(f"{room}/bin")
    for name in CALLED:
        with open(f"{room}/bin/{name}", "w", encoding="utf-8") as it:
            it.write(SHIM)
        os.chmod(f"{room}/bin/{name}", 0o755)


def store_and_copy(room: str, program: str) -> tuple[str, Rows, Rows]:
    """Makes a store in the folder `made`, a copy of it, and more answers in the store. Returns the copy's folder, and the rows of the store and of the copy."""
    put_shims(room)
    os.makedirs(f"{room}/made")
    answered(program, f"{room}/made", True, range(1, 6))
    called([f"{DEPLOY}/keep-copy", f"{room}/made/season.db", f"{room}/copies"], OFFICE=program)
    copy = f"{room}/copies/{os.listdir(f'{room}/copies')[0]}"
    answered(program, f"{room}/made", False, range(6, 8))
    old, new = (rows_of(program, f"{it}/season.db", f"{room}/look") for it in (f"{room}/made", copy))
    return copy, old, new


@part("go-back killed at each call", ["root"])
def back_killed(room: str, program: str) -> None:
    if not READS_STORES:
        tally.skips("go-back killed at each call", "SQLite 3.37 in Python")
        return
    copy, old, new = store_and_copy(room, program)
    tally.same((count_of(old), count_of(new)), (21, 15), "the store and the copy, each with its log")
    calls = None
    for mode in ("before", "in", "after"):
        at = 0
        while calls is None or at < calls:
            at += 1
            shutil.rmtree(f"{room}/at", ignore_errors=True)
            shutil.copytree(f"{room}/made", f"{room}/at")
            ran, _ = gone_back(program, room, at, mode, copy)
            if calls is None and ran.returncode == 0:
                calls = at - 1
                break
            odd = after_kill(program, room, old, new)
            ran, _ = gone_back(program, room, 0, "before", copy)
            came = rows_of(program, f"{room}/at/season.db", f"{room}/look")
            odd += [] if ran.returncode == 0 and came == new else [f"the next call: {ran.returncode} {ran.stderr} {came and len(came[1])}"]
            odd += [] if kept_aside(room) else ["the old store is nowhere"]
            tally.holds(not odd, f"go-back killed {mode} call {at}", f"{odd[:2]}")
    tally.holds(calls and calls > 15, "go-back is killed at many calls", f"{calls}")
    refusals(room, program, copy)


def after_kill(program: str, room: str, old: Rows, new: Rows) -> list[str]:
    """What is wrong with the store that a killed call left: it is the old one, or the copy, or there is none."""
    if not os.path.exists(f"{room}/at/season.db") or bytes_of(f"{room}/at/season.db") == bytes_of(f"{room}/made/season.db"):
        return []
    came = rows_of(program, f"{room}/at/season.db", f"{room}/look")
    return [] if came in (old, new) else [f"a start takes {came and len(came[1])} answers"]


def kept_aside(room: str) -> bool:
    """Whether the old store and its log are in the folders next to the store, byte by byte; two calls may have shared them out."""
    found = []
    for at, _, names in os.walk(f"{room}/at"):
        for name in names if "/replaced-" in at else []:
            with open(f"{at}/{name}", "rb") as it:
                found.append(it.read())
    return all(it in found for it in bytes_of(f"{room}/made/season.db"))


def refusals(room: str, program: str, copy: str) -> None:
    """go-back takes no copy that lacks a file."""
    spoils: tuple[tuple[str, Callable[[str], None]], ...] = (
        ("its log", lambda it: os.remove(f"{it}/season.db-wal")),
        ("of.txt", lambda it: os.remove(f"{it}/of.txt")),
        ("a part of its log", lambda it: os.truncate(f"{it}/season.db-wal", 5000)),
    )
    for label, spoil in spoils:
        wrong = f"{room}/wrong/{os.path.basename(copy)}"
        shutil.rmtree(f"{room}/wrong", ignore_errors=True)
        shutil.copytree(copy, wrong)
        spoil(wrong)
        shutil.rmtree(f"{room}/at", ignore_errors=True)
        shutil.copytree(f"{room}/made", f"{room}/at")
        ran, _ = gone_back(program, room, 0, "before", wrong)
        tally.holds(ran.returncode == 1 and "take another" in ran.stderr.lower() and sorted(os.listdir(f"{room}/at")) == sorted(os.listdir(f"{room}/made")), f"go-back refuses a copy without {label}", f"{ran}")
        check = subprocess.run([f"{DEPLOY}/keep-copy", "--check", f"{room}/wrong"], capture_output=True, text=True, env={**SYSTEM, "OFFICE": program})
        tally.holds(check.returncode == 1 and "no whole copy" in check.stderr and os.path.exists(f"{wrong}/refused.txt"), f"keep-copy --check refuses a copy without {label}", f"{check}")
