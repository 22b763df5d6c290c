"""The program at its edge: input and output that fail, stores that cannot be opened, and little memory. How the program ends there, and what it writes, is held
against docs/FORMATS.md; the other statuses are those of cases/."""
import contextlib
import functools
import os
import resource
import shutil
import signal
import sqlite3
import subprocess
import sys
import tempfile
import time
from typing import Any, Callable, Concatenate, Iterable, Iterator, Optional, ParamSpec

from cases import ROOMS, SECONDS

TOP = os.path.dirname(os.path.dirname(os.path.realpath(__file__)))
Given = ParamSpec("Given")
Fault = Optional[str]
# what was written to output and to standard error, and the status
Ended = tuple[bytes, bytes, int]
NO_STORE = (b"", b"cannot open store\n", 1)
# what runs as the superuser may write everywhere, so a file that may only be read is tried as nobody
NOBODY: dict[str, Any] = {"user": 65_534, "group": 65_534, "extra_groups": []} if os.geteuid() == 0 else {}


def ended(words: list[str], room: str, **how: Any) -> Ended:
    """What was written to output and to standard error, nothing where they are not looked at, and the status. The rest is for `subprocess.run`."""
    how = {"stdout": subprocess.PIPE, "stderr": subprocess.PIPE, **how}
    if "input" not in how and "stdin" not in how:
        how["stdin"] = subprocess.DEVNULL
    ran = subprocess.run(words, cwd=room, timeout=SECONDS, **how)
    return ran.stdout or b"", ran.stderr or b"", ran.returncode


def is_so(label: str, came: Ended, wanted: Ended) -> Fault:
    return None if came == wanted else f"{label}: {came[0]!r:.80}, standard error {came[1]!r:.80} and status {came[2]} came, and not {wanted[0]!r:.80}, {wanted[1]!r:.80} and {wanted[2]}"


def in_a_room(trial: Callable[Concatenate[str, Given], Fault]) -> Callable[Given, Fault]:
    """A trial in a folder of its own, in which every user may look."""

    @functools.wraps(trial)
    def tried(*given: Given.args, **more: Given.kwargs) -> Fault:
        with tempfile.TemporaryDirectory(prefix="edge-", dir=ROOMS) as room:
            os.chmod(room, 0o755)
            return trial(room, *given, **more)

    return tried


# ---- input and output


@in_a_room
def closed_input(room: str, program: str, bundle: bytes, words: list[str]) -> Fault:
    """The input is closed, and then one of which no byte can be read; where the words name a store, it has a season."""
    if words[0] == "resume":
        ended([program, "run", words[1]], room, input=bundle)
    closed = ended(["sh", "-c", 'exec "$0" "$@" <&-', program, *words], room)
    with open("/proc/self/mem", "rb") as it:
        unread = ended([program, *words], room, stdin=it)
    wanted = (b"fault: read\n", b"", 4)
    return is_so(f"{words}, with its input closed", closed, wanted) or is_so(f"{words}, with an input that cannot be read", unread, wanted)


@in_a_room
def full_output(room: str, program: str, given: bytes, words: list[str]) -> Fault:
    """The output has no room, and then it is closed."""
    with open("/dev/full", "wb") as it:
        full = ended([program, *words], room, input=given, stdout=it)
    closed = ended(["sh", "-c", 'exec "$0" "$@" >&-', program, *words], room, input=given)
    return is_so(f"{words}, with a full output", full, (b"", b"", 5)) or is_so(f"{words}, with its output closed", closed, (b"", b"", 5))


@in_a_room
def lost_replies(room: str, program: str, bundle: bytes) -> Fault:
    """Over a file each reply is given on at once: where the output has no room, the first request alone was answered. What it kept remains, and with all
    requests again the season goes on as where every reply was written."""
    with open("/dev/full", "wb") as it:
        lost = ended([program, "run", "lost.db"], room, input=bundle, stdout=it)
    with sqlite3.connect(f"{room}/lost.db") as connection:
        kept = sum(connection.execute("SELECT (SELECT count(*) FROM answer) + (SELECT count(*) FROM lift) + (SELECT sum(cuts) FROM phase)").fetchone())
    connection.close()
    told = ended([program, "run", "told.db"], room, input=bundle)
    again = ended([program, "resume", "lost.db"], room, input=bundle.partition(b"[requests]\n")[2])
    several = None if kept <= 1 else f"run over a file with a full output: {kept} requests were kept, and not the first alone"
    return is_so("run over a file with a full output", lost, (b"", b"", 5)) or several or is_so("resume after it, with all requests", again, told)


# ---- stores


@in_a_room
def not_a_store(room: str, program: str, bundle: bytes) -> Fault:
    """A folder, a file in no folder, a file of text, and one that may only be read."""
    os.mkdir(f"{room}/folder")
    with open(f"{room}/text", "w", encoding="utf-8") as it:
        it.write("these are the seats\n" * 500)
    for name in ("folder", "nowhere/season.db", "text"):
        for word in ("run", "resume"):
            fault = is_so(f"{word} {name}", ended([program, word, name], room, input=bundle), NO_STORE)
            if fault:
                return fault
    with open(f"{room}/text", encoding="utf-8") as it:
        return None if it.read() == "these are the seats\n" * 500 else "run text: the file of text was changed"


@in_a_room
def only_read(room: str, program: str, bundle: bytes) -> Fault:
    """A store that may only be read, and whose folder may only be read."""
    own = f"{room}/program"
    # copied by another process: a program that this one has open for writing is busy, also in each child that another thread is just starting
    subprocess.run(["cp", program, own], check=True)
    os.chmod(own, 0o755)
    ended([own, "run", "season.db"], room, input=bundle)
    os.chmod(f"{room}/season.db", 0o444)
    os.chmod(room, 0o555)
    came = ended([own, "resume", "season.db"], room, **NOBODY)
    os.chmod(room, 0o755)
    return is_so("resume of a store that may only be read", came, NO_STORE)


def is_locked(path: str) -> bool:
    """Whether some program has a lock on a file: the system lists it by the file's number, where it lists locks at all."""
    number = os.stat(path).st_ino
    with contextlib.suppress(OSError), open("/proc/locks", encoding="ascii") as table:
        return any(field.endswith(f":{number}") for line in table for field in line.split())
    return False


def has_open(office: subprocess.Popen[bytes], path: str) -> bool:
    """Whether a running program has opened a file."""
    folder = f"/proc/{office.pid}/fd"
    with contextlib.suppress(OSError):
        return any(os.path.realpath(f"{folder}/{it}").endswith(f"/{os.path.basename(path)}") for it in os.listdir(folder))
    return False


def with_the_store(room: str, program: str) -> subprocess.Popen[bytes]:
    """A running office that has the store of the room, whose requests have not ended: it has opened the file and locked it. Where the system lists no locks,
    the office gets a second for it."""
    store = f"{room}/season.db"
    for _ in range(20):
        office = subprocess.Popen([program, "resume", "season.db"], cwd=room, stdin=subprocess.PIPE, stdout=subprocess.PIPE)
        opened: Optional[float] = None
        while office.poll() is None:
            opened = opened or (time.monotonic() if has_open(office, store) else None)
            if opened and (is_locked(store) or time.monotonic() > opened + 1):
                return office
            time.sleep(0.005)
    raise OSError("no office has the store")


@in_a_room
def open_elsewhere(room: str, program: str, bundle: bytes) -> Fault:
    """A store that another program has: the office itself, and one that writes; and once they have ended, it goes on."""
    ended([program, "run", "season.db"], room, input=bundle)
    words, asks = [program, "resume", "season.db"], {"input": b"state,nobody\n"}
    told = ended(words, room, **asks)
    office = with_the_store(room, program)
    came = ended(words, room, **asks)
    office.communicate(b"")
    fault = is_so("resume of a store that another office has", came, NO_STORE)
    if fault or office.returncode:
        return fault or f"resume while another has the store: ended with status {office.returncode}"
    connection = sqlite3.connect(f"{room}/season.db", isolation_level=None)
    try:
        connection.execute("BEGIN EXCLUSIVE")
        came = ended(words, room, **asks)
    finally:
        connection.close()
    return is_so("resume of a store that is being written", came, NO_STORE) or is_so("resume after that", ended(words, room, **asks), told)


def crashed_store(room: str, program: str, candidates: int = 200) -> list[bytes]:
    """The bytes of a store and of its log, which a killed run left, with frames in the log.
    A run that ended well before it was killed leaves none, so a season of twice as many candidates is run then."""
    bundle, path = ended([program, "generate", str(candidates), "7", "text"], room)[0], f"{room}/season.db"
    with tempfile.TemporaryFile() as source:
        source.write(bundle)
        source.seek(0)
        office = subprocess.Popen([program, "run", "season.db"], cwd=room, stdin=source, stdout=subprocess.DEVNULL)
    # the season is kept first, in one commit
    least = 300_000 + 2 * len(bundle)
    while office.poll() is None and (not os.path.exists(f"{path}-wal") or os.path.getsize(f"{path}-wal") < least):
        time.sleep(0.002)
    office.kill()
    if office.wait() or candidates > 10_000:
        return bytes_of(path)
    for it in (path, f"{path}-wal"):
        os.remove(it)
    return crashed_store(room, program, 2 * candidates)


def bytes_of(path: str) -> list[bytes]:
    """The bytes of a store and of its log."""
    found = []
    for name in (path, f"{path}-wal"):
        with open(name, "rb") as it:
            found.append(it.read())
    return found


def with_files(path: str, files: Iterable[bytes]) -> None:
    """Makes a store and its log of these bytes."""
    for name, content in zip((path, f"{path}-wal"), files):
        with open(name, "wb") as it:
            it.write(content)


@in_a_room
def damaged_head(room: str, program: str, _bundle: bytes) -> Fault:
    """The log of a killed run with one damaged bit in each byte of its head or in its first page, with zeros there, or cut within it: the store is refused and
    neither file changes.
    Undamaged it resumes, and so does the store with all that the log held, next to that log with a first byte of 0: a checkpoint that was cut short leaves it so."""
    path, (store, log) = f"{room}/season.db", crashed_store(room, program)
    heads = [log[:at] + bytes([log[at] ^ 1 << at % 8]) + log[at + 1:] for at in (*range(32), 1_000)]
    for head in [*heads, bytes(512) + log[512:], log[:20]]:
        with_files(path, (store, head))
        came = ended([program, "resume", "season.db"], room, input=b"")
        fault = is_so("resume of a store whose log is damaged", came, NO_STORE)
        if fault or bytes_of(path) != [store, head]:
            return fault or "resume of a store whose log is damaged: a file was changed"
    with_files(path, (store, log))
    asks = {"input": b"state,nobody\n"}
    told = ended([program, "resume", "season.db"], room, **asks)
    with_files(path, (bytes_of(path)[0], b"\0" + log[1:]))
    again = ended([program, "resume", "season.db"], room, **asks)
    return is_so("resume of a store that a killed run left", told, (told[0], b"", 0)) or is_so("resume of one whose checkpoint was cut short", again, told)


# ---- memory and disk


@in_a_room
def little_memory(room: str, program: str, bundle: bytes) -> Fault:
    """A bundle for which there is no memory, in the least room in which a small one is read."""
    for room_for in (1 << power for power in range(24, 29)):
        limited = functools.partial(resource.setrlimit, resource.RLIMIT_AS, (room_for, room_for))
        if ended([program, "check"], room, input=bundle, preexec_fn=limited)[2] == 0:
            large = bundle + b"\n" * (2 * room_for)
            return is_so("check in little memory", ended([program, "check"], room, input=large, preexec_fn=limited), (b"fault: memory\n", b"", 7))
    return "check in little memory: a small bundle wants 256 MiB"


def files_end_at(size: int) -> None:
    """No file grows beyond this size, as where the disk is full: a write past it gives an error."""
    signal.signal(signal.SIGXFSZ, signal.SIG_IGN)
    resource.setrlimit(resource.RLIMIT_FSIZE, (size, size))


def rows_of(path: str) -> list[list[tuple[Any, ...]]]:
    """All rows of a store, table by table."""
    connection = sqlite3.connect(path)
    try:
        return [connection.execute(f"SELECT * FROM {name} ORDER BY 1, 2").fetchall() for name in ("season", "answer", "lift", "allot", "phase")]
    finally:
        connection.close()


@in_a_room
def full_disk(room: str, program: str) -> Fault:
    """The disk is full at one size after another, up to one with room for all of a generated season: the store is not opened, or its keeper fails after
    replies that are those of the season. With room it then goes on with all requests to the rows of a season that always had some."""
    bundle = ended([program, "generate", "60", "7", "text"], room)[0]
    told = ended([program, "run", "told.db"], room, input=bundle)
    requests, rows = bundle.partition(b"[requests]\n")[2], rows_of(f"{room}/told.db")
    for size in (0, *(1 << power for power in range(12, 25))):
        name = f"{size}.db"
        came = ended([program, "run", name], room, input=bundle, preexec_fn=functools.partial(files_end_at, size))
        if came[2] == 0:
            return is_so(f"run where there is room for {size} bytes", came, told)
        replies = came[0].removesuffix(b"fault: keeper\n")
        if came[2] not in (1, 6) or not told[0].startswith(replies) or (came[2] == 1 and came != NO_STORE):
            return f"run on a disk with room for {size} bytes: {came[0]!r:.80}, standard error {came[1]!r:.80} and status {came[2]} came"
        again = ended([program, "resume", name], room, input=requests)
        if again[2] == 3 and not replies:
            again = ended([program, "run", name], room, input=bundle)
        if again[2] != 0 or rows_of(f"{room}/{name}") != rows:
            return f"resume where there was room for {size} bytes: status {again[2]} came, or other rows are kept"
    return "run on a full disk: a season of 60 candidates wants more than 16 MiB"


# ---- the launcher


@in_a_room
def launcher_forms(room: str, words: list[str], lacks: bytes) -> Fault:
    """Words of no command: the launcher says what they lack and prints the forms, without any proof."""
    _, said, status = ended([f"{TOP}/office", *words], room)
    wants = [lacks, b"    ./office run STORE ", b"    ./office try WORDS.. "]
    return None if status == 2 and all(it in said for it in wants) else f"./office {' '.join(words)}: ended with status {status} and printed {said!r:.200}"


@in_a_room
def launcher_help(room: str, word: str) -> Fault:
    """The forms, when they are asked for."""
    wrote, said, status = ended([f"{TOP}/office", word], room)
    return None if (status, said) == (0, b"") and b"    ./office run STORE " in wrote else f"./office {word}: ended with status {status} and printed {wrote!r:.200}"


def launcher_of(room: str, program: Optional[str]) -> str:
    """A launcher of its own, for which the program is the built one, and the season program too; none has sources."""
    if program:
        for name in ("allocation_cli", "season_program"):
            os.makedirs(f"{room}/crates/{name}/out")
            os.symlink(program, f"{room}/crates/{name}/out/{name}")
    os.makedirs(f"{room}/crates", exist_ok=True)
    with open(f"{room}/crates.txt", "w", encoding="ascii"):
        pass
    os.utime(f"{room}/crates.txt", (0, 0))
    shutil.copytree(f"{TOP}/tools", f"{room}/tools")
    shutil.copy(f"{TOP}/office", f"{room}/office")
    return f"{room}/office"


@in_a_room
def launcher_without_kit(room: str, words: list[str]) -> Fault:
    """Neither a program nor the kit: the launcher says what is missing first, and advises nothing that cannot work."""
    office = launcher_of(room, None)
    os.makedirs(f"{room}/bin")
    _, said, status = ended([sys.executable, office, *words], room, env={"PATH": f"{room}/bin"})
    return None if status == 1 and b"the kit is missing" in said and b"office try" not in said else f"./office {' '.join(words)} without the kit: ended with status {status} and printed {said!r:.300}"


@in_a_room
def launcher_explains(room: str, program: str, bundle: bytes, words: list[str]) -> Fault:
    """An input with a fault: the output is the program's, and the launcher shows the row and the field; a store is left as it is."""
    office, wrong = launcher_of(room, program), bundle.replace(b"2,GEN,-,", b"2,general,-,", 1)
    with open(f"{room}/bundle.txt", "wb") as it:
        it.write(wrong)
    with open(f"{room}/bundle.txt", "rb") as it:
        wrote, said, status = ended([sys.executable, office, *words], room, stdin=it)
    if (wrote, status) != (b"fault: register row 3 BadCategory\n", 3):
        return f"./office {' '.join(words)}: ended with status {status} and wrote {wrote!r:.100}"
    if b"category is `general`: a category is GEN" not in said or b"tok00002" in said:
        return f"./office {' '.join(words)}: it explains a fault by {said!r:.300}"
    piped = ended([sys.executable, office, *words], room, input=wrong)
    return None if piped[2] == 3 and b"tools/explain" in piped[1] else f"./office {' '.join(words)}: of a pipe it says {piped[1]!r:.300}"


def trials(program: str, bundle: bytes, sheet: bytes) -> Iterator[Callable[[], Fault]]:
    """What is tried, each a call that gives a fault or None."""
    for words in (["step"], ["check"], ["run", "memory"], ["run", "season.db"], ["resume", "season.db"]):
        yield functools.partial(closed_input, program, bundle, words)
    for given, words in ((sheet, ["step"]), (bundle, ["check"]), (bundle, ["run", "memory"]), (b"", ["generate", "2", "1", "text"]), (b"", ["generate", "2", "1", "run"]), (b"", ["nothing"])):
        yield functools.partial(full_output, program, given, words)
    for trial in (lost_replies, not_a_store, only_read, open_elsewhere, damaged_head, little_memory):
        yield functools.partial(trial, program, bundle)
    yield functools.partial(full_disk, program)
    yield from launcher_trials(program, bundle)


def launcher_trials(program: str, bundle: bytes) -> Iterator[Callable[[], Fault]]:
    """What is tried of the launcher."""
    for words, lacks in (
        ([], b"no command was given"),
        (["nothing"], b"there is no command `nothing`"),
        (["run"], b"`run` needs STORE: `memory` or a file"),
        (["serve", "9", "2", "new", "80"], b"needs STORE: `memory` or a file"),
        (["generate", "9"], b"needs SEED (0 to 4,294,967,295), `text` or `run`"),
        (["check", "it"], b"but as `check`"),
        (["try"], b"no command was given"),
        (["try", "step", "now"], b"but as `step`"),
    ):
        yield functools.partial(launcher_forms, words, lacks)
    for word in ("--help", "help"):
        yield functools.partial(launcher_help, word)
    for words in (["check"], ["try", "check"], ["serve", "9", "2", "new", "80", "memory"]):
        yield functools.partial(launcher_without_kit, words)
    for words in (["check"], ["run", "memory"], ["run", "season.db"]):
        yield functools.partial(launcher_explains, os.path.abspath(program), bundle, words)
