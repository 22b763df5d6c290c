"""The tools of tools/, held against cases/tools/season.txt, docs/FORMATS.md, the faults of cases/, and drawn seasons.

Without a program: the limits of tools/formats.py, tools/season on written and drawn spreadsheets, and tools/explain on each fault of cases/;
and a board's own sheets (checks/board_trials.py).
Over a program: it accepts what tools/season made; tools/sheet gives sheets on which `step` writes the published lists, and of a broken list the line and
the reason; and a dossier without its tokens has the verdict of the one with them."""
import concurrent.futures
import csv
import functools
import importlib.machinery
import importlib.util
import io
import os
import re
import stat
import subprocess
import sys
import tempfile
from concurrent.futures import Executor
from typing import Callable, Iterable, Iterator, Optional, Sequence

import board_trials
import cases
from plain_audit import verdict
from plain_office import STEPS
from plain_special import drawn_season
from plain_trials import Draw, in_order
from table_trials import came_of

TOP = os.path.dirname(os.path.dirname(os.path.realpath(__file__)))
sys.path.append(f"{TOP}/tools")

from bundles import plain_bundle
import explain_table
import formats
from faults import FINDERS

EVERY = "every season"
# tools/explain as a module: it is asked some hundred times
LOADER = importlib.machinery.SourceFileLoader("explain", f"{TOP}/tools/explain")
SPEC = importlib.util.spec_from_loader("explain", LOADER)
assert SPEC
EXPLAIN = importlib.util.module_from_spec(SPEC)
LOADER.exec_module(EXPLAIN)


def text_of(name: str) -> str:
    with open(f"{TOP}/{name}", encoding="utf-8") as it:
        return it.read()


def called(tool: str, words: Sequence[str], given: bytes = b"", **more: str) -> tuple[bytes, str, int]:
    """Runs a tool; returns its output, what it said, and its status."""
    ran = subprocess.run([sys.executable, f"{TOP}/tools/{tool}", *words], input=given, capture_output=True, timeout=cases.SECONDS, env={**os.environ, **more})
    return ran.stdout, ran.stderr.decode(errors="replace"), ran.returncode


# ---- limits and words


def limits() -> Iterator[str]:
    """The limits of the tools are those of docs/FORMATS.md."""
    body, of, known = text_of("docs/FORMATS.md").partition("\n## All limits\n")[2].partition("\n## ")[0], "", {}
    for cells in (list(map(str.strip, line.strip("|").split("|"))) for line in body.splitlines() if line.startswith("| ")):
        of = cells[0] or of
        known[of, cells[1]] = tuple(int(it.replace(",", "") or 0) for it in cells[2:4] if re.fullmatch("[0-9,]*", it))
    for it in vars(formats).values():
        if isinstance(it, formats.Limit):
            there = known.get((it.of, it.what))
            if there != (it.least, it.most):
                yield f"tools/formats.py: {it.of}, {it.what}: {it.least} to {it.most}, and docs/FORMATS.md has {there}"


def kinds() -> Iterator[str]:
    """Each kind of fault of docs/FORMATS.md is one that tools/explain knows."""
    text = text_of("docs/FORMATS.md")
    for section, title in (("register", "The merit register"), ("matrix", "The seat matrix"), ("choices", "The choice lists")):
        rows = re.findall(r"^\| [0-9, ]+ \| ([A-Z]\w+(?:, [A-Z]\w+)*) \|", text.partition(f"\n### {title}\n")[2].partition("\n### ")[0], re.M)
        for kind in (it for row in rows for it in row.split(", ")):
            if (section, kind) not in FINDERS:
                yield f"tools/explain: it does not know the fault {kind} of the {section}"
    lines = text.partition("\n### Fault lines\n")[2].partition("\n## ")[0]
    for line in re.findall(r"`(fault: [^`]+)`", lines):
        given = re.sub(r"\b[RCN]\b", "1", line).replace("KIND", {"sheet": "BadLine", "register": "BadId", "matrix": "BadCode", "choices": "TooLong"}.get(line.split()[1], ""))
        if EXPLAIN.explained(given, b"") is None:
            yield f"tools/explain: it does not know the line `{given}`"


def requests() -> Iterator[str]:
    """Each request of docs/FORMATS.md is one that tools/explain knows."""
    rows = re.findall(r"^\| `(\w+),BY((?:,[A-Z]+)*)` \|", text_of("docs/FORMATS.md"), re.M)
    for kind, fields in rows:
        if formats.REQUESTS.get(kind) != tuple(filter(None, fields.split(","))):
            yield f"tools/formats.py: a request {kind} has the fields {formats.REQUESTS.get(kind)}, and in docs/FORMATS.md{fields}"


# ---- written spreadsheets

# up to that many drawn seasons, a tenth of the spoiled sheets is tried
FEW = 10
# what a bundle says: its first line, then season, register, matrix, and the choices by candidate
Said = tuple[list[list[str]], list[list[str]], list[list[str]], list[list[str]], dict[str, list[str]]]
# what clerks get wrong most often: words of the name of at least one case each
MISTAKES = ("semicolons", "quote", "UTF-16", "F for female", "DW", "PwD", "numbers of 12 digits", "repeated places", "unknown codes", "long choices")

# spreadsheets by their names: how each is written, and its lines
Files = dict[str, tuple[str, list[str]]]


class Written:
    """A case of cases/tools/season.txt."""

    def __init__(self, name: str) -> None:
        self.name, self.status = name, 0
        self.words: list[str] = []
        self.files: Files = {}
        self.bundle: list[str] = []
        self.said: list[str] = []
        self.unsaid: list[str] = []


def written_cases() -> list[Written]:
    """Reads the cases."""
    found: list[Written] = []
    case, file = Written("before the first"), ""
    for line in text_of("cases/tools/season.txt").partition("\n\n")[2].splitlines():
        mark, _, rest = line.partition(" ")
        if mark == "#":
            case = Written(rest)
            found.append(case)
        elif mark == "f":
            file, _, how = rest.partition(" ")
            case.files[file] = (how or "utf-8", [])
        elif mark == ">":
            case.files[file][1].append(cases.unescaped(rest).decode("latin-1" if "\\x" in rest else "utf-8"))
        elif mark == "$":
            case.words = rest.split()
        elif mark == "?":
            case.status = int(rest)
        elif line:
            {"<": case.bundle, "!": case.said, "-": case.unsaid}[mark].append(rest)
    return found


def put_files(room: str, files: Files) -> None:
    for name, (how, lines) in files.items():
        if how == "missing":
            continue
        if how == "long":
            lines, how = [*lines, f"1{',A' * 1001}"], "utf-8"
        with open(f"{room}/{name}", "w", encoding=how, newline="") as it:
            it.write("".join(f"{line}\n" for line in lines))


def fault_of_case(case: Written, every: Written) -> Optional[str]:
    """Why tools/season does otherwise than a case says, or None."""
    with tempfile.TemporaryDirectory(prefix="season-", dir=cases.ROOMS) as room:
        put_files(room, {**every.files, **case.files})
        wrote, said, status = called("season", [*case.words, room])
        lines = wrote.decode().split("\n")
        lacks = [f"the bundle lacks `{it}`" for it in case.bundle if it not in lines] + [f"it does not say `{it}`" for it in case.said if it not in said]
        lacks += [f"it says `{it}`" for it in case.unsaid if it in said]
        if status != case.status:
            lacks.append(f"the status is {status} and not {case.status}: {said[-300:]}")
        if status and wrote:
            lacks.append("it wrote a bundle")
        secret = [it for it in re.findall(r"token0\w{10,}", repr(case.files)) if it in said]
        return f"tools/season, {case.name}: {lacks[0]}" if lacks else f"tools/season, {case.name}: it shows a token" if secret else None


def saved_again(room: str) -> set[bytes]:
    """Returns the bundles that tools/season makes after the file of tokens was saved in other ways: with semicolons, as UTF-16, as Windows writes letters."""
    found = set()
    with open(f"{room}/tokens.csv", encoding="utf-8-sig", newline="") as it:
        rows = [*csv.reader(it)]
    with open(f"{room}/tokens.csv", "rb") as it:
        before = it.read()
    for how, sign in (("utf-8", ";"), ("utf-16", "\t"), ("cp1252", ",")):
        out = io.StringIO(newline="")
        csv.writer(out, delimiter=sign).writerows(rows)
        with open(f"{room}/tokens.csv", "wb") as it:
            it.write(out.getvalue().encode(how))
        found.add(called("season", [room])[0])
    with open(f"{room}/tokens.csv", "wb") as it:
        it.write(before)
    return found


def tokens() -> Iterator[str]:
    """Tokens are made by chance, stay the same at a second call, and are for their owner alone, with the columns that were left out."""
    with tempfile.TemporaryDirectory(prefix="season-", dir=cases.ROOMS) as room:
        put_files(room, written_cases()[0].files)
        with open(f"{room}/register.csv", "w", encoding="utf-8") as it:
            it.write("id,category,traits,m1,m2,E-Mail\n1,GEN,-,1,,a@example\n2,OBC,W,2,1,b@example\n3,SC,-,3R,,\n")
        first, _, _ = called("season", [room])
        again, said, _ = called("season", [room])
        with open(f"{room}/tokens.csv", encoding="utf-8-sig", newline="") as it:
            rows = [*csv.reader(it)]
        again_in_books = saved_again(room)
        mode = stat.S_IMODE(os.stat(f"{room}/tokens.csv").st_mode)
        with open(f"{room}/other.csv", "w", encoding="utf-8") as it:
            it.write("name\nx\n")
        other = called("season", ["--tokens", f"{room}/other.csv", room])
    made = [row[1] for row in rows[2:]]
    if first != again or "3 are of an earlier call" not in said:
        yield "tools/season: a second call makes other tokens"
    if again_in_books != {first}:
        yield f"tools/season: a file of tokens that a spreadsheet program saved again gives {len(again_in_books)} bundles, or another one"
    if mode != 0o600 or rows[0] != ["candidate", "token", "number", "application_number", "name", "E-Mail"] or rows[2][2:] != ["1", "", "", "a@example"]:
        yield f"tools/season: the file of tokens has mode {mode:o} and the rows {rows[:1]}"
    if len(set(made)) != 3 or not all(re.fullmatch("[a-hjkmnp-z][2-9a-hjkmnp-z]{15}", it) and it.encode() in first for it in made):
        yield "tools/season: a token is not 16 signs by chance that nobody confuses"
    if other[2] != 3 or other[0]:
        yield "tools/season: it takes a file for tokens that has none"


# ---- drawn spreadsheets


def spreadsheet(draw: Draw, header: Sequence[str], rows: Iterable[Sequence[str]]) -> bytes:
    """Returns rows as a spreadsheet may write them: columns in any order and one of its own, quotes, empty rows, and some other signs between the fields."""
    columns = [*range(len(header))]
    for at in range(len(columns) - 1, 0, -1):
        other = draw.below(at + 1)
        columns[at], columns[other] = columns[other], columns[at]
    out = io.StringIO(newline="")
    writer = csv.writer(out, delimiter=",;\t"[draw.below(3)], quoting=(csv.QUOTE_MINIMAL, csv.QUOTE_ALL)[draw.below(2)], lineterminator=("\n", "\r\n")[draw.below(2)])
    writer.writerow([*(header[at] for at in columns), "Name"])
    for row in rows:
        writer.writerow([*(row[at] for at in columns), "North, A; \"B\"\tC"])
        if draw.below(4) == 0:
            writer.writerow([""] * (len(columns) + 1))
    how = ("utf-8", "utf-8-sig", "utf-16", "utf-16-le")[draw.below(4)]
    return out.getvalue().encode(how)


def spoken(bundle: bytes) -> Said:
    """Returns what a bundle says, table by table, in one spelling."""
    text = bundle.decode().removeprefix("\ufeff")
    found: dict[str, list[list[str]]] = {}
    name = "first"
    for line in text.splitlines():
        if line.startswith("["):
            name = line.rstrip(",").strip("[]")
            continue
        fields = line.rstrip(",").split(",")
        if fields != [""]:
            found.setdefault(name, []).append(fields)
    matrix = [row + ["0"] * (11 - len(row)) for row in found["matrix"][1:]]
    other = {"GEN-EWS": "EWS", "OBC-NCL": "OBC"}
    register = [[row[0], other.get(row[1], row[1]), *row[2:]] for row in found["register"][1:]]
    matrix = [[*row[:3], other.get(row[3], row[3]), *(it or "0" for it in row[4:])] for row in matrix]
    return found["first"], sorted(found["season"]), register, matrix, {row[0]: row[1:] for row in found["choices"][1:] if len(row) > 1}


def put_drawn(draw: Draw, room: str, said: Said) -> None:
    """Writes a season as three spreadsheets and its settings, the choices long or wide."""
    first, season, register, matrix, lists = said
    files = {
        "season.csv": "".join(f"{','.join(row)}\n" for row in [*season, ["version", first[0][0][-1]]]).encode(),
        "register.csv": spreadsheet(draw, formats.HEADERS["register"], [(row + [""] * 8)[:8] for row in register]),
        "matrix.csv": spreadsheet(draw, formats.HEADERS["matrix"], matrix),
    }
    if draw.below(2):
        rows = [[cand, str(at), code] for cand, codes in lists.items() for at, code in enumerate(codes, 1)]
        files["choices.csv"] = spreadsheet(draw, ("candidate", "preference", "programme"), rows[::-1])
    else:
        files["choices.csv"] = "".join(f"{it}\n" for it in ["candidate,programmes", *(",".join([cand, *codes]) for cand, codes in lists.items())]).encode()
    for name, data in files.items():
        with open(f"{room}/{name}", "wb") as it:
            it.write(data)


def drawn(count: int) -> Iterator[str]:
    """Seasons that are written as spreadsheets in drawn forms come back as they were."""
    draw = Draw(58)
    for number in range(count):
        said = spoken(drawn_season(draw, in_order).partition("[requests]")[0].encode())
        with tempfile.TemporaryDirectory(prefix="season-", dir=cases.ROOMS) as room:
            put_drawn(draw, room, said)
            wrote, told, status = called("season", ["--yes", room])
        if status or spoken(wrote) != said:
            yield f"tools/season, drawn season {number}: status {status}, {told[-200:] if status else 'and it says otherwise'}"


# ---- faults


def faults_of_cases() -> Iterator[tuple[str, bytes, str]]:
    """Gives each input of cases/ that has a fault, with the line of the fault."""
    for case in cases.read(f"{TOP}/cases")[0]:
        for call in case.steps:
            if not isinstance(call, str) and call.status in (3, 9) and len(call.piped) == 1 and sum(map(len, call.source)) < 1_000_000:
                yield case.label, b"".join(call.source), b"".join(call.wanted).decode().strip()


def fault_of_explaining(label: str, given: bytes, line: str) -> Optional[str]:
    """Why tools/explain does not explain a fault line, or None."""
    found = EXPLAIN.explained(line, given)
    text = "\n".join(found.lines) if found else ""
    kind = re.sub(r"[0-9]+", "N", line.removeprefix("fault: "))
    form = next((it for known, it in explain_table.FORMS.items() if re.fullmatch(known, kind)), None)
    if form is None or not re.search(form, text, re.S):
        return f"tools/explain, {label}: {line}: {text!r:.300} and not {form!r}"
    return f"tools/explain, {label}: it shows a token" if re.search(r"tok\d{5}|clerk0001", text) else None


def explaining() -> Iterator[str]:
    """Why tools/explain, called, does not explain a line from its input and from its words, or None."""
    given = b"office bundle 1\n[season]\nrounds,11\n"
    wanted = b"fault: season row 1 BadSeason\nline 3, row 1 of [season]: rounds,11\nrounds is `11`: rounds are 1 to 10\n"
    with tempfile.TemporaryDirectory(prefix="explain-", dir=cases.ROOMS) as room:
        with open(f"{room}/bundle.txt", "wb") as it:
            it.write(given)
        came = [
            called("explain", ["-", "fault: season row 1 BadSeason"], given),
            called("explain", [f"{room}/bundle.txt", "fault:", "season", "row", "1", "BadSeason"]),
            called("explain", [f"{room}/bundle.txt"], b"fault: season row 1 BadSeason\n"),
        ]
        calls: list[list[str]] = [[f"{room}/bundle.txt", "fault: nothing"], [], [f"{room}/none", "fault: read"], ["--help"]]
        others = [called("explain", words)[2] for words in calls]
    if any(it != (wanted, "", 0) for it in came) or others != [3, 2, 1, 0]:
        yield f"tools/explain: it writes {came[0][0]!r:.200}, and the statuses of other calls are {others}"


def without_program() -> Iterator[str]:
    """Why tools/dossier and tools/sheet do not say that the program of OFFICE is not there, or None."""
    for tool, words in (("dossier", ["examples/audited/dossier.txt"]), ("sheet", ["examples/audited/dossier.txt", "1", "P1", "OPEN"])):
        wrote, said, status = called(tool, [f"{TOP}/{words[0]}", *words[1:]], OFFICE="/nowhere/office")
        if wrote or status != 1 or said != "office: /nowhere/office cannot be called: No such file or directory\n":
            yield f"tools/{tool} without a program: status {status}, {said[-200:]}"


def explained(lanes: Executor) -> list[str]:
    given = [*faults_of_cases()]
    met = {re.sub("[0-9]+", "N", line.removeprefix("fault: ")) for _, _, line in given}
    lost = [it for it in explain_table.FORMS if it not in explain_table.RARE and not any(re.fullmatch(it, kind) for kind in met)]
    return [*(it for it in lanes.map(lambda it: fault_of_explaining(*it), given) if it), *(f"tools/explain: no case has the fault {it}" for it in lost)]


def faults(count: int) -> list[str]:
    """All that is looked at without a program, with that many drawn seasons."""
    every, *others = written_cases()
    with concurrent.futures.ThreadPoolExecutor(os.cpu_count()) as lanes:
        found = [*limits(), *requests(), *kinds(), *tokens(), *drawn(count), *explaining(), *without_program(), *explained(lanes)]
        found += [f"cases/tools/season.txt: no case is named after {it}" for it in MISTAKES if not any(it in case.name for case in others)]
        found += [*board_trials.faults(), *(it for it in lanes.map(came_of, board_trials.spoiled()[:: 1 if count > FEW else 10]) if it)]
        return found + [it for it in lanes.map(lambda case: fault_of_case(case, every), [every, *others]) if it]


# ---- over a program


def made_by_season(program: str, name: str, words: Sequence[str]) -> Optional[str]:
    """Why the program does not take what tools/season makes of a case, or None."""
    every, *others = written_cases()
    case = next(it for it in [every, *others] if it.name == name)
    with tempfile.TemporaryDirectory(prefix="season-", dir=cases.ROOMS) as room:
        put_files(room, {**every.files, **case.files})
        wrote, _, _ = called("season", [*words, room])
    if b"\n[states]\n" in wrote:
        wrote = plain_bundle(lambda given, data: cases.called(program, given, data, "/"), wrote)
    counts, status = cases.called(program, ["check"], wrote, "/")
    return None if status == 0 and counts.startswith(b"bundle candidates ") else f"tools/season, {name}: check writes {counts!r:.80} with status {status}"


def dossier_of(program: str, bundle: bytes, words: Sequence[str] = ()) -> tuple[bytes, str, int]:
    with tempfile.TemporaryDirectory(prefix="dossier-", dir=cases.ROOMS) as room:
        with open(f"{room}/bundle.txt", "wb") as it:
            it.write(bundle)
        return called("dossier", [*words, f"{room}/bundle.txt"], OFFICE=program)


def published_step(published: str, number: int, code: str, step: str) -> str:
    """Returns the lines of a step in a published list, as the command on a sheet writes them."""
    body = re.search(rf"^list {number} {code}\n(.*?)^end list$", published, re.M | re.S)
    assert body, f"there is no list {number} {code}"
    found = re.search(rf"^step {step} (.*)\n((?:(?!step ).*\n)*)", body[1], re.M)
    assert found, f"list {number} {code} has no step {step}"
    first, lines = found.groups()
    return f"step {first}\n{lines}end\n"


def fault_of_sheet(program: str, dossier: bytes, number: int, code: str, step: str) -> Optional[str]:
    """Why the sheet of a step is not one on which `step` writes the published list, or None. The tool itself compares; here it is compared once more."""
    with tempfile.TemporaryDirectory(prefix="sheet-", dir=cases.ROOMS) as room:
        with open(f"{room}/dossier.txt", "wb") as it:
            it.write(dossier)
        wrote, said, status = called("sheet", [f"{room}/dossier.txt", str(number), code, step], OFFICE=program)
    wanted = published_step(dossier.decode(), number, code, step).encode()
    came = cases.called(program, ["step"], wrote, "/")
    return None if came == (wanted, 0) else f"tools/sheet {number} {code} {step}: status {status}, {said.strip()[-100:]}, and step writes {came[0]!r:.100}"


def sheets(program: str, bundle: bytes, most: int) -> Optional[str]:
    """Why a sheet of a published step of a season is not right, or None. It looks at that many steps, one after another through all rounds."""
    dossier, _, _ = dossier_of(program, bundle)
    steps = [(int(number), code, step) for number, code in re.findall(r"^list (\d+) (\S+)$", dossier.decode(), re.M) for step in STEPS]
    apart = max(len(steps) // most, 1) | 1
    return next(filter(None, (fault_of_sheet(program, dossier, *it) for it in steps[::apart])), None) if steps else "tools/dossier: it gives no list"


def changed_list(program: str) -> Optional[str]:
    """Why a dossier in whose list a better candidate gave way gives a sheet, or None."""
    with open(f"{TOP}/examples/audited/overtaken.txt", "rb") as it:
        dossier = it.read()
    found = re.search(r"^list (\d+) (\S+)\nstep (\S+) ", dossier.decode(), re.M)
    assert found, "the dossier has no list"
    number, code, step = found.groups()
    with tempfile.TemporaryDirectory(prefix="sheet-", dir=cases.ROOMS) as room:
        with open(f"{room}/dossier.txt", "wb") as it:
            it.write(dossier)
        came = [called("sheet", [f"{room}/dossier.txt", number, code, each], OFFICE=program) for each in ("OPEN", "D")]
        absent = called("sheet", [f"{room}/dossier.txt", "9", code, step], OFFICE=program)
    if 10 not in [status for _, _, status in came] or any(wrote for wrote, _, status in came if status):
        return f"tools/sheet of a changed list: the statuses are {[status for _, _, status in came]}"
    return None if absent[2] == 3 else f"tools/sheet of a round that is not there: status {absent[2]}"


# changes of what examples/audited/dossier.txt publishes, each with the step that is asked for and what the tool says of it
BROKEN_LISTS = (
    (r"^(list 1 P1\nstep OPEN .*\nhonoured .*\n\d+) .$", r"\1", "OPEN", "a line of a list is `step` with its numbers"),
    (r"^step OPEN seats 2", "step OPEN seats 3", "OPEN", "`step` writes `step OPEN seats 2 candidates 5 admitted 2` here"),
    (r"^step OPEN seats 2 .*\n", "", "OPEN", "a line of a list is `step` with its numbers"),
    (r"^step SC .*\n", "", "SC", "this list has no line `step SC ..`"),
    (r"^end list\n", "", "OPEN", "this text has no line `end list`"),
    (r"^allot 1 P1 OPEN$", "allot 1 P1", "OPEN", "a line of a round is `allot`"),
    (r"^(step OPEN .*\nhonoured .*\n(?:\d+ .\n)*)\d+ .\n", r"\1", "OPEN", "after it"),
    (r"^(step OPEN .*\nhonoured .*\n(?:\d+ .\n)*)", r"\g<1>9 -\n", "OPEN", "`step` does not write this line"),
    (r"^(step OBC .*) admitted \d+$", r"\1 admitted 9", "D", "a step admits no more than its seats"),
)


def broken_lists(program: str) -> Optional[str]:
    """Why a sheet is written of a list that is broken, or the line and the reason are not said, or None."""
    dossier = text_of("examples/audited/dossier.txt")
    for form, instead, step, why in BROKEN_LISTS:
        changed, count = re.subn(form, instead, dossier, count=1, flags=re.M)
        with tempfile.TemporaryDirectory(prefix="sheet-", dir=cases.ROOMS) as room:
            with open(f"{room}/dossier.txt", "w", encoding="utf-8") as it:
                it.write(changed)
            wrote, said, status = called("sheet", [f"{room}/dossier.txt", "1", "P1", step], OFFICE=program)
        line = re.match(r"sheet: line (\d+) of the dossier: `(.*)`: (?=\S)", said)
        named = line and changed.split("\n")[int(line[1]) - 1] == line[2]
        if not count or wrote or status != 10 or why not in said or not named:
            return f"tools/sheet of a list with {form!r} changed: status {status}, {said.strip()[-300:]}"
    return None


def without_tokens(program: str, bundle: bytes) -> Optional[str]:
    """Why a dossier without its tokens has one of them, or another verdict, or None."""
    dossier, _, _ = dossier_of(program, bundle)
    bare, said, status = dossier_of(program, bundle, ["--without-tokens"])
    old = re.findall(rb"tok\w{5}|clerk0001", bundle)
    left = [it for it in old if it in bare]
    if status or not old or left:
        return f"tools/dossier --without-tokens: status {status}, {said[-100:]}, left are {left[:2]}"
    changed = [at for at, pair in enumerate(zip(dossier.split(b"\n"), bare.split(b"\n"))) if pair[0] != pair[1]]
    if len(changed) != len(old) or len(dossier.split(b"\n")) != len(bare.split(b"\n")):
        return f"tools/dossier --without-tokens: {len(changed)} lines differ, and there are {len(old)} tokens"
    told = [cases.called(program, ["audit"], it, "/") for it in (dossier, bare)]
    return None if told[0] == told[1] and verdict(bare)[0] == told[0][0] else f"tools/dossier --without-tokens: the verdict is {told[1][0]!r} and not {told[0][0]!r}"


def trials(program: str, long: bool) -> Iterator[Callable[[], Optional[str]]]:
    """What is tried over a program, each a call that gives a fault or None."""
    for case in written_cases():
        if not case.status and (long or case.name == EVERY):
            yield functools.partial(made_by_season, program, case.name, case.words)
    yield functools.partial(changed_list, program)
    yield functools.partial(broken_lists, program)
    yield from board_trials.trials(program)
    bundles = [f"examples/{it}/bundle.txt" for it in ("three-windows", "everybody-moves-up")]
    for name in bundles:
        with open(f"{TOP}/{name}", "rb") as it:
            bundle = it.read()
        yield functools.partial(without_tokens, program, bundle)
        yield functools.partial(sheets, program, bundle, 60 if long else 6)
    draw = Draw(59)
    for _ in range(20 if long else 1):
        yield functools.partial(sheets, program, drawn_season(draw, in_order).encode(), 12)
