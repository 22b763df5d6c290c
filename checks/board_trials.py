"""A board's own sheets: examples/board-sheets becomes a season by tools/season alone, plain and with home-state quotas, and spoiled sheets are refused in words.

Without a program: the guess of the columns, the bundle, the same numbers and tokens at the next call, workbooks where a library is installed, and spoiled files.
Over a program: it counts both bundles, and most candidates answer over three rounds. Both dossiers are sound by both auditors, their ranks are those of a plain
program over the register and the lists, tables and letters have the board's own columns, and the mock round is round 1."""
import csv
import functools
import importlib
import io
import os
import re
import shutil
import subprocess
import sys
import tempfile
from typing import Callable, Iterator, NamedTuple, Optional

import cases
import table_trials
from plain_audit import verdict

TOP = os.path.dirname(os.path.dirname(os.path.realpath(__file__)))
EXAMPLE = f"{TOP}/examples/board-sheets"
sys.path.append(f"{TOP}/tools")

import books
from dossiers import of_bundle
from season_columns import guess
from spreadsheets import put_file, written

TABLES = ("register", "matrix", "choices")
# what the two walks come to: words of the report, and what the office counts
KINDS = {
    False: ("candidates: 48, programmes: 6", b"bundle candidates 48 programmes 6 choices 198 rounds 3\n"),
    True: ("divided by state into -HS and -OS: 5 programmes", b"bundle candidates 48 programmes 11 choices 198 rounds 3\n"),
}
# what the tool has to guess of the columns of the example
GUESSED = ("application number", "category", "gender", "disability", "state", "m1", "m1 EWS", "m1 OBC", "m1 SC", "m1 ST", "m1 PwD", "institute name", "programme name", "quota", "pool", "OPEN PwD", "total", "preference")


def season(*words: str) -> tuple[bytes, str, int]:
    """Runs tools/season; returns its output, what it said, and its status."""
    ran = subprocess.run([sys.executable, f"{TOP}/tools/season", *words], capture_output=True, timeout=cases.SECONDS)
    return ran.stdout, ran.stderr.decode(errors="replace"), ran.returncode


def rows_of(path: str) -> list[list[str]]:
    with open(path, encoding="utf-8-sig", newline="") as it:
        return [*csv.reader(it)]


def put_example(room: str, with_quotas: bool) -> None:
    """Puts the sheets of the example into a folder, as CLERK says."""
    for name in (*TABLES, "season"):
        shutil.copyfile(f"{EXAMPLE}/{'matrix-quotas' if with_quotas and name == 'matrix' else name}.csv", f"{room}/{name}.csv")


def walked(room: str, with_quotas: bool) -> bytes:
    """Walks from the sheets to the bundle; returns the bundle."""
    put_example(room, with_quotas)
    season(room)
    return season("--yes=women-D", room)[0]


# ---- the walk without a program


def walks() -> Iterator[str]:
    """Gives what is wrong with the two walks."""
    for with_quotas, (words, _) in KINDS.items():
        with tempfile.TemporaryDirectory(prefix="board-", dir=cases.ROOMS) as room:
            put_example(room, with_quotas)
            wrote, said, status = season(room)
            means = [row[3] for row in rows_of(f"{room}/columns.csv")]
            lost = [it for it in GUESSED if it not in means]
            if status != 3 or wrote or lost:
                yield f"examples/board-sheets: the guess has status {status}, and lacks {lost}: {said[-200:]}"
            asked = season(room)
            if asked[2] != 3 or "question women-D" not in asked[1] or asked[0]:
                yield f"examples/board-sheets: the second call has status {asked[2]}: {asked[1][-200:]}"
            first, said, status = season("--yes=women-D", room)
            again, _, _ = season("--yes=women-D", room)
            if status or words not in said or first != again or (b"office units 1" in first) != with_quotas:
                yield f"examples/board-sheets: the bundle has status {status}, and {'is another one' if first != again else 'is the same'} at the next call: {said[-200:]}"
            yield from of_papers(room)
            yield from with_one_more(room, first)


# the columns of ranks in the sheet
SHEET_RANKS = ("Rank CRL", "Rank GEN-EWS", "Rank OBC-NCL", "Rank SC", "Rank ST", "Rank CRL-PwD")
# behind which place of merit list 1 the ranks of each list begin; those of categories are relaxed
RANKS = [["1-0", "Rank CRL"], ["1-230000R", "Rank OBC-NCL"], ["1-240000R", "Rank SC"], ["1-250000", "Rank CRL-PwD"]]


def of_papers(room: str) -> Iterator[str]:
    """Gives what is wrong with the files of tokens and of names."""
    tokens, names = rows_of(f"{room}/tokens.csv"), rows_of(f"{room}/names.csv")
    if tokens[0][:5] != ["candidate", "token", "number", "application_number", "name"] or tokens[2][2:5] != ["1", "260310000025", "Tejas Joshi"]:
        yield f"examples/board-sheets: tokens.csv begins with {tokens[0]} and {tokens[2][2:]}"
    if ["institute", "NITS", "National Institute of Technology, Surathkal"] not in names:
        yield f"examples/board-sheets: names.csv has {names[:2]}"
    if [it for it in names if it[0] == "rank"] != [["rank", *it] for it in RANKS]:
        yield f"examples/board-sheets: names.csv does not say where the ranks of a list begin: {names[-3:]}"


def with_one_more(room: str, before: bytes) -> Iterator[str]:
    """Gives what is wrong if a candidate comes first in the register later: the others keep their numbers and tokens."""
    rows = rows_of(f"{room}/register.csv")
    rows.insert(5, ["0", "990000000001", "New Person", "GEN", "Male", "No", "Goa", "Goa", "3", *[""] * 6])
    put_file(f"{room}/register.csv", written(rows))
    put_file(f"{room}/names.csv", written([*rows_of(f"{room}/names.csv"), ["rank", "1-99000", "before"], ["list", "1", "JEE"]]))
    after, said, status = season("--yes=women-D", room)
    kept = [row[1:] for row in rows_of(f"{room}/names.csv") if row[0] in ("rank", "list")]
    if kept != [*RANKS, ["1", "JEE"]]:
        yield f"examples/board-sheets: with one candidate more names.csv has {kept}"
    lost = {*before.split(b"\n")} - {*after.split(b"\n")}
    if status or lost or b"\n49,GEN,-," not in after:
        yield f"examples/board-sheets: with one candidate more the status is {status}, and lines are lost: {[*lost][:2]} {said[-200:]}"


def put_xlsx(path: str, rows: list[list[str]]) -> None:
    """Writes a workbook with a sheet of remarks in front; numbers are numbers there, as a spreadsheet program makes them."""
    book = books.library(".xlsx").Workbook()
    book.active.append(["remarks"])
    sheet = book.create_sheet(os.path.basename(path).partition(".")[0])
    for row in rows:
        sheet.append([int(it) if it.isdecimal() else it or None for it in row])
    book.save(path)


def put_ods(path: str, rows: list[list[str]]) -> None:
    """Writes a workbook of LibreOffice's kind, with empty cells and rows that are repeated at the ends."""
    kinds, found = {True: "float", False: "string"}, books.library(".ods").OpenDocumentSpreadsheet()
    table, text = importlib.import_module("odf.table"), importlib.import_module("odf.text")
    sheet = table.Table(name="Sheet1")
    for row in rows:
        line = table.TableRow()
        for it in row:
            cell = table.TableCell(valuetype=kinds[it.isdecimal()], **({"value": it} if it.isdecimal() else {})) if it else table.TableCell()
            if it:
                cell.addElement(text.P(text=it))
            line.addElement(cell)
        line.addElement(table.TableCell(numbercolumnsrepeated=16_000))
        sheet.addElement(line)
    sheet.addElement(table.TableRow(numberrowsrepeated=1_000_000))
    found.spreadsheet.addElement(sheet)
    found.save(path)


def in_books() -> Iterator[str]:
    """Gives what is wrong if the sheets are workbooks, where a library for them is installed."""
    for ending, put in ((".xlsx", put_xlsx), (".ods", put_ods)):
        try:
            books.library(ending)
        except books.NoBook:
            continue
        with tempfile.TemporaryDirectory(prefix="board-", dir=cases.ROOMS) as room, tempfile.TemporaryDirectory(prefix="board-", dir=cases.ROOMS) as other:
            wanted = walked(room, True)
            shutil.copyfile(f"{room}/tokens.csv", f"{other}/tokens.csv")
            for name in (*TABLES, "season"):
                put(f"{other}/{name}{ending}", rows_of(f"{room}/{name}.csv"))
            season(other)
            wrote, said, status = season("--yes=women-D", other)
        if status or wrote != wanted:
            yield f"examples/board-sheets as {ending}: status {status}: {said[-200:]}"


def without_library() -> Iterator[str]:
    """Gives what is wrong if a workbook comes and no library reads it: the message names the way out."""
    with tempfile.TemporaryDirectory(prefix="board-", dir=cases.ROOMS) as room:
        put_example(room, False)
        os.rename(f"{room}/register.csv", f"{room}/register.xlsx")
        hidden = "import sys, runpy; sys.modules['openpyxl'] = None; sys.argv = sys.argv[1:]; runpy.run_path(sys.argv[0], run_name='__main__')"
        ran = subprocess.run([sys.executable, "-c", hidden, f"{TOP}/tools/season", room], capture_output=True, text=True, timeout=cases.SECONDS)
    if ran.returncode != 3 or "register.xlsx: this is a workbook: save the sheet as CSV" not in ran.stderr or "python3-openpyxl" not in ran.stderr:
        yield f"tools/season without a library for workbooks: status {ran.returncode}: {ran.stderr[-200:]}"


# ---- guesses

# headings as boards write them, with a row of values, and what each has to be guessed as
HEADINGS = (
    ("register", "Roll Number|Candidate Name|DOB|Sex|Category|PwD (Y/N)|JEE Main CRL Rank|JEE Main Category Rank|JEE Adv. CRL|Home State|Mobile No", "BR1200345|A|2007-01-01|F|OBC|N|1,234|300||Bihar|9",
     "application number|name|-|gender|category|disability|m1|m1 category|m2|state|-"),
    ("register", "application_id|student_name|gender|social_category|disability_status|merit_rank", "2026000001|A|F|GEN|NO|12", "application number|name|gender|category|disability|m1"),
    ("register", "SNo|Appl. No.|Name|Cat|AIR|Domicile State|State Code of Eligibility|Ex-Servicemen|Sports", "1|123456789012|A|GEN|12|KA|KA|N|N", "-|application number|name|category|m1|-|state|X|S"),
    ("register", "Reg No|Category|Overall Merit Rank|EWS Rank|PwD Rank", "17|SC|4|2|1", "number|category|m1|m1 EWS|m1 PwD"),
    ("matrix", "Institute|Academic Program Name|Quota|Seat Type|Gender|Seats", "IIT Bombay|C S E|AI|OPEN|Gender-Neutral|40", "institute name|programme name|quota|step|pool|seats"),
    ("matrix", "Inst. Code|Institute Name|Br Code|Branch Name|OPEN|OPEN PwD|GEN-EWS|OBC-NCL|SC|ST|Total", "101|IIT B|4110|C S|40|2|9|22|12|6|91", "institute|institute name|programme|programme name|OPEN|OPEN PwD|EWS|OBC|SC|ST|total"),
    ("matrix", "College Code|Course|Intake|UR|EWS|OBC|SC|ST", "E001|CS|65|30|6|16|9|4", "institute|programme|total|OPEN|EWS|OBC|SC|ST"),
    ("choices", "Application Number|Choice 1|Choice 2", "260310000001|A|B", "candidate|choice 1|choice 2"),
    ("choices", "Roll No|Choice No|Choice Code", "BR1|1|101-4110", "candidate|preference|programme"),
    ("choices", "Roll No|Option|Institute|Program", "1|1|IIT|CSE", "candidate|preference|institute|programme"),
    ("choices", "Appl No|List of choices", "1|A;B;C", "candidate|programmes"),
)


def guesses() -> Iterator[str]:
    """Gives headings that are guessed otherwise than they are meant."""
    for table, headings, values, wanted in HEADINGS:
        header, found = guess(table, [(1, ["A board"]), (3, headings.split("|")), (4, values.split("|"))])
        means = {at: meaning for meaning, at in found.items()}
        came = "|".join(means.get(at, "-") for at in range(len(header.names)))
        if header.rows != (3,) or came != wanted:
            yield f"tools/season guesses of the {table} {headings}: {came}, and not {wanted}"


# ---- spoiled sheets


# from the bytes of a file to other ones, or to None where the file is removed
Change = Callable[[bytes], Optional[bytes]]


class Spoiled(NamedTuple):
    """A change of the confirmed example: its file, what is done to its bytes, and what has to be said."""

    name: str
    file: str
    change: Change
    says: str
    status: int = 3


def field(file: str, row: int, column: int, value: str, says: str = "", status: int = 3) -> Spoiled:
    """Returns the change of one field, the row as the spreadsheet counts it. The message names file, row, column and value."""

    def change(data: bytes) -> bytes:
        rows = [*csv.reader(io.StringIO(data.decode("utf-8-sig"), newline=""))]
        rows[row - 1][column] = value
        return written(rows, "")

    return Spoiled(f"{file} row {row} column {column} `{value}`", file, change, says or rf"{re.escape(file)}, row {row}, column [^:]+: (`{re.escape(value)}`|nothing)", status)


def whole(file: str, name: str, data: Optional[bytes], says: str, status: int = 3) -> Spoiled:
    """Returns the change of a whole file; None removes it."""
    return Spoiled(f"{file}: {name}", file, lambda _: data, says, status)


def bytewise(file: str, name: str, change: Change, says: str, status: int = 3) -> Spoiled:
    return Spoiled(f"{file}: {name}", file, change, says, status)


def of_fields() -> Iterator[Spoiled]:
    """Gives changes of single fields: each has its file, row, column and value in the message."""
    bad = {
        1: ("", "2.6031E+11", "none", "26 03?", "260310005000"), 3: ("", "OBC-CL", "XX", "PwD"), 4: ("", "X", "5"), 5: ("perhaps",), 7: ("Karnatak", "KAR", "XX"),
        8: ("first", "96.908", "9.69E+04", "-5", "12345678", "#REF!", "01-Apr", "7,636", "1,2,3", "12a"), 10: ("x", "165", "2.5"), 11: ("12",), 13: ("3",),
    }
    says = {(1, "260310005000"): r"register.csv, row 10, column Application No. \(B\): `260310005000`: row 6 has this candidate too; the rows differ in Name of Candidate"}
    says |= {(8, "7,636"): r"register.csv, row 10, column Rank CRL \(I\): `7,636`: row 6 .* has this place too", (10, "165"): r"row 10, column Rank OBC-NCL \(K\): `165`: row 6 .* has this place too"}
    yield from (field("register.csv", 6, column, value, says.get((column, value), "")) for column, values in bad.items() for value in values)
    bad = {0: ("",), 1: ("",), 2: ("Goa", "Home"), 3: ("Boys", ""), 4: ("x", "-1", "4001", "1.5", "#REF!", "two"), 5: ("x",), 14: ("9", "many")}
    says = {(2, "Home"): "matrix.csv: programme NITS-CSE has rows with and without a home-state quota|no row has its home state"}
    yield from (field("matrix.csv", 4, column, value, says.get((column, value), "")) for column, values in bad.items() for value in values)
    bad = {0: ("", "260310000099", "2.6E+11", "260310042331x"), 2: ("", "0", "first", "1.5", "9"), 4: ("", "Poetry", "Computer Science and Engineering")}
    says = {(0, "2.6E+11"): r"choices.csv, row 4, column .*the spreadsheet shortened", (2, "9"): "question gaps", (4, ""): r"choices.csv, row 4, column", (4, "Poetry"): "row 4, column Academic Program .*Poetry", (4, "Computer Science and Engineering"): "row 4, column Academic Program .*Computer"}
    yield from (field("choices.csv", 4, column, value, says.get((column, value), "")) for column, values in bad.items() for value in values)
    for key, value in (("rounds", "0"), ("rounds", "11"), ("rounds", "three"), ("rounds", ""), ("round", "3")):
        yield whole("season.csv", f"{key},{value}", f"{key},{value}\n".encode(), r"season.csv(, row 1, column|: there is no row)")
    for row, column, value in ((3, 3, "kategory"), (3, 0, "people"), (2, 2, "x")):
        yield field("columns.csv", row, column, value)
    yield field("columns.csv", 4, 3, "name", "two columns of register.csv mean this")
    yield field("columns.csv", 4, 2, "Applicant", "register.csv has no such column in rows 4 and 5")
    yield field("columns.csv", 2, 2, "1", "register.csv has no such column|has none there")
    yield field("columns.csv", 2, 2, "99", "has none there")


def of_files() -> Iterator[Spoiled]:
    """Gives changes of whole files."""
    for name in TABLES:
        file = f"{name}.csv"
        yield whole(file, "empty", b"", f"{file}: it is empty")
        yield whole(file, "blank rows", b",,,\n\n , ,\n", f"{file}: it is empty")
        yield whole(file, "missing", None, f"{file}: it cannot be read: No such file")
        yield whole(file, "an old workbook", b"\xd0\xcf\x11\xe0" * 20, f"{file}: this is an old workbook")
        yield whole(file, "a workbook", b"PK\x03\x04" * 20, f"{file}: this is a workbook")
        yield whole(file, "only titles", b"Candidates\nof 2026\n", file)
        yield bytewise(file, "an open quote", lambda data: data + b'"x', f"{file}: row \\d+: a quote is not closed")
        yield bytewise(file, "half of UTF-16", lambda data: data.decode().encode("utf-16")[:-1], f"{file}: it begins as UTF-16")
        yield bytewise(file, "UTF-16", lambda data: data.decode().encode("utf-16"), f"{file}: read as UTF-16", 0)
        yield bytewise(file, "ends of lines of old machines", lambda data: data.replace(b"\n", b"\r"), "48", 0)
        yield bytewise(file, "cp1252", lambda data: data.replace(b"Goa", b"Go\xe2"), f"{file}: it is not UTF-8")
        yield bytewise(file, "zero bytes", lambda data: data + b"\0\0\0\n", file)
        yield bytewise(file, "semicolons", lambda data: written(csv.reader(io.StringIO(data.decode(), newline="")), "").decode().encode(), "48", 0)
        yield bytewise(file, "half of it", lambda data: data[: len(data) // 2], file)
        yield bytewise(file, "another heading", lambda data: data.replace(b"Application No", b"Applicant", 1).replace(b"Seat Pool", b"Sex"), "has no such column")
    yield whole("columns.csv", "damaged", b"\xff\xfe\x00", "columns.csv")
    yield whole("columns.csv", "without rows", b"table,column,heading,means\n", "register.csv: rows 4 and 5 may be the header")
    yield whole("tokens.csv", "another file", b"name\nx\n", "tokens.csv: .*do not remove it")
    yield whole("tokens.csv", "a workbook", b"PK\x03\x04" * 20, "tokens.csv: this is a workbook")
    yield whole("tokens.csv", "one token twice", b"candidate,token\n1,token000000001aa\n2,token000000001aa\n", "another row has the same token")
    yield whole("tokens.csv", "shortened tokens", b"candidate,token\n1,1.2E+31\n", "tokens.csv: row 2: a row has a candidate's number and a token")
    yield bytewise("tokens.csv", "shortened application numbers", lambda data: data.replace(b",260310000025,", b",2.6031E+11,"), "tokens.csv: row 3, column application_number: `2.6031E.11`")
    yield bytewise("register.csv", "a number with zeros that the tokens lack", lambda data: data.replace(b",260310000025,", b",0260310000025,"), "the file of tokens: 0260310000025 is written `260310000025` there")
    yield whole("register.xlsx", "beside register.csv", b"x", "register.csv is read, and not register.xlsx", 0)


def fault_of_spoiled(it: Spoiled, confirmed: dict[str, bytes]) -> Optional[str]:
    """Why a spoiled sheet is not refused in words, or None."""
    with tempfile.TemporaryDirectory(prefix="board-", dir=cases.ROOMS) as room:
        for name, data in confirmed.items():
            put_file(f"{room}/{name}", data)
        changed = it.change(confirmed.get(it.file, b""))
        if changed is None:
            os.remove(f"{room}/{it.file}")
        else:
            put_file(f"{room}/{it.file}", changed)
        before = {name: os.stat(f"{room}/{name}").st_mtime_ns for name in os.listdir(room)}
        wrote, said, status = season("--yes=women-D", room)
        after = {name: os.stat(f"{room}/{name}").st_mtime_ns for name in os.listdir(room)}
    if "Traceback" in said or status != it.status or bool(wrote) != (status == 0) or not re.search(it.says, said):
        return f"tools/season, {it.name}: status {status}, {len(wrote)} bytes: {said[-400:]!r}, and not {it.says!r}"
    reports, most = len(re.findall(r"season: (?:\w+.csv, row|question )", said)), 2 if re.search("perhaps it is one|has this place too", said) else 1
    if it.file == "register.csv" and " row " in it.name and reports > most:
        return f"tools/season, {it.name}: it lists what follows from this error too: {said[-400:]!r}"
    if status and {name: time for name, time in after.items() if name != "columns.csv"} != {name: time for name, time in before.items() if name != "columns.csv"}:
        return f"tools/season, {it.name}: it wrote {[*set(after) ^ set(before)] or 'a file anew'}"
    return None


def spoiled() -> list[Callable[[], Optional[str]]]:
    """Returns a call for each spoiled sheet."""
    with tempfile.TemporaryDirectory(prefix="board-", dir=cases.ROOMS) as room:
        walked(room, False)
        confirmed = {}
        for name in (*(f"{it}.csv" for it in (*TABLES, "season")), "columns.csv", "tokens.csv"):
            with open(f"{room}/{name}", "rb") as it:
                confirmed[name] = it.read()
    return [functools.partial(fault_of_spoiled, it, confirmed) for it in (*of_fields(), *of_files())]


# ---- over a program


def fault_of_season(program: str, with_quotas: bool) -> Optional[str]:
    """Why the program does not take the season of the example through its rounds, or None."""
    label, words = (f"examples/board-sheets{' with quotas' if with_quotas else ''}", ["units" if with_quotas else "run", "memory"])

    def call(words: list[str], given: bytes) -> tuple[bytes, Optional[int]]:
        return cases.called(program, words, given, "/")

    with tempfile.TemporaryDirectory(prefix="board-", dir=cases.ROOMS) as room:
        bundle = walked(room, with_quotas)
        given = with_answers(lambda given: call(words, given)[0], bundle)
        dossier = of_bundle(call, given)
        sound = b"audit sound rounds 3\nbest\n", 0
        found = call(["audit", "best"], dossier), verdict(dossier, True)
        if found != (sound, sound):
            return f"{label}: audit best says {found[0]}, and the plain auditor {found[1]}"
        why = table_trials.of_dossier(label, dossier) or fault_of_papers(room, label, dossier)
    return why or fault_of_count(program, bundle, KINDS[with_quotas][1], with_quotas) or fault_of_mock(program, bundle, call(words, given)[0])


# what a candidate answers to the first offer, by the last digit of the number; nobody else answers
ANSWERS = {**dict.fromkeys("02468", "float"), "1": "freeze", "3": "slide", "5": "withdraw", "7": "freeze"}


def with_answers(told: Callable[[bytes], bytes], bundle: bytes) -> bytes:
    """Returns the bundle with the requests of its three rounds; most candidates answer their first offer, and some are no-shows."""
    given, seen = bundle + b"[requests]\n", set()
    for window in range(4):
        given += b"cut,clerk,%d\n" % window
        offers = told(given).rpartition(b"\nround %d seated" % (window + 1))[2] if window < 3 else b""
        new = [it for it in re.findall(r"^allot (\d+) ", offers.decode(), re.M) if it not in seen]
        seen.update(new)
        given += "".join(f"answer,{it},{it},{window + 1},1,{ANSWERS[it[-1]]}\n" for it in new if it[-1] in ANSWERS).encode()
    return given


def fault_of_papers(room: str, label: str, dossier: bytes) -> Optional[str]:
    """Why the tables and the letters do not have each admitted candidate with the board's own columns and names, or None; without its library no letter is written."""
    put_file(f"{room}/dossier.txt", dossier)
    own = ["--names", f"{room}/tokens.csv", "--codes", f"{room}/names.csv"]
    _, said, status = table_trials.called("tools/tables", [f"{room}/dossier.txt", f"{room}/tables", *own])
    if status:
        return f"tools/tables, {label}: status {status}: {said[-200:]}"
    header, *rows = table_trials.table(f"{room}/tables/allotments.csv")
    seats = [dict(zip(header, row)) for row in rows]
    people, places = ({row[at]: row[to] for row in rows_of(f"{room}/{name}.csv")} for name, at, to in (("register", 1, 2), ("names", 1, 2)))
    wrong = [it for it in seats if people.get(it["application_number"]) != it["name"] or places.get(it["institute"]) != it["institute name"]]
    if len(seats) < 20 or wrong:
        return f"tools/tables, {label}: {len(seats)} seats, and {wrong[:1]}"
    _, said, status = table_trials.called("tools/letters", [f"{room}/dossier.txt", f"{room}/letters", *own])
    if status == 1 and "apt-get install python3-gi" in said:
        return None
    header, *rows = [[]] if status else table_trials.table(f"{room}/letters/codes-final.csv")
    letters = [row[3:5] for row in rows]
    if sorted(letters) != sorted([it["application_number"], it["name"]] for it in seats):
        return f"tools/letters, {label}: status {status}, {letters[:2]}: {said[-200:]}"
    ranks = {row[1]: {f"{it.replace(',', '')} in {name}" for name, it in zip(SHEET_RANKS, row[8:14]) if it} for row in rows_of(f"{room}/register.csv") if len(row) > 13}
    strange = [(row[3], row[header.index("Rank")]) for row in rows if row[header.index("Rank")] not in ranks[row[3]]]
    return f"tools/letters, {label}: a letter has a rank that the sheet has not: {strange[:2]}" if strange else None


def fault_of_count(program: str, bundle: bytes, told: bytes, with_quotas: bool) -> Optional[str]:
    """Why the launcher next to the program does not count a bundle, or None."""
    with tempfile.TemporaryDirectory(prefix="board-", dir=cases.ROOMS) as room:
        # as the package installs them: the launcher next to the program, with the tools and the version
        os.makedirs(f"{room}/bin")
        shutil.copytree(f"{TOP}/tools", f"{room}/bin/tools")
        shutil.copyfile(f"{TOP}/office", f"{room}/bin/nachodune")
        os.symlink(program, f"{room}/bin/office")
        put_file(f"{room}/bin/version", b"nachodune 0\n")
        words = ["check", "units"] if with_quotas else ["check"]
        ran = subprocess.run([sys.executable, f"{room}/bin/nachodune", *words], input=bundle, capture_output=True, timeout=cases.SECONDS)
        wrong = subprocess.run([sys.executable, f"{room}/bin/nachodune", "check", "units"], input=bundle.replace(b"[states]", b"[state]") if with_quotas else bundle, capture_output=True, timeout=cases.SECONDS)
    if (ran.stdout, ran.returncode) != (told, 0):
        return f"office {' '.join(words)} of examples/board-sheets: status {ran.returncode}: {ran.stdout[:100]!r} {ran.stderr[-200:]!r}"
    is_refused = wrong.returncode == 3 and wrong.stdout.startswith(b"fault: units ") and b"office: line" in wrong.stderr
    return None if is_refused else f"office check units of a faulty bundle: status {wrong.returncode}: {wrong.stdout[:100]!r} {wrong.stderr[-200:]!r}"


def fault_of_mock(program: str, bundle: bytes, replies: bytes) -> Optional[str]:
    """Why the mock round is not round 1 of the season, or None."""
    with tempfile.TemporaryDirectory(prefix="board-", dir=cases.ROOMS) as room:
        put_file(f"{room}/bundle.txt", bundle)
        ran = subprocess.run([sys.executable, f"{TOP}/deploy/papers", "--mock", f"{room}/bundle.txt", f"{room}/papers"], capture_output=True, timeout=cases.SECONDS, env={**os.environ, "OFFICE": program})
        if ran.returncode:
            return f"deploy/papers --mock of examples/board-sheets: status {ran.returncode}: {ran.stderr[-200:]!r}"
        with open(f"{room}/papers/mock-round.txt", "rb") as it:
            mock = it.read()
        count = len(os.listdir(f"{room}/papers"))
    return None if mock in replies and count >= 10 else f"deploy/papers --mock of examples/board-sheets: {count} files, and {mock[:60]!r} is not round 1"


def faults() -> list[str]:
    """Returns all that is looked at without a program, but for the spoiled sheets."""
    return [*guesses(), *walks(), *in_books(), *without_library()]


def trials(program: str) -> Iterator[Callable[[], Optional[str]]]:
    """Gives what is tried over a program."""
    for with_quotas in KINDS:
        yield functools.partial(fault_of_season, program, with_quotas)
