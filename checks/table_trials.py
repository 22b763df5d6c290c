"""tools/tables, tools/letters, tools/left and `counts --names`, held against plain programs and on spoiled files.

Without a program: the tables of drawn seasons, whose papers the plain office made, are those of checks/plain_tables.py. Over a program: the same for generated and
divided seasons, whose dossiers tools/dossier makes."""
import concurrent.futures
import csv
import functools
import hashlib
import os
import re
import subprocess
import sys
import tempfile
from typing import Callable, Iterator, Optional, Sequence, Union

import cases
import plain_tables
from plain_dossiers import Dossier
from plain_special import drawn_season
from plain_trials import Draw, in_order

TOP = os.path.dirname(os.path.dirname(os.path.realpath(__file__)))
# what is tried: a call that gives a fault or None
Trial = Callable[[], Optional[str]]


def called(tool: str, words: Sequence[str], given: bytes = b"", **more: str) -> tuple[str, str, int]:
    """Runs a tool; returns its output, what it said, and its status."""
    ran = subprocess.run([sys.executable, f"{TOP}/{tool}", *words], input=given, capture_output=True, timeout=cases.SECONDS, env={**os.environ, **more})
    return ran.stdout.decode(errors="replace"), ran.stderr.decode(errors="replace"), ran.returncode


def came_of(trial: Trial) -> Optional[str]:
    return trial()


def put(path: str, data: Union[bytes, str]) -> str:
    with open(path, "wb") as it:
        it.write(data if isinstance(data, bytes) else data.encode())
    return path


# ---- tables


def shown(field: str) -> str:
    """The text that a spreadsheet shows for a field."""
    found = re.fullmatch('="(.*)"', field, re.S)
    return found[1].replace('""', '"') if found else field


def table(path: str) -> list[list[str]]:
    """The rows of a table as a spreadsheet shows them, with the header."""
    with open(path, "rb") as it:
        data = it.read()
    assert data.startswith(b"\xef\xbb\xbf"), f"{path} has no byte order mark"
    return [[shown(it) for it in row] for row in csv.reader(data.decode("utf-8-sig").splitlines())]


def without_names(rows: list[list[str]]) -> list[list[str]]:
    """The rows of allotments without the columns of names for codes, which repeat the codes here."""
    header = rows[0]
    kept = [at for at, it in enumerate(header) if it not in ("institute name",)]
    return sorted([row[at] for at in kept] for row in rows[1:])


def why_other(room: str, dossier: bytes) -> Optional[str]:
    """Why the tables of a dossier are not those of the plain program, or None."""
    plain = plain_tables.Plain(dossier.decode())
    if not plain.texts:
        _, said, status = called("tools/tables", [put(f"{room}/dossier.txt", dossier), f"{room}/none"])
        return None if status == 3 and "no round is published" in said else f"no round is published, and the status is {status}: {said[-200:]}"
    name = "final" if "final" in plain.texts else max(plain.texts, key=int)
    _, said, status = called("tools/tables", [put(f"{room}/dossier.txt", dossier), f"{room}/out"])
    if status:
        return f"status {status}: {said[-300:]}"
    for one in plain.texts:
        header, *rows = table(f"{room}/out/ranks-{one}.csv")
        if header != ["Institute", "Program", "Quota", "Seat Type", "Gender", "Opening Rank", "Closing Rank"] or sorted(rows) != plain_tables.ranks(plain, one):
            return f"ranks-{one}.csv has {sorted(rows)[:3]}, and the plain program {plain_tables.ranks(plain, one)[:3]}"
    whole = without_names(table(f"{room}/out/allotments.csv"))
    if whole != plain_tables.allotments(plain, name):
        return f"allotments.csv has {whole[:2]}, and the plain program {plain_tables.allotments(plain, name)[:2]}"
    parts = sorted(row for it in os.listdir(f"{room}/out/institutes") for row in without_names(table(f"{room}/out/institutes/{it}")))
    if parts != whole or {it for it in os.listdir(f"{room}/out/institutes")} != {f"institute-{it}.csv" for it in plain.institute.values()}:
        return "the files of the institutes do not make the whole"
    rows = sorted([row[1], *row[2:8]] for row in table(f"{room}/out/vacant.csv")[1:])
    if rows != plain_tables.vacant(plain, name):
        return f"vacant.csv has {rows[:3]}, and the plain program {plain_tables.vacant(plain, name)[:3]}"
    groups = {row[0]: row[1:5] for row in table(f"{room}/out/statistics.csv")[1:]}
    if any(groups.get(label) != found for label, found in plain_tables.counts(plain, name).items()):
        return f"statistics.csv has {groups}, and the plain program {plain_tables.counts(plain, name)}"
    return None


def of_dossier(label: str, dossier: bytes) -> Optional[str]:
    with tempfile.TemporaryDirectory(prefix="tables-", dir=cases.ROOMS) as room:
        why = why_other(room, dossier)
    return why and f"tools/tables, {label}: {why}"


def of_drawn(label: str, text: str) -> Optional[str]:
    return of_dossier(label, Dossier(text).given())


def drawn(count: int) -> Iterator[Trial]:
    """Drawn seasons with categories, traits, relaxed places and raises, whose papers the plain office made; some are cut short after a round."""
    draw = Draw(77)
    for number in range(count):
        text = drawn_season(draw, in_order)
        if draw.below(4) == 0:
            text = text[: text.rindex("cut,clerk")]
        yield functools.partial(of_drawn, f"drawn season {number}", text)


def special() -> Optional[str]:
    """Why the tables and letters with a special round are not as they should be, or a wrong text of one is taken, or None."""
    folder = f"{TOP}/examples/vacant-seats"
    with open(f"{folder}/bundle.txt", encoding="ascii") as it:
        dossier = Dossier(it.read()).given()
    with tempfile.TemporaryDirectory(prefix="tables-", dir=cases.ROOMS) as room:
        words = [put(f"{room}/dossier.txt", dossier), f"{room}/out", "--special"]
        _, said, status = called("tools/tables", [*words, f"{folder}/special.txt"])
        if status:
            return f"tools/tables --special: status {status}, {said[-200:]}"
        seats = [(row[0], row[3], row[6], row[7]) for row in table(f"{room}/out/allotments.csv")[1:]]
        vacant = [row[-3:] for row in table(f"{room}/out/vacant.csv")[1:]]
        _, said, status = called("tools/letters", [*words, f"{folder}/special.txt"])
        letters = [row[1:3] for row in table(f"{room}/out/codes-special.csv")[1:]] if status == 0 else []
    if seats != [("1", "C", "OPEN", "not published"), ("4", "E", "OPEN", "not published")] or vacant != [["1", "0", "0"]] * 4:
        return f"tools/tables --special: {seats} {vacant}"
    title = "Seat allotment letter of the special round"
    if letters != [[title, "1"], [title, "4"]] and "apt-get install python3-gi" not in said:
        return f"tools/letters --special: status {status}, {letters}, {said[-200:]}"
    return None


# what `special` did not write, and what the tool says of it
SPECIALS = (
    (b"candidate,programmes\n1,C\n", r"line 1: `candidate,programmes`: the text of a special round begins with"),
    (b"special seats 2 seated 1\nround 1 seated 1\nallot 3 C OPEN\nend round\n", "candidate 3 has a final admission"),
    (b"special seats 2 seated 1\nround 1 seated 2\nallot 1 C OPEN\nend round\n", r"line 2: `round 1 seated 2`: 1 lines follow it"),
)


# ---- tables that a spreadsheet opens

# fields that a spreadsheet would change, and others
CODES = ("007", "1E5", "3-4", "12/5", "10:30", "240310123456", "MAR-1", "1-SEP", "TRUE", "=1+1", "+91 98", "-5", "@x", '="x"', '=HYPERLINK("x")', "=" + "x" * 300)
PLAIN = ("CSE-HS", "12", "4R", "3.5", "-", "", "Zoë", "प्रिया, A", 'a "b"', "1,2")


def codes_stay() -> Iterator[str]:
    """Fields are shown as the texts that they were, those that a spreadsheet would change as texts, and the others plainly."""
    sys.path.append(f"{TOP}/tools")
    import spreadsheet_csv

    with tempfile.TemporaryDirectory(prefix="tables-", dir=cases.ROOMS) as room:
        for column in (CODES, PLAIN, ("7", "008", "9")):
            spreadsheet_csv.write(f"{room}/codes.csv", ["code"], [[it] for it in column])
            with open(f"{room}/codes.csv", encoding="utf-8-sig", newline="") as it:
                fields = [row[0] for row in csv.reader(it)][1:]
            if [spreadsheet_csv.plain(it) for it in fields] != [*column]:
                yield f"tools/spreadsheet_csv.py: {column} comes back as {fields}"
            kept = [it.startswith('="') or len(it) > 255 for it in fields]
            if kept != [column != PLAIN] * len(column):
                yield f"tools/spreadsheet_csv.py: of {column} these are kept as text: {kept}"


# ---- spoiled files

TOKENS = "number,application_number,token,name\nclerk,,clerk0001,\n" + "".join(f"{it},24031012345{it},tok0000{it},Name {it}\n" for it in range(1, 7))
# a dossier that is spoiled: what is replaced by what, and what the tool says of it
DOSSIERS = (
    (r"\A", "PK\x03\x04", "this is a workbook"),
    (r"\A", "SQLite format 3\0", "this is a store: tools/dossier --store"),
    (r"\A[^\n]*", "hello", r"line 1: `hello`: a dossier begins with"),
    (r"\A[\s\S]*", "", r"line 1: ``: a dossier begins with"),
    (r"\[published\]\n[\s\S]*", "", r"this is no dossier, because a line \[requests\] and after it"),
    (r"\[matrix\]\n", "", r"there is no line \[matrix\]"),
    (r"^2,GEN,-", "x,GEN,-", r"line 8, row 3 of \[register\], column id: `x`: a candidate number is"),
    (r"^2,GEN,-", "1,GEN,-", r"line 8, row 3 of \[register\], column id: `1`: an earlier row"),
    (r"^2,GEN,-", "2,general,-", r"column category: `general`: a category is GEN"),
    (r"^2,GEN,-", "2,GEN,Q", r"column traits: `Q`: traits are distinct letters"),
    (r"^(2,GEN,-,tok00002),2", r"\1,2nd", r"column m1: `2nd`: a place is a number"),
    (r"^B,I2,1,OPEN,1", "B,I2,5,OPEN,1", r"column list: `5`: the merit list is 1 to 4"),
    (r"^B,I2,1,OPEN,1", "B,I2,1,open,1", r"column step: `open`: a step is OPEN"),
    (r"^B,I2,1,OPEN,1", "B,I2,1,OPEN,-1", r"column seats: `-1`: seats are 0 to 4,000"),
    (r"^B,I2,1", "B,I/2,1", r"column institute: `I/2`: a code is"),
    (r"^2,A,B", "2,A,Z", r"row 3 of \[choices\], column field 3: `Z`: the matrix has no programme of this code"),
    (r"^2,A,B", "9,A,B", r"column candidate: `9`: the register has no candidate"),
    (r"^rounds,3", "rounds,30", r"column field 2: `30`: rounds are 1 to 10"),
    (r"^allot 2 B OPEN", "allot 2 B", r": `allot 2 B`: a line here is `allot`"),
    (r"^allot 2 B OPEN", "allot 9 B OPEN", r"`allot 9 B OPEN`: the register has no candidate"),
    (r"^allot 2 B OPEN", "allot 2 Z OPEN", r"`allot 2 Z OPEN`: the matrix has no programme"),
    (r"^allot 2 B OPEN", "allot 2 C OPEN", r"candidate 2 has C OPEN in round 1, and B OPEN in its lists: have the dossier audited"),
    (r"^allot 2 B OPEN\n", "", r"`round 1 seated 4`: 3 lines follow it"),
    (r"^end round\n", "", r"here a line `allot \.\.` or `end round` is expected"),
    (r"^round 2 seated", "round 3 seated", r"`round 3 seated \d`: here round 2 is expected"),
    (r"^step OBC .*\n", "", r"here a line `step OBC seats N|here the step OBC is expected"),
    (r"^list 1 B\n(?:.*\n)*?end list\n", "", r"round 1 has no list of B"),
    (r"^admit 3 B OPEN", "admit 3 A OPEN", r"candidate 3 has A OPEN in the final admissions, and not in the last round"),
    (r"end final\n", "", r"the end of the file: here a line `admit \.\.` or `end final`"),
)
# a table of the board's that is spoiled, and what the tools say of it
BOARDS = (
    ("--names", b"", "it is empty"),
    ("--names", TOKENS.replace("Name 3", "Zo\xeb").encode("cp1252"), r"line 5: the byte EB begins no letter of UTF-8"),
    ("--names", b"PK\x03\x04rest", "it cannot be read|save it as CSV"),
    ("--names", b"name,token\nx,tok00001\n", r"row 1: there is no column `number`, `candidate` or `id`"),
    ("--names", TOKENS.replace("\n3,", "\nthree,").encode(), r"row 5, column number \(A\): `three`: a candidate number is"),
    ("--names", TOKENS.encode() + b"2,x,tok00002,Other\n", r"row 9, column number \(A\): `2`: an earlier row of this candidate has other values"),
    ("--codes", b"programme,A,One\nprogram,B,Two\n", r"row 2: `program,B,Two`: a row is `programme,CODE,NAME`"),
    ("--codes", b"programme,A,One\nprogramme,A,Two\n", r"row 2, column C: `Two`: an earlier row has another name"),
    ("--codes", b"programme,A,\n", r"row 1, column C: ``: a name has 1 to 200 letters"),
)


def three_windows() -> str:
    with open(f"{TOP}/examples/three-windows/bundle.txt", encoding="ascii") as it:
        return Dossier(it.read()).given().decode()


def why_taken(tool: str, words: Sequence[Union[bytes, str]], said_of: str) -> Optional[str]:
    """Why a tool takes a spoiled file, or does not say what is wrong, or None. Words that are bytes are files with these bytes."""
    with tempfile.TemporaryDirectory(prefix="tables-", dir=cases.ROOMS) as room:
        named = [put(f"{room}/{at}.txt", it) if isinstance(it, bytes) else it for at, it in enumerate(words)]
        _, said, status = called(f"tools/{tool}", [*named, f"{room}/out"])
        is_written = os.path.exists(f"{room}/out")
    if status != 3 or "Traceback" in said or not re.search(said_of, said) or not said.startswith(f"{tool}: "):
        return f"tools/{tool} of a spoiled file: status {status} and {said.strip()[-300:]!r}, and not {said_of!r}"
    return f"tools/{tool} wrote of a spoiled file: {said_of}" if is_written else None


def spoiled() -> Iterator[Trial]:
    """Spoiled dossiers and tables of the board's: each is refused with its place, and nothing is written."""
    dossier = three_windows()
    for form, instead, said_of in DOSSIERS:
        text, count = re.subn(form, instead, dossier, count=1, flags=re.M)
        yield functools.partial(why_taken, "tables", [text.encode()], said_of) if count else functools.partial(str, f"checks/table_trials.py: {form} is nowhere")
    for option, data, said_of in BOARDS:
        yield functools.partial(why_taken, "tables", [dossier.encode(), option, data], said_of)
    for data, said_of in SPECIALS:
        yield functools.partial(why_taken, "tables", [dossier.encode(), "--special", data], said_of)
    for words, said_of in ((["--round", "4"], "published are 1, 2, 3, final"), (["--round", "x"], "published are")):
        yield functools.partial(why_taken, "tables", [dossier.encode(), *words], said_of)


def other_words() -> Optional[str]:
    """Why the status of a call with a missing file, with other words or with --help is another one, or None."""
    with tempfile.TemporaryDirectory(prefix="tables-", dir=cases.ROOMS) as room:
        here = put(f"{room}/dossier.txt", three_windows())
        calls = [("tables", [f"{room}/none.txt", f"{room}/out"], 1), ("tables", [here], 2), ("tables", ["--help"], 0), ("letters", ["--check", "x", f"{room}/none"], 10), ("letters", [here], 2)]
        wrong = [f"{tool} {words}: {status}" for tool, words, wanted in calls for _, _, status in [called(f"tools/{tool}", words)] if status != wanted]
    return f"tools: the statuses of other calls are {wrong}" if wrong else None


def own_columns(data: bytes) -> Optional[str]:
    """Why the board's columns are not in the tables, or a token is, or None."""
    with tempfile.TemporaryDirectory(prefix="tables-", dir=cases.ROOMS) as room:
        words = [put(f"{room}/dossier.txt", three_windows()), f"{room}/out", "--names", put(f"{room}/tokens.csv", data)]
        _, said, status = called("tools/tables", words)
        rows = table(f"{room}/out/allotments.csv") if status == 0 else []
        if status or rows[0][:3] != ["number", "application_number", "name"] or ["3", "240310123453", "Name 3"] not in [row[:3] for row in rows]:
            return f"tools/tables --names: status {status}, {said[-200:]}, {rows[:2]}"
        wrote = b"".join(open(f"{at}/{it}", "rb").read() for at, _, names in os.walk(f"{room}/out") for it in names)
        modes = {it: os.stat(f"{room}/out/{it}").st_mode & 0o777 for it in ("allotments.csv", "ranks-final.csv")}
    if re.search(rb"tok\d{5}|clerk0001", wrote):
        return "tools/tables --names: a table has a token"
    return None if modes == {"allotments.csv": 0o600, "ranks-final.csv": 0o644} else f"tools/tables: the modes of the tables are {modes}"


# forms in which a spreadsheet writes the table of tokens
OFFICE_FORM = "candidate,token,number,application_number,name\nclerk,clerk0001\n" + "".join(f"{it}.0,tok0000{it},{it},24031012345{it},Name {it}\n" for it in range(1, 7))
FORMS = (OFFICE_FORM.encode(), TOKENS.encode(), TOKENS.replace(",", ";").encode("utf-16"), ("\ufeff" + TOKENS.replace("number,app", "candidate,app", 1)).encode())


# ---- letters


def pages_of(pdf: str) -> Optional[list[str]]:
    """The text of each page of a PDF, or None if pdftotext is missing."""
    try:
        return subprocess.run(["pdftotext", "-layout", pdf, "-"], stdout=subprocess.PIPE, check=True).stdout.decode().split("\f")[:-1]
    except FileNotFoundError:
        return None


def why_letters_differ(room: str) -> Optional[str]:
    """Why the letters do not say what the season and the board's tables say, or a code is not confirmed, or None."""
    with open(f"{room}/let/codes-final.csv", encoding="utf-8-sig", newline="") as it:
        header, *rows = [[shown(field) for field in row] for row in csv.reader(it)]
    letters = [dict(zip(header, row)) for row in rows]
    wanted = {"Candidate number": "3", "Name": "Name 3", "Programme": "Mechanics (B)", "Rank": "3 in Main Test", "Report at": "Main office", "Note": "Bring it."}
    if len(letters) != 4 or any(letters[0].get(label) != value for label, value in wanted.items()):
        return f"codes-final.csv has {letters[:1]}"
    pages = pages_of(f"{room}/let/letters-final.pdf")
    if pages is not None and (len(pages) != 4 or any(value not in page for it, page in zip(letters, pages) for value in it.values() if value)):
        return "a page does not say what codes-final.csv has"
    code = letters[0]["code"]
    for written, status, said_of in ((code, 0, "Name: Name 3"), (code.lower().replace("-", " "), 0, "Programme: Mechanics"), ("0000-0000-0000-0000", 10, "no letter has"), ("x", 10, "is no code")):
        wrote, said, came = called("tools/letters", ["--check", written, f"{room}/let"])
        if came != status or said_of not in wrote:
            return f"--check {written}: status {came}, {wrote[-200:]} {said[-200:]}"
    with open(f"{room}/let/codes-final.csv", encoding="utf-8") as it:
        put(f"{room}/let/codes-final.csv", it.read().replace("Mechanics", "Medicine"))
    wrote, _, came = called("tools/letters", ["--check", code, f"{room}/let"])
    return None if came == 10 and "was changed" in wrote else f"--check of a row that was changed: status {came}, {wrote}"


def why_hindi_differs(room: str) -> Optional[str]:
    """Why the letters in Hindi have English but for names and codes, or are not confirmed, or None."""
    with open(f"{room}/let/codes-final.hi.csv", encoding="utf-8-sig", newline="") as it:
        header, *rows = [[shown(field) for field in row] for row in csv.reader(it)]
    letter = dict(zip(header, rows[0]))
    wanted = {"letter": "सीट का अंतिम आवंटन पत्र", "उम्मीदवार नंबर": "3", "नाम": "Name 3", "प्रोग्राम": "यांत्रिकी (B)", "रैंक": "3 (Main Test)", "पहुँचने की जगह": "Main office"}
    if len(rows) != 4 or any(letter.get(label) != value for label, value in wanted.items()):
        return f"codes-final.hi.csv has {letter}"
    pages = pages_of(f"{room}/let/letters-final.hi.pdf")
    own = {"Name", "Main", "Test", "Joint", "Board", "August", "office", "Hall", "Mechanics", *re.findall("[A-Za-z]{3,}", " ".join(field for row in rows for field in row))}
    english = sorted({it for page in pages or [] for it in re.findall("[A-Za-z]{3,}", page)} - own)
    labels = [it for it in header[2:] if re.search("[A-Za-z]", it)]
    if english or labels:
        return f"the letters in Hindi have {english} and {labels}"
    wrote, _, came = called("tools/letters", ["--check", letter["code"], f"{room}/let"])
    return None if came == 0 and "नाम: Name 3" in wrote else f"--check {letter['code']}: status {came}, {wrote[-200:]}"


LETTER_FILES = {"--names": TOKENS, "--codes": "programme,B,Mechanics,यांत्रिकी\nboard,,Joint Board\nlist,1,Main Test\n", "--report": "institute,date,place\nI3,3 August,Hall 2\n,4 August,Main office\n"}
# files of letters that are spoiled, and what the tool says of them
SPOILED_LETTERS = (
    ("--report", "institute,date\nI3,3 August\n", "there is no column `place`"),
    ("--report", "institute,date,place\nI3,,Hall\n", r"row 2, column date \(B\): nothing"),
    ("--names", TOKENS.replace("\n3,", "\n13,"), "1 candidates with a seat have no row: 3"),
    ("--names", TOKENS.replace("name\n", "Application Number\n"), "has the name of another row"),
)


def letters() -> Optional[str]:
    """Why letters with names, places to report and codes are not as they should be, or None."""
    with tempfile.TemporaryDirectory(prefix="letters-", dir=cases.ROOMS) as room:
        words = [put(f"{room}/dossier.txt", three_windows())]
        for option, text in LETTER_FILES.items():
            words += [option, put(f"{room}/{option[2:]}.csv", text)]
        _, said, status = called("tools/letters", [*words, f"{room}/let", "--note", "Bring it."])
        if status == 1 and "apt-get install python3-gi" in said:
            print("checks/repository: the library of tools/letters is missing, so no letter was written", flush=True)
            return None
        _, hindi_said, hindi_status = called("tools/letters", [*words, f"{room}/let", "--hindi"])
        why = f"{said[-300:]} {hindi_said[-300:]}" if status or hindi_status else why_hindi_differs(room) or why_letters_differ(room)
    return why and f"tools/letters: status {status}: {why}"


def installed() -> Optional[str]:
    """Why a package has not each file that the tools need, or None."""
    with tempfile.TemporaryDirectory(prefix="tools-", dir=cases.ROOMS) as room:
        subprocess.run([f"{TOP}/deploy/put-tools", room], check=True)
        missing = {*os.listdir(f"{TOP}/tools")} - {*os.listdir(f"{room}/usr/lib/nachodune/tools")} - {"README.md", "__pycache__"}
    return f"deploy/put-tools leaves out {sorted(missing)}" if missing else None


def spoiled_letters() -> Iterator[Trial]:
    for option, data, said_of in SPOILED_LETTERS:
        words = [word for it, text in {**LETTER_FILES, option: data}.items() for word in (it, text.encode())]
        yield functools.partial(why_spoiled_letters, words, said_of)


def why_spoiled_letters(words: Sequence[Union[bytes, str]], said_of: str) -> Optional[str]:
    """Why a spoiled file of the letters is taken, or None; without the library nothing is looked at."""
    why = why_taken("letters", [three_windows().encode(), *words], said_of)
    return None if why and "apt-get install python3-gi" in why else why


def faults(count: int) -> list[str]:
    """All that is looked at without a program, with that many drawn seasons."""
    tried: list[Trial] = [*drawn(count), *spoiled(), *spoiled_letters(), other_words, letters, installed, special, *(functools.partial(own_columns, it) for it in FORMS)]
    with concurrent.futures.ThreadPoolExecutor(os.cpu_count()) as lanes:
        return [*codes_stay(), *(it for it in lanes.map(came_of, tried) if it)]


# ---- over a program


def ran(program: str, words: list[str], given: bytes, room: str) -> bytes:
    wrote, status = cases.called(program, words, given, room)
    assert status == 0, f"{words}: status {status}, {wrote[-200:]!r}"
    return wrote


def dossier_of(program: str, words: Sequence[str]) -> str:
    """The dossier that tools/dossier makes, whose SHA-256 it says."""
    wrote, said, status = called("tools/dossier", words, OFFICE=program)
    assert status == 0, f"tools/dossier: status {status}, {said[-200:]}"
    assert said == f"dossier: SHA-256 {hashlib.sha256(wrote.encode()).hexdigest()}\n", f"tools/dossier says {said[-200:]}"
    return wrote


def of_generated(program: str, count: int, seed: int) -> Optional[str]:
    """Why the tables of a generated season, which has its answers and cuts, are not those of the plain program, or None."""
    with tempfile.TemporaryDirectory(prefix="tables-", dir=cases.ROOMS) as room:
        bundle = ran(program, ["generate", str(count), str(seed), "text"], b"", room)
        dossier = dossier_of(program, [put(f"{room}/bundle.txt", bundle)])
    return of_dossier(f"generate {count} {seed}", dossier.encode())


TWO_STATES = b"answer,1,1,1,1,freeze\nanswer,2,2,1,1,float\ncut,clerk,1\ncut,clerk,2\n"


def of_divided(program: str) -> Optional[str]:
    """Why the tables of the example with two states are not those of the plain program, or a unit has no quota, or None."""
    with open(f"{TOP}/examples/two-states/divided.txt", "rb") as it:
        bundle = it.read() + TWO_STATES
    with tempfile.TemporaryDirectory(prefix="tables-", dir=cases.ROOMS) as room:
        ran(program, ["units", "season.db"], bundle, room)
        dossier = dossier_of(program, ["--store", f"{room}/season.db"])
        _, said, status = called("tools/letters", [put(f"{room}/dossier.txt", dossier), f"{room}/let"])
        quotas = [] if status else [row[table(f"{room}/let/codes-final.csv")[0].index("Quota")] for row in table(f"{room}/let/codes-final.csv")[1:]]
    if quotas != ["home state", "other states"] and "apt-get install python3-gi" not in said:
        return f"tools/letters of two-states: status {status}, {said[-200:]}, the quotas are {quotas}"
    found = plain_tables.ranks(plain_tables.Plain(dossier), "final")
    if found != [["I1", "N", "HS", "OPEN", "Gender-Neutral", "2", "2"], ["I1", "N", "OS", "OPEN", "Gender-Neutral", "1", "1"]]:
        return f"checks/plain_tables.py: the ranks of two-states are {found}"
    return of_dossier("examples/two-states", dossier.encode())


def left_and_special(program: str) -> Optional[str]:
    """Why the seat of a candidate who left after the final list is not given by the special round, or a wrong table of those who left is taken, or None."""
    with open(f"{TOP}/examples/vacant-seats/bundle.txt", "rb") as it:
        bundle = it.read()
    with tempfile.TemporaryDirectory(prefix="left-", dir=cases.ROOMS) as room:
        put(f"{room}/dossier.txt", dossier_of(program, [put(f"{room}/bundle.txt", bundle)]))
        put(f"{room}/left.csv", "number,since\n2,3 August\n")
        wrote, said, status = called("tools/left", [f"{room}/dossier.txt", f"{room}/left.csv"], OFFICE=program)
        if status:
            return f"tools/left: status {status}: {said[-200:]}"
        ran(program, ["run", "again.db"], wrote.encode(), room)
        special = ran(program, ["special", "again.db"], b"candidate,programmes\n4,A,E\n2,E\n", room).decode()
        if special != "special seats 3 seated 2\nround 1 seated 2\nallot 2 E OPEN\nallot 4 A OPEN\nend round\n":
            return f"tools/left: the special round is {special!r}"
        _, said, status = called("tools/left", [f"{room}/dossier.txt", put(f"{room}/other.csv", "number\n4\n")], OFFICE=program)
        early = put(f"{room}/early.txt", dossier_of(program, [put(f"{room}/bundle.txt", bundle[: bundle.rindex(b"cut,clerk")])]))
        _, told, other = called("tools/left", [early, f"{room}/left.csv"], OFFICE=program)
    if status != 3 or "candidate 4 has no final admission" not in said or other != 3 or "the last cut is not made" not in told:
        return f"tools/left of wrong tables: {status} {said[-200:]} {other} {told[-200:]}"
    return None


def who_is_silent(program: str) -> Optional[str]:
    """Why `counts --names` does not name those who have not answered, with the board's columns and without a token, or None."""
    with open(f"{TOP}/examples/three-windows/bundle.txt", "rb") as it:
        bundle = it.read().partition(b"answer,4")[0]
    with tempfile.TemporaryDirectory(prefix="counts-", dir=cases.ROOMS) as room:
        ran(program, ["run", "season.db"], bundle, room)
        put(f"{room}/tokens.csv", TOKENS)
        wrote, said, status = called("deploy/counts", [f"{room}/season.db", "--names", f"{room}/tokens.csv"])
        rows = [[shown(it) for it in row] for row in csv.reader(wrote.removeprefix("\ufeff").splitlines())]
        spoiled = called("deploy/counts", [f"{room}/season.db", "--names", put(f"{room}/other.csv", "x,y\n1,2\n")])
        absent = called("deploy/counts", [f"{room}/season.db", "--names", f"{room}/none.csv"])
    wanted = [["number", "application_number", "name", "institute", "programme", "step"], ["4", "240310123454", "Name 4", "I3", "E", "OPEN"]]
    if status or rows != wanted or "window 1: 1 have no answer yet" not in said:
        return f"counts --names: status {status}, {rows}, {said[-200:]}"
    if spoiled[0] or spoiled[2] != 3 or "there is no column `number`" not in spoiled[1] or absent[2] != 3 or "cannot be read" not in absent[1]:
        return f"counts --names of a spoiled table: {spoiled} {absent}"
    return None


def trials(program: str, long: bool) -> Iterator[Trial]:
    """What is tried over a program, each a call that gives a fault or None."""
    yield functools.partial(of_generated, program, 300 if long else 40, 7)
    yield functools.partial(of_divided, program)
    yield functools.partial(left_and_special, program)
    yield functools.partial(who_is_silent, program)
