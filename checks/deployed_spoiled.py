"""The parts of checks/deploy that give scripts what a spreadsheet program or a wrong name makes of a file: each says what to do, and none ends with a traceback."""
import base64
import concurrent.futures
import contextlib
import csv
import gzip
import hashlib
import io
import json
import os
import shutil
import sqlite3
import subprocess
from typing import Callable, Iterator, Optional

from deployed import ANSWER, CLERK, CUT, SECOND, bundle_of, directly, part, tally
from deployed_files import script, strong
from front import SYSTEM, Office, called, found, text_of
from served import TOP

NAMES = "programme,A,भौतिकी\r\ninstitute,I1,\"IIT, Delhi\"\r\nprogramme,B,José\r\n"
# files that are none of what is wanted, whatever that is
JUNK = {
    "workbook.xlsx": b"PK\x03\x04" + bytes(200),
    "old.xls": b"\xd0\xcf\x11\xe0" + bytes(200),
    "empty.csv": b"",
    "blank.csv": b"\r\n\r\n",
    "half-utf16.csv": b"\xff\xfe\x00",
    "random": bytes((it * 7919 + it // 3) % 256 for it in range(3000)),
    "head.db": b"SQLite format 3\0" + bytes(range(256)) * 8,
    "page.html": b"<!doctype html><p>404",
}

# a way of spoiling a file, and its bytes then; and what a program came to over it: its status, what it said, and what it left
Spoiled = tuple[str, bytes]
Came = tuple[int, str, list[str]]


def put_junk(room: str) -> list[str]:
    for name, data in JUNK.items():
        with open(f"{room}/{name}", "wb") as it:
            it.write(data)
    os.makedirs(f"{room}/folder", exist_ok=True)
    return [f"{room}/{it}" for it in (*JUNK, "folder", "missing.csv", "no/such.csv")]


def says(label: str, came: tuple[int, str], statuses: tuple[int, ...], *words: str) -> None:
    status, wrote = came
    right = status in statuses and "Traceback" not in wrote and wrote.strip() and all(it in wrote for it in words)
    tally.holds(right, label, f"{status} {wrote[-400:]}")


@part("announce over spoiled files")
def announce_spoiled(room: str, program: str) -> None:
    os.makedirs(f"{room}/papers")
    for label, data, wanted in (
        ("UTF-8 with a mark", NAMES.encode("utf-8-sig"), "भौतिकी"),
        ("UTF-16", NAMES.encode("utf-16"), "भौतिकी"),
        ("UTF-16 without a mark", NAMES.encode("utf-16-le"), "भौतिकी"),
        ("semicolons", NAMES.replace(",A,", ";A;").replace(",B,", ";B;").replace(",I1,", ";I1;").encode(), "भौतिकी"),
        ("cp1252", "programme,B,José\r\n".encode("cp1252"), "José"),
    ):
        with open(f"{room}/names.csv", "wb") as it:
            it.write(data)
        says(f"announce names takes {label}", script("announce", [f"{room}/papers", "names", f"{room}/names.csv"], program), (0,), wanted)
        tally.holds(wanted in text_of(f"{room}/papers/names.json"), f"announce names keeps the letters of {label}")
    before = text_of(f"{room}/papers/names.json")
    for path in put_junk(room):
        says(f"announce names refuses {os.path.basename(path)}", script("announce", [f"{room}/papers", "names", path], program), (1, 3), "nothing was written")
    with open(f"{room}/lost.csv", "w", encoding="utf-8") as it:
        it.write("programme,A,??????\n")
    says("announce names refuses a name whose letters are lost", script("announce", [f"{room}/papers", "names", f"{room}/lost.csv"], program), (3,), "lost letters")
    says("announce into no folder", script("announce", [f"{room}/none", "notice", "x"], program), (1,), "nothing was written")
    tally.same(text_of(f"{room}/papers/names.json"), before, "announce leaves what is there where it refuses")


@part("begin and counts over spoiled files")
def others_spoiled(room: str, program: str) -> None:
    os.makedirs(f"{room}/stores")
    store = f"{room}/stores/season.db"
    for path in put_junk(room):
        name = os.path.basename(path)
        if os.path.isfile(path):
            with open(path, "rb") as it:
                says(f"begin refuses {name} as a bundle", script("begin", [store], program, it.read()), (3,), "begin: ")
        says(f"counts refuses {name}", script("counts", [path], program), (1, 3), "counts: ")
        says(f"papers refuses {name}", script("papers", ["--mock", path, f"{room}/mock"], program), (1, 3), "papers: ")
    given, _ = strong(bundle_of())
    for encoding in ("utf-16", "utf-16-le", "utf-32"):
        says(f"begin refuses a bundle in {encoding}", script("begin", [store], program, given.decode().encode(encoding)), (3,), "begin: ")
    says("begin without a folder", script("begin", [f"{room}/none/season.db"], program, given), (1,), "is not there")
    says("begin without a program", script("begin", [store], f"{room}/none", given), (1,), "No such file")
    tally.same(os.listdir(f"{room}/stores"), [], "begin makes nothing where it refuses")
    odd_stores(room, program, given)


def marked(room: str) -> bytes:
    """The database without a table in which `begin` lets the office begin: what a begin leaves that is killed before the office runs."""
    with contextlib.closing(sqlite3.connect(f"{room}/marked.db")) as base:
        base.executescript("PRAGMA application_id = 0x4E616368; PRAGMA user_version = 1;")
    with open(f"{room}/marked.db", "rb") as it:
        return it.read()


def odd_stores(room: str, program: str, given: bytes) -> None:
    """Stores that are there already: what an interrupted begin left is taken, and everything else is left as it is."""
    store = f"{room}/stores/season.db"
    stores: tuple[tuple[str, dict[str, Optional[bytes]], bool], ...] = (
        ("an empty file", {"": b""}, True),
        ("an empty file with the first byte of a log", {"": b"", "-wal": b"\0"}, True),
        ("an empty file with the head of a log", {"": b"", "-wal": bytes(41)}, True),
        ("a marked database without a table, and half of another", {"": marked(room), ".part": b"SQLite"}, True),
        ("a text", {"": b"hello\n"}, False),
        ("another database", {"": None}, False),
    )
    for label, files, is_taken in stores:
        for end, data in files.items():
            if data is None:
                base = sqlite3.connect(store)
                base.execute("CREATE TABLE guests(name)")
                base.commit()
                base.close()
            else:
                with open(store + end, "wb") as it:
                    it.write(data)
        held = {it: open(f"{room}/stores/{it}", "rb").read() for it in os.listdir(f"{room}/stores")}
        status, wrote = script("begin", [store], program, given)
        if is_taken:
            told = script("begin", [store], program, given)
            tally.holds(status == 0 and told[0] == 3 and "holds a season already" in told[1], f"begin takes up {label}", f"{status} {wrote} {told}")
        else:
            now = {it: open(f"{room}/stores/{it}", "rb").read() for it in os.listdir(f"{room}/stores")}
            tally.holds(status == 3 and "begun once" not in wrote and now == held, f"begin leaves {label}", f"{status} {wrote}")
        for name in os.listdir(f"{room}/stores"):
            os.remove(f"{room}/stores/{name}")


@part("begin refuses more weak tokens")
def more_weak(room: str, program: str) -> None:
    given, tokens = strong(bundle_of())
    for label, token in (
        ("md5sum of the number with a line end", hashlib.md5(b"1\n").hexdigest()),
        ("the SHA-512 of the number", hashlib.sha512(b"1").hexdigest()[:32]),
        ("the SHA-224 of the number with zeros", hashlib.sha224(b"000001").hexdigest()[:32]),
        ("a date of birth twice", "17Feb200617Feb2006"),
        ("a date of birth four times", "17022006" * 4),
    ):
        came = script("begin", [f"{room}/weak.db"], program, given.replace(tokens[0].encode(), token.encode()))
        tally.holds(came[0] == 3 and "easy to guess" in came[1], f"begin refuses weak tokens: {label}", f"{came}")


# ---- one file spoiled in many ways


def cut_short(data: bytes) -> Iterator[Spoiled]:
    """Beginnings and ends of a file, and files with a byte that is another one."""
    size = len(data)
    for tenth in range(1, 11):
        yield f"its first {tenth} of 11 parts", data[: size * tenth // 11]
        yield f"its last {tenth} of 11 parts", data[size * tenth // 11 :]
        at = size * tenth // 11
        yield f"another byte {at}", data[:at] + bytes([data[at] ^ 0x55]) + data[at + 1 :]
        yield f"a zero byte at {at}", data[:at] + b"\0" + data[at:]


def written_otherwise(data: bytes) -> Iterator[Spoiled]:
    """The same text in other letters, signs and line ends, or the bytes where they are none."""
    text = data.decode("utf-8", errors="replace").removeprefix("\ufeff")
    for name in ("utf-16", "utf-16-le", "utf-16-be", "utf-32", "utf-7", "cp1252", "cp037", "shift_jis"):
        yield f"in {name}", text.encode(name, errors="replace")
    for label, old, given in (
        ("old line ends", "\n", "\r"), ("no line ends", "\n", " "), ("empty lines", "\n", "\n\n"), ("semicolons", ",", ";"), ("tabs", ",", "\t"), ("bars", ",", "|"),
        ("no commas", ",", ""), ("many commas", ",", ",,,,"), ("blanks around its fields", ",", " , "), ("open quotes", ",", ',"'), ("quotes", ",", '","'), ("formulas", ",", ",="),
        ("marks of direction", ",", "\u200e,\u202a"), ("digits of Hindi", "1", "\u0967"), ("lost letters", "a", "??"), ("large letters", "", ""),
    ):
        yield f"with {label}", (text.replace(old, given) if old else text.upper()).encode()


def made_of(data: bytes) -> Iterator[Spoiled]:
    """Files made of a file: twice, turned around, packed, in another format, or with something before or behind it."""
    lines = data.split(b"\n")
    yield from (
        ("twice", data * 2), ("its lines turned around", b"\n".join(lines[::-1])), ("its lines in order", b"\n".join(sorted(lines))), ("without its first line", b"\n".join(lines[1:])),
        ("every other line", b"\n".join(lines[::2])), ("each line twice", b"\n".join(it for line in lines for it in (line, line))), ("packed by gzip", gzip.compress(data)),
        ("in base64", base64.b64encode(data)), ("in hexadecimal digits", data.hex().encode()), ("as JSON", json.dumps(data.decode("latin-1")).encode()), ("two marks", b"\xef\xbb\xbf" * 2 + data),
        ("sep=;", b"sep=;\r\n" + data), ("a title", b"Ministry of Education\n\n" + data), ("a million bytes behind it", data + b"x" * 1_000_000), ("a million commas behind it", data + b"," * 1_000_000),
        ("bytes of no text", data + bytes(range(128, 256))), ("only line ends", b"\n" * 1000), ("only marks", b"\xef\xbb\xbf" * 100), ("a signature", b"-----BEGIN PGP MESSAGE-----\n" + base64.b64encode(data)),
    )


def spoilt(data: bytes) -> list[Spoiled]:
    """A file spoiled in more than 90 ways, each with its name."""
    found = [*cut_short(data), *written_otherwise(data), *made_of(data), *JUNK.items()]
    tally.holds(len(found) > 90, "a file is spoiled in more than 90 ways", f"{len(found)}")
    return found


def tried_with(room: str, data: bytes, call: Callable[[str], Came]) -> list[str]:
    """What a program says of a file spoiled in each way, and whether it changed what was there: none may end with a traceback, and each refusal has words."""

    def fault(label: str, spoiled: bytes, number: int) -> Optional[str]:
        folder = f"{room}/{number}"
        os.makedirs(folder)
        with open(f"{folder}/spoiled", "wb") as it:
            it.write(spoiled)
        status, wrote, left = call(folder)
        if status == 0:
            return None
        is_said = "Traceback" not in wrote and wrote.strip() and status in (1, 3)
        return None if is_said and not left else f"{label}: {status} {wrote[-300:]} {left[:3]}"

    with concurrent.futures.ThreadPoolExecutor(4) as lanes:
        return [it for it in lanes.map(fault, *zip(*((label, it, at) for at, (label, it) in enumerate(spoilt(data))))) if it]


def store_of(room: str, program: str) -> bytes:
    """The bytes of a store with a cut and an answer."""
    with Office(program, room) as office:
        office.start("new", bundle=bundle_of())
        directly(office, "POST", "/v1/cut", CLERK, CUT)
        directly(office, "POST", "/v1/answer", SECOND, ANSWER)
        office.kill()
    called([program, "resume", f"{room}/season.db"], b"state,nobody\n")
    with open(f"{room}/season.db", "rb") as it:
        return it.read()


@part("four programs over a file spoiled in 90 ways")
def spoiled_in_many_ways(room: str, program: str) -> None:
    """tools/season, announce, begin and counts, each over its own kind of file."""

    def seasons(folder: str) -> Came:
        put_season(folder)
        os.replace(f"{folder}/spoiled", f"{folder}/register.csv")
        status, wrote, said = season(folder, "--yes")
        return status, said, [it for it in os.listdir(folder) if it in ("tokens.csv", "names.csv")] + [it for it in (wrote,) if it and status]

    def announces(folder: str) -> Came:
        os.makedirs(f"{folder}/papers")
        return *script("announce", [f"{folder}/papers", "names", f"{folder}/spoiled"], program), os.listdir(f"{folder}/papers")

    def begins(folder: str) -> Came:
        os.makedirs(f"{folder}/store")
        with open(f"{folder}/spoiled", "rb") as it:
            return *script("begin", [f"{folder}/store/season.db"], program, it.read()), os.listdir(f"{folder}/store")

    def counts(folder: str) -> Came:
        return *script("counts", [f"{folder}/spoiled"], program), [it for it in os.listdir(folder) if it != "spoiled"]

    bundle, _ = strong(bundle_of())
    os.makedirs(f"{room}/store")
    for name, call, data in (("season", seasons, REGISTER.encode()), ("announce", announces, NAMES.encode()), ("begin", begins, bundle), ("counts", counts, store_of(f"{room}/store", program))):
        os.makedirs(f"{room}/{name}")
        faults = tried_with(f"{room}/{name}", data, call)
        tally.holds(not faults, f"{name} over a file spoiled in many ways", f"{len(faults)}: {faults[:3]}")


# ---- tokens.csv

REGISTER = "id,category,traits,m1,Name\n" + "".join(f"{it},GEN,-,{it},{name}\n" for it, name in enumerate(("आशा कुमारी", "José Ã", "ಅನಿತಾ", "زینب", '"Li, Wei"'), 1))


def put_season(room: str) -> None:
    for name, text in (
        ("register.csv", REGISTER),
        ("matrix.csv", "programme,institute,list,step,seats\nA,I1,1,OPEN,1\n"),
        ("choices.csv", "candidate,preference,programme\n1,1,A\n"),
        ("season.csv", "rounds,2\n"),
    ):
        with open(f"{room}/{name}", "w", encoding="utf-8") as it:
            it.write(text)


def season(room: str, *words: str) -> tuple[int, str, str]:
    ran = subprocess.run([f"{TOP}/tools/season", *words, room], capture_output=True, text=True)
    return ran.returncode, ran.stdout, ran.stderr


@part("tokens.csv in other encodings")
def tokens_saved(room: str, program: str) -> None:
    put_season(room)
    _, bundle, _ = season(room)
    with open(f"{room}/tokens.csv", "rb") as it:
        data = it.read()
    tally.holds(data.startswith(b"\xef\xbb\xbf") and "आशा कुमारी".encode() in data, "tokens.csv begins with the mark of UTF-8")
    text = data.decode("utf-8-sig")
    for label, saved in (
        ("UTF-16", text.encode("utf-16")),
        ("UTF-8 without a mark", text.encode()),
        ("cp1252 with semicolons", text.replace(",", ";").replace('"Li; Wei"', "Li Wei").encode("cp1252", errors="replace")),
        ("tabs", text.replace(",", "\t").replace('"Li\t Wei"', "Li Wei").encode("utf-16")),
        ("rows in another order, with blanks", ("\r\n".join([text.splitlines()[0], "", *(it.replace(",", " , ", 1) for it in text.splitlines()[:0:-1])]) + "\r\n").encode()),
    ):
        with open(f"{room}/tokens.csv", "wb") as to:
            to.write(saved)
        status, again, said = season(room)
        tally.holds(status == 0 and again == bundle, f"tokens.csv as {label} gives the same tokens", said[-300:])
        tally.holds(open(f"{room}/tokens.csv", "rb").read() == data, f"tokens.csv has its letters again after {label}")
    refused_tokens(room, text)


def refused_tokens(room: str, text: str) -> None:
    """Files of tokens that cannot be read: nothing is written, and nobody is told to throw tokens away."""
    rows = list(csv.reader(io.StringIO(text)))
    spoiled = {
        "a number in place of a token": text.replace(rows[2][1], "1.2E+31"),
        "a token twice": text.replace(rows[2][1], rows[3][1]),
        "no header": text.partition("\n")[2],
        "no column of tokens": text.replace("token", "mark", 1),
    }
    junk = {os.path.basename(it): it for it in put_junk(room) if os.path.isfile(it)}
    for label, given in (*((it, data.encode()) for it, data in spoiled.items()), *((it, JUNK[it]) for it in junk)):
        with open(f"{room}/tokens.csv", "wb") as it:
            it.write(given)
        status, wrote, said = season(room)
        right = status == 3 and not wrote and "may be sent already" in said and "Traceback" not in said and not any(row[1] in said for row in rows[1:])
        tally.holds(right, f"tokens.csv with {label} is refused", f"{status} {said[-300:]}")
        tally.holds(open(f"{room}/tokens.csv", "rb").read() == given, f"tokens.csv with {label} is left as it is")


def saved_by(office: str, room: str, source: str, to: str, *words: str) -> None:
    """Saves a file by the spreadsheet program LibreOffice, in a profile of its own."""
    how = [office, "--headless", f"-env:UserInstallation=file://{room}/profile", *words, "--convert-to", to, "--outdir", f"{room}/saved", source]
    subprocess.run(how, check=True, capture_output=True, timeout=180, env={**SYSTEM, "HOME": room})


READ_AS = "--infilter=CSV:44,34,UTF8,1"
SAVED_AS = {"UTF-8": "csv:Text - txt - csv (StarCalc):44,34,76,1", "UTF-8 with semicolons": "csv:Text - txt - csv (StarCalc):59,34,76,1", "Windows-1252": "csv:Text - txt - csv (StarCalc):44,34,1,1"}


def saved_again(room: str, stem: str) -> Iterator[tuple[str, str]]:
    """Saves a file of a folder in each form, directly and through a workbook; yields what it is, and where. A double click opens it so: each field is guessed by its form."""
    office = found("soffice")
    saved_by(office, room, f"{room}/{stem}.csv", "xlsx", READ_AS)
    for label, form in SAVED_AS.items():
        for source in (f"{room}/{stem}.csv", f"{room}/saved/{stem}.xlsx"):
            saved_by(office, room, source, form, *([READ_AS] if source.endswith(".csv") else []))
            yield f"by {os.path.splitext(source)[1][1:]}, saved as {label}", f"{room}/saved/{stem}.csv"


@part("tokens.csv through LibreOffice and back", [] if found("soffice") else ["soffice"], rooms=None)
def tokens_through(room: str, program: str) -> None:
    put_season(room)
    _, bundle, _ = season(room)
    data = text_of(f"{room}/tokens.csv")
    shutil.copy(f"{room}/tokens.csv", f"{room}/first.csv")
    for how, saved in saved_again(room, "first"):
        shutil.copy(saved, f"{room}/tokens.csv")
        status, again, said = season(room)
        tally.holds(status == 0 and again == bundle, f"tokens.csv through LibreOffice {how}: the same tokens", said[-300:])
        tally.same(text_of(f"{room}/tokens.csv"), data, f"tokens.csv through LibreOffice {how}: the same names")
    shutil.copy(f"{room}/saved/first.xlsx", f"{room}/tokens.csv")
    status, _, said = season(room)
    tally.holds(status == 3 and "save it as CSV UTF-8" in said and "may be sent already" in said, "a workbook in place of tokens.csv", said[-300:])


def read_by(program: str, folder: str, files: dict[str, str], people: dict[str, str]) -> tuple[list[int], str, dict[str, Optional[int]], str, str]:
    """What announce and counts make of a file of names and one of tokens: their statuses, the names, who is found by number and token, and who has not answered."""
    os.makedirs(f"{folder}/papers")
    names = script("announce", [f"{folder}/papers", "names", files["names"]], program)
    numbers = script("announce", [f"{folder}/papers", "numbers", files["tokens"]], program)
    silent = script("counts", [files["store"], "--names", files["tokens"]], program)
    told, seen = json.loads(text_of(f"{folder}/papers/numbers.json") or "{}"), {}
    for number, token in people.items() if told else []:
        key = hashlib.pbkdf2_hmac("sha256", token.encode(), (told["salt"] + number).encode(), 1000, 8).hex()
        seen[number] = json.loads(text_of(f"{folder}/papers/numbers/{told['salt']}/{key[0]}.json")).get(key[1:])
    return [names[0], numbers[0], silent[0]], text_of(f"{folder}/papers/names.json"), seen, silent[1] if silent[0] == 0 else "", names[1] + numbers[1] + silent[1]


@part("announce, begin and counts over what LibreOffice saved", [] if found("soffice") else ["soffice"], rooms=None)
def read_after(room: str, program: str) -> None:
    put_season(room)
    with open(f"{room}/register.csv", "w", encoding="utf-8") as it:
        it.write(REGISTER.replace("id,", "application number,").replace("\n", "\n26031000000").removesuffix("26031000000"))
    with open(f"{room}/choices.csv", "w", encoding="utf-8") as it:
        it.write("candidate,preference,programme\n260310000001,1,A\n")
    _, bundle, said = season(room)
    tokens = {it["candidate"]: it for it in csv.DictReader(io.StringIO(text_of(f"{room}/tokens.csv").removeprefix("\ufeff")))}
    people = {it["application_number"]: it["token"] for who, it in tokens.items() if who != "clerk"}
    for name, text in (("given.csv", text_of(f"{room}/tokens.csv")), ("codes.csv", f"\ufeff{NAMES}")):
        with open(f"{room}/{name}", "w", encoding="utf-8", newline="") as it:
            it.write(text)
    status, wrote = script("begin", [f"{room}/season.db"], program, bundle.encode())
    called([program, "resume", f"{room}/season.db"], b"cut,clerk,0\n")
    files = {"names": f"{room}/codes.csv", "tokens": f"{room}/given.csv", "store": f"{room}/season.db"}
    wanted = read_by(program, f"{room}/plain", files, people)
    tally.holds(status == 0 and wanted[0] == [0, 0, 0] and [*wanted[2].values()] == [1, 2, 3, 4, 5], "announce, begin and counts over the files as they are", f"{said} {wrote} {wanted}")
    tally.holds("भौतिकी" in wanted[1] and "आशा कुमारी" in wanted[3], "names in Hindi", f"{wanted}")
    for number, ((how, names), (_, given)) in enumerate(zip(saved_again(room, "codes"), saved_again(room, "given"))):
        came = read_by(program, f"{room}/{number}", {**files, "names": names, "tokens": given}, people)
        if how.endswith("Windows-1252"):
            tally.holds(came[0] == [3, 3, 3] and came[4].count("save ") >= 3 and "Traceback" not in came[4], f"lost letters after LibreOffice {how} are told", f"{came}")
        else:
            tally.same(came[:4], wanted[:4], f"announce and counts after LibreOffice {how}")
        shutil.copy(given, f"{room}/tokens.csv")
        _, again, said = season(room)
        status, wrote = script("begin", [f"{room}/{number}/season.db"], program, again.encode())
        tally.holds(status == 0 and again == bundle, f"begin after LibreOffice {how}", f"{status} {wrote} {said[-300:]}")
