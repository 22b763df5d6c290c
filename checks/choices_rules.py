"""What a candidate may do with a list, and what nobody may: the service of deploy/choices asked as a browser without a script asks it."""
import csv
import glob
import http.client
import json
import os
import re
import resource
import shutil
import sqlite3
import string
import subprocess
import sys
import tempfile
from typing import Any, Mapping, NamedTuple, Optional, Union
from urllib.parse import urlencode

from cases import ROOMS
from choices_load import CHOICES, Service, called
from deployed import Tally
from deployed_spoiled import Came, saved_again, tried_with
from front import found
from served import TOP, free_port

sys.path[:0] = [f"{TOP}/deploy/choices", f"{TOP}/tools"]
import season_file
import store

TOKENS = {101: "k3jf9s0d2mq8", 102: "p0w7x1z5vbn4", 103: "t6y2u8i4o0re", 104: "a9s8d7f6g5h4"}
BUNDLE = f"""office units 1
[units]
N,KA
[states]
101,KA
102,TN
office bundle 1
[season]
rounds,2
clerk,clerk0001xyz
[register]
id,category,traits,token,m1,m2,m3,m4
101,GEN,-,{TOKENS[101]},2,7
102,OBC,WD,{TOKENS[102]},1R
103,GEN,-,{TOKENS[103]},3
104,SC,-,{TOKENS[104]}
[matrix]
programme,institute,list,step,seats,W,D,X,S,F,L
A,I1,1,OPEN,1
B,I2,1,OPEN,1
C,I2,2,OPEN,1
N-HS,I3,1,OPEN,1
N-OS,I3,2,OPEN,1
[choices]
candidate,programmes
103,B,A
"""
NUMBERS = "candidate,token,number,application_number,name\nclerk,x\n" + "".join(f"{it},{token},{it},2603100000{it},Name {it}\n" for it, token in TOKENS.items() if it != 104)


class Reply(NamedTuple):
    """A reply: its status, its fields, and its text."""

    status: int
    fields: dict[str, str]
    text: str

    def draft(self) -> str:
        """Returns the list that the page shows."""
        found = re.search(r'name="list" value="([^"]*)"', self.text)
        return found[1] if found else ""

    def receipt(self) -> Optional[int]:
        """Returns the number of the receipt."""
        found = re.fullmatch(r"(?:receipt|report) (\d+)(?: .*)?\n", self.text)
        return int(found[1]) if found else None


class Browser:
    """A browser without a script: it keeps its cookie, and sends forms."""

    def __init__(self, port: int) -> None:
        self.port, self.cookie, self.form = port, "", ""

    def ask(self, method: str, path: str, form: Optional[Mapping[str, object]] = None, fields: Optional[dict[str, str]] = None) -> Reply:
        """Returns the reply to a request."""
        link = http.client.HTTPConnection("127.0.0.1", self.port, timeout=60)
        body = None if form is None else urlencode(form)
        known = {"Cookie": self.cookie} if self.cookie else {}
        known |= {"Content-Type": "application/x-www-form-urlencoded"} if form is not None else {}
        link.request(method, path, body, {**known, **(fields or {})})
        got = link.getresponse()
        reply = Reply(got.status, {name.lower(): value for name, value in got.getheaders()}, got.read().decode())
        link.close()
        if "set-cookie" in reply.fields:
            self.cookie = reply.fields["set-cookie"].split(";")[0]
        found = re.search(r'name="form" value="([0-9a-f]{32})"', reply.text)
        self.form = found[1] if found else self.form
        return reply

    def enter(self, number: Union[int, str], token: str, **more: str) -> Reply:
        """Signs in, and looks at the page."""
        reply = self.ask("POST", "/choices/enter", {"number": number, "token": token, **more})
        if reply.status == 303:
            self.ask("GET", reply.fields["location"])
        return reply

    def send(self, word: str, **form: object) -> Reply:
        """Sends a form of the page."""
        return self.ask("POST", f"/choices/{word}", {"form": self.form, **form})

    def save(self, codes: str) -> Reply:
        """Saves a list."""
        return self.send("list", list=codes, do="save")


class PortService(Service):
    """The service at a port."""

    def __init__(self, room: str, **how: Any) -> None:
        self.port = free_port()
        super().__init__(room, "--port", str(self.port), **how)


def begun(room: str, numbers: bool = True) -> None:
    """Makes the store of a small season in a folder."""
    os.makedirs(f"{room}/season", exist_ok=True)
    with open(f"{room}/tokens.csv", "w", encoding="utf-8") as it:
        it.write(NUMBERS)
    called("begin", f"{room}/choices.db", *(["--tokens", f"{room}/tokens.csv"] if numbers else []), given=BUNDLE)


# ---- signing in


def signing_in(tally: Tally, room: str, port: int) -> None:
    """Looks at who is let in."""
    who = Browser(port)
    tries: tuple[tuple[Union[int, str], str, int, str], ...] = (
        (101, TOKENS[101], 303, "the candidate number of the letter, where the board has numbers of its own"),
        (101, TOKENS[102], 403, "a candidate number with another one's token"),
        (999, TOKENS[101], 403, "an unknown candidate number"),
        ("2603100000101", TOKENS[102], 403, "another one's token"),
        ("2603100000999", TOKENS[101], 403, "an unknown number"),
        ("", "", 403, "nothing"),
        ("2603100000101", f" {TOKENS[101][:6]}- {TOKENS[101][6:]} ", 303, "a token with blanks"),
        (104, TOKENS[104], 303, "a candidate without a number of the board"),
    )
    for number, token, wanted, label in tries:
        tally.same(Browser(port).enter(number, token).status, wanted, f"sign in: {label}")
    came = who.enter("2603100000101", TOKENS[101])
    tally.holds(all(it in came.fields["set-cookie"] for it in ("__Host-", "Secure", "HttpOnly", "SameSite=Strict", "Path=/")), "the cookie", came.fields["set-cookie"])
    page = who.ask("GET", "/choices/")
    tally.holds("2603100000101" in page.text and "Name 101" in page.text and TOKENS[101] not in page.text, "the entry of the register is there, and no token")
    forged = who.cookie.replace("=101.", "=102.")
    tally.holds('name="token"' in Browser(port).ask("GET", "/choices/", fields={"Cookie": forged}).text, "another number in the cookie signs in nobody")
    kept = who.cookie
    tally.same(who.send("leave").status, 200, "sign out")
    tally.holds('name="token"' in Browser(port).ask("GET", "/choices/", fields={"Cookie": kept}).text, "a cookie from before the sign-out signs in nobody")


def own_list(tally: Tally, room: str, port: int) -> None:
    """Looks at what a candidate may list, and at drafts and receipts."""
    first, second = Browser(port), Browser(port)
    first.enter("2603100000101", TOKENS[101])
    second.enter("2603100000102", TOKENS[102])

    def offered(who: Browser) -> set[str]:
        return set(re.findall(r'value="add ([^"]+)"', who.ask("GET", "/choices/").text))

    tally.same(offered(first), {"A", "B", "C", "N"}, "who has places in lists 1 and 2 is offered all")
    tally.same(offered(second), {"A", "B"}, "who has no place in list 2 is not offered C, and not N from another state")
    for codes, status, label in (("A", 303, "one"), ("", 303, "an empty list"), ("C", 409, "a programme without a place"), ("A B A", 409, "one twice"), ("A N-HS", 409, "a unit"), ("X", 409, "an unknown code")):
        tally.same(second.save(codes).status, status, f"a list of {label}")
    tally.same(second.save(" ".join(f"A{it}" for it in range(1001))).status, 409, "a list of 1,001")
    came = first.save("B N A")
    tally.same(first.save("B N A").receipt(), came.receipt(), "the same list again has the same receipt")
    page = first.ask("GET", came.fields["location"])
    tally.holds("Your list is saved." in page.text and store.digest_of("2603100000101,B,N,A") in page.text, "the page has the receipt")
    for do, wanted in (("up A", "B A N"), ("down B", "N B A"), ("top A", "A B N"), ("out N", "B A"), ("add C", "B N A C"), ("add A", "B N A"), ("up B", "B N A"), ("nonsense", "B N A")):
        came = first.send("list", list="B N A", do=do)
        tally.same((came.status, came.draft()), (200, wanted), f"the button {do}")
    came = first.send("list", list="B", do="take", codes="A,\r\nB\r\n C")
    tally.same(came.draft(), "A B C", "codes that are pasted")
    tally.same(first.ask("GET", "/choices/").draft(), "B N A", "a draft is not saved by itself")
    came = first.send("list", list="", do="find", find="i2")
    tally.same(set(re.findall(r'value="add ([^"]+)"', came.text)), {"B", "C"}, "programmes of an institute are found")


def locking(tally: Tally, room: str, port: int) -> None:
    """Looks at locking, at unlocking by the clerk, and at reports."""
    who = Browser(port)
    who.enter("2603100000101", TOKENS[101])
    receipt = who.save("A B").receipt() or 0
    tally.same(who.send("lock", receipt=receipt).status, 409, "locking without the box")
    tally.same(who.send("lock", receipt=receipt - 1, sure="yes").status, 409, "locking an older list")
    tally.same(who.send("lock", receipt=receipt, sure="yes").status, 303, "locking")
    tally.same(who.save("B").status, 409, "saving a locked list")
    tally.holds("locked" in who.ask("GET", "/choices/").text and 'id="editor"' not in who.ask("GET", "/choices/").text, "the page of a locked list has no editor")
    called("unlock", f"{room}/choices.db", "2603100000101")
    called("unlock", f"{room}/choices.db", "2603100000101", status=3)
    tally.same(who.save("B").status, 303, "saving after the clerk unlocked the list")
    tally.same(who.send("report", text="  ").status, 409, "an empty report")
    tally.same(who.send("report", text="x" * 1001).status, 409, "a long report")
    came = who.send("report", text="=my place is 1 & <b>not</b> 2")
    tally.same((came.status, who.send("report", text="=my place is 1 & <b>not</b> 2").receipt()), (303, came.receipt()), "a report, twice")
    tally.holds("&lt;b&gt;not" in who.ask("GET", "/choices/").text, "a report is shown as text")


def foreign(tally: Tally, room: str, port: int) -> None:
    """Looks at what nobody may send."""
    who, other = Browser(port), Browser(port)
    who.enter("2603100000101", TOKENS[101])
    other.enter("2603100000102", TOKENS[102])
    before = called("state", f"{room}/choices.db")
    for form, label in (("", "no token of the form"), ("0" * 32, "a wrong one"), (other.form, "another visit's"), ("é", "one that is no ASCII")):
        came = who.ask("POST", "/choices/list", {"form": form, "list": "A", "do": "save"})
        tally.same((came.status, came.draft()), (403, "A"), f"a list with {label} is refused, and stays on the page")
    for site in ("cross-site", "same-site"):
        tally.same(who.ask("POST", "/choices/list", {"form": who.form, "list": "A", "do": "save"}, {"Sec-Fetch-Site": site}).status, 403, f"a form from {site}")
    gone = Browser(port).ask("POST", "/choices/list", {"form": who.form, "list": "A B", "do": "save"})
    tally.same((gone.status, gone.draft()), (403, "A B"), "a list after the visit is over goes along to the sign-in")
    again = Browser(port)
    came = again.enter("2603100000101", TOKENS[101], list="A B")
    tally.same((came.status, came.draft()), (200, "A B"), "and is there after it")
    tally.same(called("state", f"{room}/choices.db"), before, "nothing of this was kept")
    malformed(tally, who)


def malformed(tally: Tally, who: Browser) -> None:
    """Looks at requests that are none."""
    big = {"form": who.form, "list": "A" * 70_000}
    tally.same(who.ask("POST", "/choices/list", big).status, 413, "a body above the limit")
    tally.same(who.ask("POST", "/choices/list", {}, {"Content-Type": "text/plain"}).status, 403, "an empty body")
    tally.same(who.ask("POST", "/choices/list", {"a": "b"}, {"Content-Type": "multipart/form-data"}).status, 400, "a body of another type")
    tally.same(who.ask("GET", "/choices/", fields={"X-Long": "a" * 9_000}).status, 431, "a long head")
    tally.same(who.ask("GET", "/choices/", fields={"Transfer-Encoding": "chunked"}).status, 400, "a body in chunks")
    for method, path, status in (("GET", "/choices/nothing", 404), ("GET", "/", 404), ("PUT", "/choices/", 405), ("DELETE", "/choices/list", 405), ("GET", "/choices/list", 303), ("HEAD", "/choices/", 200)):
        tally.same(who.ask(method, path).status, status, f"{method} {path}")


def papers(tally: Tally, room: str, port: int) -> None:
    """Looks at names and the mock round."""
    who = Browser(port)
    who.enter("2603100000101", TOKENS[101])
    who.save("A B N")
    tally.holds('id="mock"' not in who.ask("GET", "/choices/").text, "there is no mock round before one is published")
    with open(f"{room}/season/names.json", "w", encoding="utf-8") as it:
        hindi = {"programmes": {"A": "भौतिकी"}, "institutes": {"I1": "एनआईटी गोवा"}, "lists": {"1": "जेईई (मेन)"}}
        json.dump({"programmes": {"A": "Physics", "N": "Civil <i>Engineering</i>"}, "institutes": {"I3": "NIT Goa"}, "lists": {"1": "JEE (Main)"}, "hi": hindi}, it)
    with open(f"{room}/season/mock-round.txt", "w", encoding="utf-8") as it:
        it.write("round 1 seated 1\nallot 101 N-HS D\nend round\n")
    other = PortService(room)
    with other:
        who.port = other.port
        page = who.ask("GET", "/choices/hi/").text
        tally.holds("Civil &lt;i&gt;Engineering&lt;/i&gt;, NIT Goa (N)" in page, "names are shown as text")
        tally.holds("भौतिकी, एनआईटी गोवा (A)" in page and "जेईई (मेन) में रैंक" in page, "names are in Hindi where they are published so")
        tally.holds("Physics, I1 (A)" in who.ask("GET", "/choices/").text and "Place in JEE (Main)" in who.ask("GET", "/choices/").text, "and in English on the other page")
        found = who.send("list", list="B", do="find", find="भौतिकी").text
        tally.holds('data-code="A"' in found and 'data-code="N"' not in found, "a name in either language finds its programme", found)
        tally.holds('lang="hi"' in page and "आपकी पसंद 3" in page and "/season/mock-round.txt" in page, "the seat of the mock round, in Hindi")
        tally.holds("आरक्षण से मुक्त की गई सीटें" in page and " D" not in page.partition('id="mock"')[2].partition("<ul>")[0], "and its kind in words, without the letter D")


# ---- the clerk


def closing(tally: Tally, room: str, port: int) -> None:
    """Looks at what the clerk gets."""
    who, folder = Browser(port), f"{room}/lists"
    who.enter("2603100000101", TOKENS[101])
    who.save("N B")
    called("write", f"{room}/choices.db", folder)
    tally.same(who.save("B N").status, 303, "writing the lists closes nothing")
    called("announce", f"{room}/choices.db", "2026-01-01T10:00+05:30", status=3)
    called("announce", f"{room}/choices.db", "2090-06-20T17:00+05:30")
    tally.holds("20-06-2090 17:00 IST" in who.ask("GET", "/choices/").text, "the announced hour")
    called("close", f"{room}/choices.db", folder)
    tally.same((who.save("A").status, who.ask("GET", "/choices/").draft()), (409, ""), "nothing is saved after the clerk closed")

    def read(name: str) -> str:
        with open(f"{folder}/{name}", encoding="utf-8") as it:
            return it.read()

    wide = "candidate,programmes\n2603100000101,B,N\n2603100000103,B,A\n"
    tally.same(read("choices.csv"), wide, "choices.csv")
    tally.same(read("choices.txt"), "[choices]\n" + wide.replace("2603100000", ""), "choices.txt")
    tally.holds(",\"'=my place" in read("reports.csv").replace(",'=my", ",\"'=my"), "a report is no formula")
    tally.same(os.stat(f"{folder}/choices.csv").st_mode & 0o777, 0o600, "the clerk's files are the owner's alone")
    before = read("choices.csv"), read("receipts.csv")
    called("close", f"{room}/choices.db", folder)
    tally.same((read("choices.csv"), read("receipts.csv")), before, "closing again writes the same")


PARTS = (signing_in, own_list, foreign, locking, papers, closing)


def secrets_kept(tally: Tally, room: str) -> None:
    """Looks for tokens where none may be, and at how the store syncs."""
    held = b"".join(open(it, "rb").read() for it in glob.glob(f"{room}/choices.db*") + glob.glob(f"{room}/service.log") + glob.glob(f"{room}/lists/*"))
    tally.same([it for it in TOKENS.values() if it.encode() in held], [], "no token is in the store, the log or the clerk's files")
    tally.same(os.stat(f"{room}/choices.db").st_mode & 0o777, 0o600, "the store is its owner's alone")
    kept = store.Store(f"{room}/choices.db").base
    ((sync,), (log,)) = kept.execute("PRAGMA synchronous").fetchall() + kept.execute("PRAGMA journal_mode").fetchall()
    tally.same((sync, log), (2, "wal"), "each transaction is synced")


def rules(tally: Tally) -> None:
    """Tries all parts over one service, one after another."""
    with tempfile.TemporaryDirectory(prefix="choices-", dir=ROOMS) as room:
        begun(room)
        with PortService(room) as service:
            for part in PARTS:
                part(tally, room, service.port)
        secrets_kept(tally, room)


def full_disk(tally: Tally) -> None:
    """Looks at a service whose disk takes no more: it gives no receipt, and keeps what it gave."""
    with tempfile.TemporaryDirectory(prefix="choices-", dir=ROOMS) as room:
        begun(room, numbers=False)
        with PortService(room, preexec_fn=lambda: resource.setrlimit(resource.RLIMIT_FSIZE, (80_000, 80_000))) as service:
            who, kept = Browser(service.port), []
            who.enter(101, TOKENS[101])
            for turn in range(200):
                codes = ("A", "B", "A B", "B A")[turn % 4]
                came = who.save(codes)
                if came.status != 303:
                    break
                kept.append((str(came.receipt()), codes))
            tally.same((came.status, came.draft(), "NOT saved" in came.text), (503, codes, True), "a full disk is said, and the list stays on the page")
            tally.same(who.ask("GET", "/choices/").status, 200, "the service goes on")
        called("write", f"{room}/choices.db", f"{room}/lists")
        with open(f"{room}/lists/receipts.csv", encoding="utf-8") as it:
            rows = [(row[0], row[5]) for row in csv.reader(it) if row[1] == "101"]
        tally.same(rows, kept, "all that had a receipt is there, and nothing else")


def beginning(tally: Tally) -> None:
    """Looks at inputs of `begin` that are none, and at a store that is damaged."""
    with tempfile.TemporaryDirectory(prefix="choices-", dir=ROOMS) as room:
        path = f"{room}/choices.db"
        for given, label in (("", "nothing"), ("office bundle 1\n[register]\n", "a part of a bundle"), (BUNDLE.replace("101,GEN,-", "0,GEN,-"), "a wrong number"), (BUNDLE.replace(TOKENS[101], "short"), "a wrong token"), (BUNDLE.replace(TOKENS[101], "tok00000101"), "a token that is easy to guess")):
            called("begin", path, given=given, status=3)
            tally.holds(not os.path.exists(path), f"begin with {label} makes no store")
        called("begin", path, given=BUNDLE)
        called("begin", path, given=BUNDLE, status=3)
        tally.same(called("state", path).splitlines()[0], "candidates 4 lists 1 empty 0 locked 0", "begin with lists of the bundle")
        called("copy", path, f"{room}/copy.db")
        tally.same(called("state", f"{room}/copy.db"), called("state", path), "a copy")
        called("copy", path, f"{room}/copy.db", status=1)
        most(tally, store.Store(f"{room}/copy.db"))
        for data in (b"", b"no store", b"SQLite format 3\0" + bytes(4080)):
            with open(f"{room}/other.db", "wb") as it:
                it.write(data)
            tally.holds("is no store of lists" in called("serve", f"{room}/other.db", status=3), "a file that is no store is not served, and a person has to look")
        base = sqlite3.connect(path)
        base.execute("UPDATE entry SET codes = 'A B'")
        base.commit()
        base.close()
        tally.holds("damaged" in called("write", path, f"{room}/lists", status=3), "a list that is not that of its receipt is reported")


# ---- a file of tokens that a spreadsheet program saved


def tokens_csv(numbers: dict[int, str], head: str = "candidate,token,number,application_number,name") -> str:
    """Returns a file of tokens with these application numbers."""
    return "\n".join([head, "clerk,x", *(f"{it},{TOKENS[it]},{it},{number},Name {it}" for it, number in numbers.items()), ""])


ZEROS = {101: "0240310123", 102: "0240310124", 103: "1240310125"}
WHOLE = tokens_csv(ZEROS)
AT = "column application_number (D): "
REGISTER = "application number,name\n" + "".join(f"{it},x\n" for it in ZEROS.values())
# what a spreadsheet program made of the file, the register next to it if there is one, and what `begin` says of it
CHANGED: tuple[tuple[str, str, str, str], ...] = (
    ("all zeros are lost", WHOLE.replace(",0", ","), REGISTER, f"row 3, {AT}`240310123`: the register next to the file has `0240310123`: a spreadsheet program drops zeros at the beginning. Put a good copy"),
    ("one number has lost its zero", WHOLE.replace(",02403101", ",2403101", 1), "", f"row 3, {AT}`240310123`: other application numbers have 10 digits and zeros before them"),
    ("few numbers have lost their zeros", tokens_csv({101: "240310123", 102: "1240310124", 103: "1240310125"}), "", f"row 3, {AT}`240310123`: most application numbers have 10 digits"),
    ("a long number is a power of ten", tokens_csv({101: "2.60310E+12", 102: "2603100000102"}), "", f"row 3, {AT}`2.60310E+12`: a spreadsheet program shortened the number. Put a good copy"),
    ("two numbers are one", tokens_csv({101: "2603100000000", 102: "2603100000000"}), "", f"row 4, {AT}`2603100000000`: candidate 101 has this application number too"),
    ("a token is a power of ten", WHOLE.replace(TOKENS[102], "1.2E+31"), "", "row 4, column token (B): candidate 102 has another token in the bundle: a spreadsheet program may have changed it"),
    ("a token is missing", WHOLE.replace(TOKENS[103], ""), "", "row 5, column token (B): candidate 103 has another token"),
    ("a candidate is a power of ten", WHOLE.replace("\n101,", "\n1.01E+02,"), "", "row 3, column candidate (A): `1.01E+02`: a candidate number is 1 to 999,999,999"),
    ("the columns have no names", WHOLE.partition("\n")[2], "", "there is no column `candidate`"),
)


def spreadsheets(tally: Tally) -> None:
    """Looks at files of tokens that a spreadsheet program changed: they are refused, with the row and what to do, and without a token."""
    with tempfile.TemporaryDirectory(prefix="choices-", dir=ROOMS) as room:
        path, file = f"{room}/choices.db", f"{room}/tokens.csv"
        for label, text, register, wanted in CHANGED:
            for name, data in (("tokens.csv", text), ("register.csv", register)):
                with open(f"{room}/{name}", "w", encoding="utf-8") as it:
                    it.write(data)
            said = called("begin", path, "--tokens", file, given=BUNDLE, status=3)
            is_told = wanted in said and "Traceback" not in said and not any(it in said for it in TOKENS.values())
            tally.holds(is_told and not os.path.exists(path), f"begin refuses a file of tokens in which {label}", said)
    saved_well(tally)


def saved_well(tally: Tally) -> None:
    """Looks at files of tokens that a spreadsheet program saved without loss, and at numbers that are meant as they are."""
    plain = {101: "7", 102: "11", 103: "12"}
    saved: tuple[tuple[str, bytes, list[str], dict[int, str]], ...] = (
        ("with a mark", WHOLE.encode("utf-8-sig"), [], ZEROS),
        ("as UTF-16 with tabs", WHOLE.replace(",", "\t").encode("utf-16"), [], ZEROS),
        ("with semicolons", WHOLE.replace(",", ";").encode(), [], ZEROS),
        ("with .0 behind its numbers", tokens_csv({101: "2603100000101.0", 102: "2603100000102"}).replace("\n101,", "\n101.0,").encode(), [], {101: "2603100000101", 102: "2603100000102"}),
        ("of another heading", tokens_csv(ZEROS, "Candidate,Token,Number,Application Number,Name").encode(), [], ZEROS),
        ("whose numbers are meant", tokens_csv(plain).encode(), ["--yes"], plain),
    )
    for label, data, words, numbers in saved:
        with tempfile.TemporaryDirectory(prefix="choices-", dir=ROOMS) as room:
            with open(f"{room}/tokens.csv", "wb") as it:
                it.write(data)
            told = called("begin", f"{room}/choices.db", "--tokens", f"{room}/tokens.csv", *words, given=BUNDLE)
            rows = store.Store(f"{room}/choices.db").base.execute("SELECT number, board FROM candidate WHERE board IS NOT NULL ORDER BY number")
            tally.same(dict(rows.fetchall()), numbers, f"begin takes a file of tokens {label}")
            tally.holds(f"{len(numbers)} candidates sign in with an application number, such as {numbers[101]}: compare" in told, f"begin says with what they sign in, {label}", told)


def spoiled(tally: Tally) -> None:
    """Looks at a file of tokens that is spoiled in 90 ways: `begin` takes it, or says in words why not and makes nothing."""

    def begins(folder: str) -> Came:
        words = [sys.executable, CHOICES, "begin", f"{folder}/made.db", "--tokens", f"{folder}/spoiled"]
        ran = subprocess.run(words, input=BUNDLE.encode(), stdout=subprocess.PIPE, stderr=subprocess.STDOUT)
        return ran.returncode, ran.stdout.decode(errors="replace"), [it for it in os.listdir(folder) if it != "spoiled"]

    with tempfile.TemporaryDirectory(prefix="choices-", dir=ROOMS) as room:
        faults = tried_with(room, WHOLE.encode(), begins)
    tally.holds(not faults, "begin over a file of tokens spoiled in 90 ways", f"{len(faults)}: {faults[:3]}")


def through_libreoffice(tally: Tally) -> None:
    """Looks at what LibreOffice makes of application numbers that begin with a zero, in each form in which it saves a table."""
    if not found("soffice"):
        tally.skips("tokens.csv through LibreOffice", "soffice")
        return
    with tempfile.TemporaryDirectory(prefix="choices-") as room:
        with open(f"{room}/register.csv", "w", encoding="utf-8") as it:
            it.write(REGISTER)
        with open(f"{room}/given.csv", "w", encoding="utf-8") as it:
            it.write(WHOLE)
        for how, saved in saved_again(room, "given"):
            shutil.copy(saved, f"{room}/tokens.csv")
            said = called("begin", f"{room}/choices.db", "--tokens", f"{room}/tokens.csv", given=BUNDLE, status=3)
            tally.holds(f"{AT}`240310123`: the register next to the file has `0240310123`" in said, f"begin refuses what LibreOffice saved {how}", said)


def most(tally: Tally, kept: store.Store) -> None:
    """Looks at how often one candidate may save and report, and whether a refusal among others leaves these."""
    came = kept.all_together([("save", (101, ("A", "B")[at % 2 :][:1])) for at in range(1_001)] + [("save", (102, ("A",)))])
    tally.same([it.receipt for it in came[:1_000]], [*range(2, 1_002)], "a thousand lists of one candidate")
    tally.same((str(came[1_000]), came[1_001].candidate), ("tooOften", 102), "one more is refused, and another candidate's next to it is kept")
    came = kept.all_together([("report", (101, f"report {at}")) for at in range(21)])
    tally.same((came[19], str(came[20])), (20, "tooManyReports"), "twenty reports of one candidate, and one more")


def places_of(text: object) -> set[str]:
    """Returns the names of the values of a sentence, or the names of several words."""
    return set(text) if isinstance(text, dict) else {field for _, field, _, _ in string.Formatter().parse(str(text)) if field}


def special_words(language: str) -> dict[str, str]:
    """Returns the words of a special round, which replace others."""
    with open(f"{TOP}/deploy/choices/words.{language}.json", encoding="utf-8") as it:
        found: dict[str, str] = json.load(it)["special"]
    return found


def words_agree(tally: Tally) -> None:
    """Looks whether both languages have the same sentences with the same places for values."""
    both = []
    for language in ("en", "hi"):
        with open(f"{TOP}/deploy/choices/words.{language}.json", encoding="utf-8") as it:
            both.append({name: places_of(text) for name, text in json.load(it).items()})
            both[-1] |= {f"special {name}": places_of(text) for name, text in special_words(language).items()}
    tally.same(both[1], both[0], "the words of both languages")
    tally.same({name: both[0][f"special {name}"] for name in special_words("en")}, {name: both[0][name] for name in special_words("en")}, "the words of a special round have the places of those that they replace")
    code = "".join(open(f"{TOP}/deploy/choices/{it}.py", encoding="utf-8").read() for it in ("pages", "service", "papers_read", "store"))
    tally.same([it for it in both[0] if not re.search(rf"[\"']{it}[\"']", code) and it != "language" and not it.startswith("special ")], [], "words that nothing uses")


def chain(tally: Tally) -> None:
    """Looks whether tools/season takes choices.csv, and makes the section of choices.txt of it."""
    with tempfile.TemporaryDirectory(prefix="choices-", dir=ROOMS) as room:
        sheets = {
            "season.csv": "rounds,2\n",
            "register.csv": "id,category,traits,m1\n101,GEN,,1\n102,OBC,,2\n103,GEN,W,3\n",
            "matrix.csv": "programme,institute,list,step,seats\nCSE,I1,1,OPEN,2\nME,I1,1,OPEN,1\n",
            "choices.csv": "candidate,programmes\n",
        }
        for name, text in sheets.items():
            with open(f"{room}/{name}", "w", encoding="utf-8") as it:
                it.write(text)
        bundle = seasoned(room)
        tokens = {it.number: it.token for it in season_file.season_of(bundle).candidates}
        called("begin", f"{room}/choices.db", "--tokens", f"{room}/tokens.csv", given=bundle)
        with PortService(room) as service:
            for number, codes in ((101, "CSE"), (102, "ME CSE"), (103, "CSE ME")):
                who = Browser(service.port)
                who.enter(number, tokens[number])
                tally.same(who.save(codes).status, 303, f"the list of {number}")
            called("close", f"{room}/choices.db", room)
        with open(f"{room}/choices.txt", encoding="utf-8") as it:
            tally.same(seasoned(room), bundle.partition("[choices]")[0] + it.read(), "the bundle with the lists of the web")


EXAMPLE = f"{TOP}/examples/vacant-seats"
# tokens that are not easy to guess, in place of those of the example
STRONG = {"tok00001": TOKENS[101], "tok00002": TOKENS[102], "tok00003": TOKENS[103], "tok00004": TOKENS[104], "tok00005": "z4x8c1v6b0n2", "clerk0001": "clerk0001xyz"}


def special(tally: Tally) -> None:
    """Lists for a special round: who may hand one in, for which programmes, and whether the office takes what the clerk gets."""
    dossier = with_tokens(text_of(f"{EXAMPLE}/dossier.txt"))
    with tempfile.TemporaryDirectory(prefix="choices-", dir=ROOMS) as room:
        path = f"{room}/choices.db"
        for given, label in ((dossier.partition("[requests]")[0], "a bundle"), (dossier.partition("final 2")[0], "a season without its last cut")):
            called("begin", path, "--special", given=given, status=3)
            tally.holds(not os.path.exists(path), f"no special round begins of {label}")
        told = called("begin", path, "--special", given=dossier)
        tally.holds("2 vacant seats, and 3 candidates without a final admission" in told, "the vacant seats", told)
        with PortService(room) as service:
            hand_in(tally, service.port)
            called("close", path, f"{room}/lists")
        tally.same(sorted(os.listdir(f"{room}/lists")), ["lists.txt", "receipts.csv", "reports.csv"], "the clerk's files of a special round")
        tally.same(sorted(text_of(f"{room}/lists/lists.txt").splitlines()), sorted(text_of(f"{EXAMPLE}/lists.txt").splitlines()), "the lists are those of the example, which the office reads")


def hand_in(tally: Tally, port: int) -> None:
    """Hands in the lists of the example, and looks who is refused."""
    who = Browser(port)
    who.enter(2, STRONG["tok00002"])
    page = who.ask("GET", "/choices/").text
    tally.holds("You have a final admission: A" in page and 'value="save"' not in page, "a candidate with an admission reads of it, and has no list", page)
    tally.same((who.save("C").status, "final admission" in who.save("C").text), (409, True), "and cannot save one")
    for number, codes in ((4, "E C"), (5, "E"), (1, "C")):
        who = Browser(port)
        who.enter(number, STRONG[f"tok0000{number}"])
        page = who.ask("GET", "/choices/").text
        tally.holds("Your list for the special round" in page and page.count("1 vacant seat<") == 2, f"candidate {number} is offered the programmes with vacant seats", page)
        tally.same((who.save("A").status, who.save(f"{codes} B").status), (409, 409), f"candidate {number} cannot list a programme without them")
        tally.same(who.save(codes).status, 303, f"the list of candidate {number}")
    tally.holds("विशेष राउंड के लिए आपकी लिस्ट" in who.ask("GET", "/choices/hi/").text, "the page of a special round in Hindi")


def with_tokens(text: str) -> str:
    """Returns a text of the example with the strong tokens."""
    for weak, strong in STRONG.items():
        text = text.replace(weak, strong)
    return text


def text_of(path: str) -> str:
    """Returns the text of a file."""
    with open(path, encoding="utf-8") as it:
        return it.read()


def seasoned(folder: str) -> str:
    """Returns the bundle that tools/season makes of a folder."""
    return subprocess.run([f"{TOP}/tools/season", folder], stdout=subprocess.PIPE, stderr=subprocess.DEVNULL, check=True).stdout.decode()


ALL = (words_agree, beginning, spreadsheets, spoiled, through_libreoffice, rules, full_disk, chain, special)
