"""The parts of checks/deploy that call the scripts, install into a folder, and start the units and the look."""
import contextlib
import datetime
import fcntl
import gzip
import hashlib
import json
import os
import re
import shutil
import signal
import socket
import sqlite3
import ssl
import subprocess
import sys
import threading
import time
import types
from typing import Iterator, Sequence
from unittest import mock

from cases import READS_STORES
from deployed import CLERK, CUT, body, bundle_of, directly, part, tally, tokens_of
from front import CALLERS_MASK, DEPLOY, HOST, SYSTEM, Front, Office, called, certificate, expired, found, read_reply, request, text_of, until
from plain_office import Office as PlainOffice
from plain_office import Season
from served import TOP, free_port, kept_rows, listeners


# ---- the scripts


def script(name: str, words: Sequence[str], program: str, given: bytes = b"", **how: str) -> tuple[int, str]:
    ran = subprocess.run([f"{DEPLOY}/{name}", *words], input=given, capture_output=True, timeout=300, umask=CALLERS_MASK, env={**SYSTEM, "OFFICE": program, **how})
    return ran.returncode, (ran.stdout + ran.stderr).decode(errors="replace")


def strong(bundle: bytes, clerk: str = "Qm4xTz81vKpL") -> tuple[bytes, list[str]]:
    """A bundle with strong tokens: its n-th candidate's is the n-th here."""
    tokens = ["aB3dE5fG7hJ9", "kL2mN4pQ6rS8", "tU1vW3xY5zA7", "bC8dF6gH4jK2", "mN9pR7sT5vW3", "xZ4yV6uT8sR2"]
    for number, token in enumerate(tokens, 1):
        bundle = bundle.replace(b"tok%05d" % number, token.encode())
    return bundle.replace(b"clerk0001", clerk.encode()), tokens


def weak_bundles(given: bytes, tokens: list[str]) -> list[tuple[str, bytes]]:
    """Bundles with a token that `begin` refuses, each with what is weak about it."""
    first = tokens[0].encode()
    return [
        ("the example's", bundle_of()),
        ("a short one", given.replace(first, b"aB3dE5fG7hJ")),
        ("the candidate's number", given.replace(b"\n1,GEN,-," + first, b"\n4711,GEN,-,aB4711dE5fG7").replace(b"\n1,A", b"\n4711,A")),
        ("the candidate's number with zeros", given.replace(first, b"aBcDeFgH0001")),
        ("a long beginning in common", given.replace(first, tokens[1][:7].encode() + b"WxYzQ")),
        ("a long end in common", given.replace(first, b"WxYzQ" + tokens[1][5:].encode())),
        ("the MD5 of the number", given.replace(first, hashlib.md5(b"1").hexdigest()[:16].encode())),
        ("the SHA-256 of the number with zeros", given.replace(first, hashlib.sha256(b"000001").hexdigest()[:32].encode())),
        ("a telephone number", given.replace(first, b"919876543210")),
        ("one letter", given.replace(first, b"aaaaaaaaaaaa")),
        ("the clerk's", given.replace(b"Qm4xTz81vKpL", b"clerk0001x")),
        ("the beginning of the clerk's", given.replace(first, b"Qm4xTz8AbCdE")),
    ]


def is_marked(store: str, label: str) -> None:
    """By its first bytes, a store says whose it is: application_id is at byte 68, and user_version at byte 60."""
    with open(store, "rb") as it:
        head = it.read(100)
    tally.same((head[68:72], head[60:64]), (b"Nach", bytes([0, 0, 0, 1])), f"the store is marked after {label}")


@part("begin refuses")
def begin_refuses(room: str, program: str) -> None:
    given, tokens = strong(bundle_of())
    for label, bundle in weak_bundles(given, tokens):
        status, wrote = script("begin", [f"{room}/weak.db"], program, bundle)
        tally.holds(status == 3 and "easy to guess" in wrote, f"begin refuses weak tokens: {label}", f"{status} {wrote}")
    tally.holds(not any(it in wrote for it in tokens), "begin writes no token")
    for label, bundle, told in [
        ("an error of the bundle", given.replace(b"rounds,2", b"rounds,99"), "fault: season row 1 BadSeason"),
        ("requests", given + b"[requests]\ncut,clerk,0\n", "requests"),
        ("no bundle", b"hello\n", "BadFirstLine"),
    ]:
        status, wrote = script("begin", [f"{room}/weak.db"], program, bundle)
        tally.holds(status == 3 and told in wrote, f"begin refuses {label}", f"{status} {wrote}")
    tally.holds(not [it for it in os.listdir(room) if it.startswith("weak")], "begin makes nothing where it refuses", f"{os.listdir(room)}")


@part("begin begins")
def begin(room: str, program: str) -> None:
    given, _ = strong(bundle_of())
    status, wrote = script("begin", ["a", "b"], program)
    tally.holds(status == 2, "begin with wrong words", f"{status}")
    status, wrote = script("begin", ["--help"], program)
    tally.holds(status == 0 and "It cannot see whether a token was made by chance" in wrote, "begin says what it checks, and no more", f"{status} {wrote}")

    store = f"{room}/season.db"
    status, wrote = script("begin", [store], program, given)
    tally.holds(status == 0 and "candidates 5" in wrote, "begin begins", f"{status} {wrote}")
    modes = {it: oct(os.stat(f"{room}/{it}").st_mode & 0o777) for it in os.listdir(room)}
    tally.holds(set(modes.values()) == {"0o600"}, "only the caller may read the store", f"{modes}")
    status, wrote = script("begin", [store], program, given)
    tally.holds(status == 3 and "already" in wrote, "begin begins once", f"{status} {wrote}")
    told = called([program, "resume", store], b"state,nobody\n")
    tally.holds(told == b"state window 0 rounds 2 published 0\n", "the season is there", f"{told!r}")
    is_marked(store, "begin")
    with Office(program, room) as office:
        office.start()
        directly(office, "POST", "/v1/cut", "Qm4xTz81vKpL", CUT)
        office.kill()
    called([program, "resume", store], b"state,nobody\n")
    is_marked(store, "a cut, a kill and another start")
    hexed = re.sub(rb"tok0000(\d)|clerk0001", lambda it: hashlib.sha256(it[0]).hexdigest()[:32].encode(), bundle_of())
    status, wrote = script("begin", [f"{room}/hex.db"], program, hexed)
    tally.holds(status == 0, "begin takes tokens of 32 hexadecimal digits", f"{status} {wrote}")
    with open(f"{TOP}/examples/two-states/divided.txt", "rb") as it:
        divided, _ = strong(it.read().partition(b"[requests]")[0])
    os.mkdir(f"{room}/desk")
    status, wrote = script("begin", [f"{room}/units.db"], program, divided, DESK=f"{room}/desk")
    tally.holds(status == 0, "begin takes a bundle with units", f"{status} {wrote}")
    path = f"{room}/desk/clerk-token.conf"
    came = (os.listdir(f"{room}/desk"), text_of(path), os.stat(path).st_mode & 0o777)
    tally.same(came, (["clerk-token.conf"], '"Qm4xTz81vKpL" 1;\n', 0o600), "begin tells nginx which token is the clerk's")


@part("keep-copy")
def keep_copy(room: str, program: str) -> None:
    """Over the store of an office that was killed after 40 answers."""
    bundle = bundle_of()
    folder, store = f"{room}/copies", f"{room}/season.db"
    status, wrote = script("keep-copy", [f"{room}/none.db", folder], program)
    tally.holds(status == 0 and "no store" in wrote and not os.path.exists(folder), "keep-copy without a store does nothing", f"{status} {wrote}")
    called([program, "run", store], bundle)
    with Office(program, room) as office:
        office.start("kept")
        directly(office, "POST", "/v1/cut", CLERK, CUT)
        for turn in range(1, 17):
            for cand in (1, 2, 3, 4):
                directly(office, "POST", "/v1/answer", f"tok{cand:05}", body(cand=cand, window=1, turn=turn, choice="float"))
        directly(office, "POST", "/v1/cut", CLERK, body(window=1))
        came = directly(office, "POST", "/v1/answer", "tok00001", body(cand=1, window=2, turn=1, choice="freeze"))
        tally.status(came, 200, "the last answer before the kill")
        status, wrote = script("keep-copy", [store, folder], program)
        tally.holds(status == 0 and "has" in wrote and "open" in wrote and not os.path.exists(folder), "no copy of a store that is open", f"{status} {wrote}")
        came = directly(office, "GET", "/v1/state", None, None)
        tally.status(came, 200, "the office goes on meanwhile")
        office.kill()
    copied(room, program)
    if READS_STORES:
        disagreeing(room, program)
    else:
        tally.skips("keep-copy over wrong records", "SQLite 3.37 in Python")


def bytes_of(store: str) -> list[bytes]:
    return [open(f"{store}{end}", "rb").read() for end in ("", "-wal")]


def copied(room: str, program: str) -> None:
    folder, store = f"{room}/copies", f"{room}/season.db"
    tally.holds(os.path.getsize(f"{store}-wal") > 0, "the killed office leaves its log")
    before = bytes_of(store)
    os.makedirs(f"{folder}/left.part")
    status, wrote = script("keep-copy", [store, folder], program)
    kept = sorted(os.listdir(folder))
    tally.holds(status == 0 and len(kept) == 1 and "not yet checked" in wrote, "keep-copy over a killed office", f"{status} {wrote} {kept}")
    newest = f"{folder}/{kept[-1]}"
    tally.holds(bytes_of(f"{newest}/season.db") == before, "the copy is byte by byte the store and its log")
    tally.holds(bytes_of(store) == before, "the store is unchanged")
    tally.holds(oct(os.stat(newest).st_mode & 0o777) == "0o700", "only the caller may enter a copy")
    for _ in range(31):
        status, wrote = script("keep-copy", [store, folder], program)
    tally.holds(status == 0 and "nothing changed" in wrote and sorted(os.listdir(folder)) == kept, "31 failing starts make no copy more", f"{status} {wrote}")
    with open(f"{store}-wal", "ab") as it:
        it.write(b"x")
    status, wrote = script("keep-copy", [store, folder], program)
    tally.holds(status == 0 and "younger than ten minutes" in wrote, "no copy within ten minutes of the last", f"{status} {wrote}")
    os.truncate(f"{store}-wal", len(before[1]))
    status, wrote = script("keep-copy", ["--check", folder, f"{room}/second"], program)
    tally.holds(status == 0 and "window 2" in wrote, "the office checks the copy", f"{status} {wrote}")
    tally.holds(text_of(f"{newest}/state.txt") == "state window 2 rounds 2 published 2\n", "the copy says how far it is")
    tally.holds(bytes_of(f"{newest}/season.db") == before, "the check leaves the copy as it is")
    tally.holds(bytes_of(f"{room}/second/{kept[-1]}/season.db") == before, "a second folder gets the checked copy")
    shutil.copytree(newest, f"{room}/again")
    told = called([program, "resume", f"{room}/again/season.db"], b"answer,1,1,2,1,freeze\nanswer,2,2,1,16,float\n")
    tally.holds(told == b"noted 1 window 2 turn 1 freeze\nnoted 2 window 1 turn 16 float\n", "the copy has the last answer", f"{told!r}")
    staying(room, program, newest)
    script_counts(program, folder)


def made_copies(folder: str, newest: str) -> list[str]:
    """Copies of many days and cuts, as they would be after months."""
    names = [f"2020{month:02}01T{hour:02}0000.0Z" for month in range(1, 13) for hour in range(4)]
    for at, name in enumerate(names):
        os.makedirs(f"{folder}/{name}")
        for it in ("season.db", "of.txt"):
            shutil.copy(f"{newest}/{it}", f"{folder}/{name}/{it}")
        with open(f"{folder}/{name}/state.txt", "w", encoding="utf-8") as state:
            state.write(f"state window {at // 8} rounds 6 published {at // 8}\n")
    return names


def staying(room: str, program: str, newest: str) -> None:
    folder = f"{room}/copies"
    names = made_copies(folder, newest)
    status, wrote = script("keep-copy", ["--check", folder, f"{room}/second"], program)
    kept = sorted(it for it in os.listdir(folder) if it != os.path.basename(newest))
    # with the newest copy, 29 of these are among the newest 30
    wanted = {*names[-29:], *names[3::4], *names[::8]}
    tally.holds(status == 0 and kept == sorted(wanted), "the newest 30 copies stay, one of each day, and one after each cut", f"{status} {wrote[:200]} {kept}")
    tally.same(len(os.listdir(f"{room}/second")), len(kept) + 1, "the second folder has the same copies")
    if os.geteuid() == 0 and found("mount"):
        os.makedirs(f"{room}/small")
        if subprocess.run([found("mount"), "-t", "tmpfs", "-o", "size=128k", "none", f"{room}/small"], stderr=subprocess.DEVNULL).returncode == 0:
            status, wrote = script("keep-copy", [f"{room}/season.db", f"{room}/small"], program)
            tally.holds(status == 1 and "3 copies need" in wrote and os.listdir(f"{room}/small") == [], "no copy where the room is below three", f"{status} {wrote}")
            subprocess.run([found("umount"), f"{room}/small"], check=True)


def script_counts(program: str, folder: str) -> None:
    status, wrote = script("counts", [folder], program)
    tally.holds(status == 0 and "window 2: 4 seats are offered" in wrote, "counts of the newest copy", f"{status} {wrote}")
    tally.holds("1 answered in this window: freeze 1, float 0" in wrote and "3 answered in an earlier" in wrote and "0 have no answer" in wrote, "counts of answers", wrote)
    status, wrote = script("counts", [folder, "--json"], program)
    told = json.loads(wrote)
    tally.same((status, told["unanswered"], told["who"]), (0, 0, []), "counts as one object, with who has not answered")
    status, wrote = script("counts", [f"{folder}/none"], program)
    tally.holds(status == 1, "counts without a copy", f"{status} {wrote}")


def disagreeing(room: str, program: str) -> None:
    """Copies whose records the office refuses."""
    folder = f"{room}/copies"
    kept = sorted(os.listdir(folder))
    newest = f"{folder}/{kept[-1]}"
    rows = kept_rows(f"{room}/again/season.db")
    tally.holds(len(rows["answer"]) == 65 and rows["phase"] == [(1, 2)], "the copy has all answers", f"{len(rows['answer'])} {rows['phase']}")
    shutil.copy(f"{newest}/season.db", f"{room}/alone.db")
    called([program, "resume", f"{room}/alone.db"], b"state,nobody\n")
    rows = kept_rows(f"{room}/alone.db")
    tally.holds(len(rows["answer"]) < 65, "a copy without its log lacks answers, and nothing says so, as RUNNING.md warns", f"{len(rows['answer'])}")
    base = sqlite3.connect(f"{room}/again/season.db")
    base.execute("DELETE FROM allot WHERE rnd = 1 AND cand = 1")
    base.commit()
    base.close()
    status, wrote = script("keep-copy", [f"{room}/again/season.db", folder], program)
    tally.holds(status == 0, "a store with wrong records is copied too", f"{status} {wrote}")
    status, wrote = script("keep-copy", ["--check", folder, f"{room}/second"], program)
    tally.holds(status == 1 and "differs round 1 candidate 1" in wrote, "the check says that the records do not agree", f"{status} {wrote}")
    more = sorted(set(os.listdir(folder)) - set(kept))
    tally.holds(len(more) == 1 and os.path.exists(f"{folder}/{more[0]}/refused.txt"), "the copy is marked as refused", f"{more}")
    tally.holds(more[0] not in os.listdir(f"{room}/second"), "the second folder does not get it")
    status, wrote = script("keep-copy", ["--check", folder, f"{room}/second"], program)
    tally.holds(status == 0, "a refused copy is reported once", f"{status} {wrote}")


@part("keep-copy while the office runs")
def keep_copy_running(room: str, program: str) -> None:
    """Eight clients answer while copies are made: the office takes each copy, and each has every answer whose receipt came before it was begun."""
    if not READS_STORES:
        tally.skips("keep-copy while the office runs", "SQLite 3.37 in Python")
        return
    many, store, folder = 800, f"{room}/season.db", f"{room}/copies"
    bundle = called([program, "generate", str(many), "7", "text"]).partition(b"[requests]")[0]
    with Office(program, room) as office:
        office.start("new", workers=10, bundle=bundle)
        directly(office, "POST", "/v1/cut", CLERK, CUT)
        emptied_meanwhile(room, program, office, many)
        noted: list[tuple[int, int]] = []
        heads: set[bytes] = set()

        def client(number: int) -> None:
            for turn in range(1, 17):
                for cand in range(number + 1, many + 1, 8):
                    came = directly(office, "POST", "/v1/answer", f"g{cand:08}", body(cand=cand, window=1, turn=turn, choice="float"))
                    if came.status == 200:
                        noted.append((cand, turn))

        clients = [threading.Thread(target=client, args=(it,), daemon=True) for it in range(8)]
        for it in clients:
            it.start()
        befores: list[set[tuple[int, int]]] = []
        while any(it.is_alive() for it in clients):
            with open(f"{store}-wal", "rb") as log:
                heads.add(log.read(32))
            before = set(noted)
            status, wrote = script("keep-copy", ["--running", store, folder], program)
            if status == 0 and wrote.startswith("kept "):
                befores.append(before)
            else:
                tally.holds(status == 0 and "nothing changed" in wrote, "keep-copy --running makes a copy", f"{status} {wrote}")
        status, wrote = script("keep-copy", ["--running", store, folder], program)
        befores += [set(noted)] if wrote.startswith("kept ") else []
        status, wrote = script("keep-copy", ["--running", store, folder], program)
        tally.holds(status == 0 and "nothing changed" in wrote, "keep-copy --running over an office that nobody asks anything", f"{status} {wrote}")
    tally.holds(len(befores) > 2 and len(heads) > 2, "the log is emptied while copies are made", f"{len(befores)} copies, {len(heads)} logs")
    whole_copies(room, program, befores, set(noted))


def emptied_meanwhile(room: str, program: str, office: Office, many: int) -> None:
    """The office empties its log after the store was copied and before the log is: keep-copy begins again, and the copy has every answer."""
    module = types.ModuleType("keep_copy")
    with mock.patch.object(sys, "path", [DEPLOY, *sys.path]):
        exec(compile(text_of(f"{DEPLOY}/keep-copy"), "keep-copy", "exec"), module.__dict__)
    store, copyfile = f"{room}/season.db", shutil.copyfile
    begun: list[object] = []

    def copied(one: str, to: str) -> None:
        copyfile(one, to)
        if one == store and not begun:
            begun.append(module.head_of(f"{store}-wal"))
            for turn in (1, 2, 3):
                for cand in range(1, many + 1):
                    if module.head_of(f"{store}-wal") == begun[0]:
                        directly(office, "POST", "/v1/answer", f"g{cand:08}", body(cand=cand, window=1, turn=turn, choice="float"))

    os.makedirs(f"{room}/torn")
    with mock.patch.object(shutil, "copyfile", copied):
        is_whole = module.copied_open(store, f"{room}/torn/season.db")
    tally.holds(begun and begun[0] != module.head_of(f"{store}-wal") and is_whole, "the log is emptied while a copy is made")
    # the office writes nothing now, so a copy of its files is what it has
    os.makedirs(f"{room}/plain")
    for end in ("", "-wal"):
        copyfile(f"{store}{end}", f"{room}/plain/season.db{end}")
    rows = []
    for it in ("torn", "plain"):
        called([program, "resume", f"{room}/{it}/season.db"], b"state,nobody\n")
        rows.append(len(kept_rows(f"{room}/{it}/season.db")["answer"]))
    tally.holds(rows[0] == rows[1] > 100, "a copy that was begun again has every answer", f"{rows}")


def whole_copies(room: str, program: str, befores: list[set[tuple[int, int]]], all_noted: set[tuple[int, int]]) -> None:
    """The copies that were made while these and more answers had been given."""
    names = sorted(os.listdir(f"{room}/copies"))
    tally.same(len(names), len(befores), "as many copies as were made")
    for name, before in zip(names, befores):
        shutil.copytree(f"{room}/copies/{name}", f"{room}/look")
        told = called([program, "resume", f"{room}/look/season.db"], b"state,nobody\n")
        tally.holds(told.startswith(b"state window 1 "), "the office takes a copy that was made while it ran", f"{told!r}")
        base = sqlite3.connect(f"{room}/look/season.db")
        held = set(base.execute("SELECT cand, turn FROM answer"))
        base.close()
        shutil.rmtree(f"{room}/look")
        tally.holds(before <= held <= all_noted, "a copy has each answer from before it, and no other", f"{len(before - held)} of {len(before)} are missing, {len(held - all_noted)} too many")


def served_season(room: str, program: str, name: str, bundle: bytes, rows: str = "") -> Office:
    """A served office over a new store after these rows."""
    os.makedirs(f"{room}/{name}")
    called([program, "run", f"{room}/{name}/season.db"], bundle)
    if rows:
        called([program, "resume", f"{room}/{name}/season.db"], rows.encode())
    return Office(program, f"{room}/{name}")


@part("papers")
def papers(room: str, program: str) -> None:
    """From a running office, without a restart after a cut."""
    with open(f"{TOP}/examples/three-windows/replies.txt", encoding="ascii") as it:
        replies = it.read()
    bundle = bundle_of("three-windows")
    text, rows = bundle.decode().split("[requests]\n")
    plain = PlainOffice(Season(text))
    for row in rows.splitlines():
        plain.reply(row)
    lists = {number: "".join(plain.reply(f"list,nobody,{number},{code}") for code in plain.season.programmes) for number in (1, 2, 3)}
    with served_season(room, program, "three", bundle) as office:
        office.start("kept")
        at = ["--office", f"127.0.0.1:{office.port}"]
        status, wrote = script("papers", [*at, f"{room}/p3"], program)
        tally.holds(status == 1 and "name the season" in wrote, "papers without a seat matrix", f"{status} {wrote}")
        with open(f"{room}/three.txt", "wb") as season:
            season.write(bundle)
        status, wrote = script("papers", [*at, "--places", f"{room}/p3"], program)
        tally.holds(status == 2 and "needs --season" in wrote, "places without a register", f"{status} {wrote}")
        status, wrote = script("papers", [*at, "--season", f"{room}/three.txt", "--places", f"{room}/places"], program)
        seen = "".join(text_of(f"{room}/places/places-{it}-I1.csv") for it in (1, 2, 3))
        wanted = "".join(f"programme,candidate,place\n{placed(plain, lists[it], 'I1')}" for it in (1, 2, 3))
        tally.holds(status == 0 and seen == wanted and wanted.count("\n") > 4, "the places of the candidates of a list", f"{status} {wrote} {seen} {wanted}")
        tally.holds(not any(it in seen for it in tokens_of(bundle)), "no token in the places")
        status, wrote = script("papers", [*at, "--season", f"{room}/three.txt", f"{room}/p3"], program)
        tally.holds(not any(it.startswith("places-") for it in os.listdir(f"{room}/p3")), "no places unless they are asked for", f"{os.listdir(f'{room}/p3')}")
        tally.holds(status == 0 and "3 rounds published" in wrote, "papers of the season of three windows", f"{status} {wrote}")
        has_cutoffs = directly(office, "GET", "/v1/cutoffs/1/A", None, None).status == 200
        agree(f"{room}/p3", replies, bundle, lists)
        status, wrote = script("papers", [*at, f"{room}/p3"], program)
        tally.holds(status == 0, "papers again, from their own seat matrix", f"{status} {wrote}")
        told = (office.program, f"{room}/three/season.db")
    matrix = json.loads(text_of(f"{room}/p3/programmes.json"))
    tally.same((matrix["version"], matrix["rounds"], matrix["published"]), (1, 3, 3), "programmes.json: how far the season is")
    first = {"code": "A", "institute": "I1", "list": 1, "steps": {"OPEN": {"seats": 1, "protect": {}}}}
    tally.same(matrix["programmes"][0], first, "programmes.json: the first programme")
    cutoff_files(f"{room}/p3", has_cutoffs)
    status, wrote = script("papers", ["--office", "127.0.0.1:1", f"{room}/p3"], program)
    tally.holds(status == 1 and "127.0.0.1:1" in wrote, "papers without an office", f"{status} {wrote}")
    followed(room, program, told)
    mocked(room, program)
    specials(room, program)


def placed(plain: PlainOffice, text: str, institute: str) -> str:
    """Returns the rows of places of one institute, from the lists of a round and the register."""
    rows = ""
    for code, told in re.findall(r"^list \d+ (\S+)\n((?:.*\n)*?)end list\n", text, re.M):
        its, merit = plain.season.programmes[code]
        rows += "".join(f"{code},{it},{plain.season.registered(int(it)).places[merit - 1]}\n" for it in re.findall(r"^(\d+) [WDXSFL-]$", told, re.M) if its == institute)
    return rows


def cutoff_files(folder: str, has_cutoffs: bool) -> None:
    if not has_cutoffs:
        tally.skips("the papers of cutoffs", "a program with the route /v1/cutoffs")
        return
    lines = text_of(f"{folder}/cutoffs-1.csv").splitlines()
    tally.same(lines[:2], ["programme,institute,step,traits,place", "A,I1,OPEN,-,1"], "cutoffs-1.csv")
    lines = text_of(f"{folder}/closing-1.csv").splitlines()
    tally.same(lines[:2], ["programme,institute,step,seats,candidates,admitted,anybody,W,D,X,S,F,L", "A,I1,OPEN,1,4,1,1,1,1,1,1,1,1"], "closing-1.csv")


def followed(room: str, program: str, told: tuple[str, str]) -> None:
    """The papers come by themselves after a cut, and go when the season goes back."""
    folder = f"{room}/p5"
    with Office(program, f"{room}") as office:
        office.start("new", bundle=bundle_of())
        with open(f"{room}/five.txt", "wb") as it:
            it.write(bundle_of())
        words = [f"{DEPLOY}/papers", "--follow", "0.2", "--office", f"127.0.0.1:{office.port}", "--season", f"{room}/five.txt", folder]
        child = subprocess.Popen(words, stdout=subprocess.DEVNULL, stderr=subprocess.DEVNULL, umask=CALLERS_MASK)
        try:
            until(lambda: os.path.exists(f"{folder}/programmes.json"), "the papers before the first cut")
            there = sorted(it for it in os.listdir(folder) if not it.endswith(".gz"))
            tally.same(there, ["help.json", "index.html", "names.json", "notice.txt", "numbers.json", "programmes.json", "window.json"], "papers before the first cut")
            tally.holds("No round is published yet" in text_of(f"{folder}/index.html"), "the index before the first cut")
            directly(office, "POST", "/v1/cut", CLERK, CUT)
            until(lambda: '"published": 1' in text_of(f"{folder}/programmes.json"), "the papers after a cut")
            tally.same(text_of(f"{folder}/round-1.txt").splitlines()[0], "round 1 seated 4", "the papers follow a cut without a restart")
            links = re.findall(r'href="([^"/]+)"', text_of(f"{folder}/index.html"))
            tally.holds({"round-1.txt", "lists-1.txt"} <= set(links) and all(os.path.exists(f"{folder}/{it}") for it in links), "the index links to what is there", f"{links}")
            office.kill()
            for end in ("", "-wal"):
                os.remove(f"{room}/season.db{end}")
            office.start("new", bundle=bundle_of())
            until(lambda: '"published": 0' in text_of(f"{folder}/programmes.json"), "the papers of the season begun anew")
            tally.holds(not os.path.exists(f"{folder}/round-1.txt"), "what is not published any more is removed", f"{os.listdir(folder)}")
        finally:
            child.kill()
            child.wait()


def mocked(room: str, program: str) -> None:
    """A mock round before the first one, from no store."""
    bundle = called([program, "generate", "800", "7", "text"])
    with open(f"{room}/made.txt", "wb") as it:
        it.write(bundle)
    status, wrote = script("papers", ["--mock", f"{room}/made.txt", f"{room}/mock"], program)
    replies = called([program, "run", "memory"], bundle.partition(b"[requests]")[0] + b"[requests]\ncut,clerk,0\n").decode()
    tally.holds(status == 0 and "mock round" in wrote, "a mock round", f"{status} {wrote}")
    status, wrote = script("papers", ["--mock", "-", f"{room}/again"], program, bundle)
    same = all(text_of(f"{room}/again/{it}") == text_of(f"{room}/mock/{it}") for it in os.listdir(f"{room}/mock") if not it.endswith(".gz"))
    tally.holds(status == 0 and same, "a mock round of a bundle from the standard input", f"{status} {wrote}")
    tally.same(text_of(f"{room}/mock/mock-round.txt"), replies.partition("\n")[2], "the mock round is the text of run")
    there = sorted(os.listdir(f"{room}/mock"))
    tally.holds({"mock-lists.txt", "mock-institute-I0.txt", "mock-round.txt.gz"} <= set(there) and all(it.startswith(("mock-", "index.html")) for it in there), "files of a mock round", f"{there[:8]}")
    all_of_it = "".join(text_of(f"{room}/mock/{it}") for it in there if not it.endswith(".gz"))
    tally.holds(not any(it in all_of_it for it in tokens_of(bundle)), "no token in the papers of a mock round")


def specials(room: str, program: str) -> None:
    """The papers of a special round, next to those of its season, and a text that is none."""
    example = f"{os.path.dirname(os.path.dirname(os.path.realpath(__file__)))}/examples/vacant-seats"
    words = ["--season", f"{example}/bundle.txt", "--special"]
    status, wrote = script("papers", [*words, f"{example}/special-lists.txt", f"{room}/special"], program)
    tally.holds(status == 0 and "special round" in wrote, "the papers of a special round", f"{status} {wrote}")
    cutoffs = "programme,institute,step,traits,place\nC,I2,OPEN,-,1\nE,I3,OPEN,-,4\n"
    tally.same(text_of(f"{room}/special/special-cutoffs.csv"), cutoffs, "the cutoffs of a special round")
    tally.same(text_of(f"{room}/special/special-round.txt"), text_of(f"{example}/special.txt"), "the text of a special round")
    status, wrote = script("papers", [*words, f"{example}/special.txt", f"{room}/special"], program)
    tally.holds(status == 3 and "special lists" in wrote, "a special round without lists is refused", f"{status} {wrote}")


def agree(folder: str, replies: str, bundle: bytes, lists: dict[int, str]) -> None:
    """The papers are the texts of `run`, word for word, and have no token."""
    label = os.path.basename(folder)
    rounds = re.findall(r"^round \d+ seated \d+\n(?:.*\n)*?end round\n", replies, re.M)
    for number, text in enumerate(rounds, 1):
        tally.holds(text_of(f"{folder}/round-{number}.txt") == text, f"{label}: round-{number}.txt is the text of run")
    final = re.findall(r"^final \d+\n(?:.*\n)*?end final\n", replies, re.M)
    tally.holds(len(final) == 1 and text_of(f"{folder}/final.txt") == final[0], f"{label}: final.txt is the text of run")
    for number, text in lists.items():
        tally.holds(text_of(f"{folder}/lists-{number}.txt") == text, f"{label}: lists-{number}.txt is as the plain office has it")
        parts = "".join(text_of(f"{folder}/institute-{number}-{it}.txt") for it in ("I1", "I2", "I3"))
        tally.holds(sorted(parts.split("end list")) == sorted(text.split("end list")), f"{label}: the institutes share out the lists of round {number}")
    there = sorted(os.listdir(folder))
    plain = [it for it in there if not it.endswith(".gz")]
    tally.holds(there == sorted([*plain, *(f"{it}.gz" for it in plain)]), f"{label}: each paper has a packed one", f"{there}")
    tally.holds(all(gzip.open(f"{folder}/{it}.gz").read().decode() == text_of(f"{folder}/{it}") for it in plain), f"{label}: the packed ones are the same")
    all_of_it = "".join(text_of(f"{folder}/{it}") for it in plain)
    tally.holds(not any(it in all_of_it for it in tokens_of(bundle)), f"{label}: no token in the papers")
    tally.holds(all(os.stat(f"{folder}/{it}").st_mode & 0o777 == 0o644 for it in there), f"{label}: everybody may read the papers")


HEAD = "candidate,token,application_number\n"


@part("what the clerk announces")
def announced(room: str, program: str) -> None:
    later = (datetime.datetime.now(datetime.timezone.utc) + datetime.timedelta(days=1)).isoformat(timespec="minutes")
    status, wrote = script("announce", [room, "window", "1", later], program)
    told = json.loads(text_of(f"{room}/window.json"))
    tally.holds(status == 0 and told["window"] == 1 and datetime.datetime.fromisoformat(told["closes"]).tzinfo, "the end of a window", f"{status} {wrote}")
    with open(f"{room}/names.csv", "w", encoding="utf-8") as it:
        it.write("programme,A,Computer Science\n\ninstitute,I1,\"Indian Institute, Roorkee\"\nprogramme,B,भौतिकी\nboard,,The Board\nshort,A,\"CSE, Roorkee\"\nlist,1,JEE (Advanced)\nrank,1-240000,Rank OBC\n")
    status, wrote = script("announce", [room, "names", f"{room}/names.csv"], program)
    wanted = {"programmes": {"A": "Computer Science", "B": "भौतिकी"}, "institutes": {"I1": "Indian Institute, Roorkee"}, "board": "The Board"}
    wanted |= {"short": {"A": "CSE, Roorkee"}, "lists": {"1": "JEE (Advanced)"}, "ranks": {"1-240000": "Rank OBC"}}
    tally.holds(status == 0 and json.loads(text_of(f"{room}/names.json")) == wanted, "names of codes", f"{status} {wrote}")
    with open(f"{room}/names.csv", "a", encoding="utf-8") as it:
        it.write("board,,The Board,बोर्ड\nshort,A,\"CSE, Roorkee\",\"सीएसई, रुड़की\"\n")
    status, wrote = script("announce", [room, "names", f"{room}/names.csv"], program)
    wanted["hi"] = {"board": "बोर्ड", "short": {"A": "सीएसई, रुड़की"}}
    tally.holds(status == 0 and json.loads(text_of(f"{room}/names.json")) == wanted, "names in Hindi are in a fourth column", f"{status} {wrote}")
    status, wrote = script("announce", [room, "help", "mailto:help@board.example", "Call 011", "011 पर फ़ोन करें"], program)
    wanted = {"text": "Call 011", "hi": "011 पर फ़ोन करें", "url": "mailto:help@board.example"}
    tally.holds(status == 0 and json.loads(text_of(f"{room}/help.json")) == wanted, "whom candidates ask", f"{status} {wrote}")
    status, wrote = script("announce", [room, "special", later], program)
    tally.holds(status == 0 and datetime.datetime.fromisoformat(json.loads(text_of(f"{room}/special.json"))["closes"]).tzinfo, "until when lists for a special round are taken", f"{status} {wrote}")
    before = {it: text_of(f"{room}/{it}") for it in os.listdir(room)}
    for label, words in [
        ("an address that a browser runs", ["help", "javascript:alert(1)", "Call"]),
        ("a time without a zone", ["window", "1", "2999-01-01T10:00"]),
        ("a time that is past", ["window", "1", "2020-01-01T10:00+05:30"]),
        ("no time", ["window", "1", "tomorrow"]),
        ("lists for a special round until a time that is past", ["special", "2020-01-01T10:00+05:30"]),
        ("no window", ["window", "-1", later]),
        ("a code twice", ["names", f"{room}/twice.csv"]),
        ("a code twice in Hindi", ["names", f"{room}/hindi.csv"]),
        ("a row of another kind", ["names", f"{room}/kind.csv"]),
        ("a rank of no place", ["names", f"{room}/rank.csv"]),
        ("a short token", ["numbers", f"{room}/short.csv"]),
        ("an application number twice", ["numbers", f"{room}/number.csv"]),
        ("an application number that lost its digits", ["numbers", f"{room}/digits.csv"]),
        ("a file of tokens without application numbers", ["numbers", f"{room}/kind.csv"]),
    ]:
        given = {"twice": "programme,A,x\nprogramme,A,y\n", "hindi": "programme,A,x,y\nprogramme,A,x,z\n", "kind": "course,A,x\n", "rank": "rank,1-0R,x\n"}
        given |= {"short": f"{HEAD}1,abcdefgh1234567,A1\n", "number": f"{HEAD}1,abcdefgh12345678,A-1\n2,abcdefgh12345679,a1\n", "digits": f"{HEAD}1,abcdefgh12345678,2.6031E+11\n"}
        for name, text in given.items():
            with open(f"{room}/{name}.csv", "w", encoding="utf-8") as it:
                it.write(text)
        status, wrote = script("announce", [room, *words], program)
        tally.holds(status == 3 and "nothing was written" in wrote, f"announce refuses {label}", f"{status} {wrote}")
    tally.holds(all(text_of(f"{room}/{it}") == text for it, text in before.items()), "announce leaves what is there where it refuses")
    status, wrote = script("announce", [room, "remove", "window.json"], program)
    tally.holds(status == 0 and text_of(f"{room}/window.json") == "{}", "announce empties a paper", f"{status} {wrote}")
    tally.same(script("announce", [room, "remove", "names.csv"], program)[0], 2, "announce removes only papers")
    announced_numbers(room, program)


def announced_numbers(room: str, program: str) -> None:
    """The paper about application numbers: who has number and token finds the candidate, the paper shows neither, and one of before goes.

    A spreadsheet program drops the zeros before a number, so they do not count."""
    people = {it: (f"0026-{it:010}", f"{it:05}abcdefghijk") for it in range(1, 1201)}
    with open(f"{room}/tokens.csv", "w", encoding="utf-8") as it:
        it.write(f"{HEAD}clerk,abcdefgh12345678,\n" + "".join(f"{one},{token},{number}\n" for one, (number, token) in people.items()))
    for _ in range(2):
        status, wrote = script("announce", [room, "numbers", f"{room}/tokens.csv"], program)
        tally.holds(status == 0 and "1200 candidates" in wrote, "application numbers", f"{status} {wrote}")
    told = json.loads(text_of(f"{room}/numbers.json"))
    tally.same((os.listdir(f"{room}/numbers"), told["digits"], told["letters"]), ([told["salt"]], 1, False), "one paper is there, in parts")
    parts = {it: json.loads(text_of(f"{room}/numbers/{told['salt']}/{it}.json")) for it in "0123456789abcdef"}
    for one in (1, 600, 1200):
        number, token = people[one]
        key = hashlib.pbkdf2_hmac("sha256", token.encode(), (told["salt"] + number.replace("-", "").lstrip("0")).encode(), 1000, 8).hex()
        tally.same(parts[key[0]].get(key[1:]), one, f"number and token of candidate {one} find the candidate")
    all_of_it = json.dumps(parts)
    tally.holds(not any(number[5:] in all_of_it or token in all_of_it for number, token in people.values()), "no application number and no token is in it")
    status, wrote = script("announce", [room, "remove", "numbers.json"], program)
    tally.same((status, text_of(f"{room}/numbers.json"), os.listdir(f"{room}/numbers")), (0, "{}", []), "announce removes the parts too")


# what run-office runs in place of the office: it says that its store failed, or not, and then ends or waits
FAILING = "import sys, time; sys.stderr.write('answered 503: the store failed; later failures are not reported here\\n'); sys.stderr.flush(); time.sleep(30)"
# and in place of an office that refuses its store, which says so on standard output, and before that the port on standard error
REFUSING = "import os; os.write(2, b'serving\\n'); os.write(1, b'fault: differs\\n'); os._exit(9)"


@part("run-office ends an office whose store failed")
def ends_failed(room: str, program: str) -> None:
    def run(code: str, store: str = f"{room}/season.db") -> tuple[int, str, float]:
        begun = time.monotonic()
        # the journal takes both outputs
        ran = subprocess.run([f"{DEPLOY}/run-office", store, "python3", "-c", code], stdout=subprocess.PIPE, stderr=subprocess.STDOUT, timeout=60)
        return ran.returncode, ran.stdout.decode(), time.monotonic() - begun

    status, wrote, secs = run(FAILING)
    tally.holds(status == 6 and wrote.startswith("answered 503") and "the office is ended" in wrote and secs < 3, "run-office ends an office whose disk works again", f"{status} {wrote} {secs:.1f} s")
    tally.same(os.listdir(room), [], "run-office leaves no file")
    status, wrote, secs = run(FAILING.replace("sleep(30)", "sleep(3)"), f"{room}/missing/season.db")
    tally.holds(status == 0 and "is ended" not in wrote and secs >= 3, "run-office leaves an office up while its disk fails", f"{status} {wrote} {secs:.1f} s")
    tally.same({run(REFUSING)[:2] for _ in range(20)}, {(9, "serving\nfault: differs\n")}, "run-office keeps the order of two outputs, so the last line says why the office ended")
    for code, wanted in (("import sys; sys.exit(9)", 9), ("pass", 0), ("import os; os.kill(os.getpid(), 9)", -9)):
        tally.same(run(code)[0], wanted, f"run-office ends as its program: {wanted}")
    with subprocess.Popen([f"{DEPLOY}/run-office", f"{room}/season.db", "sleep", "30"]) as child:
        time.sleep(1)
        child.terminate()
        tally.same(child.wait(), -15, "run-office hands a signal on")


# what run-office runs in place of an office with a large store: it listens, and answers after some seconds
LATE = """#!/usr/bin/env python3
import socket, sys, time
door = socket.create_server(("127.0.0.1", int(sys.argv[5])))
time.sleep(4)
while True:
    link, _ = door.accept()
    with link:
        link.recv(4096)
        link.sendall(b"HTTP/1.1 200 OK\\r\\nContent-Length: 2\\r\\nConnection: close\\r\\n\\r\\n{}")
"""


@part("an office that reads a large store is away", ["nginx", "openssl"])
def reads_long(room: str, program: str) -> None:
    """It listens before it answers; run-office says so to nginx, so that nobody waits in silence."""
    os.makedirs(f"{room}/run")
    with open(f"{room}/late", "w", encoding="utf-8") as it:
        it.write(LATE)
    os.chmod(f"{room}/late", 0o755)
    port, flag = free_port(), f"{room}/run/starting"
    words = [f"{DEPLOY}/run-office", f"{room}/season.db", f"{room}/late", "serve", "100", "2", "kept", str(port), f"{room}/season.db"]
    with Front(room, f"127.0.0.1:{port}", STARTING=flag) as nginx, subprocess.Popen(words, env={**SYSTEM, "RUNTIME_DIRECTORY": f"{room}/run"}) as child:
        try:
            until(lambda: listeners(port), "the port of the office")
            begun = time.monotonic()
            came = nginx.ask("GET", "/v1/state")
            secs = time.monotonic() - begun
            tally.holds(os.path.exists(flag) and secs < 2, "a question is answered at once while the office reads its store", f"{came} {secs:.1f} s")
            tally.same((came.status, came.body, came.fields.get("retry-after")), (502, b'{"front":"away"}', "2"), "an office that reads its store is away")
            tally.status(nginx.ask("GET", "/"), 200, "the page meanwhile")
            until(lambda: not os.path.exists(flag), "the first answer of the office", 20)
            tally.same(nginx.ask("GET", "/v1/state").body, b"{}", "the office answers when it has read its store")
        finally:
            child.terminate()
            child.wait()


@part("what is watched")
def watched(room: str, program: str) -> None:
    log, store = f"{room}/nachodune.log", f"{room}/season.db"
    with open(store, "wb") as it:
        it.write(b"x" * 4096)

    def seen(statuses: Sequence[int], age: float = 0) -> tuple[int, str]:
        at = (datetime.datetime.now(datetime.timezone.utc) - datetime.timedelta(seconds=age)).isoformat(timespec="seconds")
        with open(log, "w", encoding="utf-8") as it:
            it.writelines(json.dumps({"time": at, "status": status}) + "\n" for status in statuses)
            it.write('{"time":"20')
        return script("watch", [log, store], program)

    status, wrote = seen([200] * 50 + [502] * 3)
    tally.holds(status == 0 and wrote.startswith("502: 3, 503: 0, 429: 0 of 53 requests in 1 min; ") and wrote.count("\n") == 1, "watch writes one line", f"{status} {wrote}")
    status, wrote = seen([200] * 50 + [502] * 21)
    tally.holds(status == 1 and wrote.startswith("LOOK: 502: 21"), "watch says that the office is away", f"{status} {wrote}")
    status, wrote = seen([200, 503])
    tally.holds(status == 1 and "503: 1" in wrote, "watch says that the store failed", f"{status} {wrote}")
    status, wrote = seen([503] * 9, age=90)
    tally.holds(status == 0, "watch leaves out what is older", f"{status} {wrote}")
    os.truncate(store, 1 << 40)
    status, wrote = seen([200])
    tally.holds(status == 1 and ", 0 copies of the store" in wrote, "watch says that the room ends", f"{status} {wrote}")
    for result, failures in (("exit-code", "1"), ("signal", "2"), ("success", "0")):
        script("pause", ["before", room], program, PATH=f"{quick_sleep(room)}:{SYSTEM['PATH']}")
        script("pause", ["after", room], program, SERVICE_RESULT=result)
        tally.same(text_of(f"{room}/failures").strip(), failures, f"pause counts after {result}")
    waits = []
    for _ in range(8):
        _, wrote = script("pause", ["before", room], program, PATH=f"{quick_sleep(room)}:{SYSTEM['PATH']}")
        waits.append(int(re.findall(r"slept (\d+)", wrote)[0]))
        script("pause", ["after", room], program, SERVICE_RESULT="exit-code")
    tally.same(waits, [0, 1, 2, 5, 15, 30, 60, 60], "each start after a failure waits longer, up to a minute")


def quick_sleep(room: str) -> str:
    """A folder with a `sleep` that only says how long."""
    os.makedirs(f"{room}/bin", exist_ok=True)
    with open(f"{room}/bin/sleep", "w", encoding="utf-8") as it:
        it.write('#!/bin/sh\necho "slept $1"\n')
    subprocess.run(["chmod", "755", f"{room}/bin/sleep"], check=True)
    return f"{room}/bin"


# ---- what is installed

UNITS = (*sorted(it for it in os.listdir(DEPLOY) if it.startswith("nachodune") and it.endswith((".service", ".socket", ".timer", ".path"))), "nachodune-choices.service")
SCRIPTS = ("alert", "announce", "begin", "counts", "empty-texts", "go-back", "keep-copy", "papers", "pause", "run-office", "upgraded", "watch")


def checkout(room: str, program: str) -> str:
    """A checkout with what install needs."""
    os.makedirs(f"{room}/top")
    for name in ("deploy", "docs", "examples", "tools", "web"):
        shutil.copytree(f"{TOP}/{name}", f"{room}/top/{name}")
    return f"{room}/top"


def installed(room: str, program: str) -> str:
    top = checkout(room, program)
    words = [f"TO={room}/to", f"PROGRAM={program}", f"HOST={HOST}", "CERT=/etc/ssl/office.pem", "KEY=/etc/ssl/office.key"]
    called([f"{top}/deploy/install", *words, "CLERKS=10.1.0.0/16,10.2.0.1", "SECOND=/srv/copies"])
    return f"{room}/to"


@part("install", rooms=None)
def install(room: str, program: str) -> None:
    to = installed(room, program)
    there = [os.path.relpath(f"{at}/{it}", to) for at, _, names in os.walk(to) for it in names]
    wanted = {
        *(f"etc/nginx/nachodune/{it}.conf" for it in ("nachodune", "headers", "way", "office", "texts", "page", "clerks", "clerks-geo", "large-geo", "logrotate")),
        *(f"etc/nginx/nachodune/pages/{it}.html" for it in (403, 404, 429, "folder")),
        "etc/nginx/conf.d/nachodune.conf",
        *(f"etc/systemd/system/{it}" for it in UNITS),
        *(f"usr/lib/nachodune/{it}" for it in ("office", "stores.py", *SCRIPTS)),
        "etc/systemd/system/nachodune-check.service.d/second.conf",
        "etc/systemd/system/nachodune-watch.service.d/site.conf",
        "usr/share/doc/nachodune/RUNNING.md",
        *(f"usr/share/doc/nachodune/docs/{it}.md" for it in ("RULES", "FORMATS", "CHECKING")),
        *(f"usr/lib/nachodune/tools/{it}" for it in os.listdir(f"{TOP}/tools") if it != "README.md" and it != "__pycache__"),
        *(f"usr/lib/nachodune/choices/{it}" for it in os.listdir(f"{DEPLOY}/choices") if it not in ("README.md", "nachodune-choices.service", "__pycache__")),
        "usr/share/doc/nachodune/deploy/choices/README.md",
        "usr/share/nachodune/web/index.html",
    }
    tally.holds(wanted <= set(there), "install puts everything at its place", f"{sorted(wanted - set(there))}")
    left = [it for it in there if it.startswith("etc/nginx") and re.search(r"@[A-Z]+@", text_of(f"{to}/{it}"))]
    tally.holds(not left, "no name is left between at-signs", f"{left}")
    tally.holds("allow 10.1.0.0/16;\nallow 10.2.0.1;\ndeny all;\n" in text_of(f"{to}/etc/nginx/nachodune/clerks.conf"), "the clerk's addresses")
    more = ["CERT=c", "KEY=k", "CLERKS=x"]
    for words in (["HOST=a"], ["HOST=a b", *more], ["HOST=a;b", *more], ["HOST=", *more], ["HOST=a", "OTHER=y", *more]):
        ran = subprocess.run([f"{DEPLOY}/fill", f"{room}/refused", *words], capture_output=True)
        tally.holds(ran.returncode == 2 and not os.path.exists(f"{room}/refused"), f"fill refuses {words}", f"{ran}")


@part("install under every umask", rooms=None)
def umasks(room: str, program: str) -> None:
    """Everybody may read what nginx serves and what units run, also from a checkout that only its owner may read."""
    top = checkout(room, program)
    subprocess.run(["chmod", "-R", "go-rwx", top], check=True)
    words = [f"PROGRAM={program}", f"HOST={HOST}", "CERT=/etc/ssl/office.pem", "KEY=/etc/ssl/office.key", "CLERKS=10.1.0.0/16", "SECOND=/srv/copies", "GROUP=haproxy"]
    seen = {}
    for mask in (0o022, 0o027, 0o077):
        to = f"{room}/to-{mask:03o}"
        subprocess.run([f"{top}/deploy/install", f"TO={to}", *words], check=True, umask=mask, stdout=subprocess.DEVNULL)
        seen[mask] = {os.path.relpath(f"{at}/{it}", to): os.stat(f"{at}/{it}").st_mode & 0o7777 for at, folders, names in os.walk(to) for it in (*folders, *names)}
    tally.holds(seen[0o022] == seen[0o027] == seen[0o077], "install gives the same modes under every umask", f"{[it for it in seen[0o022] if seen[0o022][it] != seen[0o077].get(it)][:5]}")
    closed = [f"{it} {mode:o}" for it, mode in seen[0o077].items() if mode not in (0o755, 0o644)]
    tally.holds(not closed, "install leaves no file that others cannot read", f"{closed[:5]}")
    door = text_of(f"{room}/to-077/etc/systemd/system/nachodune-door.socket.d/group.conf")
    tally.same(door, "[Socket]\nSocketGroup=haproxy\n", "GROUP opens the door to another group")


@part("nginx takes its files", ["nginx", "openssl"])
def nginx_takes(room: str, program: str) -> None:
    nginx = Front(room, "unix:/run/nachodune/door.sock")
    ran = subprocess.run([found("nginx"), "-t", "-e", "stderr", "-c", f"{room}/nginx.conf"], capture_output=True, text=True)
    tally.holds(ran.returncode == 0, "nginx -t", ran.stderr)
    lines = [it for it in ran.stderr.splitlines() if "[warn]" in it and "http2" not in it and '"user" directive' not in it]
    tally.holds(not lines, "nginx -t warns of nothing", f"{lines}")
    tally.holds(nginx.begun is None, "nothing was started")


@part("systemd takes the units", ["systemd-analyze"], rooms=None)
def units(room: str, program: str) -> None:
    to = installed(room, program)
    os.makedirs(f"{room}/units")
    for name in UNITS:
        text = text_of(f"{to}/etc/systemd/system/{name}")
        with open(f"{room}/units/{name}", "w", encoding="utf-8") as it:
            it.write(text.replace("/usr/lib/nachodune", f"{to}/usr/lib/nachodune"))
    for name in (it for it in UNITS if "@" not in it):
        ran = subprocess.run([found("systemd-analyze"), "verify", f"{room}/units/{name}"], capture_output=True, text=True, env=SYSTEM)
        tally.holds((ran.returncode, ran.stderr) == (0, ""), f"systemd-analyze verify {name}", ran.stderr)
    timer = text_of(f"{room}/units/nachodune-watch.timer")
    seconds = [int(it) for it in re.findall(r"^(?:OnUnitInactiveSec|AccuracySec)=(\d+)s$", timer, re.M)]
    tally.holds(len(seconds) == 2 and sum(seconds) <= 45, "no second is between two looks of `watch`, which each count a minute", f"{seconds}")
    most = {"nachodune.service": 1.0, "nachodune-papers.service": 1.5, "nachodune-check.service": 1.5, "nachodune-copy.service": 1.5}
    for name in (it for it in UNITS if it.endswith(".service")):
        words = ["security", "--offline=true", "--no-pager", f"{room}/units/{name}"]
        ran = subprocess.run([found("systemd-analyze"), *words], capture_output=True, text=True, env=SYSTEM)
        exposure = re.search(r"Overall exposure level for \S+: ([\d.]+)", ran.stdout)
        limit = most.get(name, 2.5)
        tally.holds(exposure and float(exposure[1]) <= limit, f"systemd-analyze security {name}: at most {limit}", ran.stderr + ran.stdout[-200:])


@part("shellcheck takes the scripts", ["shellcheck"], rooms=None)
def shell_scripts(room: str, program: str) -> None:
    """Each script of a shell, and those that run in the container."""
    paths = sorted(f"{at}/{it}" for at, _, names in os.walk(DEPLOY) for it in names if text_of(f"{at}/{it}").startswith("#!/bin/sh"))
    tally.holds(len(paths) > 10, "there are scripts of a shell", f"{paths}")
    for path in paths:
        ran = subprocess.run([found("shellcheck"), "--shell=sh", path], capture_output=True, text=True, env=SYSTEM)
        tally.holds((ran.returncode, ran.stdout) == (0, ""), f"shellcheck {os.path.relpath(path, DEPLOY)}", ran.stdout + ran.stderr)


# What runs in the container: each line of its output is a name and what was seen. The tokens are those of strong().
TRIAL = r"""
say() { echo "$1=$2" >> /trial.out; }
ask() { curl -sk -m 20 --resolve office.example:443:127.0.0.1 -w ' %{http_code}' "$@"; }
state() { ask https://office.example/v1/state; }
comes() { n=0; until [ "$(eval "$2")" = "$1" ] || [ $n -ge "${3:-150}" ]; do n=$((n + 1)); sleep 0.2; done; eval "$2"; }
up() { n=0; until case "$(state)" in *' 200') ;; *) false ;; esac || [ $n -ge 300 ]; do n=$((n + 1)); sleep 0.1; done; }
copies() { find /var/lib/nachodune/copies -name '*Z' 2> /dev/null | wc -l; }
answer() { ask -H 'X-Office-Token: tU1vW3xY5zA7' -d "{\"cand\":3,\"window\":1,\"turn\":$1,\"choice\":\"float\"}" https://office.example/v1/answer; }
age() { find /var/lib/nachodune/copies -name of.txt -exec touch -d '1 hour ago' {} +; }
as() { setpriv --reuid=nachodune --regid=nachodune --clear-groups "$@"; }
told() { journalctl --sync; journalctl --no-pager -q -o cat -u "$1.service"; }
# lets nginx write all lines of requests so far, and empties its log
emptied() { systemctl kill -s USR1 --kill-who=main nginx; sleep 2.5; : > /var/log/nachodune/nachodune.log; }
kept=/var/lib/nachodune/season.db lib=/usr/lib/nachodune
chmod -R go-rwx /top; umask 077; mkdir -p /etc/nachodune; printf '#!/bin/sh\necho "$1: $2" >> /var/lib/nachodune-alert/alerted\n' > /etc/nachodune/alert; chmod 755 /etc/nachodune/alert
/top/deploy/install PROGRAM=/program HOST=office.example CERT=/etc/office.pem KEY=/etc/office.key CLERKS=127.0.0.1 SECOND=/second CA=/etc/office.pem > /install.out 2>&1
say installed $?
umask 022
say connections "$(grep -c worker_connections /install.out)"
systemctl daemon-reload
as $lib/begin $kept < /bundle.txt
say begun $?
systemctl start nachodune nachodune-door.socket nginx nachodune-papers nachodune-copy.path nachodune-night.timer nachodune-watch.timer
up
say first "$(state)"
say copies "$(copies)"
say checked "$(comes 'state window 0 rounds 2 published 0' 'cat /var/lib/nachodune/copies/*Z/state.txt 2> /dev/null')"
say counts "$(comes '{"window": 0, "open": false, "seats": 0' 'ask -H "X-Office-Token: Qm4xTz81vKpL" https://office.example/clerk/counts.json | cut -d , -f 1-3')"
say second "$(comes 1 'ls /second | wc -l')"
say mode "$(stat -c %a /var/lib/nachodune /var/lib/nachodune/copies $kept | tr '\n' ' ')"
curl -s -m 5 http://127.0.0.1:8080/v1/state
say direct $?
setpriv --reuid=12345 --regid=12345 --clear-groups curl -s -m 5 --unix-socket /run/nachodune/door.sock http://x/v1/state
say door $?
say cut "$(ask -H 'X-Office-Token: Qm4xTz81vKpL' -d '{"window":0}' https://office.example/v1/cut)"
say seat "$(ask -H 'X-Office-Token: kL2mN4pQ6rS8' https://office.example/v1/seat/2)"
say papers "$(comes 'round 1 seated 4' 'ask https://office.example/season/round-1.txt | head -n 1')"
say cutcopy "$(comes 2 copies)"
say packed "$(ask -o /packed -H 'Accept-Encoding: gzip' https://office.example/season/round-1.txt) $(gunzip < /packed | head -n 1)"
say sandbox "$(grep -hE 'CapEff|NoNewPrivs|Seccomp:' /proc/$(systemctl show -p MainPID --value nachodune)/status | tr -d '\t' | tr '\n' ' ')"
say files "$(grep 'open files' /proc/$(systemctl show -p MainPID --value nachodune-door)/limits | tr -s ' ' | cut -d ' ' -f 4)"
say words "$(tr '\0' ' ' < /proc/$(systemctl show -p MainPID --value nachodune-door)/cmdline | cut -d ' ' -f 2-)"
python3 /limits.py
ask https://office.example/v1/round/1 > /dev/null; say text "$(ask https://office.example/v1/round/1 | cut -c 1-39)"; sleep 1.2
say hits "$(grep /v1/round/1 /var/log/nachodune/nachodune.log | tail -n 1 | grep -c '"kept":"HIT"')"
answer 1 > /dev/null; age; systemctl kill -s KILL nachodune; up
say killed "$(state)"
say again "$(copies)"
answer 2 > /dev/null; systemctl kill -s KILL nachodune; up
say young "$(copies)"
answer 3 > /dev/null; systemctl start nachodune-copy
say copied "$? $(copies) $(state)"
systemctl stop nachodune
say stopped "$(state)"
systemctl stop nachodune-door.service
say early "$(state)"
systemctl start nachodune; up
say late "$(state)"
say doored "$(systemctl is-active nachodune-door.service)"
systemctl start nachodune-night.service; up
say night "$(state)"
# another version takes the place of the program, as dpkg puts it: the old one answers until an administrator starts the new one
program() { main=$(systemctl show -p MainPID --value nachodune); cmp -s /proc/$(cut -d ' ' -f 1 /proc/$main/task/$main/children)/exe "$1" && echo "$2"; }
put() { cp "$1" /put.new; chmod 755 /put.new; mv /put.new $lib/office; }
cp /program /program.new; printf x >> /program.new
put /program.new
$lib/upgraded try > /upgraded.out 2>&1
say tried "$? $(grep -c '^the new program reads the season and gives the rounds that are published: state window 1' /upgraded.out) $(program /program old)"
systemctl start nachodune-night.service
say waits "$(program /program old) $(told nachodune-night | grep -c 'another version is installed') $(state)"
systemctl restart nachodune; up
say anew "$(program /program.new new) $(answer 3)"
before=$(systemctl show -p MainPID --value nachodune); systemctl start nachodune-night.service; up
say nights "$(program /program.new new) $([ "$before" = "$(systemctl show -p MainPID --value nachodune)" ] && echo same || echo started)"
put /bin/false; $lib/upgraded try > /upgraded.out 2>&1
say wrongnew "$? $(grep -c 'the new program refuses the season' /upgraded.out) $(program /program.new new) $(state)"
put /program; $lib/upgraded try > /upgraded.out 2>&1; say backagain "$?"; systemctl restart nachodune; up
say older "$(program /program old) $(answer 3)"
# not before, so that no full hour makes a copy here
systemctl start nachodune-copy.timer
say timers "$(systemctl is-active nachodune-night.timer nachodune-watch.timer nachodune-copy.timer nachodune-copy.path | tr '\n' ' ')"
systemctl stop nachodune-copy.timer
say limit "$(systemctl show -p TimeoutStartUSec -p RuntimeMaxUSec --value nachodune | tr '\n' ' ')"
# a start that takes longer than systemd waits by default, which is 5 seconds here
mkdir -p /run/systemd/system/nachodune.service.d
printf '[Service]\nExecStartPre=/bin/sleep 9\n' > /run/systemd/system/nachodune.service.d/slow.conf
systemctl daemon-reload; systemctl restart nachodune; up
say slow "$(state) $(systemctl show -p NRestarts --value nachodune)"
rm /run/systemd/system/nachodune.service.d/slow.conf; systemctl daemon-reload
# somebody has the store open: starts fail, ever less often, and no copy is lost
systemctl stop nachodune; before=$(copies)
setpriv --reuid=nachodune --regid=nachodune --clear-groups $lib/office serve 1000 1 kept 8099 $kept 2> /dev/null & holder=$!
comes 0 'curl -s -o /dev/null http://127.0.0.1:8099/v1/state; echo $?' > /dev/null
systemctl start nachodune; sleep 12
say held "$(systemctl is-active nachodune | sed s/deactivating/activating/)"
restarts=$(systemctl show -p NRestarts --value nachodune)
say restarts "$([ "$restarts" -ge 2 ] && [ "$restarts" -le 6 ] && echo few || echo "$restarts")"
say lost $(($(copies) - before))
kill $holder; wait $holder; comes active 'systemctl is-active nachodune' 400 > /dev/null; up
say freed "$(state)"
# the watch, and the command that it calls
systemctl stop nachodune-watch.timer; systemctl reset-failed; systemctl restart nachodune; up
rm -f /run/nachodune-alert/* /var/lib/nachodune-alert/alerted; emptied
systemctl start nachodune-watch.service
say watched "$? $(told nachodune-watch | tail -n 40 | grep -c '^502: 0, 503: 0' | sed 's/[1-9].*/1/')"
# a disk for the logs that is full, and a certificate that is over
mkdir /var/log/whole; cp -a /var/log/nachodune/. /var/log/whole/; mount -t tmpfs -o size=200k none /var/log/nachodune; systemctl reload nginx; sleep 0.5
head -c 300k /dev/zero > /var/log/nachodune/fill 2> /dev/null
systemctl start nachodune-watch.service
say fulldisk "$? $(told nachodune-watch | tail -n 40 | grep -c 'LOOK: nginx logs nothing.*MiB are free for')"
umount -l /var/log/nachodune; cp -a /var/log/whole/. /var/log/nachodune/; systemctl reload nginx; sleep 0.5
cp /etc/office.pem /good.pem; cp /etc/expired.pem /etc/office.pem; systemctl reload nginx; sleep 0.5
systemctl start nachodune-watch.service
say expired "$? $(told nachodune-watch | tail -n 40 | grep -c 'LOOK: the certificate of office.example is refused: certificate has expired')"
cp /good.pem /etc/office.pem; systemctl reload nginx; sleep 0.5; systemctl reset-failed nachodune-watch.service
# the timer's next look finds it too: the certificate is over right after a look
looks() { told nachodune-watch | grep -c '^502: '; }
rm -f /run/nachodune-alert/* /var/lib/nachodune-alert/alerted; before=$(looks); systemctl start nachodune-watch.timer
n=0; until [ "$(looks)" -gt "$before" ] || [ $n -ge 300 ]; do n=$((n + 1)); sleep 0.2; done
cp /etc/expired.pem /etc/office.pem; systemctl reload nginx; begun=$(date +%s)
found=$(comes 1 'grep -c "LOOK: the certificate of .* has expired" /var/lib/nachodune-alert/alerted' 600); secs=$(($(date +%s) - begun))
say found "$found $([ $secs -le 60 ] && echo 'within a minute' || echo "after $secs s")"
systemctl stop nachodune-watch.timer; cp /good.pem /etc/office.pem; systemctl reload nginx; sleep 0.5; systemctl reset-failed nachodune-watch.service
rm -f /run/nachodune-alert/* /var/lib/nachodune-alert/alerted
# logs are rotated by their size
systemctl start nachodune-logs.service; say small "$? $(find /var/log/nachodune -name 'nachodune.log.1' | wc -l)"
head -c 70M /dev/zero | tr '\0' '\n' >> /var/log/nachodune/nachodune.log; systemctl start nachodune-logs.service; state > /dev/null; sleep 1.2
say rotated "$? $(find /var/log/nachodune -name 'nachodune.log.1' -size +60M | wc -l) $(grep -c '/v1/state' /var/log/nachodune/nachodune.log)"
rm -f /var/log/nachodune/nachodune.log.1
systemctl stop nachodune
for it in $(seq 25); do state; done > /dev/null; sleep 1.2
systemctl start nachodune-watch.service
say away "$? $(comes 1 'grep -c "^nachodune-watch: LOOK: 502: " /var/lib/nachodune-alert/alerted')"
systemctl stop nachodune
cp $kept /season.kept
python3 -c 'import sqlite3; it = sqlite3.connect("/var/lib/nachodune/season.db"); it.execute("DELETE FROM allot WHERE cand = 1"); it.commit()'
chown nachodune:nachodune $kept*
systemctl start nachodune
say refused "$(comes 'failed 9' 'echo "$(systemctl is-active nachodune) $(systemctl show -p ExecMainStatus --value nachodune)"') $(state)"
say alerted "$(comes 1 'grep -c "^nachodune: .*differs round 1 candidate 1" /var/lib/nachodune-alert/alerted')"
good=$(for it in /var/lib/nachodune/copies/*Z; do grep -l 'window 1' "$it/state.txt" 2> /dev/null; done | tail -n 1)
bad=$(ls -d /var/lib/nachodune/copies/*Z | tail -n 1)
systemctl reset-failed nachodune
cp -r "$(dirname "$good")" /wrong; echo x > /wrong/season.db; rm -f /wrong/season.db-wal
$lib/go-back /wrong > /back.out 2>&1
say wrong "$? $(grep -c 'take another copy' /back.out)"
$lib/go-back "$(dirname "$good")" > /back.out 2>&1
say returned "$? $(grep -c '^back to: state window 1 rounds 2 published 1' /back.out) $(find /var/lib/nachodune/replaced-*/ -name season.db | wc -l)"
up
say back "$(ask -H 'X-Office-Token: kL2mN4pQ6rS8' https://office.example/v1/seat/2)"
say emptied "$(find /var/lib/nginx/nachodune-texts -type f | wc -l) $(comes 'round 1 seated 4' 'ask https://office.example/season/round-1.txt | head -n 1')"
say logs "$(journalctl --no-pager | cat - /var/log/nginx/* /var/log/nachodune/* /var/lib/nachodune-alert/alerted | grep -c -e Qm4xTz81vKpL -e kL2mN4pQ6rS8)"
say end 0
"""
# In the container: addresses of two networks of 64 bits, and what each gets after one address spent its limit.
LIMITS = r"""
import socket, ssl, subprocess
for it in ("fd00:0:0:1::1", "fd00:0:0:1::2", "fd00:0:0:2::1"):
    subprocess.run(["ip", "-6", "addr", "add", f"{it}/128", "dev", "lo", "nodad"], check=True)
context = ssl.create_default_context()
context.check_hostname, context.verify_mode = False, ssl.CERT_NONE
END = b"\r\n\r\n"
def statuses(source, times):
    link = context.wrap_socket(socket.create_connection(("::1", 443), source_address=(source, 0)), server_hostname="office.example")
    held = b""
    for _ in range(times):
        # nginx itself refuses this, so that the limit is reached on a slow machine too
        link.sendall(b"GET /v1/cut HTTP/1.1\r\nHost: office.example" + END)
        while END not in held:
            held += link.recv(65536)
        head, _, held = held.partition(END)
        length = int(next((it.split(b":")[1] for it in head.split(b"\r\n") if it.lower().startswith(b"content-length")), 0))
        while len(held) < length:
            held += link.recv(65536)
        held, last = held[length:], int(head.split()[1])
        if last == 429:
            break
    return last
with open("/trial.out", "a") as it:
    first = statuses("fd00:0:0:1::1", 4000)
    print(f"ipv6={first} {statuses('fd00:0:0:1::2', 200)} {statuses('fd00:0:0:2::1', 200)}", file=it)
"""
SEEN = {
    "installed": "0",
    "connections": "1",
    "begun": "0",
    "first": '{"now":0,"published":0,"reply":"state","rounds":2} 200',
    "copies": "1",
    "checked": "state window 0 rounds 2 published 0",
    "counts": '{"window": 0, "open": false, "seats": 0',
    "second": "1",
    "mode": "700 700 600 ",
    "direct": "7",
    "door": "7",
    "cut": '{"reply":"published","round":1,"seated":4} 200',
    "seat": '{"cand":2,"programme":"B","reply":"seat","round":1,"standing":"offered","step":"OPEN"} 200',
    "papers": "round 1 seated 4",
    "cutcopy": "2",
    "packed": " 200 round 1 seated 4",
    "sandbox": "CapEff:0000000000000000 NoNewPrivs:1 Seccomp:2 ",
    "files": "16384",
    "words": "--connections-max=2048 127.0.0.1:8080 ",
    "ipv6": "429 429 403",
    "text": '{"reply":"round","round":1,"text":"roun',
    "hits": "1",
    "killed": '{"now":1,"published":1,"reply":"state","rounds":2} 200',
    "again": "3",
    "young": "3",
    "copied": '0 4 {"now":1,"published":1,"reply":"state","rounds":2} 200',
    "stopped": '{"front":"away"} 502',
    "early": '{"front":"away"} 502',
    "late": '{"now":1,"published":1,"reply":"state","rounds":2} 200',
    "doored": "active",
    "night": '{"now":1,"published":1,"reply":"state","rounds":2} 200',
    "tried": "0 1 old",
    "waits": 'old 1 {"now":1,"published":1,"reply":"state","rounds":2} 200',
    "anew": 'new {"cand":3,"choice":"float","reply":"noted","turn":3,"window":1} 200',
    "nights": "new started",
    "wrongnew": '1 1 new {"now":1,"published":1,"reply":"state","rounds":2} 200',
    "backagain": "0",
    "older": 'old {"cand":3,"choice":"float","reply":"noted","turn":3,"window":1} 200',
    "timers": "active active active active ",
    "limit": "infinity infinity ",
    "slow": '{"now":1,"published":1,"reply":"state","rounds":2} 200 0',
    "held": "activating",
    "restarts": "few",
    "lost": "0",
    "freed": '{"now":1,"published":1,"reply":"state","rounds":2} 200',
    "watched": "0 1",
    "fulldisk": "1 1",
    "expired": "1 1",
    "found": "1 within a minute",
    "small": "0 0",
    "rotated": "0 1 1",
    "away": "1 1",
    "refused": 'failed 9 {"front":"away"} 502',
    "alerted": "1",
    "wrong": "1 1",
    "returned": "0 1 1",
    "back": '{"cand":2,"programme":"B","reply":"seat","round":1,"standing":"offered","step":"OPEN"} 200',
    "emptied": "0 round 1 seated 4",
    "logs": "0",
    "end": "0",
}
TRIAL_UNIT = """
[Unit]
Requires=basic.target
After=basic.target
[Service]
Type=oneshot
TimeoutStartSec=infinity
ExecStart=/bin/sh /trial
ExecStopPost=/bin/systemctl --no-block poweroff
StandardOutput=append:/trial.log
StandardError=append:/trial.log
"""
HOST_FILES = ("passwd", "group", "login.defs", "nsswitch.conf", "ld.so.cache", "ld.so.conf", "ld.so.conf.d", "nginx", "alternatives", "ssl/openssl.cnf")


def made_root(room: str, program: str, trial: str = TRIAL) -> str:
    """A folder that systemd can boot from, with the programs of this machine, a checkout at /top, and nothing installed of it yet; it runs a trial."""
    root = f"{room}/root"
    for name in ("etc/ssl", "etc/systemd/system", "etc/systemd/system.conf.d", "second", "usr", "var/lib/nginx", "var/log/nginx", "var/tmp", "run", "tmp", "proc", "sys", "dev", "root", "home"):
        os.makedirs(f"{root}/{name}")
    for name in HOST_FILES:
        path = f"/etc/{name}"
        if os.path.isdir(path):
            shutil.copytree(path, f"{root}/etc/{name}", symlinks=True)
        elif os.path.exists(path):
            shutil.copy(path, f"{root}/etc/{name}")
    shutil.rmtree(f"{root}/etc/nginx/sites-enabled", ignore_errors=True)
    for name in ("bin", "sbin", "lib", "lib64"):
        os.symlink(f"usr/{name}", f"{root}/{name}")
    os.rename(checkout(room, program), f"{root}/top")
    for path, name in (
        ("/usr/lib/os-release", "etc/os-release"),
        (program, "program"),
        (certificate(room), "etc/office.pem"),
        (expired(room), "etc/expired.pem"),
        (f"{room}/key.pem", "etc/office.key"),
    ):
        shutil.copy(path, f"{root}/{name}")
    for name, text in (
        ("trial", trial),
        ("limits.py", LIMITS),
        ("etc/systemd/system.conf.d/short.conf", "[Manager]\nDefaultTimeoutStartSec=5s\n"),
        ("bundle.txt", strong(bundle_of())[0].decode()),
        ("etc/machine-id", ""),
        ("etc/shadow", ""),
        ("etc/gshadow", ""),
        ("etc/systemd/system/trial.service", TRIAL_UNIT),
    ):
        with open(f"{root}/{name}", "w", encoding="utf-8") as it:
            it.write(text)
    return root


@contextlib.contextmanager
def booting_alone() -> Iterator[None]:
    """Waits until no other check has a container booted, because two of them at once would share their groups of processes."""
    with open("/run/nachodune-booted.lock", "wb") as it:
        fcntl.flock(it, fcntl.LOCK_EX)
        yield


def seen_in(room: str, root: str, seconds: float = 900, overlay: Sequence[str] = ("--overlay=/usr::/usr",)) -> dict[str, str]:
    """Boots systemd in a folder, with the programs of this machine unless it has its own, and returns what its trial saw, by name."""
    words = [found("systemd-nspawn"), "--quiet", "--register=no", "--keep-unit", f"--directory={root}", *overlay]
    words += ["--private-network", "--console=pipe", "--boot", "--", "--unit=trial.service"]
    with booting_alone(), open(f"{room}/boot.log", "wb") as log:
        groups = [f"/sys/fs/cgroup{at}/{name}" for at in ("", "/unified", "/systemd") for name in ("payload", "supervisor")]
        groups = [it for it in groups if not os.path.exists(it)]
        child = subprocess.Popen(words, stdin=subprocess.DEVNULL, stdout=log, stderr=log)
        try:
            child.wait(seconds)
        except subprocess.TimeoutExpired:
            child.terminate()
            child.wait(60)
        for folder in (at for it in groups for at, *_ in os.walk(it, topdown=False)):
            with contextlib.suppress(OSError):
                os.rmdir(folder)
    return dict(it.partition("=")[::2] for it in text_of(f"{root}/trial.out").splitlines())


@part("the units under a running systemd", ["root", "systemd-nspawn", "setpriv", "nginx", "openssl", "curl", "logrotate"], rooms=None)
def booted(room: str, program: str) -> None:
    root = made_root(room, program)
    seen = seen_in(room, root)
    if "installed" not in seen:
        tally.skips("the units under a running systemd", f"a container that boots ({text_of(f'{room}/boot.log').strip()[-200:]})")
        return
    for name, wanted in SEEN.items():
        more = text_of(f"{root}/trial.log")[-400:] if name in ("installed", "begun") else ""
        tally.holds(seen.get(name) == wanted, f"under systemd: {name}", f"{seen.get(name)} and not {wanted}; {more}")


@part("try", ["nginx", "openssl"], rooms=None)
def looked_at(room: str, program: str) -> None:
    """The look on one machine under a strict umask, until Ctrl-C."""
    top = checkout(room, program)
    rooms = f"{room}/rooms"
    os.makedirs(rooms)
    port = next(it for it in iter(free_port, None) if not any(listeners(it + more) for more in (1, 2)))
    with open(f"{room}/try.txt", "wb") as log:
        env = {**SYSTEM, "OFFICE": program, "TMPDIR": rooms}
        # a caller in the background ignores Ctrl-C, and a shell cannot trap what it was started to ignore
        taken = signal.signal(signal.SIGINT, signal.SIG_DFL)
        child = subprocess.Popen([f"{top}/deploy/try", str(port)], stdin=subprocess.DEVNULL, stdout=log, stderr=log, umask=0o077, env=env)
        signal.signal(signal.SIGINT, taken)
    try:
        until(lambda: "Ctrl-C." in text_of(f"{room}/try.txt") or child.poll() is not None, "what try writes", 30)
        told = text_of(f"{room}/try.txt")
        tally.holds(all(it in told for it in (f"https://localhost:{port}/", CLERK, "tok00001", "tok00005")), "try writes the address and the tokens", told)
        context = ssl.create_default_context()
        context.check_hostname, context.verify_mode = False, ssl.CERT_NONE
        for path, wanted in (("/", b"<!doctype html>"), ("/v1/state", b'"now":0'), ("/clerk/", b"<!doctype html>")):
            with context.wrap_socket(socket.create_connection(("127.0.0.1", port), timeout=10), server_hostname="localhost") as link:
                link.sendall(request("GET", path, host=f"localhost:{port}"))
                came = read_reply(link)[0]
            tally.holds(came.status == 200 and wanted in came.body.lower(), f"try: {path}", f"{came}")
        tally.holds(came.fields.get("strict-transport-security") == "max-age=0", "try asks no browser to keep to TLS", f"{came.fields}")
        child.send_signal(signal.SIGINT)
        status = child.wait(20)
        tally.holds(status == 0, "try ends at Ctrl-C", f"{status} {text_of(f'{room}/try.txt')}")
        tally.holds(not any(listeners(port + more) for more in (0, 1, 2)), "try leaves nothing running")
        tally.holds(os.listdir(rooms) == [], "try leaves no file", f"{os.listdir(rooms)}")
    finally:
        if child.poll() is None:
            child.terminate()
            child.wait(20)
    ran = subprocess.run([f"{top}/deploy/try", "x"], capture_output=True, env={**SYSTEM, "OFFICE": program})
    tally.holds(ran.returncode == 1 and b"no port" in ran.stderr, "try with a wrong port", f"{ran}")
    ran = subprocess.run([f"{top}/deploy/try"], capture_output=True, env={**SYSTEM, "OFFICE": f"{room}/none"})
    tally.holds(ran.returncode == 1 and b"not built" in ran.stderr, "try without a program", f"{ran}")
