"""Makes dossiers of bundles and of stores; tools/dossier and tools/sheet use it."""
import csv
import io
import os
import secrets
import shutil
import sqlite3
import tempfile
from typing import Iterable, Iterator, Optional

from bundles import Call, ended, is_units, plain_bundle, rows, season_of, sections, split_at, table, told
from formats import ANSWERS, HEADERS, SECTIONS, STEPS, TOKEN

# ---- what is published


def listed(requests: list[list[str]], rounds: int, codes: list[str]) -> Iterator[str]:
    """Gives the rows of requests, with a row for each list after each cut that is accepted."""
    now = 0
    for row in requests:
        yield ",".join(row)
        if row == ["cut", "clerk", str(now)] and now <= rounds:
            now += 1
            if now <= rounds:
                yield from (f"list,nobody,{now},{code}" for code in codes)


def published(output: bytes) -> bytes:
    """Returns the texts of rounds, lists and final admissions in what the office wrote, each once: a repeated cut gives its text again."""
    texts: list[bytes] = []
    block: Optional[list[bytes]] = None
    seen: set[bytes] = set()
    for line in output.splitlines(keepends=True):
        word = line.split(b" ")[0]
        if block is None and word in (b"round", b"list", b"final") and not line.startswith(b"final admitted"):
            block = []
        if block is not None:
            block.append(line)
            if word == b"end":
                if block[0] not in seen:
                    texts += block
                    seen.add(block[0])
                block = None
    return b"".join(texts)


def codes_of(bundle: bytes) -> list[str]:
    """Returns the programmes of a bundle, in the order in which they first appear."""
    return [*dict.fromkeys(row[0] for row in table(sections(bundle)["matrix"].body))]


def asked(bundle: bytes, requests: list[list[str]]) -> bytes:
    """Returns the rows that ask for all that is published, from the season and its requests."""
    return "".join(f"{row}\n" for row in listed(requests, int(season_of(bundle)["rounds"]), codes_of(bundle))).encode()


# ---- a bundle


def of_bundle(call: Call, bundle: bytes) -> bytes:
    """Returns the dossier of a bundle with its requests; that of a bundle with units has its plain bundle."""
    bundle = plain_bundle(call, bundle) if is_units(bundle) else bundle
    told(call, ["check"], bundle)
    season, requests, _ = split_at(bundle, "requests")
    output = told(call, ["run", "memory"], ended(season) + b"[requests]\n" + asked(season, rows(requests or b"")))
    whole = ended(bundle) + b"[requests]\n" if requests is None else bundle
    return ended(whole) + b"[published]\n" + published(output)


# ---- a store


def kept(store: str) -> tuple[bytes, list[list[str]]]:
    """Returns the season that a store keeps, and the requests that were accepted, window by window."""
    base = sqlite3.connect(store)
    try:
        text = b"".join(it for (it,) in base.execute("SELECT bytes FROM season ORDER BY part"))
        cuts = base.execute("SELECT cuts FROM phase").fetchone()[0]
        codes = codes_of(text)
        requests: list[list[str]] = []
        for window in range(cuts + 1):
            for _, prog, step, seats in base.execute("SELECT seq, prog, step, seats FROM lift WHERE win = ? ORDER BY seq", (window,)):
                requests.append(["raise", "clerk", str(window), codes[prog], STEPS[step], str(seats)])
            for _, cand, turn, choice in base.execute("SELECT seq, cand, turn, choice FROM answer WHERE win = ? ORDER BY seq", (window,)):
                requests.append(["answer", str(cand), str(cand), str(window), str(turn), ANSWERS[choice]])
            if window < cuts:
                requests.append(["cut", "clerk", str(window)])
    finally:
        base.close()
    return text, requests


def of_store(call: Call, store: str) -> bytes:
    """Returns the dossier of the season that a store keeps. The office confirms its records first, and then writes again what it published."""
    with tempfile.TemporaryDirectory(prefix="dossier-") as room:
        copy = f"{room}/season.db"
        for end in ("", "-wal"):
            if os.path.isfile(store + end):
                shutil.copyfile(store + end, copy + end)
        told(call, ["resume", copy], b"")
        text, requests = kept(copy)
        output = told(call, ["resume", copy], asked(text, [row for row in requests if row[0] == "cut"]))
    script = "".join(f"{','.join(row)}\n" for row in requests).encode()
    return ended(text) + b"[requests]\n" + script + b"[published]\n" + published(output)


def is_store(path: str) -> bool:
    with open(path, "rb") as it:
        return it.read(16) == b"SQLite format 3\0"


# ---- a special round


def with_special(dossier: bytes, lists: bytes, wrote: bytes) -> bytes:
    """Returns a dossier with a special round behind it: the lists that `special lists` was given, and the round and the lists that it wrote."""
    return ended(dossier) + b"[lists]\n" + ended(lists) + b"[special]\n" + published(wrote)


# ---- tokens


def written(rows_of_section: Iterable[list[str]]) -> bytes:
    """Returns rows as the bytes of a section."""
    out = io.StringIO(newline="")
    csv.writer(out, lineterminator="\n").writerows(rows_of_section)
    return out.getvalue().encode()


def fresh() -> str:
    return secrets.token_hex(TOKEN.most // 2)


def without_tokens(dossier: bytes) -> bytes:
    """Returns the dossier with a fresh token in the place of each; the rows of all other sections keep their bytes."""
    bundle, rest, _ = split_at(dossier, "requests")
    assert rest is not None, "a dossier has a line [requests]"
    found, at = sections(bundle), HEADERS["register"].index("token")
    season = [[row[0], fresh(), *row[2:]] if row[0] == "clerk" else row for row in rows(found["season"].body)]
    header, *people = rows(found["register"].body)
    people = [[*row[:at], fresh(), *row[at + 1 :]] for row in people]
    bodies = {name: it.body for name, it in found.items()} | {"season": written(season), "register": written([header, *people])}
    made = b"".join(f"[{name}]\n".encode() + ended(bodies[name]) for name in SECTIONS[:-1])
    return bodies[None] + made + b"[requests]\n" + rest
