"""Keeps the lists of choices in an SQLite file. What a call returns as kept is on the disk: each transaction ends with a sync of the log."""
import hashlib
import hmac
import os
import secrets
import sqlite3
import time
from typing import Any, Iterable, NamedTuple, Optional, Sequence

from season_file import Programme, Season

# a candidate may save this often; each saved list stays, so that a receipt can be looked up
MOST_SAVED, MOST_REPORTS, MOST_LISTED = 1_000, 20, 1_000
TABLES = """
CREATE TABLE fixed(name TEXT PRIMARY KEY, value) WITHOUT ROWID;
CREATE TABLE candidate(number INTEGER PRIMARY KEY, board TEXT UNIQUE, name TEXT, category TEXT, traits TEXT, places TEXT, state TEXT, token BLOB);
CREATE TABLE programme(at INTEGER PRIMARY KEY, code TEXT UNIQUE, institute TEXT, merit INTEGER, home TEXT, others INTEGER);
CREATE TABLE entry(receipt INTEGER PRIMARY KEY AUTOINCREMENT, candidate INTEGER, at INTEGER, kind TEXT, codes TEXT, digest TEXT);
CREATE INDEX entry_of ON entry(candidate, receipt);
CREATE TABLE report(receipt INTEGER PRIMARY KEY AUTOINCREMENT, candidate INTEGER, at INTEGER, text TEXT);
CREATE INDEX report_of ON report(candidate, receipt);
CREATE TABLE signed_out(visit TEXT PRIMARY KEY, until INTEGER) WITHOUT ROWID;
"""
# what the store of a special round has in addition
SPECIAL = """
CREATE TABLE vacant(code TEXT PRIMARY KEY, seats INTEGER) WITHOUT ROWID;
CREATE TABLE admitted(candidate INTEGER PRIMARY KEY, code TEXT);
"""


class Refused(Exception):
    """Why nothing was kept, as the name of a sentence of the pages."""


class NoStore(Exception):
    """A file that is no store of lists, so that a person has to look."""


class Entry(NamedTuple):
    """A receipt: its number, the candidate, the time in milliseconds, what was kept, and the digest of the list."""

    receipt: int
    candidate: int
    at: int
    kind: str
    codes: tuple[str, ...]
    digest: str


class Person(NamedTuple):
    """A candidate as the store has them."""

    number: int
    board: str
    name: str
    category: str
    traits: str
    places: tuple[str, ...]
    state: str


def row_of(called: str, codes: Iterable[str]) -> str:
    """Returns the row of a list in choices.csv, such as `101,CSE,ME`; the candidate is called by the board's number if there is one."""
    return ",".join([called, *codes])


def digest_of(row: str) -> str:
    """Returns the digest of a row: the first 16 digits of its SHA-256."""
    return hashlib.sha256(row.encode()).hexdigest()[:16]


def now() -> int:
    """Returns the time in milliseconds."""
    return time.time_ns() // 1_000_000


def opened(path: str) -> sqlite3.Connection:
    """Opens a database whose transactions are on the disk when they have ended."""
    base = sqlite3.connect(path, isolation_level=None, timeout=30, check_same_thread=False)
    base.execute("PRAGMA journal_mode=WAL")
    base.execute("PRAGMA synchronous=FULL")
    return base


def begin(path: str, season: Season, boards: dict[int, tuple[str, str]], is_special: bool = False) -> None:
    """Makes the store of a season or of its special round, whole or not at all; the tokens are in it as hashes only."""
    part = f"{path}.part"
    for end in ("", "-wal", "-shm", "-journal"):
        if os.path.lexists(part + end):
            os.remove(part + end)
    os.close(os.open(part, os.O_CREAT | os.O_EXCL | os.O_WRONLY, 0o600))
    base = sqlite3.connect(part, isolation_level=None)
    base.executescript(TABLES + SPECIAL * is_special)
    salt, at = secrets.token_bytes(32), now()
    base.execute("BEGIN")
    base.executemany("INSERT INTO fixed VALUES(?, ?)", [("key", secrets.token_bytes(32)), ("salt", salt)])
    if is_special:
        put_special(base, season)
    base.executemany("INSERT INTO programme VALUES(?, ?, ?, ?, ?, ?)", [(at, *it) for at, it in enumerate(season.programmes)])
    for it in season.candidates:
        board, name = boards.get(it.number, ("", ""))
        row = (it.number, board or None, name, it.category, it.traits, ",".join(it.places), it.state, hashed(salt, it.token))
        base.execute("INSERT INTO candidate VALUES(?, ?, ?, ?, ?, ?, ?, ?)", row)
        if it.codes:
            base.execute("INSERT INTO entry VALUES(NULL, ?, ?, 'list', ?, ?)", (it.number, at, " ".join(it.codes), digest_of(row_of(board or str(it.number), it.codes))))
    base.execute("COMMIT")
    base.close()
    with open(part, "rb") as made:
        os.fsync(made.fileno())
    os.link(part, path)
    os.remove(part)


def put_special(base: sqlite3.Connection, season: Season) -> None:
    """Writes which seats are vacant, and who has a final admission."""
    base.execute("INSERT INTO fixed VALUES('special', 1)")
    base.executemany("INSERT INTO vacant VALUES(?, ?)", season.vacant.items())
    base.executemany("INSERT INTO admitted VALUES(?, ?)", season.admitted.items())


def hashed(salt: bytes, token: str) -> bytes:
    """Returns the hash of a token. Tokens are made by chance, so a fast hash is enough."""
    return hashlib.blake2b(token.encode(), key=salt, digest_size=32).digest()


class Store:
    """A connection to the store. Each thread that writes has one of its own."""

    def __init__(self, path: str) -> None:
        if not os.path.isfile(path):
            raise FileNotFoundError(f"there is no store {path}")
        try:
            self.base = opened(path)
            self.key, self.salt = self.fixed("key"), self.fixed("salt")
            rows = self.base.execute("SELECT code, institute, merit, home, others FROM programme ORDER BY at")
            self.programmes = {row[0]: Programme(*row) for row in rows}
            self.is_special = bool(self.fixed("special"))
            # the vacant seats of each programme of a special round
            self.vacant: dict[str, int] = dict(self.base.execute("SELECT code, seats FROM vacant")) if self.is_special else {}
        except sqlite3.DatabaseError as why:
            # a full or failing disk is an OperationalError, and passes
            if isinstance(why, sqlite3.OperationalError) and not str(why).startswith("no such table"):
                raise
            raise NoStore(f"{path} is no store of lists: {why}") from None
        # the programmes that are open to candidates with places in these merit lists, from this state
        self.known: dict[tuple[frozenset[int], str], dict[str, Programme]] = {}

    def fixed(self, name: str) -> Any:
        """Returns a value of the store, or None."""
        return next((value for (value,) in self.base.execute("SELECT value FROM fixed WHERE name = ?", (name,))), None)

    # ---- what there is

    def person(self, number: int) -> Optional[Person]:
        """Returns a candidate by the office's number."""
        return self.found("number = ?", number)

    def signed_in(self, given: str, token: str) -> Optional[Person]:
        """Returns the candidate of a number, of the board's or the office's, if the token is theirs. An unknown number takes as long as a wrong token."""
        is_number = given.isascii() and given.isdecimal() and len(given) < 10
        people = [self.found("board = ?", given), self.found("number = ?", int(given) if is_number else 0)]
        rows = [self.base.execute("SELECT token FROM candidate WHERE number = ?", (it.number if it else 0,)).fetchone() for it in people]
        are_theirs = [hmac.compare_digest(row[0] if row else bytes(32), hashed(self.salt, token)) for row in rows]
        return next((it for it, is_theirs in zip(people, are_theirs) if it and is_theirs), None)

    def found(self, which: str, value: object) -> Optional[Person]:
        """Returns the candidate of whom this holds."""
        row = self.base.execute(f"SELECT number, board, name, category, traits, places, state FROM candidate WHERE {which}", (value,)).fetchone()
        return Person(row[0], row[1] or str(row[0]), row[2], row[3], row[4], tuple(row[5].split(",")), row[6]) if row else None

    def open_to(self, person: Person) -> dict[str, Programme]:
        """Returns the programmes in whose merit list a candidate has a place, by their codes, in the order of the matrix; in a special round those with vacant seats."""
        key = (frozenset(at for at, place in enumerate(person.places, 1) if place), person.state)
        if key not in self.known:
            self.known[key] = {code: it for code, it in self.programmes.items() if it.merit_for(person.state) in key[0] and (not self.is_special or code in self.vacant)}
        return self.known[key]

    def admission(self, number: int) -> Optional[str]:
        """Returns the programme of a final admission, for lists of a special round; otherwise None."""
        row = self.base.execute("SELECT code FROM admitted WHERE candidate = ?", (number,)).fetchone() if self.is_special else None
        return row[0] if row else None

    def entries(self, number: int) -> list[Entry]:
        """Returns the receipts of a candidate, the newest first."""
        rows = self.base.execute("SELECT * FROM entry WHERE candidate = ? ORDER BY receipt DESC LIMIT 50", (number,))
        return [entry(row) for row in rows]

    def last(self, number: int) -> Optional[Entry]:
        """Returns the newest receipt of a candidate."""
        row = self.base.execute("SELECT * FROM entry WHERE candidate = ? ORDER BY receipt DESC LIMIT 1", (number,)).fetchone()
        return entry(row) if row else None

    def reports(self, number: int) -> list[tuple[int, int, str]]:
        """Returns what a candidate reported as wrong, each with its receipt and time."""
        return self.base.execute("SELECT receipt, at, text FROM report WHERE candidate = ? ORDER BY receipt DESC", (number,)).fetchall()

    def is_signed_out(self, visit: str) -> bool:
        """Returns whether a visit was ended by Sign out."""
        return self.base.execute("SELECT 1 FROM signed_out WHERE visit = ?", (visit,)).fetchone() is not None

    # ---- what is kept; each call is inside of a transaction

    def save(self, number: int, codes: tuple[str, ...]) -> Entry:
        """Keeps a list, and returns its receipt; the same list again has the same receipt."""
        last = self.unlocked(number)
        if last and last.codes == codes:
            return last
        ((count,),) = self.base.execute("SELECT count(*) FROM entry WHERE candidate = ?", (number,))
        if count >= MOST_SAVED:
            raise Refused("tooOften")
        return self.put(number, "list", codes)

    def lock(self, number: int, receipt: int) -> Entry:
        """Locks the list of a receipt, if it is the newest one."""
        last = self.unlocked(number)
        if not last or last.receipt != receipt:
            raise Refused("notNewest")
        return self.put(number, "lock", last.codes)

    def unlock(self, number: int) -> Entry:
        """Lets a candidate change a locked list again."""
        last = self.last(number)
        if self.fixed("closed") or not last or last.kind != "lock":
            raise Refused("notLocked")
        return self.put(number, "unlock", last.codes)

    def unlocked(self, number: int) -> Optional[Entry]:
        """Returns the newest receipt of a candidate who may change the list."""
        if self.admission(number):
            raise Refused("hasAdmission")
        if self.fixed("closed"):
            raise Refused("isClosed")
        last = self.last(number)
        if last and last.kind == "lock":
            raise Refused("isLocked")
        return last

    def put(self, number: int, kind: str, codes: tuple[str, ...]) -> Entry:
        """Adds a receipt."""
        called = self.base.execute("SELECT coalesce(board, number) FROM candidate WHERE number = ?", (number,)).fetchone()[0]
        row = (number, now(), kind, " ".join(codes), digest_of(row_of(str(called), codes)))
        made = self.base.execute("INSERT INTO entry VALUES(NULL, ?, ?, ?, ?, ?)", row)
        return entry((made.lastrowid, *row))

    def report(self, number: int, text: str) -> int:
        """Keeps what a candidate reports as wrong, for the clerk, and returns the number of its receipt."""
        before = self.reports(number)
        if before and before[0][2] == text:
            return before[0][0]
        if len(before) >= MOST_REPORTS:
            raise Refused("tooManyReports")
        receipt = self.base.execute("INSERT INTO report VALUES(NULL, ?, ?, ?)", (number, now(), text)).lastrowid
        assert receipt is not None
        return receipt

    def sign_out(self, visit: str, until: int) -> None:
        """Ends a visit before its time."""
        self.base.execute("DELETE FROM signed_out WHERE until < ?", (now(),))
        self.base.execute("INSERT OR IGNORE INTO signed_out VALUES(?, ?)", (visit, until))

    def close(self) -> int:
        """Closes the season's lists for good, and returns when that was."""
        self.base.execute("INSERT OR IGNORE INTO fixed VALUES('closed', ?)", (now(),))
        at: int = self.fixed("closed")
        return at

    def all_together(self, jobs: Sequence[tuple[str, tuple[Any, ...]]]) -> list[Any]:
        """Does all jobs in one transaction and returns what came of each, a value or an exception. Before it returns, all of it is on the disk; if it
        raises, nothing was kept."""
        came: list[Any] = []
        self.base.execute("BEGIN IMMEDIATE")
        try:
            for name, args in jobs:
                try:
                    came.append(getattr(self, name)(*args))
                except Refused as why:
                    came.append(why)
            self.base.execute("COMMIT")
        except BaseException:
            if self.base.in_transaction:
                self.base.execute("ROLLBACK")
            raise
        return came

    def done(self, name: str, *args: Any) -> Any:
        """Does one job in a transaction of its own."""
        (came,) = self.all_together([(name, args)])
        if isinstance(came, Refused):
            raise came
        return came


def entry(row: tuple[Any, ...]) -> Entry:
    """Returns a row of the table as a receipt."""
    receipt, candidate, at, kind, codes, digest = row
    return Entry(receipt, candidate, at, kind, tuple(codes.split()), digest)
