"""Makes the paper by which the page of a candidate finds the candidate's number from the board's application number and the token together; deploy/announce uses it.

The paper shows nothing to anybody who has not both: of each candidate it has a number and a slow hash of the application number with the token."""
import hashlib
import json
import multiprocessing
import os
import re
import secrets
import shutil
from typing import Dict, List, NamedTuple

from board_files import number_of, place_of, table
from dossier_papers import Wrong

# the columns of the file of tokens
COLUMNS = ("candidate", "token", "application_number")
# how often the hash is made, how many of its hexadecimal digits are in the paper, and how many candidates are in one part of it at most
TURNS, DIGITS, MOST = 1_000, 16, 1_000
# anybody may try tokens on the published paper for as long as they like, so a token has more signs than the office asks for
LEAST = 16
NAME = "numbers"
# what a spreadsheet program makes of a long number in a narrow column
SHORTENED = re.compile(r"[0-9]*[.,]?[0-9]+[Ee]\+[0-9]+")


class Candidate(NamedTuple):
    """A candidate as the file of tokens has them."""

    number: int
    application: str
    token: str


def bare(application: str) -> str:
    """Returns an application number as the page compares it: letters and digits alone, no small letters, and no zeros before a number, which spreadsheets drop."""
    return re.sub("^0+(?=[0-9]+$)", "", re.sub("[^A-Z0-9]", "", application.upper()))


def hashed(salt: str, application: str, token: str) -> str:
    """Returns what the paper has of an application number with its token."""
    return hashlib.pbkdf2_hmac("sha256", token.encode(), f"{salt}{application}".encode(), TURNS, DIGITS // 2).hex()


def candidates(path: str) -> List[Candidate]:
    """Returns who has an application number in a file of tokens. A short token, or a number that two candidates have, is an error."""
    it = table(path, (*COLUMNS, "application number"))
    at = [it.column(name, name.replace("_", " ")) for name in COLUMNS]
    if None in at:
        raise Wrong(f"{path}, row {it.first}: there is no column `{COLUMNS[at.index(None)]}`; the paper is made of {', '.join(COLUMNS)}")
    found: Dict[str, Candidate] = {}
    for row, fields in it.rows:
        number, token, application = (fields[place] for place in at if place is not None)
        if number == "clerk" or not bare(application):
            continue
        one = Candidate(number_of(path, row, it.header, at[0] or 0, number), bare(application), token)
        if SHORTENED.fullmatch(application):
            raise Wrong(f"{place_of(path, row, it.header, at[2] or 0)}: `{application}`: a spreadsheet program shortened the number: put a good copy of the file in its place")
        if len(token) < LEAST:
            raise Wrong(f"{place_of(path, row, it.header, at[1] or 0)}: the token of candidate {one.number} has {len(token)} signs: with fewer than {LEAST} somebody could find it from the paper")
        other = found.setdefault(one.application, one)
        if other is not one:
            raise Wrong(f"{place_of(path, row, it.header, at[2] or 0)}: `{application}`: candidate {other.number} has this application number too")
    if not found:
        raise Wrong(f"{path}: no candidate has an application number")
    return list(found.values())


def parts(salt: str, people: List[Candidate]) -> Dict[str, Dict[str, int]]:
    """Returns the parts of the paper by the first digits of the hashes that are in them. Each part is there, also one without a candidate."""
    width = next(it for it in range(1, DIGITS) if len(people) <= MOST * 16**it)
    found: Dict[str, Dict[str, int]] = {f"{at:0{width}x}": {} for at in range(16**width)}
    with multiprocessing.Pool() as pool:
        made = pool.starmap(hashed, ((salt, it.application, it.token) for it in people), chunksize=500)
    for one, key in zip(people, made):
        found[key[:width]][key[width:]] = one.number
    return found


def put(path: str, value: object) -> None:
    """Writes a whole file or none."""
    with open(f"{path}.part", "w", encoding="ascii") as it:
        it.write(json.dumps(value, sort_keys=True))
    os.chmod(f"{path}.part", 0o644)
    os.replace(f"{path}.part", path)


def put_parts(folder: str, people: List[Candidate]) -> Dict[str, object]:
    """Writes the parts into a folder of their own, and returns the paper that names it. A page that has the paper of before finds its parts until `remove_others`."""
    salt = secrets.token_hex(16)
    found = parts(salt, people)
    os.makedirs(f"{folder}/{NAME}/{salt}")
    for name, rows in found.items():
        put(f"{folder}/{NAME}/{salt}/{name}.json", rows)
    for it in (f"{folder}/{NAME}", f"{folder}/{NAME}/{salt}"):
        os.chmod(it, 0o755)
    return {"salt": salt, "digits": len(next(iter(found))), "letters": any(not it.application.isdecimal() for it in people)}


def remove_others(folder: str, salt: str) -> None:
    """Removes the parts of papers of before; all parts if the salt is empty."""
    there = os.listdir(f"{folder}/{NAME}") if os.path.isdir(f"{folder}/{NAME}") else []
    for it in there:
        if it != salt:
            shutil.rmtree(f"{folder}/{NAME}/{it}")
