"""The files that tools/season writes next to the bundle: the tokens of a season for a mail merge, and the names of its codes."""
import os
import re
import secrets
from typing import Any

from formats import NUMBER, TOKEN
from spreadsheets import Findings, counted, put_file, read, stripped, written

TOKENS = ("candidate", "token", "number", "application_number", "name")
# without i, l, o, 0 and 1, which people confuse
LETTERS, DIGITS = "abcdefghjkmnpqrstuvwxyz", "23456789"
NO_TOKENS = "it is there and is no file of tokens of this season. Its tokens may be sent already, so do not remove it: put a good copy in its place, or name another file by --tokens FILE"


class Kept:
    """The tokens and the numbers that an earlier call gave."""

    def __init__(self, path: str, findings: Findings) -> None:
        self.tokens: dict[str, str] = {}
        self.numbers: dict[str, int] = {}
        folder, file = os.path.split(path)
        near = [it for it in sorted(os.listdir(folder or ".")) if os.path.splitext(it)[0].lower() == os.path.splitext(file)[0].lower() and it != file]
        if os.path.exists(path):
            self.read(path, findings)
        elif near:
            findings.causes.append(f"{file}: it is not there, and {near[0]} is. Its tokens may be sent already: save it as {file}, or name it by --tokens FILE")

    def read(self, path: str, findings: Findings) -> None:
        """Reads the file of tokens as every other sheet, also if a spreadsheet program saved it again."""
        file = os.path.basename(path)
        before = len(findings.causes)
        rows = read(os.path.dirname(path) or ".", file, TOKENS, findings)
        if len(findings.causes) > before or rows == []:
            findings.causes.append(f"{file}: {NO_TOKENS}")
        if not rows:
            return
        names = [stripped(it).lower() for it in rows[0][1]]
        for number, fields in rows[1:]:
            row = {name: stripped(it) for name, it in zip(names, fields)}
            if row.get("token", "") in self.tokens.values():
                findings.wrong_file(file, f"row {number}, column token: another row has the same token. {NO_TOKENS}")
            self.take(row, file, number, findings)
        if names[:2] != ["candidate", "token"]:
            findings.causes.append(f"{file}: row {rows[0][0]}: the first columns are candidate and token. {NO_TOKENS}")

    def take(self, row: dict[str, str], file: str, number: int, findings: Findings) -> None:
        name, token = re.sub(r"\.0+$", "", row.get("candidate", "")), row.get("token", "")
        is_ours = name == "clerk" or re.fullmatch("[0-9]+", name) and NUMBER.has(int(name))
        if not is_ours or not re.fullmatch("[A-Za-z0-9]+", token) or not TOKEN.has(len(token)):
            findings.wrong_file(file, f"row {number}: a row has a candidate's number and a token of 8 to 32 letters and digits; a spreadsheet program may have changed it. {NO_TOKENS}")
            return
        self.tokens[name] = token
        application = re.sub(r"\s|\.0+$", "", row.get("application_number", "")).upper()
        if re.fullmatch(r"[0-9]*[.,]?[0-9]+E\+[0-9]+", application):
            findings.wrong_file(file, f"row {number}, column application_number: `{application}`: a spreadsheet program shortened the number. {NO_TOKENS}")
        if application and name != "clerk":
            self.numbers[application] = int(name)


def new_token(name: str) -> str:
    """Returns a token by chance. It begins with a letter, so that no spreadsheet program takes it for a number. A candidate types it, so it has 16 signs that nobody confuses, which are
    79 bits, and not the candidate's own number; the clerk's has 32."""
    if name == "clerk":
        return secrets.choice("abcdf") + secrets.token_hex(TOKEN.most // 2)[1:]
    while True:
        made = secrets.choice(LETTERS) + "".join(secrets.choice(LETTERS + DIGITS) for _ in range(15))
        if name.zfill(4) not in made:
            return made


def fill_tokens(season: Any, register: Any, given: Any, kept: Kept) -> dict[str, int]:
    """Gives a token to everyone who has none, and returns how many were given, kept and made."""
    counts, used = {"given": 0, "kept": 0, "made": 0}, {*given.rows}

    def token(found: str, name: str) -> str:
        before = kept.tokens.get(name, "")
        how = "given" if found else "kept" if before and before not in used else "made"
        counts[how] += 1
        found = found or (before if how == "kept" else new_token(name))
        used.add(found)
        return found

    season.clerk = token(season.clerk, "clerk")
    for id, one in register.people.items():
        one.token = token(one.token, str(id))
    return counts


def write_tokens(path: str, season: Any, register: Any) -> None:
    """Writes all tokens for a mail merge, whole or not at all, for its owner alone."""
    table = register.table
    extra = [(at, table.name(at)) for at in table.left_out]
    fields = dict(table.rows)
    rows: list[list[object]] = [[*TOKENS, *(name for _, name in extra)], ["clerk", season.clerk]]
    for id, one in register.people.items():
        row = fields[one.row]
        rows.append([id, one.token, id, one.application, one.name, *(row[at] if at < len(row) else "" for at, _ in extra)])
    put_file(path, written(rows))


def names_of(matrix: Any) -> list[list[str]]:
    """Returns the rows of the file that `deploy/announce FOLDER names` reads: the names of institutes and programmes."""
    rows = [["institute", code, " ".join(name.split())[:200]] for code, name in matrix.institutes.items()]
    for code, name in matrix.titles.items():
        ends = {"-HS": "home state", "-OS": "other states"} if code in matrix.units else {"": ""}
        rows += [["programme", f"{code}{end}", " ".join(f"{name} ({words})".split())[:200] if words else " ".join(name.split())[:200]] for end, words in ends.items()]
    return rows


def write_names(path: str, matrix: Any, ranks: list[list[str]]) -> str:
    """Writes the names of codes and of the lists of ranks, if there are some. Names that the file has already stay, unless their ranks begin elsewhere now. Returns a line
    for the report."""
    rows = [*names_of(matrix), *ranks]
    if not rows:
        return ""
    before = read(os.path.dirname(path) or ".", os.path.basename(path), (), Findings(set())) if os.path.exists(path) else None
    known = [((*map(stripped, fields[:2]),), fields) for _, fields in before or []]
    kept = [fields for key, fields in known if key[0] != "rank" or key[1] in {it[1] for it in ranks}]
    more = [row for row in rows if (row[0], row[1]) not in {key for key, _ in known}]
    if more or len(kept) < len(known):
        put_file(path, written([*kept, *more]))
    how = f", where {counted(len(kept), 'row')} stayed" if kept else ""
    return f"the names of institutes, programmes and lists of ranks, with the codes of the bundle: {path}{how}; for `deploy/announce FOLDER names`"
