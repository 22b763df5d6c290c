"""Reads what the choices need of a file of tokens: the board's number and the name of each candidate. A file that a spreadsheet program changed is refused."""
import os
import re
from typing import Iterable, Mapping, Optional

from board_files import number_of, place_of, table
from board_numbers import SHORTENED
from dossier_papers import Wrong
from spreadsheets import ENDINGS, Findings, read_table, stripped, width_of

# what people write in a file of tokens for the two numbers
OFFICE_NUMBER, APPLICATION = ("candidate", "number"), ("application_number", "application number")
COLUMNS = (*OFFICE_NUMBER, "token", *APPLICATION, "name")
DROPS = "a spreadsheet program drops zeros at the beginning"
GOOD = "Put a good copy of the file in its place"


class TokensFile:
    """A file of tokens, as a spreadsheet program may have saved it, and where its columns are."""

    def __init__(self, path: str) -> None:
        open(path, "rb").close()
        self.path, self.table = path, table(path, COLUMNS)
        number = self.table.column(*OFFICE_NUMBER)
        if number is None:
            raise Wrong(f"{path}, row {self.table.first}: there is no column `candidate` with the numbers of the season")
        self.number, self.token = number, self.table.column("token")
        self.application, self.name = self.table.column(*APPLICATION), self.table.column("name")

    def wrong(self, row: int, at: Optional[int], why: str) -> Wrong:
        """Returns what is wrong with a field, with its place."""
        return Wrong(f"{place_of(self.path, row, self.table.header, at or 0)}: {why}")

    def looks_at_token(self, row: int, fields: list[str], number: int, token: Optional[str]) -> None:
        """Refuses a token that is not the candidate's in the bundle, if the bundle has the candidate. It shows neither of them."""
        if self.token is not None and token and fields[self.token] != token:
            raise self.wrong(row, self.token, f"candidate {number} has another token in the bundle: a spreadsheet program may have changed it, or the file is of another bundle. {GOOD}")

    def application_of(self, row: int, fields: list[str]) -> str:
        """Returns the board's own number in a row, or nothing. A spreadsheet program may have written .0 behind it."""
        given = fields[self.application] if self.application is not None else ""
        if SHORTENED.fullmatch(given):
            raise self.wrong(row, self.application, f"`{given}`: a spreadsheet program shortened the number. {GOOD}")
        return re.sub(r"\s|\.0+$", "", given)

    def looks_at_zeros(self, rows: Mapping[str, int], is_meant: bool) -> None:
        """Refuses numbers that seem to have lost their zeros: the register next to the file says so, or the other numbers do."""
        numbers = [it for it in rows if re.fullmatch("[0-9]+", it)]
        known = with_zeros(os.path.dirname(self.path) or ".", numbers)
        width, why = width_of(numbers, "application numbers")
        for it in numbers:
            if it in known:
                raise self.wrong(rows[it], self.application, f"`{it}`: the register next to the file has `{known[it]}`: {DROPS}. {GOOD}")
            if len(it) < width and not is_meant:
                raise self.wrong(rows[it], self.application, f"`{it}`: {why}, and {DROPS}. {GOOD}, or add --yes if all numbers are meant as they are")


def with_zeros(folder: str, numbers: Iterable[str]) -> dict[str, str]:
    """Returns the numbers that the register of a folder has with zeros before them and not as they are; none if there is no register to read."""
    if not any(os.path.exists(f"{folder}/register{it}") for it in ENDINGS):
        return {}
    wanted = set(numbers)
    plain: set[str] = set()
    padded: dict[str, str] = {}
    for _, fields in read_table(folder, "register", Findings(set()))[1] or []:
        for field in map(stripped, fields):
            bare = field.lstrip("0")
            if bare in wanted:
                padded[bare] = field
            if field in wanted:
                plain.add(field)
    return {bare: field for bare, field in padded.items() if bare not in plain}


def board_numbers(path: str, tokens: Mapping[int, str], is_meant: bool = False) -> dict[int, tuple[str, str]]:
    """Returns the board's own number and the name of each candidate, by the office's number, as a file of tokens has them."""
    it = TokensFile(path)
    found: dict[int, tuple[str, str]] = {}
    of: dict[str, int] = {}
    rows: dict[str, int] = {}
    for row, fields in it.table.rows:
        if fields[it.number].lower() == "clerk":
            continue
        number = number_of(path, row, it.table.header, it.number, fields[it.number])
        it.looks_at_token(row, fields, number, tokens.get(number))
        application = it.application_of(row, fields)
        board = application, fields[it.name] if it.name is not None else ""
        if found.setdefault(number, board) != board:
            raise it.wrong(row, it.number, f"`{number}`: an earlier row of this candidate has other values")
        if application and of.setdefault(application, number) != number:
            raise it.wrong(row, it.application, f"`{application}`: candidate {of[application]} has this application number too")
        if application:
            rows.setdefault(application, row)
    it.looks_at_zeros(rows, is_meant)
    return found
