"""What the register, the choices and the settings of a season say: tools/season reads them by this. Each reader reports everything that is wrong, and gives what is right."""
import difflib
import re
from typing import Optional, Union

from formats import ALL_CHOICES, ALLOWED, CANDIDATES, CHOICES, MERIT_LISTS, NUMBER, ROUNDS, TOKEN, TRAITS, listed
from season_columns import CHOICE
from season_ranks import Ranked, cells_of, give_places, lists_of, rank_rows, read_ranks
from season_seats import Matrix
from season_words import application, bare, category, code, gender, has_trait, is_code, number, place, state, traits
from spreadsheets import Cell, Findings, Row, Table, counted, letters, read_table, some, stripped

ASKS_GAPS = "a preference is missing in the order: do the later choices move up?"
ASKS_TWICE = "a candidate has two rows that agree in every column that is read: is one of them left out?"
# preferences, and the least likeness of words that are named as perhaps meant
PREFERENCE, LIKE = "a preference is a number from 1 on, and the most wanted programme has 1", 0.75

# the number or the application number by which the register knows a candidate
Key = Union[int, str]


def missing_of(ranks: list[int]) -> list[str]:
    """Returns the preferences that are missing before the last one, in words such as 2 or 4 to 6."""
    gaps = [(before + 1, rank - 1) for before, rank in zip([0, *ranks], ranks) if rank > before + 1]
    return [str(first) if first == last else f"{first} to {last}" for first, last in gaps]


class Tokens:
    """The tokens that the files give: each of the form, and each once."""

    def __init__(self, findings: Findings) -> None:
        self.findings = findings
        # where each token is
        self.rows: dict[str, str] = {}

    def given(self, cell: Cell) -> str:
        """Returns a token, or nothing if the field is empty."""
        if not cell.text:
            return ""
        if not (TOKEN.has(len(cell.text)) and re.fullmatch("[A-Za-z0-9]+", cell.text)):
            self.findings.wrong(cell, ALLOWED["token"], secret=True)
        elif self.rows.setdefault(cell.text, cell.place()) != cell.place():
            self.findings.wrong(cell, f"{self.rows[cell.text]} has the same token; {ALLOWED['token']}", secret=True)
        return cell.text


# ---- the settings


class Season:
    """The rows of season.csv: rounds, version, and the clerk's token if it is given."""

    KEYS = ("rounds", "version", "clerk")

    def __init__(self, folder: str, findings: Findings, tokens: Tokens) -> None:
        self.rounds: Optional[int] = None
        self.version, self.clerk = 1, ""
        file, self.rows = read_table(folder, "season", findings, self.KEYS)
        seen: dict[str, int] = {}
        for row, fields in self.rows or []:
            cells = [Cell(file, row, "", at, stripped(it)) for at, it in enumerate(fields)]
            key = cells[0].text.lower()
            if key not in self.KEYS:
                findings.wrong(cells[0], "a row is rounds,N or version,N or clerk,TOKEN")
            elif seen.setdefault(key, row) != row:
                findings.wrong(cells[0], f"row {seen[key]} is one of {key} too")
            elif len(cells) < 2 or any(it.text for it in cells[2:]):
                findings.wrong(cells[-1], f"a row of {key} has one value behind it")
            else:
                self.take(key, cells[1]._replace(column=key), findings, tokens)
        if self.rows is not None and "rounds" not in seen:
            findings.wrong_file(file, f"there is no row rounds,N; {ALLOWED['rounds']}")

    def take(self, key: str, cell: Cell, findings: Findings, tokens: Tokens) -> None:
        if key == "rounds":
            self.rounds = number(cell, ROUNDS, ALLOWED["rounds"], findings)
        elif key == "clerk":
            self.clerk = tokens.given(cell)
        elif cell.text in ("1", "2", "1.0", "2.0"):
            self.version = int(cell.text[0])
        else:
            findings.wrong(cell, "the version of the rules is 1 or 2")


# ---- the register


class Candidate:
    """A row of the register."""

    def __init__(self, row: int, id: Optional[int], application_number: str = "") -> None:
        self.row, self.id, self.application = row, id, application_number
        self.category: Optional[str] = None
        self.traits, self.token, self.name = "-", "", ""
        self.state: Optional[str] = ""
        self.places: dict[str, str] = {}
        # the merit lists in which the place was refused: other errors follow from that
        self.refused: set[str] = set()
        self.is_refused = False

    def called(self) -> str:
        """Returns how a message names the candidate: by the board's number if there is one."""
        return f"candidate {self.application or self.id}"


class Register:
    """The rows of the register, by the candidates' numbers. If the board has application numbers, the tool gives the numbers, the same ones at each call."""

    def __init__(self, table: Optional[Table], findings: Findings, tokens: Tokens, numbers: dict[str, int]) -> None:
        self.table, self.findings, self.tokens = table, findings, tokens
        self.file = table.file if table else "register.csv"
        self.people: dict[int, Candidate] = {}
        self.by_key: dict[Key, Candidate] = {}
        self.rows: dict[Key, Row] = {}
        self.refused: set[str] = set()
        self.taken: dict[tuple[str, str], Candidate] = {}
        # the candidates by fields of the choices that are written as in the register
        self.found: dict[str, Candidate] = {}
        # how many rows have a candidate whose number was refused, and the fields of the choices by numbers that no row has
        self.lost = 0
        self.unknown: dict[Key, list[Cell]] = {}
        self.without_zeros: Optional[dict[str, Key]] = None
        self.remarks: list[str] = []
        self.ranked: dict[str, list[Ranked]] = {}
        if table:
            self.read(table, numbers)

    @property
    def sheet(self) -> Table:
        """Returns the table of a register that has one."""
        assert self.table is not None
        return self.table

    def read(self, table: Table, numbers: dict[str, int]) -> None:
        if table.is_by_words:
            table.looks_beyond()
        self.key = "application number" if table.has("application number") else "number"
        self.ranked = {it: [] for it in self.lists_by_name() if set(lists_of(it, table)) != {it}}
        for row, fields in table.rows:
            self.take(row, fields)
        if not table.rows:
            self.findings.wrong_form(self.file, "there is no candidate")
        if len(table.rows) > CANDIDATES.most:
            self.findings.wrong_file(self.file, f"{len(table.rows):,} candidates are too many: at most {CANDIDATES.most:,}")
        self.give_numbers(numbers)
        for name, people in self.ranked.items():
            self.remarks += give_places(name, people, self.findings, self.file)

    def lists_by_name(self) -> list[str]:
        return [it for it in MERIT_LISTS if lists_of(it, self.table)] if self.table else []

    def rank_rows(self) -> list[list[str]]:
        """Returns the rows of names.csv on the places that are ranks in another list."""
        return [row for name, people in self.ranked.items() for row in rank_rows(MERIT_LISTS.index(name) + 1, people)]

    def lists(self) -> list[int]:
        """Returns the numbers of the merit lists of which the register has a column."""
        return [MERIT_LISTS.index(it) + 1 for it in self.lists_by_name()]

    def has_list(self, number_of_list: int) -> bool:
        return self.table is None or MERIT_LISTS[number_of_list - 1] in self.lists_by_name()

    def give_numbers(self, numbers: dict[str, int]) -> None:
        """Numbers candidates with application numbers: by an earlier call, and the others behind these in the order of the register."""
        following = max(numbers.values(), default=0) + 1
        without_zeros = {it.lstrip("0"): it for it in numbers}
        for key, one in self.by_key.items():
            if self.key == "application number":
                text = str(key)
                one.id = numbers.get(text)
                if one.id is None and text.lstrip("0") in without_zeros:
                    self.findings.wrong_file("the file of tokens", f"{key} is written `{without_zeros[text.lstrip('0')]}` there: a spreadsheet program drops zeros at the beginning. Put a good copy in its place")
                if one.id is None:
                    one.id, following = following, following + 1
            assert one.id is not None
            self.people[one.id] = one
        gone = [it for it in numbers if it not in self.by_key]
        if gone and self.key == "application number":
            self.remarks.append(f"the file of tokens has {counted(len(gone), 'application number')} that the register has not: {some(gone)}")

    # ---- rows

    def key_of(self, cell: Cell) -> Optional[Key]:
        """Returns the number by which a candidate is known, or None."""
        if self.key == "number":
            return number(cell, NUMBER, ALLOWED["id"], self.findings)
        return application(cell, self.findings)

    def take(self, row: int, fields: list[str]) -> None:
        table = self.sheet
        cell = table.cell(row, fields, self.key)
        key = self.key_of(cell)
        one = Candidate(row, key if isinstance(key, int) else None, key if isinstance(key, str) else "")
        if key is None:
            self.refused.add(cell.text)
            self.lost += 1
        elif key in self.rows:
            self.look_at_twice(cell, key, fields)
            return
        else:
            self.rows[key], self.by_key[key] = (row, fields), one
        one.name = table.cell(row, fields, "name").text
        before = self.findings.count()
        one.category, disabled = category(table.cell(row, fields, "category"), self.findings) if table.has("category") else (None, "")
        one.traits = self.traits_of(row, fields, disabled)
        one.token = self.tokens.given(table.cell(row, fields, "token"))
        one.state = state(table.cell(row, fields, "state"), self.findings)
        for name in MERIT_LISTS:
            if name in self.ranked:
                self.ranked[name].append(read_ranks(one, name, cells_of(table, row, fields, name), self.findings))
            elif table.has(name):
                self.take_place(one, name, table.cell(row, fields, name))
        one.is_refused = self.findings.count() > before

    def look_at_twice(self, cell: Cell, key: Key, fields: list[str]) -> None:
        """Reports a candidate with two rows: whether they differ, and in what."""
        row, first = self.rows[key]
        differ: list[str] = []
        for meaning, at in sorted(self.sheet.means.items(), key=lambda it: it[1]):
            one, other = (stripped(it[at]) if at < len(it) else "" for it in (first, fields))
            if one != other and meaning != self.key:
                differ.append(f"{self.sheet.name(at)}" if meaning == "token" else f"{self.sheet.name(at)} (`{one:.30}` there, `{other:.30}` here)")
        if differ:
            self.lost += 1
            self.findings.wrong(cell, f"row {row} has this candidate too; the rows differ in {listed(differ, 'and')}")
        else:
            self.findings.doubts("twice", ASKS_TWICE, cell, f"row {row} has the same")

    def traits_of(self, row: int, fields: list[str], disabled: str) -> str:
        """Returns the traits of all columns that have some."""
        table, found = self.sheet, [disabled]
        if table.has("traits"):
            found.append(traits(table.cell(row, fields, "traits"), self.findings))
        if table.has("gender"):
            found.append(gender(table.cell(row, fields, "gender"), self.findings))
        if table.has("disability"):
            found.append(has_trait(table.cell(row, fields, "disability"), "D", self.findings))
        found += [has_trait(table.cell(row, fields, it), it, self.findings) for it in TRAITS if table.has(it)]
        return "".join(it for it in TRAITS if it in "".join(found)) or "-"

    def take_place(self, one: Candidate, name: str, cell: Cell) -> None:
        before = self.findings.count()
        found = place(cell, self.findings)
        if not found:
            if self.findings.count() > before:
                one.refused.add(name)
            return
        one.places[name] = found
        other = self.taken.setdefault((name, found.rstrip("R")), one)
        if other is not one:
            self.findings.wrong(cell, f"row {other.row} ({other.called()}) has this place too; in one list all places differ")
        if found.endswith("R") and one.category == "GEN":
            self.findings.wrong(cell, "a candidate of the category GEN has no relaxed place")

    # ---- what the choices ask

    def find(self, cell: Cell) -> Optional[Candidate]:
        """Returns the candidate whom a row of the choices names, or None; a candidate whose row was refused is reported there alone."""
        if self.table is None or cell.text in self.refused:
            return None
        if cell.text in self.found:
            return self.found[cell.text]
        key = self.key_of(cell)
        if key in self.by_key and str(key) == cell.text:
            self.found[cell.text] = self.by_key[key]
        if key is None or key in self.by_key:
            return None if key is None else self.by_key[key]
        near = self.near(str(key))
        if near:
            self.findings.wrong(cell, f"{self.file} has no such candidate; it has {near}: a spreadsheet program drops zeros at the beginning")
        else:
            self.unknown.setdefault(key, []).append(cell)
        return None

    def looks_at_unknown(self) -> None:
        """Reports the candidates of the choices whom no row has. If the number of a row was refused, they may be in that row, and then one report of each is enough."""
        for cells in self.unknown.values():
            for cell in cells[:1] if self.lost else cells:
                self.findings.wrong(cell, f"{self.file} has no such candidate{'; perhaps it is one whose number is wrong there' if self.lost else ''}")

    def near(self, key: str) -> Optional[Key]:
        if self.without_zeros is None:
            self.without_zeros = {str(it).lstrip("0"): it for it in self.by_key}
        return self.without_zeros.get(key.lstrip("0"))


# ---- the choices


class Choices:
    """The rows of the choices: each candidate's programmes, the most wanted first. A row is a candidate, or one choice of a candidate."""

    def __init__(self, table: Optional[Table], findings: Findings, register: Register, matrix: Matrix) -> None:
        self.table, self.findings, self.register, self.matrix = table, findings, register, matrix
        # the choices and the row of each candidate, by number
        self.lists: dict[Optional[int], dict[str, Cell]] = {}
        self.rows: dict[Optional[int], int] = {}
        self.known: dict[str, list[str]] = {}
        if not table:
            return
        self.file = table.file
        self.take_all()
        register.looks_at_unknown()
        count = sum(map(len, self.lists.values()))
        if count > ALL_CHOICES.most:
            findings.wrong_file(self.file, f"{count:,} choices are too many: at most {ALL_CHOICES.most:,} in all")

    @property
    def sheet(self) -> Table:
        """Returns the table of choices that have one."""
        assert self.table is not None
        return self.table

    def take_all(self) -> None:
        table = self.sheet
        numbered = sorted((int(found[1]), at) for it, at in table.means.items() for found in [CHOICE.fullmatch(it)] if found)
        if numbered:
            self.take_wide([at for _, at in numbered])
        elif table.is_by_words and table.has("programmes") and not table.has("preference"):
            self.take_wide(self.wide_columns())
        elif table.has("programmes"):
            self.take_joined()
        else:
            if table.is_by_words:
                table.looks_beyond()
            self.take_by_choice()

    def wide_columns(self) -> list[int]:
        """Returns the columns of choices: `programmes`, and to its right those without a name or with a number in it."""
        table = self.sheet
        first, names = table.means["programmes"], [it.lower() for it in table.header.names]
        found = [at for at in range(first, len(names)) if at == first or not names[at] or re.fullmatch(r"(programmes?|choice|preference)?[ _-]?[0-9]+", names[at])]
        table.left_out = [it for it in table.left_out if it not in found]
        return [*found, *range(len(names), max((len(it) for _, it in table.rows), default=0))]

    def candidate(self, row: int, fields: list[str]) -> tuple[Cell, Optional[Candidate]]:
        """Returns the field of a row with the candidate, and the candidate, or None if the register has none."""
        cell = self.sheet.cell(row, fields, "candidate")
        return cell, self.register.find(cell)

    def is_first(self, one: Candidate, row: int, cell: Cell) -> bool:
        """Returns whether this is the first row of a candidate with all choices; reports another one."""
        if self.rows.setdefault(one.id, row) != row:
            self.findings.wrong(cell, f"row {self.rows[one.id]} has the choices of this candidate too")
        return self.rows[one.id] == row

    def take_wide(self, columns: list[int]) -> None:
        """Takes rows with one choice in each column."""
        for row, fields in self.sheet.rows:
            cell, one = self.candidate(row, fields)
            if one is None or not self.is_first(one, row, cell):
                continue
            cells = [self.sheet.field(row, fields, at, "" if self.sheet.is_by_words else self.sheet.name(at)) for at in columns]
            while cells and not cells[-1].text:
                cells.pop()
            ranks = [rank for rank, it in enumerate(cells, 1) if it.text]
            if len(ranks) < len(cells):
                self.asks_of_gaps(one, ranks, next(it for it in cells if not it.text))
            self.take(one, [it for it in cells if it.text])

    def take_joined(self) -> None:
        """Takes rows with all choices in one field, with semicolons, bars or ends of lines between them."""
        for row, fields in self.sheet.rows:
            cell, one = self.candidate(row, fields)
            if one is not None and self.is_first(one, row, cell):
                whole = self.sheet.cell(row, fields, "programmes")
                parts = re.split(r"[;|\n]" if re.search(r"[;|\n]", whole.text) else ",", whole.text)
                parts = [re.sub(r"^\s*[0-9]+\s*[.)]\s*", "", it) for it in parts]
                self.take(one, [whole._replace(text=stripped(it)) for it in parts if stripped(it)])

    def take_by_choice(self) -> None:
        """Takes rows with one choice each, in any order."""
        table = self.sheet
        found: dict[Optional[int], dict[int, Cell]] = {}
        who: dict[Optional[int], Candidate] = {}
        for row, fields in table.rows:
            _, one = self.candidate(row, fields)
            if table.has("preference"):
                rank_cell = table.cell(row, fields, "preference")
                rank = number(rank_cell, NUMBER, PREFERENCE, self.findings)
            elif one is not None:
                rank_cell, rank = table.cell(row, fields, "programme"), len(found.get(one.id, ())) + 1
            cell = self.with_institute(row, fields)
            if one is None or rank is None:
                continue
            who[one.id] = one
            other = found.setdefault(one.id, {}).setdefault(rank, cell)
            if other is not cell:
                self.findings.wrong(rank_cell, f"row {other.row} has preference {rank} of this candidate too")
        for id, cells in found.items():
            ranks = sorted(cells)
            late = next((it for at, it in enumerate(ranks, 1) if it != at), None)
            if late:
                self.asks_of_gaps(who[id], ranks, cells[late])
            self.take(who[id], [cells[it] for it in ranks])

    def with_institute(self, row: int, fields: list[str]) -> Cell:
        """Returns the field of a row with the programme, and with the institute before it if that is a column of its own."""
        cell = self.sheet.cell(row, fields, "programme")
        institute = self.sheet.cell(row, fields, "institute").text if self.sheet.has("institute") else ""
        return cell._replace(text=f"{institute} {cell.text}") if institute and cell.text not in self.matrix.choosable() else cell

    def asks_of_gaps(self, one: Candidate, ranks: list[int], cell: Cell) -> None:
        """Asks about the preferences that a candidate has not filled, and names the first ten gaps."""
        self.findings.doubts("gaps", ASKS_GAPS, cell, f"{one.called()} has no preference {listed(missing_of(ranks)[:10])}")

    # ---- one list

    def take(self, one: Candidate, cells: list[Cell]) -> None:
        """Takes the list of a candidate, programme by programme."""
        found = self.lists.setdefault(one.id, {})
        if len(cells) > CHOICES.most:
            self.findings.wrong(cells[CHOICES.most], f"the list of {one.called()} has {len(cells):,} programmes: at most {CHOICES.most:,}")
        for cell in cells:
            name = self.programme(cell)
            if name is not None and self.is_sought(one, name, cell, found):
                found[name] = cell

    def programme(self, cell: Cell) -> Optional[str]:
        """Returns the code of the programme that a choice names, by code or in words, or None; an error of the matrix is not reported again."""
        matrix = self.matrix
        if not matrix.is_read or cell.text in matrix.refused:
            return None
        if cell.text in matrix.choosable():
            return cell.text
        if cell.text not in self.known:
            self.known[cell.text] = [it for it in matrix.named(cell.text) if it in matrix.choosable()]
        named = self.known[cell.text]
        if len(named) == 1:
            self.findings.read_as(cell, named[0], "programmes in other words than their codes")
            return named[0]
        if named:
            self.findings.wrong(cell, f"{len(named)} programmes are called so: {listed(named, 'and')}; write one of these codes, or the institute too")
        elif matrix.words and not is_code(cell.text) and not re.fullmatch(r"[0-9]+\.0+", cell.text):
            near = difflib.get_close_matches(bare(cell.text), matrix.words, 1, LIKE)
            self.findings.wrong(cell, f"{matrix.sheet.file} has no programme that is called so{f'; it has {next(iter(matrix.words[near[0]]))} by like words' if near else ''}")
        else:
            return self.by_code(cell)
        return None

    def by_code(self, cell: Cell) -> Optional[str]:
        """Returns a code as the matrix has it, or None, and reports why."""
        name, matrix = code(cell, self.findings), self.matrix
        if name is None or name in matrix.choosable():
            return name
        base = matrix.base_of(name)
        if base:
            self.findings.wrong(cell, f"a choice names the programme and never one of its units: write {base}")
            return None
        near = matrix.near(name)
        self.findings.wrong(cell, f"{matrix.sheet.file} has no programme of this code{f'; it has {near}' if near else ''}")
        return None

    def is_sought(self, one: Candidate, name: str, cell: Cell, found: dict[str, Cell]) -> bool:
        """Returns whether the candidate may list the programme here; reports why not."""
        of = self.matrix.choosable()[name]
        twice = found.get(name)
        if twice:
            self.findings.wrong(cell, f"{one.called()} lists this programme twice: also in row {twice.row}, column {letters(twice.at)}")
            return False
        merit = MERIT_LISTS[of.merit - 1] if of.merit else None
        if merit and merit not in one.places:
            if merit not in one.refused:
                self.findings.wrong(cell, f"{one.called()} has no place in {merit}, the merit list of this programme ({self.register.file}, row {one.row})")
            return False
        if name in self.matrix.units and not one.state and self.register.sheet.has("state"):
            self.findings.wrong(cell, f"{one.called()} has no state, and this programme is divided by state ({self.register.file}, row {one.row})")
            return False
        return True
