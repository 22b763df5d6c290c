"""Reads the seat matrix of a season, a row for each step or JoSAA's wide form with pools and quotas; tools/season uses it."""
import re
from typing import Any, NamedTuple, Optional

from formats import ALL_SEATS, ALLOWED, CODE, LISTS, PROGRAMMES, SEATS, STEPS, TRAITS
from season_columns import WIDE
from season_words import ASKS_CODES, DISABLED, REWRITTEN, bare, code, is_code, is_female_pool, number, quota, state, step
from spreadsheets import Cell, Findings, Table, counted, width_of

ASKS_MERGED = "these fields are empty, as a spreadsheet program saves cells that are merged: does the text above them count?"
ASKS_APART = "are the seats in the columns for persons with disabilities apart from those of their category, as JoSAA counts them? If they are among them, give the matrix a column with the total of each row."
ASKS_WOMEN_D = "the office has no seats for women with disabilities alone: shall these seats be protected for D, persons with disabilities of any gender?"
# the fields of a row by what their columns mean
Cells = dict[str, Cell]
SUPPORTS = ("of", "and", "the", "in", "for", "with", "at", "on")
# a unit's code has three signs more
OF_DIVIDED = CODE.most - 3


class Programme:
    """A programme of the matrix, or a unit of one that is divided: its first row, and its seats by step."""

    def __init__(self, row: int, institute: Optional[str], merit: Optional[int]) -> None:
        self.row, self.institute, self.merit = row, institute, merit
        # by step its row and its seats, or while pools are not joined the field and the seats of each pool
        self.steps: dict[str, Any] = {}
        self.names = ("", "")


class Seats(NamedTuple):
    """The seats of one step in one row: all that are in pools of women, those of persons with disabilities, and those of women with disabilities."""

    neutral: int
    female: int
    disabled: int
    both: int

    def joined(self, other: "Seats") -> "Seats":
        return Seats(*(one + more for one, more in zip(self, other)))


class Codes:
    """Makes codes of the names of institutes and programmes, each of the first letters of its words: the same names give the same codes."""

    def __init__(self) -> None:
        self.made: dict[tuple[Optional[str], str], str] = {}
        self.used: set[str] = set()

    @staticmethod
    def letters(name: str, most: int, otherwise: str) -> str:
        """Returns the first letters of the words of a name, without what is in brackets."""
        words = [it for it in re.findall("[A-Za-z0-9]+", re.sub(r"\(.*?\)", " ", name)) if it.lower() not in SUPPORTS]
        found = words[0][:4] if len(words) == 1 else "".join(it if it.isupper() and len(it) <= 4 else it[0] for it in words)
        return found.upper()[:most] or otherwise

    def code(self, key: tuple[Optional[str], str], begin: str, name: str, most: int, otherwise: str) -> str:
        """Returns the code of a name; one that another name has gets a number behind it."""
        if key not in self.made:
            stem, number_behind = self.letters(name, most, otherwise), 2
            found = f"{begin}{stem}"
            while found in self.used:
                end = str(number_behind)
                found, number_behind = f"{begin}{stem[: most - len(end)]}{end}", number_behind + 1
            self.used.add(found)
            self.made[key] = found
        return self.made[key]


class Matrix:
    """The rows of the matrix, by programme and step. The choices name a divided programme, and the matrix of the office has its two units."""

    FILE = "matrix.csv"

    def __init__(self, table: Optional[Table], findings: Findings, register: Any) -> None:
        self.findings, self.table, self.register = findings, table, register
        self.programmes: dict[str, Programme] = {}
        self.units: dict[str, Optional[str]] = {}
        # programme, institute, merit list, step, seats, and the protected seats by trait
        self.rows: list[tuple[Any, ...]] = []
        self.refused: set[str] = set()
        self.by_letters: dict[str, str] = {}
        self.words: dict[str, dict[str, None]] = {}
        self.institutes: dict[str, str] = {}
        self.titles: dict[str, str] = {}
        self.remarks: list[str] = []
        self.codes = Codes()
        self.wide: dict[str, tuple[bool, Cell]] = {}
        self.above: dict[str, str] = {}
        self.homes: Cells = {}
        self.by_choice: Optional[dict[str, Programme]] = None
        self.is_read = table is not None
        if table:
            self.read(table)

    @property
    def sheet(self) -> Table:
        """Returns the table of a matrix that has one."""
        assert self.table is not None
        return self.table

    def read(self, table: Table) -> None:
        """Takes the rows, and looks at what only all of them show."""
        if table.is_by_words:
            table.looks_beyond()
        if not table.has("list") and len(self.register.lists()) != 1:
            self.is_read = False
            if self.register.table is None:
                return
            self.findings.wrong_form(table.file, f"no column says which merit list a programme uses: give it a column `list` with {LISTS.range()}")
            return
        steps = [it for it in WIDE if table.has(it)]
        for row, fields in table.rows:
            cells = {meaning: table.cell(row, fields, meaning) for meaning in (*table.means, "programme", "institute", "list", "step", "seats", "home", *TRAITS)}
            if not table.is_by_words and self.is_sum(row, cells):
                continue
            self.take(row, self.filled(cells), steps)
        if not table.rows:
            self.findings.wrong_form(table.file, "there is no programme")
        self.join_pools()
        self.look_at_units()
        self.look_at_codes()
        self.look_at_sums()
        for merit in sorted({it.merit for it in self.programmes.values() if it.merit}):
            if not self.register.has_list(merit):
                self.findings.wrong_form(self.register.file, f"there is no column m{merit}, and {table.file} has programmes with merit list {merit}")

    def is_sum(self, row: int, cells: Cells) -> bool:
        """Returns whether a row is the sum below a matrix."""
        names = [bare(it.text) for meaning, it in cells.items() if meaning in ("programme", "programme name", "branch", "institute", "institute name") and it.text]
        found = bool(names) and all(re.fullmatch("(grand|sub|over)?(all)?total(seats)?", it) for it in names)
        if found:
            self.remarks.append(f"{cells['programme'].file}: row {row} is left out, because it has a total")
        return found

    def filled(self, cells: Cells) -> Cells:
        """Returns the fields with the names of the row above where they are empty, as in merged cells, if a person agrees."""
        if self.sheet.is_by_words:
            return cells
        for meaning in ("institute", "institute name", "programme", "programme name", "branch", "home"):
            cell = cells.get(meaning)
            if cell is None or not self.sheet.has(meaning):
                continue
            if cell.text:
                self.above[meaning] = cell.text
            elif meaning in self.above and meaning != "home":
                self.findings.doubts("merged", ASKS_MERGED, cell, f"above is {self.above[meaning]}")
                cells[meaning] = cell._replace(text=self.above[meaning])
        return cells

    # ---- names and codes

    def institute_of(self, cells: Cells) -> Optional[str]:
        """Returns the code of the institute of a row, or None."""
        name = cells.get("institute name")
        if self.sheet.has("institute"):
            found = code(cells["institute"], self.findings)
        elif name and not name.text:
            self.findings.wrong(name, "every row has the name of its institute")
            found = None
        else:
            found = self.codes.code(("institute", bare(name.text)), "", name.text, 6, "I") if name else None
        if found and name and name.text:
            self.institutes.setdefault(found, name.text)
        return found

    def code_of(self, cells: Cells, institute: Optional[str]) -> Optional[str]:
        """Returns the code of the programme of a row without its quota, or None."""
        name = cells.get("programme name")
        if self.sheet.has("branch"):
            branch = code(cells["branch"], self.findings)
            found = f"{institute}-{branch}" if institute and branch else None
            if found and not is_code(found):
                self.findings.wrong(cells["branch"], f"the code {found} is made of institute and programme and has {len(found)} signs; {ALLOWED['code']}")
                return None
        elif self.sheet.has("programme"):
            found = code(cells["programme"], self.findings)
        elif name and not name.text:
            self.findings.wrong(name, "every row has the name of its programme")
            found = None
        else:
            found = self.codes.code((institute, bare(name.text)), f"{institute}-", name.text, 6, "P") if institute and name else None
        if found:
            self.note_words(found, institute, name.text if name else "")
        return found

    def note_words(self, found: str, institute: Optional[str], name: str) -> None:
        """Notes by which words a choice may name a programme."""
        place = self.institutes.get(institute or "", "")
        if name:
            self.titles.setdefault(found, name)
        texts = [f"{institute}{found}"] + ([] if self.sheet.is_by_words else [found]) + ([name, f"{place}{name}", f"{name}{place}", f"{institute}{name}"] if name else [])
        texts += [f"{place}{found}"] if place else []
        for text in texts:
            if bare(text):
                self.words.setdefault(bare(text), {})[found] = None

    def unit_of(self, name: str, cells: Cells) -> Optional[str]:
        """Returns the code of a row with its quota, and notes the home state of a divided programme."""
        end = quota(cells["quota"], self.findings) if "quota" in cells else None
        home = state(cells["home"], self.findings)
        if "quota" not in cells and home:
            found = re.fullmatch("(.+)-(HS|OS)", name)
            if found is None:
                self.findings.wrong(cells["programme"], "a row with a home state is one of a unit: its code ends in -HS or -OS, or a column `quota` says HS or OS")
                return None
            name, end = found[1], found[2]
        if "quota" in cells and end is None:
            return None
        if not end:
            return name
        name = name.removesuffix(f"-{end}")
        if len(name) > OF_DIVIDED:
            self.findings.wrong(cells.get("programme", cells["quota"] if "quota" in cells else cells["home"]), f"the code of a divided programme has at most {OF_DIVIDED} signs, because -HS and -OS come behind it")
            return None
        known = self.units.setdefault(name, home)
        if home and known and home != known:
            self.findings.wrong(cells["home"], f"programme {name} has the home state {known} in another row")
        self.units[name] = known or home
        self.homes.setdefault(name, cells["home"] if self.sheet.has("home") else cells["quota"])
        return f"{name}-{end}"

    # ---- rows

    def take(self, row: int, cells: Cells, steps: list[str]) -> None:
        institute = self.institute_of(cells)
        base = self.code_of(cells, institute)
        merit = number(cells["list"], LISTS, ALLOWED["list"], self.findings) if self.sheet.has("list") else self.register.lists()[0]
        name = self.unit_of(base, cells) if base else None
        if base is None or name is None:
            self.refused |= {cells[it].text for it in ("programme", "programme name", "branch") if it in cells}
        if steps:
            self.take_wide(name, row, institute, merit, cells, steps)
        elif self.is_pooled():
            self.take_pooled(name, row, institute, merit, cells)
        else:
            self.take_long(name, row, institute, merit, cells)

    def is_pooled(self) -> bool:
        """Returns whether the rows of a long matrix have pools, or steps for persons with disabilities as JoSAA names them."""
        if self.sheet.is_by_words:
            return False
        return self.sheet.has("pool") or not self.sheet.has("D")

    def programme(self, name: str, row: int, institute: Optional[str], merit: Optional[int], cells: Cells) -> Programme:
        """Returns the programme of a row; reports what other rows say otherwise of it."""
        known = self.programmes.setdefault(name, Programme(row, institute, merit))
        if institute and known.institute and institute != known.institute:
            self.findings.wrong(cells["institute"], f"row {known.row} has programme {name} at institute {known.institute}")
        if merit and known.merit and merit != known.merit:
            self.findings.wrong(cells["list"], f"row {known.row} has programme {name} with merit list {known.merit}")
        return known

    def take_long(self, name: Optional[str], row: int, institute: Optional[str], merit: Optional[int], cells: Cells) -> None:
        """Takes a row with one step, its seats, and its protected seats by trait."""
        of, seats = step(cells["step"], self.findings), number(cells["seats"], SEATS, ALLOWED["seats"], self.findings)
        protected = [number(cells[it], SEATS, ALLOWED["protection"], self.findings) if cells[it].text else 0 for it in TRAITS]
        counts = [it for it in protected if it is not None]
        if seats is not None and len(counts) == len(protected) and sum(counts) > seats:
            self.findings.wrong(cells["seats"], f"{sum(counts)} seats are protected in the columns W to L, more than there are")
        if name is None:
            return
        known = self.programme(name, row, institute, merit, cells)
        if of in known.steps:
            self.findings.wrong(cells["step"], f"row {known.steps[of][0]} has the {of} seats of programme {name} too")
        elif of:
            known.steps[of] = (row, seats or 0)
            self.rows.append((name, known.institute, known.merit, of, seats, *(counts if len(counts) == len(protected) else [])))

    def take_pooled(self, name: Optional[str], row: int, institute: Optional[str], merit: Optional[int], cells: Cells) -> None:
        """Takes a row with one step of one pool, such as OPEN (PwD), Female-only."""
        word = bare(cells["step"].text)
        ending = next((it for it in DISABLED if word.endswith(it) and word != it), "")
        of = step(cells["step"]._replace(text=word.removesuffix(ending) if ending else cells["step"].text), self.findings)
        seats = number(cells["seats"], SEATS, ALLOWED["seats"], self.findings)
        female = is_female_pool(cells["pool"], self.findings) if "pool" in cells else False
        if name is None or of is None or seats is None or female is None:
            return
        self.programme(name, row, institute, merit, cells)
        found = Seats(*(seats if it == (female, bool(ending)) else 0 for it in ((False, False), (True, False), (False, True), (True, True))))
        self.add(name, of, (female, bool(ending)), found, cells["step"])

    def take_wide(self, name: Optional[str], row: int, institute: Optional[str], merit: Optional[int], cells: Cells, steps: list[str]) -> None:
        """Takes a row of JoSAA's form: a column for each step, and one for each step's persons with disabilities."""
        read = {it: number(cells[it], SEATS, ALLOWED["wide seats"], self.findings) if cells[it].text not in ("", "-") else 0 for it in steps}
        total = number(cells["total"], ALL_SEATS, "a total is a number", self.findings) if "total" in cells and cells["total"].text else None
        female = is_female_pool(cells["pool"], self.findings) if "pool" in cells else False
        found = {it: count for it, count in read.items() if count is not None}
        if len(found) < len(read) or name is None or female is None:
            return
        self.look_at_total(cells, found, total)
        self.programme(name, row, institute, merit, cells)
        for of in STEPS:
            counts = [found.get(f"{of}{end}", 0) for end in ("", " W", " PwD", " W PwD")]
            seats = Seats(0, counts[0] + counts[1], 0, counts[2] + counts[3]) if female else Seats(counts[0], counts[1], counts[2], counts[3])
            if of in steps or any(seats):
                self.add(name, of, (female,), seats, cells.get(of, cells[steps[0]]))

    def look_at_total(self, cells: Cells, found: dict[str, int], total: Optional[int]) -> None:
        """Compares the total of a row with the sum of its columns, with and without those for persons with disabilities."""
        apart = sum(found.values())
        among = sum(count for it, count in found.items() if "PwD" not in it)
        if total is None:
            if apart != among:
                self.findings.doubts("PwD-seats", ASKS_APART, next(cells[it] for it, count in found.items() if "PwD" in it and count))
        elif total not in (apart, among):
            ways = f"{apart:,}" if apart == among else f"{apart:,}, or {among:,} without those for persons with disabilities"
            self.findings.wrong(cells["total"], f"the columns of this row add up to {ways}")
        elif apart != among:
            is_apart = total == apart
            first = self.wide.setdefault("is_apart", (is_apart, cells["total"]))
            if first[0] != is_apart:
                self.findings.wrong(cells["total"], f"this row counts the seats for persons with disabilities {'apart from' if is_apart else 'among'} the others, and row {first[1].row} does not")

    def add(self, name: str, of: str, pool: tuple[bool, ...], seats: Seats, cell: Cell) -> None:
        """Adds the seats of one pool to a step of a programme."""
        known = self.programmes[name].steps.setdefault(of, {})
        if pool in known:
            self.findings.wrong(cell, f"row {known[pool][0].row} has these seats of programme {name} too")
        else:
            known[pool] = (cell, seats)

    def join_pools(self) -> None:
        """Makes one row of the pools of each step, with W and D for the seats that are protected."""
        is_apart, sums = self.wide.get("is_apart", (True,))[0], Seats(0, 0, 0, 0)
        examples: list[str] = []
        written = {row[0] for row in self.rows}
        for name, it in self.programmes.items():
            for of, pools in it.steps.items():
                if not isinstance(pools, dict):
                    continue
                cell, both = next(iter(pools.values()))[0], Seats(0, 0, 0, 0)
                for _, seats in pools.values():
                    both = both.joined(seats)
                row = self.joined(name, it, of, cell, both, is_apart)
                it.steps[of] = (cell.row, row[4])
                sums = sums.joined(both)
                if both.female and len(examples) < 3:
                    examples.append(f"{name} {of}: {both.neutral} + {both.female} = {both.neutral + both.female} seats, {both.female} of them protected for W")
                if any(both):
                    self.rows.append(row)
            counts = [count for _, count in it.steps.values()]
            if counts and not any(counts) and name not in written:
                self.rows.append((name, it.institute, it.merit, "OPEN", 0, 0, 0, 0, 0, 0, 0))
        self.tell_pools(sums, examples, is_apart)

    def joined(self, name: str, it: Programme, of: str, cell: Cell, both: Seats, is_apart: bool) -> tuple[Any, ...]:
        """Returns the row of a step whose pools are joined."""
        seats = sum(both) if is_apart else both.neutral + both.female
        women, disabled = both.female if is_apart else both.female - both.both, both.disabled + both.both
        if both.both:
            self.findings.doubts("women-D", ASKS_WOMEN_D, cell, f"{name} {of} has {both.both}")
        if not SEATS.has(seats):
            self.findings.wrong(cell, f"{seats:,} seats of {name} {of} in all pools; {ALLOWED['seats']}")
        elif women < 0 or women + disabled > seats:
            self.findings.wrong(cell, f"{women + disabled} seats of {name} {of} are protected, and there are {seats}")
        return (name, it.institute, it.merit, of, seats, max(women, 0), disabled, 0, 0, 0, 0)

    def tell_pools(self, sums: Seats, examples: list[str], is_apart: bool) -> None:
        """Says in words how pools and columns for persons with disabilities became seats."""
        if sums.female:
            self.remarks.append(f"pools: {sums.neutral:,} gender-neutral and {sums.female:,} female-only seats are {sums.neutral + sums.female:,} seats, of which {sums.female:,} are protected for W (women), such as {'; '.join(examples)}")
        if sums.disabled + sums.both:
            how = "added to those of their step" if is_apart else "counted among those of their step, as the totals say"
            self.remarks.append(f"seats for persons with disabilities: {sums.disabled + sums.both:,} are {how}, and protected for D")
        if sums.both:
            self.remarks.append(f"{counted(sums.both, 'seat')} for women with disabilities: protected for D alone, because a protected seat is for one trait")

    # ---- all rows together

    def look_at_units(self) -> None:
        """Looks for the home state of each divided programme, and adds a unit without seats where one of the two has no row."""
        for base, home in self.units.items():
            if not home:
                where = self.homes[base]
                self.findings.wrong(where, f"programme {base} is divided by state, and no row has its home state: {'fill' if self.sheet.has('home') else 'add'} a column `home`, such as KA or Karnataka")
            if base in self.programmes:
                self.findings.wrong_file(self.sheet.file, f"programme {base} has rows with and without a home-state quota: seats for all are a programme of their own")
            one = next(it for end in ("HS", "OS") for it in [self.programmes.get(f"{base}-{end}")] if it)
            for name in (f"{base}-HS", f"{base}-OS"):
                if name not in self.programmes:
                    self.programmes[name] = Programme(one.row, one.institute, one.merit)
                    self.programmes[name].steps["OPEN"] = (one.row, 0)
                    self.rows.append((name, one.institute, one.merit, "OPEN", 0, 0, 0, 0, 0, 0, 0))
                    self.remarks.append(f"programme {base} has no seats for {'the home state' if name.endswith('HS') else 'other states'}: the unit {name} is added without seats")

    def look_at_codes(self) -> None:
        """Asks whether codes are meant that look as if a spreadsheet program had made them of others."""
        for meaning in ("programme", "institute", "branch"):
            at = self.sheet.means.get(meaning)
            if at is None:
                continue
            cells: Cells = {}
            for row, fields in self.sheet.rows:
                cell = self.sheet.cell(row, fields, meaning)
                cells.setdefault(cell.text, cell)
            width, why = width_of([it for it in cells if re.fullmatch("[0-9]+", it)], "codes")
            for text, cell in cells.items():
                if REWRITTEN.fullmatch(text):
                    self.findings.doubts("codes", ASKS_CODES, cell)
                elif re.fullmatch("[0-9]+", text) and len(text) < width:
                    self.findings.doubts("codes", ASKS_CODES, cell, f"{why}, such as {text.zfill(width)}")

    def look_at_sums(self) -> None:
        if len(self.programmes) > PROGRAMMES.most:
            self.findings.wrong_file(self.sheet.file, f"{len(self.programmes):,} programmes are too many: at most {PROGRAMMES.most:,}")
        seats = sum(count for it in self.programmes.values() for _, count in it.steps.values())
        if seats > ALL_SEATS.most:
            self.findings.wrong_file(self.sheet.file, f"{seats:,} seats are too many: at most {ALL_SEATS.most:,} in all")

    # ---- what the choices ask

    def choosable(self) -> dict[str, Programme]:
        """Returns the programmes by the codes that a choice may name: that of a divided one is without its quota."""
        if self.by_choice is None:
            plain = {it: one for it, one in self.programmes.items() if not self.base_of(it)}
            self.by_choice = plain | {base: self.programmes[f"{base}-HS"] for base in self.units if f"{base}-HS" in self.programmes}
        return self.by_choice

    def base_of(self, name: str) -> Optional[str]:
        """Returns the divided programme of which a code is a unit, or None."""
        return name[:-3] if name[-3:] in ("-HS", "-OS") and name[:-3] in self.units else None

    def near(self, name: str) -> Optional[str]:
        """Returns the code that may be meant: one that differs only in case, or in zeros before it."""
        if not self.by_letters:
            self.by_letters.update((it.lstrip("0").lower(), it) for it in self.choosable())
        return self.by_letters.get(name.lstrip("0").lower())

    def named(self, text: str) -> list[str]:
        """Returns the codes that words may mean."""
        return [*self.words.get(bare(text), {})]
