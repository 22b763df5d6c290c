"""What the columns of a board's sheets mean: by the tool's own words, by columns.csv, or by a guess that a clerk confirms. tools/season uses it.

If a sheet has other headings than the tool's words, the tool guesses what each column means and writes the guess to columns.csv. The clerk corrects it there, and
the next call reads the sheets by it. Nothing is read by a guess that nobody has seen."""
import os
import re
from typing import Iterable, NamedTuple, Optional

from formats import CATEGORIES, HEADERS, MERIT_LISTS, NUMBER, TRAITS, listed
from season_words import is_code
from spreadsheets import Cell, Findings, Header, Row, Table, letters, read, read_table, stripped, written

FILE = "columns.csv"
HEADING = ("table", "column", "heading", "means", "example")
LEFT_OUT = "-"
VERTICAL = tuple(it for it in CATEGORIES if it != "GEN")
# ranks by list: the common one is the place itself
RANKS = tuple(f"{name} {of}{end}" for name in MERIT_LISTS for of in ("category", *VERTICAL) for end in ("", " PwD")) + tuple(f"{name} PwD" for name in MERIT_LISTS)
WIDE = tuple(f"{step}{end}" for step in ("OPEN", *VERTICAL) for end in ("", " W", " PwD", " W PwD"))
CHOICE = re.compile(r"choice ([1-9][0-9]{0,3})")
MEANINGS = {
    "register": ("number", "application number", "name", "category", "traits", "gender", "disability", *TRAITS, "state", "token", *MERIT_LISTS, *RANKS),
    "matrix": ("programme", "programme name", "branch", "institute", "institute name", "list", "step", "seats", "quota", "home", "pool", "total", *TRAITS, *WIDE),
    "choices": ("candidate", "preference", "programme", "institute", "programmes"),
}
# the tool's own words for the columns, and the meanings behind them
OWN = {
    "register": {"id": "number", **{it: it for it in (*HEADERS["register"][1:], "number", "application number", "name", "state")}},
    "matrix": {it.lower(): it for it in (*HEADERS["matrix"], "quota", "home")},
    "choices": {it: it for it in ("candidate", "programmes", "preference", "programme")},
}
NEEDED = {"register": ("number", "category", "traits"), "matrix": HEADERS["matrix"][:5], "choices": ("candidate", "programmes")}
LONG = ("candidate", "preference", "programme")
# rows in which a header is looked for, and rows whose values a guess looks at
MOST_TITLES, LOOKED = 15, 300

# the exams of the columns with ranks, each with the number of its merit list
Exams = dict[tuple[str, ...], int]


class Plan(NamedTuple):
    """What columns.csv says of one table: the sheet of a workbook, the rows of the header, and its rows on columns as cells: column, heading, meaning."""

    sheet: str
    header: tuple[int, ...]
    columns: list[list[Cell]]


# ---- a guess


def plain(text: str) -> str:
    """Returns a heading as words in small letters."""
    return " ".join(re.findall(r"[^\W_]+", text.lower().replace("&", " and ")))


OF_PERSON = {"candidate", "applicant", "student", "application", "appl", "app", "appln", "registration", "regn", "reg", "roll", "enrolment", "enrollment", "form", "hall", "ticket"}
OF_NUMBER = {"no", "number", "num", "id", "code", "s", "jee", "main", "advanced"}
SERIAL = re.compile(r"(s|sl|sr|serial|srl)( ?no| number)?|no")
FORMS = {
    "register": (
        (r"((candidate|applicant|student)( s)? )?(full )?name( of( the)? (candidate|applicant|student))?", "name"),
        (r"((birth|social|reservation|caste|seat|candidate) )*(category|caste|cat)( name| code| status)?", "category"),
        (r"gender|sex", "gender"),
        (r"(is |whether )?((person|persons) with )?(pwd|pwbd|ph|disab\w*|benchmark disab\w*|divyang\w*)( status| candidate| category| yes no| y n)?", "disability"),
        (r"traits?|horizontal( reservation)?( category)?", "traits"),
        (r"(is |whether )?ex ?service ?m[ae]n.*|esm", "X"),
        (r"sports?( quota| person| category| yes no)?", "S"),
        (r"(dependants? of )?freedom fighters?.*|ff", "F"),
        (r"local( area| candidate)?", "L"),
        (r"(state|home state|domicile)( code)?( of)?( eligibility| residence| domicile| class xii| class 12| 12th)?( code| name)?|soe", "state"),
        (r"token", "token"),
    ),
    "matrix": (
        (r"(inst|institute|institution|college|university)( code| id)", "institute"),
        (r"(institute|institution|college|university)( name)?|name of( the)? (institute|institution|college)", "institute"),
        (r"((academic )?(programme|program|course|br|branch|discipline)|choice)( code| id)", "programme"),
        (r"(academic )?(programme|program|course|branch|discipline)( name)?|name of( the)? (programme|program|course|branch)", "programme"),
        (r"(merit )?list|exam(ination)?", "list"),
        (r"step|(seat )?category|seat type", "step"),
        (r"(no of |number of )?seats|intake|sanctioned( intake| seats)?", "seats"),
        (r"quota|state( all india| ai)( seats)?.*|allotment quota", "quota"),
        (r"home( state)?|(institute )?state( of( the)? (institute|college))?( code)?", "home"),
        (r"(seat )?pool|gender( pool)?", "pool"),
        (r"(grand |row )?total( seats)?|seats total|sum", "total"),
    ),
    "choices": (
        (r"(preference|choice|priority|option|pref)( no| number| order| sr no)|preference|order|priority|rank", "preference"),
        (r"((academic )?(programme|program|course|branch|discipline)|choice|option)( code| name| filled)?|choice", "programme"),
        (r"(institute|institution|college|university)( name| code)?", "institute"),
        (r"(programmes|choices|preferences|options)( filled)?( in order)?|choice list|list of (choices|programmes)", "programmes"),
    ),
}
EXAMS = {"main": "main", "mains": "main", "advanced": "advanced", "adv": "advanced", "arch": "arch", "barch": "arch", "architecture": "arch", "aat": "arch", "2a": "arch", "plan": "plan", "planning": "plan", "bplan": "plan", "2b": "plan"}
OF_RANK = {"rank", "ranks", "crl", "air", "merit", "place", "position"}
OF_LIST = {"ews": "EWS", "obc": "OBC", "sc": "SC", "st": "ST", "category": "category", "cat": "category"}
OF_DISABLED = {"pwd", "pwbd", "ph"}
# of two columns that may mean the same, the one with this word: where Class XII was passed decides the home state
PREFERRED = {"application number": "application", "state": "eligibility"}
BY_ALL = {"no", "number", "list", "wise", "all", "india", "overall", "common", "general", "gen", "open", "ur", "in", "of", "the", "jee", "paper", "1", "2", "i", "ii", "b", "e", "be", "tech", "btech", "ncl"}
OF_POOL = {"gender", "neutral", "only", "including", "supernumerary", "seats", "gen", "ncl", "pool"}


def numeric(values: list[str]) -> bool:
    """Returns whether most of the values are numbers, as ranks and seats are written."""
    found = [it for it in values if it]
    return bool(found) and sum(bool(re.fullmatch(r"[0-9][0-9,.]*\s*[rR]?", it)) for it in found) * 2 > len(found)


def rank_of(words: set[str], values: list[str], exams: Exams) -> Optional[str]:
    """Returns which rank a column of the register has, or None if it has none."""
    if words - OF_RANK - set(OF_LIST) - OF_DISABLED - BY_ALL - set(EXAMS) or not (numeric(values) or words & OF_RANK and not any(values)):
        return None
    if not words & (OF_RANK | set(OF_LIST) | OF_DISABLED):
        return None
    exam = tuple(sorted({EXAMS[it] for it in words & set(EXAMS)}))
    if exam not in exams and len(exams) >= len(MERIT_LISTS):
        return None
    name = MERIT_LISTS[exams.setdefault(exam, len(exams))]
    of = next((OF_LIST[it] for it in OF_LIST if it in words), "")
    return " ".join(filter(None, (name, of, "PwD" if words & OF_DISABLED else "")))


def seats_of(words: set[str], values: list[str]) -> Optional[str]:
    """Returns which seats a column of a wide matrix has, or None if it has none."""
    steps = [OF_LIST[it] for it in ("ews", "obc", "sc", "st") if it in words] or ["OPEN"] * bool(words & {"open", "general", "gen", "ur"})
    female = {"female", "women", "woman", "girls", "w"}
    if len(steps) != 1 or words - OF_POOL - female - OF_DISABLED - set(OF_LIST) - {"open", "general", "gen", "ur"} or not numeric(values):
        return None
    return f"{steps[0]}{' W' * bool(words & female)}{' PwD' * bool(words & OF_DISABLED)}"


def is_identity(words: set[str]) -> bool:
    """Returns whether a heading is of the number by which a board knows its candidates."""
    return words <= OF_PERSON | OF_NUMBER and bool(words & OF_PERSON) or words in ({"id"}, {"number"})


def meaning_of(table: str, heading: str, values: list[str], exams: Exams) -> Optional[str]:
    """Returns what a column may mean by its heading and its values, or None."""
    name = plain(heading)
    if not name or SERIAL.fullmatch(name):
        return None
    if table != "matrix" and is_identity({*re.sub("([a-z])no$", r"\1 no", name).split()}) and any(re.search("[0-9]", it) for it in values):
        if table == "choices":
            return "candidate"
        is_short = all(re.fullmatch("[1-9][0-9]*", it) and NUMBER.has(int(it)) for it in values if it)
        return "number" if is_short else "application number"
    if table == "choices":
        numbered = re.fullmatch(r"(choice|preference|programme|program|option|pref|priority)?( no)? ?([1-9][0-9]{0,2})", name)
        if numbered:
            return f"choice {numbered[3]}"
    if table != "choices":
        own = OWN[table].get(stripped(heading).lower())
        if own and len(own) <= 2 and (own not in TRAITS or table == "matrix"):
            return own
        words = {*name.split()}
        found = rank_of(words, values, exams) if table == "register" else seats_of(words, values)
        if found:
            return found
    return next((it for form, it in FORMS[table] if re.fullmatch(form, name)), None)


def meanings(table: str, names: list[str], rows: list[Row]) -> dict[str, int]:
    """Returns what the columns may mean, each meaning with its first column."""
    found: dict[str, int] = {}
    exams: Exams = {}
    for at, name in enumerate(names):
        values = [stripped(fields[at]) for _, fields in rows[:LOOKED] if at < len(fields)]
        meaning = meaning_of(table, name, values, exams)
        if meaning in ("institute", "programme") and table == "matrix" and (meaning in found or not all(map(is_code, filter(None, values)))):
            meaning = f"{meaning} name"
        if meaning == "programme" and table == "choices" and any(values) and all(re.fullmatch("[0-9]{1,3}", it) for it in values):
            meaning = "preference"
        if meaning and (meaning not in found or PREFERRED.get(meaning, "-") in plain(name)):
            found[meaning] = at
    if "seats" in found and "total" not in found and len({*found} & {*WIDE}) > 1:
        found["total"] = found.pop("seats")
    return found


def with_branches(found: dict[str, int], rows: list[Row]) -> dict[str, int]:
    """Returns the meanings of a matrix. A code that comes with several institutes is that of a branch, and a programme is an institute's branch."""
    if not {"programme", "institute"} <= found.keys():
        return found
    pairs = {(fields[found["programme"]], fields[found["institute"]]) for _, fields in rows if len(fields) > max(found["programme"], found["institute"])}
    if len({programme for programme, _ in pairs}) == len(pairs):
        return found
    return {"branch" if it == "programme" else it: at for it, at in found.items()}


def headings(rows: list[Row], at: int, of_two: bool) -> Optional[Header]:
    """Returns the header that a row, or a row and the one below it, would be, or None if they cannot be one."""
    number, fields = rows[at]
    names = [stripped(it) for it in fields]
    if not of_two:
        return Header((number,), names)
    if at + 2 > len(rows) - 1:
        return None
    other, below = rows[at + 1][0], [stripped(it) for it in rows[at + 1][1]]
    if any(re.fullmatch(r"[0-9][0-9,.]*", it) for it in below):
        return None
    above = ""
    made: list[str] = []
    for column in range(max(len(names), len(below))):
        upper, lower = ((it[column] if column < len(it) else "") for it in (names, below))
        above = upper or (above if lower else "")
        made.append(" ".join(filter(None, (above, lower))))
    return Header((number, other), made)


def worth(table: str, found: dict[str, int]) -> int:
    """Returns how much of what a table needs is found."""
    needs = {"register": ("category",), "matrix": (), "choices": ("candidate",)}[table]
    more = {"register": ("number", "application number"), "matrix": ("programme", "programme name", "branch"), "choices": ("programme", "programmes", "choice 1")}[table]
    return len(found) + 3 * sum(it in found for it in needs) + 3 * any(it in found for it in more)


def guess(table: str, rows: list[Row]) -> tuple[Header, dict[str, int]]:
    """Returns the header of a sheet and what its columns may mean."""
    best: Optional[tuple[Header, dict[str, int]]] = None
    most = 0
    for at in range(min(MOST_TITLES, len(rows))):
        for of_two in (False, True):
            header = headings(rows, at, of_two)
            if header is None or sum(map(bool, header.names)) < 2:
                continue
            below = rows[at + 1 + of_two :]
            found = meanings(table, header.names, below)
            if worth(table, found) > most:
                most, best = worth(table, found), (header, with_branches(found, below) if table == "matrix" else found)
    return best or (Header((rows[0][0],), [stripped(it) for it in rows[0][1]]), {})


# ---- what is still missing


def lacking(table: str, found: Iterable[str]) -> list[str]:
    """Returns what a table needs and does not have, in words."""
    has = {*found}
    if table == "register":
        missing = [] if has & {"number", "application number"} else ["number or application number"]
        missing += [] if "category" in has else ["category"]
        return missing + ([] if has & {*MERIT_LISTS, *RANKS} else ["a place or a rank, such as m1"])
    if table == "matrix":
        missing = [] if has & {"programme", "programme name", "branch"} else ["programme or programme name"]
        missing += [] if has & {"institute", "institute name"} else ["institute or institute name"]
        return missing + ([] if has & {*WIDE} or {"step", "seats"} <= has else ["seats by step: step and seats, or columns such as OPEN and OPEN PwD"])
    missing = [] if "candidate" in has else ["candidate"]
    is_named = has & {"programme", "programmes"} or any(map(CHOICE.fullmatch, has))
    return missing + ([] if is_named else ["programme with preference, or choice 1, choice 2, .."])


# ---- columns.csv


def rows_of_guess(table: str, file: str, header: Header, found: dict[str, int], rows: list[Row]) -> Iterable[list[str]]:
    """Gives the rows of columns.csv that a guess makes of a table."""
    yield [table, "header", " and ".join(map(str, header.rows)), "", f"the rows of {file} that name its columns"]
    means = {at: meaning for meaning, at in found.items()}
    first = max(header.rows)
    values = [fields for number, fields in rows if number > first][:LOOKED]
    for at, name in enumerate(header.names):
        example = next((stripped(it[at]) for it in values if at < len(it) and stripped(it[at])), "")
        if name:
            yield [table, letters(at), name, means.get(at, LEFT_OUT), "" if means.get(at) == "token" else example[:40]]


def read_plans(folder: str, findings: Findings) -> dict[str, Plan]:
    """Returns the plans of columns.csv by their tables; none if there is no such file."""
    if not os.path.exists(f"{folder}/{FILE}"):
        return {}
    plans: dict[str, Plan] = {}
    for row, fields in (read(folder, FILE, HEADING, findings) or [])[1:]:
        cells = [Cell(FILE, row, name, at, stripped(fields[at]) if at < len(fields) else "") for at, name in enumerate(HEADING)]
        table = cells[0].text.lower()
        if table not in MEANINGS:
            refuse(cells[0], f"a table is {listed(MEANINGS)}", findings)
            continue
        plan = plans.setdefault(table, Plan("", (), []))
        if cells[1].text.lower() == "sheet":
            plans[table] = plan._replace(sheet=cells[2].text)
        elif cells[1].text.lower() == "header":
            plans[table] = plan._replace(header=header_rows(cells[2], findings))
        else:
            plan.columns.append(cells)
    return plans


def refuse(cell: Cell, why: str, findings: Findings) -> None:
    """Takes an error of a field of columns.csv. Other errors may follow from it, so it is reported first."""
    findings.causes.append(f"{cell.place()}: {cell.value()}: {why}")


def header_rows(cell: Cell, findings: Findings) -> tuple[int, ...]:
    found = tuple(map(int, re.findall("[0-9]+", cell.text)))
    if not (1 <= len(found) <= 2 and re.fullmatch(r"[0-9]+(\.0+)?(\s*(and|-|,|&|to)\s*[0-9]+)?", cell.text) and found == tuple(range(found[0], found[0] + len(found)))):
        refuse(cell, "the header is in one row, such as 3, or in two that follow each other, such as 3 and 4", findings)
        return ()
    return found


def meaning_in(table: str, cell: Cell, findings: Findings) -> str:
    """Returns the meaning that a field of columns.csv names, or nothing."""
    text = " ".join(cell.text.replace("_", " ").split())
    if text in ("", LEFT_OUT):
        return ""
    known = {it.lower(): it for it in MEANINGS[table]}
    found = known.get(text.lower()) or (text.lower() if table == "choices" and CHOICE.fullmatch(text.lower()) else None)
    if found is None:
        refuse(cell, f"a column of the {table} means {listed(shortly(table))}, or {LEFT_OUT} if it is left out", findings)
        return ""
    return found


def shortly(table: str) -> list[str]:
    """Returns the meanings of a table as tools/README.md lists them: ranks and seats by their form."""
    plainly = [it for it in MEANINGS[table] if it not in RANKS and it not in WIDE]
    forms = {"register": ["m1 OBC, m1 category, m1 PwD and so on"], "matrix": ["OPEN, OPEN PwD, EWS W and so on"], "choices": ["choice 1, choice 2 and so on"]}
    return plainly + forms[table]


def by_plan(table: str, file: str, rows: list[Row], plan: Plan, findings: Findings) -> Optional[Table]:
    """Returns a sheet as columns.csv says that it is, or None if it is otherwise."""
    at = next((at for at, (number, _) in enumerate(rows) if (number,) == plan.header[:1]), None)
    header = headings(rows, at, len(plan.header) == 2) if at is not None else None
    if header is None and not plan.header and findings.causes:
        return None
    if header is None or at is None:
        findings.wrong_form(FILE, f"{table}: the header is in {listed([f'row {it}' for it in plan.header], 'and') if plan.header else 'no row'}, and {file} has none there; remove the rows of {table} from {FILE} for a new guess")
        return None
    means: dict[str, int] = {}
    before = len(findings.causes)
    for cells in plan.columns:
        column = column_of(header, cells)
        meaning = meaning_in(table, cells[3], findings)
        if column is None:
            refuse(cells[2], f"{file} has no such column in {header.where()}; it has {listed(filter(None, header.names), 'and')}", findings)
        elif meaning in means:
            refuse(cells[3], f"two columns of {file} mean this; write {LEFT_OUT} for one of them", findings)
        elif meaning:
            means[meaning] = column
    if len(findings.causes) > before:
        # that a column is missing or new may follow from these
        return None
    missing = lacking(table, means)
    if missing:
        findings.wrong_form(FILE, f"no column of {file} means {listed(missing, 'and')}: write it in the column `means`")
    new = [name for at, name in enumerate(header.names) if name and name not in [it[2].text for it in plan.columns]]
    if new:
        findings.wrong_form(FILE, f"{file} has columns that {FILE} does not name: {listed(new, 'and')}; add a row for each, or remove the rows of {table} for a new guess")
    return None if missing else Table(file, findings, header, rows[at + len(plan.header) :], means)


def column_of(header: Header, cells: list[Cell]) -> Optional[int]:
    """Returns the column that a row of columns.csv is for: by its heading, and by its letters if several have it."""
    found = [at for at, name in enumerate(header.names) if " ".join(name.split()) == " ".join(cells[2].text.split())]
    return next((it for it in found if letters(it) == cells[1].text.upper()), found[0] if len(found) == 1 else None)


# ---- tables by their own words


def by_words(table: str, file: str, rows: list[Row], findings: Findings) -> Optional[Table]:
    """Returns a sheet whose first row names its columns by the tool's own words, or None if it does not."""
    names = [stripped(it) for it in rows[0][1]]
    lower = [it.lower().replace("_", " ") for it in names]
    own = OWN[table]
    known = [own.get(it) for it in lower]
    means = {meaning: at for at, meaning in reversed([*enumerate(known)]) if meaning}
    needed = LONG if table == "choices" and "preference" in means else NEEDED[table]
    missing = [it for it in needed if it not in means and not (it == "number" and "application number" in means)]
    if missing:
        return None
    for name in {it for it in known if it and known.count(it) > 1}:
        findings.wrong_form(file, f"two columns are called `{next(word for word, meaning in own.items() if meaning == name)}`")
    for at, name in enumerate(names):
        meaning = known[at]
        if meaning and name not in (name.lower(), meaning, meaning.replace(" ", "_")):
            findings.remarks.append(f"{file}: column `{name}` is read as {meaning}")
    made = Table(file, findings, Header((rows[0][0],), names), rows[1:], means)
    made.is_by_words = True
    return made


# ---- all tables


class Guess(NamedTuple):
    """A table that is read by no words of the tool and no rows of columns.csv, with the guess."""

    table: str
    file: str
    header: Header
    found: dict[str, int]
    rows: list[Row]


def tables(folder: str, findings: Findings) -> tuple[dict[str, Optional[Table]], list[Guess]]:
    """Returns the tables of a folder by their names, and the guesses for those that nobody has confirmed."""
    plans = read_plans(folder, findings)
    found: dict[str, Optional[Table]] = {}
    guesses: list[Guess] = []
    for table in MEANINGS:
        plan = plans.get(table)
        file, rows = read_table(folder, table, findings, OWN[table], plan.sheet if plan else "")
        if rows is not None and not rows:
            findings.wrong_form(file, "it is empty")
        if not rows:
            continue
        if plan:
            found[table] = by_plan(table, file, rows, plan, findings)
            continue
        found[table] = by_words(table, file, rows, findings)
        if found[table] is None:
            guesses += guess_of(table, file, rows, findings)
    return found, guesses


def guess_of(table: str, file: str, rows: list[Row], findings: Findings) -> list[Guess]:
    """Returns the guess for a sheet. A sheet of which no row names columns has none: the row may be a person's, so nothing of it is shown."""
    header, found = guess(table, rows)
    if len(found) < 2:
        needed = listed([next(word for word, meaning in OWN[table].items() if meaning == it) for it in (LONG if table == "choices" else NEEDED[table])], "and")
        findings.wrong_form(file, f"row {rows[0][0]}: no row names the columns in words that the tool knows; needed are {needed}, with commas, semicolons or tabs between them")
        return []
    return [Guess(table, file, header, found, rows)]


def written_guess(folder: str, guesses: list[Guess]) -> bytes:
    """Returns columns.csv with its rows so far and those of the guesses."""
    before = read(folder, FILE, HEADING, Findings(set())) if os.path.exists(f"{folder}/{FILE}") else None
    kept = [fields for _, fields in before or [(1, [*HEADING])]]
    return written([*kept, *(row for it in guesses for row in rows_of_guess(it.table, it.file, it.header, it.found, it.rows))])


def tells_guess(it: Guess) -> list[str]:
    """Returns the lines of the report on a guess."""
    named = [f"{it.header.names[at]} is {meaning}" for meaning, at in sorted(it.found.items(), key=lambda pair: pair[1])]
    lines = [f"{it.file}: {it.header.where()} may be the header: {'; '.join(named)}"] if named else [f"{it.file}: no row names its columns in words that the tool knows"]
    left = [name for at, name in enumerate(it.header.names) if name and at not in it.found.values()]
    lines += [f"{it.file}: left out: {', '.join(left)}"] if left and named else []
    missing = lacking(it.table, it.found)
    return lines + ([f"{it.file}: still missing: {listed(missing, 'and')}"] if missing else [])


