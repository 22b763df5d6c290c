"""Reads workbooks, .xlsx and .ods, as rows of texts, if a library for them is installed; tools/season uses it."""
import datetime
import importlib
import sys
from typing import Any, Iterator, NamedTuple

# what reads each kind, and the package of Debian that has it
LIBRARIES = {".xlsx": ("openpyxl", "python3-openpyxl"), ".ods": ("odf.opendocument", "python3-odf")}
# where Debian's packages are if another Python runs
OF_DEBIAN = "/usr/lib/python3/dist-packages"
# rows and columns that a sheet of .ods repeats beyond this are empty ones
MOST_REPEATED = 1_000


class NoBook(Exception):
    """Why a workbook cannot be read, in words for a clerk."""


class Sheet(NamedTuple):
    """A sheet of a workbook: its name and its rows, the first of which has number 1."""

    name: str
    rows: list[list[str]]

    def is_empty(self) -> bool:
        return not any(any(row) for row in self.rows)


def library(ending: str) -> Any:
    """Returns the library that reads this kind of workbook."""
    module, package = LIBRARIES[ending]
    places: tuple[list[str], ...] = ([], [OF_DEBIAN])
    for more in places:
        sys.path += more
        try:
            return importlib.import_module(module)
        except ImportError:
            pass
        finally:
            sys.path[:] = sys.path[: len(sys.path) - len(more)]
    raise NoBook(f"this is a workbook: save the sheet as CSV (in the spreadsheet program, Save As, Text CSV, UTF-8), or install {package}, which reads it")


def text_of(value: Any) -> str:
    """Returns a cell as a text: a whole number without decimals, a date as 2026-02-01, and nothing for an empty cell."""
    if value is None:
        return ""
    if isinstance(value, bool):
        return "TRUE" if value else "FALSE"
    if isinstance(value, float) and value.is_integer():
        return str(int(value))
    if isinstance(value, datetime.datetime) and value.time() == datetime.time():
        return value.date().isoformat()
    return str(value)


def sheets_of_xlsx(path: str) -> list[Sheet]:
    book = library(".xlsx").load_workbook(path, read_only=True, data_only=True)
    return [Sheet(it.title, [[text_of(cell) for cell in row] for row in it.iter_rows(values_only=True)]) for it in book.worksheets]


def cells_of_ods(row: Any) -> Iterator[str]:
    """Gives the cells of a row; a cell that is repeated comes several times."""
    for cell in row.childNodes:
        if cell.qname[1] not in ("table-cell", "covered-table-cell"):
            continue
        given = {name[1]: value for name, value in cell.attributes.items()}
        kind = given.get("value-type", "")
        text = "\n".join(str(it) for it in cell.childNodes if it.qname[1] == "p")
        if kind in ("float", "percentage", "currency"):
            text = text_of(float(given["value"]))
        elif kind == "date":
            text = given["date-value"].removesuffix("T00:00:00")
        elif kind == "boolean":
            text = given["boolean-value"].upper()
        times = int(given.get("number-columns-repeated", 1))
        yield from [text] * (times if text or times <= MOST_REPEATED else 1)


def rows_of_ods(sheet: Any) -> Iterator[list[str]]:
    """Gives the rows of a sheet, also those within groups of rows."""
    for it in sheet.childNodes:
        if it.qname[1] == "table-row":
            cells = [*cells_of_ods(it)]
            times = int(it.attributes.get((it.qname[0], "number-rows-repeated"), 1))
            yield from [cells] * (times if any(cells) or times <= MOST_REPEATED else 1)
        elif it.qname[1].startswith("table-") and it.qname[1] != "table-column":
            yield from rows_of_ods(it)


def sheets_of_ods(path: str) -> list[Sheet]:
    tables = library(".ods").load(path).spreadsheet.childNodes
    return [Sheet(it.getAttribute("name"), [*rows_of_ods(it)]) for it in tables if it.qname[1] == "table"]


def sheets(path: str, ending: str) -> list[Sheet]:
    """Returns the sheets of a workbook. One that is damaged or has a password is refused in words."""
    try:
        found = sheets_of_xlsx(path) if ending == ".xlsx" else sheets_of_ods(path)
    except NoBook:
        raise
    except OSError as why:
        raise NoBook(f"it cannot be read: {why.strerror or why}") from why
    except Exception as why:  # the libraries raise many kinds for a file that is damaged
        raise NoBook("it is damaged, has a password, or is no workbook of this kind: open it, and save the sheet as CSV UTF-8") from why
    return found


def sheet_of(path: str, ending: str, names: list[str]) -> tuple[Sheet, list[str]]:
    """Returns the sheet with one of these names, or else the first that is not empty, and the names of the other sheets."""
    found = [it for it in sheets(path, ending) if not it.is_empty()]
    if not found:
        raise NoBook("all sheets of this workbook are empty")
    wanted = [name.lower() for name in names if name]
    one = next((it for name in wanted for it in found if it.name.strip().lower() == name), found[0])
    return one, [it.name for it in found if it is not one]
