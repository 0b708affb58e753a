"""Tables that are sheets of a workbook, XLSX, and results as one."""

from __future__ import annotations

import io
import re
import warnings
import zipfile
from contextlib import contextmanager
from datetime import datetime
from itertools import chain
from typing import Any, Iterable, Iterator, NamedTuple, Sequence

from .faults import SHEET, Fault, Faults, Place, Unreadable
from .files import Missing, read
from .names import plain, quoted, tidy
from .tables import ROWS, Table, columns

BYTES, UNPACKED, CELLS = 32 << 20, 128 << 20, 4_096
"""A workbook of more bytes, or that unpacks to more, or a row with more cells, is refused."""

_WRITTEN_ROWS, _CHARACTERS = 1_048_576, 32_767  # what spreadsheets take: rows in a sheet, and characters in a cell

# XLSX writes what XML can't hold by the number of the character, and so too the _ before what would look like that. The
# latter openpyxl reads itself where strings are shared, so that of what looks so the rest is taken as it stands.
_LOOKS_SO = re.compile("_(?=x[0-9A-Fa-f]{4}_)")
_NUMBERED = re.compile("_x(005F(?=_x[0-9A-F]{4}_)|00[01][0-9A-F]|FFF[EF])_", re.IGNORECASE)
_NOT_OF_XML = re.compile("[\x00-\x08\x0b-\x1f\ufffe\uffff]")


def _openpyxl(to: str) -> Any:
    try:
        import openpyxl  # type: ignore[import]
    except ImportError:
        raise Missing(to, "openpyxl", "python3-openpyxl") from None
    return openpyxl


def write(path: str, header: Sequence[str], rows: Iterable[Sequence[object]]) -> bytes:
    """The bytes of a workbook of one sheet, all of text: a name that looks like a formula or a number stays a name."""
    openpyxl = _openpyxl(f"to write {plain(path, cut=False)}")
    book = openpyxl.Workbook(write_only=True)
    sheet = book.create_sheet("rows")
    first = openpyxl.cell.WriteOnlyCell(sheet)
    first.number_format = "@"  # what is typed there later stays text too

    def cell(value: object) -> Any:
        text = str(value)
        if len(text) > _CHARACTERS:
            message = f"{quoted(text)} is too long for a cell, at most {_CHARACTERS:,} characters; write .csv"
            raise Faults([Fault(Place(path), message)])
        made = openpyxl.cell.WriteOnlyCell(sheet)
        # Were it handed over as a value, openpyxl would make a formula of = and an error of #N/A.
        made._value, made.data_type, made._style = _escaped(text), "s", first._style
        return made

    try:
        for number, row in enumerate(chain([header], rows), 1):
            if number > _WRITTEN_ROWS:
                raise Faults([Fault(Place(path), f"a sheet has at most {_WRITTEN_ROWS:,} rows; write .csv")])
            sheet.append(list(map(cell, row)))
    except BaseException:
        sheet.close()
        raise
    out = io.BytesIO()
    book.save(out)
    return out.getvalue()


def _escaped(text: str) -> str:
    return _NOT_OF_XML.sub(lambda found: f"_x{ord(found[0]):04X}_", _LOOKS_SO.sub("_x005F_", text))


def _unescaped(text: str) -> str:
    """A cell's text as spreadsheets show it.

    >>> _unescaped("S_x005F_x0041_"), _unescaped(_escaped("_x005F_\\r"))
    ('S_x0041_', '_x005F_\\r')
    """
    return _NUMBERED.sub(lambda found: chr(int(found[1], 16)), text) if "_x" in text else text


class Workbook:
    """A workbook in a file. What openpyxl can't read, whatever it says of it, is Unreadable."""

    def __init__(self, path: str):
        openpyxl = _openpyxl(f"to read {plain(path, cut=False)}")
        self.path = path
        data = read(path, BYTES)
        try:
            with zipfile.ZipFile(io.BytesIO(data)) as packed:
                if sum(part.file_size for part in packed.infolist()) > UNPACKED:
                    raise Unreadable(Place(path), f"it unpacks to over {UNPACKED:,} bytes")
                sheets = [part for part in packed.namelist() if part.startswith("xl/worksheets/")]
                formulas = any(b"<f" in packed.read(part) for part in sheets)
            with _quietly():
                self._values = openpyxl.load_workbook(io.BytesIO(data), read_only=True, data_only=True)
                # A formula without a stored value leaves nothing there: where there are formulas they are read beside.
                self._formulas = openpyxl.load_workbook(io.BytesIO(data), read_only=True) if formulas else None
        except Unreadable:
            raise
        except Exception:
            raise self._unreadable() from None

    def sheet(self, name: str) -> str | None:
        """The sheet of that name, as the workbook writes it."""
        return next((one for one in self._values.sheetnames if tidy(one).casefold() == name), None)

    def read(
        self, sheet: str, wanted: Sequence[str], faults: list[Fault], optional: Sequence[str], dates: Sequence[str]
    ) -> Table | None:
        """The table in a sheet; in columns of `dates` a cell may be one. None where it can't be read."""
        before = len(faults)
        try:
            with _quietly():
                table = self._read(sheet, wanted, faults, optional, dates)
            return table if len(faults) == before else None
        except Unreadable as unreadable:
            faults.append(unreadable.fault)
        except Exception:
            faults.append(self._unreadable().fault)
        return None

    def _read(
        self, sheet: str, wanted: Sequence[str], faults: list[Fault], optional: Sequence[str], dates: Sequence[str]
    ) -> Table:
        file = f"{self.path}{SHEET}{sheet}"
        rows = self._rows(sheet, file)
        line, header = next(rows, (1, []))
        table = Table(file, line, [cell.text(False, faults) for cell in header])
        places = columns(table, wanted, optional)
        lines: list[int] = []
        found: dict[str, list[str]] = {name: [] for name in places}
        for line, cells in rows:
            said = {name: cells[at].text(name in dates, faults) for name, at in places.items() if at < len(cells)}
            if any(said.values()):
                lines.append(line)
                for name in places:
                    found[name].append(said.get(name, ""))
        return Table(file, table.line, table.header, lines, found)

    def _rows(self, sheet: str, file: str) -> Iterator[tuple[int, list[_Cell]]]:
        """Each row that isn't empty. The header comes first."""
        books = [book[sheet] for book in (self._values, self._formulas) if book]
        for book in books:
            book.reset_dimensions()  # who wrote the workbook may have said less than there is
        for line, rows in enumerate(zip(*(book.iter_rows() for book in books)), 1):
            if line > ROWS + 1:
                raise Unreadable(Place(file), f"it has over {ROWS:,} rows")
            if len(rows[0]) > CELLS:
                raise Unreadable(Place(file, line), f"it has over {CELLS:,} cells")
            cells = [
                _Cell(Place(file, line, column), cell, any(one.data_type == "f" for one in others))
                for column, (cell, *others) in enumerate(zip(*rows), 1)
            ]
            if any(cell.value is not None or formula for _, cell, formula in cells):
                yield line, cells

    def _unreadable(self) -> Unreadable:
        return Unreadable(Place(self.path), "it can't be read as a workbook; save it again as XLSX")


@contextmanager
def _quietly() -> Iterator[None]:
    """openpyxl warns of what it leaves out: styles, checks of input and the like, which no table needs."""
    with warnings.catch_warnings():
        warnings.simplefilter("ignore")
        yield


class _Cell(NamedTuple):
    place: Place
    cell: Any
    formula: bool  # whether one stands in it

    def text(self, date: bool, faults: list[Fault]) -> str:
        """What it says; a fault, and nothing, where that isn't what is shown."""
        cell, value, message = self.cell, self.cell.value, ""
        if value is None:
            message = "no value is stored for this formula; open the workbook, save it, or make the cell text"
            message = message if self.formula else ""
        elif isinstance(value, str) and cell.data_type != "e":
            return tidy(_unescaped(value))
        elif isinstance(value, datetime):
            if date and value == datetime(value.year, value.month, value.day):
                return value.date().isoformat()
            message = f"this is the date {value.date()}, where a name is wanted; make the cell text"
        elif isinstance(value, (int, float)) and not isinstance(value, bool):
            if value == int(value) and abs(value) < 10**15 and cell.number_format in ("General", "0"):
                return str(int(value))
            message = f"this is the number {value} in the format {plain(cell.number_format)}; make the cell text"
        else:
            message = f"this is {plain(str(value))}, where text is wanted; make the cell text"
        if message:
            faults.append(Fault(self.place, message))
        return ""
