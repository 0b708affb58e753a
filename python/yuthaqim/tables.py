"""Tables as spreadsheets write them: CSV in its many forms."""

from __future__ import annotations

import codecs
import csv
import io
import re
from functools import cached_property
from itertools import compress, islice
from typing import Iterable, Iterator, Mapping, Sequence

from .faults import Fault, Place, Unreadable
from .names import listed, normal, quoted, tidy

ROWS = 100_000
"""A table of more rows is refused unread."""

_DELIMITERS = ",;\t"
_SAID = re.compile(r"sep=(.)\s*", re.IGNORECASE)


class Row:
    __slots__ = ("file", "line", "cells")

    def __init__(self, file: str, line: int, cells: Mapping[str, str]):
        self.file, self.line, self.cells = file, line, cells  # the line is its first, from 1

    def __getitem__(self, column: str) -> str:
        """The cell, tidy; empty where the table has no such column."""
        return self.cells.get(column, "")

    @property
    def place(self) -> Place:
        return Place(self.file, self.line)

    def fault(self, message: str) -> Fault:
        return Fault(self.place, message)


class Table:
    """The columns of a table that were asked for, in which cells are tidy, and the line of each row."""

    def __init__(
        self,
        file: str,
        line: int,
        header: Sequence[str],
        lines: Sequence[int] = (),
        cells: Mapping[str, Sequence[str]] = {},
    ):
        self.file, self.line, self.header = file, line, tuple(header)  # the line is that of the header
        self.lines, self._cells = lines, cells

    def column(self, name: str) -> Sequence[str]:
        """The cells of a column; empty ones where the table has no such column."""
        return self._cells[name] if name in self._cells else [""] * len(self.lines)

    @cached_property
    def rows(self) -> tuple[Row, ...]:
        """The same by rows, which takes longer."""
        names = tuple(self._cells)
        return tuple(
            Row(self.file, line, dict(zip(names, cells))) for line, *cells in zip(self.lines, *self._cells.values())
        )

    def has(self, column: str) -> bool:
        return any(_same(name, column) for name in self.header)

    def lacks(self, column: str) -> Unreadable:
        """What to say where the column is wanted."""
        there = f"there are: {listed(name for name in self.header if name) or 'none'}"
        return Unreadable(Place(self.file, self.line), f"there is no column {quoted(column)}; {there}")


def digits(text: str, most: int) -> int | None:
    """The number, in digits 0 to 9 alone, if it is one up to `most`.

    >>> digits("007", 31), digits("32", 31), digits("3.5", 31), digits("٣", 31)
    (7, None, None, None)
    """
    if not re.fullmatch("[0-9]+", text, re.ASCII):
        return None
    text = text.lstrip("0") or "0"
    return int(text) if len(text) <= len(str(most)) and int(text) <= most else None


def read(
    data: bytes, file: str, wanted: Sequence[str], faults: list[Fault], optional: Sequence[str] = ()
) -> Table | None:
    """The table in the bytes of a file; None where it can't be read, and then a fault says why."""
    try:
        text = _text(data, file)
        if _lines(text) > ROWS and sum(1 for _ in islice(_rows(text, file), ROWS + 2)) == ROWS + 2:
            raise Unreadable(Place(file), f"it has over {ROWS:,} rows")
        return _table(text, file, wanted, optional)
    except Unreadable as unreadable:
        faults.append(unreadable.fault)
        return None


def _table(text: str, file: str, wanted: Sequence[str], optional: Sequence[str]) -> Table:
    lines, rows = _all_rows(text, file)
    header = list(map(tidy, rows[0])) if rows else []
    table = Table(file, lines[0] if rows else 1, header)
    places = columns(table, wanted, optional)
    lines, rows = lines[1:], rows[1:]
    if set(map(len, rows)) - {len(header)}:
        for line, cells in zip(lines, rows):
            if any(map(str.strip, cells[len(header) :])):
                message = f"the row has {len(cells)} cells, and the header {len(header)}"
                raise Unreadable(Place(file, line), message)
        rows = [cells[: len(header)] + [""] * (len(header) - len(cells)) for cells in rows]
    # By columns, which is many times faster than by rows: a record has thousands.
    all_cells = list(zip(*rows)) or [()] * len(header)
    is_normal = normal(text)
    found = {
        name: list(map(str.strip, all_cells[at]) if is_normal else map(tidy, all_cells[at]))
        for name, at in places.items()
    }
    if any("" in cells for cells in islice(found.values(), 1)):
        kept = [any(map(str.strip, cells)) for cells in rows]
        lines = list(compress(lines, kept))
        found = {name: list(compress(cells, kept)) for name, cells in found.items()}
    return Table(file, table.line, header, lines, found)


def _all_rows(text: str, file: str) -> tuple[Sequence[int], list[list[str]]]:
    """The rows and their lines, the header first; there may be empty ones behind it."""
    if '"' not in text:  # then each line is a row
        lines, passed, delimiter = _begun(text)
        try:
            rows = list(csv.reader(lines, delimiter=delimiter, strict=True)) if delimiter else []
            return range(passed + 1, passed + 1 + len(rows)), rows
        except csv.Error:
            pass  # below it is told where
    found = list(_rows(text, file))
    return [line for line, _ in found], [cells for _, cells in found]


def write(header: Sequence[str], rows: Iterable[Sequence[object]]) -> bytes:
    """The bytes of a table: UTF-8, a comma between cells, LF."""
    out = io.StringIO(newline="")
    writer = csv.writer(out, lineterminator="\n")
    writer.writerow(header)
    writer.writerows(rows)
    return out.getvalue().encode()


def with_row(data: bytes, file: str, cells: Mapping[str, str]) -> bytes:
    """The table with one row more, at its end, in the form that it has; columns of others are left blank."""
    text = _text(data, file)
    _, header = next(_rows(text, file))
    ends = re.findall(r"\r\n|\n|\r", text)
    end: str = ends[-1] if ends else "\n"
    lines = (line for line in re.split(r"\r\n|\n|\r", text) if line.strip() and not _SAID.fullmatch(line))
    out = io.StringIO(newline="")
    row = [next((cell for name, cell in cells.items() if _same(column, name)), "") for column in header]
    csv.writer(out, delimiter=_delimiter(next(lines)), lineterminator=end).writerow(row)
    added = ("" if text.endswith(("\n", "\r")) else end) + out.getvalue()
    for mark, encoding in ((codecs.BOM_UTF16_LE, "utf-16-le"), (codecs.BOM_UTF16_BE, "utf-16-be")):
        if data.startswith(mark):
            return data + added.encode(encoding)
    return data + added.encode()


def _text(data: bytes, file: str) -> str:
    if data.startswith((codecs.BOM_UTF16_LE, codecs.BOM_UTF16_BE)):
        try:
            return data.decode("utf-16")
        except UnicodeDecodeError:
            raise Unreadable(Place(file), 'it is not whole UTF-16; save the table as "CSV UTF-8"') from None
    try:
        return data.decode("utf-8-sig")
    except UnicodeDecodeError as error:
        raise not_utf8(error, file, 'save the table as "CSV UTF-8", or keep it as XLSX') from None


def not_utf8(error: UnicodeDecodeError, file: str, advice: str) -> Unreadable:
    line = len(re.findall(rb"\r\n?|\n", error.object[: error.start])) + 1
    return Unreadable(Place(file, line), f"byte {error.object[error.start]:02X} is not UTF-8; {advice}")


def _lines(text: str) -> int:
    return text.count("\n") + text.count("\r")


def _begun(text: str) -> tuple[io.StringIO, int, str]:
    """The text from its header on, how many lines stand before it, and what stands between cells."""
    lines = io.StringIO(text, newline="")
    passed = 0
    while True:
        begin = lines.tell()
        line = lines.readline()
        if not line:
            return lines, passed, ""
        if line.strip() and not _SAID.fullmatch(line):
            lines.seek(begin)
            return lines, passed, _delimiter(line)
        passed += 1


def _rows(text: str, file: str) -> Iterator[tuple[int, list[str]]]:
    """Each row that isn't empty, with its first line. The header comes first."""
    lines, passed, delimiter = _begun(text)
    if not delimiter:
        return
    reader = csv.reader(lines, delimiter=delimiter, strict=True)
    while True:
        first = passed + reader.line_num + 1
        try:
            cells = [tidy(cell) for cell in next(reader)]
        except StopIteration:
            return
        except csv.Error as error:
            raise Unreadable(Place(file, first), _said(str(error), delimiter)) from None
        if any(cells):
            yield first, cells


def _delimiter(header: str) -> str:
    return max(_DELIMITERS, key=re.sub(r'"[^"]*"', "", header).count)


def _said(error: str, delimiter: str) -> str:
    """What the reader of CSV says, in our words."""
    if "unexpected end" in error:
        return 'a cell that begins here with " has no " at its end'
    if "expected after" in error:
        return f'after a cell in " a {"tab" if delimiter == chr(9) else delimiter} or the end of the line is wanted'
    return f"a cell has over {csv.field_size_limit():,} characters"


def _same(name: str, column: str) -> bool:
    return name.casefold() == column


def columns(table: Table, wanted: Sequence[str], optional: Sequence[str]) -> dict[str, int]:
    """Where each column stands."""
    places = {}
    for column in (*wanted, *optional):
        found = [at for at, name in enumerate(table.header) if _same(name, column)]
        if len(found) > 1:
            raise Unreadable(Place(table.file, table.line), f"two columns are named {quoted(column)}")
        if found:
            places[column] = found[0]
        elif column in wanted:
            raise table.lacks(column)
    return places
