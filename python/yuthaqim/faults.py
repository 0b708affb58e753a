"""What is wrong with people's files, and where."""

from __future__ import annotations

from typing import Iterable, NamedTuple

from .names import plain, width

SHOWN = 20
"""So many faults are shown; of the others their number."""

SHEET = ", sheet "
"""Between the file of a workbook and a sheet of it, where a table stands."""

_BEFORE, _LINE = 70, 100  # of a long line, the characters shown before the mark, and in all


class Place(NamedTuple):
    """A file, or a line of it, or a column of that line; both count from 1, and 0 says none."""

    file: str
    line: int = 0
    column: int = 0
    source: str = ""  # the line, where there is a column

    def __str__(self) -> str:
        numbers = [number for number in (self.line, self.column) if number]
        if SHEET in self.file and numbers:
            place = f"cell {_letters(self.column)}{self.line}" if self.column else f"row {self.line}"
            return f"{plain(self.file, cut=False)}, {place}"
        return ":".join([plain(self.file, cut=False), *map(str, numbers)])

    def marked(self) -> str:
        """The line and a mark below the column, each with its line end before it; nothing without a column.

        >>> print(Place("a.dot", 1, 3, "a $ b").marked())
        <BLANKLINE>
            a $ b
              ^
        """
        if not self.column or not self.source:
            return ""
        begin, mark = max(0, self.column - 1 - _BEFORE), self.column - 1
        parts = self.source[begin:mark], self.source[mark : begin + _LINE]
        before, after = (plain(part.replace("\t", " "), cut=False) for part in parts)
        return f"\n    {before}{after}\n    {' ' * width(before)}^"


def _letters(column: int) -> str:
    """The column of a sheet, as spreadsheets call it.

    >>> _letters(2), _letters(27)
    ('B', 'AA')
    """
    rest, last = divmod(column - 1, 26)
    return (_letters(rest) if rest else "") + chr(ord("A") + last)


class Fault(NamedTuple):
    place: Place
    message: str
    between: str = ": "  # a space, where the message is a sentence that the place begins

    def __str__(self) -> str:
        return f"{self.place}{self.between}{self.message}"


class Unreadable(Exception):
    """A fault after which no more of a file can be read."""

    def __init__(self, place: Place, message: str):
        self.fault = Fault(place, message)


class Faults(Exception):
    """All that is wrong with the files that were read; `faults` has each by itself.

    >>> print(Faults([Fault(Place("kinds.csv", 3), "no number stands here")]))
    kinds.csv:3: no number stands here
    """

    def __init__(self, faults: Iterable[Fault]):
        faults = dict.fromkeys(faults)  # each once: a default draws many links otherwise, and is one fault
        files = {fault.place.file: None for fault in faults}
        order = {file: number for number, file in enumerate(files)}
        self.faults = tuple(
            sorted(faults, key=lambda fault: (order[fault.place.file], fault.place.line, fault.place.column))
        )

    def __str__(self) -> str:
        lines = [str(fault) + fault.place.marked() for fault in self.faults[:SHOWN]]
        if len(self.faults) > SHOWN:
            lines.append(f"and {len(self.faults) - SHOWN:,} more")
        return "\n".join(lines)
