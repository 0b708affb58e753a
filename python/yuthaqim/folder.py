"""A campaign's folder: its kinds, its question, its catalogue and its record, with all that is wrong in them."""

from __future__ import annotations

import os
from datetime import date
from enum import Enum
from typing import TYPE_CHECKING, Sequence

from . import calls, days, explain, kinds, packing, pictures, sketches, tables
from .faults import SHEET, Fault, Faults, Place, Unreadable
from .files import read
from .kinds import Kinds
from .names import fault_of, near, plain, quoted, tidy
from .packing import Catalogue, Extract, Pattern
from .sketches import Sketch
from .tables import Row, Table

if TYPE_CHECKING:
    from .records import Record
    from .workbooks import Workbook

BYTES = 32 << 20
"""A table with more is refused unread."""

CHARGE, CHARGE_MOST = "charge in cents", 4_294_967_295
ONE_WAY = "one-way"
_TERM = ("from", "to")


def not_of_a_file(name: str) -> str | None:
    """Why no file may have this name, if none may."""
    if "/" in name or name.startswith("."):
        return f"{quoted(name)} is no name of a file: it {'holds /' if '/' in name else 'begins with .'}"
    return None


class Read(Enum):
    """Whether a file is read: not at all, where it is there, or else a fault."""

    NOT = 0
    IF_THERE = 1
    WANTED = 2


class Folder:
    """What stands in a folder; raises Faults, with every fault of every file that is read, unless all is right."""

    kinds: Kinds
    catalogue: Catalogue
    table: Table  # of the extracts

    def __init__(self, path: str, question: Read = Read.WANTED, record: Read = Read.NOT, several: bool = False):
        self.path = path
        self.notes: list[str] = []
        self._wrong: list[Fault] = []
        self._workbooks: dict[str, Workbook | None] = {}
        if not os.path.isdir(path):
            raise Faults([Fault(Place(path), "there is no such folder")])
        named = self._kinds()
        several_asked = self._questions() if several else {}
        asked = self._question(Read.IF_THERE if several_asked else question)
        table = self._table("extracts", ["extract"], [CHARGE, *_TERM, ONE_WAY], dates=_TERM)
        self.question = self._pack(asked, named)
        if asked and several_asked:
            self._wrong.append(Fault(Place(asked.file), "there are questions/ too; one of the two goes"))
        packed = {name: self._pack(sketch, named) for name, sketch in several_asked.items()}
        self.questions = {name: pattern for name, pattern in packed.items() if pattern}
        catalogue = self._catalogue(table, named) if table else None
        self.record = self._record(record, named)
        if self._wrong or not (named and table and catalogue):
            raise Faults(self._wrong)
        self.kinds, self.table, self.catalogue = named, table, catalogue

    @classmethod
    def of(cls, kinds: Kinds, question: Pattern, catalogue: Catalogue) -> Folder:
        """What stands in no folder."""
        made = cls.__new__(cls)
        made.path, made.notes, made._wrong, made._workbooks = "quote", [], [], {}
        made.kinds, made.question, made.catalogue = kinds, question, catalogue
        made.table, made.questions, made.record = Table("extracts", 0, ()), {}, None
        return made

    def read_record(self) -> Record:
        """The record, which is read now if it wasn't."""
        if self.record is None:
            self.record = self._record(Read.WANTED, self.kinds)
        if self.record is None:
            raise Faults(self._wrong)
        return self.record

    # Where files stand, and what they hold.

    def _find(self, name: str, shared: bool = True) -> str | None:
        """Where a file stands: in the folder itself or, if it is one that campaigns share, in the one above. A table may
        stand in the workbook there, as a sheet of that name."""
        for place in [self.path, os.path.join(self.path, "..")] if shared else [self.path]:
            path = os.path.normpath(os.path.join(place, name))
            found = [path] if os.path.lexists(path) else []
            found += self._sheet(place, name)
            for second in found[1:]:
                self._wrong.append(Fault(Place(second), f"the table stands in {plain(found[0], cut=False)} already"))
            if found:
                return found[0]
        return None

    def _sheet(self, place: str, name: str) -> list[str]:
        """The sheet of the workbook in a folder that stands for a table, if there is one."""
        path = os.path.normpath(os.path.join(place, "campaign.xlsx"))
        if not name.endswith(".csv") or not os.path.lexists(path):
            return []
        if path not in self._workbooks:
            from .workbooks import Workbook

            try:
                self._workbooks[path] = Workbook(path)
            except Unreadable as unreadable:
                self._wrong.append(unreadable.fault)
                self._workbooks[path] = None
        book = self._workbooks[path]
        sheet = book.sheet(name.removesuffix(".csv")) if book else None
        return [f"{path}{SHEET}{sheet}"] if sheet else []

    def _read(self, path: str, most: int) -> bytes | None:
        try:
            return read(path, most)
        except Unreadable as unreadable:
            self._wrong.append(unreadable.fault)
            return None

    def _missing(self, name: str, other: str) -> None:
        self._wrong.append(
            Fault(Place(os.path.normpath(os.path.join(self.path, name))), f"there is no such file, {other}")
        )

    def _table(
        self, name: str, wanted: Sequence[str], optional: Sequence[str] = (), dates: Sequence[str] = ()
    ) -> Table | None:
        path = self._find(name + ".csv")
        if path is None:
            self._missing(f"{name}.csv", "nor one in the folder above")
            return None
        return self._table_at(path, wanted, optional, dates)

    def _table_at(
        self, path: str, wanted: Sequence[str], optional: Sequence[str] = (), dates: Sequence[str] = ()
    ) -> Table | None:
        file, _, sheet = path.rpartition(SHEET)
        book = self._workbooks.get(file)
        if book:
            return book.read(sheet, wanted, self._wrong, optional, dates)
        data = self._read(path, BYTES)
        return None if data is None else tables.read(data, path, wanted, self._wrong, optional)

    def _sketch_at(self, path: str) -> Sketch | None:
        """The picture in a file, drawn or as a table of its links."""
        if not path.endswith(".dot"):
            table = self._table_at(path, sketches.WANTED, sketches.OPTIONAL)
            return sketches.of_rows(path, table.rows, self._wrong) if table else None
        data = self._read(path, pictures.BYTES)
        return None if data is None else pictures.read(data, path, self._wrong)

    def _pack(self, sketch: Sketch | None, named: Kinds | None) -> Pattern | None:
        return packing.pack(sketch, named, self._wrong) if sketch and named else None

    # Kinds and the question.

    def _kinds(self) -> Kinds | None:
        table = self._table("kinds", ["of", "number", "name"])
        return kinds.read(table, self._wrong) if table else None

    def _question(self, read: Read) -> Sketch | None:
        if read is Read.NOT:
            return None
        paths = [path for path in (self._find(name, shared=False) for name in ("question.dot", "question.csv")) if path]
        if not paths and read is Read.WANTED:
            self._missing("question.dot", "nor a question.csv")
        for second in paths[1:]:
            self._wrong.append(Fault(Place(second), f"the question stands in {plain(paths[0], cut=False)} already"))
        found = [self._sketch_at(path) for path in paths]
        return found[0] if found else None

    def _questions(self) -> dict[str, Sketch | None]:
        """The questions in `questions/`, by their names."""
        found: dict[str, Sketch | None] = {}
        for name, (first, *others) in self._drawings("questions", shared=False).items():
            found[name] = self._sketch_at(first)
            for other in others:
                self._wrong.append(Fault(Place(other), f"{quoted(name)} stands in {plain(first, cut=False)} already"))
        return found

    # The record.

    def _record(self, read: Read, named: Kinds | None) -> Record | None:
        paths = [self._find(name, shared=False) for name in ("items.csv", "links.csv")]
        if read is Read.NOT or (read is Read.IF_THERE and not any(paths)):
            return None
        from . import records  # a quote needs none

        files = {"items.csv": records.ITEM_COLUMNS, "links.csv": records.LINK_COLUMNS}
        found = []
        for (name, columns), path in zip(files.items(), paths):
            if path is None:
                self._missing(name, "and a record has items.csv and links.csv")
            found.append(self._table_at(path, columns) if path else None)
        items, links = found
        return records.read(items, links, named, self._wrong) if items and links and named else None

    # Extracts.

    def _catalogue(self, table: Table, named: Kinds | None) -> Catalogue | None:
        rows = [row for row in table.rows if self._right_name(row)]
        self._told_twice(rows)
        try:
            calls.write_catalogue([len(rows)])
        except calls.Refused as refused:
            if refused.number != 2:  # the number is judged before all else, and here all else is missing
                self._wrong.append(explain.of_extracts(refused, [(row["extract"], row.place) for row in rows]))
                return None
        terms = self._has_terms(table)
        sketched = self._sketches(rows)
        found = []
        for row in rows:
            pattern = self._pack(sketched.get(row["extract"]), named)
            charge = self._charge(row) if table.has(CHARGE) else None
            term = calls.Term(self._day(row, "from", days.FIRST), self._day(row, "to", days.LAST)) if terms else None
            one_way = self._one_way(row)
            if pattern:
                found.append(Extract(row["extract"], pattern, charge, term, one_way, row.place))
        return None if self._wrong else Catalogue.of(found)

    def _right_name(self, row: Row) -> bool:
        name = row["extract"]
        wrong = fault_of(name)
        wrong = wrong or not_of_a_file(name)
        if wrong:
            self._wrong.append(row.fault(wrong))
        return not wrong

    def _told_twice(self, rows: Sequence[Row]) -> None:
        lines: dict[str, int] = {}
        for row in rows:
            if row["extract"] in lines:
                message = f'extract {quoted(row["extract"])} stands on line {lines[row["extract"]]} already'
                self._wrong.append(row.fault(message))
            lines.setdefault(row["extract"], row.line)

    def _has_terms(self, table: Table) -> bool:
        there = [table.has(column) for column in _TERM]
        if any(there) and not all(there):
            self._wrong.append(table.lacks("to" if there[0] else "from").fault)
        return all(there)

    def _charge(self, row: Row) -> int:
        charge = tables.digits(row[CHARGE], CHARGE_MOST)
        if charge is None:
            said = f"the charge {quoted(row[CHARGE])}"
            wrong = "is no whole number of cents in digits, such as 350"
            if tables.digits(row[CHARGE], 10**60) is not None:
                wrong = f"is over {CHARGE_MOST:,}"
            self._wrong.append(row.fault(f"{said} {wrong}"))
        return charge or 0

    def _one_way(self, row: Row) -> bool:
        said = row[ONE_WAY].casefold()
        if said not in ("", "yes"):
            self._wrong.append(row.fault(f'column "{ONE_WAY}": {quoted(row[ONE_WAY])} is neither yes nor blank'))
        return said == "yes"

    def _day(self, row: Row, column: str, blank: date) -> int:
        try:
            return days.number(days.read(row[column]) if row[column] else blank)
        except ValueError as error:
            self._wrong.append(row.fault(f'column "{column}": {quoted(row[column])} {error}'))
            return 0

    def _sketches(self, rows: Sequence[Row]) -> dict[str, Sketch | None]:
        """The picture of each extract, in a file of its own or in the table of all; one that no row names is noted."""
        files, links = self._drawings("extracts"), self._links()
        places = {
            name: [*files.get(name, []), *(row.file for row in links.get(name, [])[:1])] for name in [*files, *links]
        }
        named = {row["extract"] for row in rows}
        unnamed = [name for name in places if name not in named]
        for name in unnamed:
            place = plain(places[name][0], cut=False)
            self.notes.append(f"{place}: no row of extracts.csv names {quoted(name)}; it is not used")
        found: dict[str, Sketch | None] = {}
        for row in rows:
            name = row["extract"]
            if name not in places:
                other = near(name, unnamed)
                hint = f"; did you mean {quoted(other)}?" if other else ""
                self._wrong.append(row.fault(f"there is no extracts/{plain(name)}.dot, nor a table of its links{hint}"))
                continue
            first, *others = places[name]
            for other in others:
                self._wrong.append(Fault(Place(other), f"{quoted(name)} stands in {plain(first, cut=False)} already"))
            in_table = name not in files
            found[name] = sketches.of_rows(first, links[name], self._wrong) if in_table else self._sketch_at(first)
        return found

    def _drawings(self, of: str, shared: bool = True) -> dict[str, list[str]]:
        """The pictures in a folder such as `extracts/`, by their names."""
        folder = self._find(of, shared)
        found: dict[str, list[str]] = {}
        if folder and os.path.isdir(folder):
            for file in sorted(os.listdir(folder), key=lambda file: os.path.splitext(file)):
                name, end = os.path.splitext(file)
                if end in (".dot", ".csv") and not file.startswith("."):
                    found.setdefault(tidy(name), []).append(os.path.join(folder, file))
        return found

    def _links(self) -> dict[str, list[Row]]:
        """The links of pictures that stand together in one table, by the names of their extracts."""
        path = self._find("extract links.csv")
        table = self._table_at(path, ("extract", *sketches.WANTED), sketches.OPTIONAL) if path else None
        found: dict[str, list[Row]] = {}
        for row in table.rows if table else ():
            found.setdefault(row["extract"], []).append(row)
        return found
