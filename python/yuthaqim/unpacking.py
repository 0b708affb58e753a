"""From packed files to people's: drawings and tables whose packing gives the same bytes."""

from __future__ import annotations

import argparse
import os
from typing import Any, Callable, Sequence, TypeVar

from . import calls, days, files, kinds, packed, results, tables
from .cli import DONE, Said
from .faults import Fault, Faults, Place
from .folder import CHARGE, CHARGE_MOST, ONE_WAY, not_of_a_file
from .kinds import Kinds
from .names import fault_of, plain, unseen
from .packing import Catalogue, Extract, Pattern
from .records import ITEM_COLUMNS, LINK_COLUMNS, Book, Record

Made = TypeVar("Made")


def unpack(options: argparse.Namespace) -> Said:
    with files.locked(options.folder):
        found = _Packed(options.folder)
        made, whole = found.made, found.whole
        twins = [name for name in ("question.csv", "extract links.csv") if _there(options.folder, name)]
        there = [name for name in [*made, *whole] if name.split("/")[0] not in whole or name in whole]
        there = [name for name in [*there, *twins] if _there(options.folder, name)]
        if there and not options.force:
            message = "it is there already; --force replaces it"
            raise Faults([Fault(Place(files.within(options.folder, name)), message) for name in there])
        files.put(options.folder, made, whole, twins)
    written = [files.within(options.folder, name) for name in made]
    return DONE, [plain(name, cut=False) for name in written], {"files": written}


def _there(folder: str, name: str) -> bool:
    return os.path.lexists(os.path.join(folder, name))


class _Packed:
    """What stands in `packed/`, as the files that people have."""

    def __init__(self, folder: str):
        self.folder = folder
        self.names = packed.Names(folder)
        self.made: dict[str, bytes] = {}
        self.whole: list[str] = []
        if not os.path.isdir(os.path.join(folder, packed.FOLDER)):
            raise Faults([Fault(Place(files.within(folder, packed.FOLDER)), "there is no such folder")])
        self.kinds = self._kinds()
        self._question()
        catalogue = self._catalogue()
        self._record()
        if catalogue:
            self._book(catalogue)
        if not self.made:
            raise Faults([Fault(Place(files.within(folder, packed.FOLDER)), "no packed file stands in it")])
        self.made["kinds.csv"] = kinds.write(self.kinds)

    def _read(self, name: str) -> bytes | None:
        return packed.read_packed(self.folder, name)

    def _unpacked(self, name: str, read: Callable[..., Made], *of: Any) -> Made:
        """What the library reads in a file; where it refuses, the file is named, and the number."""
        try:
            return read(*of)
        except calls.Refused as refused:
            file = plain(files.within(self.folder, packed.FOLDER, name), cut=False)
            said = f"{file}: {refused.sentence} (refused {refused.number} {refused.detail})"
            raise calls.Refused(refused.number, refused.detail, said) from None

    def _entry(self, name: str, data: bytes) -> packed.Entry:
        return self.names.of(name, data) or {}

    def _kinds(self) -> Kinds:
        """The kinds as they were when the first of these files was packed; without that, none has a name."""
        for name in ("catalogue", "record", "question"):
            said = self.names.files.get(name)
            if said:
                try:
                    return Kinds(
                        *({number: name for name, number in said["kinds"][of].items()} for of in ("items", "links"))
                    )
                except Faults:
                    pass
        return Kinds({}, {})

    def _question(self) -> None:
        data = self._read("question")
        if data is not None:
            own = self._unpacked("question", Pattern.unpack, data, self.kinds)
            called = self._entry("question", data).get("items", ())
            self.made["question.dot"] = own.picture("question", called).encode()

    def _catalogue(self) -> Catalogue | None:
        data = self._read("catalogue")
        if data is None:
            return None
        content = self._unpacked("catalogue", calls.read_catalogue, data)
        said = self._entry("catalogue", data).get("extracts", [])
        called = [one["extract"] for one in said]
        if len(set(called)) != content[0] or any(fault_of(name) or not_of_a_file(name) for name in called):
            said = [{"extract": f"extract {number}", "items": ()} for number in range(content[0])]
        at, extracts = 1, []
        for number in range(content[0]):
            end = at + 2 + content[at] + 3 * content[at + 1]
            pattern = Pattern.unpack(calls.write_pattern(content[at:end]), self.kinds)
            own = said[number]
            self.made[f"extracts/{own['extract']}.dot"] = pattern.picture("extract", own["items"]).encode()
            extracts.append(Extract(own["extract"], pattern))
            at = end
        self.whole.append("extracts")
        self.made["extracts.csv"] = self._table([extract.name for extract in extracts])
        return Catalogue(tuple(extracts), data)

    def _table(self, extracts: Sequence[str]) -> bytes:
        """The table of the extracts, with what stands in the text files beside the catalogue."""
        columns: dict[str, list[Any]] = {"extract": list(extracts)}
        charges = self._numbers("charges", CHARGE_MOST, 1)
        if charges:
            columns[CHARGE] = [charge for charge, in charges]
        terms = self._numbers("terms", days.ALWAYS[1], 2)
        if terms:
            columns["from"] = [days.day(start) for start, _ in terms]
            columns["to"] = [days.day(end) for _, end in terms]
        one_way = self._numbers("one_way", len(extracts) - 1, 1)
        if one_way:
            columns[ONE_WAY] = ["yes" if (number,) in one_way else "" for number in range(len(extracts))]
        for name, column in columns.items():
            if len(column) != len(extracts):
                path = files.within(self.folder, packed.FOLDER, "charges" if name == CHARGE else "terms")
                raise Faults(
                    [Fault(Place(path), f"{len(column)} lines stand there, and there are {len(extracts)} extracts")]
                )
        return tables.write(list(columns), zip(*columns.values()))

    def _numbers(self, name: str, most: int, each: int) -> list[tuple[int, ...]]:
        """The lines of a text file, each of so many numbers."""
        found = []
        for number, line in enumerate((self._read(name) or b"").decode("latin-1").splitlines()):
            parts = [tables.digits(part, most) for part in line.split(" ")]
            if len(parts) != each or None in parts:
                place = Place(files.within(self.folder, packed.FOLDER, name), number + 1)
                raise Faults([Fault(place, f"{each} whole numbers up to {most:,} are wanted, in digits")])
            found.append(tuple(part or 0 for part in parts))
        return found

    def _record(self) -> None:
        data = self._read("record")
        if data is None:
            old = self._read("old")
            if old is None:
                return
            data = self._unpacked("old", calls.sort_record, old)
        called = self._entry("record", data).get("items", ())
        right = len(set(called)) == len(called) and not any(map(unseen, called))
        own = self._unpacked("record", Record.unpack, data, self.kinds, called if right else ())
        self.made["items.csv"] = tables.write(ITEM_COLUMNS, own.item_rows())
        self.made["links.csv"] = tables.write(LINK_COLUMNS, own.link_rows())

    def _book(self, catalogue: Catalogue) -> None:
        data = self._read("book")
        if data is not None:
            called = self._entry("book", data).get("items", ())
            book = self._unpacked("book", Book.unpack, data, catalogue, called)
            for extract, sheet in zip(catalogue.extracts, book.sheets):
                self.made[f"lists/{extract.name}.csv"] = results.encode(sheet.cells())
            self.whole.append("lists")
