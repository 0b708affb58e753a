"""Records: the tables of items and links, and what the library packs of them, and back. Sheets: what it lists."""

from __future__ import annotations

from itertools import chain, repeat
from typing import Any, Iterable, Mapping, NamedTuple, Sequence

from . import calls, explain, faults, names
from .faults import Fault, Faults
from .kinds import Kinds
from .packing import Catalogue, Ends, Pattern
from .results import COLUMNS
from .sketches import Word
from .tables import Row, Table

ITEM_COLUMNS, LINK_COLUMNS = ("item", "kinds"), ("from", "to", "kind")

HINTS = 5
"""For so many names that aren't known a near one is looked for: there may be 4,096 to look through."""

Pairs = tuple[tuple[int, int], ...]


class Record(NamedTuple):
    """What was done: items with their names and kinds, links between them, and the packed bytes of all.

    >>> kinds = Kinds(["section", "slow run"], ["cut from"])
    >>> record = Record.of({"S1": ["section"], "S1-a": ["slow run"]}, [("S1", "S1-a", "cut from")], kinds)
    >>> record.link_rows(), len(record.packed)
    ([('S1', 'S1-a', 'cut from')], 15)
    """

    kinds: Kinds
    names: tuple[str, ...]
    items: tuple[int, ...]  # the kinds of each: the bit worth 2^k says kind k
    links: tuple[Ends, ...]  # ascending, as they are packed
    packed: bytes

    @classmethod
    def of(cls, items: Mapping[str, Iterable[str]], links: Iterable[tuple[str, str, str]], kinds: Kinds) -> Record:
        """A record of items, with the names of their kinds, and links: from, to and kind of each."""
        wrong: list[Fault] = []
        tables = (
            _as_table("items", ITEM_COLUMNS, [(name, ";".join(own)) for name, own in items.items()]),
            _as_table("links", LINK_COLUMNS, list(links)),
        )
        record = read(*tables, kinds, wrong)
        if record is None:
            raise Faults(wrong)
        return record

    @classmethod
    def unpack(cls, packed: bytes, kinds: Kinds, called: Sequence[str] = ()) -> Record:
        """The record in a packed file. Items are called as is said, or by their numbers."""
        content = calls.read_record(packed)
        items, links = content[0], content[1]
        ends = (Ends(*content[at : at + 3]) for at in range(2 + items, 2 + items + 3 * links, 3))
        named = called if len(called) == items else list(map(str, range(items)))
        return cls(kinds, tuple(named), tuple(content[2 : 2 + items]), tuple(ends), packed)

    def item_rows(self) -> list[tuple[str, str]]:
        """The rows of `items.csv`."""
        return [(name, ";".join(_kinds(own, self.kinds))) for name, own in zip(self.names, self.items)]

    def link_rows(self) -> list[tuple[str, str, str]]:
        """The rows of `links.csv`."""
        return [(self.names[start], self.names[end], self.kinds.links.name(kind)) for start, end, kind in self.links]


class Sheet(NamedTuple):
    """What a pattern lists on a record, with the names of its items: for each link of the pattern its pairs."""

    pattern: Pattern
    names: tuple[str, ...]  # those of the record's items
    lists: tuple[Pairs, ...]
    packed: bytes

    @classmethod
    def unpack(cls, packed: bytes, pattern: Pattern, called: Sequence[str]) -> Sheet:
        lists, _ = lists_of(calls.read_sheet(pattern.packed, packed), 0, len(pattern.links))
        return cls(pattern, tuple(called), lists, packed)

    @property
    def pairs(self) -> int:
        return sum(map(len, self.lists))

    def cells(self) -> Iterable[tuple[Any, ...]]:
        """A row for each pair, in the order of the columns of results."""
        lists = []
        for number, ((start, end, kind), pairs) in enumerate(zip(self.pattern.links, self.lists)):
            alike = self.pattern.kinds.links.name(kind), self.pattern.called(start), self.pattern.called(end), number
            lists.append(zip(*map(self._named, zip(*pairs)), *(repeat(one, len(pairs)) for one in alike)))
        return chain.from_iterable(lists)

    def rows(self) -> list[dict[str, Any]]:
        """The same: its items, the kind of the link, and what they stand for in the pattern, by the columns' names."""
        return [dict(zip(COLUMNS, cells)) for cells in self.cells()]

    def _named(self, numbers: Sequence[int]) -> Iterable[str]:
        if max(numbers) < len(self.names):
            return map(self.names.__getitem__, numbers)
        return (self.names[number] if number < len(self.names) else str(number) for number in numbers)


class Book(NamedTuple):
    """A sheet for each extract of a catalogue, in its order, and the packed bytes of all."""

    sheets: tuple[Sheet, ...]
    names: tuple[str, ...]  # those of the record's items
    packed: bytes

    @classmethod
    def unpack(cls, packed: bytes, catalogue: Catalogue, called: Sequence[str]) -> Book:
        content = calls.read_book(catalogue.packed, packed)
        at, sheets = 0, []
        for extract in catalogue.extracts:
            begin = at
            lists, at = lists_of(content, at, len(extract.pattern.links))
            own = calls.write_sheet(extract.pattern.packed, content[begin:at])
            sheets.append(Sheet(extract.pattern, tuple(called), lists, own))
        return cls(tuple(sheets), tuple(called), packed)


def lists_of(content: Sequence[int], at: int, links: int) -> tuple[tuple[Pairs, ...], int]:
    """The lists of a sheet whose content begins there, and where it ends."""
    if not content[at]:
        return ((),) * links, at + 1
    lists = []
    at += 1
    for _ in range(links):
        end = at + 1 + 2 * content[at]
        lists.append(tuple(zip(content[at + 1 : end : 2], content[at + 2 : end : 2])))
        at = end
    return tuple(lists), at


def _as_table(name: str, columns: Sequence[str], rows: Sequence[Sequence[str]]) -> Table:
    return Table(name, 0, columns, [0] * len(rows), dict(zip(columns, zip(*rows))))


def read(items: Table, links: Table, kinds: Kinds, wrong: list[Fault]) -> Record | None:
    """The record of two tables; None where something is wrong with them."""
    before = len(wrong)
    called, cells = items.column("item"), items.column("kinds")
    numbers = dict(zip(called, range(len(called))))
    sets: dict[str, int | None] = {cell: _kinds_of(cell, kinds) for cell in set(cells)}
    if len(numbers) < len(called) or not names.all_seen(numbers) or None in sets.values():
        _wrong_items(items, kinds, wrong)
    found = _links(links, numbers, kinds)
    if found is None:
        _wrong_links(links, items.file, numbers, kinds, wrong)
    if len(wrong) > before or found is None:
        return None
    own = [sets[cell] or 0 for cell in cells]
    ascending = sorted(found)  # plain tuples, which are sorted faster than those with names
    try:
        packed = calls.write_record([len(own), len(ascending), *own, *chain.from_iterable(ascending)])
    except calls.Refused as refused:
        wrong += explain.of_record(refused, items, links, found)
        return None
    return Record(kinds, tuple(numbers), tuple(own), tuple(map(Ends._make, ascending)), packed)


def _kinds_of(cell: str, kinds: Kinds) -> int | None:
    """The kinds that a cell names, as a set; None where something is wrong with it."""
    numbers = [kinds.items.number(part) for part in _parts(cell)]
    if None in numbers or len(set(numbers)) < len(numbers):
        return None
    return sum(1 << number for number in numbers if number is not None)


def _parts(cell: str) -> list[str]:
    return list(filter(None, map(str.strip, cell.split(";"))))


def _links(links: Table, numbers: Mapping[str, int], kinds: Kinds) -> list[tuple[int, int, int]] | None:
    """The links of a table, in its order; None where something is wrong with one."""
    try:
        starts, ends = (map(numbers.__getitem__, links.column(side)) for side in ("from", "to"))
        return list(zip(starts, ends, map(kinds.links.numbers.__getitem__, links.column("kind"))))
    except KeyError:
        return None


def _wrong_items(items: Table, kinds: Kinds, wrong: list[Fault]) -> None:
    """What is wrong with a table of items, row by row."""
    lines: dict[str, int] = {}
    for row in items.rows:
        name = row["item"]
        twice = f"item {names.quoted(name)} stands on line {lines.get(name)} already" if name in lines else None
        fault = names.unseen(name) or twice
        if fault:
            wrong.append(row.fault(fault))
        lines.setdefault(name, row.line)
        _wrong_kinds(row, kinds, wrong)


def _wrong_kinds(row: Row, kinds: Kinds, wrong: list[Fault]) -> None:
    """What is wrong with a cell of kinds."""
    found = []
    for part in _parts(row["kinds"]):
        if kinds.items.number(part) is None:
            message = kinds.items.unknown(Word(part, row.place), hint=len(wrong) < faults.SHOWN)
            wrong.append(row.fault(f'column "kinds": {message}'))
        elif part in found:
            wrong.append(row.fault(f'column "kinds": {names.quoted(part)} stands there twice'))
        found.append(part)


def _wrong_links(links: Table, of: str, numbers: Mapping[str, int], kinds: Kinds, wrong: list[Fault]) -> None:
    """What is wrong with a table of links, row by row."""
    unknown: dict[str, str] = {}
    for row in links.rows:
        for side in ("from", "to"):
            if row[side] not in numbers:
                message = unknown.get(row[side]) or unknown_item(row[side], of, numbers, len(unknown) < HINTS)
                unknown[row[side]] = message
                wrong.append(row.fault(f'column "{side}": {message}'))
        if kinds.links.number(row["kind"]) is None:
            message = kinds.links.unknown(Word(row["kind"], row.place), hint=len(wrong) < faults.SHOWN)
            wrong.append(row.fault(f'column "kind": {message}'))


def unknown_item(name: str, file: str, there: Iterable[str], hint: bool = True) -> str:
    """What to say of a name that no item has."""
    if not name:
        return "the name of an item is wanted"
    near = names.near(name, there) if hint else None
    offer = f"; did you mean {names.quoted(near)}?" if near else ""
    return f"there is no item {names.quoted(name)} in {names.plain(file, cut=False)}{offer}"


def _kinds(own: int, kinds: Kinds) -> list[str]:
    return [kinds.items.name(number) for number in range(own.bit_length()) if own >> number & 1]
