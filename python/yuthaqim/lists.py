"""The lists that a client holds, as `book` writes them: a book of them, with the names that stand there numbered."""

from __future__ import annotations

import os
from typing import Collection, NamedTuple, Sequence

from . import calls, explain, tables
from .faults import Fault, Faults, Place, Unreadable
from .files import read, within
from .folder import BYTES
from .names import plain, quoted, tidy, unseen
from .packing import Catalogue, Extract, Pattern
from .results import COLUMNS
from .tables import Row

Numbered = tuple[int, int, int]  # a link of the pattern, and the numbers of a pair


class Held(NamedTuple):
    """The lists of some extracts; the others have none, and nothing is answered by them."""

    book: bytes
    names: tuple[str, ...]
    extracts: tuple[str, ...]


def read_lists(folder: str, catalogue: Catalogue, wanted: Collection[str] | None) -> Held:
    """The lists in a folder: those of the extracts that are wanted, or else all that stand there."""
    paths = _paths(folder)
    wrong: list[Fault] = []
    numbers: dict[str, int] = {}
    rows: list[list[tuple[Row, Numbered]]] = []
    held = []
    for extract in catalogue.extracts:
        rows.append([])
        if extract.name not in (paths if wanted is None else wanted):
            continue
        held.append(extract.name)
        if extract.name in paths:
            rows[-1] = _rows(paths[extract.name], extract, numbers, wrong)
        else:
            wrong.append(Fault(Place(within(folder, f"{extract.name}.csv")), "there is no such list"))
    if wrong:
        raise Faults(wrong)
    content = [field for extract, own in zip(catalogue.extracts, rows) for field in _content(extract.pattern, own)]
    try:
        book = calls.write_book(catalogue.packed, content)
    except calls.Refused as refused:
        found = explain.of_lists(refused, folder, len(numbers), list(zip(catalogue.extracts, rows)))
        if found:
            raise Faults(found) from None
        raise calls.Refused(refused.number, refused.detail, explain.of_book(refused)) from None
    return Held(book, tuple(numbers), tuple(held))


def _paths(folder: str) -> dict[str, str]:
    """Where the lists stand, by the names of their extracts."""
    if not os.path.isdir(folder):
        raise Faults([Fault(Place(folder), "there is no such folder")])
    files = sorted(file for file in os.listdir(folder) if file.endswith(".csv") and not file.startswith("."))
    return {tidy(file[: -len(".csv")]): within(folder, file) for file in files}


def _rows(path: str, extract: Extract, numbers: dict[str, int], wrong: list[Fault]) -> list[tuple[Row, Numbered]]:
    try:
        data = read(path, BYTES)
    except Unreadable as unreadable:
        wrong.append(unreadable.fault)
        return []
    table = tables.read(data, path, COLUMNS, wrong)
    found = []
    for row in table.rows if table else ():
        message = _fault(row, extract)
        if message:
            wrong.append(row.fault(message))
        else:
            pair = (numbers.setdefault(row[side], len(numbers)) for side in ("from", "to"))
            found.append((row, (int(row["link"]), *pair)))
    return found  # type: ignore[return-value]


def _fault(row: Row, extract: Extract) -> str | None:
    """What is wrong with a row: it says of a link what the extract's picture doesn't, or an item has no name."""
    pattern = extract.pattern
    link = tables.digits(row["link"], len(pattern.links) - 1)
    if link is None:
        most = len(pattern.links) - 1
        return f'column "link": {quoted(row["link"])} is no link of {plain(extract.name)}, 0 to {most}'
    start, end, kind = pattern.links[link]
    said = {"kind": pattern.kinds.links.name(kind), "from as": pattern.called(start), "to as": pattern.called(end)}
    for column, name in said.items():
        if row[column] != name:
            own = f"link {link} of {plain(extract.name)} has {quoted(name)} there: is this a list of another catalogue?"
            return f'column "{column}": {quoted(row[column])} stands here, and {own}'
    for side in ("from", "to"):
        message = unseen(row[side])
        if message:
            return f'column "{side}": {message}'
    return None


def _content(pattern: Pattern, rows: Sequence[tuple[Row, Numbered]]) -> list[int]:
    """The content of a sheet with these pairs."""
    if not rows:
        return [0]
    found = [1]
    for link in range(len(pattern.links)):
        pairs = sorted(pair for _, (own, *pair) in rows if own == link)
        found += [len(pairs), *(end for pair in pairs for end in pair)]
    return found
