"""A picture as its file has it: words with their places, before a kind is looked up. And the same as a table."""

from __future__ import annotations

from typing import Iterable, NamedTuple

from .faults import Fault, Place
from .names import quoted
from .tables import Row

WANTED, OPTIONAL = ("from", "kind", "to"), ("from kind", "to kind")
"""The columns of a table of links that stands for a picture."""


class Word(NamedTuple):
    text: str
    place: Place
    bare: bool = False  # without quotes


class Item(NamedTuple):
    name: str
    place: Place
    kind: Word


class Link(NamedTuple):
    start: int
    end: int
    place: Place
    kind: Word | None  # None where the picture has no word for it


class Sketch(NamedTuple):
    file: str
    items: tuple[Item, ...]
    links: tuple[Link, ...]


def of_rows(file: str, rows: Iterable[Row], faults: list[Fault]) -> Sketch:
    """The picture that a table of links stands for. An item whose kind is said nowhere has its name as kind."""
    places: dict[str, Place] = {}
    kinds: dict[str, Word] = {}
    links: list[tuple[Row, str, str]] = []
    for row in rows:
        for side in ("from", "to"):
            name, kind = row[side], Word(row[side + " kind"], row.place)
            if not name:
                faults.append(row.fault(f'column "{side}": the name of an item is wanted'))
            places.setdefault(name, row.place)
            said = kinds.setdefault(name, kind) if kind.text else kind
            if said.text != kind.text:
                message = f"{quoted(name)} has the kind {quoted(said.text)} on line {said.place.line}"
                faults.append(row.fault(f'column "{side} kind": {message}'))
        links.append((row, row["from"], row["to"]))
    numbers = {name: number for number, name in enumerate(places)}
    return Sketch(
        file,
        tuple(Item(name, place, kinds.get(name, Word(name, place))) for name, place in places.items()),
        tuple(
            Link(numbers[start], numbers[end], row.place, Word(row["kind"], row.place) if row["kind"] else None)
            for row, start, end in links
        ),
    )
