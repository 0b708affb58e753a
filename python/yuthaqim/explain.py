"""What a refusal means: a sentence for each number, and the place, found after the library has refused."""

from __future__ import annotations

from datetime import date
from typing import TYPE_CHECKING, Sequence

from .days import day
from .faults import Fault, Place
from .names import plain, quoted

if TYPE_CHECKING:
    from .calls import Refused
    from .packing import Extract
    from .sketches import Sketch
    from .tables import Row, Table

_FILES = {1: "the question", 2: "the catalogue", 3: "the record", 4: "the book"}

_SENTENCES = {
    1: "{file} is longer than such a file can be",
    2: "{file} ends before its last field does",
    3: "{file} has a number that is out of its range",
    4: "{file} has a link with an end that is none of its items",
    5: "{file} has a link that stands twice",
    6: "{file} has a link or a pair that does not come after the one before it",
    7: "{file} has an item that is at no link",
    8: "{file} has a sheet with an empty list among its lists",
    9: "{file} goes on after its end, or its last bits are not zero",
    10: "the extracts list over 8,192 different pairs together: no book can have them; the question needs its search",
    11: "uncovered: no extract matches link {detail}",
    12: "{detail:,} bytes are needed, and no such file may be so long",
    13: "the question is covered: there is nothing to show",
    14: "fewer than 16,384 words were lent to work in",
    15: "there are {detail} charges, and the catalogue has another number of extracts",
    16: "packed/index is not the index of packed/record; make it again with yuthaqim pack",
    17: "{detail} questions were sent, and in one call one to eight are answered",
    18: "there are {detail} terms, and the catalogue has another number of extracts, or term {detail} is none",
    19: "the set names an extract that isn't in the catalogue",
    20: "the record has changed since this was asked (now change {detail}): ask again",
    21: "the change number is {detail}, and no other follows it",
}

_ITEMS, _LINKS, _EXTRACTS = 16, 32, 16
_RECORD_ITEMS, RECORD_LINKS = 4_096, 8_192


def sentence(number: int, detail: int) -> str:
    """What a refusal means where nothing more is known.

    >>> sentence(2, 4)
    'the book ends before its last field does'
    """
    return _SENTENCES[number].format(file=_FILES.get(detail, ""), detail=detail)


def of_picture(refused: Refused, sketch: Sketch) -> list[Fault]:
    """What is wrong with a picture that the library refuses to pack."""
    found: list[Fault] = []
    if refused.number == 3:
        if len(sketch.items) > _ITEMS:
            item = sketch.items[_ITEMS]
            message = f"{quoted(item.name)} is item {_ITEMS + 1}; a picture has at most {_ITEMS}"
            found.append(Fault(item.place, message))
        elif len(sketch.links) > _LINKS:
            message = f"this is link {_LINKS + 1}; a picture has at most {_LINKS}"
            found.append(Fault(sketch.links[_LINKS].place, message))
        elif not sketch.links:
            found.append(Fault(Place(sketch.file), "no link is drawn"))
    elif refused.number == 5:
        lines: dict[tuple[int, int, str], int] = {}
        for link in sketch.links:
            key = link.start, link.end, link.kind.text if link.kind else ""
            if key in lines:
                found.append(Fault(link.place, f"this link stands on line {lines[key]} already"))
            lines.setdefault(key, link.place.line)
    elif refused.number == 7:
        linked = {end for link in sketch.links for end in (link.start, link.end)}
        for number, item in enumerate(sketch.items):
            if number not in linked:
                found.append(Fault(item.place, f"no link leads to or from {quoted(item.name)}"))
    return found or [Fault(Place(sketch.file), refused.sentence)]


def of_extracts(refused: Refused, extracts: Sequence[tuple[str, Place]]) -> Fault:
    """What is wrong with a table of extracts whose number the library refuses."""
    name, place = extracts[min(_EXTRACTS, len(extracts) - 1)]
    if refused.number == 3:
        return Fault(place, f"{quoted(name)} is extract {_EXTRACTS + 1}; a catalogue has at most {_EXTRACTS}")
    return Fault(Place(place.file), refused.sentence)


def of_terms(refused: Refused, extracts: Sequence[Extract]) -> Fault:
    """What is wrong with the terms that the library refuses: the detail says which."""
    extract = extracts[min(refused.detail, len(extracts) - 1)]
    start, end = map(day, extract.term or (0, 0))
    if start < end:  # it isn't this one
        return Fault(Place(extract.place.file), refused.sentence)
    return Fault(extract.place, f"{quoted(extract.name)} ends on {end} and begins on {start}")


def of_record(refused: Refused, items: Table, links: Table, ends: Sequence[tuple[int, int, int]]) -> list[Fault]:
    """What is wrong with the tables of a record that the library refuses to pack."""
    found: list[Fault] = []
    if refused.number == 3:
        for table, of, most in ((items, "items", _RECORD_ITEMS), (links, "links", RECORD_LINKS)):
            if len(table.rows) > most:
                message = f"{len(table.rows):,} {of}; a record has at most {most:,}"
                found.append(Fault(Place(table.file), message))
    elif refused.number == 6:
        lines: dict[tuple[int, int, int], int] = {}
        for row, link in zip(links.rows, ends):
            if link in lines:
                said = f'{plain(row["from"])} -[{row["kind"]}]-> {plain(row["to"])}'
                found.append(row.fault(f"the link {said} stands on line {lines[link]} already"))
            lines.setdefault(link, row.line)
    return found or [Fault(Place(links.file), refused.sentence)]


def uncovered(refused: Refused, link: str, on: date | None) -> str:
    """Why a set that covers the question can't be had; the detail is the link that none matches."""
    if on:
        return f"uncovered on {on}: no extract in force matches link {refused.detail}, {link}"
    return f"uncovered: no extract matches link {refused.detail}, {link}"


def unmatched(refused: Refused, link: str, extracts: Sequence[str]) -> str:
    """Why these extracts don't answer the question; the detail is the link that they leave."""
    if not extracts:
        return f"no extract is named, and link {refused.detail} is unmatched: {link}"
    verb = "leaves" if len(extracts) == 1 else "leave"
    return f"{', '.join(map(plain, extracts))} {verb} link {refused.detail} unmatched: {link}"


def of_lists(
    refused: Refused, folder: str, items: int, lists: Sequence[tuple[Extract, Sequence[tuple[Row, tuple[int, ...]]]]]
) -> list[Fault]:
    """What is wrong with a client's lists that the library refuses to make a book of."""
    found: list[Fault] = []
    if refused.number == 3 and items > _RECORD_ITEMS:
        found.append(Fault(Place(folder), f"{items:,} items are named; a record has at most {_RECORD_ITEMS:,}"))
    for extract, rows in lists:
        lines: dict[tuple[int, ...], int] = {}
        for row, pair in rows:
            if refused.number == 6 and pair in lines:
                found.append(row.fault(f"this pair stands on line {lines[pair]} already"))
            lines.setdefault(pair, row.line)
        for link in range(len(extract.pattern.links)):
            if refused.number == 8 and rows and not any(pair[0] == link for pair in lines):
                said = f"link {link}, {extract.pattern.link(link)}, has no row, and a list has rows for each or none"
                found.append(Fault(Place(rows[0][0].file), said))
    return found


def of_book(refused: Refused) -> str:
    """Why no book is made: the detail of 12 is the bytes that its lists take."""
    if refused.number != 12:
        return refused.sentence
    return f"the lists take {refused.detail:,} bytes; a book has at most 65,536: the question needs its search"


def no_part(on: date | None) -> str:
    """Why no part of the question can be had."""
    if on:
        return f"uncovered on {on}: no extract in force matches any link of the question"
    return "uncovered: no extract matches any link of the question"
