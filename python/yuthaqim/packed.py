"""`packed/`: a campaign's packed files under the names that `bin/` uses, and beside them `names.json` with what bytes
don't hold: for each file its digest and the names of its items, and the names of kinds as they were."""

from __future__ import annotations

import hashlib
import json
import os
import struct
import sys
from array import array
from typing import TYPE_CHECKING, Any, Iterable, Mapping, Sequence

from . import calls
from .faults import Fault, Faults, Place, Unreadable
from .files import read, within
from .kinds import Kinds
from .names import quoted
from .packing import Catalogue, Pattern
from .records import Book, Record

if TYPE_CHECKING:
    from .campaign import Campaign

FOLDER, NAMES = "packed", "packed/names.json"
FORMAT = 1

_BYTES, _NAMES_BYTES = 1 << 20, 16 << 20  # a longer file is none of ours

Entry = dict[str, Any]

_KINDS = {"items": {str: int}, "links": {str: int}}
_SHAPES: dict[str, Any] = {
    "question": {"sha256": str, "items": [str], "kinds": _KINDS},
    "catalogue": {"sha256": str, "extracts": [{"extract": str, "items": [str]}], "kinds": _KINDS},
    "record": {"sha256": str, "items": [str], "kinds": _KINDS},
    "book": {
        "sha256": str,
        "items": [str],
        "kinds": _KINDS,
        "catalogue": str,
        "one-way": int,
        "record": str,
        "extracts": [{"extract": str, "sha256": str, "one-way": bool}],
    },
}


_RUNNING = {"mark": str, "links": int, "change": int, "slip": [int]}


def _counts(running: Entry) -> bool:
    """Whether the numbers of a running state are ones that the library takes."""
    numbers = [running["links"], running["change"], *running["slip"]]
    return len(running["slip"]) in (0, 4) and all(0 <= number < 1 << 32 for number in numbers)


def digest(data: bytes) -> str:
    return hashlib.sha256(data).hexdigest()


def fits(value: Any, shape: Any) -> bool:
    """Whether a value out of a JSON file has this shape: a type, a list of one, names with theirs, or any names."""
    if isinstance(shape, list):
        if isinstance(shape[0], type):
            return isinstance(value, list) and {shape[0]}.issuperset(map(type, value))
        return isinstance(value, list) and all(fits(one, shape[0]) for one in value)
    if isinstance(shape, dict) and str in shape:
        return isinstance(value, dict) and all(fits(one, shape[str]) for one in value.values())
    if isinstance(shape, dict):
        return isinstance(value, dict) and all(name in value and fits(value[name], shape[name]) for name in shape)
    return type(value) is shape


class Names:
    """What `names.json` says. A file that is lost, or isn't ours, says nothing."""

    def __init__(self, folder: str):
        self.files: dict[str, Entry] = {}
        self.running: Entry | None = None  # the state beside the record, and what was asked last
        path = os.path.join(folder, NAMES)
        if os.path.isfile(path):
            try:
                data = read(path, _NAMES_BYTES)
                said = json.loads(data)
                if b"\\u" in data:  # half a character can be escaped there, and not written
                    json.dumps(said, ensure_ascii=False).encode()
            except (ValueError, RecursionError, Unreadable):
                return
            if fits(said, {"format": int, "files": {str: {"sha256": str}}}) and said["format"] == FORMAT:
                of_ours = ((name, entry, _SHAPES.get(name, {})) for name, entry in said["files"].items())
                self.files = {name: entry for name, entry, shape in of_ours if fits(entry, shape)}
                if "running" in said and fits(said["running"], _RUNNING) and _counts(said["running"]):
                    self.running = said["running"]

    def of(self, name: str, data: bytes) -> Entry | None:
        """What is said of a packed file with these bytes."""
        entry = self.files.get(name)
        return entry if entry and entry["sha256"] == digest(data) else None

    def write(self, entries: Mapping[str, Entry], running: Entry | None = None) -> bytes:
        """The file with these entries in the place of those that there were."""
        said = {**self.files, **entries}
        # A line for each file: with an indent for all, as many thousands of names take many times as long.
        files = ",\n".join(f"  {_json(name)}: {_json(entry)}" for name, entry in said.items())
        state = f',\n "running": {_json(running or self.running)}' if running or self.running else ""
        return f'{{\n "format": {FORMAT},\n "files": {{\n{files}\n }}{state}\n}}\n'.encode()


def _json(value: Any) -> str:
    return json.dumps(value, ensure_ascii=False)


def of_question(question: Pattern) -> Entry:
    return {"sha256": digest(question.packed), "items": question.item_names(), "kinds": question.kinds.numbered()}


def of_questions(questions: Mapping[str, Pattern], packed: bytes) -> Entry:
    named = [{"question": name, **of_question(question)} for name, question in questions.items()]
    return {"sha256": digest(packed), "questions": named}


def of_catalogue(catalogue: Catalogue, kinds: Mapping[str, Mapping[str, int]]) -> Entry:
    extracts = [{"extract": one.name, "items": one.pattern.item_names()} for one in catalogue.extracts]
    return {"sha256": digest(catalogue.packed), "extracts": extracts, "kinds": kinds}


def of_record(record: Record) -> Entry:
    return {"sha256": digest(record.packed), "items": list(record.names), "kinds": record.kinds.numbered()}


def of_book(book: Book, catalogue: Catalogue, record: Record) -> Entry:
    return {
        **of_record(record),
        "sha256": digest(book.packed),
        "catalogue": digest(catalogue.packed),
        "one-way": catalogue.one_way,
        "record": digest(record.packed),
        "extracts": _pictures(catalogue),
    }


def _pictures(catalogue: Catalogue) -> list[Entry]:
    return [
        {"extract": one.name, "sha256": digest(one.pattern.packed), "one-way": one.one_way}
        for one in catalogue.extracts
    ]


def read_packed(folder: str, name: str) -> bytes | None:
    """The bytes of a packed file; None where it isn't there."""
    try:
        return read(within(folder, FOLDER, name), _BYTES)
    except FileNotFoundError:
        return None
    except Unreadable as unreadable:
        raise Faults([unreadable.fault]) from None


def read_book(folder: str, catalogue: Catalogue, kinds: Kinds) -> tuple[bytes, list[str]]:
    """The book that was made with this catalogue, and the names of the items as they were then."""
    place = Place(within(folder, FOLDER, "book"))
    data = read_packed(folder, "book")
    if data is None:
        raise Faults([Fault(place, "there is no book; make it with yuthaqim book")])
    entry = Names(folder).of("book", data)
    again = "make it again with yuthaqim book"
    if entry is None:
        raise Faults([Fault(place, f"names.json doesn't say what it was made with; {again}")])
    other = _other_kind(entry["kinds"], catalogue, kinds) or _other_catalogue(entry, catalogue)
    if other:
        raise Faults([Fault(place, f"was made with another catalogue ({other}): {again}", between=" ")])
    return data, entry["items"]


def book_stands(folder: str, catalogue: Catalogue, kinds: Kinds) -> str:
    """Whether there is a book, and it is of this catalogue."""
    if not os.path.lexists(within(folder, FOLDER, "book")):
        return "none"
    try:
        read_book(folder, catalogue, kinds)
    except Faults:
        return "other catalogue"
    return "made"


def _other_kind(then: Mapping[str, Mapping[str, int]], catalogue: Catalogue, kinds: Kinds) -> str | None:
    """Which kind of the catalogue has another number than the name of it had then, if one does."""
    patterns = [extract.pattern for extract in catalogue.extracts]
    used = {
        "items": (kinds.items, {kind for pattern in patterns for kind in pattern.items}),
        "links": (kinds.links, {link.kind for pattern in patterns for link in pattern.links}),
    }
    for of, (naming, numbers) in used.items():
        for number in sorted(numbers):
            name = naming.name(number)
            if then[of].get(name, number) != number:
                return f"the kind {quoted(name)} had the number {then[of][name]}"
    return None


def _other_catalogue(entry: Entry, catalogue: Catalogue) -> str | None:
    """What is another in the catalogue than it was for the book, if anything is."""
    if entry["catalogue"] == digest(catalogue.packed) and entry["one-way"] == catalogue.one_way:
        return None
    then = {one["extract"]: one for one in entry["extracts"]}
    now = {one["extract"]: one for one in _pictures(catalogue)}
    for name in now:
        if name not in then:
            return f"{name} is new"
    for name in then:
        if name not in now:
            return f"{name} is gone"
    for name, one in now.items():
        if one["sha256"] != then[name]["sha256"]:
            return f"{name} is another picture"
        if one["one-way"] != then[name]["one-way"]:
            return f"{name} is {'' if one['one-way'] else 'not '}one-way"
    return "its order is another"


def packed_files(campaign: Campaign) -> tuple[dict[str, bytes], dict[str, Entry]]:
    """The packed files of all that was read of a campaign, and what `names.json` says of them."""
    catalogue = campaign.catalogue
    files = {"catalogue": catalogue.packed, **catalogue_texts(catalogue)}
    entries = {"catalogue": of_catalogue(catalogue, campaign.kinds.numbered())}
    if campaign.has_question:
        files["question"] = campaign.question.packed
        entries["question"] = of_question(campaign.question)
    if campaign.questions:
        files["questions"] = b"".join(question.packed for question in campaign.questions.values())
        files["number"] = _lines([len(campaign.questions)])
        entries["questions"] = of_questions(campaign.questions, files["questions"])
    if campaign.has_record:
        files["record"] = campaign.record.packed
        files["index"] = index_bytes(calls.make_index(campaign.record.packed))
        entries["record"] = of_record(campaign.record)
    return files, entries


def catalogue_texts(catalogue: Catalogue) -> dict[str, bytes]:
    """The text files beside a catalogue: its charges, its terms, its set of extracts that are matched one-way."""
    found = {}
    charges = [extract.charge for extract in catalogue.extracts if extract.charge is not None]
    if charges and len(charges) == len(catalogue.extracts):
        found["charges"] = _lines(charges)
    if catalogue.terms:
        found["terms"] = _lines(f"{term.start} {term.end}" for term in catalogue.terms)
    if catalogue.one_way:
        found["one_way"] = _lines(number for number, extract in enumerate(catalogue.extracts) if extract.one_way)
    return found


TEXTS = ("charges", "terms", "one_way")
"""Those of a catalogue: one that it doesn't have any more is removed."""


def read_back(path: str, data: bytes, catalogue: bytes) -> bool:
    """Whether a packed file is one to the library, which writes what it reads there as the same bytes."""
    name = os.path.basename(path) if path.startswith(FOLDER + "/") else ""
    try:
        if name == "question":
            return calls.write_pattern(calls.read_pattern(data)) == data
        if name == "catalogue":
            return calls.write_catalogue(calls.read_catalogue(data)) == data
        if name == "record":
            return calls.write_record(calls.read_record(data)) == data
        if name == "book":
            return calls.write_book(catalogue, calls.read_book(catalogue, data)) == data
        return True
    except calls.Refused:
        return False


def index_bytes(index: Sequence[int]) -> bytes:
    """An index as its file has it: 16 bits for each entry, the most significant byte first."""
    entries = array("H", index)
    if sys.byteorder == "little":
        entries.byteswap()
    return entries.tobytes()


def read_index(folder: str) -> list[int]:
    """The index that `pack` has made."""
    place = Place(within(folder, FOLDER, "index"))
    data = read_packed(folder, "index")
    if data is None:
        raise Faults([Fault(place, "there is no such file; yuthaqim pack makes it")])
    if len(data) % 2:
        raise Faults([Fault(place, "half an entry stands at its end; make it again with yuthaqim pack")])
    return list(struct.unpack(f">{len(data) // 2}H", data))


def _lines(values: Iterable[object]) -> bytes:
    return "".join(f"{value}\n" for value in values).encode()
