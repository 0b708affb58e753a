"""First see, then enter: which extracts' lists a link would change, and then the link entered."""

from __future__ import annotations

import argparse
import json
from typing import Any

from . import calls, explain, files, packed, records, tables
from .campaign import Campaign
from .cli import DONE, Said, campaign_of, names_of
from .faults import Fault, Faults, Place
from .folder import BYTES, Read
from .names import plain, tidy
from .packing import Ends
from .records import Record
from .sketches import Word

LAST = 4_294_967_295  # the last change number


def ask(options: argparse.Namespace) -> Said:
    with files.locked(options.folder):
        campaign = campaign_of(options, question=Read.NOT, record=Read.WANTED)
        record = campaign.record
        link = _link(options, record)
        state = _state(packed.Names(options.folder).running, record)
        try:
            asked = calls.ask(*campaign.offered, record.packed, state, link)
        except calls.Refused as refused:
            raise _explained(refused, options.folder, record, link) from None
        running = _running(record, state, list(asked.slip))
        _put(options.folder, campaign, record, {}, running)
    changes = campaign.catalogue.named(asked.changes)
    return DONE, [f"changes  {names_of(changes)}"], {"link": _values(record, link), "changes": list(changes)}


def commit(options: argparse.Namespace) -> Said:
    with files.locked(options.folder):
        campaign = campaign_of(options, question=Read.NOT, record=Read.WANTED)
        record = campaign.record
        running = packed.Names(options.folder).running
        if not running or not running["slip"]:
            path = files.within(options.folder, packed.NAMES)
            raise Faults([Fault(Place(path), "no link was asked about; yuthaqim ask FROM TO KIND comes first")])
        state, slip = _state(running, record), calls.Slip(*running["slip"])
        link = Ends(*slip[:3])
        try:
            entered = calls.commit(record.packed, state, slip)
            asked = calls.ask(*campaign.offered, record.packed, state, link)
        except calls.Refused as refused:
            if refused.number == 20:
                said = f"the record has changed since this was asked (change {slip.change}, now {refused.detail}): ask again"
                raise calls.Refused(refused.number, refused.detail, said) from None
            raise _explained(refused, options.folder, record, link) from None
        after = Record.unpack(entered.record, record.kinds, record.names)
        table = _table(options.folder, after, link)
        _put(options.folder, campaign, after, {"links.csv": table}, _running(after, entered.state, []))
    changes = campaign.catalogue.named(asked.changes)
    lines = [f"entered     {_said(record, link)}", f"make again  {names_of(changes)}"]
    return DONE, lines, {"link": _values(record, link), "changes": list(changes), "change": entered.state.change}


def _link(options: argparse.Namespace, record: Record) -> Ends:
    """The link that the words of the command name."""
    numbers = {name: number for number, name in enumerate(record.names)}
    wrong, ends = [], []
    for word, name in (("FROM", tidy(options.start)), ("TO", tidy(options.end))):
        if name not in numbers:
            wrong.append(Fault(Place(word), records.unknown_item(name, "items.csv", numbers)))
        ends.append(numbers.get(name, 0))
    kind = record.kinds.links.number(tidy(options.kind))
    if kind is None:
        place = Place("KIND")
        wrong.append(Fault(place, record.kinds.links.unknown(Word(tidy(options.kind), place))))
    if wrong:
        raise Faults(wrong)
    return Ends(ends[0], ends[1], kind or 0)


def _mark(record: Record) -> str:
    """The digest of a record with its names: where one of them is another, the record has changed."""
    named = json.dumps([record.names, record.kinds.numbered()])
    return packed.digest(record.packed + named.encode())


def _state(running: packed.Entry | None, record: Record) -> calls.State:
    """The running state of the record. Where the tables were changed since, that is a change too."""
    if running is None:
        return calls.State(len(record.links), 1)
    if running["mark"] == _mark(record):
        return calls.State(running["links"], running["change"])
    return calls.State(len(record.links), min(running["change"] + 1, LAST))


def _running(record: Record, state: calls.State, slip: list[int]) -> packed.Entry:
    return {"mark": _mark(record), "links": state.links, "change": state.change, "slip": slip}


def _put(folder: str, campaign: Campaign, record: Record, other: dict[str, bytes], running: packed.Entry) -> None:
    """The packed record with its index, what `names.json` says of it, and the table with the link, together."""
    made = {"record": record.packed, "index": packed.index_bytes(calls.make_index(record.packed))}
    said = packed.Names(folder).write({"record": packed.of_record(record)}, running)
    together = {f"{packed.FOLDER}/{name}": data for name, data in made.items()}
    together[packed.NAMES] = said
    files.put(folder, {**together, **other}, judge=lambda path, data: packed.read_back(path, data, b""))


def _table(folder: str, after: Record, link: Ends) -> bytes:
    """`links.csv` with the link in a row at its end, which is read as the record with it."""
    path = files.within(folder, "links.csv")
    cells = dict(
        zip(records.LINK_COLUMNS, (after.names[link.start], after.names[link.end], after.kinds.links.name(link.kind)))
    )
    data = tables.with_row(files.read(path, BYTES), path, cells)
    wrong: list[Fault] = []
    table = tables.read(data, path, records.LINK_COLUMNS, wrong)
    rows = sorted(tuple(row[column] for column in records.LINK_COLUMNS) for row in (table.rows if table else ()))
    if rows != sorted(after.link_rows()):
        raise Faults([Fault(Place(path), "with a row for the link it isn't read as the record that has it")])
    return data


def _explained(refused: calls.Refused, folder: str, record: Record, link: Ends) -> Exception:
    """Why a link can't enter."""
    path = files.within(folder, "links.csv")
    if refused.number == 6 and link in record.links:
        return Faults([Fault(Place(path), f"the link {_said(record, link)} stands there already")])
    if refused.number == 3 and len(record.links) >= explain.RECORD_LINKS:
        message = f"{len(record.links):,} links; a record has at most {explain.RECORD_LINKS:,}"
        return Faults([Fault(Place(path), message)])
    return refused


def _said(record: Record, link: Ends) -> str:
    start, end = plain(record.names[link.start]), plain(record.names[link.end])
    return f"{start} -[{record.kinds.links.name(link.kind)}]-> {end}"


def _values(record: Record, link: Ends) -> dict[str, Any]:
    kind = record.kinds.links.name(link.kind)
    return {"from": record.names[link.start], "to": record.names[link.end], "kind": kind}
