"""The commands on records: packing, searching, showing, books and answers."""

from __future__ import annotations

import argparse
import os
from typing import Mapping, Sequence

from . import files, packed, results, tables
from .calls import Refused
from .campaign import Campaign
from .cli import DONE, Said, campaign_of, count, names_of
from .faults import Fault, Faults, Place
from .folder import Read
from .names import padded, plain, tidy, width
from .packing import Pattern
from .records import ITEM_COLUMNS, LINK_COLUMNS, Record, Sheet


def pack(options: argparse.Namespace) -> Said:
    with files.locked(options.folder):
        campaign = campaign_of(options, question=Read.IF_THERE, record=Read.IF_THERE, several=True)
        made, entries = packed.packed_files(campaign)
        _put_packed(options, made, entries)
    sizes = {files.within(options.folder, packed.FOLDER, name): len(data) for name, data in made.items()}
    lines = [f"{plain(path, cut=False)} {count(size, 'byte')}" for path, size in sizes.items()]
    return DONE, lines, {"files": [{"file": path, "bytes": size} for path, size in sizes.items()]}


def book(options: argparse.Namespace) -> Said:
    with files.locked(options.folder):
        campaign = campaign_of(options, question=Read.NOT, record=Read.WANTED)
        made = campaign.make_book()
        extracts = [extract.name for extract in campaign.catalogue.extracts]
        lists = {f"lists/{name}.csv": results.encode(sheet.cells()) for name, sheet in zip(extracts, made.sheets)}
        packed_files, entries = packed.packed_files(campaign)
        packed_files["book"] = made.packed
        entries["book"] = packed.of_book(made, campaign.catalogue, campaign.record)
        _put_packed(options, packed_files, entries, lists, ["lists"])
    pairs = [sheet.pairs for sheet in made.sheets]
    columns = max(map(width, extracts), default=0)
    lines = [f"{padded(name, columns)}  {count(number, 'pair')}" for name, number in zip(extracts, pairs)]
    values = [{"extract": name, "pairs": number} for name, number in zip(extracts, pairs)]
    return (
        DONE,
        [*lines, f"book {len(made.packed):,} of 65,536 bytes"],
        {"extracts": values, "bytes": len(made.packed)},
    )


def answer(options: argparse.Namespace) -> Said:
    campaign = campaign_of(options, several=True)
    extracts = _extracts(options, campaign)
    if campaign.questions:
        return _several(options, campaign, extracts)
    path = _output(options, "answer.csv")
    if options.lists is None:
        sheet, by = campaign.answer(extracts), campaign.chosen(extracts)
    else:
        sheet, by = campaign.answer_by_lists(options.lists, extracts)
    _write(options, path, sheet)
    line = f"{count(sheet.pairs, 'pair')} from {names_of(by)}"
    return DONE, [line], {"file": path, "pairs": sheet.pairs, "extracts": list(by)}


def made_of(folder: str, campaign: Campaign, questions: Sequence[Pattern]) -> dict[str, str]:
    """What `status` says of a campaign's book and answer, and the digests of what they are made of."""
    return {
        "book": packed.book_stands(folder, campaign.catalogue, campaign.kinds),
        "answer": _answer_stands(folder, campaign),
        "question digest": packed.digest(b"".join(question.packed for question in questions)),
        "catalogue digest": packed.digest(campaign.catalogue.packed),
    }


def _answer_stands(folder: str, campaign: Campaign) -> str:
    """Whether there is an answer, and it is the one that the book gives now."""
    name = "answers" if campaign.questions else "answer.csv"
    if not os.path.lexists(files.within(folder, name)):
        return "none"
    try:
        if campaign.questions:
            sheets = {name: sheet for group in campaign.answer_several() for name, sheet in group.sheets.items()}
            same = files.all_stand(folder, _answers(sheets), whole=["answers"])
        else:
            same = files.stands(files.within(folder, name), results.encode(campaign.answer().cells()))
    except (Faults, Refused):
        same = False
    return "made" if same else "other"


def _answers(sheets: Mapping[str, Sheet]) -> dict[str, bytes]:
    return {f"answers/{name}.csv": results.encode(sheet.cells()) for name, sheet in sheets.items()}


def _several(options: argparse.Namespace, campaign: Campaign, extracts: list[str] | None) -> Said:
    """Answers each question in `questions/`: a file for each in `answers/`."""
    if options.output:
        raise Faults([Fault(Place("-o"), "several questions have their answers in answers/")])
    lines, values = [], []
    made: dict[str, bytes] = {}
    for group in campaign.answer_several(extracts, options.lists):
        made.update(_answers(group.sheets))
        for name, sheet in group.sheets.items():
            lines.append(f"{plain(name)}: {count(sheet.pairs, 'pair')}")
            file = files.within(options.folder, "answers", f"{name}.csv")
            values.append({"question": name, "file": file, "pairs": sheet.pairs})
        lines.append(f"{count(len(group.sheets), 'question')} from {count(group.lists, 'list')}")
    with files.locked(options.folder):
        files.put(options.folder, made, whole=["answers"], again=options.again)
    return DONE, lines, {"answers": values}


def _extracts(options: argparse.Namespace, campaign: Campaign) -> list[str] | None:
    """The extracts that are named: a word is a name, or names with commas between them."""
    if options.extracts is None:
        return None
    there = {extract.name for extract in campaign.catalogue.extracts}
    parts = [[word] if tidy(word) in there else word.split(",") for word in options.extracts]
    return [tidy(name) for part in parts for name in part if tidy(name)]


def search(options: argparse.Namespace) -> Said:
    path = _output(options, "sheet.csv")
    campaign = campaign_of(options, record=Read.WANTED)
    sheet = campaign.search(packed.read_index(options.folder) if options.indexed else None)
    _write(options, path, sheet)
    return DONE, [count(sheet.pairs, "pair")], {"file": path, "pairs": sheet.pairs}


def show(options: argparse.Namespace) -> Said:
    with files.locked(options.folder):
        campaign = campaign_of(options)
        said = campaign.show(options.day, options.any_day)
        made = {**_record_files("first", said.first), **_record_files("second", said.second)}
        files.put(options.folder, made, whole=("first", "second"))
    names = [files.within(options.folder, name) for name in ("first", "second")]
    line = "no link of the question is lacking"
    if said.lacking is not None:
        line = f"{plain(names[1], cut=False)} lacks link {said.lacking}, {campaign.question.link(said.lacking)}"
    return DONE, [line], {"folders": names, "link": said.lacking, "day": said.day.isoformat() if said.day else None}


def _record_files(folder: str, record: Record) -> dict[str, bytes]:
    return {
        f"{folder}/items.csv": tables.write(ITEM_COLUMNS, record.item_rows()),
        f"{folder}/links.csv": tables.write(LINK_COLUMNS, record.link_rows()),
    }


def _put_packed(
    options: argparse.Namespace,
    made: Mapping[str, bytes],
    entries: Mapping[str, packed.Entry],
    other: Mapping[str, bytes] = {},
    whole: Sequence[str] = (),
) -> None:
    """Puts packed files in their places together with what `names.json` says of them, and others with them."""
    together = {f"{packed.FOLDER}/{name}": data for name, data in made.items()}
    together[packed.NAMES] = packed.Names(options.folder).write(entries)
    removed = [f"{packed.FOLDER}/{name}" for name in packed.TEXTS if name not in made]
    catalogue = made.get("catalogue", b"")

    def judge(path: str, data: bytes) -> bool:
        return packed.read_back(path, data, catalogue)

    files.put(options.folder, {**together, **other}, whole, removed, judge, options.again)


def _output(options: argparse.Namespace, name: str) -> str:
    """The file that a result is written to: the one that is named, or else that of its own name in the folder."""
    path = str(options.output or files.within(options.folder, name))
    results.judge(path)
    return path


def _write(options: argparse.Namespace, path: str, sheet: Sheet) -> None:
    """Writes a result to its file. Where those of several folders go to one, it is left to who gathers them."""
    if options.gathers:
        options.rows = sheet.cells()
    else:
        files.write(path, results.encode(sheet.cells(), path), options.again)
