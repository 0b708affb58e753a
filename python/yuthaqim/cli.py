"""The command `yuthaqim`: what the library says of a campaign, in lines for people or in one JSON object."""

from __future__ import annotations

import argparse
import gc
import io
import os
import sys
from datetime import date
from functools import cache
from typing import TYPE_CHECKING, Any, Callable, Iterator, NamedTuple, Sequence

from . import days
from .names import padded, plain, quoted, width

if TYPE_CHECKING:
    from .campaign import Campaign
    from .packing import Pattern
    from .records import Record

VERSION = "0.1.0"

DONE, UNCOVERED, WRONG, FAILED = 0, 1, 2, 3
"""The statuses: of a question that is covered, or isn't; of wrong files or words; of a system that fails."""

OTHERWISE = UNCOVERED
"""That of a page which says something else than the library."""

_SAMPLES = ("sample", "../../samples/people")  # in a wheel within the package, else beside it

_OVERVIEW = ("campaign", "question", "covered", "extracts", "book", "answer", "question digest", "catalogue digest")

Said = tuple[int, list[str], dict[str, Any]]
"""What a command has to say: its status, its lines, and the same as values."""


def main(arguments: Sequence[str]) -> int:
    gc.disable()  # a command ends before it pays to look for what could be freed
    try:
        return _main(arguments)
    finally:
        gc.enable()


def _main(arguments: Sequence[str]) -> int:
    for stream in (sys.stderr, sys.stdout):
        if not isinstance(stream, io.TextIOWrapper):  # it is closed
            return FAILED
        stream.reconfigure(encoding="utf-8", errors="backslashreplace", newline="\n")
    try:
        status = run(arguments)
        sys.stdout.flush()
        return status
    except OSError as error:
        os.dup2(os.open(os.devnull, os.O_WRONLY), sys.stdout.fileno())  # what is still to be printed isn't
        if isinstance(error, BrokenPipeError):  # who reads has read enough
            return DONE
        tell(f"yuthaqim: standard output: {error.strerror}")
        return FAILED
    except KeyboardInterrupt:
        return 128 + 2  # as of a process that the signal ends


def script() -> int:
    """The command as pip installs it."""
    return main(sys.argv[1:])


def run(arguments: Sequence[str]) -> int:
    """Does what the words of the command ask for, and gives its status."""
    words = parser(arguments[0] if arguments else None)
    options = words.parse_args(arguments)
    if options.do is overview:
        status, lines, values = _overview(options)
    elif len(options.folders) > 1:
        if getattr(options, "report", None):
            words.error("--report writes the page of one folder")
        status, lines, values = _several(options)
    else:
        options.folder = options.folders[0] if options.folders else getattr(options, "folder", None)
        status, lines, values = _told(options, options.do)
    if options.json and values:
        import json

        lines = [json.dumps({"format": 1, **values}, ensure_ascii=False)]
    sys.stdout.write("".join(f"{line}\n" for line in lines))
    return status


def _told(options: argparse.Namespace, do: Callable[[argparse.Namespace], Said]) -> Said:
    """Does it for one folder. Faults, refusals and what the system says are told; the latter has no values."""
    from .calls import Refused
    from .faults import Faults
    from .files import Missing

    said: Said
    try:
        said = do(options)
    except Missing as missing:
        tell(f"yuthaqim: {missing}")
        said = FAILED, [], {}
    except OSError as error:
        tell(f"yuthaqim: {plain(str(error.filename), cut=False)}: {error.strerror}")
        said = FAILED, [], {}
    except Refused as refused:
        values = {"number": refused.number, "detail": refused.detail, "sentence": refused.sentence}
        said = UNCOVERED if refused.number == 11 else WRONG, [], {"refused": values}
        tell((f"{_shown(options)}: " if len(options.folders) > 1 else "") + refused.sentence)
    except Faults as faults:
        said = WRONG, [], {"faults": [_fault(fault) for fault in faults.faults]}
        tell(str(faults))
    return said


def _each(options: argparse.Namespace) -> Iterator[Said]:
    """Does it for each folder by itself: what is wrong with one doesn't stop the others."""
    for folder in options.folders:
        options.folder = folder
        yield _told(options, options.do)


def _several(options: argparse.Namespace) -> Said:
    """A line for each folder; the status is the highest. With `-o` the rows of all results go to one file."""
    highest, told, campaigns = DONE, [], []
    options.gathers = bool(getattr(options, "output", None))

    def each() -> Iterator[tuple[Any, ...]]:
        """Does it for each, and gives the rows that are gathered."""
        nonlocal highest
        for status, lines, values in _each(options):
            highest = max(highest, status)
            if lines:
                told.append(f"{_shown(options)}: {options.brief(lines, values)}")
            campaigns.append({"campaign": options.folder, "status": status, **values})
            for row in options.rows if options.gathers and lines else ():
                yield _shown(options), *row

    def gather(_: argparse.Namespace) -> Said:
        from . import files, results

        results.judge(options.output)
        data = results.encode(each(), options.output, results.GATHERED)
        if told:  # else there is no result
            files.write(options.output, data, options.again)
        return DONE, [], {}

    if options.gathers:
        status, _, values = _told(options, gather)
        if status:
            return max(status, highest), [], values
    else:
        list(each())
    return highest, told, {"campaigns": campaigns}


def _overview(options: argparse.Namespace) -> Said:
    """A row for each folder, in CSV, with blanks for what can't be said of it."""
    import csv

    highest, rows = DONE, []
    for status, _, values in _each(options):
        highest = max(highest, status)
        wrong = {"question": count(len(values["faults"]), "fault")} if "faults" in values else {}
        rows.append({**dict.fromkeys(_OVERVIEW, ""), **values, **wrong, "campaign": plain(options.folder, cut=False)})
    out = io.StringIO(newline="")
    writer = csv.DictWriter(out, _OVERVIEW, extrasaction="ignore", lineterminator="\n")
    writer.writeheader()
    writer.writerows(rows)
    return highest, out.getvalue().splitlines(), {"campaigns": [{key: row[key] for key in _OVERVIEW} for row in rows]}


def _shown(options: argparse.Namespace) -> str:
    return plain(options.folder, cut=False)


def tell(text: str) -> None:
    sys.stderr.write(text + "\n")


# The commands.


def new(options: argparse.Namespace) -> Said:
    import shlex

    from .files import copy_folder

    folder = plain(options.folder, cut=False)
    beside = (os.path.normpath(os.path.join(os.path.dirname(__file__), place)) for place in _SAMPLES)
    copy_folder(next(filter(os.path.isdir, beside)), options.folder)
    lines = [
        f"{folder}: a question, three extracts with their charges, a record, and the names of kinds",
        f"Look at {os.path.join(folder, 'question.dot')} and {os.path.join(folder, 'extracts.csv')}; make them your own.",
        f"Then: yuthaqim quote {shlex.quote(folder)}",
    ]
    return DONE, lines, {"folder": options.folder}


def check(options: argparse.Namespace) -> Said:
    from .folder import Read

    campaign = campaign_of(options, record=Read.IF_THERE, several=True)
    questions = len(campaign.questions)
    parts: list[tuple[str, Pattern | Record]] = []
    if not questions:
        parts.append(("question", campaign.question))
    if campaign.has_record:
        parts.append(("record", campaign.record))
    sizes = {name: {"items": len(part.items), "links": len(part.links)} for name, part in parts}
    said = [f"{name} {count(size['items'], 'item')}, {count(size['links'], 'link')}" for name, size in sizes.items()]
    extracts = len(campaign.catalogue.extracts)
    said.insert(0 if questions else 1, count(extracts, "extract"))
    line = "; ".join([count(questions, "question"), *said] if questions else said) + ": accepted"
    values = {"question": sizes.get("question"), "questions": questions, "extracts": extracts}
    return DONE, [line], {**values, "record": sizes.get("record")}


def quote(options: argparse.Namespace) -> Said:
    campaign = campaign_of(options)
    said = campaign.quote(options.day, options.any_day)
    if options.report:
        _report(campaign, options)
    verdict = "covered" if said.covered else "uncovered"
    matched_by = [dict.fromkeys(match.extract for match in matches) for matches in said.matches]
    links = _links(campaign.question, [f"  by {names_of(by)}" for by in matched_by])
    lines = [verdict + (f" on {said.day}" if said.day else ""), *links, f"extracts  {names_of(said.chosen)}"]
    values = {
        "covered": said.covered,
        "day": _iso(said.day),
        "links": [
            {**link, "by": [{"extract": match.extract, "link": match.link} for match in matches]}
            for link, matches in zip(_link_values(campaign.question), said.matches)
        ],
        "extracts": list(said.chosen),
    }
    return DONE if said.covered else UNCOVERED, lines, values


def _report(campaign: Campaign, options: argparse.Namespace) -> None:
    """Writes the page of a quote."""
    from .files import write
    from .report import Contract, page

    name = plain(os.path.basename(os.path.abspath(options.folder)))
    contract = Contract(name, campaign, options.day, options.date or date.today(), VERSION)
    # It is made from the packed bytes as the library reads them back: what is signed is what was quoted.
    write(options.report, page(Contract.read(contract.values())).encode())


def verify(options: argparse.Namespace) -> Said:
    from . import report
    from .faults import Faults, Unreadable
    from .files import read

    try:
        same, sentence = report.verify(read(options.page, report.BYTES), options.page)
    except Unreadable as unreadable:
        raise Faults([unreadable.fault]) from None
    return DONE if same else OTHERWISE, [sentence], {"same": same, "sentence": sentence}


def cheapest(options: argparse.Namespace) -> Said:
    said = campaign_of(options).cheapest(options.day, options.any_day)
    lines = [f"cheapest  {names_of(said.extracts)}", f"cost      {said.cost:,} cents"]
    return DONE, lines, {"extracts": list(said.extracts), "cost": said.cost, "day": _iso(said.day)}


def part(options: argparse.Namespace) -> Said:
    from .files import write

    campaign = campaign_of(options)
    said = campaign.part(options.day, options.any_day)
    path = os.path.normpath(os.path.join(options.folder, "part.dot"))
    write(path, said.picture("part").encode())
    whole = count(len(campaign.question.links), "link")
    lines = [
        *_links(said, [""] * len(said.links)),
        f"part  {len(said.links)} of {whole}, drawn in {plain(path, cut=False)}",
    ]
    return DONE, lines, {"file": path, "day": _iso(options.day), "links": _link_values(said)}


def overview(options: argparse.Namespace) -> Said:
    from .recording import made_of

    campaign = campaign_of(options, several=True)
    asked = list(campaign.questions.values()) or [campaign.question]
    said = [campaign.quote(options.day, options.any_day, question) for question in asked]
    chosen = {name for quote in said for name in quote.chosen}
    size = f"{count(len(asked[0].items), 'item')}, {count(len(asked[0].links), 'link')}"
    values = {
        "question": count(len(asked), "question") if campaign.questions else size,
        "covered": "yes" if all(quote.covered for quote in said) else "no",
        "extracts": ";".join(extract.name for extract in campaign.catalogue.extracts if extract.name in chosen),
        **made_of(options.folder, campaign, asked),
    }
    return DONE, [], values


def first_day(options: argparse.Namespace) -> Said:
    found = campaign_of(options).first_day(options.day or date.today())
    return UNCOVERED if found is None else DONE, [str(found or "none")], {"day": _iso(found)}


def _of_records(name: str, module: str = ".recording") -> Any:
    """A command on records, which is imported when it is called."""

    def do(options: argparse.Namespace) -> Any:
        from importlib import import_module

        return getattr(import_module(module, __package__), name)(options)

    return do


# How they say it.


def campaign_of(options: argparse.Namespace, **read: Any) -> Campaign:
    """What stands in the folder; what is to be told beside is told."""
    from .campaign import Campaign

    campaign = Campaign(options.folder, **read)
    for note in campaign.notes:
        tell(note)
    return campaign


def _links(pattern: Pattern, endings: Sequence[str]) -> list[str]:
    """A line for each link, in columns."""
    numbers = [f"link {number}" for number in range(len(pattern.links))]
    links = [pattern.link(number) for number in range(len(pattern.links))]
    columns = [max(map(width, column)) for column in (numbers, links)]
    rows = zip(numbers, links, endings)
    return [f"{padded(number, columns[0])}  {padded(link, columns[1])}{end}".rstrip() for number, link, end in rows]


def _link_values(pattern: Pattern) -> list[dict[str, Any]]:
    return [
        {
            "link": number,
            "from": pattern.names[start],
            "from kind": pattern.kinds.items.name(pattern.items[start]),
            "kind": pattern.kinds.links.name(kind),
            "to": pattern.names[end],
            "to kind": pattern.kinds.items.name(pattern.items[end]),
        }
        for number, (start, end, kind) in enumerate(pattern.links)
    ]


def _fault(fault: Any) -> dict[str, Any]:
    place = fault.place
    return {"file": place.file, "line": place.line or None, "column": place.column or None, "message": fault.message}


def names_of(names: Any) -> str:
    return ", ".join(names) or "none"


def _last(lines: list[str], values: Any) -> str:
    """What is said of one campaign among several, in one line; here the last."""
    return lines[-1]


def _verdict(lines: list[str], values: Any) -> str:
    return lines[0] + (f" by {names_of(values['extracts'])}" if values["covered"] else "")


def _price(lines: list[str], values: Any) -> str:
    return f"{names_of(values['extracts'])} for {values['cost']:,} cents"


def count(number: int, of: str) -> str:
    return f"{number:,} {of}{'' if number == 1 else 's'}"


def _iso(day: date | None) -> str | None:
    return day.isoformat() if day else None


# The words of the command.


def _day(text: str) -> date:
    try:
        return days.read(text)
    except ValueError as error:
        raise argparse.ArgumentTypeError(f"{quoted(text)} {error}") from None


_Taken = Callable[[argparse.ArgumentParser], Any]


class _Command(NamedTuple):
    do: Callable[[argparse.Namespace], Said]
    says: str  # what it does
    example: str
    takes: Sequence[_Taken]
    brief: Callable[[list[str], Any], str] = _last


def _takes(*names: str, **options: Any) -> _Taken:
    return lambda command: command.add_argument(*names, **options)


def _on_day(command: argparse.ArgumentParser) -> None:
    either = command.add_mutually_exclusive_group()
    of_day = "by the extracts in force on that day, such as 2026-11-17"
    either.add_argument("--day", metavar="DATE", type=_day, help=of_day)
    either.add_argument("--any-day", action="store_true", help="by all extracts, whatever their terms")


def _output(name: str) -> _Taken:
    ends = "the file to write, .csv, .json or .xlsx"
    said = f"{ends}, by default {name} in the folder; of several folders the rows of all"
    return _takes("-o", dest="output", metavar="FILE", help=said)


_FOLDERS = _takes(
    "folders", metavar="FOLDER", nargs="*", default=["."], help="a campaign's, by default the current one"
)
_AGAIN = _takes("--again", action="store_true", help="write also what stands there already as it would be")

_COMMANDS = {
    "new": _Command(
        new,
        "make a folder with a sample campaign",
        "new campaign",
        [_takes("folder", metavar="FOLDER", help="the folder to make")],
    ),
    "check": _Command(check, "tell every fault of a campaign's files", "check campaign", [_FOLDERS]),
    "quote": _Command(
        quote,
        "say whether the extracts cover the question",
        "quote campaign",
        [
            _FOLDERS,
            _on_day,
            _takes("--report", metavar="FILE.html", help="write the page that is signed with the contract"),
            _takes("--date", metavar="DATE", type=_day, help="that of the page, by default today"),
        ],
        _verdict,
    ),
    "verify": _Command(
        verify,
        "tell whether a page says what the library says",
        "verify campaign/quote.html",
        [_takes("page", metavar="FILE.html", help="the page that quote --report wrote")],
    ),
    "cheapest": _Command(
        cheapest, "find the cheapest extracts that cover the question", "cheapest campaign", [_FOLDERS, _on_day], _price
    ),
    "part": _Command(
        part, "draw the part of the question that the extracts answer", "part campaign", [_FOLDERS, _on_day]
    ),
    "status": _Command(overview, "tell of many campaigns, in CSV", "status campaigns/*", [_FOLDERS, _on_day]),
    "pack": _Command(_of_records("pack"), "pack a campaign's files", "pack campaign", [_FOLDERS, _AGAIN]),
    "ask": _Command(
        _of_records("ask", ".entering"),
        "name the extracts whose lists a link would change",
        "ask S2 V1 'cut from' campaign",
        [
            _takes("start", metavar="FROM", help="an item"),
            _takes("end", metavar="TO", help="an item"),
            _takes("kind", metavar="KIND", help="a kind of link"),
            _FOLDERS,
        ],
    ),
    "commit": _Command(
        _of_records("commit", ".entering"), "enter the link that was asked about", "commit campaign", [_FOLDERS]
    ),
    "unpack": _Command(
        _of_records("unpack", ".unpacking"),
        "write people's files from packed ones",
        "unpack campaign",
        [_FOLDERS, _takes("--force", action="store_true", help="replace files that are there already")],
    ),
    "book": _Command(
        _of_records("book"), "make the extracts' lists from the record", "book campaign", [_FOLDERS, _AGAIN]
    ),
    "answer": _Command(
        _of_records("answer"),
        "answer the question from the extracts' lists",
        "answer campaign",
        [
            _FOLDERS,
            _takes("--from", dest="extracts", metavar="A,B", action="append", help="by these extracts, and no others"),
            _takes("--lists", metavar="FOLDER", help="from the lists in that folder, without record or book"),
            _AGAIN,
            _output("answer.csv"),
        ],
    ),
    "search": _Command(
        _of_records("search"),
        "search the record for the question",
        "search campaign",
        [
            _FOLDERS,
            _takes("--indexed", action="store_true", help="by the index that pack has made"),
            _AGAIN,
            _output("sheet.csv"),
        ],
    ),
    "show": _Command(_of_records("show"), "show why the question is uncovered", "show campaign", [_FOLDERS, _on_day]),
    "first-day": _Command(
        first_day,
        "find the first day on which the question is covered",
        "first-day campaign --day 2026-11-17",
        [
            _FOLDERS,
            _takes("--day", metavar="DATE", type=_day, help="the first day that is looked at, by default today"),
        ],
    ),
}


class _Help(argparse.HelpFormatter):
    """As wide as the terminal; argparse itself looks for that anew with each word, and imports much for it."""

    def __init__(self, prog: str):
        super().__init__(prog, width=_columns() - 2)


@cache
def _columns() -> int:
    try:
        return int(os.environ.get("COLUMNS", "")) or 80
    except ValueError:
        pass
    try:
        return os.get_terminal_size().columns or 80
    except OSError:  # it is none
        return 80


def parser(only: str | None = None) -> argparse.ArgumentParser:
    """The words of all commands, or, which is made faster, of one."""
    main = argparse.ArgumentParser(
        prog="yuthaqim",
        description="Quotes a campaign's question from drawings and tables, and answers it. docs/PLANNERS.md says how they look.",
        epilog="example: yuthaqim new campaign && yuthaqim quote campaign",
        allow_abbrev=False,
        formatter_class=_Help,
    )
    main.add_argument("--version", action="version", version=f"yuthaqim {VERSION}")
    commands = main.add_subparsers(title="commands", metavar="COMMAND", required=True, prog="yuthaqim")
    for name in [only] if only in _COMMANDS else list(_COMMANDS):
        one = _COMMANDS[name]
        command = commands.add_parser(
            name,
            help=one.says,
            description=one.says[0].upper() + one.says[1:] + ".",
            epilog=f"example: yuthaqim {one.example}",
            allow_abbrev=False,
            formatter_class=_Help,
        )
        command.set_defaults(do=one.do, folders=[], brief=one.brief, gathers=False)
        command.add_argument("--json", action="store_true", help="print one JSON object")
        for take in one.takes:
            take(command)
    return main
