"""The page of a quote, to be signed with the contract; and whether a page says what the library says.

A page is made of a Contract alone, the packed files and the names of what is in them: it holds one, and is made again
from it.
"""

from __future__ import annotations

import hashlib
import json
import os
import re
from datetime import date
from itertools import zip_longest
from typing import Any, Callable, Container, Iterator, Mapping, NamedTuple

from . import calls, days
from .campaign import Campaign
from .draw import COLOURS, PALE, RED, Badge, Drawing, Item, Line, draw, still
from .faults import Fault, Faults, Place
from .files import Missing
from .kinds import Kinds
from .names import plain
from .packing import Catalogue, Ends, Extract, Pattern

BYTES = 16 << 20
"""A page with more is refused unread."""

_BEGIN, _END = '<script type="application/json" id="quoted">', "</script>"


class Contract(NamedTuple):
    """What is quoted: a campaign out of its packed files, for a day or for any, and when and by which version."""

    name: str
    campaign: Campaign
    day: date | None
    made: date
    version: str

    def values(self) -> dict[str, Any]:
        """All of it, as JSON has it; `read` reads it again."""
        kinds, catalogue = self.campaign.kinds, self.campaign.catalogue
        return {
            "format": 1,
            "campaign": self.name,
            "date": self.made.isoformat(),
            "version": self.version,
            "day": self.day and self.day.isoformat(),
            "kinds": {"items": kinds.items.values(), "links": kinds.links.values()},
            "question": {
                "packed": self.campaign.question.packed.hex(),
                "items": list(map(plain, self.campaign.question.names)),
            },
            "catalogue": {"packed": catalogue.packed.hex(), "extracts": list(map(_facts, catalogue.extracts))},
        }

    @classmethod
    def read(cls, values: Mapping[str, Any]) -> Contract:
        """What `values` gave. The library reads the packed files back; an error says that something else stands there."""
        if values["format"] != 1:
            raise ValueError
        kinds = Kinds(_numbered(values["kinds"]["items"]), _numbered(values["kinds"]["links"]))
        question = _named(Pattern.unpack(bytes.fromhex(values["question"]["packed"]), kinds), values["question"])
        packed = bytes.fromhex(values["catalogue"]["packed"])
        facts = values["catalogue"]["extracts"]
        extracts = [_extract(*one) for one in zip(_patterns(packed, kinds), facts, strict=True)]
        campaign = Campaign.of(kinds, question, Catalogue(tuple(extracts), packed))
        day = values["day"] and days.read(values["day"])
        return cls(_text(values["campaign"]), campaign, day, days.read(values["date"]), _text(values["version"]))


def _facts(extract: Extract) -> dict[str, Any]:
    items = list(map(plain, extract.pattern.names))
    return {
        "name": extract.name,
        "items": items,
        "charge": extract.charge,
        "term": extract.term and list(extract.term),
        "one-way": extract.one_way,
    }


def _extract(pattern: Pattern, facts: Mapping[str, Any]) -> Extract:
    term = facts["term"] and calls.Term(*(_number(day, 1 << 16) for day in facts["term"]))
    charge = None if facts["charge"] is None else _number(facts["charge"], 1 << 32)
    return Extract(_text(facts["name"]), _named(pattern, facts), charge, term, facts["one-way"] is True)


def _patterns(catalogue: bytes, kinds: Kinds) -> Iterator[Pattern]:
    """Those of the extracts in a packed catalogue."""
    content = calls.read_catalogue(catalogue)
    at = 1
    for _ in range(content[0]):
        end = at + 2 + content[at] + 3 * content[at + 1]
        yield Pattern.unpack(calls.write_pattern(content[at:end]), kinds)
        at = end


def _named(pattern: Pattern, values: Mapping[str, Any]) -> Pattern:
    names = tuple(map(_text, values["items"]))
    if len(names) != len(pattern.items):
        raise ValueError
    return pattern._replace(names=names)


def _numbered(names: Mapping[str, str]) -> dict[int, str]:
    return {int(number): _text(name) for number, name in names.items()}


def _text(value: Any) -> str:
    if not isinstance(value, str) or plain(value, cut=False) != value:
        raise ValueError
    return value


def _number(value: Any, below: int) -> int:
    if type(value) is not int or not 0 <= value < below:
        raise ValueError
    return value


# The page.


class Shown(NamedTuple):
    """An extract as the page has it."""

    badge: Badge
    extract: Extract
    chosen: bool
    in_force: bool
    drawing: str

    @property
    def coloured(self) -> bool:
        return self.badge.colour != PALE


def page(contract: Contract) -> str:
    """The page of a contract, by what the library says of it."""
    try:
        from jinja2 import Environment, FileSystemLoader, StrictUndefined
    except ImportError:
        raise Missing("to write the page", "jinja2", "python3-jinja2") from None

    loader = FileSystemLoader(os.path.dirname(__file__))
    room = Environment(loader=loader, autoescape=True, trim_blocks=True, lstrip_blocks=True, undefined=StrictUndefined)
    room.filters.update(long=_long, grouped=_grouped, cents=_cents, term=_term)
    return room.get_template("report.html.j2").render(_Page(contract).values()) + "\n"


class _Page:
    """What the template is given."""

    def __init__(self, contract: Contract):
        self.contract, self.campaign = contract, contract.campaign
        self.any_day = contract.day is None
        self.question, self.extracts = self.campaign.question, self.campaign.catalogue.extracts
        self.quote = self.campaign.quote(contract.day, self.any_day)
        self.badges = self._badges()

    def values(self) -> dict[str, Any]:
        quote, contract = self.quote, self.contract
        part, records = (None, None) if quote.covered else (self._part(), self._records())
        drawings = [self._question(), *map(self._extract, range(len(self.extracts)))]
        if part:
            drawings.append(part)
        if records:
            drawings += [records.first, records.second]
        drawn = iter(draw(drawings))
        question = next(drawn)
        shown = [self._shown(number, next(drawn)) for number in range(len(self.extracts))]
        cheapest = self._cheapest()
        said = {
            "covered": quote.covered,
            "links": [[[match.extract, match.link] for match in matches] for matches in quote.matches],
            "extracts": quote.chosen,
            "cheapest": cheapest and {"extracts": cheapest.extracts, "cost": cheapest.cost},
        }
        return {
            "contract": contract,
            "quote": quote,
            "pattern": self.question,
            "question": question,
            "extracts": shown,
            "by_name": {one.extract.name: one for one in shown},
            "links": list(enumerate(quote.matches)),
            "unmatched": [number for number, matches in enumerate(quote.matches) if not matches],
            "cheapest": cheapest,
            "part": next(drawn) if part else None,
            "records": records and (next(drawn), next(drawn), records.lists),
            "terms": any(one.extract.term not in (None, days.ALWAYS) for one in shown),
            "one_way": any(one.extract.one_way for one in shown),
            "digests": self._digests(),
            "json": _script({**contract.values(), "quote": said}),
        }

    def _digests(self) -> list[tuple[str, str]]:
        """Of the packed files, and of all that is quoted: names, charges and terms too."""
        files = {"question": self.question.packed, "catalogue": self.campaign.catalogue.packed}
        said = [(f"{name}, {len(packed)} bytes", packed) for name, packed in files.items()]
        said.append(("with names, charges, terms", json.dumps(self.contract.values()).encode()))
        return [(name, hashlib.sha256(data).hexdigest()) for name, data in said]

    def _badges(self) -> list[Badge]:
        """The letter of each extract, and a colour if it answers the question, or a part of it."""
        matching = {match.extract for matches in self.quote.matches for match in matches}
        coloured = self.quote.chosen if self.quote.covered else matching
        colours = (colour for _ in range(2) for colour in COLOURS)
        return [
            Badge(chr(ord("A") + number), next(colours) if extract.name in coloured else PALE)
            for number, extract in enumerate(self.extracts)
        ]

    def _shown(self, number: int, drawing: str) -> Shown:
        extract, day = self.extracts[number], self.contract.day
        in_force = not (day and extract.term) or extract.term.start <= days.number(day) < extract.term.end
        return Shown(self.badges[number], extract, extract.name in self.quote.chosen, in_force, drawing)

    def _cheapest(self) -> Any:
        charges = [extract.charge for extract in self.extracts if extract.charge is not None]
        if not self.quote.covered or not charges or len(charges) < len(self.extracts):
            return None
        return self.campaign.cheapest(self.contract.day, self.any_day)

    # The drawings.

    def _question(self) -> Drawing:
        def line(number: int, link: Ends, kind: str) -> Line:
            by = dict.fromkeys(match.extract for match in self.quote.matches[number])
            badges = tuple(
                badge
                for badge, extract in zip(self.badges, self.extracts)
                if extract.name in by and badge.colour != PALE
            )
            if not by:
                return Line(link.start, link.end, kind, (RED,), "dashed", str(number), "no extract")
            colours = tuple(dict.fromkeys(badge.colour for badge in badges))[:3] or (PALE,)
            return Line(link.start, link.end, kind, colours, "solid", str(number), "", badges)

        return _drawing("question", "the question", self.question, line)

    def _extract(self, at: int) -> Drawing:
        extract, badge = self.extracts[at], self.badges[at]
        matched: dict[int, list[str]] = {}
        for number, matches in enumerate(self.quote.matches):
            for match in matches:
                if match.extract == extract.name:
                    matched.setdefault(match.link, []).append(str(number))

        def line(number: int, link: Ends, kind: str) -> Line:
            by = matched.get(number)
            if not by:
                return Line(link.start, link.end, kind, (PALE,))
            note = f"link{'s' if len(by) > 1 else ''} {', '.join(by)}"
            return Line(link.start, link.end, kind, (badge.colour,), note=note)

        return _drawing(f"extract{badge.letter}", f"extract {badge.letter}, {extract.name}", extract.pattern, line)

    def _part(self) -> Drawing | None:
        """The question with the part of it that can be had in colour, and the rest pale; None if there is no part."""
        try:
            self.campaign.part(self.contract.day, self.any_day)
        except calls.Refused as refused:
            if refused.number != 11:
                raise
            return None
        # The part has just the links that are matched: (u) of docs/PROMISE.md.
        matched = [number for number, matches in enumerate(self.quote.matches) if matches]
        ends = {end for number in matched for end in self.question.links[number][:2]}

        def line(number: int, link: Ends, kind: str) -> Line:
            if number not in matched:
                return Line(link.start, link.end, kind, (PALE,), "dotted", str(number))
            return Line(link.start, link.end, kind, (COLOURS[2],), "solid", str(number))

        return _drawing("part", "the part that can be had", self.question, line, ends)

    def _records(self) -> Records:
        question, catalogue = self.question, self.campaign.catalogue
        packed = question.packed, catalogue.packed, catalogue.one_way
        if self.contract.day is None:
            first, second = calls.show_uncovered(*packed)
        else:
            terms = catalogue.terms or ()
            first, second = calls.show_on(*packed, terms, days.number(self.contract.day))
        return Records.of(question, first, second)


class Records(NamedTuple):
    """The two records that show why a question is uncovered, and what it lists on each."""

    first: Drawing
    second: Drawing
    lists: list[list[list[tuple[str, str]]]]  # for each link of the question the pairs on both

    @classmethod
    def of(cls, question: Pattern, *packed: bytes) -> Records:
        first, second = (_Record.of(question.kinds, record) for record in packed)
        lists = [[record.list(question, number) for record in (first, second)] for number in range(len(question.links))]
        return cls(first.drawing("first", "present", second), first.drawing("second", "lacking", second), lists)


class _Record(NamedTuple):
    kinds: Kinds
    items: tuple[str, ...]
    links: list[Ends]
    packed: bytes

    @classmethod
    def of(cls, kinds: Kinds, packed: bytes) -> _Record:
        content = calls.read_record(packed)
        masks, links = content[2 : 2 + content[0]], content[2 + content[0] :]
        said = ["; ".join(kinds.items.name(kind) for kind in range(32) if mask >> kind & 1) for mask in masks]
        items = tuple(f"{kind} {number}" for number, kind in enumerate(said))
        return cls(kinds, items, [Ends(*links[at : at + 3]) for at in range(0, len(links), 3)], packed)

    def drawing(self, name: str, word: str, second: _Record) -> Drawing:
        """The record, with the links that the second lacks named by a word: both are laid out by the first."""

        def line(link: Ends) -> Line:
            kind = self.kinds.links.name(link.kind)
            if link in second.links:
                return Line(link.start, link.end, kind, (PALE,))
            style = "solid" if word == "present" else "dotted"
            return Line(link.start, link.end, kind, (RED,), style, note=word)

        return Drawing(name, f"the {name} record", [Item(item) for item in self.items], list(map(line, self.links)))

    def list(self, question: Pattern, number: int) -> list[tuple[str, str]]:
        """The pairs that the question lists on the record under one of its links."""
        content = calls.read_sheet(question.packed, calls.search(question.packed, self.packed))
        at = 1
        for link in range(len(question.links) if content[0] else 0):
            end = at + 1 + 2 * content[at]
            if link == number:
                pairs = content[at + 1 : end]
                return [(self.items[a], self.items[b]) for a, b in zip(pairs[::2], pairs[1::2])]
            at = end
        return []


def _drawing(
    name: str, said: str, pattern: Pattern, line: Callable[[int, Ends, str], Line], ends: Container[int] | None = None
) -> Drawing:
    kinds = pattern.kinds
    items = [
        Item(
            kinds.items.name(kind),
            "" if called == kinds.items.name(kind) else plain(called),
            ends is not None and at not in ends,
        )
        for at, (kind, called) in enumerate(zip(pattern.items, pattern.names))
    ]
    links = [line(number, link, kinds.links.name(link.kind)) for number, link in enumerate(pattern.links)]
    return Drawing(name, said, items, links)


def _long(day: date) -> str:
    return f"{day.day} {day:%B %Y}"


def _grouped(digest: str) -> str:
    return " ".join(digest[at : at + 8] for at in range(0, len(digest), 8))


def _cents(charge: int) -> str:
    return f"{charge:,} cent{'' if charge == 1 else 's'}"


def _term(term: calls.Term) -> str:
    """The days of an extract, without the bounds that it hasn't.

    >>> _term(calls.Term(20513, 65535)), _term(calls.Term(0, 20605)), _term(calls.Term(0, 65535))
    ('from 2026-03-01', "up to 2026-06-01, which doesn't count", 'always in force')
    """
    first, last = days.ALWAYS
    bounds = [f"from {days.day(term.start)}"] if term.start != first else []
    bounds += [f"up to {days.day(term.end)}, which doesn't count"] if term.end != last else []
    return ", ".join(bounds) or "always in force"


def _script(values: Mapping[str, Any]) -> str:
    """JSON that can stand in a page's script, a line for each of its fields."""
    fields = (f"{json.dumps(key)}: {json.dumps(value, ensure_ascii=False)}" for key, value in values.items())
    text = "{\n" + ",\n".join(fields) + "\n}"
    return text.replace("&", "\\u0026").replace("<", "\\u003c").replace(">", "\\u003e")


# Verifying.


def verify(data: bytes, file: str) -> tuple[bool, str]:
    """Whether the page says what the library says, and a sentence."""
    contract, text = _contract(data, file)
    again = page(contract)
    if text == again:
        return True, "as quoted"
    if still(text) == still(again):
        return True, "as quoted, but for the drawings, which this machine draws otherwise"
    return False, _difference(still(text), still(again), file)


def _contract(data: bytes, file: str) -> tuple[Contract, str]:
    try:
        text = data.decode()
        begin = text.index(_BEGIN) + len(_BEGIN)
        return Contract.read(json.loads(text[begin : text.index(_END, begin)])), text
    except calls.Refused as refused:
        message = f"the library refuses what is quoted: {refused.sentence}"
        raise Faults([Fault(Place(file), message)]) from None
    except (ValueError, LookupError, TypeError, AttributeError, RecursionError, OverflowError, Faults):
        raise Faults([Fault(Place(file), "this is no whole page of a quote")]) from None


def _difference(text: str, again: str, file: str) -> str:
    """The first line that differs. The drawings have as many lines in both, so it is that of the file."""
    for number, (said, quoted) in enumerate(zip_longest(text.split("\n"), again.split("\n"), fillvalue=""), 1):
        if said != quoted:
            same = len(os.path.commonprefix([said, quoted]))
            begin = max(0, same - 15)
            return f"{Place(file, number)}: the page says {_cut(said, begin)}, and the quote {_cut(quoted, begin)}"
    raise AssertionError


def _cut(line: str, begin: int) -> str:
    text = plain(re.sub(r"\s+", " ", line[begin : begin + 200]).strip())
    return f'"{text}"' if text else "nothing"
