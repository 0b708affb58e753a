"""Patterns and catalogues: from words to what the library packs, and back."""

from __future__ import annotations

from typing import Iterable, Mapping, NamedTuple, Sequence

from . import calls, explain, faults, names
from .faults import Fault, Faults, Place
from .kinds import Kinds, Naming
from .sketches import Item, Link, Sketch, Word


class Ends(NamedTuple):
    """A link by numbers: those of its items, and its kind's."""

    start: int
    end: int
    kind: int


class Pattern(NamedTuple):
    """A question or an extract: items with their kinds, links with theirs, and the packed bytes of both.

    >>> kinds = Kinds(["section", "slow run"], ["cut from"])
    >>> pattern = Pattern.of([("section", "cut from", "slow run")], kinds)
    >>> pattern.packed.hex(), pattern.link(0)
    ('10200808', 'section -[cut from]-> slow run')
    >>> print(Pattern.unpack(pattern.packed, kinds).picture("example"), end="")
    digraph example {
        "section"
        "slow run"
        "section" -> "slow run" [label="cut from"]
    }
    """

    kinds: Kinds
    names: tuple[str, ...]
    items: tuple[int, ...]  # the kind of each
    links: tuple[Ends, ...]
    packed: bytes

    @classmethod
    def of(cls, links: Iterable[tuple[str, str, str]], kinds: Kinds, items: Mapping[str, str] = {}) -> Pattern:
        """A pattern of links: from, kind and to of each. `items` has the kinds of items that aren't their names."""
        place = Place("pattern")
        named: dict[str, Item] = {}
        found = []
        for start, kind, end in links:
            for name in (start, end):
                named.setdefault(name, Item(name, place, Word(items.get(name, name), place)))
            order = list(named)
            found.append(Link(order.index(start), order.index(end), place, Word(kind, place)))
        wrong: list[Fault] = []
        pattern = pack(Sketch("pattern", tuple(named.values()), tuple(found)), kinds, wrong)
        if pattern is None:
            raise Faults(wrong)
        return pattern

    @classmethod
    def unpack(cls, packed: bytes, kinds: Kinds) -> Pattern:
        """The pattern in a packed file. Items are called by their kinds, with a number behind where two have one."""
        content = calls.read_pattern(packed)
        items, links = content[0], content[1]
        own = content[2 : 2 + items]
        ends = [Ends(*content[at : at + 3]) for at in range(2 + items, 2 + items + 3 * links, 3)]
        return cls(kinds, tuple(_called(own, kinds.items)), tuple(own), tuple(ends), packed)

    @property
    def fields(self) -> list[int]:
        return _fields(self.items, self.links)

    def called(self, number: int) -> str:
        """The name of an item as a table has it."""
        return names.tidy(names.plain(self.names[number], cut=False)) or f"item {number}"

    def item_names(self) -> list[str]:
        """The names of all as a table has them; where two are the same there, as `unpack` calls them."""
        called = [self.called(number) for number in range(len(self.items))]
        return called if len(set(called)) == len(called) else _called(self.items, self.kinds.items)

    def item(self, number: int) -> str:
        """An item as it is shown: its name, and its kind where that is another."""
        name, kind = names.plain(self.names[number]), self.kinds.items.name(self.items[number])
        return name if names.tidy(name) == kind else f"{name} ({kind})"

    def link(self, number: int) -> str:
        link = self.links[number]
        return f"{self.item(link.start)} -[{self.kinds.links.name(link.kind)}]-> {self.item(link.end)}"

    def picture(self, title: str, names_of_items: Sequence[str] = ()) -> str:
        """The pattern as a picture, in DOT; its items are called as is said, if they can be, or as `unpack` calls them."""
        called = list(names_of_items)
        if len(set(called)) != len(self.items) or len(called) != len(self.items) or any(map(names.fault_of, called)):
            called = _called(self.items, self.kinds.items)
        lines = []
        for name, label in zip(called, map(self.kinds.items.name, self.items)):
            lines.append(_id(name) + (f" [label={_id(label)}]" if name != label else ""))
        for start, end, kind in self.links:
            lines.append(f"{_id(called[start])} -> {_id(called[end])} [label={_id(self.kinds.links.name(kind))}]")
        return f"digraph {title} {{\n" + "".join(f"    {line}\n" for line in lines) + "}\n"


class Extract(NamedTuple):
    name: str
    pattern: Pattern
    charge: int | None = None
    term: calls.Term | None = None
    one_way: bool = False  # its sheets were made by links that leave alone
    place: Place = Place("extracts")


class Catalogue(NamedTuple):
    """Extracts in their order, and the packed bytes of their patterns."""

    extracts: tuple[Extract, ...]
    packed: bytes

    @classmethod
    def of(cls, extracts: Iterable[Extract]) -> Catalogue:
        extracts = tuple(extracts)
        content = [field for extract in extracts for field in extract.pattern.fields]
        return cls(extracts, calls.write_catalogue([len(extracts), *content]))

    @property
    def terms(self) -> tuple[calls.Term, ...] | None:
        """The term of each extract; None where extracts have none."""
        found = tuple(extract.term for extract in self.extracts if extract.term)
        return found if len(found) == len(self.extracts) else None

    @property
    def one_way(self) -> int:
        """The set of the extracts that are matched one-way."""
        return sum(1 << number for number, extract in enumerate(self.extracts) if extract.one_way)

    def numbered(self, called: Iterable[str]) -> int:
        """The set of the extracts of these names."""
        numbers = {extract.name: number for number, extract in enumerate(self.extracts)}
        found = 0
        for name in called:
            if name not in numbers:
                near = names.near(name, numbers)
                hint = f"did you mean {names.quoted(near)}?" if near else f"extracts: {names.listed(numbers) or 'none'}"
                raise Faults([Fault(Place("--from"), f"there is no extract {names.quoted(name)}; {hint}")])
            found |= 1 << numbers[name]
        return found

    def named(self, extracts: int) -> tuple[str, ...]:
        """The names of a set of extracts, in which the bit worth 2^a says extract a."""
        return tuple(extract.name for number, extract in enumerate(self.extracts) if extracts >> number & 1)


def pack(sketch: Sketch, kinds: Kinds, wrong: list[Fault]) -> Pattern | None:
    """The pattern of a sketch; None where the kinds don't have its words, or the library refuses it."""
    items = [_number(item.kind, kinds.items, wrong) for item in sketch.items]
    links = []
    for link in sketch.links:
        if link.kind is None:
            between = f"{names.plain(sketch.items[link.start].name)} -> {names.plain(sketch.items[link.end].name)}"
            wrong.append(Fault(link.place, f"the link {between} has no label; {kinds.links.all()}"))
        else:
            links.append(Ends(link.start, link.end, _number(link.kind, kinds.links, wrong)))
    if any(fault.place.file == sketch.file for fault in wrong):
        return None
    try:
        packed = calls.write_pattern(_fields(items, links))
    except calls.Refused as refused:
        wrong += explain.of_picture(refused, sketch)
        return None
    return Pattern(kinds, tuple(item.name for item in sketch.items), tuple(items), tuple(links), packed)


def _number(word: Word, naming: Naming, wrong: list[Fault]) -> int:
    """The number of the kind that a word names; where it names none, a fault, and 0."""
    name = names.tidy(word.text)
    number = naming.number(name)
    if number is not None:
        return number
    if any(fault.place == word.place for fault in wrong):
        return 0  # what is wrong with the word is said already
    if not name:
        message = f"this {naming.of} has no label; {naming.all()}"
    elif any(map(names.invisible, name)):
        message = names.fault_of(name) or ""
    else:
        message = naming.unknown(Word(name, word.place, word.bare), hint=len(wrong) < faults.SHOWN)
    wrong.append(Fault(word.place, message))
    return 0


def _fields(items: Sequence[int], links: Sequence[Ends]) -> list[int]:
    return [len(items), len(links), *items, *(field for link in links for field in link)]


def _called(items: Sequence[int], naming: Naming) -> list[str]:
    kinds = [naming.name(kind) for kind in items]
    called: list[str] = []
    for number, kind in enumerate(kinds):
        name = kind if kinds.count(kind) == 1 else f"{kind} {number}"
        while name != kind and name in kinds:
            name += "'"
        called.append(name)
    return called


def _id(name: str) -> str:
    """A name in quotes, as DOT has it, that Graphviz shows as it is."""
    return '"' + name.replace("&", "&amp;").replace('"', '\\"') + '"'
