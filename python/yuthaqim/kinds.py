"""The kinds of items and of links, and the table that names them."""

from __future__ import annotations

from typing import Iterable, Mapping

from . import names, tables
from .faults import Fault, Faults, Place
from .sketches import Word
from .tables import Table, digits

ITEMS, LINKS = 32, 8


class Naming:
    """The names of the kinds of items, or of links, by number. A kind without a name is called `#17`."""

    def __init__(self, of: str, most: int, given: Mapping[int, str]):
        self.of = of
        self.given = tuple(given[number] for number in sorted(given))
        self._names = tuple(given.get(number, f"#{number}") for number in range(most))
        self.numbers = {name: number for number, name in enumerate(self._names)}

    def name(self, number: int) -> str:
        return self._names[number]

    def number(self, name: str) -> int | None:
        return self.numbers.get(name)

    def values(self) -> dict[str, str]:
        """The names that were given, by number, as JSON has them."""
        return {str(number): name for number, name in enumerate(self._names) if name in self.given}

    def numbered(self) -> dict[str, int]:
        return {name: self.numbers[name] for name in self.given}

    def all(self) -> str:
        """The names that there are, to be listed in a sentence."""
        return f"kinds of {self.of}s: {names.listed(self.given) or 'none has a name'}"

    def unknown(self, word: Word, hint: bool = True) -> str:
        """What to say of a word that is none of these; the hint takes its time."""
        said = f"{names.quoted(word.text)} is no kind of {self.of}"
        if not hint:
            return said
        near = names.near(word.text, self.given)
        if near is None:
            return f"{said}; {self.all()}"
        quotes = " A name with a space stands in quotes" if word.bare and " " in near else ""
        return f"{said}; did you mean {names.quoted(near)}?{quotes}"


class Kinds:
    """The names of the kinds: of items, 0 to 31, and of links, 0 to 7.

    >>> kinds = Kinds(items=["section", "slow run"], links={2: "repeated as"})
    >>> kinds.items.number("slow run"), kinds.items.name(17), kinds.links.number("#7")
    (1, '#17', 7)
    """

    def __init__(self, items: Iterable[str] | Mapping[int, str], links: Iterable[str] | Mapping[int, str]):
        self.items = _naming("item", ITEMS, items)
        self.links = _naming("link", LINKS, links)

    def numbered(self) -> dict[str, dict[str, int]]:
        """The number of each name."""
        return {"items": self.items.numbered(), "links": self.links.numbered()}


def _naming(of: str, most: int, given: Iterable[str] | Mapping[int, str]) -> Naming:
    named = dict(given) if isinstance(given, Mapping) else dict(enumerate(given))
    wrong = [names.fault_of(name) for name in named.values()]
    wrong += [f"kinds of {of}s have the numbers 0 to {most - 1}, not {n}" for n in named if not 0 <= n < most]
    if len(set(named.values())) < len(named):
        wrong.append(f"two kinds of {of}s have one name")
    if any(wrong):
        raise Faults(Fault(Place("kinds"), message) for message in wrong if message)
    return Naming(of, most, named)


def write(kinds: Kinds) -> bytes:
    """The table of the kinds that have names."""
    rows = [("item", number, name) for name, number in kinds.items.numbered().items()]
    rows += [("link", number, name) for name, number in kinds.links.numbered().items()]
    return tables.write(("of", "number", "name"), rows)


def read(table: Table, faults: list[Fault]) -> Kinds | None:
    """The kinds of a table with the columns `of`, `number` and `name`; None where something is wrong with it."""
    before = len(faults)
    given: dict[str, dict[int, str]] = {"item": {}, "link": {}}
    lines: dict[tuple[str, int | str], int] = {}
    for row in table.rows:
        of = row["of"].casefold()
        if of not in given:
            faults.append(row.fault(f'column "of": {names.quoted(row["of"])} is neither item nor link'))
            continue
        most = ITEMS if of == "item" else LINKS
        number = digits(row["number"], most - 1)
        if number is None:
            faults.append(row.fault(f'{names.quoted(row["number"])} is no number of a kind of {of}, 0 to {most - 1}'))
            continue
        name = row["name"]
        wrong = names.fault_of(name)
        if wrong:
            faults.append(row.fault(wrong))
            continue
        told: dict[int | str, str] = {number: f"kind {number} of {of}s", name: f"kind of {of} {names.quoted(name)}"}
        for key, said in told.items():
            if (of, key) in lines:
                faults.append(row.fault(f"{said} stands on line {lines[of, key]} already"))
            lines.setdefault((of, key), row.line)
        given[of][number] = name
    return Kinds(given["item"], given["link"]) if len(faults) == before else None
