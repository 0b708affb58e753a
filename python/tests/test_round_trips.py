"""From bytes to text to bytes and back: patterns and catalogues, with names from all of Unicode."""

from __future__ import annotations

import csv
import io
import tempfile
from pathlib import Path
from typing import Any

from hypothesis import given, settings
from hypothesis import strategies as some

from yuthaqim import Campaign, Catalogue, Extract, Kinds, Pattern, calls, names, pictures
from yuthaqim.faults import Fault
from yuthaqim.kinds import ITEMS, LINKS
from yuthaqim.packing import pack

name = some.text(min_size=1, max_size=9).map(names.tidy).filter(lambda text: names.fault_of(text) is None)


def naming(most: int) -> Any:
    """Names of some kinds: each once, by number."""
    return some.dictionaries(name, some.integers(0, most - 1), max_size=8).map(
        lambda numbers: {number: called for called, number in numbers.items()}
    )


kinds = some.builds(Kinds, naming(ITEMS), naming(LINKS))


@some.composite
def content(draw: Any) -> list[int]:
    """That of a pattern which the library accepts: every item at a link, no link twice."""
    chance = draw(some.randoms(use_true_random=False))
    items = chance.randint(1, 16)
    count = chance.randint(1, min(32, 8 * items * items))
    every = [(start, end, kind) for start in range(items) for end in range(items) for kind in range(8)]
    drawn = chance.sample(every, count)
    used = sorted({end for link in drawn for end in link[:2]})
    links = [field for start, end, kind in drawn for field in (used.index(start), used.index(end), kind)]
    return [len(used), len(drawn), *(chance.randint(0, 31) for _ in used), *links]


def drawn(text: str, kinds: Kinds) -> Pattern:
    wrong: list[Fault] = []
    sketch = pictures.read(text.encode(), "pattern.dot", wrong)
    pattern = pack(sketch, kinds, wrong) if sketch else None
    assert pattern and not wrong, wrong
    return pattern


@settings(max_examples=300)
@given(content(), kinds)
def test_patterns(content: list[int], kinds: Kinds) -> None:
    packed = calls.write_pattern(content)
    text = Pattern.unpack(packed, kinds).picture("drawn")
    again = drawn(text, kinds)
    assert again.packed == packed
    assert again.picture("drawn") == text
    assert again.fields == content


def table(header: list[str], rows: list[list[Any]], form: dict[str, Any]) -> bytes:
    out = io.StringIO(newline="")
    writer = csv.writer(out, delimiter=form["delimiter"], lineterminator=form["end"])
    writer.writerows([header, *rows])
    return out.getvalue().encode(form["encoding"])


form = some.fixed_dictionaries(
    {
        "delimiter": some.sampled_from(",;\t"),
        "end": some.sampled_from(["\n", "\r\n", "\r"]),
        "encoding": some.sampled_from(["utf-8", "utf-8-sig", "utf-16"]),
    }
)

extract = name.filter(lambda text: "/" not in text and not text.startswith("."))


def link_rows(pattern: Pattern) -> list[list[Any]]:
    """The rows of a pattern as a table: items first named in the order of their numbers, as the picture names them."""
    called = Pattern.unpack(pattern.packed, pattern.kinds).names
    own = [pattern.kinds.items.name(kind) for kind in pattern.items]
    return [
        [called[start], own[start], pattern.kinds.links.name(kind), called[end], own[end]]
        for start, end, kind in pattern.links
    ]


def named_in_order(content: list[int]) -> list[int]:
    """The same pattern with its items numbered by first mention, as a table numbers them."""
    items, count = content[0], content[1]
    links = [content[at : at + 3] for at in range(2 + items, 2 + items + 3 * count, 3)]
    order = list(dict.fromkeys(end for link in links for end in link[:2]))
    kinds = [content[2 + item] for item in order]
    return [
        items,
        count,
        *kinds,
        *(field for start, end, kind in links for field in (order.index(start), order.index(end), kind)),
    ]


@settings(max_examples=60)
@given(
    some.lists(extract, max_size=16, unique=True),
    some.data(),
    kinds,
    form,
    some.sampled_from(["pictures", "tables", "one table"]),
)
def test_catalogues(called: list[str], data: Any, kinds: Kinds, form: dict[str, Any], way: str) -> None:
    contents = [named_in_order(data.draw(content())) for _ in called]
    charges = [data.draw(some.integers(0, 2**32 - 1)) for _ in called]
    patterns = [Pattern.unpack(calls.write_pattern(content), kinds) for content in contents]
    packed = calls.write_catalogue([len(called), *(field for content in contents for field in content)])
    assert Catalogue.of(map(Extract, called, patterns)).packed == packed
    with tempfile.TemporaryDirectory() as room:
        folder = Path(room)
        (folder / "extracts").mkdir()
        named = [["item", kinds.items.number(given), given] for given in kinds.items.given]
        named += [["link", kinds.links.number(given), given] for given in kinds.links.given]
        (folder / "kinds.csv").write_bytes(table(["of", "number", "name"], named, form))
        rows = [[extract, charge] for extract, charge in zip(called, charges)]
        (folder / "extracts.csv").write_bytes(table(["Extract", "Charge in cents"], rows, form))
        (folder / "question.dot").write_text('digraph { a [label="#0"] a -> a [label="#0"] }')
        if kinds.items.name(0) != "#0" or kinds.links.name(0) != "#0":
            one = Pattern.unpack(calls.write_pattern([1, 1, 0, 0, 0, 0]), kinds)
            (folder / "question.dot").write_text(one.picture("question"))
        header = ["from", "from kind", "kind", "to", "to kind"]
        if way == "one table":
            together = [[extract, *row] for extract, pattern in zip(called, patterns) for row in link_rows(pattern)]
            (folder / "extract links.csv").write_bytes(table(["extract", *header], together, form))
        for extract, pattern in zip(called, patterns):
            if way == "pictures":
                (folder / "extracts" / f"{extract}.dot").write_text(pattern.picture("extract"))
            elif way == "tables":
                (folder / "extracts" / f"{extract}.csv").write_bytes(table(header, link_rows(pattern), form))
        campaign = Campaign(room)
    assert campaign.catalogue.packed == packed
    assert [extract.name for extract in campaign.catalogue.extracts] == called
    assert [extract.charge for extract in campaign.catalogue.extracts] == charges
    assert campaign.notes == ()
