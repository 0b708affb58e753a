"""The page of a quote: what stands in it, what it looks like in a browser, and what `verify` says of it."""

from __future__ import annotations

import json
import random
import re
import shutil
from html import unescape
from html.parser import HTMLParser
from pathlib import Path
from typing import Any, Iterator

import browser
import pytest
from conftest import TOP, Command, uncovered

from yuthaqim import calls, draw, report
from yuthaqim.faults import Faults

DATE = ("--date", "2026-11-17")

HOSTILE = [
    *("<b>&amp", "مقطع من الجليد", 'it\'s "quoted"', "氷床コアの断面とその長い名前がここに続くので折り返す必要がある", "a [label]", "{{ 7*7 }}"),
    *(
        "</script><script>x",
        "x" * 60,
        "section of the ice core that has a rather long name, yes",
        "a  b",
        "-->",
        "%s $HOME",
    ),
    *("C:/new", "ﷺ", "]]>", "Höhe"),
]


def cell(text: str) -> str:
    return '"' + text.replace('"', '""') + '"'


def largest(folder: Path, covered: bool) -> None:
    """A question of 16 items and 32 links, 16 extracts, and names that mean something to a page or to Graphviz."""
    shutil.rmtree(folder / "extracts")
    (folder / "question.dot").unlink()
    drawn = random.Random(7)
    links = {(drawn.randrange(max(0, end - 4), end), end, drawn.randrange(8)): None for end in range(1, 16)}
    while len(links) < 32:
        start = drawn.randrange(15)
        links[start, drawn.randrange(start + 1, min(16, start + 5)), drawn.randrange(8)] = None
    names = [(cell(HOSTILE[start]), cell(HOSTILE[15 - kind]), cell(HOSTILE[end])) for start, end, kind in links]
    kinds = [f"item,{number},{cell(name)}" for number, name in enumerate(HOSTILE)]
    kinds += [f"link,{number},{cell(HOSTILE[15 - number])}" for number in range(8)]
    (folder / "kinds.csv").write_text("of,number,name\n" + "\n".join(kinds))
    (folder / "question.csv").write_text("from,kind,to\n" + "\n".join(map(",".join, names)))
    extracts = [cell(name.replace("/", "|")) for name in HOSTILE]
    rows = [f"{name},{100 + at},{'yes' if covered else ''}" for at, name in enumerate(extracts)]
    (folder / "extracts.csv").write_text("extract,charge in cents,one-way\n" + "\n".join(rows))
    last = 16 if covered else 15
    drawings = [f"{extracts[min(at // 2, last - 1)]},{','.join(link)}" for at, link in enumerate(names[: 2 * last])]
    drawings += [] if covered else [f"{extracts[15]},{','.join(names[0])}"]
    (folder / "extract links.csv").write_text("extract,from,kind,to\n" + "\n".join(drawings))


@pytest.fixture(params=["covered", "uncovered", "for a day", "no extract", "largest", "largest covered"])
def page(request: pytest.FixtureRequest, folder: Path, command: Command) -> Path:
    """The page of a campaign, quote.html in its folder."""
    day: tuple[str, ...] = ()
    if request.param == "uncovered":
        uncovered(folder)
    elif request.param == "for a day":
        rows = "slow runs,1,,,\nslow readings,2,,2026-12-01,yes\nfast readings,3,2026-12-01,,"
        (folder / "extracts.csv").write_text(f"extract,charge in cents,from,to,one-way\n{rows}\n")
        day = "--day", "2026-11-17"
    elif request.param == "no extract":
        (folder / "extracts.csv").write_text("extract\n")
    elif request.param != "covered":
        largest(folder, request.param == "largest covered")
    ended = command("quote", "--report", "quote.html", *DATE, *day)
    assert ended.status == (0 if request.param in ("covered", "largest covered") else 1), ended.err
    return folder / "quote.html"


VOID = {"meta", "link", "br", "img", "input"}


class Tree(HTMLParser):
    """The elements of a page, that they are closed, and its text."""

    def __init__(self, text: str):
        super().__init__()
        self.open: list[str] = []
        self.elements: list[tuple[str, dict[str, str]]] = []
        self.text = ""
        self.feed(text)
        self.close()
        assert self.open == []

    def handle_starttag(self, tag: str, attributes: list[tuple[str, Any]]) -> None:
        self.elements.append((tag, dict(attributes)))
        if tag not in VOID:
            self.open.append(tag)

    def handle_endtag(self, tag: str) -> None:
        assert self.open.pop() == tag

    def handle_data(self, data: str) -> None:
        self.text += data if self.open and self.open[-1] not in ("script", "style") else ""


def quoted(page: str) -> Any:
    return json.loads(page.split('id="quoted">')[1].split("</script>")[0])


def drawings(page: str) -> Iterator[tuple[str, str]]:
    """Each link that is drawn, by its id, with what is drawn of it."""
    yield from re.findall(r'<g id="(\w+-link\d+)">(.*?)</g>', page, re.DOTALL)


def test_the_page_is_whole_and_leaves_nothing(page: Path) -> None:
    text = page.read_text()
    tree = Tree(text)
    ids = [attributes["id"] for _, attributes in tree.elements if "id" in attributes]
    assert len(ids) == len(set(ids)) > 0
    names = {name for _, attributes in tree.elements for name in attributes}
    assert not names & {"src", "href", "srcset", "action", "data", "onload", "xlink:href"}
    assert "url(" not in text and "@import" not in text and "http" not in text.replace("http-equiv", "")
    scripts = [attributes for tag, attributes in tree.elements if tag == "script"]
    assert scripts == [{"type": "application/json", "id": "quoted"}]
    if len(quoted(text)["quote"]["links"]) == 32:
        for name in HOSTILE:
            assert name in tree.text


def test_it_is_drawn_as_quoted(page: Path) -> None:
    """Each link is drawn once, in the colour and with the marks of the quote."""
    text = page.read_text()
    values = quoted(text)
    drawn = dict(drawings(text))
    extracts = [extract["name"] for extract in values["catalogue"]["extracts"]]
    matches = values["quote"]["links"]
    wanted = {f"question-link{number}" for number in range(len(matches))}
    for at, content in enumerate(patterns(bytes.fromhex(values["catalogue"]["packed"]))):
        wanted |= {f"extract{chr(65 + at)}-link{number}" for number in range(content)}
    assert wanted <= drawn.keys()
    chosen = values["quote"]["extracts"] if values["quote"]["covered"] else extracts
    for number, by in enumerate(matches):
        said = drawn[f"question-link{number}"]
        letters = {chr(65 + extracts.index(name)) for name, _ in by if name in chosen}
        badges = set(re.findall(r'fill="#ffffff">(\w)<', said))
        assert badges == letters and (
            bool(by) or draw.RED in said and ">no\u00a0extract<" in said.replace(" ", "\u00a0")
        )
        assert ("stroke-dasharray" in said) == (not by)
        for name, link in by:
            said = drawn[f"extract{chr(65 + extracts.index(name))}-link{link}"]
            numbers = re.search(r">links? ([\d, ]+)<", unescape(said).replace("\u00a0", " "))
            assert numbers and str(number) in numbers[1].split(", ")
    if not values["quote"]["covered"]:
        for record, word in (("first", "present"), ("second", "lacking")):
            marked = [said for name, said in drawn.items() if name.startswith(record) and f">{word}<" in said]
            assert len(marked) == 1 and draw.RED in marked[0]
            assert ("stroke-dasharray" in marked[0]) == (word == "lacking")


def patterns(catalogue: bytes) -> Iterator[int]:
    content = calls.read_catalogue(catalogue)
    at = 1
    for _ in range(content[0]):
        yield content[at + 1]
        at += 2 + content[at] + 3 * content[at + 1]


def test_the_same_files_and_date_give_the_same_bytes(page: Path, command: Command) -> None:
    day = ["--day", "2026-11-17"] if "on 17 November 2026" in page.read_text() else []
    command("quote", "--report", "again.html", *DATE, *day)
    assert (page.parent / "again.html").read_bytes() == page.read_bytes()


def test_verify(page: Path, command: Command) -> None:
    assert command("verify", "quote.html") == (0, "as quoted\n", "")
    assert command("verify", "--json", "quote.html").json == {"format": 1, "same": True, "sentence": "as quoted"}
    text = page.read_text()
    # Drawn with another font, things stand elsewhere.
    page.write_text(re.sub(r'(<text text-anchor="\w+" x="-?\d)', r"\g<1>7", text))
    said = "as quoted, but for the drawings, which this machine draws otherwise\n"
    assert command("verify", "quote.html") == (0, said, "")
    # But a drawing that shows something else is none of these.
    at = text.index("</text>")
    page.write_text(text[: at - 1] + "§" + text[at:])
    assert command("verify", "quote.html").status == 1


def test_verify_finds_every_character(folder: Path, command: Command) -> None:
    uncovered(folder)
    command("quote", "--report", "quote.html", *DATE)
    text = (folder / "quote.html").read_text()
    outside = [at for at in range(len(text)) if not in_drawing(text, at)]
    drawn = random.Random(1)
    begin = text.index('id="quoted">')
    places = drawn.sample(outside, 60) + drawn.sample(range(begin, len(text)), 60)
    for at in places:
        other = "0" if text[at] != "0" else "1"
        ok = False
        try:
            ok, sentence = report.verify((text[:at] + other + text[at + 1 :]).encode(), "quote.html")
            line = text.count("\n", 0, at) + 1
            assert at >= begin or sentence.startswith(f"quote.html:{line}: the page says "), sentence
        except Faults as faults:
            assert at >= begin and str(faults).startswith("quote.html: ")
        assert not ok, (at, text[at - 20 : at + 20])


def in_drawing(text: str, at: int) -> bool:
    begin = text.rfind('<div class="drawing', 0, at + 1)
    return begin >= 0 and text.index("</svg></div>", begin) + len("</svg></div>") > at


def test_the_first_line_that_differs(folder: Path, command: Command) -> None:
    command("quote", "--report", "quote.html", *DATE)
    page = folder / "quote.html"
    text = page.read_text()
    page.write_text(text.replace('<td>Sum</td><td class="number">350<', '<td>Sum</td><td class="number">250<'))
    line = text[: text.index("<td>Sum<")].count("\n") + 1
    ended = command("verify", "quote.html")
    assert ended.status == 1
    assert (
        ended.out
        == f'quote.html:{line}: the page says "class="number">250</td></tr>", and the quote "class="number">350</td></tr>"\n'
    )


@pytest.mark.parametrize("data", [b"", b"\xff", b"<html>", b'<script type="application/json" id="quoted">{}</script>'])
def test_no_page(data: bytes, folder: Path, command: Command) -> None:
    (folder / "quote.html").write_bytes(data)
    assert command("verify", "quote.html") == (2, "", "quote.html: this is no whole page of a quote\n")


def test_a_page_of_refused_files(folder: Path, command: Command) -> None:
    command("quote", "--report", "quote.html", *DATE)
    page = folder / "quote.html"
    packed = quoted(page.read_text())["question"]["packed"]
    page.write_text(page.read_text().replace(packed, packed[:-2]))
    said = "quote.html: the library refuses what is quoted: the question ends before its last field does\n"
    assert command("verify", "quote.html") == (2, "", said)


def test_another_library(folder: Path, command: Command, monkeypatch: pytest.MonkeyPatch) -> None:
    """What the page says is what the library says."""
    masks = [0] * 512
    masks[16 * 3 + 0] = 1
    monkeypatch.setattr(calls, "quote", lambda *_: calls.Quote(True, 4, 1, 0, tuple(masks)))
    monkeypatch.setattr(calls, "cheapest", lambda *_: calls.Cheapest(77, 4, 1))
    command("quote", "--report", "quote.html", *DATE)
    text = (folder / "quote.html").read_text()
    values = quoted(text)["quote"]
    assert values == {
        "covered": True,
        "links": [[], [], [], [["slow runs", 0]]],
        "extracts": ["slow runs"],
        "cheapest": {"extracts": ["fast readings"], "cost": 77},
    }
    assert ">Covered<" in text and '"number">77<' in text
    assert command("verify", "quote.html").status == 0
    monkeypatch.undo()
    monkeypatch.chdir(folder)
    assert command("verify", "quote.html").status == 1


def test_the_promise_is_in_the_words_of_the_promise(folder: Path, command: Command) -> None:
    promise = " ".join(
        re.sub(r" \([a-z]{1,2}\)|[*`]|^[-#]+", "", (TOP / "docs" / "PROMISE.md").read_text(), flags=re.M).split()
    )
    promise = promise.replace("quote for a day, quote_on, is", "quote for a day is").replace(
        "So the search", "The search"
    )
    template = (TOP / "python" / "yuthaqim" / "report.html.j2").read_text()
    lists = "".join(re.findall(r'<ul class="promise">(.*?)</ul>', template, re.DOTALL))
    sentences = re.findall(r"<li>(.*?)</li>", lists)
    assert len(sentences) > 12
    for sentence in sentences:
        assert sentence in promise, sentence


def test_the_colours_are_dark_on_white() -> None:
    def light(colour: str) -> float:
        parts = [int(colour[at : at + 2], 16) / 255 for at in (1, 3, 5)]
        red, green, blue = (((part + 0.055) / 1.055) ** 2.4 for part in parts)
        return float(0.2126 * red + 0.7152 * green + 0.0722 * blue)

    assert len(set(draw.COLOURS)) == 8
    for colour in (*draw.COLOURS, draw.RED, draw.INK):
        assert 1.05 / (light(colour) + 0.05) > 4.5


def test_without_graphviz(folder: Path, command: Command, monkeypatch: pytest.MonkeyPatch) -> None:
    monkeypatch.setenv("PATH", str(folder))
    said = "yuthaqim: to draw the page, Graphviz is needed: apt-get install graphviz\n"
    assert command("quote", "--report", "quote.html") == (3, "", said)
    assert not (folder / "quote.html").exists()


@pytest.mark.skipif(browser.PATH is None, reason="Chromium is not installed")
def test_in_a_browser(folder: Path, command: Command) -> None:
    pages = {"covered": 3, "uncovered": 4, "largest": None}
    for name, alter in (("covered", None), ("largest", largest), ("uncovered", uncovered)):
        made = shutil.copytree(folder, folder.parent / name)
        if alter is largest:
            largest(made, False)
        elif alter is uncovered:
            uncovered(made)
        command("quote", str(made), "--report", f"{name}.html", *DATE)
    with browser.Browser() as opened:
        for name, printed in pages.items():
            for width in (1000, 360):
                opened.open(folder / f"{name}.html", width)
                assert opened.value("document.documentElement.scrollWidth") <= width == opened.value("innerWidth")
            assert printed in (None, len(re.findall(rb"/Type\s*/Page\b", opened.printed())))
        assert set(opened.asked) == {(folder / f"{name}.html").resolve().as_uri() for name in pages}
        assert opened.said == []
