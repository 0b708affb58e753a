"""Books and answers: the sample's, by which names, from which book, and by whom it is decided."""

from __future__ import annotations

import json
import os
import shutil
import tempfile
from pathlib import Path
from typing import Any

import pytest
from conftest import TOP, Command, uncovered
from hypothesis import given, settings
from hypothesis import strategies as some
from test_another_library import refuses
from test_records import SHEET

import yuthaqim
from yuthaqim import Book, Catalogue, Extract, Kinds, Pattern, Sheet, calls, results
from yuthaqim.lists import read_lists

BOOK = "slow runs      4 pairs\nslow readings  6 pairs\nfast readings  4 pairs\nbook 52 of 65,536 bytes\n"


def test_book(folder: Path, command: Command) -> None:
    assert command("book") == (0, BOOK, "")
    record, catalogue = ((TOP / "samples" / "campaign" / name).read_bytes() for name in ("record", "catalogue"))
    assert (folder / "packed" / "book").read_bytes() == calls.make_book(catalogue, 0, record)
    assert sorted(os.listdir("lists")) == ["fast readings.csv", "slow readings.csv", "slow runs.csv"]
    assert (folder / "lists" / "fast readings.csv").read_text() == (
        "from,to,kind,from as,to as,link\n"
        "S1,S1-b,cut from,section,fast run,0\n"
        "S3,S3-a,cut from,section,fast run,0\n"
        "S1-b,R1,melted in,fast run,reading,1\n"
        "S3-a,R3,melted in,fast run,reading,1\n"
    )
    assert not [name for name in os.listdir() if name.startswith(".")]


def test_lists_are_those_of_now(folder: Path, command: Command) -> None:
    command("book")
    uncovered(folder)
    os.remove("question.dot")
    assert command("book").out == "slow readings  6 pairs\nbook 22 of 65,536 bytes\n"
    assert os.listdir("lists") == ["slow readings.csv"]
    (folder / "extracts.csv").write_text("extract\n")
    os.remove("extracts/slow readings.dot")
    assert command("book").out == "book 0 of 65,536 bytes\n"
    assert os.listdir("lists") == []


def test_answer(folder: Path, command: Command) -> None:
    command("book")
    os.remove("items.csv")
    os.remove("links.csv")
    assert command("answer") == (0, "8 pairs from slow readings, fast readings\n", "")
    assert (folder / "answer.csv").read_text() == SHEET
    every = "slow runs, slow readings ,fast readings"
    assert command("answer", "--from", every, "-o", "all.csv").out == (
        "8 pairs from slow runs, slow readings, fast readings\n"
    )
    assert (folder / "all.csv").read_text() == SHEET
    assert command("answer", "--from", "slow runs,fast readings") == (
        1,
        "",
        "slow runs, fast readings leave link 2 unmatched: slow run -[melted in]-> reading\n",
    )
    assert command("answer", "--from", "slow runs").err.startswith("slow runs leaves link 1 unmatched")
    assert command("answer", "--from", "").err.startswith("no extract is named, and link 0 is unmatched")
    assert command("answer", "--from", "slow ruins") == (
        2,
        "",
        '--from: there is no extract "slow ruins"; did you mean "slow runs"?\n',
    )


def test_answer_of_an_uncovered_question(folder: Path, command: Command) -> None:
    uncovered(folder)
    command("book")
    said = "uncovered: no extract matches link 1, section -[cut from]-> fast run\n"
    assert command("answer") == (1, "", said)
    assert not (folder / "answer.csv").exists()


def test_from_scripts(folder: Path, command: Command) -> None:
    command("book")
    campaign = yuthaqim.Campaign()
    rows = campaign.answer(extracts=campaign.quote().chosen).rows()
    assert rows == campaign.answer().rows() == campaign.search().rows()
    kind: dict[str, Any] = {"kind": "cut from", "from as": "section", "to as": "slow run", "link": 0}
    assert rows[0] == {"from": "S1", "to": "S1-a", **kind}


AGAIN = "make it again with yuthaqim book\n"
OTHER = "packed/book was made with another catalogue "


def swap(path: Path, *words: str) -> None:
    """Lets each of two words stand where the other does."""
    text = path.read_text().replace(words[0], "\0").replace(words[1], words[0]).replace("\0", words[1])
    path.write_text(text)


def test_names_are_those_of_the_book(folder: Path, command: Command) -> None:
    command("book")
    head, *rows = (folder / "items.csv").read_text().splitlines()
    (folder / "items.csv").write_text("\n".join([head, *sorted(rows)]))
    assert command("answer").status == 0
    assert (folder / "answer.csv").read_text() == SHEET
    command("pack")  # of the sorted table, beside the book
    command("answer")
    assert (folder / "answer.csv").read_text() == SHEET


def test_no_book(folder: Path, command: Command) -> None:
    assert command("answer") == (2, "", "packed/book: there is no book; make it with yuthaqim book\n")


@pytest.mark.parametrize(
    "text",
    [
        None,
        "",
        "[]",
        "{}",
        '{"format": 2, "files": {}}',
        "[" * 99_999,
        "\xff",
        '{"format": 1, "files": {"book": {"sha256": ""}}}',
        '{"format": 1, "files": {}, "other": "\\ud800"}',
    ],
)
def test_names_that_are_lost(text: str | None, folder: Path, command: Command) -> None:
    command("book")
    path = folder / "packed" / "names.json"
    path.unlink() if text is None else path.write_bytes(text.encode("latin-1"))
    assert command("answer") == (2, "", f"packed/book: names.json doesn't say what it was made with; {AGAIN}")
    assert command("book").status == command("answer").status == 0


def test_a_book_from_elsewhere(folder: Path, command: Command) -> None:
    command("book")
    (folder / "packed" / "book").write_bytes(b"\0")
    assert command("answer").err == f"packed/book: names.json doesn't say what it was made with; {AGAIN}"


def test_another_catalogue(folder: Path, command: Command) -> None:
    command("book")
    before = (folder / "extracts.csv").read_text()
    swap(folder / "extracts.csv", "slow runs", "slow readings")
    assert command("answer") == (2, "", f"{OTHER}(its order is another): {AGAIN}")
    (folder / "extracts.csv").write_text(before.replace("slow runs,100\n", ""))
    assert f"{OTHER}(slow runs is gone): {AGAIN}" in command("answer").err
    (folder / "extracts.csv").write_text("extract,one-way\nslow runs,\nslow readings,yes\nfast readings,\n")
    assert command("answer").err == f"{OTHER}(slow readings is one-way): {AGAIN}"
    (folder / "extracts.csv").write_text(before + "others,1\n")
    (folder / "extracts" / "others.dot").write_bytes((folder / "extracts" / "slow runs.dot").read_bytes())
    assert command("answer").err == f"{OTHER}(others is new): {AGAIN}"
    (folder / "extracts.csv").write_text(before.replace("100", "7"))
    assert command("answer").status == 0
    swap(folder / "extracts" / "slow readings.dot", "cut from", "repeated as")
    assert command("answer").err.endswith(f"{OTHER}(slow readings is another picture): {AGAIN}")
    assert command("book").status == 0
    assert "another catalogue" not in command("answer").err


def test_a_kind_renumbered(folder: Path, command: Command) -> None:
    """Also where the catalogue has the same bytes: two kinds and two extracts change places."""
    (folder / "extracts.csv").write_text("extract\nslow readings\nfast readings\n")
    command("book")
    swap(folder / "kinds.csv", "slow run", "fast run")
    told = f'{OTHER}(the kind "fast run" had the number 2): {AGAIN}'
    assert command("answer").err.endswith(told)
    before = yuthaqim.Campaign().catalogue.packed
    swap(folder / "extracts.csv", "slow", "fast")
    assert yuthaqim.Campaign().catalogue.packed != before
    assert command("answer").err.endswith(told)


def test_new_names_of_kinds_and_extracts(folder: Path, command: Command) -> None:
    command("book")
    for path in folder.rglob("*.*"):
        if path.suffix in (".dot", ".csv"):
            path.write_text(path.read_text().replace("reading", "value"))
    for name in ("slow", "fast"):
        (folder / "extracts" / f"{name} readings.dot").rename(folder / "extracts" / f"{name} values.dot")
    assert command("answer").out == "8 pairs from slow values, fast values\n"
    assert (folder / "answer.csv").read_text() == SHEET.replace("reading", "value")


def crowded(folder: Path, links: int) -> None:
    """A record on which the extract `slow runs` lists so many pairs."""
    rows = [f"S{n // 4_000},r{n % 4_000},cut from\n" for n in range(links)]
    (folder / "links.csv").write_text("from,to,kind\n" + "".join(rows))
    items = [f"S{n},section\n" for n in range(3)] + [f"r{n},slow run\n" for n in range(4_000)]
    (folder / "items.csv").write_text("item,kinds\n" + "".join(items))


def test_lists_that_are_too_long(folder: Path, command: Command) -> None:
    extracts = [f"x{n}" for n in range(8)]
    (folder / "extracts.csv").write_text("extract\n" + "".join(f"{name}\n" for name in extracts))
    for name in extracts:
        (folder / "extracts" / f"{name}.dot").write_bytes((folder / "extracts" / "slow runs.dot").read_bytes())
    crowded(folder, 2_900)
    ended = command("book")
    assert ended.status == 2
    assert ended.err.splitlines()[-1] == (
        "the lists take 69,616 bytes; a book has at most 65,536: the question needs its search"
    )
    assert not (folder / "packed").exists() and not (folder / "lists").exists()


def test_other_libraries(folder: Path, command: Command, monkeypatch: pytest.MonkeyPatch) -> None:
    """Other books, answers and refusals: all output follows."""
    command("book")
    question = yuthaqim.Campaign().question
    other = calls.write_sheet(question.packed, [1, 1, 4, 3, 1, 4, 3, 1, 4, 3, 1, 4, 3])
    monkeypatch.setattr(calls, "answer", lambda *_: other)
    assert command("answer").out == "4 pairs from slow readings, fast readings\n"
    assert (folder / "answer.csv").read_text().splitlines()[1] == "V1,R1,cut from,section,slow run,0"
    monkeypatch.setattr(calls, "search", lambda *_: other)
    command("search")
    assert (folder / "sheet.csv").read_bytes() == (folder / "answer.csv").read_bytes()
    none = calls.write_book(yuthaqim.Campaign().catalogue.packed, [0, 0, 0])
    monkeypatch.setattr(calls, "make_book", lambda *_: none)
    assert command("book").out.splitlines()[1] == "slow readings  0 pairs"
    for number in range(1, 22):
        for name in ("book", "answer", "search", "show"):
            call = {"book": "make_book", "show": "show_uncovered"}.get(name, name)
            monkeypatch.setattr(calls, call, refuses(number, 2))
            ended = command(name)
            assert ended.status == (1 if number == 11 else 2)
            assert ended.out == "" and ended.err.count("\n") == 1


@some.composite
def books(draw: Any) -> tuple[Catalogue, list[int]]:
    """A catalogue, and the content of a book of it."""
    chance = draw(some.randoms(use_true_random=False))
    kinds = Kinds(["section", "run"], ["cut from"])
    extracts, content = [], []
    for number in range(chance.randint(0, 5)):
        links = chance.randint(1, 4)
        pattern = calls.write_pattern([2, links, 0, 1, *(field for link in range(links) for field in (0, 1, link))])
        extracts.append(Extract(f"x{number}", Pattern.unpack(pattern, kinds)))
        content.append(chance.randint(0, 1))
        for _ in range(links if content[-1] else 0):
            pairs = sorted({(chance.randrange(4_096), chance.randrange(4_096)) for _ in range(chance.randint(1, 9))})
            content += [len(pairs), *(end for pair in pairs for end in pair)]
    return Catalogue.of(extracts), content


@settings(max_examples=100)
@given(books())
def test_round_trips(drawn: tuple[Catalogue, list[int]]) -> None:
    """From bytes to rows and back."""
    catalogue, content = drawn
    packed = calls.write_book(catalogue.packed, content)
    book = Book.unpack(packed, catalogue, ())
    again: list[int] = []
    for sheet in book.sheets:
        assert Sheet.unpack(sheet.packed, sheet.pattern, ()) == sheet
        rows = sheet.rows()
        again.append(1 if rows else 0)
        for link in range(len(sheet.pattern.links) if rows else 0):
            own = [row for row in rows if row["link"] == link]
            again += [len(own), *(int(row[side]) for row in own for side in ("from", "to"))]
    assert again == content


def test_names_json_has_what_is_needed(folder: Path, command: Command) -> None:
    command("book")
    said = json.loads((folder / "packed" / "names.json").read_bytes())["files"]
    assert said["book"]["catalogue"] == said["catalogue"]["sha256"]
    assert said["book"]["record"] == said["record"]["sha256"]
    assert said["book"]["items"] == said["record"]["items"]
    assert said["book"]["kinds"]["links"] == {"cut from": 0, "melted in": 1, "repeated as": 2}


# The lists that a client holds.


def client(folder: Path, command: Command) -> None:
    """Leaves what a client has: no record and no book."""
    command("book")
    for name in ("items.csv", "links.csv"):
        os.remove(name)
    shutil.rmtree("packed")


def test_answer_by_lists(folder: Path, command: Command) -> None:
    client(folder, command)
    every = "8 pairs from slow runs, slow readings, fast readings\n"
    assert command("answer", "--lists", "lists") == (0, every, "")
    assert sorted((folder / "answer.csv").read_text().splitlines()) == sorted(SHEET.splitlines())
    os.remove("lists/slow runs.csv")
    for words in ((), ("--from", "slow readings,fast readings")):
        ended = command("answer", "--lists", "lists", *words)
        assert ended == (0, "8 pairs from slow readings, fast readings\n", "")
    assert sorted((folder / "answer.csv").read_text().splitlines()) == sorted(SHEET.splitlines())
    os.remove("lists/fast readings.csv")
    told = "slow readings leaves link 1 unmatched: section -[cut from]-> fast run\n"
    assert command("answer", "--lists", "lists") == (1, "", told)
    told = "lists/fast readings.csv: there is no such list\n"
    assert command("answer", "--lists", "lists", "--from", "fast readings") == (2, "", told)
    assert command("answer", "--lists", "none") == (2, "", "none: there is no such folder\n")


HEAD = "from,to,kind,from as,to as,link\n"
ROW = "S1,S1-a,cut from,section,slow run,0\n"
OWN = "is this a list of another catalogue?"

# fmt: off
LISTS = [
    (ROW.replace(",0", ",2"), '2: column "link": "2" is no link of slow readings, 0 to 1'),
    (ROW.replace("cut from", "melted in"), f'2: column "kind": "melted in" stands here, and link 0 of slow readings has "cut from" there: {OWN}'),
    (ROW.replace("section", "run"), f'2: column "from as": "run" stands here, and link 0 of slow readings has "section" there: {OWN}'),
    (ROW.replace("S1,", ","), '2: column "from": a name is wanted, and there is none'),
    (ROW + "S1-a,R1,melted in,slow run,reading,1\n" + ROW, "4: this pair stands on line 2 already"),
    (ROW, " link 1, slow run -[melted in]-> reading, has no row, and a list has rows for each or none"),
]
# fmt: on


@pytest.mark.parametrize("rows, said", LISTS)
def test_lists_that_are_wrong(rows: str, said: str, folder: Path, command: Command) -> None:
    client(folder, command)
    (folder / "lists" / "slow readings.csv").write_text(HEAD + rows)
    assert command("answer", "--lists", "lists") == (2, "", f"lists/slow readings.csv:{said}\n")


def test_lists_that_name_too_much(folder: Path, command: Command) -> None:
    client(folder, command)
    rows = "".join(f"a{n},b{n},cut from,section,slow run,0\n" for n in range(2_049))
    (folder / "lists" / "slow runs.csv").write_text(HEAD + rows)
    told = "lists: 4,098 items are named; a record has at most 4,096\n"
    assert command("answer", "--lists", "lists", "--from", "slow runs") == (2, "", told)


@settings(max_examples=60)
@given(books(), some.randoms(use_true_random=False))
def test_lists_to_a_book(drawn: tuple[Catalogue, list[int]], chance: Any) -> None:
    """The lists of a book are one: with items called by names in their order, and rows in any, its own bytes."""
    catalogue, content = drawn
    packed = calls.write_book(catalogue.packed, content)
    with tempfile.TemporaryDirectory() as room:
        order: dict[str, int] = {}
        for extract, sheet in zip(catalogue.extracts, Book.unpack(packed, catalogue, ()).sheets):
            rows = sheet.rows()
            chance.shuffle(rows)
            order.update((row[side], 0) for row in rows for side in ("from", "to"))
            Path(room, f"{extract.name}.csv").write_bytes(results.encode(tuple(row.values()) for row in rows))
        held = read_lists(room, catalogue, None)
    assert held.names == tuple(order) and held.extracts == tuple(extract.name for extract in catalogue.extracts)
    own = [sheet.rows() for sheet in Book.unpack(packed, catalogue, ()).sheets]
    again = [sheet.rows() for sheet in Book.unpack(held.book, catalogue, held.names).sheets]
    for rows in (*own, *again):
        rows.sort(key=lambda row: (row["link"], row["from"], row["to"]))
    assert own == again


# Several questions.


def several(folder: Path, number: int) -> None:
    (folder / "questions").mkdir()
    question = (folder / "question.dot").read_bytes()
    (folder / "question.dot").unlink()
    for name in range(number):
        drawn = (folder / "extracts" / "slow runs.dot").read_bytes() if name % 2 else question
        (folder / "questions" / f"q{name:02}.dot").write_bytes(drawn)


def test_several(folder: Path, command: Command) -> None:
    command("book")
    several(folder, 10)
    assert command("check").out == "10 questions; 3 extracts; record 12 items, 11 links: accepted\n"
    lines = [f"q{name:02}: {4 if name % 2 else 8} pairs" for name in range(10)]
    said = [*lines[:8], "8 questions from 3 lists", *lines[8:], "2 questions from 3 lists"]
    assert command("answer").out.splitlines() == said
    assert (folder / "answers" / "q08.csv").read_text() == SHEET
    assert len(os.listdir("answers")) == 10
    said = command("answer", "--from", "slow runs,slow readings,fast readings").out.splitlines()
    assert said[8] == "8 questions from 3 lists" and (folder / "answers" / "q08.csv").read_text() == SHEET
    assert command("answer", "--lists", "lists").out.splitlines()[:8] == lines[:8]
    assert command("answer", "-o", "x.csv").err == "-o: several questions have their answers in answers/\n"
    (folder / "question.dot").write_bytes((folder / "questions" / "q00.dot").read_bytes())
    assert command("answer").err == "question.dot: there are questions/ too; one of the two goes\n"


def test_one_of_several_is_uncovered(folder: Path, command: Command) -> None:
    uncovered(folder)
    command("book")
    several(folder, 1)
    (folder / "questions" / "q01.dot").write_text('digraph { section -> "slow run" [label="cut from"] }')
    told = "q00: uncovered: no extract matches link 1, section -[cut from]-> fast run\n"
    assert command("answer") == (1, "", told) and not (folder / "answers").exists()


def test_several_are_packed_as_the_programs_read_them(folder: Path, command: Command) -> None:
    several(folder, 2)
    assert command("pack").status == 0
    campaign = yuthaqim.Campaign(several=True)
    packed = b"".join(question.packed for question in campaign.questions.values())
    assert (folder / "packed" / "questions").read_bytes() == packed
    assert (folder / "packed" / "number").read_text() == "2\n"
