"""The sample: the same campaign as the packed one, and what README does with it."""

from __future__ import annotations

import re
import subprocess
from pathlib import Path

import pytest
from conftest import SAMPLE, TOP, Command, uncovered

import yuthaqim
from yuthaqim import calls

PACKED = TOP / "samples" / "campaign"

COVERED = """\
covered
link 0  section -[cut from]-> slow run   by slow runs, slow readings
link 1  section -[cut from]-> fast run   by fast readings
link 2  slow run -[melted in]-> reading  by slow readings
link 3  fast run -[melted in]-> reading  by fast readings
extracts  slow readings, fast readings
"""

UNCOVERED = """\
uncovered
link 0  section -[cut from]-> slow run   by slow readings
link 1  section -[cut from]-> fast run   by none
link 2  slow run -[melted in]-> reading  by slow readings
link 3  fast run -[melted in]-> reading  by none
extracts  none
"""


def test_packs_to_the_packed_sample() -> None:
    campaign = yuthaqim.Campaign(str(SAMPLE))
    assert campaign.question.packed == (PACKED / "question").read_bytes()
    assert campaign.catalogue.packed == (PACKED / "catalogue").read_bytes()
    assert campaign.record.packed == (PACKED / "record").read_bytes()
    charges = "".join(f"{extract.charge}\n" for extract in campaign.catalogue.extracts)
    assert charges == (PACKED / "charges").read_text()
    assert campaign.notes == ()


def test_uncovered_sample_packs_to_the_packed_one(folder: Path) -> None:
    uncovered(folder)
    campaign = yuthaqim.Campaign()
    assert campaign.question.packed == (TOP / "samples" / "uncovered" / "question").read_bytes()
    assert campaign.catalogue.packed == (TOP / "samples" / "uncovered" / "catalogue").read_bytes()


def test_covered(folder: Path, command: Command) -> None:
    assert command("quote") == (0, COVERED, "")
    assert command("cheapest") == (0, "cheapest  slow readings, fast readings\ncost      350 cents\n", "")
    assert command("check") == (0, "question 4 items, 4 links; 3 extracts; record 12 items, 11 links: accepted\n", "")


def test_uncovered(folder: Path, command: Command) -> None:
    uncovered(folder)
    assert command("quote") == (1, UNCOVERED, "")
    assert command("check") == (0, "question 4 items, 4 links; 1 extract; record 12 items, 11 links: accepted\n", "")
    part = """\
link 0  section -[cut from]-> slow run
link 1  slow run -[melted in]-> reading
part  2 of 4 links, drawn in part.dot
"""
    assert command("part") == (0, part, "")
    drawn = """\
digraph part {
    "section"
    "slow run"
    "reading"
    "section" -> "slow run" [label="cut from"]
    "slow run" -> "reading" [label="melted in"]
}
"""
    assert (folder / "part.dot").read_text() == drawn


def test_the_part_of_a_covered_question_is_the_question(folder: Path) -> None:
    campaign = yuthaqim.Campaign()
    assert campaign.part().packed == campaign.question.packed


def test_without_extracts(folder: Path, command: Command) -> None:
    (folder / "extracts.csv").write_text("extract\n")
    for drawing in (folder / "extracts").iterdir():
        drawing.unlink()
    ended = command("quote")
    assert ended.status == 1 and ended.out.count("by none") == 4 and ended.err == ""
    assert command("part") == (1, "", "uncovered: no extract matches any link of the question\n")


def test_new(tmp_path: Path, monkeypatch: pytest.MonkeyPatch, command: Command) -> None:
    monkeypatch.chdir(tmp_path)
    ended = command("new", "campaign")
    assert ended.status == 0 and ended.out.splitlines()[-1] == "Then: yuthaqim quote campaign"
    made = {
        path.relative_to(tmp_path / "campaign"): path.read_bytes() for path in tmp_path.rglob("*.*") if path.is_file()
    }
    assert made == {path.relative_to(SAMPLE): path.read_bytes() for path in SAMPLE.rglob("*.*") if path.is_file()}
    assert command("quote", "campaign") == (0, COVERED, "")
    assert command("new", "campaign") == (2, "", "campaign: it is there already\n")
    assert [path.name for path in tmp_path.iterdir()] == ["campaign"]


@pytest.mark.parametrize("text", ["README.md", "docs/PLANNERS.md"])
def test_what_is_told_can_be_walked(text: str, tmp_path: Path) -> None:
    """Each `$ bin/yuthaqim ..` of the text, in a folder of its own, prints what stands below it."""
    (tmp_path / "bin").symlink_to(TOP / "bin")
    blocks = re.findall(r"(?:^    .*\n)+", (TOP / text).read_text(), re.MULTILINE)
    walks = [re.sub("^    ", "", block, flags=re.MULTILINE) for block in blocks if "$ bin/yuthaqim" in block]
    assert walks
    for walk in walks:
        steps = re.findall(r"^\$ (.*)\n((?:(?!\$ ).*\n)*)", walk, re.MULTILINE)
        for step, said in steps:
            ended = subprocess.run(step, shell=True, cwd=tmp_path, capture_output=True, text=True)
            assert ended.stdout + ended.stderr == said, step


def test_every_call_of_the_header_is_there() -> None:
    header = (TOP / "include" / "yuthaqim.h").read_text()
    declared = set(re.findall(r"^struct yuthaqim_\w+ yuthaqim_(\w+)\(", header, re.MULTILINE))
    assert "quote" in declared and len(declared) > 25
    left = {"spread_terms"}  # the calls for a day spread their terms themselves
    assert declared - left == {name for name in vars(calls) if name in declared}


def test_the_packed_campaign_by_bare_calls() -> None:
    question, catalogue, record = ((PACKED / name).read_bytes() for name in ("question", "catalogue", "record"))
    book = calls.make_book(catalogue, 0, record)
    sheet = calls.search(question, record)
    index = calls.make_index(record)
    assert calls.check_index(record, index) == len(index) == 13
    assert calls.search_indexed(question, record, index) == sheet
    assert calls.answer(question, catalogue, 0, book) == sheet == calls.answer_from(question, catalogue, 0, 7, book)
    several = calls.answer_several(question + question, 2, catalogue, 0, book)
    assert several.answers == 2 * sheet and several.sheets == 2
    for read, write, beside in (
        (calls.read_pattern, calls.write_pattern, question),
        (calls.read_catalogue, calls.write_catalogue, catalogue),
        (calls.read_record, calls.write_record, record),
    ):
        assert write(read(beside)) == beside
    assert calls.write_sheet(question, calls.read_sheet(question, sheet)) == sheet
    assert calls.write_book(catalogue, calls.read_book(catalogue, book)) == book
    terms = [calls.Term(10, 20), calls.Term(10, 15), calls.Term(12, 20)]
    assert calls.quote_on(question, catalogue, 0, terms, 12) == calls.quote(question, catalogue, 0)
    assert calls.first_day(question, catalogue, 0, terms, 0) == 12
    assert calls.first_day(question, catalogue, 0, terms, 15) is None
    assert calls.cheapest_on(question, catalogue, 0, terms, 12, [100, 200, 150]) == (350, 6, 6)
    assert calls.cheapest(question, catalogue, 0, [100, 200, 150]) == (350, 6, 6)
    assert calls.part(question, catalogue, 0, book) == (question, sheet)
    part, _ = calls.part_on(question, catalogue, 0, terms, 10, book)
    first, second = calls.show_on(question, catalogue, 0, terms, 10)
    alone = (TOP / "samples" / "uncovered" / "catalogue").read_bytes()
    assert (first, second) == calls.show_uncovered(question, alone, 0)
    assert part == calls.part(question, alone, 0, calls.make_book(alone, 0, record))[0]
    assert calls.sort_record(bytes.fromhex("0000000000")[:4]) == calls.write_record([0, 0])
    with pytest.raises(calls.Refused) as refused:
        calls.show_uncovered(question, catalogue, 0)
    assert (refused.value.number, refused.value.detail) == (13, 0)
    assert str(refused.value) == "the question is covered: there is nothing to show"
    with pytest.raises(calls.Refused) as refused:
        calls.quote(question, catalogue, 8)
    assert (refused.value.number, refused.value.detail) == (19, 3)
