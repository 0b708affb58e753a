"""Several folders in one command, and the overview of many."""

from __future__ import annotations

import csv
import io
import shutil
from pathlib import Path

import pytest
from conftest import SAMPLE, Command, uncovered


@pytest.fixture
def folders(tmp_path: Path, monkeypatch: pytest.MonkeyPatch) -> list[str]:
    """A campaign that is covered, one that isn't, and one with a fault."""
    for name in ("2026-03", "2026-04", "2026-05"):
        shutil.copytree(SAMPLE, tmp_path / name)
    uncovered(tmp_path / "2026-04")
    (tmp_path / "2026-05" / "question.dot").write_text("digraph {}")
    monkeypatch.chdir(tmp_path)
    return ["2026-03", "2026-04", "2026-05"]


FAULT = "2026-05/question.dot: no link is drawn\n"

SAID = {
    "check": (2, "2026-03: question 4 items, 4 links; 3 extracts; record 12 items, 11 links: accepted\n2026-04: question 4 items, 4 links; 1 extract; record 12 items, 11 links: accepted\n", FAULT),
    "quote": (2, "2026-03: covered by slow readings, fast readings\n2026-04: uncovered\n", FAULT),
    "cheapest": (
        2,
        "2026-03: slow readings, fast readings for 350 cents\n",
        f"2026-04: uncovered: no extract matches link 1, section -[cut from]-> fast run\n{FAULT}",
    ),
    "part": (
        2,
        "2026-03: part  4 of 4 links, drawn in 2026-03/part.dot\n2026-04: part  2 of 4 links, drawn in 2026-04/part.dot\n",
        FAULT,
    ),
}  # fmt: skip


@pytest.mark.parametrize("name", SAID)
def test_a_line_for_each(name: str, folders: list[str], command: Command) -> None:
    assert command(name, *folders) == SAID[name]


def test_the_status_is_the_highest(folders: list[str], command: Command) -> None:
    assert command("quote", folders[0], folders[0]).status == 0
    assert command("quote", folders[1], folders[0]).status == 1
    assert command("quote", "none", *folders[:2]).err == "none: there is no such folder\n"
    (Path(folders[1]) / "part.dot").mkdir()
    ended = command("part", *folders)
    assert ended.status == 3 and ended.out.startswith("2026-03: part  4 of 4")


def test_json(folders: list[str], command: Command) -> None:
    campaigns = command("quote", "--json", *folders).json["campaigns"]
    assert [(one["campaign"], one["status"]) for one in campaigns] == list(zip(folders, (0, 1, 2)))
    alone = command("quote", "--json", folders[0]).json
    assert {"format": 1, **campaigns[0]} == {**alone, "campaign": folders[0], "status": 0}
    assert campaigns[2]["faults"][0]["message"] == "no link is drawn"


def test_status(folders: list[str], command: Command) -> None:
    ended = command("status", *folders)
    rows = list(csv.DictReader(io.StringIO(ended.out)))
    assert ended.status == 2 and ended.err == FAULT
    assert [row["campaign"] for row in rows] == folders
    assert [row["question"] for row in rows] == ["4 items, 4 links", "4 items, 4 links", "1 fault"]
    assert [row["covered"] for row in rows] == ["yes", "no", ""]
    assert [row["extracts"] for row in rows] == ["slow readings;fast readings", "", ""]
    assert rows[0]["question digest"] == rows[1]["question digest"] != rows[2]["question digest"] == ""
    assert rows[0]["catalogue digest"] != rows[1]["catalogue digest"]
    assert command("status", *folders[:2]).status == 0
    assert command("status", "--json", *folders).json["campaigns"] == rows


def test_status_of_books_and_answers(folders: list[str], command: Command) -> None:
    def told(folder: str = folders[0]) -> tuple[str, str]:
        (row,) = csv.DictReader(io.StringIO(command("status", folder).out))
        return row["book"], row["answer"]

    folder = Path(folders[0])
    assert told() == ("none", "none")
    command("book", *folders[:2])
    assert told() == told(folders[1]) == ("made", "none")
    command("answer", folders[0])
    assert told() == ("made", "made")
    (folder / "question.dot").write_text('digraph { section -> "slow run" [label="cut from"] }')
    assert told() == ("made", "other")
    command("answer", folders[0])
    assert told() == ("made", "made")
    (folder / "extracts.csv").write_text("extract\nslow readings\nslow runs\nfast readings\n")
    assert told() == ("other catalogue", "other")
    (folder / "packed" / "names.json").unlink()
    assert told() == ("other catalogue", "other")
    (folder / "packed" / "book").unlink()
    assert told() == ("none", "other")
    (Path(folders[1]) / "answer.csv").touch()  # and the question is uncovered
    assert told(folders[1]) == ("made", "other")


def test_status_of_several_questions(folders: list[str], command: Command) -> None:
    folder = Path(folders[0])
    (folder / "questions").mkdir()
    (folder / "question.dot").rename(folder / "questions" / "both.dot")
    shutil.copy(folder / "extracts" / "slow runs.dot", folder / "questions")
    command("book", folders[0])

    def told() -> list[str]:
        (row,) = csv.DictReader(io.StringIO(command("status", folders[0]).out))
        return list(row.values())[1:6]

    assert told() == ["2 questions", "yes", "slow runs;slow readings;fast readings", "made", "none"]
    command("answer", folders[0])
    assert told()[-1] == "made"
    (folder / "answers" / "third.csv").touch()
    assert told()[-1] == "other"
    (folder / "extracts.csv").write_text("extract\nslow runs\n")
    assert told() == ["2 questions", "no", "slow runs", "other catalogue", "other"]
