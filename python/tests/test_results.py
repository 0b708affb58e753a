"""Results as files: XLSX and JSON beside CSV, those of several campaigns in one, and what is left alone."""

from __future__ import annotations

import csv
import io
import os
import shutil
import subprocess
from pathlib import Path

import openpyxl  # type: ignore[import]
import pytest
from conftest import SAMPLE, TOP, Command, uncovered
from test_workbooks import workbook

from yuthaqim import Fault, results, workbooks


def cells(path: Path) -> list[list[str]]:
    """What a workbook says, in which every cell is text."""
    rows = list(openpyxl.load_workbook(path).active.iter_rows())
    assert {(cell.data_type, cell.number_format) for row in rows for cell in row} == {("s", "@")}
    return [[cell.value for cell in row] for row in rows]


@pytest.mark.parametrize("name", ["answer", "search"])
def test_workbooks(name: str, folder: Path, command: Command) -> None:
    command("book")
    said = command(name).out
    table = (folder / {"answer": "answer.csv", "search": "sheet.csv"}[name]).read_text()
    assert command(name, "-o", "x.xlsx") == (0, said, "")
    assert cells(folder / "x.xlsx") == list(csv.reader(io.StringIO(table)))
    assert command(name, "-o", "x.ods") == (
        2,
        "",
        "x.ods: a result is written to a file whose name ends with .csv, .json or .xlsx\n",
    )


HOSTILE = ["=1+2", "+49", "-1", "@x", "007", "1e5", "2026-03-01", "#N/A", "TRUE", "'x", "_x0041_", "_x005F_x", "a_x000D_b"]
HOSTILE += ['"', "<b>&amp;", "]]>", "氷 🧊", "سلام", "a  b", "x" * 32_767]


def test_names_stay_what_they_are(folder: Path, command: Command) -> None:
    """Also through the program's own reader: a result's sheet as the links of a record."""
    rows = [(name, "R", "cut from", "section", "slow run", 0) for name in HOSTILE]
    (folder / "x.xlsx").write_bytes(results.encode(rows, "x.xlsx"))
    told = [row[0] for row in cells(folder / "x.xlsx")[1:]]
    assert [workbooks._unescaped(name) for name in told] == HOSTILE and told[10] == "_x005F_x0041_"
    assert read("x.xlsx") == HOSTILE


def read(path: str) -> list[str]:
    """The first column of a result, by the command's own reader."""
    wrong: list[Fault] = []
    table = workbooks.Workbook(path).read("rows", results.COLUMNS, wrong, (), ())
    assert table and not wrong
    return list(table.column("from"))


def test_as_libreoffice_saves_it() -> None:
    """All but two names that look like escapes of `_` and of a line end, which openpyxl reads otherwise there."""
    stored = read(str(TOP / "python" / "tests" / "results" / "libreoffice.xlsx"))
    assert stored == [{"_x005F_x": "_x", "a_x000D_b": "a\rb"}.get(name, name) for name in HOSTILE[:-1]]


def test_a_record_out_of_a_result(folder: Path, command: Command) -> None:
    """The first three columns are those of `links.csv`."""
    command("search", "-o", "x.xlsx")
    workbook(folder)
    book = openpyxl.load_workbook("campaign.xlsx")
    sheet = book.create_sheet("links")
    for row in {tuple(row[:3]): row for row in cells(folder / "x.xlsx")}.values():  # a link may be listed twice
        sheet.append(row)
    book.save("campaign.xlsx")
    os.remove("links.csv")
    assert command("search").out == "8 pairs\n"


def test_what_no_workbook_takes(folder: Path, command: Command, monkeypatch: pytest.MonkeyPatch) -> None:
    for name in ("items.csv", "links.csv"):
        (folder / name).write_text((folder / name).read_text().replace("S1,", "S" * 32_768 + ","))
    ended = command("search", "-o", "x.xlsx")
    said = f'x.xlsx: "{"S" * 59}…" is too long for a cell, at most 32,767 characters; write .csv\n'
    assert ended == (2, "", said) and not (folder / "x.xlsx").exists()
    monkeypatch.setattr(workbooks, "_WRITTEN_ROWS", 4)
    assert command("search", "-o", "x.xlsx").status == 2
    shutil.copy(SAMPLE / "items.csv", "items.csv")
    shutil.copy(SAMPLE / "links.csv", "links.csv")
    assert command("search", "-o", "x.xlsx").err == "x.xlsx: a sheet has at most 4 rows; write .csv\n"


def test_without_openpyxl(folder: Path) -> None:
    script = "import sys; sys.modules['openpyxl'] = None; from yuthaqim.cli import main; sys.exit(main(sys.argv[1:]))"
    words = ["/usr/bin/python3", "-c", script, "search", "-o", "x.xlsx"]
    ended = subprocess.run(words, cwd=folder, capture_output=True, text=True)
    said = "yuthaqim: to write x.xlsx, openpyxl is needed: apt-get install python3-openpyxl\n"
    assert (ended.returncode, ended.stdout, ended.stderr) == (3, "", said)


# Several campaigns in one file.


@pytest.fixture
def folders(tmp_path: Path, monkeypatch: pytest.MonkeyPatch, command: Command) -> list[str]:
    """Two campaigns that are covered, and between them one that isn't, each with its book."""
    names = ["2026-03", "2026-04", "2026-05"]
    monkeypatch.chdir(tmp_path)
    for name in names:
        shutil.copytree(SAMPLE, name)
    uncovered(Path("2026-04"))
    assert command("book", *names).status == 0
    return names


UNCOVERED = "2026-04: uncovered: no extract matches link 1, section -[cut from]-> fast run\n"
LINES = "2026-03: 8 pairs from slow readings, fast readings\n2026-05: 8 pairs from slow readings, fast readings\n"


def test_gathered(folders: list[str], command: Command) -> None:
    assert command("answer", *folders, "-o", "all.csv") == (1, LINES, UNCOVERED)
    assert not Path("2026-03/answer.csv").exists()
    command("answer", folders[0])
    head, *rows = Path("2026-03/answer.csv").read_text().splitlines()
    gathered = [f"{name},{row}" for name in ("2026-03", "2026-05") for row in rows]
    assert Path("all.csv").read_text().splitlines() == [f"campaign,{head}", *gathered]
    command("answer", *folders, "-o", "all.xlsx")
    assert cells(Path("all.xlsx")) == list(csv.reader(Path("all.csv").open()))
    ended = command("answer", *folders, "-o", "all.json", "--json")
    assert [one["status"] for one in ended.json["campaigns"]] == [0, 1, 0]
    assert '"campaign": "2026-05"' in Path("all.json").read_text()
    assert command("search", *folders, "-o", "all.csv").out == "2026-03: 8 pairs\n2026-04: 8 pairs\n2026-05: 8 pairs\n"
    assert len(Path("all.csv").read_text().splitlines()) == 25


def test_gathered_where_nothing_can_be(folders: list[str], command: Command) -> None:
    assert command("answer", folders[1], "none", "-o", "all.csv").status == 2 and not Path("all.csv").exists()
    said = "all.ods: a result is written to a file whose name ends with .csv, .json or .xlsx\n"
    assert command("answer", *folders, "-o", "all.ods") == (2, "", said)
    ended = command("answer", *folders, "-o", "none/all.csv")
    assert (ended.status, ended.out) == (3, "") and ended.err.startswith(UNCOVERED + "yuthaqim: none/")
    os.mkdir("2026-05/questions")
    os.rename("2026-05/question.dot", "2026-05/questions/one.dot")
    ended = command("answer", *folders, "-o", "all.csv")
    assert ended.status == 2 and ended.err.endswith("-o: several questions have their answers in answers/\n")
    assert {row["campaign"] for row in csv.DictReader(Path("all.csv").open())} == {"2026-03"}


# What is left alone.


def state(folder: Path) -> dict[str, tuple[int, int]]:
    paths = (path for path in folder.rglob("*") if path.is_file())
    return {str(path): (path.stat().st_ino, path.stat().st_mtime_ns) for path in paths}


@pytest.mark.parametrize("name, file", [("pack", "packed/record"), ("book", "lists/slow runs.csv"), ("search", "sheet.csv"), ("answer", "answer.csv")])  # fmt: skip
def test_what_is_up_to_date_is_left_alone(name: str, file: str, folder: Path, command: Command) -> None:
    command("book")
    said = command(name)
    before = state(folder)
    assert command(name) == said and state(folder) == before
    assert command(name, "--again") == said and state(folder)[str(folder / file)] != before[str(folder / file)]
    kept = (folder / file).read_bytes()
    for damaged in (None, b"", kept + b"\n"):
        (folder / file).unlink() if damaged is None else (folder / file).write_bytes(damaged)
        assert command(name) == said and (folder / file).read_bytes() == kept


def test_a_list_too_many_goes(folder: Path, command: Command) -> None:
    command("book")
    (folder / "lists" / "others.csv").touch()
    command("book")
    assert sorted(os.listdir("lists")) == ["fast readings.csv", "slow readings.csv", "slow runs.csv"]
    (folder / "packed" / "one_way").write_text("0\n")
    command("book")
    assert not (folder / "packed" / "one_way").exists()


def test_answers_are_left_alone(folder: Path, command: Command) -> None:
    command("book")
    (folder / "questions").mkdir()
    (folder / "question.dot").rename(folder / "questions" / "one.dot")
    command("answer")
    before = state(folder)
    command("answer")
    assert state(folder) == before
    command("answer", "--again")
    assert state(folder) != before
