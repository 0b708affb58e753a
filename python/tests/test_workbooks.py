"""Workbooks: sheets in the place of tables, as LibreOffice, Excel and openpyxl write them."""

from __future__ import annotations

import csv
import io
import os
import random
import subprocess
import zipfile
from datetime import datetime
from pathlib import Path
from typing import Any

import openpyxl  # type: ignore[import]
import pytest
from conftest import TOP, Command, tables

STORED = TOP / "python" / "tests" / "workbooks"


def workbook(folder: Path) -> Any:
    """Puts a workbook in the place of the tables and pictures of a campaign, and gives it to be altered and saved."""
    tables(folder)
    book = openpyxl.Workbook()
    book.remove(book.active)
    links = []
    for path in sorted((folder / "extracts").iterdir()):
        _, *rows = csv.reader(io.StringIO(path.read_text()))
        links += [[path.stem, *row] for row in rows]
        path.unlink()
    for name in ("kinds", "extracts", "question"):
        sheet = book.create_sheet(name)
        for row in csv.reader(io.StringIO((folder / f"{name}.csv").read_text())):
            sheet.append([int(cell) if cell.isdigit() else cell for cell in row])
        (folder / f"{name}.csv").unlink()
    sheet = book.create_sheet("Extract Links")
    for row in [["extract", "from", "kind", "to"], *links]:
        sheet.append(row)
    book.save(folder / "campaign.xlsx")
    return book


def test_a_campaign_in_a_workbook(folder: Path, command: Command) -> None:
    before = command("quote"), command("cheapest")
    workbook(folder)
    assert sorted(os.listdir(folder)) == ["campaign.xlsx", "extracts", "items.csv", "links.csv"]
    assert (command("quote"), command("cheapest")) == before


def test_in_the_folder_above(folder: Path, command: Command) -> None:
    before = command("quote")
    workbook(folder)
    os.rename(folder / "campaign.xlsx", folder.parent / "campaign.xlsx")
    assert command("quote").err == "question.dot: there is no such file, nor a question.csv\n"
    tables_of = openpyxl.load_workbook(folder.parent / "campaign.xlsx")["question"]
    rows = [",".join(cell.value for cell in row) for row in tables_of.iter_rows()]
    (folder / "question.csv").write_text("\n".join(rows))
    assert command("quote") == before


def test_a_table_that_stands_twice(folder: Path, command: Command) -> None:
    kinds = (folder / "kinds.csv").read_text()
    workbook(folder)
    (folder / "kinds.csv").write_text(kinds)
    (folder / "question.dot").write_text('digraph { section -> reading [label="melted in"] }')
    ended = command("quote")
    assert ended.status == 2
    assert ended.err == (
        "campaign.xlsx, sheet kinds: the table stands in kinds.csv already\n"
        "campaign.xlsx, sheet question: the question stands in question.dot already\n"
    )


def test_dates_of_terms(folder: Path, command: Command) -> None:
    book = workbook(folder)
    sheet = book["extracts"]
    sheet["C1"], sheet["D1"] = "from", "to"
    sheet["C2"] = datetime(2026, 3, 1)
    sheet["D2"] = "2026-06-01"
    book.save(folder / "campaign.xlsx")
    assert command("first-day", "--day", "2026-11-17").out == "2026-11-17\n"
    assert command("quote", "--day", "2026-04-01").out.startswith(
        "covered on 2026-04-01\nlink 0  section -[cut from]-> slow run   by slow runs, "
    )


CELLS: list[tuple[str, str, Any, str, str]] = [
    ("date", "A2", datetime(2026, 3, 1), "yyyy-mm-dd", "cell A2: this is the date 2026-03-01, where a name is wanted; make the cell text"),
    ("number", "A2", 3.5, "General", "cell A2: this is the number 3.5 in the format General; make the cell text"),
    ("leading zeros", "B2", 7, "000", "cell B2: this is the number 7 in the format 000; make the cell text"),
    ("money", "B2", 200, "0.00", "cell B2: this is the number 200 in the format 0.00; make the cell text"),
    ("large number", "B2", 10**15, "0", "cell B2: this is the number 1000000000000000 in the format 0; make the cell text"),
    ("true", "A2", True, "General", "cell A2: this is True, where text is wanted; make the cell text"),
    ("formula", "B2", "=100+100", "General", "cell B2: no value is stored for this formula; open the workbook, save it, or make the cell text"),
    ("error", "B2", "#N/A", "General", "cell B2: this is #N/A, where text is wanted; make the cell text"),
    ("charge", "B2", "3.50", "General", 'row 2: the charge "3.50" is no whole number of cents in digits, such as 350'),
    ("invisible", "A2", "slow\u200bruns", "General", 'row 2: "slowruns" holds the invisible character U+200B'),
    ("column", "A1", "Name", "General", 'row 1: there is no column "extract"; there are: Name, charge in cents'),
]  # fmt: skip


@pytest.mark.parametrize("cell, value, form, said", [one[1:] for one in CELLS], ids=[one[0] for one in CELLS])
def test_cells(cell: str, value: Any, form: str, said: str, folder: Path, command: Command) -> None:
    book = workbook(folder)
    book["extracts"][cell] = value
    book["extracts"][cell].number_format = form
    book.save(folder / "campaign.xlsx")
    ended = command("quote")
    assert ended.status == 2 and ended.err.splitlines()[0] == f"campaign.xlsx, sheet extracts, {said}"


def test_what_is_passed_over(folder: Path, command: Command) -> None:
    """Blank rows, merged cells, cells in other columns, numbers as text, white space, a formula with its value."""
    before = command("quote")
    book = workbook(folder)
    sheet = book["kinds"]
    sheet.insert_rows(1, 3)
    sheet["E7"] = datetime(2026, 1, 1)
    sheet.merge_cells("E7:F9")
    sheet["B5"] = " 0\u00a0"
    sheet["B6"] = 1.0
    book.save(folder / "campaign.xlsx")
    assert command("quote") == before


@pytest.mark.parametrize("name", sorted(path.name for path in STORED.iterdir()))
def test_as_written_elsewhere(name: str, folder: Path, command: Command) -> None:
    """Stored workbooks of other programs; the charge of slow runs is a formula with its value."""
    before = command("quote"), command("cheapest")
    workbook(folder)
    (folder / "campaign.xlsx").write_bytes((STORED / name).read_bytes())
    assert (command("quote"), command("cheapest")) == before


def test_damage(folder: Path, command: Command) -> None:
    before = command("check")
    workbook(folder)
    path = folder / "campaign.xlsx"
    data = path.read_bytes()
    drawn = random.Random(5)
    for _ in range(80):
        at = drawn.randrange(len(data))
        path.write_bytes(drawn.choice([data[:at], data[:at] + bytes([drawn.randrange(256)]) + data[at + 1 :]]))
        ended = command("check")
        assert ended.out == before.out and ended.status == 0 or ended.status == 2 and "campaign.xlsx" in ended.err
    # The parts themselves, packed again.
    with zipfile.ZipFile(io.BytesIO(data)) as packed:
        parts = {name: packed.read(name) for name in packed.namelist()}
    for _ in range(80):
        name = drawn.choice([name for name in parts if parts[name]])
        at = drawn.randrange(len(parts[name]))
        with zipfile.ZipFile(path, "w") as packed:
            for part, content in parts.items():
                packed.writestr(part, content[:at] + b"7" + content[at + 1 :] if part == name else content)
        ended = command("check")
        assert ended.status in (0, 2) and (ended.status == 0 or ended.err)


def test_what_is_no_workbook(folder: Path, command: Command) -> None:
    workbook(folder)
    path = folder / "campaign.xlsx"
    path.write_bytes(b"PK")
    said = "campaign.xlsx: it can't be read as a workbook; save it again as XLSX\n"
    assert command("check").err.startswith(said)
    with zipfile.ZipFile(path, "w", zipfile.ZIP_DEFLATED) as packed:
        packed.writestr("xl/worksheets/sheet1.xml", bytes(130 << 20))
    assert command("check").err.startswith("campaign.xlsx: it unpacks to over 134,217,728 bytes\n")
    path.unlink()
    path.mkdir()
    assert command("check").err.startswith("campaign.xlsx: this is no plain file\n")


def test_too_many_rows(folder: Path, command: Command) -> None:
    book = workbook(folder)
    book["kinds"]["A1000000"] = "item"
    book.save(folder / "campaign.xlsx")
    assert command("check").err.splitlines()[0] == "campaign.xlsx, sheet kinds: it has over 100,000 rows"


def test_without_openpyxl(folder: Path) -> None:
    workbook(folder)
    script = "import sys; sys.modules['openpyxl'] = None; from yuthaqim.cli import main; sys.exit(main(['quote']))"
    ended = subprocess.run(["/usr/bin/python3", "-c", script], cwd=folder, capture_output=True)
    said = b"yuthaqim: to read campaign.xlsx, openpyxl is needed: apt-get install python3-openpyxl\n"
    assert (ended.returncode, ended.stdout, ended.stderr) == (3, b"", said)
