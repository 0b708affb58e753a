"""From packed files to people's and back: the same bytes."""

from __future__ import annotations

import os
import shutil
import tempfile
from pathlib import Path
from typing import Any

import pytest
from conftest import SAMPLE, TOP, Command
from hypothesis import given, settings
from hypothesis import strategies as some
from test_records import content as record_content
from test_round_trips import content as pattern_content

from yuthaqim import calls
from yuthaqim.cli import main


def state(folder: Path) -> dict[str, bytes]:
    return {str(path.relative_to(folder)): path.read_bytes() for path in folder.rglob("*") if path.is_file()}


def alone(folder: Path) -> None:
    """Leaves the packed files alone."""
    for path in folder.iterdir():
        if path.name != "packed":
            shutil.rmtree(path) if path.is_dir() else path.unlink()


def test_there_and_back(folder: Path, command: Command) -> None:
    command("book")
    command("pack")
    before = state(folder)
    alone(folder)
    ended = command("unpack")
    assert ended.status == 0 and ended.out.splitlines()[0] == "question.dot"
    after = state(folder)
    for name in ("kinds.csv", "items.csv", "extracts.csv", "lists/slow runs.csv", "lists/fast readings.csv"):
        assert after[name] == before[name]
    assert sorted(after["links.csv"].splitlines()) == sorted(before["links.csv"].splitlines())
    assert command("pack").status == command("answer").status == 0
    again = state(folder)
    assert {name: data for name, data in again.items() if name.startswith("packed")} == {
        name: data for name, data in before.items() if name.startswith("packed")
    }


def test_without_names(tmp_path: Path, monkeypatch: pytest.MonkeyPatch, command: Command) -> None:
    shutil.copytree(TOP / "samples" / "campaign", tmp_path / "packed")
    monkeypatch.chdir(tmp_path)
    (tmp_path / "packed" / "one_way").write_text("1\n")
    (tmp_path / "packed" / "terms").write_text("0 65535\n10 20\n0 9\n")
    before = {name: data for name, data in state(tmp_path / "packed").items()}
    assert command("unpack").status == 0
    assert (tmp_path / "items.csv").read_text().splitlines()[1:3] == ["0,#0", "1,#1"]
    assert '"#0" -> "#1" [label="#0"]' in (tmp_path / "question.dot").read_text()
    assert command("pack").status == 0
    after = state(tmp_path / "packed")
    assert {name: after[name] for name in before} == before


def test_names_that_lead_out_of_the_folder(folder: Path, command: Command) -> None:
    command("pack")
    path = folder / "packed" / "names.json"
    path.write_text(path.read_text().replace('"extract": "slow runs"', '"extract": "../slow runs"'))
    assert command("unpack", "--force").status == 0
    assert sorted(os.listdir("extracts")) == ["extract 0.dot", "extract 1.dot", "extract 2.dot"]
    assert os.listdir("..") == ["campaign"]


def test_nothing_is_replaced(folder: Path, command: Command) -> None:
    command("pack")
    before = state(folder)
    said = "".join(
        f"{name}: it is there already; --force replaces it\n"
        for name in ["question.dot", "extracts.csv", "items.csv", "links.csv", "kinds.csv", "extracts"]
    )
    assert command("unpack") == (2, "", said)
    assert state(folder) == before
    (folder / "items.csv").unlink()
    assert command("unpack", "--force").status == 0
    assert (folder / "items.csv").read_bytes() == before["items.csv"]


def test_an_old_record(folder: Path, command: Command) -> None:
    command("pack")
    old = bytes.fromhex("00200100000001000000020000100000")
    (folder / "packed" / "record").unlink()
    (folder / "packed" / "old").write_bytes(old)
    ended = command("unpack", "--force")
    try:
        sorted_bytes = calls.sort_record(old)
    except calls.Refused as refused:
        assert ended.status == 2 and f"(refused {refused.number} {refused.detail})" in ended.err
    else:
        assert ended.status == 0 and command("pack").status == 0
        assert (folder / "packed" / "record").read_bytes() == sorted_bytes


@pytest.mark.parametrize(
    "name, data, said",
    [
        ("book", b"\xff", "packed/book: the book ends before its last field does (refused 2 4)"),
        ("question", b"", "packed/question: the question ends before its last field does (refused 2 1)"),
        ("record", b"\xff" * 9, "packed/record: the record has a number that is out of its range (refused 3 3)"),
        ("catalogue", b"\xff", "packed/catalogue: the catalogue has a number that is out of its range (refused 3 2)"),
        ("charges", b"1\n2\n", "packed/charges: 2 lines stand there, and there are 3 extracts"),
        ("charges", b"1\nx\n3\n", "packed/charges:2: 1 whole numbers up to 4,294,967,295 are wanted, in digits"),
    ],
)
def test_what_is_refused(name: str, data: bytes, said: str, folder: Path, command: Command) -> None:
    command("book")
    command("pack")
    (folder / "packed" / name).write_bytes(data)
    before = state(folder)
    assert command("unpack", "--force") == (2, "", said + "\n")
    assert state(folder) == before


@settings(max_examples=25)
@given(record_content(), pattern_content(), some.lists(pattern_content(), max_size=4))
def test_bytes_to_text_to_bytes(record: list[int], question: list[int], extracts: list[Any]) -> None:
    content = [len(extracts), *(field for extract in extracts for field in extract)]
    made = {
        "record": calls.write_record(record),
        "question": calls.write_pattern(question),
        "catalogue": calls.write_catalogue(content),
    }
    with tempfile.TemporaryDirectory() as room:
        folder = Path(room)
        (folder / "packed").mkdir()
        for name, data in made.items():
            (folder / "packed" / name).write_bytes(data)
        assert main(["unpack", room]) == 0
        shutil.rmtree(folder / "packed")
        assert main(["pack", room]) == 0
        for name, data in made.items():
            assert (folder / "packed" / name).read_bytes() == data


def test_no_packed_files(folder: Path, command: Command) -> None:
    assert command("unpack") == (2, "", "packed: there is no such folder\n")
    os.mkdir("packed")
    assert command("unpack") == (2, "", "packed: no packed file stands in it\n")
    assert state(SAMPLE) == state(folder)
