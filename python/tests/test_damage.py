"""Damaged and hostile files: the same result, or faults with places inside the file; nothing else, and soon."""

from __future__ import annotations

import os
import random
import shutil
import time
from pathlib import Path
from typing import Iterator

import pytest
from conftest import SAMPLE, Command, tables

import yuthaqim
from yuthaqim import pictures
from yuthaqim.faults import Fault
from yuthaqim.folder import Read

DAMAGED = 5_000

FILES = sorted(str(path.relative_to(SAMPLE)) for path in SAMPLE.rglob("*") if path.is_file())


def damage(data: bytes, chance: random.Random) -> bytes:
    at = chance.randrange(len(data))
    return chance.choice(
        [
            data[:at] + data[at + 1 :],
            data[:at] + data[at : at + 1] + data[at:],
            data[:at] + bytes([chance.randrange(256)]) + data[at + 1 :],
            data[:at] + bytes([chance.choice(b'"{}[]<>;,=\\/*#\n\r\t\0 ->')]) + data[at + 1 :],
            data[:at],
        ]
    )


def state(folder: Path) -> dict[str, bytes]:
    return {str(path): path.read_bytes() for path in folder.rglob("*") if path.is_file()}


@pytest.mark.parametrize("file", FILES)
def test_damaged_files(file: str, folder: Path) -> None:
    right = (folder / file).read_bytes()
    tables(folder)  # so that at most the damaged file is a picture: those are slow to read
    (folder / file).with_suffix(".csv").unlink() if file.endswith(".dot") else None
    chance = random.Random(file)
    faulty = 0
    for _ in range(-(-DAMAGED // len(FILES))):
        (folder / file).write_bytes(damage(right, chance))
        before = state(folder)
        begin = time.process_time()
        try:
            campaign = yuthaqim.Campaign(record=Read.WANTED)
            campaign.quote()
            campaign.search()
        except yuthaqim.Faults as faults:
            faulty += 1
            for fault in faults.faults:
                inside(fault, folder)
            assert "Traceback" not in str(faults)
        assert time.process_time() - begin < 1
        assert state(folder) == before
    assert faulty > DAMAGED / len(FILES) / 3


def inside(fault: Fault, folder: Path) -> None:
    """The place is one of the file that the fault names."""
    place = fault.place
    path = folder / place.file
    assert path.exists() and fault.message
    if place.line:
        lines = path.read_bytes().decode(errors="replace").replace("\r\n", "\n").replace("\r", "\n").split("\n")
        assert place.line <= len(lines)
        if place.column:
            assert place.column <= len(place.source) + 1


GROUP = "{" + " ".join(f"n{number}" for number in range(3_000)) + "}"

HOSTILE = {
    "braces": "digraph " + "{" * 1_000 + "}" * 1_000,
    "group": f"digraph {{ {GROUP} -> {GROUP.replace('n', 'm')} }}",
    "chain": "digraph { " + "a -> " * 12_000 + "a }",
    "statements": "digraph { " + "a;" * 32_000 + "}",
    "items": "digraph { " + " ".join(f"i{number}" for number in range(9_000)) + " }",
    "list": "digraph { " + "a," * 30_000 + "a -> " + "b }",
    "defaults": "digraph { " + "node[a=b]" * 7_000 + "}",
    "attributes": "digraph { a [" + "b=c " * 16_000 + "] }",
    "strings": 'digraph { a [label="' + "\\" * 65_000,
    "joined": "digraph { a [label=" + '"x"+' * 16_000 + '"y"] }',
    "markup": "digraph { a [label=<" + "<>" * 32_000,
    "deep markup": "digraph { a [label=" + "<" * 30_000 + ">" * 30_000 + "] }",
    "comments": "digraph { " + "/*" * 32_000,
    "stars": "digraph { /*" + "*" * 65_000,
    "numbers": "digraph { " + "1" * 65_000 + "}",
    "minus": "digraph { " + "-" * 65_000 + "}",
    "subgraphs": "digraph { " + "subgraph x {a}" * 4_000 + "}",
    "names": "digraph { " + " ".join(f"{number:x}" * 9 + "z [label=y]" for number in range(900)) + "}",
    "long label": 'digraph { a -> b [label="' + "cut fro" * 9_000 + '"] }',
    "lines": "digraph {\n" * 6_000,
    "nothing": "\0" * 65_536,
}


@pytest.mark.parametrize("name", HOSTILE)
def test_hostile_pictures(name: str, folder: Path, command: Command) -> None:
    (folder / "question.dot").write_text(HOSTILE[name])
    begin = time.process_time()
    ended = command("check")
    assert time.process_time() - begin < 1
    assert ended.status == 2 and ended.err.startswith("question.dot:")
    assert len(ended.err) < 20_000


def test_a_picture_of_any_length_is_refused_unread(folder: Path) -> None:
    with open(folder / "question.dot", "wb") as file:
        file.truncate(1 << 40)
    with pytest.raises(yuthaqim.Faults, match="it has over 65,536 bytes"):
        yuthaqim.Campaign()


def test_a_table_of_any_length_is_refused_unread(folder: Path) -> None:
    with open(folder / "kinds.csv", "wb") as file:
        file.truncate(1 << 40)
    with pytest.raises(yuthaqim.Faults, match="it has over 33,554,432 bytes"):
        yuthaqim.Campaign()


def texts() -> Iterator[bytes]:
    chance = random.Random(0)
    words = [
        b"digraph",
        b"{",
        b"}",
        b"->",
        b"a",
        b'"b"',
        b"[",
        b"]",
        b"=",
        b"label",
        b";",
        b",",
        b":",
        b"subgraph",
        b"edge",
    ]
    words += [
        b"node",
        b"<x>",
        b"+",
        b"#\n",
        b"//",
        b"/*",
        b"*/",
        b"\xff",
        "\u200b".encode(),
        b"\0",
        b"--",
        b"1",
        b"\\",
        b'"',
    ]
    for _ in range(3_000):
        yield b" ".join(chance.choice(words) for _ in range(chance.randint(1, 25)))


def test_words_in_any_order() -> None:
    for text in texts():
        wrong: list[Fault] = []
        sketch = pictures.read(b"digraph {" + text, "drawn.dot", wrong)
        assert sketch or wrong


def test_a_pipe_in_the_place_of_a_file_is_no_wait(folder: Path) -> None:
    os.remove(folder / "question.dot")
    os.mkfifo(folder / "question.dot")
    with pytest.raises(yuthaqim.Faults, match="this is no plain file"):
        yuthaqim.Campaign()


def test_damaged_names(folder: Path, command: Command) -> None:
    """Of `names.json`, and of the packed files beside it: a sentence, or the same as before."""
    assert command("book").status == command("pack").status == command("ask", "S2", "V1", "cut from").status == 0
    paths = sorted(path for path in (folder / "packed").iterdir() if path.name != "index")
    right = {path: path.read_bytes() for path in paths}
    chance = random.Random(0)
    for number in range(240):
        path = paths[number % len(paths)] if number % 2 else folder / "packed" / "names.json"
        path.write_bytes(damage(right[path], chance))
        for words in (["answer"], ["commit"], ["unpack", "--force"])[number % 3 :]:
            ended = command(*words)
            assert ended.status in (0, 1, 2) and "Traceback" not in ended.err
            assert bool(ended.err) == (ended.status != 0)
        shutil.rmtree(folder)
        shutil.copytree(SAMPLE, folder)
        (folder / "packed").mkdir()
        for path, data in right.items():
            path.write_bytes(data)
        os.chdir(folder)
