"""Asking and entering: the sample's link, changes in between, tables of many forms; and commands killed at any step."""

from __future__ import annotations

import errno
import json
import os
import shutil
import signal
import sys
import threading
from pathlib import Path
from typing import Any

import pytest
from conftest import Command
from test_another_library import refuses
from test_unpack import state

import yuthaqim
from yuthaqim import calls
from yuthaqim.cli import main

LINK = ("S2", "V1", "cut from")
CHANGES = "changes  slow runs, slow readings\n"
ENTERED = "entered     S2 -[cut from]-> V1\nmake again  slow runs, slow readings\n"


def test_ask_and_commit(folder: Path, command: Command) -> None:
    before = yuthaqim.Campaign().record
    links = (folder / "links.csv").read_bytes()
    assert command("ask", *LINK) == (0, CHANGES, "")
    assert (folder / "links.csv").read_bytes() == links
    assert command("commit") == (0, ENTERED, "")
    assert (folder / "links.csv").read_bytes() == links + b"S2,V1,cut from\n"
    after = yuthaqim.Campaign().record
    assert (folder / "packed" / "record").read_bytes() == after.packed
    assert set(after.links) - set(before.links) == {(5, 4, 0)} and after.names == before.names
    assert calls.check_index(after.packed, calls.make_index(after.packed)) == 13
    assert command("search", "--indexed").status == 0
    running = json.loads((folder / "packed" / "names.json").read_bytes())["running"]
    assert (running["links"], running["change"], running["slip"]) == (12, 2, [])
    told = "packed/names.json: no link was asked about; yuthaqim ask FROM TO KIND comes first\n"
    assert command("commit") == (2, "", told)


def test_the_lists_that_change_are_those_that_were_named(folder: Path, command: Command) -> None:
    command("book")
    before = state(folder / "lists")
    command("ask", *LINK)
    command("commit")
    assert state(folder / "lists") == before
    command("book")
    after = state(folder / "lists")
    assert [name for name in sorted(after) if after[name] != before[name]] == ["slow readings.csv", "slow runs.csv"]


def test_a_link_that_changes_nothing(folder: Path, command: Command) -> None:
    assert command("ask", "R1", "R2", "repeated as") == (0, "changes  none\n", "")
    assert command("commit").out == "entered     R1 -[repeated as]-> R2\nmake again  none\n"


def test_what_is_wrong_with_the_words(folder: Path, command: Command) -> None:
    said = 'FROM: there is no item "S1a" in items.csv; did you mean "S1-a"?\n'
    assert command("ask", "S1a", "V1", "cut from") == (2, "", said)
    said = 'KIND: "cut form" is no kind of link; did you mean "cut from"?\n'
    assert command("ask", "S1", "V1", "cut form") == (2, "", said)
    said = "links.csv: the link S1 -[cut from]-> S1-a stands there already\n"
    assert command("ask", "S1", "S1-a", "cut from") == (2, "", said)
    assert not (folder / "packed").exists()


def test_a_full_record(folder: Path, command: Command) -> None:
    rows = [f"i{n // 100},i{n % 100},cut from\n" for n in range(8_192)]
    (folder / "items.csv").write_text("item,kinds\n" + "".join(f"i{n},\n" for n in range(100)))
    (folder / "links.csv").write_text("from,to,kind\n" + "".join(rows))
    said = "links.csv: 8,192 links; a record has at most 8,192\n"
    assert command("ask", "i99", "i99", "cut from") == (2, "", said)


OLD = "the record has changed since this was asked (change {}, now {}): ask again\n"


def test_a_record_that_has_changed(folder: Path, command: Command) -> None:
    """By another link, by a row, by an order of items that leaves the bytes as they were, by a kind."""
    command("ask", *LINK)
    links = (folder / "links.csv").read_text()
    (folder / "links.csv").write_text(links + "S2,S1-c,cut from\n")
    assert command("commit") == (2, "", OLD.format(1, 2))
    assert (folder / "links.csv").read_text() == links + "S2,S1-c,cut from\n"
    (folder / "links.csv").write_text(links)
    assert command("commit").status == 0
    (folder / "items.csv").write_text("item,kinds\na,section\nb,section\n")
    (folder / "links.csv").write_text("from,to,kind\n")
    assert command("ask", "a", "b", "cut from").status == 0
    (folder / "items.csv").write_text("item,kinds\nb,section\na,section\n")
    assert command("commit") == (2, "", OLD.format(3, 4))
    assert command("ask", "a", "b", "cut from").status == command("commit").status == 0
    assert (folder / "links.csv").read_text() == "from,to,kind\na,b,cut from\n"


def test_the_last_change(folder: Path, command: Command) -> None:
    command("ask", *LINK)
    path = folder / "packed" / "names.json"
    said = json.loads(path.read_bytes())
    said["running"]["change"] = said["running"]["slip"][3] = 4_294_967_295
    path.write_text(json.dumps(said))
    told = "the change number is 4294967295, and no other follows it\n"
    assert command("commit") == (2, "", told)
    said["running"]["slip"] = [99, 0, 0, 4_294_967_294]
    path.write_text(json.dumps(said))
    assert command("commit").status == 2


@pytest.mark.parametrize(
    "running",
    [1, {}, {"mark": "", "links": -1, "change": 1, "slip": []}, {"mark": "", "links": 1, "change": 1, "slip": [1]}],
)
def test_a_state_that_is_none(running: Any, folder: Path, command: Command) -> None:
    command("ask", *LINK)
    path = folder / "packed" / "names.json"
    path.write_text(json.dumps({**json.loads(path.read_bytes()), "running": running}))
    assert "no link was asked about" in command("commit").err
    assert command("ask", *LINK).status == command("commit").status == 0


FORMS = [
    b"from,to,kind\nS1,S1-a,cut from",
    b'\xef\xbb\xbfKind;To;note;From\r\ncut from;S1-a;"a\nb";S1\r\n',
    b"sep=;\nfrom;to;kind\nS1;S1-a;cut from\n",
    "from\tto\tkind\rS1\tS1-a\tcut from\r".encode("utf-16"),
    "from,to,kind\n".encode("utf-16-be").join([b"\xfe\xff", b""]),
]


@pytest.mark.parametrize("form", FORMS)
def test_forms_of_tables(form: bytes, folder: Path, command: Command) -> None:
    (folder / "links.csv").write_bytes(form)
    before = yuthaqim.Campaign().record.link_rows()
    assert command("ask", *LINK).status == command("commit").status == 0
    assert (folder / "links.csv").read_bytes().startswith(form)
    assert sorted(yuthaqim.Campaign().record.link_rows()) == sorted([*before, LINK])


def test_names_that_need_quotes(folder: Path, command: Command) -> None:
    (folder / "items.csv").write_text('item,kinds\n"a,b",\n"c""d",\n')
    (folder / "links.csv").write_text("from,to,kind\n")
    assert command("ask", "a,b", 'c"d', "cut from").status == command("commit").status == 0
    assert yuthaqim.Campaign().record.link_rows() == [("a,b", 'c"d', "cut from")]


def test_another_library(folder: Path, command: Command, monkeypatch: pytest.MonkeyPatch) -> None:
    monkeypatch.setattr(calls, "ask", lambda *_: calls.Asked(4, calls.Slip(5, 4, 0, 1)))
    assert command("ask", *LINK).out == "changes  fast readings\n"
    for number in range(1, 22):
        monkeypatch.setattr(calls, "commit", refuses(number, 3))
        ended = command("commit")
        assert ended.status == (1 if number == 11 else 2) and ended.out == "" and ended.err.count("\n") == 1


# Killed.

STEPS = ("mkdir", "open", "write", "fsync", "rename", "replace", "unlink", "rmdir")


def killed_at(step: int, words: tuple[str, ...]) -> bool:
    """Runs the command in a process that kills itself before that call into the system; whether it came so far."""
    child = os.fork()
    if not child:
        left, begun = [step], []

        def count(_: Any, event: str, called: Any) -> None:
            if event == "c_call" and called.__name__ in STEPS:
                if called.__name__ == "mkdir":
                    begun.append(True)  # before the first folder is made, files are only read
                left[0] -= len(begun[:1])
                if left[0] < 0:
                    os.kill(os.getpid(), signal.SIGKILL)

        os.dup2(os.open(os.devnull, os.O_WRONLY), 1)
        threading.setprofile(count)  # those that flush
        sys.setprofile(count)
        main(words)
        sys.setprofile(None)
        os._exit(0)
    return os.WIFSIGNALED(os.waitpid(child, 0)[1])


def seen(folder: Path) -> dict[str, bytes]:
    """What is there for whoever comes by."""
    yuthaqim.Campaign()
    found = state(folder)
    return {name: data for name, data in found.items() if not name.startswith(".making")}


@pytest.mark.parametrize("words", [("book",), ("commit",)])
def test_killed_at_every_step(words: tuple[str, ...], folder: Path, command: Command) -> None:
    """Old or new, never a mixture; and the command then does what it does."""
    command("book")
    command("ask", *LINK)
    if words == ("book",):
        (folder / "links.csv").write_text((folder / "links.csv").read_text() + "S2,V1,cut from\n")
    before = seen(folder)
    kept = folder.parent / "kept"
    shutil.copytree(folder, kept)
    assert command(*words).status == 0
    after = seen(folder)
    assert after != before
    ends = {"old": 0, "new": 0}
    found = after
    for step in range(10_000):
        if found == after:
            shutil.rmtree(folder)
            shutil.copytree(kept, folder)
            os.chdir(folder)
        came = killed_at(step, words)
        found = seen(folder)
        assert found in (before, after), step
        ends["new" if found == after else "old"] += 1
        if found == before and step % 9 == 0:
            assert command(*words).status == 0
            found = seen(folder)
            assert found == after
        if not came:
            break
    assert found == after and ends["old"] > 20 and ends["new"] > 10


@pytest.mark.parametrize("words", [("book", "--again"), ("commit",)])
def test_no_room(words: tuple[str, ...], folder: Path, command: Command, monkeypatch: pytest.MonkeyPatch) -> None:
    """The disk is full before anything is in its place: a sentence, and all as it was."""
    command("book")
    command("ask", *LINK)
    before = state(folder)
    original = os.fsync
    for number in range(4):
        left = [number]

        def full(handle: int) -> None:
            left[0] -= 1
            if left[0] < 0:
                raise OSError(errno.ENOSPC, os.strerror(errno.ENOSPC), "packed")
            original(handle)

        with monkeypatch.context() as patch:
            patch.setattr(os, "fsync", full)
            assert command(*words) == (3, "", "yuthaqim: packed: No space left on device\n")
        assert state(folder) == before
    assert command(*words).status == 0
