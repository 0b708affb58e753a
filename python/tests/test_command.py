"""The command as a process: statuses, streams, missing packages, a system that fails; and JSON by its schema."""

from __future__ import annotations

import os
import subprocess
from pathlib import Path
from typing import Any

import pytest
from conftest import TOP, Command, tables, uncovered

COMMAND = str(TOP / "bin" / "yuthaqim")


def run(*words: str, **options: Any) -> subprocess.CompletedProcess[bytes]:
    return subprocess.run([COMMAND, *words], capture_output="stdout" not in options, **options)


def test_help_and_version(command: Command) -> None:
    assert command("--version").out == "yuthaqim 0.1.0\n"
    for name in (
        "new",
        "check",
        "quote",
        "cheapest",
        "part",
        "first-day",
        "pack",
        "search",
        "show",
        "book",
        "answer",
        "unpack",
        "status",
    ):
        ended = command(name, "--help")
        assert ended.status == 0 and f"example: yuthaqim {name} " in ended.out
        assert name in command("--help").out


@pytest.mark.parametrize(
    "words",
    [
        [],
        ["guess"],
        ["quote", "a", "b", "--report", "x.html"],
        ["quote", "--day", "17.11."],
        ["quote", "--da", "2026-11-17"],
        ["new"],
    ]
    + [
        ["quote", "--day", "2026-11-17", "--any-day"],
        ["quote", "--day", "1969-12-31"],
        ["check", "--day", "2026-11-17"],
    ],
)
def test_wrong_words(words: list[str], folder: Path, command: Command) -> None:
    ended = command(*words)
    assert ended.status == 2 and ended.out == "" and ended.err.startswith("usage: yuthaqim")


def test_wrong_folder(folder: Path, command: Command) -> None:
    assert command("quote", "none") == (2, "", "none: there is no such folder\n")
    assert command("quote", "kinds.csv") == (2, "", "kinds.csv: there is no such folder\n")


def test_as_a_process(folder: Path) -> None:
    ended = run("quote", cwd=folder)
    assert ended.returncode == 0 and ended.stdout.startswith(b"covered\n") and ended.stderr == b""
    uncovered(folder)
    assert run("quote", cwd=folder).returncode == 1
    (folder / "kinds.csv").unlink()
    ended = run("quote", cwd=folder)
    assert (
        ended.returncode == 2 and ended.stdout == b"" and ended.stderr.startswith(b"kinds.csv: there is no such file")
    )


def test_by_a_link_from_elsewhere(folder: Path) -> None:
    (folder / "called").symlink_to(COMMAND)
    assert subprocess.run(["./called", "check"], cwd=folder).returncode == 0


def test_output_is_utf8_whatever_the_locale(folder: Path) -> None:
    for path in folder.rglob("*.*"):
        if path.is_file():
            path.write_text(path.read_text().replace("section", "氷"))
    ended = run("quote", cwd=folder, env={**os.environ, "LC_ALL": "C", "PYTHONIOENCODING": "latin-1"})
    assert "氷 -[cut from]-> slow run ".encode() in ended.stdout
    shown = [line.replace("氷", "xx") for line in ended.stdout.decode().splitlines()[1:5]]  # it takes two columns
    assert len({line.index("  by") for line in shown}) == 1


def test_a_name_that_is_no_text(folder: Path) -> None:
    ended = run("quote", os.fsdecode(b"\xff\x1b[31m"), cwd=folder)
    assert ended.returncode == 2 and b"\x1b" not in ended.stderr and b"Traceback" not in ended.stderr


def test_a_reader_that_has_read_enough(folder: Path) -> None:
    reading, writing = os.pipe()
    os.close(reading)
    ended = run("quote", cwd=folder, stdout=writing, stderr=subprocess.PIPE)
    assert ended.returncode == 0 and ended.stderr == b""


def test_no_room(folder: Path) -> None:
    with open("/dev/full", "wb") as full:
        ended = run("quote", cwd=folder, stdout=full, stderr=subprocess.PIPE)
    assert ended.returncode == 3 and ended.stderr == b"yuthaqim: standard output: No space left on device\n"


def test_closed_output(folder: Path) -> None:
    ended = subprocess.run(f"'{COMMAND}' quote >&-", shell=True, cwd=folder, capture_output=True)
    assert ended.returncode == 3 and b"Traceback" not in ended.stderr


def test_what_cannot_be_written(folder: Path, command: Command, monkeypatch: pytest.MonkeyPatch) -> None:
    (folder / "part.dot").mkdir()
    ended = command("part")
    assert ended.status == 3 and ended.out == "" and ended.err.startswith("yuthaqim: ")
    assert sorted(path.name for path in folder.iterdir()) == sorted(
        ["extracts", "extracts.csv", "items.csv", "kinds.csv", "links.csv", "part.dot", "question.dot"]
    )
    assert command("new", "none/campaign").status == 3


def test_a_package_that_is_missing(folder: Path) -> None:
    script = "import sys; sys.modules['lark'] = None; from yuthaqim.cli import main; sys.exit(main(['quote']))"
    ended = subprocess.run(["/usr/bin/python3", "-c", script], cwd=folder, capture_output=True)
    said = b"yuthaqim: to read question.dot, lark is needed: apt-get install python3-lark\n"
    assert (ended.returncode, ended.stdout, ended.stderr) == (3, b"", said)


def test_a_quote_from_tables_needs_no_package(folder: Path) -> None:
    tables(folder)
    script = "import sys; sys.modules['lark'] = None; from yuthaqim.cli import main; sys.exit(main(['quote']))"
    ended = subprocess.run(["/usr/bin/python3", "-c", script], cwd=folder, capture_output=True)
    assert ended.returncode == 0 and ended.stdout.startswith(b"covered\n")


LINK = {"link": int, "from": str, "from kind": str, "kind": str, "to": str, "to kind": str}
FAULT = {"file": str, "line": (int, None), "column": (int, None), "message": str}

SIZE = {"items": int, "links": int}

SCHEMA: dict[str, Any] = {
    "check": {"format": 1, "question": (SIZE, None), "questions": int, "extracts": int, "record": (SIZE, None)},
    "quote": {
        "format": 1,
        "covered": bool,
        "day": (str, None),
        "links": [{**LINK, "by": [{"extract": str, "link": int}]}],
        "extracts": [str],
    },
    "cheapest": {"format": 1, "extracts": [str], "cost": int, "day": (str, None)},
    "part": {"format": 1, "file": str, "day": (str, None), "links": [LINK]},
    "first-day": {"format": 1, "day": (str, None)},
    "pack": {"format": 1, "files": [{"file": str, "bytes": int}]},
    "search": {"format": 1, "file": str, "pairs": int},
    "unpack": {"format": 1, "files": [str]},
    "ask": {"format": 1, "link": {"from": str, "to": str, "kind": str}, "changes": [str]},
    "commit": {"format": 1, "link": {"from": str, "to": str, "kind": str}, "changes": [str], "change": int},
    "book": {"format": 1, "extracts": [{"extract": str, "pairs": int}], "bytes": int},
    "answers": {"format": 1, "answers": [{"question": str, "file": str, "pairs": int}]},
    "answer": {"format": 1, "file": str, "pairs": int, "extracts": [str]},
    "show": {"format": 1, "folders": [str], "link": (int, None), "day": (str, None)},
    "faults": {"format": 1, "faults": [FAULT]},
    "refused": {"format": 1, "refused": {"number": int, "detail": int, "sentence": str}},
}


def fits(value: Any, schema: Any) -> bool:
    if isinstance(schema, dict):
        return (
            isinstance(value, dict)
            and value.keys() == schema.keys()
            and all(fits(value[key], schema[key]) for key in schema)
        )
    if isinstance(schema, list):
        return isinstance(value, list) and all(fits(one, schema[0]) for one in value)
    if isinstance(schema, tuple):
        return any(fits(value, one) for one in schema)
    return type(value) is schema if isinstance(schema, type) else bool(value == schema)


def test_json(folder: Path, command: Command) -> None:
    for name in ("check", "quote", "cheapest", "part", "pack", "search", "book", "answer"):
        ended = command(name, "--json")
        assert ended.out.count("\n") == 1 and fits(ended.json, SCHEMA[name]), ended.out
    assert fits(command("unpack", "--force", "--json").json, SCHEMA["unpack"])
    assert fits(command("ask", "S2", "V1", "cut from", "--json").json, SCHEMA["ask"])
    assert fits(command("commit", "--json").json, SCHEMA["commit"])
    (folder / "questions").mkdir()
    (folder / "question.dot").rename(folder / "questions" / "one.dot")
    assert fits(command("check", "--json").json, SCHEMA["check"])
    assert fits(command("answer", "--json").json, SCHEMA["answers"])
    (folder / "questions" / "one.dot").rename(folder / "question.dot")
    assert fits(command("new", "--json", "other").json, {"format": 1, "folder": str})
    assert fits(command("first-day", "--json").json, SCHEMA["faults"])
    uncovered(folder)
    assert fits(command("quote", "--json").json, SCHEMA["quote"])
    assert fits(command("cheapest", "--json").json, SCHEMA["refused"])
    assert fits(command("show", "--json").json, SCHEMA["show"])
    (folder / "extracts.csv").write_text("extract,from,to\nslow readings,2026-03-01,\n")
    assert fits(command("quote", "--json", "--day", "2026-11-17").json, SCHEMA["quote"])
    assert fits(command("first-day", "--json", "--day", "2026-11-17").json, SCHEMA["first-day"])
    (folder / "question.dot").write_text("digraph { a -> b }")
    assert fits(command("quote", "--json").json, SCHEMA["faults"])
