"""Records: the sample packed, searched and shown; each message; tables of many forms to bytes and back."""

from __future__ import annotations

import json
import os
import threading
from pathlib import Path
from typing import Any

import pytest
from conftest import TOP, Command, uncovered
from hypothesis import given, settings
from hypothesis import strategies as some
from test_round_trips import form, kinds, table

import yuthaqim
from yuthaqim import Kinds, Record, calls, files, names, packed, records, tables
from yuthaqim.faults import Fault

PACKED = TOP / "samples" / "campaign"

SHEET = """\
from,to,kind,from as,to as,link
S1,S1-a,cut from,section,slow run,0
S3,S3-a,cut from,section,slow run,0
S1,S1-b,cut from,section,fast run,1
S3,S3-a,cut from,section,fast run,1
S1-a,R1,melted in,slow run,reading,2
S3-a,R3,melted in,slow run,reading,2
S1-b,R1,melted in,fast run,reading,3
S3-a,R3,melted in,fast run,reading,3
"""


def test_pack(folder: Path, command: Command) -> None:
    sizes = {"catalogue": 17, "charges": 12, "question": 10, "record": 89, "index": 26}
    said = "".join(f"packed/{name} {size} bytes\n" for name, size in sizes.items())
    assert command("pack") == (0, said, "")
    for name in ("question", "catalogue", "charges", "record"):
        assert (folder / "packed" / name).read_bytes() == (PACKED / name).read_bytes()
    said_of = json.loads((folder / "packed" / "names.json").read_bytes())["files"]
    for name, entry in said_of.items():
        assert entry["sha256"] == packed.digest((folder / "packed" / name).read_bytes())
    assert said_of["record"]["items"][:3] == ["S1", "S1-a", "S1-b"]
    assert sorted(os.listdir("packed")) == sorted([*sizes, "names.json"])
    assert not [name for name in os.listdir() if name.startswith(".")]


def test_pack_removes_what_the_catalogue_has_no_more(folder: Path, command: Command) -> None:
    (folder / "extracts.csv").write_text(
        "extract,charge in cents,one-way,from,to\nslow runs,1,,,\nslow readings,2,yes,1970-01-11,\nfast readings,3,,,\n"
    )
    assert command("pack").status == 0
    assert (folder / "packed" / "one_way").read_text() == "1\n"
    assert (folder / "packed" / "terms").read_text() == "0 65535\n10 65535\n0 65535\n"
    (folder / "extracts.csv").write_text("extract\nslow runs\nslow readings\nfast readings\n")
    os.remove("items.csv")
    os.remove("links.csv")
    assert command("pack").status == 0
    assert sorted(os.listdir("packed")) == ["catalogue", "index", "names.json", "question", "record"]


def test_search(folder: Path, command: Command) -> None:
    assert command("search") == (0, "8 pairs\n", "")
    assert (folder / "sheet.csv").read_text() == SHEET
    assert command("search", "--indexed") == (2, "", "packed/index: there is no such file; yuthaqim pack makes it\n")
    command("pack")
    assert command("search", "--indexed", "-o", "other.json") == (0, "8 pairs\n", "")
    rows = json.loads((folder / "other.json").read_bytes())["rows"]
    assert rows == [dict(zip(rows[0], [*line.split(",")[:5], int(line[-1])])) for line in SHEET.splitlines()[1:]]
    (folder / "items.csv").write_text((folder / "items.csv").read_text() + "V2,\n")
    told = "packed/index is not the index of packed/record; make it again with yuthaqim pack\n"
    assert command("search", "--indexed") == (2, "", told)
    for data, told in ((b"123", "half an entry"), (b"", told[:20])):
        (folder / "packed" / "index").write_bytes(data)
        assert told in command("search", "--indexed").err
    assert command("search", "-o", "sheet.ods").err == (
        "sheet.ods: a result is written to a file whose name ends with .csv, .json or .xlsx\n"
    )


def test_show(folder: Path, command: Command) -> None:
    assert command("show") == (2, "", "the question is covered: there is nothing to show\n")
    uncovered(folder)
    (folder / "first").mkdir()
    (folder / "first" / "of before").touch()
    assert command("show") == (0, "second lacks link 1, section -[cut from]-> fast run\n", "")
    assert (folder / "first" / "items.csv").read_text() == (
        "item,kinds\nsection,section\nslow run,slow run\nfast run,fast run\nreading,reading\n"
    )
    first = (folder / "first" / "links.csv").read_text().splitlines()
    second = (folder / "second" / "links.csv").read_text().splitlines()
    assert first == [*second[:2], "section,fast run,cut from", *second[2:]]
    assert sorted(os.listdir("first")) == sorted(os.listdir("second")) == ["items.csv", "links.csv"]


def test_shown_records_are_records(folder: Path) -> None:
    """Each can be read again, and is what the library says."""
    uncovered(folder)
    said = yuthaqim.Campaign().show()
    for record in (said.first, said.second):
        rows = {name: own.split(";") for name, own in record.item_rows()}
        assert Record.of(rows, record.link_rows(), record.kinds).packed == record.packed


ITEMS, LINKS = "item,kinds\nS1,section\nS1-a,slow run\n", "from,to,kind\nS1,S1-a,cut from\n"

# fmt: off
MESSAGES: list[tuple[dict[str, Any], str]] = [
    ({"links.csv": LINKS + "S1,S1-b,cut from\n"}, 'links.csv:3: column "to": there is no item "S1-b" in items.csv; did you mean "S1-a"?'),
    ({"links.csv": LINKS + "xyz,S1,cut from\n"}, 'links.csv:3: column "from": there is no item "xyz" in items.csv'),
    ({"links.csv": LINKS + ",S1,cut from\n"}, 'links.csv:3: column "from": the name of an item is wanted'),
    ({"links.csv": LINKS + "S1,S1,cut form\n"}, 'links.csv:3: column "kind": "cut form" is no kind of link; did you mean "cut from"?'),
    ({"links.csv": LINKS + LINKS[13:]}, "links.csv:3: the link S1 -[cut from]-> S1-a stands on line 2 already"),
    ({"items.csv": ITEMS + "S1,\n"}, 'items.csv:4: item "S1" stands on line 2 already'),
    ({"items.csv": ITEMS + "V1\u200b,\n"}, 'items.csv:4: "V1" holds the invisible character U+200B'),
    ({"items.csv": ITEMS + ",section\n"}, "items.csv:4: a name is wanted, and there is none"),
    ({"items.csv": ITEMS + "V1,sections\n"}, 'items.csv:4: column "kinds": "sections" is no kind of item; did you mean "section"?'),
    ({"items.csv": ITEMS + "V1,section; section\n"}, 'items.csv:4: column "kinds": "section" stands there twice'),
    ({"items.csv": "item,kinds\n" + "".join(f"i{n},\n" for n in range(5_000)), "links.csv": "from,to,kind\n"}, "items.csv: 5,000 items; a record has at most 4,096"),
    ({"items.csv": "item,kinds\n" + "".join(f"i{n},\n" for n in range(100)), "links.csv": "from,to,kind\n" + "".join(f"i{n // 100},i{n % 100},cut from\n" for n in range(9_000))}, "links.csv: 9,000 links; a record has at most 8,192"),
    ({"links.csv": "Source,Target,Type\n"}, 'links.csv:1: there is no column "from"; there are: Source, Target, Type'),
    ({"links.csv": "from,to,kind,TO\n"}, 'links.csv:1: two columns are named "to"'),
    ({"items.csv": b"item,kinds\nS1,\n\xe4,\n", "links.csv": "from,to,kind\n"}, 'items.csv:3: byte E4 is not UTF-8; save the table as "CSV UTF-8", or keep it as XLSX'),
    ({"links.csv": None}, "links.csv: there is no such file, and a record has items.csv and links.csv"),
    ({"items.csv": None}, "items.csv: there is no such file, and a record has items.csv and links.csv"),
]
# fmt: on


@pytest.mark.parametrize("changed, said", MESSAGES)
def test_messages(changed: dict[str, Any], said: str, folder: Path, command: Command) -> None:
    for file, text in {"items.csv": ITEMS, "links.csv": LINKS, **changed}.items():
        path = folder / file
        path.unlink() if text is None else path.write_bytes(text if isinstance(text, bytes) else text.encode())
    for name in ("check", "pack", "search"):
        assert command(name) == (2, "", said + "\n")
    assert not (folder / "packed").exists() and not (folder / "sheet.csv").exists()
    assert command("quote").status == 0


def test_no_record(folder: Path, command: Command) -> None:
    os.remove("items.csv")
    os.remove("links.csv")
    assert command("check").out == "question 4 items, 4 links; 3 extracts: accepted\n"
    said = [
        f"{name}: there is no such file, and a record has items.csv and links.csv\n"
        for name in ("items.csv", "links.csv")
    ]
    assert command("search") == (2, "", "".join(said))


def test_many_unknown_names_are_told_soon(folder: Path, command: Command) -> None:
    (folder / "items.csv").write_text("item,kinds\n" + "".join(f"item {n},\n" for n in range(4_096)))
    (folder / "links.csv").write_text("from,to,kind\n" + "".join(f"itme {n},itme {n},cut from\n" for n in range(8_192)))
    said = command("check").err
    assert "did you mean" in said and said.endswith("and 16,364 more\n")


@some.composite
def content(draw: Any) -> list[int]:
    """That of a record that the library accepts."""
    chance = draw(some.randoms(use_true_random=False))
    items = chance.choice([0, 1, 2, 5, 12, chance.choice([12, 12, 4_096])])
    every = [(s, e, k) for s in range(min(items, 6)) for e in range(min(items, 6)) for k in range(8)]
    links = sorted(chance.sample(every, chance.randint(0, len(every)))) if every else []
    own = [chance.choice([0, 1 << chance.randrange(32), chance.randrange(1 << 32)]) for _ in range(items)]
    return [items, len(links), *own, *(field for link in links for field in link)]


name = some.text(min_size=1, max_size=9).map(names.tidy).filter(lambda text: names.unseen(text) is None)


@settings(max_examples=80)
@given(content(), kinds, form, some.data())
def test_round_trips(content: list[int], kinds: Kinds, form: dict[str, Any], data: Any) -> None:
    bytes_of = calls.write_record(content)
    called = (
        [] if content[0] > 12 else data.draw(some.lists(name, min_size=content[0], max_size=content[0], unique=True))
    )
    record = Record.unpack(bytes_of, kinds, called)
    for write in (lambda head, rows: table(head, rows, form), tables.write):
        wrong: list[Fault] = []
        pair = (
            tables.read(
                write(list(records.ITEM_COLUMNS), record.item_rows()), "items.csv", records.ITEM_COLUMNS, wrong
            ),
            tables.read(
                write(list(records.LINK_COLUMNS), record.link_rows()), "links.csv", records.LINK_COLUMNS, wrong
            ),
        )
        assert pair[0] and pair[1] and not wrong, wrong
        again = records.read(pair[0], pair[1], kinds, wrong)
        assert again == record, wrong


def test_links_in_any_order_and_rows_below(folder: Path) -> None:
    before = yuthaqim.Campaign().record
    head, *rows = (folder / "links.csv").read_text().splitlines()
    (folder / "links.csv").write_text("\n".join([head, *reversed(rows)]))
    assert yuthaqim.Campaign().record.packed == before.packed
    (folder / "items.csv").write_text((folder / "items.csv").read_text() + "S4,section\n")
    assert yuthaqim.Campaign().record.names == (*before.names, "S4")


# Several files at once.


def test_what_cannot_be_put(folder: Path, command: Command) -> None:
    before = sorted(os.listdir())
    (folder / "packed").mkdir()
    (folder / "packed" / "record").mkdir()
    ended = command("pack")
    assert ended == (3, "", "yuthaqim: packed/record: Is a directory\n")
    assert os.listdir("packed") == ["record"] and sorted([*before, "packed"]) == sorted(os.listdir())


def test_a_file_in_the_place_of_a_folder(folder: Path, command: Command) -> None:
    uncovered(folder)
    (folder / "second").touch()
    assert command("show") == (3, "", "yuthaqim: second: Not a directory\n")
    assert not (folder / "first").exists()


def test_read_back_otherwise(folder: Path, command: Command, monkeypatch: pytest.MonkeyPatch) -> None:
    monkeypatch.setattr(packed, "read_back", lambda path, data, _: not path.endswith("record"))
    said = "yuthaqim: packed/record: it is read back otherwise than it was written\n"
    assert command("pack") == (3, "", said)
    assert not (folder / "packed").exists() and not [name for name in os.listdir() if name.startswith(".")]


def test_what_was_begun_is_finished(folder: Path, monkeypatch: pytest.MonkeyPatch) -> None:
    """Killed at each step of putting things in their places: the next command sees all of it new."""
    steps = ["unlink", "replace", "rename"]
    for step in steps:
        for number in range(9):
            for name in ("kept", "gone"):
                (folder / name).write_text("old")
            (folder / "lists").mkdir(exist_ok=True)
            (folder / "lists" / "old.csv").write_text("old")
            original, left = getattr(os, step), [number]

            def stops(*arguments: Any, **options: Any) -> None:
                if not left[0]:
                    raise KeyboardInterrupt
                left[0] -= 1
                original(*arguments, **options)

            made = {"kept": b"new", "packed/one": b"new", "lists/new.csv": b"new"}
            with monkeypatch.context() as patch:
                patch.setattr(os, step, stops)
                try:
                    with files.locked("."):
                        files.put(".", made, whole=["lists"], gone=["gone"])
                except KeyboardInterrupt:
                    pass
            begun = (folder / ".made").exists()
            files.settle(".")
            new = (folder / "kept").read_text() == "new"
            assert new or not begun
            assert (folder / "gone").exists() != new
            assert os.listdir("lists") == (["new.csv"] if new else ["old.csv"])
            assert (folder / "packed" / "one").exists() == new
            with files.locked("."):
                files.put(".", {"kept": b"old"}, whole=["lists", "packed"])
            assert not [name for name in os.listdir() if name.startswith(".")]


def test_many_files_at_once(folder: Path, monkeypatch: pytest.MonkeyPatch) -> None:
    """More than are open at a time; and where the system gives no threads to flush them by."""
    made = {f"answers/{number}.csv": str(number).encode() for number in range(200)}
    for threads in (True, False):
        if not threads:
            monkeypatch.setattr(threading.Thread, "start", lambda _: (_ for _ in ()).throw(RuntimeError))
        with files.locked("."):
            files.put(".", made, whole=["answers"])
        assert {f"answers/{path.name}": path.read_bytes() for path in (folder / "answers").iterdir()} == made
