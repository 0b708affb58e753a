"""Another library underneath: all that is printed follows it, and nothing is decided here."""

from __future__ import annotations

from pathlib import Path
from typing import Any

import pytest
from conftest import Command

from yuthaqim import calls


def mapping(matches: dict[tuple[int, int], int]) -> tuple[int, ...]:
    masks = [0] * 512
    for (link, extract), mask in matches.items():
        masks[16 * link + extract] = mask
    return tuple(masks)


def test_another_quote(folder: Path, command: Command, monkeypatch: pytest.MonkeyPatch) -> None:
    monkeypatch.setattr(calls, "quote", lambda *_: calls.Quote(False, 4, 0, 0, mapping({(3, 0): 1, (3, 2): 3})))
    assert command("quote") == (
        1,
        "uncovered\n"
        "link 0  section -[cut from]-> slow run   by none\n"
        "link 1  section -[cut from]-> fast run   by none\n"
        "link 2  slow run -[melted in]-> reading  by none\n"
        "link 3  fast run -[melted in]-> reading  by slow runs, fast readings\n"
        "extracts  none\n",
        "",
    )
    matches = [
        {"extract": "slow runs", "link": 0},
        {"extract": "fast readings", "link": 0},
        {"extract": "fast readings", "link": 1},
    ]
    assert command("quote", "--json").json["links"][3]["by"] == matches


def test_covered_for_uncovered(folder: Path, command: Command, monkeypatch: pytest.MonkeyPatch) -> None:
    (folder / "extracts.csv").write_text("extract\n")
    assert command("quote").status == 1
    monkeypatch.setattr(calls, "quote", lambda *_: calls.Quote(True, 4, 0, 0, mapping({})))
    ended = command("quote")
    assert ended.status == 0 and ended.out.splitlines()[0] == "covered"


def test_fewer_links(folder: Path, command: Command, monkeypatch: pytest.MonkeyPatch) -> None:
    monkeypatch.setattr(calls, "quote", lambda *_: calls.Quote(True, 4, 1, 0, mapping({})))
    assert command("quote").out.splitlines()[-1] == "extracts  slow runs"


def test_another_cheapest(folder: Path, command: Command, monkeypatch: pytest.MonkeyPatch) -> None:
    monkeypatch.setattr(calls, "cheapest", lambda *_: calls.Cheapest(1_234_567, 5, 7))
    assert command("cheapest").out == "cheapest  slow runs, fast readings\ncost      1,234,567 cents\n"
    assert command("cheapest", "--json").json["cost"] == 1_234_567


def test_another_part(folder: Path, command: Command, monkeypatch: pytest.MonkeyPatch) -> None:
    monkeypatch.setattr(calls, "part", lambda *_: (calls.write_pattern([1, 1, 3, 0, 0, 2]), b""))
    assert command("part").out == "link 0  reading -[repeated as]-> reading\npart  1 of 4 links, drawn in part.dot\n"


def test_another_first_day(folder: Path, command: Command, monkeypatch: pytest.MonkeyPatch) -> None:
    (folder / "extracts.csv").write_text("extract,from,to\nslow runs,,\n")
    monkeypatch.setattr(calls, "first_day", lambda *_: 20_000)
    assert command("first-day") == (0, "2024-10-04\n", command("first-day").err)


def refuses(number: int, detail: int) -> Any:
    def call(*_: Any) -> Any:
        raise calls.Refused(number, detail)

    return call


@pytest.mark.parametrize("number", range(1, 22))
def test_every_refusal_has_its_sentence(
    number: int, folder: Path, command: Command, monkeypatch: pytest.MonkeyPatch
) -> None:
    monkeypatch.setattr(calls, "cheapest", refuses(number, 2))
    ended = command("cheapest")
    assert ended.out == "" and ended.err.count("\n") == 1 and len(ended.err) > 20
    assert ended.status == (1 if number == 11 else 2)
    refused = command("cheapest", "--json").json["refused"]
    assert (refused["number"], refused["detail"], refused["sentence"] + "\n") == (number, 2, ended.err)


@pytest.mark.parametrize("number", [1, 2, 3, 4, 5, 6, 7, 9, 12, 14])
def test_other_refusals_of_pictures(
    number: int, folder: Path, command: Command, monkeypatch: pytest.MonkeyPatch
) -> None:
    """Where the library refuses what is right, no place is found, and the sentence stands without."""
    monkeypatch.setattr(calls, "write_pattern", refuses(number, 1))
    ended = command("check")
    assert ended.status == 2 and ended.out == ""
    assert ended.err.splitlines()[0] == f"question.dot: {calls.Refused(number, 1).sentence}"


def test_another_refusal_of_terms(folder: Path, command: Command, monkeypatch: pytest.MonkeyPatch) -> None:
    (folder / "extracts.csv").write_text("extract,from,to\nslow runs,,\n")
    for detail in (0, 99):
        monkeypatch.setattr(calls, "quote_on", refuses(18, detail))
        ended = command("check")
        assert ended.status == 2
        assert ended.err.splitlines()[-1] == f"extracts.csv: {calls.Refused(18, detail).sentence}"


def test_the_library_is_asked(folder: Path, command: Command, monkeypatch: pytest.MonkeyPatch) -> None:
    """What the library takes is taken: 17 items, a link that stands twice, an item at no link."""
    asked: list[list[int]] = []

    def takes(fields: list[int]) -> bytes:
        asked.append(fields)
        return b"\x10\x20\x08\x08"

    monkeypatch.setattr(calls, "write_pattern", takes)
    items = "; ".join(f"i{number} [label=section]" for number in range(17))
    (folder / "question.dot").write_text(
        f'digraph {{ {items}; i0 -> i1 [label="cut from"]; i0 -> i1 [label="cut from"] }}'
    )
    assert command("check").status == 0
    assert asked[0] == [17, 2, *[0] * 17, 0, 1, 0, 0, 1, 0]
