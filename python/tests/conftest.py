from __future__ import annotations

import json
import os
import shutil
from pathlib import Path
from typing import Any, Callable, NamedTuple

import pytest
from hypothesis import settings

from yuthaqim.cli import main

TOP = Path(__file__).parents[2]
SAMPLE = TOP / "samples" / "people"

settings.register_profile("people", deadline=None, derandomize=True, print_blob=False)
settings.load_profile("people")


class Ended(NamedTuple):
    status: int
    out: str
    err: str

    @property
    def json(self) -> Any:
        return json.loads(self.out)


Command = Callable[..., Ended]


@pytest.fixture
def folder(tmp_path: Path, monkeypatch: pytest.MonkeyPatch) -> Path:
    """A campaign's folder of the sample's files, which is the current one."""
    made = tmp_path / "laboratory" / "campaign"
    shutil.copytree(SAMPLE, made)
    monkeypatch.chdir(made)
    return made


@pytest.fixture
def command(capsys: pytest.CaptureFixture[str]) -> Command:
    """Runs the command with these words."""

    def run(*words: str) -> Ended:
        capsys.readouterr()
        try:
            status = main(words)
        except SystemExit as ended:  # argparse
            status = int(ended.code or 0)
        said = capsys.readouterr()
        return Ended(status, said.out, said.err)

    return run


def uncovered(folder: Path) -> None:
    """Leaves the extract `slow readings` alone in the catalogue."""
    (folder / "extracts.csv").write_text("extract,charge in cents\nslow readings,200\n")
    os.remove(folder / "extracts" / "slow runs.dot")
    os.remove(folder / "extracts" / "fast readings.dot")


def tables(folder: Path) -> None:
    """Puts tables in the place of the pictures."""
    runs = {"slow": "section,cut from,slow run\n", "fast": "section,cut from,fast run\n"}
    melted = {"slow": "slow run,melted in,reading\n", "fast": "fast run,melted in,reading\n"}
    (folder / "question.dot").unlink()
    question = runs["slow"] + runs["fast"] + melted["slow"] + melted["fast"]
    (folder / "question.csv").write_text("from,kind,to\n" + question)
    for drawing in (folder / "extracts").iterdir():
        drawing.unlink()
    (folder / "extracts" / "slow runs.csv").write_text("from,kind,to\n" + runs["slow"])
    for speed in ("slow", "fast"):
        (folder / "extracts" / f"{speed} readings.csv").write_text("from,kind,to\n" + runs[speed] + melted[speed])
