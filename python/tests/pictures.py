"""Makes the pictures of docs/PLANNERS.md anew, by Graphviz and Chromium: /usr/bin/python3 python/tests/pictures.py."""

from __future__ import annotations

import os
import subprocess
import tempfile
from pathlib import Path

from browser import Browser

TOP = Path(__file__).resolve().parents[2]
COMMAND, HERE = str(TOP / "bin" / "yuthaqim"), TOP / "docs" / "pictures"

PAGES: list[tuple[str, str, int, str, str]] = [  # picture, page, width, and the first and the last of what it shows
    ("covered", "covered", 800, "header", "section:nth-of-type(1)"),
    ("extracts", "covered", 800, "section:nth-of-type(2)", "section:nth-of-type(3)"),
    ("signatures", "covered", 800, ".contract", ".sign"),
    ("uncovered", "uncovered", 800, "section:nth-of-type(3)", "section:nth-of-type(4)"),
    ("phone", "covered", 360, "header", "section:nth-of-type(1) figure"),
]


def pages(room: Path) -> None:
    """The sample's page, and the one without `fast readings`."""
    for name in ("covered", "uncovered"):
        subprocess.run([COMMAND, "new", "campaign"], cwd=room, check=True, stdout=subprocess.DEVNULL)
        if name == "uncovered":
            table = room / "campaign" / "extracts.csv"
            table.write_text("".join(line for line in table.open() if not line.startswith("fast")))
            os.remove(room / "campaign" / "extracts" / "fast readings.dot")
        words = [COMMAND, "quote", "campaign", "--date", "2026-11-17", "--report", f"{name}.html"]
        subprocess.run(words, cwd=room, stdout=subprocess.DEVNULL)
        os.rename(room / "campaign", room / name)


def main() -> None:
    with tempfile.TemporaryDirectory() as made, Browser() as browser:
        room = Path(made)
        pages(room)
        drawing = room / "covered" / "question.dot"
        subprocess.run(["dot", "-Tpng", "-Gdpi=80", drawing, "-o", HERE / "question.png"], check=True)
        for name, page, width, first, last in PAGES:
            browser.open(room / f"{page}.html", width)
            (HERE / f"{name}.png").write_bytes(browser.part(first, last, 0.8))


if __name__ == "__main__":
    main()
