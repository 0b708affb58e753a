"""Results: an answer, a sheet or a list, as the file has it that they are written to."""

from __future__ import annotations

from typing import Any, Iterable, Sequence

from . import tables
from .faults import Fault, Faults, Place

COLUMNS = ("from", "to", "kind", "from as", "to as", "link")
"""A row for each pair; the first three are those of `links.csv`."""

GATHERED = ("campaign", *COLUMNS)
"""The same where the rows of several campaigns stand together."""


def encode(rows: Iterable[Sequence[Any]], path: str = ".csv", columns: Sequence[str] = COLUMNS) -> bytes:
    """The rows as CSV, or as JSON or XLSX if the file's name ends so."""
    if path.endswith(".json"):
        import json

        named = [dict(zip(columns, row)) for row in rows]
        return (json.dumps({"format": 1, "rows": named}, ensure_ascii=False, indent=1) + "\n").encode()
    if path.endswith(".xlsx"):
        from . import workbooks

        return workbooks.write(path, columns, rows)
    return tables.write(columns, rows)


def judge(path: str) -> None:
    """Raises Faults if a result can't be written to a file of this name."""
    if not path.endswith((".csv", ".json", ".xlsx")):
        raise Faults([Fault(Place(path), "a result is written to a file whose name ends with .csv, .json or .xlsx")])
