"""Days: dates for people, numbers from 0 to 65,535 for the library."""

from __future__ import annotations

import re
from datetime import date, timedelta

FIRST, LAST = date(1970, 1, 1), date(2149, 6, 6)
ALWAYS = (0, 65_535)
"""The term of an extract that has none: from the first day on, up to the last, which doesn't count."""


def number(day: date) -> int:
    """The number of a day from FIRST to LAST.

    >>> number(date(1970, 1, 1)), number(date(2149, 6, 6))
    (0, 65535)
    """
    return (day - FIRST).days


def day(number: int) -> date:
    return FIRST + timedelta(days=number)


def read(text: str) -> date:
    """The date that is written so; a ValueError says what is wrong with it.

    >>> read("2026-11-17")
    datetime.date(2026, 11, 17)
    """
    try:
        if not re.fullmatch(r"[0-9]{4}-[0-9]{2}-[0-9]{2}", text):
            raise ValueError
        found = date.fromisoformat(text)
    except ValueError:
        raise ValueError("is no date such as 2026-11-17") from None
    if not FIRST <= found <= LAST:
        raise ValueError(f"lies outside {FIRST} to {LAST}")
    return found
