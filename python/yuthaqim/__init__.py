"""Yuthaqim for scripts: campaigns in people's files, quoted by the proved library.

    import yuthaqim
    campaign = yuthaqim.Campaign("campaigns/2026-03")
    quote = campaign.quote()
    if quote.covered:
        for row in campaign.answer(extracts=quote.chosen).rows():
            print(row["from"], row["to"])

`yuthaqim.calls` has the bare calls on packed bytes.
"""

from __future__ import annotations

from typing import TYPE_CHECKING, Any

if TYPE_CHECKING:
    from . import calls
    from .calls import Refused
    from .campaign import Campaign, Cheapest, Match, Quote, Showing
    from .faults import Fault, Faults, Place
    from .kinds import Kinds
    from .packing import Catalogue, Extract, Pattern
    from .records import Book, Record, Sheet

_MODULES = {
    "calls": ("Refused",),
    "campaign": ("Campaign", "Cheapest", "Match", "Quote", "Showing"),
    "faults": ("Fault", "Faults", "Place"),
    "kinds": ("Kinds",),
    "packing": ("Catalogue", "Extract", "Pattern"),
    "records": ("Book", "Record", "Sheet"),
}

__all__ = [
    "Book",
    "Campaign",
    "Catalogue",
    "Cheapest",
    "Extract",
    "Fault",
    "Faults",
    "Kinds",
    "Match",
    "Pattern",
    "Place",
    "Quote",
    "Record",
    "Refused",
    "Sheet",
    "Showing",
    "calls",
]


def __getattr__(name: str) -> Any:
    """Each name is imported when it is first asked for: the command asks for few of them."""
    from importlib import import_module

    for module, names in _MODULES.items():
        if name == module or name in names:
            found = import_module(f".{module}", __name__)
            return found if name == module else getattr(found, name)
    raise AttributeError(f"module {__name__!r} has no attribute {name!r}")
