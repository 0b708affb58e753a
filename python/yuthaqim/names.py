"""Names: how they are compared, what they may hold, how they are shown."""

from __future__ import annotations

import unicodedata
from typing import Iterable

MOST = 60
"""So many characters has a name at most."""

# Letters and marks that show nothing, beyond those that Unicode counts as controls, formats and separators.
_BLANK = frozenset("\u034f\u115f\u1160\u17b4\u17b5\u180b\u180c\u180d\u180f\u2800\u3164\uffa0") | frozenset(
    map(chr, [*range(0xFE00, 0xFE10), *range(0xE0100, 0xE01F0)])
)


def tidy(text: str) -> str:
    """A name as it is compared: in Unicode's form NFC, without white space around it.

    >>> tidy("\\u00a0Ho\\u0308he ")
    'Höhe'
    """
    return (text if text.isascii() else unicodedata.normalize("NFC", text)).strip()


def normal(text: str) -> bool:
    """Whether the text, and so each part of it, is in Unicode's form NFC already."""
    return text.isascii() or unicodedata.is_normalized("NFC", text)


def invisible(character: str) -> bool:
    """Whether a reader can't see the character, or takes it for a space."""
    if character in _BLANK:
        return True
    category = unicodedata.category(character)
    return category in ("Cc", "Cf", "Cs", "Cn", "Zl", "Zp") or (category == "Zs" and character != " ")


def plain(text: str, cut: bool = True) -> str:
    """A text as it is shown: nothing in it moves the cursor or hides, and it isn't long."""
    text = "".join(character for character in text if not invisible(character))
    return text[: MOST - 1] + "…" if cut and len(text) > MOST else text


def quoted(text: str) -> str:
    return f'"{plain(text)}"'


def width(text: str) -> int:
    """How many columns of a terminal the text takes.

    >>> width("section"), width("氷")
    (7, 2)
    """
    return sum(
        0 if unicodedata.combining(character) else 2 if unicodedata.east_asian_width(character) in "WF" else 1
        for character in text
    )


def padded(text: str, columns: int) -> str:
    return text + " " * (columns - width(text))


def near(word: str, names: Iterable[str]) -> str | None:
    """The name that was likely meant by a word that is none of them.

    >>> near("cut form", ["melted in", "cut from"])
    'cut from'
    """
    import difflib  # only where something is wrong

    return next(iter(difflib.get_close_matches(word[: 2 * MOST], list(names), 1)), None)


def listed(names: Iterable[str]) -> str:
    return ", ".join(map(plain, names))


def unseen(name: str) -> str | None:
    """What of a tidy name can't be seen, if anything."""
    if not name:
        return "a name is wanted, and there is none"
    if name.isascii() and name.isprintable():  # most names are, and a record has many
        return None
    for character in name:
        if invisible(character):
            return f"{quoted(name)} holds the invisible character U+{ord(character):04X}"
    return None


def all_seen(names: Iterable[str]) -> bool:
    """Whether nothing is wrong with any of these tidy names, by what `unseen` says."""
    return all(names) and not any(map(invisible, set("".join(names))))


def fault_of(name: str) -> str | None:
    """What is wrong with a tidy name of a kind or an extract, if anything."""
    wrong = unseen(name)
    if wrong:
        return wrong
    if len(name) > MOST:
        return f"{quoted(name)} has {len(name)} characters; a name has at most {MOST}"
    for character in ";\\":
        if character in name:
            return f"{quoted(name)} holds {character}, which no name has"
    if name.startswith("#"):
        return f"{quoted(name)} begins with #, as only a kind without a name does"
    return None
