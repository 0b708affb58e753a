"""DOT's grammar: from the text of a picture to its tree, or to what is not expected where."""

from __future__ import annotations

import functools
import os
from typing import TYPE_CHECKING

import _yuthaqim

from .faults import Place, Unreadable
from .files import Missing
from .names import plain

if TYPE_CHECKING:
    from lark import Lark, Token, Tree
    from lark.exceptions import UnexpectedInput

BRACES, WORDS = 50, 20_000
"""A picture of more braces inside one another, or of more words, is refused before it is read to its end."""

UNENDED = 'the name that begins here with " has no " at its end'

# What doesn't end, by its beginning.
_UNENDED = {
    '"': UNENDED,
    "<": "the text that begins here with < has no > at its end",
    "/*": "the comment that begins here with /* has no */ at its end",
}

# What is expected: the first of these that the grammar accepts.
_EXPECTED = {
    "DIGRAPH": "digraph",
    "RSQB": "] or a further attribute",
    "ARROW": "->, a further statement or }",
    "RBRACE": "a statement or }",
    "SUBGRAPH": "an item or {",
    "EQUAL": "=",
    "LSQB": "[",
    "OPEN": "{",
    "NAME": "a name",
    "STRING": "a text in quotes",
}


class Source:
    """The text of a picture, and the places in it."""

    def __init__(self, file: str, text: str):
        self.file, self.text = file, text
        self._lines = text.split("\n")

    def place(self, line: int | None, column: int | None) -> Place:
        assert line and column
        return Place(self.file, line, column, self._lines[line - 1].rstrip("\r"))

    def at(self, token: Token) -> Place:
        return self.place(token.line, token.column)


def several_lines(token: Token) -> bool:
    """Whether a text in quotes goes over a line's end: then the " at its own end is likely missing."""
    return "\n" in token.replace("\\\n", "")


def parse(source: Source) -> Tree[Token]:
    """The tree of the text by `dot.lark`."""
    state = _parser(source.file).parse_interactive(source.text)
    from lark.exceptions import UnexpectedInput

    last: Token | None = None
    suspect: Token | None = None
    braces = words = 0
    try:
        for token in state.iter_parse():
            words += 1
            braces += {"OPEN": 1, "RBRACE": -1}.get(token.type, 0)
            if words > WORDS:
                raise Unreadable(source.at(token), f"with this the picture has over {WORDS:,} words")
            if braces > BRACES:
                raise Unreadable(source.at(token), f"over {BRACES} braces stand inside one another here")
            if suspect is None and token.type == "STRING" and several_lines(token):
                suspect = token
            last = token
        tree: Tree[Token] = state.feed_eof(last)  # type: ignore[no-untyped-call]
        return tree
    except UnexpectedInput as error:
        if suspect is not None:
            raise Unreadable(source.at(suspect), UNENDED) from None
        raise _unexpected(source, error, last, state.accepts()) from None  # type: ignore[no-untyped-call]


def _unexpected(source: Source, error: UnexpectedInput, last: Token | None, accepts: set[str]) -> Unreadable:
    from lark.exceptions import UnexpectedToken

    if not isinstance(error, UnexpectedToken):
        place = source.place(error.line, error.column)
        text = source.text[error.pos_in_stream or 0 :]
        for begin, message in _UNENDED.items():
            if text.startswith(begin):
                return Unreadable(place, message)
        said = text[0]
    elif error.token.type == "$END":
        place = source.place(last.end_line, last.end_column) if last else Place(source.file)
        said = "the end of the file"
    else:
        place = source.at(error.token)
        said = str(error.token)
    if accepts == {"$END"}:
        return Unreadable(place, "the picture has ended before this")
    expected = next(words for name, words in _EXPECTED.items() if name in accepts)
    return Unreadable(place, f"{plain(said)} is not expected here; {expected} is")


@functools.cache
def _parser(file: str) -> Lark:
    try:
        from lark import Lark
    except ImportError:
        raise Missing(f"to read {file}", "lark", "python3-lark") from None
    with open(os.path.join(os.path.dirname(_yuthaqim.__file__), "dot.tables"), "rb") as tables:
        return Lark.load(tables)
