"""Pictures: Graphviz's DOT, read so that what is drawn is what is quoted."""

from __future__ import annotations

import re
from typing import TYPE_CHECKING, NamedTuple, Sequence

from . import dot
from .faults import Fault, Unreadable
from .names import quoted
from .sketches import Item, Link, Sketch, Word
from .tables import not_utf8

if TYPE_CHECKING:
    from lark import Token, Tree

BYTES, ITEMS, LINKS = 65_536, 1_000, 1_000
"""A picture with more is refused before it is read to its end."""

_ITS_NAME = r"\N"  # the label that shows an item's name; each has it at first


_KNOWN: dict[tuple[str, bytes], Sketch] = {}  # by file and bytes: many campaigns share their extracts


def read(data: bytes, file: str, faults: list[Fault]) -> Sketch | None:
    """The picture in the bytes of a file; None where it can't be read, and then a fault says why."""
    before = len(faults)
    found = _KNOWN.get((file, data)) or _read(data, file, faults)
    if found and len(faults) == before and len(_KNOWN) < 64:
        _KNOWN[file, data] = found
    return found


def _read(data: bytes, file: str, faults: list[Fault]) -> Sketch | None:
    try:
        source = dot.Source(file, data.decode("utf-8-sig"))
        drawing = _Drawing(source, faults)
        drawing.draw(dot.parse(source))
    except UnicodeDecodeError as error:
        faults.append(not_utf8(error, file, "save the picture as UTF-8").fault)
    except Unreadable as unreadable:
        faults.append(unreadable.fault)
    else:
        return drawing.sketch()
    return None


class _Text(NamedTuple):
    """A name in the picture, or the value of an attribute."""

    text: str
    tokens: Sequence[Token]

    @property
    def markup(self) -> bool:
        return any(token.type == "MARKUP" for token in self.tokens)

    @property
    def several_lines(self) -> bool:
        return any(token.type == "STRING" and dot.several_lines(token) for token in self.tokens)

    @property
    def bare(self) -> bool:
        return self.tokens[0].type in ("NAME", "NUMBER")


class _Attribute(NamedTuple):
    name: _Text
    value: _Text


_Attributes = dict[str, _Attribute]


class _Node(NamedTuple):
    name: _Text
    attributes: _Attributes


class _Edge(NamedTuple):
    start: int
    end: int
    token: Token
    attributes: _Attributes


class _Scope(NamedTuple):
    """The defaults in a pair of braces, which begin as those around it."""

    node: _Attributes
    edge: _Attributes

    def inner(self) -> _Scope:
        return _Scope(dict(self.node), dict(self.edge))


class _Drawing:
    """What Graphviz makes of a text: items in the order of their first mention, links in that of the text."""

    def __init__(self, source: dot.Source, faults: list[Fault]):
        self.source, self.faults = source, faults
        self.nodes: list[_Node] = []
        self.edges: list[_Edge] = []
        self.numbers: dict[str, int] = {}
        self.subgraphs: dict[str, int] = {}

    def fault(self, token: Token, message: str) -> None:
        self.faults.append(Fault(self.source.at(token), message))

    # From the tree to items and links.

    def draw(self, tree: Tree[Token]) -> None:
        for token in _tokens(tree):
            if token.type == "STRICT":
                raise Unreadable(self.source.at(token), "strict drops a link that stands twice; leave it out")
            if token.type == "GRAPH":
                message = "graph draws links without a direction; a picture begins with digraph"
                raise Unreadable(self.source.at(token), message)
        self.body(_trees(tree)[-1], _Scope({}, {}))

    def body(self, tree: Tree[Token], scope: _Scope) -> set[int]:
        """Draws what stands in a pair of braces, and gives the items that it names."""
        named: set[int] = set()
        for statement in _trees(tree):
            if statement.data == "chain":
                named |= self.chain(statement, scope)
            elif statement.data == "defaults":
                defaults = {"NODE": scope.node, "EDGE": scope.edge}.get(_tokens(statement)[0].type, {})
                defaults.update(_attributes(statement))
        return named

    def chain(self, tree: Tree[Token], scope: _Scope) -> set[int]:
        parts = [part for part in _trees(tree) if part.data != "attributes"]
        ends = [self.nodes_of(part, scope) if part.data == "nodes" else self.group(part, scope) for part in parts]
        attributes = _attributes(tree)
        if len(parts) > 1:
            self.links(parts, ends, _tokens(tree), attributes, scope)
        elif parts[0].data == "nodes":
            for number in ends[0]:
                self.nodes[number].attributes.update(attributes)
        return {number for end in ends for number in end}

    def nodes_of(self, tree: Tree[Token], scope: _Scope) -> list[int]:
        return [self.node(_text(_trees(node)[0]), scope) for node in _trees(tree)]

    def node(self, name: _Text, scope: _Scope) -> int:
        if name.markup:
            raise Unreadable(self.source.at(name.tokens[0]), "the name of an item stands in quotes, not in < and >")
        if name.several_lines:
            raise Unreadable(self.source.at(name.tokens[0]), dot.UNENDED)
        number = self.numbers.setdefault(name.text, len(self.nodes))
        if number == ITEMS:
            raise Unreadable(self.source.at(name.tokens[0]), f"with this the picture has over {ITEMS:,} items")
        if number == len(self.nodes):
            self.nodes.append(_Node(name, dict(scope.node)))
        return number

    def group(self, tree: Tree[Token], scope: _Scope) -> list[int]:
        *names, body = _trees(tree)
        for name in map(_text, names):
            line = self.subgraphs.get(name.text)
            if line:
                message = (
                    f"the subgraph {quoted(name.text)} stands on line {line} already; Graphviz makes one of the two"
                )
                self.fault(name.tokens[0], message)
            self.subgraphs[name.text] = name.tokens[0].line or 0
        return sorted(self.body(body, scope.inner()))

    def links(
        self,
        parts: list[Tree[Token]],
        ends: list[list[int]],
        arrows: list[Token],
        attributes: _Attributes,
        scope: _Scope,
    ) -> None:
        for arrow in arrows:
            if arrow == "--":
                self.fault(arrow, "-- draws a link without a direction; -> is wanted")
        if "key" in attributes:
            self.fault(attributes["key"].name.tokens[0], "key makes one link of several; leave it out")
        for part, starts, goals in zip(parts, ends, ends[1:]):
            token = next(part.scan_values(lambda _: True))
            if len(self.edges) + len(starts) * len(goals) > LINKS:
                raise Unreadable(self.source.at(token), f"with this the picture has over {LINKS:,} links")
            for start in starts:
                self.edges += [_Edge(start, goal, token, {**scope.edge, **attributes}) for goal in goals]

    # From these to words.

    def sketch(self) -> Sketch:
        items = [
            Item(shown(node.name.text), self.source.at(node.name.tokens[0]), self.item_kind(node))
            for node in self.nodes
        ]
        links = [Link(edge.start, edge.end, self.source.at(edge.token), self.link_kind(edge)) for edge in self.edges]
        return Sketch(self.source.file, tuple(items), tuple(links))

    def item_kind(self, node: _Node) -> Word:
        self.look("item", node.attributes)
        label = node.attributes.get("label")
        shown = label.value if label and label.value.text != _ITS_NAME else node.name
        shape = node.attributes.get("shape")
        if shape and shape.value.text.casefold() in ("record", "mrecord") and re.search("[{}|<>]", shown.text):
            self.fault(shape.name.tokens[0], f"shape={shape.value.text} draws {quoted(shown.text)} as several texts")
        return self.word(shown)

    def link_kind(self, edge: _Edge) -> Word | None:
        self.look("link", edge.attributes)
        label = edge.attributes.get("label")
        return self.word(label.value) if label and label.value.text else None

    def look(self, of: str, attributes: _Attributes) -> None:
        """Tells attributes by which an item or a link is drawn otherwise than it is quoted."""
        for attribute in attributes.values():
            name, value = attribute.name.text, attribute.value.text
            for drawn in _OTHERWISE:
                if drawn.of in ("", of) and drawn.name == name and re.fullmatch(drawn.value, value):
                    self.fault(attribute.name.tokens[0], f"{name}={value} {drawn.says.format(of=of)}")

    def word(self, text: _Text) -> Word:
        token = text.tokens[0]
        if text.markup:
            self.fault(token, "a label in < and > is not read; it stands in quotes")
        elif "\\" in text.text:
            self.fault(token, "a label with \\ is drawn otherwise than it is written")
        elif text.several_lines:
            self.fault(token, dot.UNENDED)
        return Word(shown(text.text), self.source.at(token), text.bare)


class _Otherwise(NamedTuple):
    """An attribute that draws an item or a link otherwise than it is quoted."""

    of: str  # items, links or, empty, both
    name: str
    value: str
    says: str


_OTHERWISE = (
    _Otherwise("link", "dir", "back", "draws this link the other way round than it is quoted"),
    _Otherwise("link", "dir", "both", "draws this link both ways, and it is quoted one way"),
    _Otherwise("link", "dir", "(?!(|forward|back|both)$).*", "draws this link without the direction that is quoted"),
    _Otherwise("", "style", r"(.*[\s,])?invis([\s,].*)?", "doesn't draw this {of}, and it is quoted"),
    _Otherwise("item", "shape", "point", "draws this item without the text that is quoted"),
)


def shown(label: str) -> str:
    """The text that Graphviz shows for a label: it takes HTML's entities for characters.

    >>> shown("ice &amp; firn &#176;")
    'ice & firn °'
    """
    return re.sub(r"&(#[0-9]{1,7}|#[xX][0-9a-fA-F]{1,6}|[A-Za-z0-9]{1,8});", _character, label)


def _character(entity: re.Match[str]) -> str:
    import html.entities  # few labels have one

    name = entity[1]
    if not name.startswith("#"):
        code = html.entities.name2codepoint.get(name, 0)
    elif name[1] in "xX":
        code = int(name[2:], 16)
    else:
        code = int(name[1:])
    return chr(code) if 0 < code < 0x110000 else entity[0]


def _trees(tree: Tree[Token]) -> list[Tree[Token]]:
    return [child for child in tree.children if not isinstance(child, str)]


def _tokens(tree: Tree[Token]) -> list[Token]:
    return [child for child in tree.children if isinstance(child, str)]


def _text(tree: Tree[Token]) -> _Text:
    tokens = _tokens(tree)
    return _Text("".join(map(_unquoted, tokens)), tokens)


def _unquoted(token: Token) -> str:
    if token.type == "STRING":
        return re.sub(r'\\(["\n\\])', lambda escape: {'"': '"', "\n": ""}.get(escape[1], escape[0]), token[1:-1])
    return token[1:-1] if token.type == "MARKUP" else str(token)


def _attributes(tree: Tree[Token]) -> _Attributes:
    """Those of the square brackets of a statement; of two of one name the last counts."""
    found: _Attributes = {}
    for group in _trees(tree):
        if group.data == "attributes":
            for attribute in _trees(group):
                name, value = map(_text, _trees(attribute))
                found[name.text] = _Attribute(name, value)
    return found
