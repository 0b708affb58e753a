"""Drawings: patterns and records laid out by Graphviz, as SVG that stands in a page."""

from __future__ import annotations

import re
import subprocess
import textwrap
from html import escape
from typing import TYPE_CHECKING, Iterator, NamedTuple, Sequence

from .files import Missing

if TYPE_CHECKING:
    from xml.etree.ElementTree import Element

COLOURS = "#0062a3", "#b84300", "#00735a", "#9c2f7c", "#6b5a00", "#4a3fb0", "#8a3b12", "#3d4f5c"
"""Those of extracts: dark on white, and of different lightness for who sees fewer hues."""

INK, PALE, RED = "#1c2733", "#8a949e", "#b00020"

_PORTRAIT, _LANDSCAPE = (500, 640), (750, 450)  # the points that a drawing has on a printed page
_BROAD, _LARGE = 200, 320  # a drawing over so many is wider than one of three columns, or of two
_LINE, _BADGES = 24, 8  # so many characters of a name, and so many letters, stand in one line


class Badge(NamedTuple):
    """The letter of an extract, on its colour."""

    letter: str
    colour: str


class Item(NamedTuple):
    kind: str
    name: str = ""  # where it is another
    pale: bool = False


class Line(NamedTuple):
    """A link as it is drawn."""

    start: int
    end: int
    kind: str
    colours: tuple[str, ...] = (INK,)
    style: str = "solid"
    number: str = ""
    note: str = ""
    badges: tuple[Badge, ...] = ()


class Drawing(NamedTuple):
    name: str  # the ids in it begin with it
    said: str  # what it shows, for who can't see it
    items: Sequence[Item]
    links: Sequence[Line]


def draw(drawings: Sequence[Drawing]) -> list[str]:
    """Each drawing as an element of a page. Graphviz runs once for all of them."""
    text = "".join(map(_dot, drawings))
    try:
        made = subprocess.run(["dot", "-Tsvg"], input=text.encode(), capture_output=True, check=True).stdout.decode()
    except FileNotFoundError:
        raise Missing("to draw the page", "Graphviz", "graphviz") from None
    return [_element(svg, drawing) for svg, drawing in zip(re.findall("<svg.*?</svg>", made, re.DOTALL), drawings)]


def still(page: str) -> str:
    """A page with all of its drawings but where things stand in them: that hangs on fonts and on Graphviz's version."""

    def without(found: re.Match[str]) -> str:
        places = r' (class|width|height|style|viewBox|transform|d|points|x|y|cx|cy|rx|ry)="[^"]*"'
        return re.sub(places, "", found[0])

    return re.sub('<div class="drawing.*?</svg></div>', without, page, flags=re.DOTALL)


# What Graphviz is given. Labels are HTML-like: in plain ones it takes \n, \N and &amp; for itself.

_FONT = "Helvetica,Arial,Liberation Sans,sans-serif"


def _dot(drawing: Drawing) -> str:
    lines = [
        f'graph [id="{drawing.name}", bgcolor=transparent, nodesep=0.35, ranksep=0.45, pad=0.05]',
        f'node [shape=box, style="rounded,filled", margin="0.15,0.07", height=0.3, fontname="{_FONT}", fontsize=12]',
        f'edge [arrowsize=0.7, fontname="{_FONT}", fontsize=10]',
    ]
    for number, item in enumerate(drawing.items):
        ink, edge, fill = (PALE, "#c3cad1", "#ffffff") if item.pale else (INK, "#5b6b7a", "#eff3f6")
        look = f'color="{edge}", fillcolor="{fill}", fontcolor="{ink}"'
        lines.append(f'n{number} [id="{drawing.name}-item{number}", {look}, label=<{_item_label(item)}>]')
    for number, link in enumerate(drawing.links):
        pen = 1.1 if link.colours == (PALE,) else 2
        look = f'color="{":".join(link.colours)}", style={link.style}, penwidth={pen}'
        place = f'n{link.start} -> n{link.end} [id="{drawing.name}-link{number}"'
        lines.append(f"{place}, {look}, label=<{_link_label(link)}>]")
    return f"digraph {{\n{chr(10).join(lines)}\n}}\n"


def _item_label(item: Item) -> str:
    name = f'<BR/><FONT POINT-SIZE="10">{_wrapped(item.name)}</FONT>' if item.name else ""
    return _wrapped(item.kind) + name


def _link_label(link: Line) -> str:
    ink = INK if len(link.colours) > 1 else link.colours[0]
    number = f"<B>{link.number}\u00a0\u00a0</B>" if link.number else ""
    rows = [f'<FONT COLOR="{ink}">{number}{_wrapped(link.kind)}</FONT>']
    if link.note:
        rows.append(f'<FONT COLOR="{ink}"><B>{link.note}</B></FONT>')
    for at in range(0, len(link.badges), _BADGES):
        cells = "".join(
            f'<TD BORDER="0" BGCOLOR="{badge.colour}" WIDTH="15" HEIGHT="15"><FONT COLOR="#ffffff"><B>{badge.letter}</B></FONT></TD>'
            for badge in link.badges[at : at + _BADGES]
        )
        size = f'FIXEDSIZE="TRUE" WIDTH="{2 + 17 * len(link.badges[at : at + _BADGES])}" HEIGHT="19"'
        rows.append(f'<TABLE ALIGN="LEFT" BORDER="0" CELLSPACING="2" CELLPADDING="1" {size}><TR>{cells}</TR></TABLE>')
    # A narrow empty cell keeps the label off its line.
    cells = "".join(f'<TR><TD WIDTH="6"></TD><TD ALIGN="LEFT">{row}</TD></TR>' for row in rows)
    return f'<TABLE BORDER="0" CELLBORDER="0" CELLSPACING="0" CELLPADDING="0">{cells}</TABLE>'


def _wrapped(name: str) -> str:
    """A name in lines, its spaces kept."""
    lines = textwrap.wrap(name, _LINE, break_on_hyphens=False)
    return "<BR/>".join(
        escape(line).replace(" ", "\u00a0").replace("[", "&#91;").replace("]", "&#93;") for line in lines
    )


# What it gives: only what is named here comes into the page.

_KEPT = {
    "g": ("id", "transform"),
    "path": ("fill", "stroke", "stroke-width", "stroke-dasharray", "d"),
    "polyline": ("fill", "stroke", "stroke-width", "stroke-dasharray", "points"),
    "polygon": ("fill", "stroke", "stroke-width", "points"),
    "text": ("text-anchor", "x", "y", "font-size", "font-weight", "fill"),
}


def _element(svg: str, drawing: Drawing) -> str:
    from xml.etree import ElementTree

    root = ElementTree.fromstring(svg.replace("xlink:", ""))
    width, height = (float(root.attrib[side].removesuffix("pt")) for side in ("width", "height"))
    size = f'width="{root.attrib["width"]}" height="{root.attrib["height"]}" viewBox="{root.attrib["viewBox"]}"'
    upright, across = (min(1, page[0] / width, page[1] / height) for page in (_PORTRAIT, _LANDSCAPE))
    sizes = (
        (" broad" if width > _BROAD else "")
        + (" large" if width > _LARGE else "")
        + (" wide" if across > upright else "")
    )
    begin = f'<svg role="img" aria-label="{escape(drawing.said)}" {size} style="min-width:{0.6 * width:.0f}pt">'
    return f'<div class="drawing{sizes}">{begin}\n' + "".join(_inside(root)) + "</svg></div>"


def _inside(parent: Element) -> Iterator[str]:
    for child in parent:
        tag = child.tag.rpartition("}")[2]
        if tag not in _KEPT or child.get("fill") == "transparent":
            continue
        kept = "".join(f' {name}="{escape(child.attrib[name])}"' for name in _KEPT[tag] if name in child.attrib)
        if tag == "g":
            yield f"<g{kept}>\n" + "".join(_inside(child)) + "</g>\n"
        else:
            yield f"<{tag}{kept}>{escape(child.text or '')}</{tag}>\n"
