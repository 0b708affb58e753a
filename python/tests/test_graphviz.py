"""Pictures beside Graphviz: drawn texts have the items, labels and links that `dot` gives for them."""

from __future__ import annotations

import json
import random
import subprocess
from collections import Counter

import pytest

from yuthaqim import pictures
from yuthaqim.faults import Fault

TEXTS, TOGETHER = 2_400, 200

# fmt: off
NAMES = ["a", "b", "c_1", "_", "7", "-1.5", ".5", '"slow run"', '"a"', '"x;y"', '"p{q}"', '"say \\"so\\""', "é", "Ωx", '"12"']
NAMES += ['"one"+"two"', '"# no"', '"// no"', '"b" + "c"', "nodes", "Edge_", '"node"', '"back\\\\slash"', '"long\\\n name"']
LABELS = ["cut", '"cut from"', '"melted in"', '""', "7", '"a"+"b"', '"<b>"', '"x -> y"', '"{z}"', '"\\N"']
# fmt: on
OTHERS = ["color=red", 'tooltip="a\nb"', "weight=2", 'comment="]"', "URL=<<b>x</b>>", "fontsize=9", "xlabel=k"]


class Artist:
    """Draws a text by chance: each thing that DOT's grammar has."""

    def __init__(self, seed: int):
        self.chance = random.Random(seed)
        self.subgraphs = 0

    def some(self, *ways: str) -> str:
        return self.chance.choice(ways)

    def gap(self) -> str:
        return self.some(" ", " ", "\n", "\t", " /* a -> b * / */ ", " // c -> d\n", "\n# e -> f\n", " # g\n", "\r\n")

    def attributes(self, most: int = 3) -> str:
        groups = []
        for _ in range(self.chance.choice([0, 1, 1, 2])):
            said = [self.attribute() for _ in range(self.chance.randint(0, most))]
            groups.append("[" + "".join(one + self.some(",", ";", " ", ", ") for one in said) + "]")
        return self.gap().join(groups)

    def attribute(self) -> str:
        if self.chance.random() < 0.6:
            return self.some("label", "label", '"label"', '"la"+"bel"') + self.some("=", " = ") + self.some(*LABELS)
        return self.some(*OTHERS)

    def node(self) -> str:
        return self.some(*NAMES) + self.some("", "", "", ":n", ": p :sw", ':"q"')

    def end(self, depth: int) -> str:
        if depth < 4 and self.chance.random() < 0.3 / (1 + depth / 2):
            return self.group(depth)
        return self.some(", ", ",").join(self.node() for _ in range(self.chance.choice([1, 1, 1, 1, 2, 3])))

    def group(self, depth: int) -> str:
        head = self.some("", "", "subgraph ", "subgraph name", "SubGraph cluster_")
        if head.endswith(("e", "_")):
            self.subgraphs += 1
            head += f"{self.subgraphs} "
        return head + self.body(depth + 1)

    def statement(self, depth: int) -> str:
        way = self.chance.random()
        if way < 0.12:
            return self.some("node", "edge", "NODE", "graph") + " [" + self.attribute() + "]" + self.attributes(1)
        if way < 0.18:
            return self.some("rankdir=LR", 'label="x"', "a = b", '"style" = "bold"')
        ends = [self.end(depth) for _ in range(self.chance.choice([1, 1, 2, 2, 2, 3, 4]))]
        return self.some("->", " -> ", " ->\n").join(ends) + self.gap() + self.attributes()

    def body(self, depth: int) -> str:
        said = (
            self.statement(depth) + self.some(";", " ;", "\n", self.gap()) for _ in range(self.chance.randint(0, 5))
        )
        return "{" + self.gap() + "".join(said) + "}"

    def text(self) -> str:
        return self.some("digraph", "DiGraph") + self.some(" ", " q ", ' "q"+"r" ', " <q> ") + self.body(0) + self.gap()


def of_graphviz(texts: list[str]) -> list[tuple[list[tuple[str, str]], Counter[tuple[str, str, str]]]]:
    """For each text its items in order, with the text that each shows, and its links."""
    # Without a layout, which takes long, and of which Graphviz's own engines crash on some of these texts.
    ended = subprocess.run(["dot", "-Knop", "-Tdot_json"], input="\n".join(texts).encode(), capture_output=True)
    assert b"syntax" not in ended.stderr, ended.stderr.decode()
    decoder, said, at, found = json.JSONDecoder(strict=False), ended.stdout.decode(), 0, []
    while said[at:].strip():
        at += len(said[at:]) - len(said[at:].lstrip())
        graph, at = decoder.raw_decode(said, at)
        nodes = {one["_gvid"]: one for one in graph.get("objects", [])[graph["_subgraph_cnt"] :]}
        items = [(one["name"], one["name"] if one["label"] == "\\N" else one["label"]) for one in nodes.values()]
        links = Counter(
            (nodes[one["tail"]]["name"], nodes[one["head"]]["name"], one.get("label", ""))
            for one in graph.get("edges", [])
        )
        found.append((items, links))
    return found


@pytest.mark.parametrize("begin", range(0, TEXTS, TOGETHER))
def test_as_graphviz_reads_them(begin: int) -> None:
    texts = [Artist(seed).text() for seed in range(begin, begin + TOGETHER)]
    drawn = of_graphviz(texts)
    assert len(drawn) == TOGETHER
    refused = 0
    for text, (items, links) in zip(texts, drawn):
        wrong: list[Fault] = []
        sketch = pictures.read(text.encode(), "drawn.dot", wrong)
        if sum(links.values()) > pictures.LINKS:
            assert sketch is None and "over 1,000 links" in wrong[-1].message
            refused += 1
            continue
        assert sketch, (text, wrong)
        assert all("\\" in fault.message or "label" in fault.message for fault in wrong), (text, wrong)
        assert [(item.name, item.kind.text) for item in sketch.items] == items, text
        named = [item.name for item in sketch.items]
        ours = Counter(
            (named[link.start], named[link.end], link.kind.text if link.kind else "") for link in sketch.links
        )
        assert ours == links, text
    assert refused < TOGETHER / 10


def test_the_texts_are_not_all_small() -> None:
    """What is drawn by chance has groups, chains, defaults and many links, or the test above would show little."""
    drawn = of_graphviz([Artist(seed).text() for seed in range(TOGETHER)])
    assert sum(len(links) > 5 for _, links in drawn) > TOGETHER / 8
    assert sum(len(items) > 5 for items, _ in drawn) > TOGETHER / 4
    assert any(max(links.values(), default=0) > 1 for _, links in drawn)


def test_links_stand_in_the_order_of_the_text() -> None:
    text = "digraph { c -> a; {b a} -> {d c}; a -> b -> {x -> y} -> c; b, a, a -> z }"
    sketch = pictures.read(text.encode(), "drawn.dot", [])
    assert sketch
    named = [item.name for item in sketch.items]
    ours = " ".join(named[link.start] + named[link.end] for link in sketch.links)
    assert named == list("cabdxyz")
    assert ours == "ca ac ad bc bd xy ab bx by xc yc bz az az"
