"""What a person can do wrong, and the line that tells it: the file, the place and the word, word for word."""

from __future__ import annotations

from pathlib import Path
from typing import Union

import pytest
from conftest import Command

Files = dict[str, Union[str, bytes, None]]

NONE = "kinds of links: cut from, melted in, repeated as"
LINK = 'section -> "slow run" [label="cut from"]'


def picture(*lines: str) -> str:
    return "digraph question {\n" + "".join(f"  {line}\n" for line in lines) + "}\n"


def rows(number: int) -> str:
    return "extract\n" + "".join(f"x{row}\n" for row in range(number))


# fmt: off
PICTURES: list[tuple[str, str, str]] = [
    # kinds
    ("kind", picture(LINK, '"slow run" -> reading   [label="cut form"]'), '3:34: "cut form" is no kind of link; did you mean "cut from"?'),
    ("far kind", picture('section -> reading [label="x"]'), f'2:29: "x" is no kind of link; {NONE}'),
    ("not quoted", picture("slow -> reading [label=x]"), '2:3: "slow" is no kind of item; did you mean "slow run"? A name with a space stands in quotes'),
    ("quoted", picture('"slow rum" -> reading [label="cut from"]'), '2:3: "slow rum" is no kind of item; did you mean "slow run"?'),
    ("no label", picture(LINK, '"slow run" -> reading'), f"3:3: the link slow run -> reading has no label; {NONE}"),
    ("empty label", picture('section [label=""]', 'section -> reading [label="cut from"]'), "2:18: this item has no label; kinds of items: section, slow run, fast run, reading"),
    ("number of a named kind", picture('"#0" -> reading [label="cut from"]'), '2:3: "#0" is no kind of item; kinds of items: section, slow run, fast run, reading'),
    ("invisible", picture('"sec\u200btion" -> reading [label="cut from"]'), '2:3: "section" holds the invisible character U+200B'),
    ("no-break space", picture('"slow\u00a0run" -> reading [label="cut from"]'), '2:3: "slowrun" holds the invisible character U+00A0'),
    # drawn otherwise
    ("back", picture('section -> reading [label="cut from", dir=back]'), "2:41: dir=back draws this link the other way round than it is quoted"),
    ("both", picture('section -> reading [dir=both label="cut from"]'), "2:23: dir=both draws this link both ways, and it is quoted one way"),
    ("none", picture("edge [dir=none]", LINK), "2:9: dir=none draws this link without the direction that is quoted"),
    ("invisible link", picture('section -> reading [label="cut from" style="bold,invis"]'), "2:40: style=bold,invis doesn't draw this link, and it is quoted"),
    ("invisible item", picture("node [style=invis]", LINK), "2:9: style=invis doesn't draw this item, and it is quoted"),
    ("point", picture("section [shape=point]", LINK), "2:12: shape=point draws this item without the text that is quoted"),
    ("record", picture('node [shape=record]', 'a [label="slow|run"]', "a -> reading [label=x]"), '2:9: shape=record draws "slow|run" as several texts'),
    ("markup", picture("section [label=<slow>]", LINK), "2:18: a label in < and > is not read; it stands in quotes"),
    ("escape", picture(r'section [label="slow\nrun"]', LINK), "2:18: a label with \\ is drawn otherwise than it is written"),
    ("key", picture(LINK[:-1] + " key=x]"), "2:43: key makes one link of several; leave it out"),
    ("graph", "graph { a -- b }", "1:1: graph draws links without a direction; a picture begins with digraph"),
    ("strict", "strict digraph { a -> b }", "1:1: strict drops a link that stands twice; leave it out"),
    ("--", picture('section -- reading [label="cut from"]'), "2:11: -- draws a link without a direction; -> is wanted"),
    ("subgraph", picture("subgraph x {section}", "subgraph x {reading}", LINK), '3:12: the subgraph "x" stands on line 2 already; Graphviz makes one of the two'),
    ("two graphs", picture(LINK) + "digraph {}", "4:1: the picture has ended before this"),
    ("after the end", picture(LINK) + "}", "4:1: the picture has ended before this"),
    ("name in markup", picture("<section> -> reading"), "2:3: the name of an item stands in quotes, not in < and >"),
    # syntax
    ("not ended", picture('section -> "slow run'), '2:14: the name that begins here with " has no " at its end'),
    ("not ended, with another below", picture('section -> "slow run', '"slow run" -> reading [label="melted in"]'), '2:14: the name that begins here with " has no " at its end'),
    ("not ended, and yet even", picture('section -> "slow run', LINK, '"fast run -> reading'), '2:14: the name that begins here with " has no " at its end'),
    ("syntax", picture(LINK, 'a [label="b" -> c]'), "3:16: -> is not expected here; ] or a further attribute is"),
    ("comment", picture("/* " + LINK), "2:3: the comment that begins here with /* has no */ at its end"),
    ("<", picture("a [URL=<b"), "2:10: the text that begins here with < has no > at its end"),
    ("empty", "", " the end of the file is not expected here; digraph is"),
    ("another file", "from,to\n", "1:1: from is not expected here; digraph is"),
    ("no brace", "digraph question\n", "1:17: the end of the file is not expected here; { is"),
    ("arrow", picture("section ->"), "3:1: } is not expected here; an item or { is"),
    ("=>", picture("section => reading"), "2:12: > is not expected here; a name is"),
    ("not UTF-8", "digraph {\n \xe4 }", "2: byte E4 is not UTF-8; save the picture as UTF-8"),
    # the library's refusals
    ("3, items", picture(*(f'i{n} [label=section]; i{n} -> i0 [label="cut from"]' for n in range(17))), '18:3: "i16" is item 17; a picture has at most 16'),
    ("3, links", picture(*(f'a{n // 8} [label=section]; a{n // 8} -> a{n % 8} [label="cut from"]' for n in range(64))), "34:23: this is link 33; a picture has at most 32"),
    ("3, none", picture("section"), " no link is drawn"),
    ("5", picture(LINK, '"slow run" -> reading [label="melted in"]', LINK), "4:3: this link stands on line 2 already"),
    ("7", picture(LINK, "reading"), '3:3: no link leads to or from "reading"'),
    # caps
    ("braces", "digraph " + "{" * 60, "1:59: over 50 braces stand inside one another here"),
    ("links", "digraph { {" + " ".join(f"a{n}" for n in range(500)) + "} -> {" + " ".join(f"b{n}" for n in range(400)) + "} }", "1:11: with this the picture has over 1,000 links"),
    ("items", "digraph { " + " ".join(f"a{n}" for n in range(1001)) + "}", "1:4901: with this the picture has over 1,000 items"),
    ("words", "digraph { " + "a " * 20_010 + "}", "1:40007: with this the picture has over 20,000 words"),
    ("bytes", "digraph {" + " " * 65_536 + "}", " it has over 65,536 bytes"),
]

TABLES: list[tuple[str, Files, str]] = [
    ("no kinds", {"kinds.csv": None}, "kinds.csv: there is no such file, nor one in the folder above"),
    ("no question", {"question.dot": None}, "question.dot: there is no such file, nor a question.csv"),
    ("no extracts", {"extracts.csv": None}, "extracts.csv: there is no such file, nor one in the folder above"),
    ("two questions", {"question.csv": "from,kind,to\nsection,cut from,reading\n"}, "question.csv: the question stands in question.dot already"),
    ("column", {"kinds.csv": "Kind,Number,Name\n"}, 'kinds.csv:1: there is no column "of"; there are: Kind, Number, Name'),
    ("columns", {"kinds.csv": "of,number,name,Of\n"}, 'kinds.csv:1: two columns are named "of"'),
    ("empty table", {"extracts.csv": ""}, 'extracts.csv:1: there is no column "extract"; there are: none'),
    ("of", {"kinds.csv": "of,number,name\nthing,0,section\n"}, 'kinds.csv:2: column "of": "thing" is neither item nor link'),
    ("number", {"kinds.csv": "of,number,name\nitem,32,section\n"}, 'kinds.csv:2: "32" is no number of a kind of item, 0 to 31'),
    ("number of a link", {"kinds.csv": "of,number,name\nlink,8,cut from\n"}, 'kinds.csv:2: "8" is no number of a kind of link, 0 to 7'),
    ("no name", {"kinds.csv": "of,number,name\nitem,0,\n"}, "kinds.csv:2: a name is wanted, and there is none"),
    (";", {"kinds.csv": 'of,number,name\nitem,0,"slow;fast"\n'}, 'kinds.csv:2: "slow;fast" holds ;, which no name has'),
    ("#", {"kinds.csv": "of,number,name\nitem,0,#1\n"}, 'kinds.csv:2: "#1" begins with #, as only a kind without a name does'),
    ("long", {"kinds.csv": f"of,number,name\nitem,0,{'x' * 61}\n"}, f'kinds.csv:2: "{"x" * 59}…" has 61 characters; a name has at most 60'),
    ("kind twice", {"kinds.csv": "of,number,name\nitem,0,section\nitem,0,run\n"}, "kinds.csv:3: kind 0 of items stands on line 2 already"),
    ("name twice", {"kinds.csv": "of,number,name\nlink,0,cut\nlink,1,cut\n"}, 'kinds.csv:3: kind of link "cut" stands on line 2 already'),
    ("invisible", {"kinds.csv": "of,number,name\nitem,0,V1\u200b\n"}, 'kinds.csv:2: "V1" holds the invisible character U+200B'),
    ("encoding", {"kinds.csv": b"of,number,name\nitem,0,section\nitem,1,fr\xfch\n"}, 'kinds.csv:3: byte FC is not UTF-8; save the table as "CSV UTF-8", or keep it as XLSX'),
    ("UTF-16", {"kinds.csv": "of,number,name".encode("utf-16")[:-1]}, 'kinds.csv: it is not whole UTF-16; save the table as "CSV UTF-8"'),
    ("quote", {"kinds.csv": 'of,number,name\nitem,0,"section\nitem,1,run\n'}, 'kinds.csv:2: a cell that begins here with " has no " at its end'),
    ("after a quote", {"kinds.csv": 'of;number;name\nitem;0;"slow" run\n'}, 'kinds.csv:2: after a cell in " a ; or the end of the line is wanted'),
    ("long cell", {"kinds.csv": "of,number,name\nitem,0," + "x" * 140_000}, "kinds.csv:2: a cell has over 131,072 characters"),
    ("shifted", {"kinds.csv": "of,number,name\nitem,0,slow,run\n"}, "kinds.csv:2: the row has 4 cells, and the header 3"),
    ("after lines in a cell", {"kinds.csv": 'of,number,name,note\nitem,0,section,"a\nb"\n\nitem,0,run,\n'}, "kinds.csv:5: kind 0 of items stands on line 2 already"),
    ("rows", {"kinds.csv": "of,number,name\n" + "item,0,section\n" * 100_001}, "kinds.csv: it has over 100,000 rows"),
    ("charge", {"extracts.csv": "extract,charge in cents\nslow runs,100\nslow readings,3.50\n"}, 'extracts.csv:3: the charge "3.50" is no whole number of cents in digits, such as 350'),
    ("no charge", {"extracts.csv": "extract,charge in cents\nslow runs,\n"}, 'extracts.csv:2: the charge "" is no whole number of cents in digits, such as 350'),
    ("high charge", {"extracts.csv": "extract,charge in cents\nslow runs,4294967296\n"}, 'extracts.csv:2: the charge "4294967296" is over 4,294,967,295'),
    ("other digits", {"extracts.csv": "extract,charge in cents\nslow runs,٣\n"}, 'extracts.csv:2: the charge "٣" is no whole number of cents in digits, such as 350'),
    ("out of the folder", {"extracts.csv": "extract\n../x\n"}, 'extracts.csv:2: "../x" is no name of a file: it holds /'),
    ("hidden", {"extracts.csv": "extract\n.x\n"}, 'extracts.csv:2: ".x" is no name of a file: it begins with .'),
    ("extract twice", {"extracts.csv": "extract\nslow runs\nslow runs\n"}, 'extracts.csv:3: extract "slow runs" stands on line 2 already'),
    ("no picture", {"extracts.csv": "extract\nslow run\n"}, 'extracts.csv:2: there is no extracts/slow run.dot, nor a table of its links; did you mean "slow runs"?'),
    ("two pictures", {"extracts/slow runs.csv": "from,kind,to\nsection,cut from,slow run\n"}, 'extracts/slow runs.dot: "slow runs" stands in extracts/slow runs.csv already'),
    ("picture and table", {"extract links.csv": "extract,from,kind,to\nslow runs,section,cut from,slow run\n"}, 'extract links.csv: "slow runs" stands in extracts/slow runs.dot already'),
    ("3", {"extracts.csv": rows(17)}, 'extracts.csv:18: "x16" is extract 17; a catalogue has at most 16'),
    ("one term", {"extracts.csv": "extract,from\nslow runs,2026-03-01\n"}, 'extracts.csv:1: there is no column "to"; there are: extract, from'),
    ("date", {"extracts.csv": "extract,from,to\nslow runs,1.3.2026,\n"}, 'extracts.csv:2: column "from": "1.3.2026" is no date such as 2026-11-17'),
    ("no such day", {"extracts.csv": "extract,from,to\nslow runs,2026-02-30,\n"}, 'extracts.csv:2: column "from": "2026-02-30" is no date such as 2026-11-17'),
    ("late", {"extracts.csv": "extract,from,to\nslow runs,,2149-06-07\n"}, 'extracts.csv:2: column "to": "2149-06-07" lies outside 1970-01-01 to 2149-06-06'),
    ("one-way", {"extracts.csv": "extract,one-way\nslow runs,no\n"}, 'extracts.csv:2: column "one-way": "no" is neither yes nor blank'),
    ("18", {"extracts.csv": "extract,from,to\nslow readings,,\nslow runs,2026-04-01,2026-03-01\n"}, 'extracts.csv:3: "slow runs" ends on 2026-03-01 and begins on 2026-04-01'),
    ("no item", {"question.dot": None, "question.csv": "from,kind,to\nsection,cut from,\n"}, 'question.csv:2: column "to": the name of an item is wanted'),
    ("another kind", {"question.dot": None, "question.csv": "from,from kind,kind,to\na,section,cut from,reading\na,reading,melted in,reading\n"}, 'question.csv:3: column "from kind": "a" has the kind "section" on line 2'),
    ("5 in a table", {"question.dot": None, "question.csv": "from,kind,to\nsection,cut from,reading\nsection,cut from,reading\n"}, "question.csv:3: this link stands on line 2 already"),
    ("no label in a table", {"question.dot": None, "question.csv": "from,kind,to\nsection,,reading\n"}, f"question.csv:2: the link section -> reading has no label; {NONE}"),
    ("a folder", {"kinds.csv": None, "kinds.csv/x": ""}, "kinds.csv: this is no plain file"),
]
# fmt: on


def put(folder: Path, files: Files) -> None:
    for name, text in files.items():
        path = folder / name
        if text is None:
            path.unlink()
        else:
            path.parent.mkdir(exist_ok=True)
            path.write_bytes(text if isinstance(text, bytes) else text.encode())


def first(told: str) -> str:
    """The first line that is told. One that shows the text and one with the mark may follow it."""
    return told.split("\n")[0]


@pytest.mark.parametrize("text,message", [case[1:] for case in PICTURES], ids=[case[0] for case in PICTURES])
def test_pictures(text: str, message: str, folder: Path, command: Command) -> None:
    data = text.encode("latin-1") if "UTF-8" in message else text.encode()
    for file in ("question.dot", "extracts/slow runs.dot"):
        kept = (folder / file).read_bytes()
        (folder / file).write_bytes(data)
        for word in ("check", "quote"):
            ended = command(word)
            assert ended.status == 2 and ended.out == ""
            assert first(ended.err) == f"{file}:{message}"
        (folder / file).write_bytes(kept)


@pytest.mark.parametrize("files,message", [case[1:] for case in TABLES], ids=[case[0] for case in TABLES])
def test_tables(files: Files, message: str, folder: Path, command: Command) -> None:
    put(folder, files)
    ended = command("check")
    assert ended.status == 2 and ended.out == ""
    assert first(ended.err) == message


def test_the_place_is_shown_with_a_mark(folder: Path, command: Command) -> None:
    put(folder, {"question.dot": 'digraph {\n\t氷 -> "slow run" [label="cut form"] }\n'})
    shown = [
        'question.dot:2:2: "氷" is no kind of item; kinds of items: section, slow run, fast run, reading',
        '     氷 -> "slow run" [label="cut form"] }',
        "     ^",
        'question.dot:2:25: "cut form" is no kind of link; did you mean "cut from"?',
        '     氷 -> "slow run" [label="cut form"] }',
        "                             ^",
    ]
    assert command("check").err.splitlines() == shown


def test_all_faults_of_all_files_are_told(folder: Path, command: Command) -> None:
    links = [f'section -> reading [label="x{number:02}"]' for number in range(30)]
    put(
        folder, {"question.dot": picture(*links), "extracts/fast readings.dot": picture("a -> b"), "extracts.csv": None}
    )
    told = command("check")
    lines = [line for line in told.err.splitlines() if not line.startswith("    ")]
    assert len(lines) == 21 and lines[-1] == "and 11 more"
    assert lines[0] == "extracts.csv: there is no such file, nor one in the folder above"
    assert lines[1].startswith('question.dot:2:29: "x00" is no kind of link')
    every = command("check", "--json").json["faults"]
    assert len(every) == 31
    assert every[1] == {
        "file": "question.dot",
        "line": 2,
        "column": 29,
        "message": f'"x00" is no kind of link; {NONE}',
    }


def test_a_default_that_draws_otherwise_is_told_once(folder: Path, command: Command) -> None:
    put(folder, {"question.dot": picture("edge [dir=back]", LINK, 'section -> reading [label="cut from"]')})
    assert len(command("check").err.splitlines()) == 3


def test_uncovered(folder: Path, command: Command) -> None:
    put(folder, {"extracts.csv": "extract,charge in cents\nslow readings,200\n"})
    notes = "".join(
        f'extracts/{name}.dot: no row of extracts.csv names "{name}"; it is not used\n'
        for name in ("fast readings", "slow runs")
    )
    told = "uncovered: no extract matches link 1, section -[cut from]-> fast run\n"
    assert command("cheapest") == (1, "", notes + told)
    refused = {"number": 11, "detail": 1, "sentence": told.strip()}
    assert command("cheapest", "--json").json == {"format": 1, "refused": refused}
    put(folder, {"extracts.csv": "extract\nslow readings\n"})
    assert (
        command("cheapest").err.splitlines()[-1]
        == 'extracts.csv:1: there is no column "charge in cents"; there are: extract'
    )


TERMS = """\
extract,charge in cents,from,to
slow runs,100,,
slow readings,200,2026-03-01,2026-06-01
fast readings,150,2026-04-01,
"""


def test_days(folder: Path, command: Command) -> None:
    put(folder, {"extracts.csv": TERMS})
    assert command("check").status == 0
    for words in ("quote", "cheapest", "part"):
        ended = command(words)
        assert ended.status == 2
        assert ended.err.startswith("extracts.csv: the extracts have terms: name a day, as with --day 20")
        assert ended.err.endswith(", or take --any-day\n")
    covered = command("quote", "--day", "2026-04-01")
    assert covered.status == 0 and covered.out.splitlines()[0] == "covered on 2026-04-01"
    assert command("quote", "--day", "2026-04-01", "--json").json["day"] == "2026-04-01"
    uncovered = command("quote", "--day", "2026-03-31")
    assert uncovered.status == 1 and uncovered.out.splitlines()[0] == "uncovered on 2026-03-31"
    assert uncovered.out.splitlines()[-1] == "extracts  none"
    assert command("quote", "--any-day").out.splitlines()[0] == "covered"
    assert (
        command("cheapest", "--day", "2026-05-31").out
        == "cheapest  slow readings, fast readings\ncost      350 cents\n"
    )
    told = "uncovered on 2026-06-01: no extract in force matches link 2, slow run -[melted in]-> reading\n"
    assert command("cheapest", "--day", "2026-06-01") == (1, "", told)
    assert command("part", "--day", "2026-03-01").out.splitlines()[-1] == "part  2 of 4 links, drawn in part.dot"
    put(folder, {"extracts.csv": TERMS.replace("100,,", "100,2026-01-01,2026-02-01")})
    told = "uncovered on 2025-01-01: no extract in force matches any link of the question\n"
    assert command("part", "--day", "2025-01-01") == (1, "", told)


def test_first_day(folder: Path, command: Command) -> None:
    put(folder, {"extracts.csv": TERMS})
    assert command("first-day", "--day", "2025-01-01") == (0, "2026-04-01\n", "")
    assert command("first-day", "--day", "2026-05-01") == (0, "2026-05-01\n", "")
    assert command("first-day", "--day", "2026-06-01") == (1, "none\n", "")
    assert command("first-day", "--day", "2026-06-01", "--json").json == {"format": 1, "day": None}
    assert command("first-day").status in (0, 1)


def test_days_without_terms(folder: Path, command: Command) -> None:
    lacking = 'extracts.csv:1: there is no column "from"; there are: extract, charge in cents\n'
    assert command("quote", "--day", "2026-04-01") == (2, "", lacking)
    assert command("first-day") == (2, "", lacking)
    assert command("quote", "--any-day").status == 0
    put(folder, {"extracts.csv": "extract,from,to\nslow runs,,\nslow readings,,\nfast readings,,\n"})
    assert command("quote").out.splitlines()[0] == "covered"
    assert command("quote", "--day", "2026-04-01").out.splitlines()[0] == "covered on 2026-04-01"


def test_one_way_extracts(folder: Path, command: Command) -> None:
    """Two runs, one with a section and one with a fast run: an extract of a run with both matches them one-way alone."""
    runs = ['one [label="slow run"]; other [label="slow run"]', 'section -> one [label="cut from"]']
    both = ['section -> "slow run" [label="cut from"]', '"fast run" -> "slow run" [label="repeated as"]']
    put(
        folder,
        {
            "question.dot": picture(*runs, '"fast run" -> other [label="repeated as"]'),
            "extracts/slow runs.dot": picture(*both),
        },
    )
    put(folder, {"extracts.csv": "extract,one-way\nslow runs,\n"})
    assert command("quote").out.splitlines()[0] == "uncovered"
    put(folder, {"extracts.csv": "extract,one-way\nslow runs,Yes\n"})
    assert command("quote").out.splitlines()[0] == "covered"
    assert command("part").out.splitlines()[-1] == "part  2 of 2 links, drawn in part.dot"


def test_what_campaigns_share(folder: Path, command: Command) -> None:
    for name in ("kinds.csv", "extracts.csv", "extracts"):
        (folder / name).rename(folder.parent / name)
    assert command("quote").status == 0
    put(folder.parent, {"kinds.csv": "of,number\n"})
    assert command("quote").err == '../kinds.csv:1: there is no column "name"; there are: of, number\n'
    assert command("quote", str(folder)).err.startswith(str(folder.parent / "kinds.csv"))


def test_forms_of_tables(folder: Path, command: Command) -> None:
    kinds = (folder / "kinds.csv").read_text()
    cells = [row.split(",") for row in kinds.splitlines()[1:]]
    forms: list[bytes] = [
        b"\xef\xbb\xbf" + kinds.encode(),
        kinds.replace(",", ";").replace("\n", "\r\n").encode(),
        ("sep=;\n" + kinds.replace(",", ";")).encode(),
        kinds.replace(",", "\t").replace("\n", "\r").encode("utf-16"),
        kinds.replace("slow run", "\u00a0slow run  ").encode(),
        ("\n\n" + kinds.replace("\n", "\n,,\n\n")).encode(),
        kinds.replace("section", '"section"').rstrip("\n").encode(),
        "".join(f"{name},a;b,{of},{number}\n" for of, number, name in [["OF", " Number", " Name "], *cells]).encode(),
    ]
    for form in forms:
        (folder / "kinds.csv").write_bytes(form)
        assert command("check") == (
            0,
            "question 4 items, 4 links; 3 extracts; record 12 items, 11 links: accepted\n",
            "",
        )


def test_what_is_decomposed_is_the_same(folder: Path, command: Command) -> None:
    for path in folder.rglob("*.*"):
        if path.is_file():
            path.write_text(path.read_text().replace("reading", "Messung\u00f6"))
    (folder / "question.dot").write_text((folder / "question.dot").read_text().replace("\u00f6", "o\u0308"))
    (folder / "extracts" / "slow readings.dot").rename(folder / "extracts" / "slow Messungo\u0308s.dot")
    (folder / "extracts" / "fast readings.dot").rename(folder / "extracts" / "fast Messung\u00f6s.dot")
    ended = command("quote")
    assert ended.status == 0 and ended.err == ""


def test_two_items_of_one_kind_are_told_apart(folder: Path, command: Command) -> None:
    put(
        folder,
        {"question.dot": picture("a [label=section]; b [label=section]", '{a b} -> "slow run" [label="cut from"]')},
    )
    assert command("quote").out.splitlines()[1:3] == [
        "link 0  a (section) -[cut from]-> slow run  by slow runs",
        "link 1  b (section) -[cut from]-> slow run  by slow runs",
    ]
