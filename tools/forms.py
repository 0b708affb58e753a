"""Counts the places in src/ whose form docs/DESIGN-PASS.md speaks of, a row for each point of that page and a column for each crate.

python3 tools/forms.py            counts in this tree
python3 tools/forms.py COMMIT     counts in the tree of a commit
python3 tools/forms.py --list N   names the places of point N, a line each
"""
import glob
import re
import subprocess
import sys

LIBRARIES = "packed engine matching containment answering listing yuthaqim yuthaqim_c folder plain replay".split()


def sources(commit):
    """The text of each source, by its path."""
    if commit is None:
        return {f: open(f, encoding="utf-8").read() for f in sorted(glob.glob("crates/*/src/*.rt"))}
    names = subprocess.run(["git", "ls-tree", "-r", "--name-only", commit, "crates"], capture_output=True, text=True, check=True).stdout.split()
    names = [n for n in names if re.fullmatch(r"crates/\w+/src/\w+\.rt", n)]
    return {n: subprocess.run(["git", "show", f"{commit}:{n}"], capture_output=True, text=True, check=True).stdout for n in names}


def answers(commit):
    """How many answers each crate's proofs/ has, and how many lines stand in them."""
    if commit is None:
        texts = {f: open(f, encoding="utf-8").read() for f in glob.glob("crates/*/proofs/**/Answers.antt", recursive=True)}
    else:
        names = subprocess.run(["git", "ls-tree", "-r", "--name-only", commit, "crates"], capture_output=True, text=True, check=True).stdout.split("\n")
        names = [n for n in names if n.endswith("/Answers.antt")]
        out = subprocess.run(["git", "cat-file", "--batch"], input="".join(f"{commit}:{n}\n" for n in names), capture_output=True, text=True, check=True).stdout
        parts = re.split(r"^[0-9a-f]{40} blob \d+\n", out, flags=re.M)[1:]
        texts = dict(zip(names, parts))
    found = {}
    for name, text in texts.items():
        crate = column(name)
        n, lines = found.get(crate, (0, 0))
        found[crate] = (n + len(re.findall(r"^pub \S+ : goal\.", text, re.M)), lines + text.count("\n"))
    return found


def column(path):
    crate = path.split("/")[1]
    return crate if crate in LIBRARIES else "programs"


def functions(text):
    """Each function: its name, its line, its head (up to the body) and its body."""
    for m in re.finditer(r"^( *)(?:pub(?:\(crate\))? )?(?:extern \"C\" )?fn (\w+)", text, re.M):
        opening = re.compile(r"^" + m.group(1) + r"\{|\) (?:-> [^\n{]*)?\{$", re.M).search(text, m.end())
        if not opening:
            continue
        start = text.index("{", opening.start()) if text[opening.end() - 1] != "{" else opening.end() - 1
        end = text.find("\n" + m.group(1) + "}", start)
        end = len(text) if end < 0 else end
        yield m.group(2), text.count("\n", 0, m.start()) + 1, text[m.start() : start], text[start : end + 2]


def own_results(text):
    """Enums of the shape of Option or Result: a variant that only refuses or only says none, beside one with a value."""
    for m in re.finditer(r"enum (\w+) \{(.*?)\n\}", text, re.S):
        variants = re.findall(r"^ +(\w+)(\([^)]*\))?,", m.group(2), re.M)
        names = [v for v, _ in variants]
        if "Refused" in names or (len(variants) == 2 and sum(1 for _, a in variants if a) == 1):
            yield m.group(1), text.count("\n", 0, m.start()) + 1


# What a regular expression finds by itself: the point, what it is, how it is written; point 0 is what takes its place.
WRITTEN = [
    (1, "their variants made or matched", r"\b(?:Field|Two|Three|Part|Reply|Both|Graph|Place|Asked|Several|Cheapest|FirstDay)::[A-Z]\w+|\bCoverage::Refused"),
    (1, "refusals handed on by hand", r"else \{\s*return \w+;\s*\}|::Refused\((\w+)\) => (?:\{\s*return )?\w+::Refused\(\1\)|Err\((\w+)\) => (?:\{\s*return )?Err\(\2\)|Refused\((\w+)\) = \w+ \{\s*return"),
    (1, "a verdict with values beside it that it empties", r"(?m)^ +pub (?:verdict|part|answer): (?:Reply|Part|Both)"),
    (1, "numbers for kinds of files", r"\bfile: u32|Refusal::\w+\([1-9]\)"),
    (3, "while", r"\bwhile ([^{]*)\{"),
    (0, "for", r"(?m)^ *for "),
    (0, "iterators and the library's loops", r"\.(?:iter|iter_mut|rev|zip|map|all|any|sum|fill|copy_within|copy_from_slice|partition_point|position|enumerate)\("),
]


def places(files):
    """A list of (point, kind, crate, place) for all that is counted in sources, but twins and shared clauses."""
    found = []

    def add(point, kind, path, line):
        found.append((point, kind, column(path), f"{path}:{line}"))

    for path, text in files.items():
        code = re.sub(r"//[^\n]*", lambda m: " " * len(m.group(0)), text)
        at = lambda m: text.count("\n", 0, m.start()) + 1
        for _, line in own_results(code):
            add(1, "own enums of the shape of Option or Result", path, line)
        for point, kind, pattern in WRITTEN:
            for m in re.finditer(pattern, code):
                add(point, kind, path, at(m))
        for name, line, head, body in functions(code):
            plain = re.sub(r"\s+", " ", body).strip("{} ")
            if re.fullmatch(r"\w+ as \w+", plain) or re.fullmatch(r"if (\w+) < (\w+) \{ (return )?\w+;? \} (else \{ )?\w+( \})?", plain):
                add(4, "casts, min and max as functions", path, line)
            if re.search(r"\w+\[[^\]]*\] = \w+\[[^\]]*\];\s*\w+ \+= 1;\s*\}", body):
                add(4, "copies element by element", path, line)
            if re.search(r"\((?:\w+): \w+,?\)\s*-> Numbered\w+", head) and "fn from" not in head:
                add(4, "conversions that are no From", path, line)
            if re.fullmatch(r"\[0(?:u8|u16|u32|u64|usize)?; \d+\]", plain):
                add(2, "makers of zeros", path, line)
            args = re.search(r"\((.*)\)", head.split("requires")[0].split("ensures")[0], re.S)
            args = args.group(1) if args else ""
            if re.search(r"\[\w+; \d+\]", args) and re.search(r"\b[kn]: usize", args):
                add(6, "an array with how many of it count beside", path, line)
            if re.search(r": &(?:mut )?\[\w+\]", args) and re.search(r"\b(?:a|b|m|first|end): usize", args):
                add(6, "a slice with a range of it beside", path, line)
            for m in re.finditer(r"\b(\w+): bool", args):
                add(7, "a bool that chooses what is done", path, line)
    return found


TOKENS = re.compile(r"[A-Za-z_]\w*|\d[\d_]*|[^\s\w]")


def shape(body):
    """The body with its names and numbers taken out, but for keywords."""
    keep = {"let", "mut", "if", "else", "while", "for", "in", "return", "match", "as"}
    names = {}
    out = []
    for t in TOKENS.findall(body):
        if t in keep or not re.match(r"\w", t):
            out.append(t)
        else:
            out.append("#" if t[0].isdigit() else names.setdefault(t, f"n{len(names)}"))
    return " ".join(out)


def twins(files):
    """Groups of functions of one shape, over three lines long or makers of zeros."""
    groups = {}
    for path, text in files.items():
        if path.split("/")[1] == "yuthaqim_c":
            continue
        for name, line, head, body in functions(re.sub(r"//[^\n]*", "", text)):
            if body.count("\n") > 4:
                groups.setdefault(shape(body), []).append((path, name))
    return [g for g in groups.values() if len(g) > 1]


def shared(files):
    """Facts of contracts that stand in three or more functions of a crate, and three or more parameters that go together in three or more."""
    facts, groups = {}, {}
    for path, text in files.items():
        crate = column(path)
        for name, line, head, body in functions(re.sub(r"//[^\n]*", "", text)):
            m = re.search(r"requires \{(.*)\}", head)
            for fact in (m.group(1).split(" × ") if m else []):
                facts.setdefault((crate, fact.strip()), set()).add((path, name))
            args = re.search(r"fn \w+(?:<[^(]*>)?\((.*?)\)\s*(?:->|requires|ensures|$)", head, re.S)
            names = tuple(re.sub(r"\s+", " ", a).strip() for a in args.group(1).split(",") if a.strip()) if args else ()
            for i in range(len(names)):
                for j in range(i + 4, len(names) + 1):
                    groups.setdefault((crate, names[i:j]), set()).add((path, name))
    return {k: v for k, v in facts.items() if len(v) > 2}, {k: v for k, v in groups.items() if len(v) > 2}


def main():
    args = sys.argv[1:]
    point = None
    if args[:1] == ["--list"]:
        point, args = int(args[1]), args[2:]
    commit = args[0] if args else None
    files = sources(commit)
    found = places(files)
    facts, groups = shared(files)
    if point == 2:
        for g in twins(files):
            print("; ".join(f"{p} {n}" for p, n in g))
    if point == 5:
        for (crate, fact), where in sorted(facts.items()):
            print(f"{crate}: {fact}: {len(where)}")
        for (crate, names), where in sorted(groups.items()):
            print(f"{crate}: {', '.join(names)}: {len(where)}")
    if point is not None:
        for p, kind, crate, place in found:
            if p == point:
                print(f"{place}: {kind}")
        return
    columns = LIBRARIES + ["programs"]
    table = {}
    for p, kind, crate, _ in found:
        table.setdefault((p, kind), {}).setdefault(crate, 0)
        table[(p, kind)][crate] += 1
    for g in twins(files):
        for path, _ in g:
            row = table.setdefault((2, "functions of a shape that another has"), {})
            row[column(path)] = row.get(column(path), 0) + 1
    for (crate, _), where in facts.items():
        row = table.setdefault((5, "facts that three or more contracts require"), {})
        row[crate] = row.get(crate, 0) + 1
    for (crate, _), where in groups.items():
        row = table.setdefault((5, "runs of four or more parameters in three or more functions"), {})
        row[crate] = row.get(crate, 0) + 1
    for crate, (n, lines) in answers(commit).items():
        table.setdefault((8, "answers"), {})[crate] = n
        table.setdefault((8, "their lines"), {})[crate] = lines
    print("| point | what is counted | " + " | ".join(columns) + " | all |")
    print("|---|---|" + "--:|" * (len(columns) + 1))
    for (p, kind), row in sorted(table.items()):
        cells = [str(row.get(c, 0) or "") for c in columns]
        print(f"| {p or 'new'} | {kind} | " + " | ".join(cells) + f" | {sum(row.values())} |")


if __name__ == "__main__":
    main()
