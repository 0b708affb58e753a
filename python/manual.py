"""Writes the manual page and the completion for bash out of the command's own words: manual.py FOLDER."""

from __future__ import annotations

import argparse
import gzip
import os
import sys
from typing import Iterator

sys.path.insert(0, os.path.dirname(os.path.abspath(__file__)))
from yuthaqim.cli import VERSION, parser  # noqa: E402


def commands() -> dict[str, argparse.ArgumentParser]:
    actions = parser()._subparsers._group_actions  # type: ignore[union-attr]
    return dict(actions[0].choices)  # type: ignore[arg-type]


def plain(text: str) -> str:
    """A text as groff shows it."""
    text = text.replace("\\", "\\e").replace("-", "\\-")
    return "\\&" + text if text.startswith((".", "'")) else text


def manual() -> Iterator[str]:
    whole = parser()
    yield f'.TH YUTHAQIM 1 "" "yuthaqim {VERSION}" "User Commands"'
    yield ".SH NAME\nyuthaqim \\- quotes a campaign's question from drawings and tables"
    yield ".SH SYNOPSIS\n.B yuthaqim\n.I COMMAND\n[\\fIOPTION\\fR]..."
    yield f".SH DESCRIPTION\n{plain(whole.description or '')}"
    yield ".SH COMMANDS"
    for name, command in commands().items():
        usage = " ".join(command.format_usage().split()[2:])
        yield f".TP\n.B {plain(usage)}\n{plain(command.description or '')}"
        for action in command._actions:
            if action.option_strings and action.dest not in ("help", "json"):
                said = " ".join(filter(None, (action.option_strings[0], str(action.metavar or ""))))
                yield f"\n\\fB{plain(said)}\\fR: {plain(action.help or '')}."
        yield f"\n{plain(command.epilog or '')}"
    yield ".SH OPTIONS\n.TP\n.B \\-\\-json\nprint one JSON object, of every command\n.TP\n.B \\-\\-help\nsay what a command does"
    yield ".SH EXIT STATUS\n0 done and covered; 1 uncovered, or a page that is not as quoted; 2 the files or the words of"
    yield "the command are wrong; 3 the system failed."
    yield ".SH SEE ALSO\n/usr/share/doc/yuthaqim/PLANNERS.md, PROMISE.md"


def completion() -> Iterator[str]:
    yield "_yuthaqim() {"
    yield "    local word=${COMP_WORDS[COMP_CWORD]} words"
    yield "    case ${COMP_CWORD}:${COMP_WORDS[1]} in"
    yield f'    1:*) words="{" ".join(commands())} --help --version" ;;'
    for name, command in commands().items():
        options = [option for action in command._actions for option in action.option_strings if option.startswith("--")]
        yield f'    *:{name}) words="{" ".join(options)}" ;;'
    yield "    *) words= ;;"
    yield "    esac"
    yield '    COMPREPLY=($(compgen -W "$words" -- "$word"))'
    yield '    [ "$COMP_CWORD" = 1 ] || COMPREPLY+=($(compgen -f -- "$word"))'
    yield "}"
    yield "complete -o filenames -F _yuthaqim yuthaqim"


def main(folder: str) -> None:
    texts = {"man/man1/yuthaqim.1.gz": manual(), "bash-completion/completions/yuthaqim": completion()}
    for name, lines in texts.items():
        path = os.path.join(folder, name)
        os.makedirs(os.path.dirname(path))
        data = "".join(f"{line}\n" for line in lines).encode()
        with open(path, "wb") as file:
            file.write(gzip.compress(data, mtime=0) if name.endswith(".gz") else data)


if __name__ == "__main__":
    main(*sys.argv[1:])
