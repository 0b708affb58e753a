"""Makes what the package needs: the module _yuthaqim, out of the header and the proved archive, and the tables of
DOT's grammar. Usage: build.py HEADER ARCHIVE FOLDER, where FOLDER is what they are put in."""

from __future__ import annotations

import contextlib
import io
import os
import re
import subprocess
import sys
import sysconfig
import tempfile
import warnings

import cffi  # type: ignore[import]
from lark import Lark

GRAMMAR = os.path.join(os.path.dirname(os.path.abspath(__file__)), "yuthaqim", "dot.lark")


def declarations(header: str) -> str:
    """What the header declares, without what is for the preprocessor alone."""
    header = re.sub(r"#ifdef __cplusplus.*?#endif", "", header, flags=re.DOTALL)
    return re.sub(r"^#(?!define \w+ \d+$).*$", "", header, flags=re.MULTILINE)


def module(header: str, archive: str, room: str) -> str:
    builder = cffi.FFI()
    with open(header, encoding="utf-8") as file:
        builder.cdef(declarations(file.read()))
    builder.set_source("_yuthaqim", f'#include "{os.path.abspath(header)}"', py_limited_api=True)
    source, made = os.path.join(room, "_yuthaqim.c"), os.path.join(room, "_yuthaqim.abi3.so")
    # cffi says what it writes, and warns, where setuptools isn't there, of an option that the compiler gets below.
    with contextlib.redirect_stdout(io.StringIO()), warnings.catch_warnings():
        warnings.simplefilter("ignore")
        builder.emit_c_code(source)
    options = ["-std=c11", "-O2", "-shared", "-fPIC", "-DPy_LIMITED_API", f"-I{sysconfig.get_path('include')}"]
    subprocess.run(["gcc", *options, source, archive, "-o", made], check=True)
    return made


def tables(room: str) -> str:
    made = os.path.join(room, "dot.tables")
    with open(GRAMMAR, encoding="utf-8") as grammar, open(made, "wb") as file:
        Lark(grammar, parser="lalr", lexer="basic", maybe_placeholders=False).save(file)
    return made


def build(header: str, archive: str, folder: str) -> None:
    """The module comes last: where it is new, all is."""
    os.makedirs(folder, exist_ok=True)
    with tempfile.TemporaryDirectory(dir=folder) as room:
        for made in (tables(room), module(header, archive, room)):
            os.replace(made, os.path.join(folder, os.path.basename(made)))


if __name__ == "__main__":
    build(*sys.argv[1:])
