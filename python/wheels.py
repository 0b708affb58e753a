"""Makes a wheel for pip, as pyproject.toml asks for: the package, the module over the proved archive, the sample."""

from __future__ import annotations

import base64
import hashlib
import os
import re
import sys
import tempfile
import tomllib
import zipfile
from typing import Any, Iterator

HERE = os.path.dirname(os.path.abspath(__file__))
TOP = os.path.dirname(HERE)
ARCHIVE = os.path.join(TOP, "target", "staticlib", "libyuthaqim.a")
TAG = "cp311-abi3-linux_x86_64"


def build_wheel(folder: str, settings: Any = None, metadata: Any = None) -> str:
    """The name of the wheel, which is then in the folder."""
    with open(os.path.join(TOP, "pyproject.toml"), "rb") as file:
        project = tomllib.load(file)["project"]
    with open(os.path.join(HERE, "yuthaqim", "cli.py"), encoding="utf-8") as source:
        version = re.findall(r'^VERSION = "(.*)"$', source.read(), re.MULTILINE)[0]
    stem = f"{project['name']}-{version}"
    files = dict(sorted([*_package(), *_made()]))
    info = f"{stem}.dist-info"
    files[f"{info}/METADATA"] = _metadata(project, version)
    files[f"{info}/WHEEL"] = f"Wheel-Version: 1.0\nGenerator: yuthaqim\nRoot-Is-Purelib: false\nTag: {TAG}\n".encode()
    scripts = "".join(f"{name} = {place}\n" for name, place in project["scripts"].items())
    files[f"{info}/entry_points.txt"] = f"[console_scripts]\n{scripts}".encode()
    rows = [f"{name},sha256={_digest(data)},{len(data)}\n" for name, data in files.items()]
    files[f"{info}/RECORD"] = "".join([*rows, f"{info}/RECORD,,\n"]).encode()
    name = f"{stem}-{TAG}.whl"
    with zipfile.ZipFile(os.path.join(folder, name), "w", zipfile.ZIP_DEFLATED) as wheel:
        for path, data in files.items():
            wheel.writestr(zipfile.ZipInfo(path), data, zipfile.ZIP_DEFLATED)  # without a date: always the same bytes
    return name


def _package() -> Iterator[tuple[str, bytes]]:
    """What is copied: the modules, the template, the sample."""
    package = os.path.join(HERE, "yuthaqim")
    for name in os.listdir(package):
        if name.endswith((".py", ".j2")):
            yield f"yuthaqim/{name}", _read(os.path.join(package, name))
    samples = os.path.join(TOP, "samples", "people")
    for inner, _, names in os.walk(samples):
        for name in names:
            path = os.path.join(inner, name)
            yield f"yuthaqim/sample/{os.path.relpath(path, samples)}", _read(path)


def _made() -> Iterator[tuple[str, bytes]]:
    """What is built: the module, and the tables of DOT's grammar."""
    if not os.path.exists(ARCHIVE):
        sys.exit(f"{ARCHIVE} is missing: tools/build archive makes it")
    import build

    with tempfile.TemporaryDirectory() as room:
        build.build(os.path.join(TOP, "include", "yuthaqim.h"), ARCHIVE, room)
        for name in ("_yuthaqim.abi3.so", "dot.tables"):
            yield name, _read(os.path.join(room, name))


def _read(path: str) -> bytes:
    with open(path, "rb") as file:
        return file.read()


def _metadata(project: Any, version: str) -> bytes:
    import lark

    # The tables are read by the Lark that made them.
    needs = [f"lark == {lark.__version__}" if need.startswith("lark") else need for need in project["dependencies"]]
    lines = ["Metadata-Version: 2.1", f"Name: {project['name']}", f"Version: {version}"]
    lines += [f"Summary: {project['description']}", f"Requires-Python: {project['requires-python']}"]
    return "".join(f"{line}\n" for line in [*lines, *(f"Requires-Dist: {need}" for need in needs)]).encode()


def _digest(data: bytes) -> str:
    return base64.urlsafe_b64encode(hashlib.sha256(data).digest()).rstrip(b"=").decode()
