"""The package of Debian: what is in it, that it runs where it is unpacked, its manual page and its completion. The wheel."""

from __future__ import annotations

import base64
import gzip
import hashlib
import shutil
import subprocess
import zipfile
from pathlib import Path

import pytest
from conftest import TOP

pytestmark = pytest.mark.skipif(not shutil.which("dpkg-deb"), reason="this is no Debian")


@pytest.fixture(scope="module")
def package(tmp_path_factory: pytest.TempPathFactory) -> tuple[Path, Path]:
    """The package, and where it is unpacked."""
    said = subprocess.run([TOP / "bin" / "package"], check=True, capture_output=True, text=True).stdout
    path, size = said.split(": ")
    assert size == f"{(TOP / path).stat().st_size} bytes\n"
    room = tmp_path_factory.mktemp("root")
    subprocess.run(["dpkg-deb", "-x", TOP / path, room], check=True)
    return TOP / path, room


def test_it_is_small_and_always_the_same(package: tuple[Path, Path]) -> None:
    path, _ = package
    data = path.read_bytes()
    assert path.name == "yuthaqim_0.1.0_amd64.deb" and len(data) < 200_000
    subprocess.run([TOP / "bin" / "package"], check=True, capture_output=True)
    assert path.read_bytes() == data


def test_what_it_needs(package: tuple[Path, Path]) -> None:
    fields = subprocess.run(["dpkg-deb", "-f", package[0]], check=True, capture_output=True, text=True).stdout
    wanted = "python3-cffi-backend, python3-lark, python3-jinja2, python3-openpyxl, graphviz"
    assert f"Depends: libc6, python3 (>= 3.11), {wanted}\n" in fields


def test_it_runs(package: tuple[Path, Path], tmp_path: Path) -> None:
    script = (package[1] / "usr" / "bin" / "yuthaqim").read_text()
    assert script.startswith("#!/usr/bin/python3 -IS\n") and '"/usr/lib/yuthaqim/python"' in script
    here = script.replace("/usr/lib/yuthaqim", str(package[1] / "usr" / "lib" / "yuthaqim"))

    def run(*words: str) -> str:
        return subprocess.run(
            ["/usr/bin/python3", "-IS", "-B", "-c", here, *words],
            cwd=tmp_path,
            check=True,
            capture_output=True,
            text=True,
        ).stdout

    assert run("--version") == "yuthaqim 0.1.0\n"
    run("new", "campaign")
    assert run("quote", "campaign", "--report", "quote.html").startswith("covered\n")
    assert run("verify", "quote.html") == "as quoted\n"


def test_the_manual_page(package: tuple[Path, Path]) -> None:
    text = gzip.decompress((package[1] / "usr/share/man/man1/yuthaqim.1.gz").read_bytes()).decode()
    for word in ("new", "check", "quote", "verify", "cheapest", "part", "first\\-day", "\\-\\-report"):
        assert word in text
    if shutil.which("groff"):
        ended = subprocess.run(["groff", "-man", "-Tutf8", "-ww"], input=text.encode(), capture_output=True)
        assert ended.returncode == 0 and ended.stderr == b"" and b"quotes a campaign" in ended.stdout


def test_the_completion(package: tuple[Path, Path], tmp_path: Path) -> None:
    file = package[1] / "usr/share/bash-completion/completions/yuthaqim"

    def completed(*words: str) -> list[str]:
        told = " ".join(f"'{word}'" for word in words)
        script = f". '{file}'; COMP_WORDS=(yuthaqim {told}); COMP_CWORD={len(words)}; _yuthaqim; printf '%s\\n' \"${{COMPREPLY[@]}}\""
        ended = subprocess.run(["bash", "-c", script], cwd=tmp_path, check=True, capture_output=True, text=True)
        return ended.stdout.split()

    assert completed("ch") == ["check", "cheapest"]
    assert completed("quote", "--re") == ["--report"]
    assert completed("verify", "--re") == []


# What pip installs.


def test_the_wheel(tmp_path: Path) -> None:
    """As pip makes it, by the words of pyproject.toml, and that it runs where it is unpacked."""
    script = "import sys; sys.path.insert(0, sys.argv[1]); import wheels; print(wheels.build_wheel(sys.argv[2]))"
    make = ["/usr/bin/python3", "-I", "-B", "-c", script, str(TOP / "python"), str(tmp_path)]
    names = [subprocess.run(make, check=True, capture_output=True, text=True).stdout.strip() for _ in range(2)]
    assert names == ["yuthaqim-0.1.0-cp311-abi3-linux_x86_64.whl"] * 2
    room = tmp_path / "room"
    with zipfile.ZipFile(tmp_path / names[0]) as wheel:
        wheel.extractall(room)
        rows = wheel.read("yuthaqim-0.1.0.dist-info/RECORD").decode().splitlines()
        assert [row.rsplit(",", 2)[0] for row in rows] == wheel.namelist()
        metadata = wheel.read("yuthaqim-0.1.0.dist-info/METADATA").decode()
        for row in rows[:-1]:
            path, digest, size = row.rsplit(",", 2)
            data = wheel.read(path)
            assert len(data) == int(size)
            assert digest == "sha256=" + base64.urlsafe_b64encode(hashlib.sha256(data).digest()).rstrip(b"=").decode()
    assert "Requires-Dist: openpyxl >= 3.0.9\n" in metadata and "Requires-Dist: lark == 1." in metadata
    script = "import sys; sys.path.insert(0, sys.argv.pop(1)); from yuthaqim.cli import script; sys.exit(script())"

    def run(*words: str) -> str:
        command = ["/usr/bin/python3", "-I", "-B", "-c", script, str(room), *words]
        return subprocess.run(command, cwd=tmp_path, check=True, capture_output=True, text=True).stdout

    run("new", "campaign")
    assert run("quote", "campaign").startswith("covered\n")
