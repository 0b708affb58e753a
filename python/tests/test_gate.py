"""The gate, `.ci/run`, and what `bin/yuthaqim` builds, beside an `rt` that is no kit."""

from __future__ import annotations

import os
import shutil
import subprocess
from pathlib import Path

import pytest
from conftest import TOP

RT = """\
#!/bin/bash
case $1 in
ci) printf 'rt: packed proved\\nrt: ok; must-fail edits: 2 refused%s\\n%s\\n' "${BAD:-}" "${LAST:-3 passed, 0 failed}"
    mkdir -p crates/quote/out; touch crates/quote/out/quote; exit "${ENDED:-0}" ;;
lib) printf 'rt: chose --jobs 1 for packed\\nlogic=proved functions=1\\nrt: chose --jobs 1 for yuthaqim_c\\n'
    [ -z "${LOST:-}" ] || { echo logic=not-proved; exit 1; }
    echo 'logic=proved functions=1'; mkdir -p out; cp "$ARCHIVE" out/libyuthaqim_c.a ;;
esac
"""


@pytest.fixture
def checkout(tmp_path: Path) -> Path:
    """A checkout with an `rt` of its own, and tests that say what they are told to."""
    for name in ("bin", "tools", "python", "include", "samples"):
        shutil.copytree(TOP / name, tmp_path / name, symlinks=True)
    shutil.copytree(TOP / ".ci", tmp_path / ".ci")
    (tmp_path / "crates" / "quote" / "src").mkdir(parents=True)
    (tmp_path / "crates" / "yuthaqim_c").mkdir()
    (tmp_path / "crates" / "quote" / "src" / "main.rt").touch()
    (tmp_path / "crates.txt").touch()
    for path in (tmp_path / "crates.txt", tmp_path / "crates", *(tmp_path / "crates").rglob("*")):
        os.utime(path, (1, 1))
    (tmp_path / "tests" / "c").mkdir(parents=True)
    for name, said in (("programs", "455 cases right"), ("c/run", "0 wrong"), ("people", "400 passed")):
        script(tmp_path / "tests" / name, f"#!/bin/bash\necho begun\necho '{said}'\n")
    (tmp_path / "kit").mkdir()
    script(tmp_path / "kit" / "rt", RT)
    return tmp_path


def script(path: Path, text: str) -> None:
    path.write_text(text)
    path.chmod(0o755)


def run(checkout: Path, *words: str, **more: str) -> tuple[int, str, str]:
    archive = str(TOP / "target" / "staticlib" / "libyuthaqim.a")
    kept = {name: os.environ[name] for name in ("HOME", "LANG", "TMPDIR") if name in os.environ}
    env = {**kept, "PATH": f"{checkout / 'kit'}:{os.environ['PATH']}", "ARCHIVE": archive, **more}
    ended = subprocess.run(words, cwd=checkout, env=env, capture_output=True, text=True)
    return ended.returncode, ended.stdout, ended.stderr


def test_the_gate_ends_with_the_line_of_rt_ci(checkout: Path) -> None:
    status, out, _ = run(checkout, ".ci/run")
    assert status == 0
    assert out.splitlines() == [
        "rt: packed proved",
        "rt: ok; must-fail edits: 2 refused",
        "tools/build archive: target/staticlib/libyuthaqim.a is built",
        "tests/programs: 455 cases right",
        "tests/c/run: 0 wrong",
        "tests/people: 400 passed",
        "3 passed, 0 failed",
    ]
    assert (checkout / "target" / "bin" / "quote").exists()


def test_the_gate_builds_the_archive_anew(checkout: Path) -> None:
    stale = checkout / "target" / "staticlib" / "libyuthaqim.a"
    stale.parent.mkdir(parents=True)
    stale.write_text("that of yesterday")
    assert run(checkout, ".ci/run")[0] == 0
    assert stale.read_bytes() != b"that of yesterday"


def test_the_gate_fails_as_rt_ci_does(checkout: Path) -> None:
    status, out, _ = run(checkout, ".ci/run", ENDED="1", LAST="2 passed, 1 failed")
    assert status == 1
    assert out.splitlines() == ["rt: packed proved", "rt: ok; must-fail edits: 2 refused", "2 passed, 1 failed"]


def test_the_gate_fails_where_an_edit_is_bad(checkout: Path) -> None:
    status, out, _ = run(checkout, ".ci/run", BAD=", 1 bad")
    assert status == 1 and out.splitlines()[-1] == "rt ci failed nothing, but a must-fail edit is bad, as told above"
    assert not (checkout / "target").exists()


@pytest.mark.parametrize("name", ["programs", "c/run", "people"])
def test_the_gate_fails_where_a_test_does(name: str, checkout: Path) -> None:
    script(checkout / "tests" / name, "#!/bin/bash\necho begun\necho 'this went wrong' >&2\nexit 1\n")
    status, out, _ = run(checkout, ".ci/run")
    assert status == 1
    assert out.splitlines()[-3:] == ["begun", "this went wrong", f"tests/{name} failed"]
    assert "3 passed" not in out


def test_the_gate_goes_on_where_a_package_is_missing(checkout: Path) -> None:
    script(checkout / "tests" / "people", "#!/bin/bash\necho 'tests/people: not run, missing: graphviz'\nexit 2\n")
    status, out, _ = run(checkout, ".ci/run")
    assert status == 0
    assert out.splitlines()[-2:] == ["tests/people: not run, missing: graphviz", "3 passed, 0 failed"]


def test_the_first_run_builds(checkout: Path) -> None:
    status, out, err = run(checkout, "bin/yuthaqim", "check", "samples/people")
    assert (status, out) == (0, "question 4 items, 4 links; 3 extracts; record 12 items, 11 links: accepted\n")
    assert err.splitlines() == [
        "yuthaqim: the library is proved first, which takes about twelve minutes. Each crate is named when it is proved:",
        "packed is being proved",
        "packed proved",
        "yuthaqim_c is being proved",
        "yuthaqim_c proved",
    ]
    assert run(checkout, "bin/yuthaqim", "check", "samples/people")[2] == ""
    (checkout / "crates" / "changed").touch()
    assert "packed proved" in run(checkout, "bin/yuthaqim", "check", "samples/people")[2]


def test_a_library_that_is_not_proved(checkout: Path) -> None:
    status, out, err = run(checkout, "bin/yuthaqim", "check", "samples/people", LOST="1")
    assert status == 3 and out == "" and err.splitlines()[-1] == "logic=not-proved"


def test_no_kit(checkout: Path) -> None:
    tools = checkout / "few"
    tools.mkdir()
    for tool in ("bash", "dirname", "readlink", "find", "env"):
        (tools / tool).symlink_to(str(shutil.which(tool)))
    said = "the library has to be built first, and the Rattle kit is missing for that: there is no command rt"
    assert run(checkout, "bin/yuthaqim", "check", PATH=str(tools)) == (3, "", f"yuthaqim: {said}\n")


def test_packages_that_are_missing(checkout: Path) -> None:
    """Who isn't root is told what to install."""
    script(checkout / "kit" / "dpkg-query", '#!/bin/bash\n[ "${@: -1}" = python3-lark ] || echo -n installed\n')
    script(checkout / "kit" / "id", "#!/bin/bash\necho 1000\n")
    status, out, err = run(checkout, "bin/yuthaqim", "check", "samples/people")
    assert status == 3 and out == ""
    assert err.splitlines()[-2:] == [
        "yuthaqim: missing: apt-get install python3-lark",
        "yuthaqim: to build the command, these packages are needed: python3-lark",
    ]
    shutil.copy(TOP / "tests" / "people", checkout / "tests" / "people")
    status, out, _ = run(checkout, "tests/people")
    assert (status, out) == (2, "tests/people: not run, missing: python3-lark\n")


def test_packages_are_installed_by_root(checkout: Path) -> None:
    script(
        checkout / "kit" / "dpkg-query",
        f'#!/bin/bash\n[ "${{@: -1}}" = python3-lark ] && [ ! -e {checkout}/installed ] || echo -n installed\n',
    )
    script(checkout / "kit" / "id", "#!/bin/bash\necho 0\n")
    script(checkout / "kit" / "apt-get", f'#!/bin/bash\necho "$@" >>{checkout}/installed\n')
    status, _, err = run(checkout, "bin/yuthaqim", "check", "samples/people")
    assert status == 0 and err.splitlines()[-1] == "yuthaqim: missing: apt-get install python3-lark"
    assert (checkout / "installed").read_text() == "install -yq --no-install-recommends python3-lark\n"
