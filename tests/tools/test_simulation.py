"""The commands of docs/guide/SIMULATION.md, in a clone of this checkout, as they are printed."""

import os
import re
import shutil
import subprocess
from pathlib import Path

import pytest

from tests.support import HANGS, TOP, built
from tests.tools.test_installed import PARTS, put_library
from tests.tools.test_verilog import need
from vabgrot import library as native

PAGE = (TOP / "docs" / "guide" / "SIMULATION.md").read_text("utf-8")
BLOCKS = [text for mark, text in re.findall(r"(?ms)^```(\w*)\n(.*?)^```$", PAGE) if not mark]


@pytest.fixture(scope="module")
def shell(tmp_path_factory, hearing):
    """Runs a script of bash in a folder in which `vabgrot.git` is this checkout, with its built program and library; `apt-get` says
    yes."""
    for name in ("git", "iverilog", "make"):
        if not shutil.which(name):
            pytest.skip(f"{name} of Debian's package {name} is missing")
    if not built().is_file():
        pytest.skip(f"there is no program {built()}: `./vabgrot` builds it, or VABGROT_PROGRAM names one")
    if hearing:
        pytest.skip(hearing)
    folder = tmp_path_factory.mktemp("walk")
    top, leave = folder / "vabgrot.git", shutil.ignore_patterns("out", "tests", "__pycache__")
    top.mkdir()
    for name in PARTS:
        shutil.copytree(TOP / name, top / name, ignore=leave) if (TOP / name).is_dir() else shutil.copy(TOP / name, top)
    (top / "crates" / "hdmi_cli" / "out").mkdir(parents=True)
    shutil.copy(built(), top / "crates" / "hdmi_cli" / "out" / "hdmi_cli")
    put_library(top, Path(native.find()).parent)
    (folder / "bin").mkdir()
    (folder / "bin" / "apt-get").write_text("#!/bin/sh\n")
    (folder / "bin" / "apt-get").chmod(0o755)
    name = ["-c", "user.name=test", "-c", "user.email=test@localhost"]
    for words in (["init", "-q"], ["add", "-f", "."], ["commit", "-q", "-m", "all"]):
        subprocess.run(["git", *name, *words], cwd=top, check=True)

    def run(script, at=folder):
        env = {"PATH": f"{folder / 'bin'}:/usr/bin:/bin", "HOME": str(folder), "LC_ALL": "C.UTF-8"}
        words = ["bash", "-eu", "-c", script]
        came = subprocess.run(words, cwd=at, env=env, capture_output=True, text=True, timeout=HANGS)
        assert came.returncode == 0, came.stderr
        return came

    return folder, run


def test_from_a_clone_to_a_report(shell):
    """Five commands; then those of the sink."""
    folder, run = shell
    commands, _, sink = BLOCKS
    assert len(commands.splitlines()) == 5
    came = run(commands)
    assert came.stdout.endswith("clean\n")
    assert "core.html: Link clean (" in came.stdout + came.stderr
    page = (folder / "vabgrot" / "core.html").read_text("utf-8")
    assert "Clean" in page and "640" in page
    came = run(sink, folder / "vabgrot")
    assert "differ" not in came.stdout and "EOF" not in came.stderr
    rows = (folder / "vabgrot" / "examples" / "verilog" / "out" / "rows").read_text()
    assert rows.count("v ") == 24
    assert not os.path.exists(folder / "vabgrot" / "crates" / "hdmi_cli" / "src")


def test_checked_as_it_runs(shell):
    """In a checkout: what the document says that a whole frame is counted as, and how a bug ends it."""
    need("verilator")
    folder, run = shell
    top = folder / "checked"
    shutil.copytree(folder / "vabgrot.git", top)
    passed, words, failed = re.search(r"It says `(pass: .*)`\. `(.*)` ends with[^>]*> `(! .*)`\n", PAGE).groups()
    assert f"TOP.source_bench.source.check: {passed}\n" in run(BLOCKS[1], top).stdout
    assert f" TOP.source_bench.source.check: {failed}\n" in run(f"! {BLOCKS[1].strip()} {words}", top).stdout


def test_each_bug_is_in_the_document():
    planted = set()
    for path in (TOP / "examples" / "verilog").glob("*.v"):
        planted |= set(re.findall(r"BUG_(\w+)", path.read_text()))
    assert len(planted) == 8 and planted == set(re.findall(r"\| `([A-Z_]+)` \|", PAGE))
    assert planted == set(re.search(r"(?m)^BUGS = (.*)$", (TOP / "examples/verilog/Makefile").read_text())[1].split())
