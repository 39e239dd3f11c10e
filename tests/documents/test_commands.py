"""The commands that documents print, run as they are printed, and what they write.

A block of commands has lines that begin with `$ `. The lines after a command are its output, where `..` on a line of its own stands
for any lines, and at the end of a line for any characters. A command without such lines may write anything."""

import os
import re
import signal
import subprocess
from pathlib import Path
from typing import NamedTuple

import numpy as np
import pytest
from tests.documents.pages import PAGES, name_of
from tests.support import HANGS, TOP, built

BITS = 20_000  # of a lane that a scope samples
BLOCK = re.compile(r"(?ms)^```(\w*)\n(.*?)^```$")
RUN_ELSEWHERE = {  # shell blocks without `$`, and the tests that run them
    "docs/guide/SIMULATION.md": "tests/tools/test_simulation.py",
    "docs/guide/LIBRARY.md": "tests/library/test_python.py",
    "docs/guide/TOOLS.md": "test_a_link_without_an_end",
    "docs/dev/DEVELOPING.md": "commands of the kit and the tests themselves",
    "CONTRIBUTING.md": "commands of the kit and the tests themselves",
}


class Command(NamedTuple):
    """A command, and the lines that the page prints after it."""

    text: str
    output: list[str]


def commands_of(block: str) -> list[Command]:
    found: list[Command] = []
    lines = iter(block.splitlines())
    for line in lines:
        if line.startswith("$ "):
            while line.endswith("\\"):
                line = f"{line}\n{next(lines)}"
            found.append(Command(line[2:], []))
        else:
            found[-1].output.append(line)
    return found


def blocks_of(page: Path) -> list[list[Command]]:
    """The blocks of commands of a page."""
    return [commands_of(text) for _, text in BLOCK.findall(page.read_text("utf-8")) if text.startswith("$ ")]


def pattern_of(output: list[str]) -> str:
    """A regular expression of printed lines."""

    def row(line: str) -> str:
        if line == "..":
            return r"(.*\n)*"
        return re.escape(line.removesuffix("..")) + (".*" if line.endswith("..") else "") + r"\n"

    return "".join(map(row, output))


@pytest.fixture
def folder(tmp_path: Path) -> Path:
    """A folder with what commands name: the program, the tools, the examples, the raw bits of three lanes and their capture.
    `apt-get` installs nothing."""
    if not built().is_file():
        pytest.skip(f"there is no program {built()}: `./vabgrot` builds it, or VABGROT_PROGRAM names one")
    for name in ("tools", "examples", "docs"):
        (tmp_path / name).symlink_to(TOP / name)
    (tmp_path / "vabgrot").symlink_to(built())
    (tmp_path / "bin").mkdir()
    (tmp_path / "bin" / "apt-get").write_text("#!/bin/sh\n")
    (tmp_path / "bin" / "apt-get").chmod(0o755)
    run(tmp_path, "./vabgrot make content < examples/bars.content > my.tmc")
    run(tmp_path, "tools/lanes unpack blue.bin green.bin red.bin < my.tmc")
    write_samples(tmp_path)
    return tmp_path


def write_samples(folder: Path) -> None:
    """The three lanes as a scope writes them: a table of four samples a bit."""
    lanes = [np.unpackbits(np.fromfile(folder / f"{name}.bin", np.uint8), bitorder="little")[:BITS] for name in ("blue", "green", "red")]
    rows = np.repeat(np.stack(lanes, axis=1), 4, axis=0)
    lines = (f"{at * 1e-9:.3e},{','.join(map(str, row))}" for at, row in enumerate(rows))
    (folder / "scope.csv").write_text("time,blue,green,red\n" + "\n".join(lines) + "\n")


def run(folder: Path, command: str) -> str:
    env = os.environ | {"VABGROT_PROGRAM": str(built()), "PATH": f"{folder / 'bin'}:{os.environ['PATH']}", "LC_ALL": "C.UTF-8"}
    how = {"cwd": folder, "env": env, "stdout": subprocess.PIPE, "stderr": subprocess.STDOUT, "text": True, "timeout": HANGS}
    came = subprocess.run(["bash", "-c", f"set -o pipefail\n{command}"], stdin=subprocess.DEVNULL, **how)
    assert came.returncode in (0, 1), f"{command}\n{came.stdout}"
    return str(came.stdout)


@pytest.mark.parametrize("page", [page for page in PAGES if blocks_of(page)], ids=name_of)
def test_the_commands(page: Path, folder: Path) -> None:
    for command in (it for block in blocks_of(page) for it in block):
        came = run(folder, command.text)
        assert not command.output or re.fullmatch(pattern_of(command.output), came), f"{command.text}\n{came}"


def test_the_readme_shows_a_result() -> None:
    assert sum(bool(command.output) for block in blocks_of(TOP / "README.md") for command in block) >= 2


@pytest.mark.parametrize("page", PAGES, ids=name_of)
def test_other_shell_blocks_are_run_elsewhere(page: Path) -> None:
    """A block with the mark `sh` or `bash` has prompts, or another test runs it."""
    marked = [text for mark, text in BLOCK.findall(page.read_text("utf-8")) if mark in ("sh", "bash") and not text.startswith("$ ")]
    assert not marked or name_of(page) in RUN_ELSEWHERE


def test_a_link_without_an_end(folder: Path, library: Path) -> None:
    """The commands of TOOLS for a live link, until Ctrl-C."""
    blocks = [text for mark, text in BLOCK.findall((TOP / "docs/guide/TOOLS.md").read_text("utf-8")) if mark == "sh"]
    assert len(blocks) == 1 and "tools/watch --raw" in blocks[0]
    env = os.environ | {"VABGROT_PROGRAM": str(built()), "VABGROT_LIBRARY": str(library / "libvabgrot.so.1")}
    how = {"cwd": folder, "env": env, "text": True, "start_new_session": True}
    with subprocess.Popen(["bash", "-c", blocks[0]], stdin=subprocess.DEVNULL, stdout=subprocess.PIPE, **how) as ran:
        assert ran.stdout
        try:
            assert "aligned" in ran.stdout.readline()
        finally:
            os.killpg(ran.pid, signal.SIGINT)
        assert "no fault" in ran.communicate(timeout=HANGS)[0]
