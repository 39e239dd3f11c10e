"""The worked examples of docs/guide/FORMATS.md: each command of examples/*.txt prints the lines below it. The lines were worked out by
hand, or by the models of tests/models."""

import re
import subprocess

import pytest

from tests.support import HANGS, TOP

EXAMPLES = sorted((TOP / "examples").glob("*.txt"))
FORMATS = TOP / "docs" / "guide" / "FORMATS.md"


def steps(text):
    """The commands of an example, each with the lines that it prints. Comments and empty lines are left out."""
    found = []
    for line in text.splitlines():
        if line.startswith("$ "):
            found.append((line[2:], []))
        elif line and not line.startswith("#"):
            found[-1][1].append(line)
    return found


@pytest.fixture
def folder(executable, tmp_path):
    """A folder in which the examples can be run as they are printed."""
    (tmp_path / "vabgrot").symlink_to(executable)
    (tmp_path / "examples").symlink_to(TOP / "examples")
    return tmp_path


@pytest.mark.parametrize("path", EXAMPLES, ids=lambda path: path.stem)
def test_prints_what_it_shows(path, folder):
    for command, lines in steps(path.read_text("utf-8")):
        words = ["bash", "-c", command]
        came = subprocess.run(words, cwd=folder, stdout=subprocess.PIPE, stderr=subprocess.STDOUT, text=True, timeout=HANGS)
        assert came.stdout.splitlines() == lines, command


def test_formats_names_each_example():
    named = re.findall(r"\.\./\.\./examples/(\w+)\.txt", FORMATS.read_text("utf-8"))
    assert sorted(named) == [path.stem for path in EXAMPLES]
