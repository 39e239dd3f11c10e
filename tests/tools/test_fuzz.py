"""fuzz/run.py: what it finds in a program that goes wrong, and the smallest case of it."""

import subprocess
import sys

import pytest

from tests.support import HANGS, TOP

WRONG = """#!/bin/sh
[ "$1" = damage ] && kill -SEGV $$
exec {} "$@"
"""


@pytest.fixture
def fuzzed(executable, tmp_path):
    """Fuzzes a program that dies of each `damage`: what is printed, and the folder of the inputs that are kept."""
    program = tmp_path / "wrong"
    program.write_text(WRONG.format(executable))
    program.chmod(0o755)

    def run(*words):
        command = [sys.executable, TOP / "fuzz" / "run.py", "--program", program, "--keep", tmp_path / "kept", *words]
        came = subprocess.run([str(word) for word in command], capture_output=True, text=True, timeout=HANGS)
        assert came.returncode == 1, came.stderr
        return came.stdout

    return run, tmp_path / "kept"


def test_findings(fuzzed):
    run, kept = fuzzed
    said = run("--seed", 3, "--cases", 150)
    assert "signal 11: ['damage'," in said and said.splitlines()[-1].startswith("seed 3: 150 cases, 300 executions, ")
    assert [*kept.glob("3-*.in")] and [*kept.glob("3-*.words")]


def test_the_smallest_case(fuzzed):
    """The one that Hypothesis comes to has `damage` with the first of all words, and the first of all captures or less."""
    pytest.importorskip("hypothesis", reason="Debian's package python3-hypothesis is missing")
    run, kept = fuzzed
    assert run("--seed", 3, "--shrink", "--cases", 300).startswith("seed 3: signal 11: ['damage', '0:0:000'], ")
    assert (kept / "3-smallest.words").read_text().splitlines() == ["damage", "0:0:000"]
