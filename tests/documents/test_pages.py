"""The pages that tests/map.py and tests/believed.py print, over the sources as they are."""

import re
import subprocess
import sys

from tests.support import TOP


def printed(name, *words):
    came = subprocess.run([sys.executable, TOP / "tests" / name, *words], capture_output=True, text=True)
    assert came.returncode == 0, came.stdout + came.stderr
    return came.stdout


def test_the_map(record_property):
    """The map of the proofs is that of the files; each name is one to compare."""
    passed, failed = map(int, re.search(r"(\d+) passed, (\d+) failed\n$", printed("map.py", "--check")).groups())
    record_property("comparisons", (passed, failed))
    assert passed and not failed


def test_what_is_believed():
    """Each theorem that the documents speak of stands in the record."""
    said = printed("believed.py", "headline", "headline_anywhere", "headline_local")
    assert re.search(r"definitions of \d+ lines in \d+ crates\n$", said)
