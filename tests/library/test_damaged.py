"""Each example in C and Python over a capture with damage, and over files that are cut off anywhere, under the sanitizers."""

import os
import subprocess
import sys

import pytest

from tests.library.conftest import SANITIZERS
from tests.models import hearing
from tests.support import HANGS, LISTING, TOP, ran, run

EXAMPLES = TOP / "examples"
RED_HURT = 0x300  # in place of the red character of the pixel, column 14: it is that of the byte 1, with the wrong disparity
HURT = "2:140:300"
LISTED = LISTING.replace(b"ff0000\n", b"010000\n! code 2 14\n")
COUNTED = b"3 runs, 1 line of 1 pixel, 0 packets, 1 faults in 26 columns\n"


@pytest.fixture(scope="module")
def capture(executable):
    """A red pixel with a damaged character."""
    return run(executable, ["damage", HURT], run(executable, ["make", "link"], LISTING)[1])[1]


@pytest.fixture(scope="module")
def counts(compiled):
    return compiled(EXAMPLES / "c" / "counts.cpp", *SANITIZERS, compiler="g++")


def said(program, *words):
    """The status and the output of an example; the sanitizers must find nothing."""
    came = ran([program, *words], b"")
    assert b"ERROR" not in came.stderr and b"runtime error" not in came.stderr, came.stderr.decode()
    return came.returncode, came.stdout


def test_damage(listing, counts, capture, tmp_path):
    path = tmp_path / "hurt.tmc"
    path.write_bytes(capture)
    assert said(listing, path) == (1, LISTED)
    assert said(counts, path) == (0, COUNTED)


def test_cut_captures(listing, counts, capture, compare, tmp_path):
    """No beginning of a capture is one, and no example reads past its end."""

    def cases():
        path = tmp_path / "cut.tmc"
        for size in range(len(capture)):
            path.write_bytes(capture[:size])
            for program in (listing, counts):
                yield f"{program.stem}, {size} bytes", said(program, path), (3, b"")

    compare(cases())


def test_cut_listings(compiled, compare, tmp_path):
    """No beginning of a listing makes a capture."""
    make = compiled(EXAMPLES / "c" / "make.c", *SANITIZERS)

    def cases():
        source, made = tmp_path / "cut.link", tmp_path / "made.tmc"
        for size in range(len(LISTING)):
            source.write_bytes(LISTING[:size])
            yield f"{size} bytes", (said(make, source, made), made.exists()), ((3, b""), False)

    compare(cases())


def test_a_damaged_bench(library, tmp_path):
    """The bench stops at the damaged character, and at the end of the shortest lane."""
    columns = hearing.sent_columns(LISTING)
    columns[14] = (*columns[14][:2], RED_HURT)
    env = {**os.environ, "PYTHONPATH": str(TOP / "python"), "VABGROT_LIBRARY": str(library / "libvabgrot.so.1")}
    for name, lane in zip(("blue", "green", "red"), zip(*columns)):
        (tmp_path / name).write_text("".join(f"{word:03x}\n" for word in lane))

    def bench():
        words = [sys.executable, EXAMPLES / "python" / "bench.py", "blue", "green", "red"]
        return subprocess.run(words, cwd=tmp_path, capture_output=True, text=True, env=env, timeout=HANGS)

    came = bench()
    assert came.returncode == 1 and "column 14" in came.stdout and "lane 2" in came.stdout, came.stdout + came.stderr
    (tmp_path / "green").write_text("354\n")
    came = bench()
    assert (came.returncode, came.stdout) == (1, "the lanes were not aligned in 1 clocks\n"), came.stderr
