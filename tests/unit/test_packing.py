"""What a page has each unlike one of once: frames, exact pictures, lines and periods."""

import io
import random

import numpy as np
import pytest

PIL = pytest.importorskip("PIL.Image")
from vabgrot.report import album, packing  # noqa: E402
from vabgrot.report.alike import MOST_KEPT, Alike  # noqa: E402
from vabgrot.report.findings import Periods  # noqa: E402


def test_alike_frames_have_one_number():
    """Also those of which a sum alone is kept, and those that differ in one byte of a row by which none is found."""
    frames = [[bytes([number] * 9)] * 40 for number in range(2 * MOST_KEPT)]
    frames += [[*frames[1][:-1], bytes([1] * 8 + [it])] for it in (2, 3)]
    alike = Alike()
    assert [alike.number("key", rows) for rows in frames] == [(number, True) for number in range(len(frames))]
    again = [[bytes(bytearray(row)) for row in rows] for rows in frames]
    assert [alike.number("key", rows) for rows in again] == [(number, False) for number in range(len(frames))]
    assert alike.number("other", frames[0]) == (len(frames), True)


@pytest.mark.parametrize("size", [(1, 1), (7, 1), (1, 5), (40, 30)])
def test_quick_files_are_exact(size):
    image = PIL.frombytes("RGB", size, random.Random(5).randbytes(3 * size[0] * size[1]))
    data = album.quick_file(image, 1 << 20)
    assert PIL.open(io.BytesIO(data)).tobytes() == image.tobytes()
    assert album.quick_file(image, len(data)) == data and album.quick_file(image, len(data) - 1) == b""


def test_a_file_that_grows_too_long_is_given_up():
    image = PIL.frombytes("RGB", (400, 300), random.Random(6).randbytes(360_000))
    whole = album.exact_file(image, 1 << 20)
    assert PIL.open(io.BytesIO(whole)).tobytes() == image.tobytes()
    assert 100_000 < len(album.exact_file(image, 100_000)) < len(whole)


def test_photographs_take_the_best_quality_that_fits():
    image = PIL.frombytes("RGB", (64, 48), random.Random(7).randbytes(9216))
    sizes = [len(album.encoded(image, "JPEG", quality=quality, subsampling=0)) for quality in album.QUALITIES]
    assert sizes == sorted(sizes, reverse=True)
    for size in sizes:
        assert [len(album.photograph(image, room)) for room in (size, size + 1)] == [size, size]
    assert len(album.photograph(image, 1)) == sizes[-1]


def test_periods():
    """Columns that follow from those before are not told, nor lines."""
    rows = [(0, 0, 12, 1, 4), (1, 12, 5, 2, 3), (5, 30, 7, 4, 0), (0, 37, 12, 5, 4)]
    names = ("kind", "at", "columns", "line", "value")
    table = Periods(**{name: np.array(numbers, np.int64) for name, numbers in zip(names, zip(*rows))})
    unlike = [[0, 12, 4], [1, 5, 3], [5, 7, 0]]
    came = packing.packed(table)
    assert sorted(came["unlike"]) == unlike and [came["unlike"][it] for it in came["of"]] == [unlike[it] for it in (0, 1, 2, 0)]
    assert came["at"] == [[0, 0], [2, 30]] and came["line"] == [[0, 1], [2, 4]]
    empty = packing.packed(Periods(**{name: np.zeros(0, np.int64) for name in names}))
    assert empty == {"unlike": [], "of": [], "at": [], "line": []}
