"""vabgrot.video.quick: the tables give the colours that `colours.coloured` computes."""

import itertools

import numpy as np
import pytest

from vabgrot.video import quick
from vabgrot.video.colours import MATRICES, Encoding, Signal, coloured

YCC = [Signal(Encoding.YCC444, matrix, full) for matrix, full in itertools.product(MATRICES.values(), (False, True))]
SHAPES = ((3, 40, 3), (2, 37, 3), (1, 1, 3), (17, 2, 3))


def signals():
    """Each way in which pixels are sent that is converted."""
    for encoding, full, bits, times in itertools.product(list(Encoding)[:3], (False, True), (24, 30, 36, 48), (1, 2, 3)):
        if encoding != Encoding.YCC422 or bits == 24:
            for matrix in [None] if encoding == Encoding.RGB else MATRICES.values():
                yield Signal(encoding, matrix, full, bits, times)


def test_each_signal(compare):
    """Of random columns, and for YCbCr 4:2:2 of a source of eight bits too."""
    rng = np.random.default_rng(1)

    def cases():
        for signal, shape, is_low in itertools.product(signals(), SHAPES, (False, True)):
            columns = rng.integers(0, 256, shape, dtype=np.uint8)
            if is_low:
                columns[:, :, 2] = 0
            found, wanted = quick.colours(columns, signal), coloured(columns, signal)
            yield (signal, shape, is_low), (found.dtype, found.shape, found.tobytes()), (wanted.dtype, wanted.shape, wanted.tobytes())

    compare(cases())


@pytest.mark.parametrize("signal", YCC, ids=lambda it: f"{it.matrix.name} {'full' if it.is_full else 'limited'}")
def test_many_colours(signal):
    """All Y with a grid of Cb and Cr that has the ends of their ranges."""
    grid = np.unique(np.r_[0:256:7, 16, 128, 240, 255]).astype(np.uint8)
    luma, blue, red = np.meshgrid(np.arange(256, dtype=np.uint8), grid, grid, indexing="ij")
    columns = np.stack([red, luma, blue], axis=3).reshape(256, -1, 3)
    assert np.array_equal(quick.colours(columns, signal), coloured(columns, signal))
