"""What the tests of tools over live links share: raw blocks of a capture's lanes, again and again or one capture after another."""

import numpy as np

from vabgrot import capture
from vabgrot.lanes import repeating


def bits_of(data, count=None):
    """The bits of the three lanes of a capture, the first ones of each."""
    lanes, counts = capture.lanes_of(data)
    count = min(counts) if count is None else count
    return [np.unpackbits(np.frombuffer(lane, np.uint8), bitorder="little")[:count] for lane in lanes]


def blocks(lanes):
    """Raw blocks of lanes of bits, as far as these are whole bytes."""
    count = len(lanes[0]) // 8 * 8
    return b"".join(map(bytes, repeating.pieces([np.packbits(lane, bitorder="little").tobytes() for lane in lanes], count, 1)))


def after(*links):
    """Lanes of bits, one link after another."""
    return [np.concatenate(lanes) for lanes in zip(*links)]


def times(lanes, count):
    """Lanes of bits again and again."""
    return [np.tile(lane, count) for lane in lanes]
