"""Writes lanes as raw blocks (docs/guide/FORMATS.md), once or repeatedly."""

from collections.abc import Iterator, Sequence
from math import gcd

import numpy as np
import numpy.typing as npt

from vabgrot.capture import BLOCK

BLOCKS = 64  # blocks of each lane that are written at a time
MOST = BLOCK * BLOCKS
BYTE = 8
Bytes = npt.NDArray[np.uint8]


def period(lane: bytes | bytearray, bits: int, times: int | None) -> Bytes:
    """Returns the first `bits` bits of a lane, repeated until they fill whole bytes, but at most `times` times. After them the beginning
    is repeated."""
    count = BYTE // gcd(bits, BYTE)
    octets = np.frombuffer(lane, np.uint8)[: (bits + BYTE - 1) // BYTE]
    if count > 1:
        found = np.tile(np.unpackbits(octets, bitorder="little", count=bits), count if times is None else min(count, times))
        octets = np.packbits(found, bitorder="little")
    return np.resize(octets, len(octets) + MOST)


def pieces(lanes: Sequence[bytes | bytearray], bits: int, times: int | None) -> Iterator[memoryview]:
    """Yields raw blocks of the first `bits` bits of each lane, repeated `times` times (None: forever). Bits after the last whole byte are
    dropped. A piece is valid until the next one."""
    if not bits:
        return
    longer = [period(lane, bits, times) for lane in lanes]
    left, size, at = None if times is None else bits * times // BYTE, len(longer[0]) - MOST, 0
    found = np.empty((BLOCKS, len(lanes), BLOCK), np.uint8)
    while left is None or left > 0:
        for number, lane in enumerate(longer):
            found[:, number] = lane[at : at + MOST].reshape(BLOCKS, BLOCK)
        if left is not None and left < MOST:
            yield ended(found, left)
            return
        yield found.reshape(-1).data
        at, left = (at + MOST) % size, None if left is None else left - MOST


def ended(blocks: Bytes, left: int) -> memoryview:
    """Returns the last blocks of the lanes, which have `left` bytes each. In an incomplete block the first two lanes are padded with 0,
    and the third one ends."""
    count, rest = divmod(left, BLOCK)
    blocks[count, :, rest:] = 0
    lanes = blocks.shape[1]
    return blocks.reshape(-1).data[: lanes * count * BLOCK + ((lanes - 1) * BLOCK + rest if rest else 0)]
