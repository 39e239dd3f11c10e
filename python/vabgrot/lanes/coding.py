"""The video coding of a lane (DVI 1.0, section 3.2.2; HDMI 1.4, section 5.4.4) as tables."""

from __future__ import annotations

import functools

import numpy as np
import numpy.typing as npt

from vabgrot.formats.characters import TEN

Ints = npt.NDArray[np.int64]
COUNT = 1 << TEN
BITS = np.array([word.bit_count() for word in range(COUNT)], np.int64)  # the ones of each character
BALANCE = 2 * BITS - TEN  # ones minus zeros


def made_of(byte: int) -> tuple[int, bool]:
    """Returns q_m[7:0], the byte with few transitions, and whether it was made with XOR."""
    by_xnor = byte.bit_count() > 4 or byte.bit_count() == 4 and not byte & 1
    made = byte & 1
    for bit in range(1, 8):
        made |= ((made >> bit - 1 ^ byte >> bit ^ by_xnor) & 1) << bit
    return made, not by_xnor


def code(byte: int, disparity: int) -> int:
    """Returns the character that codes a byte at a disparity."""
    made, by_xor = made_of(byte)
    lean = 2 * made.bit_count() - 8
    inverted = not by_xor if disparity == 0 or lean == 0 else (disparity > 0) == (lean > 0)
    return inverted << 9 | by_xor << 8 | (made ^ 0xFF if inverted else made)


def byte_of(word: int) -> int:
    """Returns the byte that a character codes. It does not depend on the disparity."""
    made = word & 0xFF ^ (0xFF if word >> 9 & 1 else 0)
    return (made ^ made << 1 ^ (0 if word >> 8 & 1 else 0xFE)) & 0xFF


BYTES = np.array([byte_of(word) for word in range(COUNT)], np.int64)
CODES = np.array([[code(byte, side) for byte in range(256)] for side in (-1, 0, 1)], np.int64)  # at a disparity < 0, 0, > 0


@functools.cache
def disparities() -> tuple[int, ...]:
    """Returns the disparities that rows of any bytes can reach."""
    known, left = {0}, [0]
    while left:
        here = left.pop()
        for other in set((here + BALANCE[CODES[int(np.sign(here)) + 1]]).tolist()) - known:
            known.add(other)
            left.append(other)
    return tuple(sorted(known))


def first_unlike(words: npt.NDArray[np.uint16], start: int = 0) -> int | None:
    """Returns the first character of a row that is not the right code of its byte at the disparity before it, or None."""
    balance = BALANCE[words]
    sums = start + np.concatenate(([0], np.cumsum(balance)[:-1]))
    unlike = np.flatnonzero(CODES[np.sign(sums) + 1, BYTES[words]] != words)
    return int(unlike[0]) if len(unlike) else None


def starts_of(words: npt.NDArray[np.uint16]) -> list[int]:
    """Returns the initial disparities at which a row is coded without a fault."""
    return [start for start in disparities() if first_unlike(words, start) is None]
