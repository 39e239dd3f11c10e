"""Converts columns to the same colours as `colours.coloured`, with tables. It is fast enough for a live link."""

from __future__ import annotations

from functools import lru_cache

import numpy as np

from vabgrot.video.colours import (
    BT709,
    BYTE,
    HALF,
    YCC422_BITS,
    Bytes,
    Encoding,
    Parts,
    Samples,
    Signal,
    coloured,
    parts,
    split422,
)

BAND = 16  # rows converted at a time, so that the data stays in the processor's cache
LEVELS = 1 << BYTE
Tables = tuple[Bytes, Bytes, Parts, Parts]


@lru_cache(8)
def tables(signal: Signal) -> Tables:
    """Returns the tables for 8-bit YCbCr: red by (Y, Cr), blue by (Y, Cb), and two summands of green, by Y and by (Cb, Cr).

    The summands of green are in steps of 1/255. The half that rounds is included."""
    luma, chroma = (it.reshape(-1) for it in np.meshgrid(np.arange(LEVELS), np.arange(LEVELS), indexing="ij"))
    pairs = np.stack([luma, chroma, chroma], axis=1).astype(np.uint16)[None]
    steps = np.floor(parts(pairs, signal) * (LEVELS - 1) + HALF).astype(np.uint8)[0]
    matrix = signal.matrix or BT709
    zero, reach = (0, LEVELS - 1) if signal.is_full else (16, 219)
    span = LEVELS - 1 if signal.is_full else 224
    first = (np.arange(LEVELS, dtype=np.float64) - zero) / reach
    less = (np.arange(LEVELS, dtype=np.float64) - LEVELS // 2) / span
    of_blue = -2 * (1 - matrix.blue) * matrix.blue / matrix.green * less
    of_red = -2 * (1 - matrix.red) * matrix.red / matrix.green * less
    chromas: Parts = np.add.outer(of_blue, of_red).reshape(-1) * float(LEVELS - 1)
    lumas: Parts = first * float(LEVELS - 1) + HALF
    return steps[:, 0].copy(), steps[:, 2].copy(), lumas, chromas


@lru_cache(16)
def levels(signal: Signal) -> Bytes | Samples:
    """Returns the table for RGB: the value in a picture file for each value of a component."""
    size = signal.component
    every = np.arange(1 << size, dtype=np.uint16)[None, :, None].repeat(3, axis=2)
    is_deep = size > BYTE
    steps = np.floor(parts(every, signal)[0, :, 0] * (65_535 if is_deep else 255) + HALF)
    found: Bytes | Samples = steps.astype(np.uint16 if is_deep else np.uint8)
    return found


def unpacked(columns: Bytes, size: int) -> Samples:
    """Does the same as `colours.unpacked` with shifts. It supports 10, 12 and 16 bits, whose packing repeats after whole bytes."""
    rows, count, lanes = columns.shape
    width = count * BYTE // size
    group, octets = {10: (4, 5), 12: (2, 3), 16: (1, 2)}[size]
    groups = -(-width // group)
    padded = np.zeros((rows, groups * octets + 1, lanes), np.uint16)
    used = min(count, groups * octets)
    padded[:, :used] = columns[:, :used]
    found = np.empty((rows, groups, group, lanes), np.uint16)
    for number in range(group):
        byte, low = divmod(number * size, BYTE)
        first, second = (padded[:, at : at + (groups - 1) * octets + 1 : octets] for at in (byte, byte + 1))
        found[:, :, number] = (first >> low | second << BYTE - low) & (1 << size) - 1
    return found.reshape(rows, groups * group, lanes)[:, :width]


def of_ycc(luma: Bytes, blue: Bytes, red: Bytes, signal: Signal, found: Bytes) -> None:
    """Writes the colours of 8-bit Y, Cb and Cr to `found`."""
    reds, blues, lumas, chromas = tables(signal)
    for begin in range(0, len(luma), BAND):
        band = found[begin : begin + BAND]
        first, second, third = (it[begin : begin + BAND].astype(np.intp) for it in (luma, blue, red))
        green = lumas.take(first)
        green += chromas.take(second << BYTE | third)
        band[..., 1] = np.minimum(np.maximum(green, 0, out=green), LEVELS - HALF, out=green).astype(np.uint8)
        first <<= BYTE
        band[..., 0] = reds.take(first | third)
        band[..., 2] = blues.take(first | second)


def of_halves(columns: Bytes, signal: Signal) -> Bytes | Samples:
    """Returns the colours of YCbCr 4:2:2."""
    if columns[:, :, 2].any():
        return coloured(columns, signal)  # the source has more than eight bits
    plain = Signal(Encoding.YCC444, signal.matrix, signal.is_full)
    rows, width, _ = columns.shape
    found = np.empty((rows, signal.pixels(width), 3), np.uint8)
    if width % 2 or signal.times > 1:
        luma, blue, red = np.moveaxis((split422(columns)[:, :: signal.times] >> YCC422_BITS - BYTE).astype(np.uint8), 2, 0)
        of_ycc(luma, blue, red, plain, found)
        return found
    chroma = columns[:, :, 0]
    for side in (0, 1):
        of_ycc(columns[:, side::2, 1], chroma[:, 0::2], chroma[:, 1::2], plain, found[:, side::2])
    return found


def colours(columns: Bytes, signal: Signal) -> Bytes | Samples:
    """Returns the same colours as `coloured`."""
    if signal.is_plain:
        return columns
    if signal.encoding == Encoding.YCC422:
        return of_halves(columns, signal)
    if signal.packed > BYTE:
        return np.concatenate([deep(columns[at : at + BAND], signal) for at in range(0, len(columns), BAND)])
    if signal.encoding == Encoding.RGB:
        translated = columns[:, :: signal.times].tobytes().translate(levels(signal).tobytes())
        return np.frombuffer(translated, np.uint8).reshape(len(columns), -1, 3)
    red, luma, blue = (columns[:, :: signal.times, place] for place in range(3))
    found = np.empty((*luma.shape, 3), np.uint8)
    of_ycc(luma, blue, red, Signal(Encoding.YCC444, signal.matrix, signal.is_full), found)
    return found


def deep(columns: Bytes, signal: Signal) -> Samples:
    """Returns the colours of components with more than eight bits."""
    samples = unpacked(columns, signal.packed)[:, :: signal.times]
    if signal.encoding == Encoding.RGB:
        table: Samples = levels(signal).astype(np.uint16, copy=False)
        return table.take(samples)
    found: Samples = np.floor(parts(samples[:, :, [1, 2, 0]], signal) * 65_535 + HALF).astype(np.uint16)
    return found
