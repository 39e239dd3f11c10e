"""Converts the bytes of pixels to colours and back: deep colour, YCbCr, quantization ranges, repeated pixels (HDMI 1.4, chapter 6;
CTA-861; ITU-R BT.601, BT.709 and BT.2020).

Columns are arrays of bytes of the shape (rows, columns, 3), in the order of a listing: lanes 2, 1 and 0, which are red, green and blue,
or Cr, Y and Cb. Samples are arrays of numbers of the shape (rows, pixels, 3)."""

from dataclasses import dataclass
from enum import IntEnum

import numpy as np
from numpy.typing import NDArray

Bytes = NDArray[np.uint8]
Samples = NDArray[np.uint16]
Parts = NDArray[np.float64]  # from 0 (black) to 1 (white)
BYTE = 8
DEPTHS = {4: 24, 5: 30, 6: 36, 7: 48}  # the bits of a pixel by the CD of a general control packet (HDMI 1.4, section 5.3.6)
HALF = 0.5 + 1e-9  # rounds exact halves up, in spite of the errors of floating point
YCC422_BITS = 12  # bits of a component; a source with fewer fills the lowest bits with 0


class Encoding(IntEnum):
    """The values of field Y of an AVI InfoFrame."""

    RGB = 0
    YCC422 = 1
    YCC444 = 2
    YCC420 = 3


@dataclass(frozen=True)
class Matrix:
    """The weights of red and blue in luma."""

    name: str
    red: float
    blue: float

    @property
    def green(self) -> float:
        """The weight of green: what red and blue leave of 1."""
        return 1 - self.red - self.blue


BT601 = Matrix("BT.601", 0.299, 0.114)
BT709 = Matrix("BT.709", 0.2126, 0.0722)
BT2020 = Matrix("BT.2020", 0.2627, 0.0593)
MATRICES = {"601": BT601, "709": BT709, "2020": BT2020}


@dataclass(frozen=True)
class Signal:
    """How a source sends pixels: encoding, matrix (YCbCr only), range, bits of a pixel, and how often each pixel is repeated."""

    encoding: Encoding = Encoding.RGB
    matrix: Matrix | None = None
    is_full: bool = True
    bits: int = 24
    times: int = 1

    @property
    def component(self) -> int:
        """The bits of a component."""
        return YCC422_BITS if self.encoding == Encoding.YCC422 else self.bits // 3

    @property
    def is_plain(self) -> bool:
        """Whether the bytes are the colours."""
        return self == Signal()

    def pixels(self, columns: int) -> int:
        """Returns the number of pixels in a row of `columns` columns."""
        return -(-self.sent(columns) // self.times)

    def sent(self, columns: int) -> int:
        """Like `pixels`, but counts a repeated pixel each time it is sent."""
        return columns * BYTE // self.packed

    def pixel(self, column: int) -> int:
        """Returns the number of the pixel that contains the first bit of a column."""
        return column * BYTE // self.packed // self.times

    @property
    def packed(self) -> int:
        """The number of bits that a pixel takes on each lane."""
        return BYTE if self.encoding == Encoding.YCC422 else self.bits // 3


def unpacked(columns: Bytes, size: int) -> Samples:
    """Reads the components, `size` bits each, that follow one another on each lane, the lowest bit first (HDMI 1.4, section 6.5.2).

    A row begins with packing phase 0. Zeros fill the rest of its last column."""
    if size == BYTE:
        return columns.astype(np.uint16)
    rows, count, lanes = columns.shape
    width = count * BYTE // size
    stream = np.unpackbits(columns, axis=1, bitorder="little")[:, : width * size]
    wide = np.zeros((rows, width, 2 * BYTE, lanes), np.uint8)
    wide[:, :, :size] = stream.reshape(rows, width, size, lanes)
    halves = np.packbits(wide, axis=2, bitorder="little").astype(np.uint16)
    found: Samples = (halves[:, :, 0] | halves[:, :, 1] << BYTE).astype(np.uint16)
    return found


def packed(samples: Samples, size: int) -> Bytes:
    """Writes components of `size` bits as columns. This is the inverse of `unpacked`."""
    rows, width, lanes = samples.shape
    halves = np.stack([samples & 255, samples >> BYTE], axis=2).astype(np.uint8)
    bits = np.unpackbits(halves, axis=2, bitorder="little")[:, :, :size]
    return np.packbits(bits.reshape(rows, width * size, lanes), axis=1, bitorder="little")


def split422(columns: Bytes) -> Samples:
    """Reads Y, Cb and Cr (12 bits each) from columns of YCbCr 4:2:2 (HDMI 1.4, section 6.2.4).

    Lane 1 carries the upper eight bits of Y. Lane 2 carries the upper eight of Cb in even columns and of Cr in odd ones. Lane 0 carries
    the lower four of Y, and above them the lower four of Cb or Cr. Both pixels of a pair get the same Cb and Cr. A last pixel without a
    partner gets the Cr of the pair before."""
    chroma, luma, low = np.moveaxis(columns.astype(np.uint16), 2, 0)
    luma, chroma = luma << 4 | low & 15, chroma << 4 | low >> 4
    blue, red = chroma[:, 0::2], chroma[:, 1::2]
    if red.shape[1] < blue.shape[1]:
        neutral = np.full((len(red), 1), 1 << YCC422_BITS - 1, np.uint16)
        red = np.concatenate([red, red[:, -1:] if red.shape[1] else neutral], axis=1)
    width = columns.shape[1]
    return np.stack([luma, *(np.repeat(part, 2, axis=1)[:, :width] for part in (blue, red))], axis=2)


def joined422(samples: Samples) -> Bytes:
    """Writes Y, Cb and Cr (12 bits each) as columns of YCbCr 4:2:2. Each pair of pixels sends the Cb and Cr of its first pixel."""
    luma, blue, red = np.moveaxis(samples, 2, 0)
    chroma = blue.copy()
    chroma[:, 1::2] = red[:, 0 : 2 * (red.shape[1] // 2) : 2]
    low = luma & 15 | (chroma & 15) << 4
    found: Bytes = np.stack([chroma >> 4, luma >> 4, low], axis=2).astype(np.uint8)
    return found


def components(columns: Bytes, signal: Signal) -> Samples:
    """Returns red, green and blue, or Y, Cb and Cr, of each pixel. A repeated pixel is returned once."""
    if signal.encoding == Encoding.YCC422:
        found = split422(columns)
    else:
        found = unpacked(columns, signal.packed)
        if signal.encoding == Encoding.YCC444:
            found = found[:, :, [1, 2, 0]]
    return found[:, :: signal.times]


def _levels(signal: Signal, is_chroma: bool) -> tuple[int, int]:
    """Returns the code for 0 and the number of steps from there to the code for 1 (for chroma: from -1/2 to 1/2)."""
    size = signal.component
    if signal.is_full:
        return (1 << size - 1) * is_chroma, (1 << size) - 1
    zero, steps = (128, 224) if is_chroma else (16, 219)
    return zero << size - BYTE, steps << size - BYTE


def parts(samples: Samples, signal: Signal) -> Parts:
    """Converts components to red, green and blue from 0 to 1. Values below black or above white are clipped."""
    zero, steps = _levels(signal, False)
    first = (samples.astype(np.float64) - zero) / steps
    if signal.encoding == Encoding.RGB:
        return first.clip(0, 1)
    matrix = signal.matrix or BT709
    middle, reach = _levels(signal, True)
    luma = first[:, :, 0]
    blue_less, red_less = np.moveaxis((samples[:, :, 1:].astype(np.float64) - middle) / reach, 2, 0)
    red = luma + 2 * (1 - matrix.red) * red_less
    blue = luma + 2 * (1 - matrix.blue) * blue_less
    green = (luma - matrix.red * red - matrix.blue * blue) / matrix.green
    found: Parts = np.clip(np.stack([red, green, blue], axis=2), 0, 1)
    return found


def quantized(colours: Parts, signal: Signal) -> Samples:
    """Converts red, green and blue from 0 to 1 to components. This is the inverse of `parts`."""
    size = signal.component
    zero, steps = _levels(signal, False)
    if signal.encoding == Encoding.RGB:
        found = colours * steps + zero
    else:
        matrix = signal.matrix or BT709
        middle, reach = _levels(signal, True)
        red, green, blue = np.moveaxis(colours, 2, 0)
        luma = matrix.red * red + matrix.green * green + matrix.blue * blue
        chroma = (blue - luma) / (2 * (1 - matrix.blue)), (red - luma) / (2 * (1 - matrix.red))
        found = np.stack([luma * steps + zero, *(part * reach + middle for part in chroma)], axis=2)
    levels: Samples = np.clip(np.floor(found + HALF), 0, (1 << size) - 1).astype(np.uint16)
    return levels


def _source(found: Samples, signal: Signal) -> tuple[Samples, Signal]:
    """Returns YCbCr 4:2:2 components with the source's depth: 8, 10 or 12 bits. The zeros in the lowest bits show which one it is."""
    low = int(np.bitwise_or.reduce(found, axis=None)) & 15 if found.size else 0
    size = 12 if low & 3 else 10 if low else 8
    shifted: Samples = (found >> YCC422_BITS - size).astype(np.uint16)
    return shifted, Signal(Encoding.YCC444, signal.matrix, signal.is_full, 3 * size)


def coloured(columns: Bytes, signal: Signal) -> Bytes | Samples:
    """Converts columns to colours for a picture file: bytes, or 16-bit numbers if the components have more than eight bits."""
    found = components(columns, signal)
    if signal.encoding == Encoding.YCC422:
        found, signal = _source(found, signal)
    is_deep = signal.component > BYTE
    colours: Bytes | Samples = np.floor(parts(found, signal) * (65_535 if is_deep else 255) + HALF).astype(
        np.uint16 if is_deep else np.uint8
    )
    return colours


def columns_of(colours: Bytes | Samples, signal: Signal, size: int) -> Bytes:
    """Converts a picture's colours to columns. This is the inverse of `coloured`. `size` is the source's number of bits of a component:
    up to 12 for YCbCr 4:2:2, otherwise the one of the signal."""
    most = 65_535 if colours.dtype == np.uint16 else 255
    if signal.encoding == Encoding.YCC422:
        source = Signal(Encoding.YCC444, signal.matrix, signal.is_full, 3 * size)
        found: Samples = (quantized(colours / most, source) << YCC422_BITS - size).astype(np.uint16)
        return joined422(np.repeat(found, signal.times, axis=1))
    found = np.repeat(quantized(colours / most, signal), signal.times, axis=1)
    return packed(found[:, :, [2, 0, 1]] if signal.encoding == Encoding.YCC444 else found, signal.packed)
