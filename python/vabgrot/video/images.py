"""Pictures as arrays of colours of the shape (rows, pixels, 3): draws marks on them and writes PNG files with 8 or 16 bits."""

from collections import Counter
from collections.abc import Iterable, Sequence
from dataclasses import dataclass, field
from fractions import Fraction
from typing import IO

import numpy as np
import png
from PIL import Image

from vabgrot.video.colours import Bytes, Samples, Signal, coloured

Colours = Bytes | Samples
Place = tuple[int | None, int]  # pixel (None if not known) and row
MARK = np.array((255, 128, 0))
REACH, BAR = 2, 4  # of a box round a pixel, and of a bar at the ends of a row


@dataclass
class Picture:
    """A picture, its faults and their places, and the number of lines from VSYNC to its first row (None if not known)."""

    colours: Colours
    faults: Counter[str] = field(default_factory=Counter)
    marks: list[Place] = field(default_factory=list)
    lines_down: Fraction | None = None

    @property
    def size(self) -> tuple[int, int]:
        """Width and height."""
        return self.colours.shape[1], self.colours.shape[0]


def columns_of(rows: Sequence[bytes], width: int) -> Bytes:
    """Returns rows of a listing as columns. Each row is cut or padded with zeros to the width."""
    data = b"".join(row[: 3 * width].ljust(3 * width, b"\0") for row in rows)
    return np.frombuffer(data, np.uint8).reshape(len(rows), width, 3)


def colours_of(rows: Sequence[bytes], width: int, signal: Signal) -> Colours:
    """Returns the colours of rows that are `width` columns wide. Pixels that a shorter row lacks are black."""
    columns = columns_of(rows, width)
    if signal.is_plain:
        return columns
    found = coloured(columns, signal)
    for number, row in enumerate(rows):
        if len(row) < 3 * width:
            found[number, signal.pixels(len(row) // 3) :] = 0
    return found


def shallow(colours: Colours) -> Bytes:
    """Returns the colours as bytes. 16-bit values are rounded."""
    found: Bytes = (colours if colours.dtype == np.uint8 else (colours.astype(np.uint32) + 128) // 257).astype(
        np.uint8, copy=False
    )
    return found


def woven(upper: Picture, lower: Picture) -> Picture:
    """Weaves two fields into a frame. The upper field has rows 0, 2, 4 and so on."""
    uppers, lowers = upper.colours, lower.colours
    if uppers.dtype != lowers.dtype:
        uppers, lowers = (it if it.dtype == np.uint16 else it.astype(np.uint16) * np.uint16(257) for it in (uppers, lowers))
    colours = np.stack([uppers, lowers], axis=1).reshape(-1, *uppers.shape[1:])
    marks = [(x, 2 * y + side) for side, it in enumerate((upper, lower)) for x, y in it.marks]
    return Picture(colours, upper.faults + lower.faults, marks)


def marked(picture: Picture) -> Colours:
    """Draws a box around each faulty pixel. If the pixel of a fault is not known, a bar marks both ends of the row."""
    found = picture.colours.copy()
    mark = MARK * 257 if found.dtype == np.uint16 else MARK
    height, width, _ = found.shape
    known = {(x, y) for x, y in picture.marks if x is not None and 0 <= x < width}
    for x, y in known:
        across = slice(max(x - REACH, 0), x + REACH + 1)
        for row in (y - REACH, y + REACH):
            if 0 <= row < height:
                found[row, across] = mark
        for column in (x - REACH, x + REACH):
            if 0 <= column < width:
                found[max(y - REACH, 0) : y + REACH + 1, column] = mark
    for place in picture.marks:
        if place not in known:
            found[place[1], :BAR] = found[place[1], max(width - BAR, 0) :] = mark
    for x, y in known:
        found[y, x] = picture.colours[y, x]
    return found


def save(colours: Colours, file: IO[bytes]) -> None:
    """Writes a PNG file, with 16 bits if the colours have 16."""
    if colours.dtype == np.uint8:
        Image.fromarray(colours, "RGB").save(file, "PNG")
        return
    height, width, _ = colours.shape
    rows: Iterable[bytes] = (row.astype(">u2").tobytes() for row in colours)
    png.Writer(width, height, greyscale=False, bitdepth=16, compression=6).write_packed(file, rows)
