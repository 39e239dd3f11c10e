"""Converts columns to what people count: the frame, the row of its picture and the pixel, each from 0."""

from __future__ import annotations

import re
from typing import NamedTuple

import numpy as np
import numpy.typing as npt

Ints = npt.NDArray[np.int64]
MOST_LOST = 6  # more lines than this without a row begin a new frame; the shortest blanking of a format has 8
PLACE = re.compile(r"(\d+):(\d+):(\d+)")


class Place(NamedTuple):
    """A frame (the first with rows is 0), a row of its picture, and a pixel of that row."""

    frame: int
    row: int
    pixel: int

    def __str__(self) -> str:
        return f"{self.frame}:{self.row}:{self.pixel}"


class Rows(NamedTuple):
    """The frame of each row, and the number of the row in its frame."""

    frames: Ints
    numbers: Ints


def rows_of(firsts: Ints) -> Rows:
    """Returns the frames and numbers of rows, given their first columns. A gap of more than MOST_LOST lines begins a new frame. A shorter
    gap means that rows were lost."""
    lines = np.diff(firsts)
    steps = np.append(0, np.round(lines / max(float(np.median(lines)), 1.0))) if len(lines) else np.zeros(len(firsts))
    begins = np.unique(np.append(0, np.flatnonzero(steps > MOST_LOST)))
    frames = np.searchsorted(begins, np.arange(len(firsts)), "right") - 1
    passed = np.cumsum(np.maximum(steps, 1)).astype(np.int64)
    return Rows(frames, passed - passed[begins[frames]] if len(firsts) else passed)


def column_of(place: Place, firsts: Ints, widths: Ints) -> int | None:
    """Returns the column of a place, or None if there is no such place."""
    rows = rows_of(firsts)
    found = np.flatnonzero((rows.frames == place.frame) & (rows.numbers == place.row))
    if not len(found) or place.pixel >= int(widths[found[0]]):
        return None
    return int(firsts[found[0]]) + place.pixel


def place_at(column: int, firsts: Ints, widths: Ints, rows: Rows) -> Place | None:
    """Returns the place of a column, or None if it is not a pixel."""
    row = int(np.searchsorted(firsts, column, "right")) - 1
    if row < 0 or column >= int(firsts[row] + widths[row]):
        return None
    return Place(int(rows.frames[row]), int(rows.numbers[row]), column - int(firsts[row]))
