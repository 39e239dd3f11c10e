"""Detects that a link is encrypted (HDCP 1.4, section 2.7). It uses only the control characters, which HDCP does not encrypt."""

from __future__ import annotations

from typing import Literal, NamedTuple

import numpy as np
import numpy.typing as npt

from vabgrot.formats.characters import CONTROL
from vabgrot.lanes.columns import Columns, Words

Ints = npt.NDArray[np.int64]
Kind = Literal["EESS", "OESS"]
MARKS: dict[Kind, int] = {"EESS": 0b1001, "OESS": 0b1000}  # CTL3 to CTL0 (HDCP 1.4, section 2.7)
LEAST: dict[Kind, int] = {"EESS": 12, "OESS": 6}  # the least marked columns of 16 or 8; damage may have changed the others
WITHIN = 512 + 16 + 32  # columns after the edge of VSYNC in which the EESS mark is expected, with some margin
TORN = 2  # columns within a mark, or with a wrong VSYNC, that damage may change
MOST_OUTSIDE = 0.02  # the share of other control columns that may look like a mark because of damage
LOOKED, PART = 1 << 23, 1 << 18  # columns of a capture that are examined, and how many at a time
VALUE = np.full(1024, -1, np.int64)  # the value of each control character
VALUE[list(CONTROL)] = range(len(CONTROL))
SAYS = "Encrypted: pixels and packets are not judged"


class Runs(NamedTuple):
    """Runs of control columns: first columns, lengths and values (bit 0 HSYNC, bit 1 VSYNC, bits 2 to 5 CTL0 to CTL3)."""

    begins: Ints
    counts: Ints
    values: Ints


class Encryption(NamedTuple):
    """How a link shows that it is encrypted: the signalling, the fields with a mark, the number of all fields, and the column of the
    first mark."""

    kind: Kind
    marked: int
    fields: int
    column: int

    @property
    def how(self) -> str:
        """The signalling in words."""
        return f"{self.kind} in {self.marked:,} of {self.fields:,} fields, first at column {self.column:,}"

    def __str__(self) -> str:
        return f"{SAYS} (HDCP; {self.how})"


def encryption_of(runs: Runs) -> Encryption | None:
    """Returns how control periods show encryption, or None if they do not. A few wrong bits do not change the result."""
    is_long = runs.counts > TORN
    begins, is_high = runs.begins[is_long], runs.values[is_long] >> 1 & 1
    times = np.bincount(is_high, weights=runs.counts[is_long], minlength=2)
    if not times.all():
        return None
    active = int(times.argmin())
    edges = begins[1:][(is_high[1:] == active) & (is_high[:-1] != active)]
    if not len(edges):
        return None
    for kind in MARKS:
        found = marked_by(kind, runs, edges, active)
        if found:
            return found
    return None


def marked_by(kind: Kind, runs: Runs, edges: Ints, active: int) -> Encryption | None:
    """Returns the marks of one kind in the fields that begin at these edges of VSYNC."""
    is_mark = runs.values >> 2 == MARKS[kind]
    begins, counts, levels = runs.begins[is_mark], runs.counts[is_mark], runs.values[is_mark] >> 1 & 1
    if not len(begins):
        return None
    starts = np.flatnonzero(np.append(True, begins[1:] - (begins + counts)[:-1] > TORN))
    sizes, firsts = np.add.reduceat(counts, starts), begins[starts]
    field = np.searchsorted(edges, firsts, "right") - 1
    is_inside = (sizes >= LEAST[kind]) & (field >= 0)
    if kind == "EESS":
        is_inside &= firsts - edges[field] < WITHIN
    else:
        is_inside &= levels[starts] == active
    outside, every = int(sizes[~is_inside].sum()), int(runs.counts.sum() - sizes[is_inside].sum())
    if not is_inside.any() or outside > MOST_OUTSIDE * every:
        return None
    return Encryption(kind, len(np.unique(field[is_inside])), len(edges), int(firsts[is_inside][0]))


def runs_of(words: Words, first: int = 0) -> Runs:
    """Returns the runs of control columns in three rows of characters. A column counts if two of its characters are control characters;
    the third then has the value 0. `first` is the number of the first column."""
    values = VALUE[words]
    is_control = (values >= 0).sum(axis=0) >= 2
    numbers = np.where(is_control, (np.maximum(values, 0) << np.array([[0], [2], [4]])).sum(axis=0), -1)
    starts = np.flatnonzero(np.append(True, numbers[1:] != numbers[:-1])) if len(numbers) else np.zeros(0, np.int64)
    counts = np.diff(np.append(starts, len(numbers)))
    kept = numbers[starts] >= 0 if len(starts) else np.zeros(0, np.bool_)
    return Runs(first + starts[kept], counts[kept], numbers[starts[kept]])


def encryption_in(columns: Columns) -> Encryption | None:
    """Returns how the beginning of a capture shows encryption, or None if it does not."""
    parts = [runs_of(columns.at(at, PART), at) for at in range(0, min(columns.count, LOOKED), PART)]
    if not parts:
        return None
    begins, counts, values = (np.concatenate(arrays) for arrays in zip(*parts))
    return encryption_of(Runs(begins, counts, values))
