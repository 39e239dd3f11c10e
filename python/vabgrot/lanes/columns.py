"""The characters of a capture, column by column as `recover link` counts them. They are read from the file on demand."""

from __future__ import annotations

from collections.abc import Sequence

import numpy as np
import numpy.typing as npt

from vabgrot import capture
from vabgrot.capture import Memory, Source
from vabgrot.formats.characters import ISLAND_GUARDS_0, LEAST_CONTROL, TEN
from vabgrot.lanes.looking import GUARD, IS_CONTROL, OTHER, Bits, characters_of, lock_of
from vabgrot.lanes.openings import beginnings, first_alignment

Words = npt.NDArray[np.uint16]
LOOKED = 1 << 17  # bits of each lane in which the first alignment is searched for first
PART = 1 << 17  # the same for repeated searches
GUARDS = 2  # columns of a guard band
BANDS = (((GUARD,), (OTHER,), (GUARD,)), (ISLAND_GUARDS_0, (OTHER,), (OTHER,)))  # the guard bands of a line and of an island


def edges_of(bits: npt.NDArray[np.uint8]) -> npt.NDArray[np.int64]:
    """Returns the edges of a lane: the places after its lock at which at least twelve control characters end (docs/guide/FORMATS.md)."""
    lock = lock_of(bits)
    if lock is None:
        return np.zeros(0, np.int64)
    others = np.flatnonzero(~IS_CONTROL[characters_of(bits, lock)])
    found: npt.NDArray[np.int64] = lock + TEN * others[np.diff(others, prepend=-1) > LEAST_CONTROL]
    return found


def first_edges(lanes: Sequence[Bits], start: int) -> list[int] | None:
    """Returns the edges of the first full alignment at or after bit `start`, or None."""
    for size in (PART, max(map(len, lanes))):
        found = first_alignment([edges_of(lane[start : start + size]) for lane in lanes])
        if found is not None:
            return [start + edge for edge in found]
    return None


def is_confirmed(lanes: Sequence[Bits], edges: Sequence[int]) -> bool:
    """Returns whether a guard band begins at three edges: its whole first column and at least two characters of its second
    (docs/guide/FORMATS.md)."""
    columns = np.stack([characters_of(lane[edge : edge + TEN * GUARDS], 0) for lane, edge in zip(lanes, edges)])
    for kind in BANDS:
        first, second = np.stack([np.isin(words, guards) for words, guards in zip(columns, kind)]).sum(axis=0).tolist()
        if first == len(kind) and second >= len(kind) - 1:
            return True
    return False


def confirmed_edges(lanes: Sequence[Bits]) -> list[int] | None:
    """Returns the edges of the first alignment that a guard band confirms, or None. `recover relock` finds the same in lanes that lose no
    bits."""
    start, end = 0, min(map(len, lanes), default=0)
    while (edges := first_edges(lanes, start)) and max(edges) + TEN * GUARDS <= end:
        if is_confirmed(lanes, edges):
            return edges
        start = min(edges) + 1 - TEN * LEAST_CONTROL
    return None


def alignment_of(source: Source, place: int, by_guards: bool) -> list[int] | None:
    """The place of each lane at which the first aligned column begins, of the first alignment from a place on, or of the first one that a
    guard band confirms (`by_guards`); None if there is none."""
    most = LOOKED
    while True:
        lanes = beginnings(source, most, place)
        edges = confirmed_edges(lanes) if by_guards else first_alignment([edges_of(lane) for lane in lanes])
        if edges is not None:
            return [place + edge - TEN * LEAST_CONTROL for edge in edges]
        if max(map(len, lanes)) < most:
            return None
        most *= 8


class Columns:
    """The characters of the three lanes of a capture from the bits `starts` on. `count` is the number of columns that all lanes have."""

    def __init__(self, source: Source, starts: Sequence[int], bits: Sequence[int]) -> None:
        with capture.opened(source) as file:
            counts, self.first = capture.header_of(file.read(capture.HEADER))
        self.starts, self.lengths = starts, [(count + 7) // 8 for count in counts]
        self.data = np.frombuffer(source.data, np.uint8) if isinstance(source, Memory) else np.memmap(source, np.uint8, "r")
        self.count = max(0, min((count - start) // TEN for count, start in zip(bits, starts)))

    def bytes_of(self, lane: int, begin: int, end: int) -> npt.NDArray[np.uint8]:
        """Returns the bytes of a lane from `begin` to `end` (exclusive)."""
        parts = []
        for block in range(begin // capture.BLOCK, -(-end // capture.BLOCK)):
            at = block * capture.BLOCK
            place = self.first + sum(min(at, length) for length in self.lengths)
            place += sum(min(capture.BLOCK, max(length - at, 0)) for length in self.lengths[:lane])
            parts.append(self.data[place + max(begin - at, 0) : place + min(end - at, capture.BLOCK)])
        return np.concatenate(parts) if parts else np.zeros(0, np.uint8)

    def words(self, lane: int, column: int, count: int) -> Words:
        """Returns up to `count` characters of a lane from a column on."""
        count = max(0, min(count, self.count - column))
        begin = self.starts[lane] + TEN * column
        data = self.bytes_of(lane, begin // 8, -(-(begin + TEN * count) // 8))
        bits = np.unpackbits(data, bitorder="little")[begin % 8 :][: TEN * count]
        words: Words = characters_of(bits, 0).astype(np.uint16)
        return words

    def at(self, column: int, count: int) -> Words:
        """Returns the characters of up to `count` columns, one row for each lane."""
        return np.stack([self.words(lane, column, count) for lane in range(3)])

    def place(self, lane: int, column: int) -> int:
        """Returns the bit of the lane at which a column begins."""
        return self.starts[lane] + TEN * column
