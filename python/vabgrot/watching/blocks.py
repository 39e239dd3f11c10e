"""The bytes of three lanes that come in blocks in turn (docs/guide/FORMATS.md), raw or of a capture, and where they go: a room a lane, into
which a file is read without a copy."""

from __future__ import annotations

import os
from bisect import bisect_left, bisect_right
from collections.abc import Sequence
from functools import partial

import numpy as np

from vabgrot.capture import BLOCK
from vabgrot.events import Octets

BLOCKS = 1024  # of each lane for which there is room: what is done once a room, or once a batch of events, is then done seldom
FEW, MOST = 256, 1024  # rooms of blocks that one call reads into: a pipe has no more than the one, and no call takes more than the other
LANES = 3
WITHOUT_END = 1 << 60  # bytes of a lane of raw blocks: more than come
LONGEST = BLOCKS * BLOCK
Cut = tuple[list[memoryview], list[int], list[int]]  # rooms, where each ends, and where each three end


class Blocks:
    """Room for the next blocks of three lanes, each of which has so many bytes in all."""

    def __init__(self, sizes: Sequence[int] = (WITHOUT_END,) * LANES) -> None:
        self.sizes, self.left = list(sizes), list(sizes)
        self.rooms: list[Octets] = [np.empty(LONGEST, np.uint8) for _ in range(LANES)]
        self.most = FEW
        self.usual: Cut = [], [], []
        self.usual = self.cut([LONGEST] * LANES)
        self.begin()

    def cut(self, sizes: Sequence[int]) -> Cut:
        """The blocks of lanes of so many bytes at most as rooms, in the order of a file; where each room ends, and each three. Those of
        whole blocks of all lanes are the usual ones."""
        views, ends, stops = self.usual
        whole = min(len(stops), min(sizes) // BLOCK)
        views, ends, stops = views[: LANES * whole], ends[: LANES * whole], stops[:whole]
        rooms, end = [room.data for room in self.rooms], LANES * whole * BLOCK
        for at in range(whole * BLOCK, min(LONGEST, max(sizes)), BLOCK):
            for room, size in zip(rooms, sizes):
                if size > at:
                    views.append(room[at : min(at + BLOCK, size)])
                    end += len(views[-1])
                    ends.append(end)
            stops.append(end)
        return views, ends, stops

    def begin(self) -> None:
        """Room for the next ones."""
        self.filled = 0
        is_usual = min(self.left) >= LONGEST
        self.views, self.ends, self.stops = self.usual if is_usual else self.cut([min(LONGEST, size) for size in self.left])

    @property
    def is_full(self) -> bool:
        """Whether nothing more has room, or nothing more is wanted."""
        return not self.ends or self.filled == self.ends[-1]

    @property
    def is_done(self) -> bool:
        """Whether all bytes of all lanes came and were taken out."""
        return not any(self.left)

    def read(self, file: int) -> int:
        """Reads what is there into the room; answers how many bytes came. A file that fills all that one call reads into is given more."""
        at = bisect_right(self.ends, self.filled)
        into = self.filled - (self.ends[at - 1] if at else 0)
        came = os.readv(file, [self.views[at][into:], *self.views[at + 1 : at + self.most]])
        self.filled += came
        self.most = min(2 * self.most, MOST) if self.filled == self.ends[at : at + self.most][-1] else FEW
        return came

    def whole(self) -> int:
        """How many blocks of each lane are there."""
        return bisect_right(self.stops, self.filled)

    def lanes(self, count: int) -> list[Octets]:
        """Of each lane so many blocks, as far as it has them."""
        return [room[: min(count * BLOCK, left)] for room, left in zip(self.rooms, self.left)]

    def place(self, lane: int, at: int) -> int:
        """Where a byte of a lane stands in what comes, from the first one in the room on."""
        block = at // BLOCK * BLOCK
        before = sum(min(left, block) for left in self.left)
        return before + sum(min(BLOCK, max(0, left - block)) for left in self.left[:lane]) + at - block

    def came(self) -> list[int]:
        """How many bytes of each lane came in all."""
        rooms = [range(min(LONGEST, left)) for left in self.left]
        there = [bisect_left(room, self.filled, key=partial(self.place, lane)) for lane, room in enumerate(rooms)]
        return [size - left + more for size, left, more in zip(self.sizes, self.left, there)]

    def take(self, count: int) -> None:
        """So many blocks of each lane are done with: those behind them move up."""
        stop = self.stops[count - 1] if count else 0
        first = bisect_right(self.ends, stop)
        rest = b"".join(self.views[first : first + LANES])[: self.filled - stop] if self.filled > stop else b""
        self.left = [max(0, left - count * BLOCK) for left in self.left]
        self.begin()
        at = 0
        for view in self.views:
            size = min(len(view), len(rest) - at)
            if size <= 0:
                break
            view[:size] = rest[at : at + size]
            at += size
        self.filled = len(rest)

    def last(self) -> list[Octets]:
        """At the end of what comes: of each lane what all three have of blocks that are not whole."""
        behind = self.filled - (LANES - 1) * BLOCK
        return [room[: max(0, behind)] for room in self.rooms]
