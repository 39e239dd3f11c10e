"""Lanes on which nothing comes: their bits do not change any more, as those of a lane that was pulled out."""

from __future__ import annotations

from collections import deque
from collections.abc import Iterator, Sequence
from dataclasses import dataclass, field
from typing import NamedTuple

import numpy as np

from vabgrot.capture import BLOCK
from vabgrot.events import Ints, Octets
from vabgrot.formats.characters import LANES

BYTE, LIVES = 8, -1
MOST = 100  # changes that are kept until they are told


class Change(NamedTuple):
    """A lane that repeats a bit from its bit `at` on, or LIVES again from about there on."""

    lane: int
    bit: int
    at: int

    def __str__(self) -> str:
        if self.bit == LIVES:
            return f"bits come on {LANES[self.lane]} again from about bit {self.at:,} on"
        return f"nothing comes on {LANES[self.lane]}: always {self.bit} from bit {self.at:,} on"


@dataclass
class Stuck:
    """Takes the bytes of three lanes as they come. A lane is dead from a whole block of one value on: no link has so many equal bits."""

    states: list[Change] = field(default_factory=lambda: [Change(lane, LIVES, 0) for lane in range(len(LANES))])
    changes: deque[Change] = field(default_factory=lambda: deque(maxlen=MOST))  # that were not told
    taken: list[int] = field(default_factory=lambda: [0] * len(LANES))  # bytes of each lane
    ends: list[Octets] = field(default_factory=lambda: [np.zeros(0, np.uint8)] * len(LANES))  # their last blocks

    def take(self, lanes: Sequence[Octets]) -> None:
        """The next bytes of each lane: whole blocks, except at the end."""
        for number, lane in enumerate(lanes):
            for change in self.changed(number, lane):
                self.states[number] = change
                self.changes.append(change)
            self.taken[number] += len(lane)
            self.ends[number] = lane[-BLOCK:].copy()

    def changed(self, number: int, lane: Octets) -> Iterator[Change]:
        """The changes of a lane within its next bytes."""
        bits = bits_of(lane)
        for place in np.flatnonzero(np.diff(bits, prepend=self.states[number].bit)).tolist():
            bit, begin = int(bits[place]), place * BLOCK
            if bit != LIVES:
                others = np.flatnonzero(np.concatenate((self.ends[number], lane[:begin])) != lane[begin])
                begin = (int(others[-1]) + 1 if len(others) else 0) - len(self.ends[number])
            yield Change(number, bit, BYTE * (self.taken[number] + begin))

    @property
    def dead(self) -> list[Change]:
        """What is said of the lanes on which nothing comes."""
        return [state for state in self.states if state.bit != LIVES]


def bits_of(lane: Octets) -> Ints:
    """The bit that each block of a lane repeats."""
    blocks = lane[: len(lane) // BLOCK * BLOCK].reshape(-1, BLOCK)
    first, last = blocks[:, 0], blocks[:, -1]
    found = np.full(len(blocks), LIVES, np.int64)
    for place in np.flatnonzero((first == last) & ((last == 0) | (last == 255))).tolist():
        if (blocks[place] == last[place]).all():
            found[place] = int(last[place]) & 1
    return found
