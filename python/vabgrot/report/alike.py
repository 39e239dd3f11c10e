"""Finds equal frames: those with the same rows."""

import hashlib
from collections import deque
from collections.abc import Hashable, Sequence
from dataclasses import dataclass

MOST_KEPT = 8  # different frames whose rows are kept for comparison; for older ones only a checksum is kept
SAMPLES = 16  # rows that are compared first, to find frames that may be equal

Rows = Sequence[bytes]


@dataclass
class Known:
    """A frame's number, and its rows or their checksum."""

    number: int
    rows: Rows
    summed: bytes = b""

    def let_go(self) -> None:
        """Replaces the rows by their checksum."""
        self.summed, self.rows = sum_of(self.rows), ()


def sum_of(rows: Rows) -> bytes:
    """Returns a checksum. It distinguishes different frames of one size."""
    found = hashlib.blake2b()
    for row in rows:
        found.update(row)
    return found.digest()


class Alike:
    """Numbers the different frames from 0."""

    def __init__(self) -> None:
        self.count = 0
        self.known: dict[Hashable, list[Known]] = {}
        self.kept: deque[Known] = deque()

    def number(self, key: Hashable, rows: Rows) -> tuple[int, bool]:
        """Returns the number of a frame, and whether it is new. All rows of the frame have one width. Frames with different keys are
        different."""
        sampled = hash(tuple(rows[:: max(1, len(rows) // SAMPLES)]))
        those = self.known.setdefault((key, len(rows), sampled), [])
        summed = sum_of(rows) if any(one.summed for one in those) else b""
        for one in those:
            if one.summed == summed if one.summed else one.rows == rows:
                return one.number, False
        found = Known(self.count, rows)
        self.count += 1
        those.append(found)
        self.kept.append(found)
        if len(self.kept) > MOST_KEPT:
            self.kept.popleft().let_go()
        return found.number, True
