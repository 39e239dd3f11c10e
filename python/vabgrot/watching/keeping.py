"""The last seconds of the bits of a link, so that what was before a stop can be written as a capture."""

from __future__ import annotations

import time
from collections import deque
from collections.abc import Sequence
from pathlib import Path
from typing import NamedTuple

import numpy as np

from vabgrot import capture
from vabgrot.capture import BLOCK
from vabgrot.events import Octets
from vabgrot.replacing import replacing

BYTE = 8
MOST = capture.MOST_BITS // BYTE // BLOCK  # blocks of a lane of a capture


class Piece(NamedTuple):
    """Blocks of the three lanes, and when they came."""

    at: float
    blocks: int
    lanes: tuple[Octets, ...]


class Kept:
    """Keeps the whole blocks of so many seconds, and at most as many as a capture can have."""

    def __init__(self, seconds: float) -> None:
        self.seconds = seconds
        self.pieces: deque[Piece] = deque()
        self.blocks = 0

    def add(self, lanes: Sequence[Octets]) -> None:
        """The next bytes of each lane: as many blocks as all three have."""
        now, count = time.monotonic(), min(map(len, lanes)) // BLOCK
        if not count:
            return
        self.pieces.append(Piece(now, count, tuple(lane[: count * BLOCK].copy() for lane in lanes)))
        self.blocks += count
        while len(self.pieces) > 1 and (self.pieces[1].at <= now - self.seconds or self.blocks > MOST):
            self.blocks -= self.pieces.popleft().blocks

    def write(self, path: Path) -> int:
        """Writes them as a capture; answers how many bits each lane has."""
        bits = BYTE * BLOCK * self.blocks
        with replacing(path) as file:
            file.write(capture.head_of([bits]))
            for piece in self.pieces:
                file.write(np.stack([lane.reshape(-1, BLOCK) for lane in piece.lanes], axis=1).data)
        return bits
