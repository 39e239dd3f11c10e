"""The record of a capture that the rules use. Columns count over all epochs."""

from __future__ import annotations

from dataclasses import dataclass
from functools import cached_property
from typing import NamedTuple

import numpy as np

from vabgrot.content import Content
from vabgrot.events import Ints
from vabgrot.judging.spans import Spans, spans_of
from vabgrot.packets import Packet
from vabgrot.video.timings import Meter


class Placed(NamedTuple):
    """A packet, its first column, and whether all its blocks are known."""

    at: int
    packet: Packet
    is_whole: bool


class Flaw(NamedTuple):
    """A fault line: its column, and its lane (-1 if it has none)."""

    at: int
    lane: int


@dataclass(frozen=True, eq=False)
class Record:
    """Where HSYNC, VSYNC and rows change, the kind of each column, and the packets."""

    meter: Meter
    spans: Spans
    packets: list[Placed]

    @property
    def columns(self) -> int:
        """The number of columns from the first aligned one."""
        return self.spans.columns

    @property
    def rows(self) -> int:
        """The number of rows of pixels."""
        return len(self.spans.rows[0])

    @property
    def islands(self) -> Ints:
        """The first columns of islands."""
        return self.spans.opens

    @cached_property
    def periods(self) -> tuple[Ints, Ints]:
        """The first columns of control periods, and their lengths."""
        at, counts, _ = self.spans.runs
        first = np.flatnonzero(np.concatenate(([True], at[1:] != at[:-1] + counts[:-1]))) if len(at) else np.zeros(0, np.int64)
        return at[first], np.add.reduceat(counts, first) if len(first) else counts

    @cached_property
    def flaws(self) -> dict[str, list[Flaw]]:
        """The fault lines by kind."""
        found: dict[str, list[Flaw]] = {}
        for kind, at, numbers in self.spans.faults:
            found.setdefault(kind, []).append(Flaw(at, numbers[0] if kind in ("word", "code") else -1))
        return found


def record_of(content: Content, meter: Meter) -> Record:
    """Makes the record of a capture."""
    reading, packets = content.reading, content.packets
    heard = [Placed(at, packet, not lost) for at, packet, lost in zip(packets.at.tolist(), packets, packets.lost.tolist())]
    return Record(meter, spans_of(reading.events, reading.at, reading.columns, reading.is_dvi), heard)
