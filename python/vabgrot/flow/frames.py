"""Finds the frames of a live link: the rows between two changes of VSYNC."""

from __future__ import annotations

from collections.abc import Iterator
from dataclasses import dataclass, field
from fractions import Fraction
from typing import NamedTuple

import numpy as np

from vabgrot.content import Packets, Vsync
from vabgrot.events import ENDS, Kind, Octets
from vabgrot.flow.parts import Part
from vabgrot.formats.faults import OF_PICTURE
from vabgrot.formats.layouts import Type
from vabgrot.video.signals import Signals
from vabgrot.video.weaving import lines_down

MOST_ROWS = 1 << 13  # the most rows of a frame; every format has fewer
HURTS = np.array([kind.word in OF_PICTURE for kind in Kind])


@dataclass(eq=False)
class Frame:
    """The rows between two changes of VSYNC, which are at `begin` and `end`. `before` is the change before these, or None if it was not
    seen. `firsts` are the columns of the first pixels of the first two rows. `faults` are those that touch the frame."""

    before: int | None
    begin: int
    end: int = 0
    rows: list[Octets] = field(default_factory=list)
    firsts: list[int] = field(default_factory=list)
    faults: int = 0

    @property
    def width(self) -> int:
        """The columns of the first row."""
        return len(self.rows[0]) // 3

    @property
    def across(self) -> int:
        """The columns from one row to the next, or 0 if there is only one row."""
        return self.firsts[1] - self.firsts[0] if len(self.firsts) > 1 else 0

    @property
    def period(self) -> int | None:
        """The columns between two changes of VSYNC in the same direction, the second of which ends the frame. None if not known."""
        return None if self.before is None else self.end - self.before

    @property
    def lines_down(self) -> Fraction | None:
        """The lines from the change of VSYNC to the first row."""
        return lines_down(self.begin, [*self.firsts])

    def columns(self) -> Octets:
        """Returns the columns as an array of the shape (rows, columns, 3). It is as wide as the first row. Shorter rows are padded with
        black."""
        size = len(self.rows[0])
        if any(len(row) != size for row in self.rows):
            found = np.zeros((len(self.rows), size), np.uint8)
            for to, row in zip(found, self.rows):
                to[: len(row)] = row[:size]
            return found.reshape(len(self.rows), -1, 3)
        return np.concatenate(self.rows).reshape(len(self.rows), -1, 3)


class Stretch(NamedTuple):
    """Some events of a part, and the whole frame that ends directly after them, if any."""

    part: Part
    begin: int
    stop: int
    frame: Frame | None = None

    @property
    def packets(self) -> Packets:
        """The packets of these events."""
        return self.part.among(self.begin, self.stop)


class Framer:
    """Splits parts at the ends of frames. A slip ends a frame, which is then incomplete."""

    def __init__(self) -> None:
        self.vsync = Vsync()
        self.frame: Frame | None = None
        self.last: int | None = None  # the column of the last change
        self.left = 0  # rows of incomplete frames

    def take(self, part: Part) -> Iterator[Stretch]:
        """Takes the next part. Yields its stretches."""
        begin, ends = 0, (part.events.of(*ENDS) + 1).tolist()
        for stop in dict.fromkeys([*ends, len(part)]):
            first = begin
            for place, streak in self.vsync.changes(part.events[begin:stop]):
                place += first
                column = int(part.at[place] + part.events.width[place]) - streak
                self.add(part, begin, place)
                yield Stretch(part, begin, place, self.ended(column))
                self.frame, self.last, begin = Frame(self.last, column), column, place
            self.add(part, begin, stop)
            yield Stretch(part, begin, stop)
            if stop in ends:
                self.finish()
            begin = stop

    def add(self, part: Part, begin: int, stop: int) -> None:
        """Adds rows to the current frame."""
        frame, its = self.frame, part.events
        lines = begin + np.flatnonzero(its.kind[begin:stop] == Kind.LINE)
        if frame is None:
            self.left += len(lines)
            return
        if len(frame.firsts) < 2:
            ends, pixels = (part.at + its.width)[lines[:2]], its.value[lines[:2]]
            frame.firsts = [*frame.firsts, *(ends - pixels).tolist()][:2]
        from_row = begin if frame.rows else int(lines[0]) if len(lines) else stop
        frame.faults += int(HURTS[its.kind[from_row:stop]].sum())
        places = zip(its.offset[lines].tolist(), its.size[lines].tolist())
        frame.rows += [its.data[at : at + size] for at, size in places]
        if len(frame.rows) > MOST_ROWS:
            self.left += len(frame.rows)
            self.frame = None

    def ended(self, column: int) -> Frame | None:
        """Returns the frame that ends at a column, or None if it has no rows."""
        if self.frame is None or not self.frame.rows:
            return None
        self.frame.end = column
        return self.frame

    def finish(self) -> None:
        """Drops the frame that does not end."""
        self.left += len(self.frame.rows) if self.frame else 0
        self.vsync, self.frame, self.last = Vsync(), None, None


def learn(signals: Signals, packets: Packets) -> None:
    """Passes to `signals` what packets say about the pixels."""
    known = packets.known
    for packet in known[np.isin(known.kind, (Type.AVI, Type.CONTROL))]:
        signals.take_packet(packet)
