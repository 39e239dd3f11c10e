"""Finds which columns of a capture or of one epoch are control columns, guards, pixels and packets."""

from __future__ import annotations

from dataclasses import dataclass

import numpy as np

from vabgrot.events import ENDS, WORDS, Events, Ints, Kind, numbers_of
from vabgrot.reading import Epoch, Reading

Told = tuple[str, int, tuple[int, ...]]  # a fault line: its kind, its column and its numbers


@dataclass(frozen=True, eq=False)
class Spans:
    """The stretches of a capture, by kind:

    - runs of control columns: first columns, lengths, values;
    - rows: columns of the first pixels, widths;
    - packets and the pairs of guard columns of islands: first columns;
    - the fault lines."""

    is_dvi: bool
    runs: tuple[Ints, Ints, Ints]
    rows: tuple[Ints, Ints]
    packets: Ints
    opens: Ints
    closes: Ints
    faults: list[Told]
    columns: int

    @property
    def guards(self) -> tuple[Ints, Ints, Ints]:
        """The first columns of pairs of guard columns: before rows, before islands, and after islands."""
        rows = self.rows[0] - 2 if not self.is_dvi else np.zeros(0, np.int64)
        return rows, self.opens, self.closes

    def of_kind(self, kind: str) -> list[tuple[int, tuple[int, ...]]]:
        """Returns the columns and the numbers of the fault lines of a kind."""
        return [(at, numbers) for name, at, numbers in self.faults if name == kind]


def spans_of(events: Events, first: Ints, columns: int, is_dvi: bool) -> Spans:
    """Makes the spans of some events. Their columns begin at `first`."""
    runs, rows = events.of(Kind.RUN), events.of(Kind.LINE)
    faults = events.faults[~np.isin(events.kind[events.faults], ENDS)]
    packets, opens, closes = (first[events.of(kind)] for kind in (Kind.PACKET, Kind.OPEN, Kind.CLOSE))
    lists = (events.kind[faults].tolist(), first[faults].tolist(), events.value[faults].tolist(), events.second[faults].tolist())
    return Spans(
        is_dvi,
        (first[runs], events.width[runs], events.value[runs]),
        ((first + events.width - events.value)[rows], events.value[rows]),
        packets,
        opens,
        closes,
        [(WORDS[kind], at, numbers_of(kind, at, *more)) for kind, at, *more in zip(*lists)],
        columns,
    )


def epoch_spans(reading: Reading, epoch: Epoch, is_trusted: bool = True) -> Spans:
    """Makes the spans of one epoch. Its columns begin at 0. If `is_trusted` is set, columns between a loss of bits and the slip that
    reports it are left out."""
    ends = dict(zip((one.number for one in reading.epochs), reading.tails[:, 0].tolist()))
    columns = ends[epoch.number] - epoch.before if is_trusted and epoch.number in ends else epoch.columns
    its = reading.events
    events = its[(its.epoch == epoch.number) & ((its.first < columns) | np.isin(its.kind, ENDS))]
    return spans_of(events, events.first, columns, reading.is_dvi)
