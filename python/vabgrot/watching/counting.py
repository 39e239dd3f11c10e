"""What is counted of all events of a link: columns, frames, faults, and packets as they stand."""

from __future__ import annotations

from collections import Counter, deque
from collections.abc import Callable
from dataclasses import dataclass, field

import numpy as np

from vabgrot.content import Vsync, packets_of
from vabgrot.events import ENDS, IS_LANED, WORDS, Event, Events, Ints, Kind
from vabgrot.formats.characters import LANES
from vabgrot.formats.layouts import CARRIED, Type
from vabgrot.reading import openings_of

Key = tuple[str, int | None]  # the kind of a fault, and its lane
KINDS = WORDS[Kind.WORD :]  # of faults
FLEETING = (Type.NULL, Type.SAMPLES, Type.ONE_BIT, Type.DST, Type.HIGH_RATE)  # packets that do not stand
LAST = 10  # faults that are kept
ASTRAY = 10  # openings one after another without a whole guard band: one wrong bit in a thousand makes so many once in a year
WAYS = len(LANES) + 1  # a fault has one of the lanes, or none
Ear = Callable[[Events], None]


@dataclass
class Fit:
    """Whether rows and islands open as they should in an epoch: how many, one after another up to now, have no whole guard band."""

    missing: int = ASTRAY
    is_known: bool = False  # whether anything opened

    @property
    def fits(self) -> bool:
        """Whether one of the last openings has a whole guard band."""
        return self.missing < ASTRAY

    @property
    def may_fit(self) -> bool:
        """The same, or nothing opened yet."""
        return self.fits or not self.is_known

    def take(self, events: Events) -> list[tuple[int, bool]]:
        """The next events: the places at which they begin or cease to fit, and whether they do."""
        places, whole = openings_of(events)
        if not len(whole):
            return []
        numbers = np.arange(len(whole))
        last = np.maximum.accumulate(np.where(whole, numbers, -1))
        missing = np.where(last < 0, self.missing + numbers + 1, numbers - last)
        fits = missing < ASTRAY
        changes = np.flatnonzero(np.diff(fits, prepend=self.fits))
        self.missing, self.is_known = int(missing[-1]), True
        return [*zip(places[changes].tolist(), fits[changes].tolist())]


@dataclass
class Count:
    """Takes the events of a link, and counts. `columns` are those of the epoch that goes on, `before` those of the epochs before it."""

    columns: int = 0
    before: int = 0
    epoch: int = 0
    is_heard: bool = False  # whether this epoch has columns
    was_aligned: bool = False  # in any epoch
    fit: Fit = field(default_factory=Fit)
    times: Ints = field(default_factory=lambda: np.zeros(len(Kind) * WAYS, np.int64))  # of faults, by kind and lane
    last: deque[Event] = field(default_factory=lambda: deque(maxlen=LAST))
    kept: dict[int, bytes] = field(default_factory=dict)  # of each type the last packet that no block is lost of: its header, its bodies
    slip: Event | None = None  # the last slip or relock
    frames: int = 0  # whole frames: the rows between two changes of VSYNC
    vsync: Vsync = field(default_factory=Vsync)
    is_begun: bool = False  # whether VSYNC changed in this epoch
    rows: int = 0  # since it did

    @property
    def is_aligned(self) -> bool:
        """Whether the lanes are aligned, as far as openings tell."""
        return self.is_heard and self.fit.may_fit

    @property
    def total(self) -> int:
        """The faults of all kinds."""
        return int(self.times.sum())

    @property
    def faults(self) -> Counter[Key]:
        """How many faults of each kind and lane there were."""
        return counter_of(self.times)

    @property
    def standing(self) -> dict[int, bytes]:
        """The last packet of each type that no block was lost of, except those of sound: its header and its bodies."""
        return dict(sorted(self.kept.items()))

    def take(self, events: Events, ear: Ear | None = None) -> None:
        """The next events. The ear is told the faults."""
        faults, begin = events.faults, 0
        for end in [*events.of(*ENDS).tolist(), len(events)]:
            self.part(events[begin:end])
            if end < len(events):
                self.restart(events.view(end))
            begin = end + 1
        self.last.extend(events.views(faults[-LAST:]))
        if ear and len(faults):
            ear(events[faults])
        kinds = events.kind[faults].astype(np.int64)
        lanes = np.where(IS_LANED[kinds], events.value[faults], -1)
        self.times += np.bincount(kinds * WAYS + lanes + 1, minlength=len(self.times))
        self.stand(events)

    def part(self, events: Events) -> None:
        """Events of one epoch."""
        if not len(events):
            return
        self.is_heard = self.was_aligned = True
        self.fit.take(events)
        self.columns = max(self.columns, int(events.end.max()))
        lines, at = events.of(Kind.LINE), 0
        for place, _ in self.vsync.changes(events):
            behind = int(np.searchsorted(lines, place))
            self.frames += self.is_begun and self.rows + behind - at > 0
            self.is_begun, self.rows, at = True, 0, behind
        self.rows += len(lines) - at

    def restart(self, slip: Event) -> None:
        """A slip or a relock: the columns are counted anew."""
        self.slip, self.epoch, self.before = slip, self.epoch + 1, self.before + self.columns
        self.columns, self.is_heard, self.fit, self.vsync, self.is_begun, self.rows = 0, False, Fit(), Vsync(), False, 0

    def stand(self, events: Events) -> None:
        """Keeps the last packet of each type that no block is lost of."""
        known = packets_of(events).known
        for kind in set(known.kind.tolist()) - set(FLEETING):
            self.kept[kind] = known.octets[np.flatnonzero(known.kind == kind)[-1], :CARRIED].tobytes()


def counter_of(times: Ints) -> Counter[Key]:
    """How many faults of each kind and lane are in an array of Count."""
    places = np.flatnonzero(times)
    keys = ((WORDS[place // WAYS], None if place % WAYS == 0 else place % WAYS - 1) for place in places.tolist())
    return Counter(dict(zip(keys, times[places].tolist())))
