"""Finds the skews at which the openings of lines and islands fit, and the skew of the first alignment."""

from collections.abc import Sequence
from itertools import product
from typing import NamedTuple

import numpy as np
import numpy.typing as npt

from vabgrot import capture
from vabgrot.formats.characters import ISLAND_GUARDS_0, ISLAND_PREAMBLE, LEAST_CONTROL, MOST_SKEW, TEN, VIDEO_PREAMBLE
from vabgrot.lanes.looking import GUARD, OTHER, Bits, Ends, Words, ends_of

Places = npt.NDArray[np.int64]  # bits of a lane

MOST_BITS = 1 << 24  # of each lane
FARTHEST = 4095  # the greatest skew to try, in bits
TRIED = 6  # the differences of two lanes that are combined with those of the third
FAR = """From the place {first} of lane 0 on openings fit at the skew {later}, but lanes more than 70 bits apart are not aligned."""


class Fit(NamedTuple):
    """How control periods end if lanes 1 and 2 are `skew` bits later than lane 0.

    `openings` counts complete openings (preamble and guards) of lines and islands, `guards` those with at least the guards. `first` and
    `last` are the places of the first and the last opening on each lane, or None."""

    skew: tuple[int, int]
    openings: int
    guards: int
    first: tuple[int, ...] | None
    last: tuple[int, ...] | None

    @property
    def spread(self) -> int:
        """By how many bits the lanes are apart."""
        return max(0, *self.skew) - min(0, *self.skew)

    @property
    def made_words(self) -> str:
        """The skew as an argument of `make --skew`: for each lane, by how many bits it begins later than the first one."""
        return ",".join(str(max(0, *self.skew) - late) for late in (0, *self.skew))

    @property
    def cut(self) -> tuple[int, ...]:
        """The bits at which to cut the lanes so that they begin with the twelve control characters before the first opening."""
        return tuple(place - TEN * LEAST_CONTROL for place in self.first or ())


class Fits(NamedTuple):
    """Three fits: at the skew of the first full alignment (`found`), at the skew with the most openings (`best`), and at a skew that fits
    only after the last opening of `found` (`later`). `found` and `later` may be None."""

    found: Fit | None
    best: Fit
    later: Fit | None

    @property
    def is_wrong(self) -> bool:
        """Whether some skew has openings, and the first alignment's has none."""
        return self.best.openings > 0 and (self.found is None or self.found.openings == 0)

    @property
    def far(self) -> str | None:
        """A message if openings fit later at a skew that is too large to align, otherwise None."""
        if self.is_wrong or not self.later or not self.later.first or self.later.spread <= MOST_SKEW:
            return None
        return FAR.format(first=f"{self.later.first[0]:,}", later=self.later.made_words)


def beginnings(source: capture.Source, most: int = MOST_BITS, place: int = 0) -> list[Bits]:
    """The bits of the three lanes of a capture from a place on, at most so many of each: arrays of 0 and 1. They end where the file
    does. Refused where its header is none."""
    begin = place // 8 // capture.BLOCK * capture.BLOCK
    with capture.opened(source) as file:
        counts, start = capture.header_of(file.read(16))
        lengths, lanes = [(count + 7) // 8 for count in counts], [bytearray() for _ in counts]
        file.seek(capture.place_of(start, lengths, 0, begin))
        for first in range(begin, min(max(lengths), (place + most) // 8), capture.BLOCK):
            for lane, length in zip(lanes, lengths):
                lane += file.read(min(capture.BLOCK, max(length - first, 0)))
    return [
        np.unpackbits(np.frombuffer(lane, np.uint8), bitorder="little")[place - 8 * begin : min(count, place + most) - 8 * begin]
        for lane, count in zip(lanes, counts)
    ]


def first_alignment(places: list[Places]) -> list[int] | None:
    """Returns the edges of the first full alignment of three lanes (docs/guide/FORMATS.md), or None."""
    for last in np.unique(np.concatenate(places)):
        near = [lane[np.searchsorted(lane, last - MOST_SKEW) : np.searchsorted(lane, last, "right")] for lane in places]
        if all(len(lane) for lane in near):
            return [int(lane[0]) for lane in near]
    return None


def differences(places: Places, others: Places) -> list[int]:
    """Returns the most frequent differences between places of two lanes, up to FARTHEST bits. If two are equally frequent, the smaller
    comes first."""
    first = np.searchsorted(others, places - FARTHEST)
    counts = np.searchsorted(others, places + FARTHEST, "right") - first
    within = np.arange(counts.sum()) - np.repeat(np.cumsum(counts) - counts, counts)
    found, times = np.unique(others[np.repeat(first, counts) + within] - np.repeat(places, counts), return_counts=True)
    best: list[int] = found[np.lexsort((np.abs(found), -times))][:TRIED].tolist()
    return best


def at(ends: Ends, places: Places) -> tuple[Words, Words]:
    """Returns the preamble's and the guard's character of the ends at these places; 0 if there is no end."""
    found = np.searchsorted(ends.places, places)
    found[found == len(ends.places)] = 0
    is_end = ends.places[found] == places
    return ends.preambles[found] * is_end, ends.guards[found] * is_end


def fit_at(ends: Sequence[Ends], skew: tuple[int, int]) -> Fit:
    """Returns how control periods end at a skew."""
    places = ends[0].places
    preamble_1, guard_1 = at(ends[1], places + skew[0])
    preamble_2, guard_2 = at(ends[2], places + skew[1])
    line = (ends[0].guards == GUARD) & (guard_1 == OTHER) & (guard_2 == GUARD)
    island = np.isin(ends[0].guards, ISLAND_GUARDS_0) & (guard_1 == OTHER) & (guard_2 == OTHER)
    is_before = [(preamble_1 == one) & (preamble_2 == two) for one, two in (VIDEO_PREAMBLE, ISLAND_PREAMBLE)]
    right = places[line & is_before[0] | island & is_before[1]]
    guards = int((line | island).sum())
    if not len(right):
        return Fit(skew, 0, guards, None, None)
    first, last = (tuple(int(place + late) for late in (0, *skew)) for place in right[[0, -1]])
    return Fit(skew, len(right), guards, first, last)


def fits(lanes: Sequence[Bits], place: int = 0) -> Fits | None:
    """Returns how the openings of three lanes fit, or None if a lane has no control period that ends. The lanes begin at bit `place` of
    the capture."""
    ends = [its._replace(places=its.places + place) for lane in lanes if (its := ends_of(lane)) and len(its.places)]
    if len(ends) < len(lanes):
        return None
    edges = first_alignment([lane.places for lane in ends])
    found = fit_at(ends, (edges[1] - edges[0], edges[2] - edges[0])) if edges else None
    lines = [lane.places[lane.guards == guard] for lane, guard in zip(ends, (GUARD, OTHER, GUARD))]
    guards = (ISLAND_GUARDS_0, (OTHER,), (OTHER,))
    islands = [lane.places[np.isin(lane.guards, found_in)] for lane, found_in in zip(ends, guards)]
    tried = [dict.fromkeys(differences(lines[0], lines[lane]) + differences(islands[0], islands[lane])) for lane in (1, 2)]
    every = [fit_at(ends, (one, two)) for one, two in product(*tried)] + ([found] if found else [])
    every = every or [fit_at(ends, (0, 0))]

    def order(fit: Fit) -> tuple[int, int, bool, int]:
        return fit.openings, fit.guards, fit is found, -fit.spread

    last = found.last[0] if found and found.last else None
    behind = [fit for fit in every if last is not None and fit.openings > 1 and fit.first and fit.first[0] > last]
    return Fits(found, max(every, key=order), max(behind, key=order) if behind else None)
