"""Finds bursts: many faults in a short stretch of columns. A page shows a burst as one item."""

from bisect import bisect_left
from collections.abc import Iterator
from typing import NamedTuple

from vabgrot.formats.characters import LEAST_CONTROL
from vabgrot.formats.faults import ANEW, DENSE
from vabgrot.report.findings import PERIODS, Faults, Periods

CONTROL, VIDEO, PACKET, OPEN, CLOSE = map(PERIODS.index, ("control", "video", "packet", "open", "close"))
NEAR = 64  # the greatest distance of neighbouring faults of a burst, in columns
LEAST, PLACES = 6, 3  # a burst has at least this many fault lines, at this many columns


class Burst(NamedTuple):
    """A burst: its first column, the number of columns up to its last fault, and the numbers of its faults in the order of the listing."""

    at: int
    columns: int
    faults: list[int]


def bursts_of(faults: Faults, periods: Periods) -> list[Burst]:
    """Returns the bursts among the faults of a listing, in the order of their columns. A burst contains no complete row or island, and no
    slip or relock."""
    order = sorted(range(len(faults["at"])), key=faults["at"].__getitem__)
    if not order:
        return []
    certain = list(standing_alone(periods, sorted(faults["at"])))
    groups: list[list[int]] = []
    for number in order:
        at = faults["at"][number]
        last = groups[-1][-1] if groups else number
        is_split = faults["kind"][number] in ANEW or faults["kind"][last] in ANEW
        before = bisect_left(certain, faults["at"][last])
        if not groups or is_split or at - faults["at"][last] > NEAR or before < bisect_left(certain, at):
            groups.append([])
        groups[-1].append(number)
    return [burst for group in groups if (burst := burst_of(faults, group))]


def burst_of(faults: Faults, group: list[int]) -> Burst | None:
    """Returns the burst of a group of faults, or None if there are too few."""
    places = {faults["at"][number] for number in group}
    shows = any(faults["kind"][number] in DENSE for number in group)
    if len(group) < LEAST or len(places) < PLACES or not shows:
        return None
    return Burst(min(places), max(places) - min(places) + 1, sorted(group))


def standing_alone(periods: Periods, faulty: list[int]) -> Iterator[int]:
    """Yields the first columns of complete rows and islands: they have no fault, twelve control columns before them, and one after them."""
    quiet, first = 0, None
    for kind, at, columns in zip(periods["kind"].tolist(), periods["at"].tolist(), periods["columns"].tolist()):
        if kind == CONTROL:
            if first is not None and bisect_left(faulty, first) == bisect_left(faulty, at):
                yield first
            quiet, first = quiet + columns, None
        elif kind in (VIDEO, OPEN):
            first, quiet = (at if quiet >= LEAST_CONTROL else None), 0
        elif kind not in (PACKET, CLOSE):
            quiet, first = 0, None
