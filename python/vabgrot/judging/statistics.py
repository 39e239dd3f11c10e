"""Rates with confidence limits, and a test whether damage is clustered."""

from __future__ import annotations

from collections import Counter
from typing import NamedTuple

import numpy as np
from scipy import stats

from vabgrot.judging.damage import Hit
from vabgrot.judging.places import rows_of as row_numbers
from vabgrot.judging.spans import Spans
from vabgrot.lanes.coding import Ints

CHANCE = 1e-4  # a cluster is reported if chance makes it less often than this
LEAST = 5  # fewer damaged characters are not tested for clusters
NEAR = 64  # damage within this many columns is a burst


class Limits(NamedTuple):
    """A rate and its confidence limits."""

    lower: float
    upper: float
    confidence: float


def limits_of(wrong: int, of: int, confidence: float) -> Limits:
    """Returns the exact limits by Clopper and Pearson, if `wrong` of `of` were wrong."""
    half = (1 - confidence) / 2
    lower = float(stats.beta.ppf(half, wrong, of - wrong + 1)) if wrong else 0.0
    upper = float(stats.beta.ppf(1 - half, wrong + 1, of - wrong)) if wrong < of else 1.0
    return Limits(lower, upper, confidence)


def is_more(times: int, of: int, share: float, tried: int) -> bool:
    """Returns whether one of `tried` groups has more than chance explains. Each group should have a `share` of `of`."""
    return float(stats.binom.sf(times - 1, of, share)) * tried < CHANCE


def clusters_of(hits: list[Hit], exposed: dict[str, int], spans: Spans) -> list[str]:
    """Says where damage is clustered. Returns nothing if it is not, or if there is too little damage."""
    if len(hits) < LEAST:
        return []
    found, count, every = [], len(hits), sum(exposed.values())
    for lane, times in sorted(Counter(hit.lane for hit in hits).items()):
        if is_more(times, count, 1 / 3, 3):
            found.append(f"closer than chance: lane {lane} has {times:,} of {count:,}")
    for kind, times in sorted(Counter(hit.kind for hit in hits).items()):
        if exposed[kind] and is_more(times, count, exposed[kind] / every, len(exposed)):
            found.append(f"closer than chance: {kind} columns have {times:,} of {count:,}, and are {exposed[kind] / every:.0%} of all")
    columns = np.array([hit.column for hit in hits], np.int64)
    return found + bursts_of(columns, every) + rows_of(columns, spans)


def bursts_of(columns: Ints, every: int) -> list[str]:
    """Says whether damage appears in bursts: within NEAR columns of the damage before."""
    near = int((np.diff(columns) <= NEAR).sum())
    share = -np.expm1(-NEAR * len(columns) / every)
    if not is_more(near, len(columns) - 1, float(share), 1):
        return []
    return [f"closer than chance: {near:,} of {len(columns):,} lie within {NEAR} columns of the one before"]


def rows_of(columns: Ints, spans: Spans) -> list[str]:
    """Says whether one row or one column of the picture has more damage than chance explains."""
    firsts, widths = spans.rows
    if len(firsts) < 2:
        return []
    row = np.searchsorted(firsts, columns, "right") - 1
    inside = (row >= 0) & (columns < firsts[row] + widths[row])
    number = row_numbers(firsts).numbers
    count = int(inside.sum())
    found = []
    for name, places, groups in (
        ("row", number[row[inside]], int(number.max()) + 1),
        ("pixel", columns[inside] - firsts[row[inside]], int(widths.max())),
    ):
        if count >= LEAST:
            values, times = np.unique(places, return_counts=True)
            at = int(times.argmax())
            if times[at] > 2 and is_more(int(times[at]), count, 1 / groups, groups):
                found.append(f"closer than chance: {name} {int(values[at]):,} of the picture has {int(times[at]):,} of {count:,}")
    return found
