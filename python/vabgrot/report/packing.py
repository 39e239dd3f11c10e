"""Packs the table of periods for a page. The page unpacks it (`page/start.js`)."""

from __future__ import annotations

from typing import TypedDict

import numpy as np

from vabgrot.events import Ints
from vabgrot.report.findings import Periods

KIND, VALUE = 3, 16  # bits of a key for the kind, and for kind and value


class Packed(TypedDict):
    """Packed periods: the different ones (kind, columns and value), and for each period the number of its entry. First columns and lines
    of the listing are stored only if they do not follow from the period before."""

    unlike: list[list[int]]
    of: list[int]
    at: list[list[int]]
    line: list[list[int]]


def packed(periods: Periods) -> Packed:
    """Packs the table."""
    kinds, at, columns, lines = periods["kind"], periods["at"], periods["columns"], periods["line"]
    keys, of = np.unique(columns << VALUE | periods["value"] << KIND | kinds, return_inverse=True)
    unlike = np.column_stack([keys & (1 << KIND) - 1, keys >> VALUE, (keys & (1 << VALUE) - 1) >> KIND])
    return {"unlike": unlike.tolist(), "of": of.tolist(), "at": steps(at, columns), "line": steps(lines, np.ones_like(lines))}


def steps(numbers: Ints, behind: Ints) -> list[list[int]]:
    """Returns the numbers that differ from the number before them by another step than `behind` gives, and their places."""
    wanted = np.concatenate((np.full(min(1, len(numbers)), -1), (numbers + behind)[:-1]))
    places = np.flatnonzero(numbers != wanted)
    found: list[list[int]] = np.column_stack([places, numbers[places]]).tolist()
    return found
