"""Readings of listings, for tests of what stands above the receiver: no library and no program is needed."""

from dataclasses import replace

import numpy as np

from vabgrot import listing, reading, verdict
from vabgrot.events import ENDS, UNTOLD
from vabgrot.video.matching import Rate


def lines_of(text):
    """The lines of a listing, numbered from 1."""
    return [(number, *((parts := line.split(" "))[0], parts[1:])) for number, line in enumerate(text.strip().splitlines(), 1)]


def events_of(lines, is_dvi=False):
    """The events of lines. Columns that a listing does not say follow at once."""
    found = listing.parsed(((number, name, list(parts)) for number, (name, *parts) in enumerate(lines, 1)), is_dvi)
    first, at = found.first.copy(), 0
    for place, (kind, width) in enumerate(zip(found.kind.tolist(), found.width.tolist())):
        first[place] = at if first[place] == UNTOLD else first[place]
        at = 0 if kind in ENDS else max(at, int(first[place]) + width)
    return replace(found, first=first, column=np.where(found.column == UNTOLD, first, found.column))


def reading_of(lines, is_dvi=False):
    """What a capture with this listing carries."""
    return reading.part_of(events_of(lines, is_dvi), "dvi" if is_dvi else "track")


def verdict_of(lines, rate=Rate(), is_dvi=False):
    """The verdict on it."""
    return verdict.verdict_of(reading_of(lines, is_dvi), rate)
