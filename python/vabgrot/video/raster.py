"""Makes the meter of a reading: where its syncs and rows change, and what its packets say about the raster.

Columns count over all epochs. The syncs are unknown (LOST) in columns that nothing covers and at the end of an epoch. So no line and no
field spans two alignments."""

from __future__ import annotations

import numpy as np

from vabgrot.content import Content, Packets
from vabgrot.events import OF_PACKET, Ints, Kind
from vabgrot.formats.characters import HSYNC, PACKET, VSYNC
from vabgrot.formats.layouts import CARRIED, LAYOUTS, Type
from vabgrot.formats.names import DEPTHS
from vabgrot.reading import Reading
from vabgrot.video.timings import LOST, Avi, Meter

UNKNOWN = -1  # the syncs of a column that are not known
ROWS_LOST = (Kind.NOISE, Kind.BROKEN, Kind.LONG_LINE, Kind.EMPTY)  # faults that may remove a row or add one
LEAST_AVI = LAYOUTS["avi"].fields["PR"].byte  # an AVI InfoFrame with this many bytes includes the pixel repetition


def syncs_of(reading: Reading) -> tuple[Ints, Ints]:
    """Returns the columns at which the syncs are reported, and the values there (HSYNC plus twice VSYNC). UNKNOWN marks where they stop
    being known."""
    events, at = reading.events, reading.at
    runs, bounds, packets = events.of(Kind.RUN), events.of(Kind.OPEN, Kind.CLOSE), events.of(Kind.PACKET)
    columns, values = [at[runs], at[bounds], at[bounds] + 1], [events.value[runs] & 3, events.value[bounds], events.second[bounds]]
    if len(packets):
        carried = events.octets(packets)[:, CARRIED:].astype(np.int64)
        alike = (carried == carried[:, :1]).all(axis=1)
        columns += [at[packets[alike]], (at[packets[~alike], None] + np.arange(PACKET)).reshape(-1)]
        values += [carried[alike, 0], carried[~alike].reshape(-1)]
    unknown = np.unique(np.concatenate([reading.gaps[:, 0], reading.tails[:, 0], [one.before for one in reading.epochs]]).astype(np.int64))
    whole, its = np.concatenate(columns), np.concatenate(values)
    for begin, end in reading.tails.tolist():
        is_trusted = (whole < begin) | (whole >= end)
        whole, its = whole[is_trusted], its[is_trusted]
    whole, its = np.concatenate((unknown, whole)), np.concatenate((np.full(len(unknown), UNKNOWN, np.int64), its))
    order = np.argsort(whole, kind="stable")
    return whole[order], its[order]


def entries(columns: Ints, values: Ints, bit: int) -> Ints:
    """Returns the changes of one sync. Each is four times its column, plus its level or LOST."""
    levels = np.where(values == UNKNOWN, LOST, values // bit & 1)
    keep = np.ones(len(levels), bool)
    keep[1:] = (levels[1:] != levels[:-1]) | (levels[1:] == LOST)
    changes: Ints = columns[keep] << 2 | levels[keep]
    return changes


def damaged_words(reading: Reading) -> tuple[Ints, Ints]:
    """Returns the columns with damaged syncs, and for each the column from which they are known again. After a damaged guard band that is
    the end of its row."""
    events, at = reading.events, reading.at
    rows, faults = events.of(Kind.LINE), events.of(Kind.GUARD, Kind.WORD)
    words = at[faults[(events.kind[faults] == Kind.GUARD) | (events.value[faults] == 0)]]
    known = words + 1
    if len(rows):
        place = np.minimum(np.searchsorted(at[rows], known), len(rows) - 1)
        is_row = at[rows][place] == known
        known[is_row] = (at + events.width)[rows][place[is_row]]
    return words, known


def hurt_of(content: Content) -> Ints:
    """Returns the columns at which damage may have removed or added a row or a sync."""
    reading = content.reading
    lost = reading.at[reading.events.of(*ROWS_LOST)]
    begins = [reading.gaps[:, 0], reading.tails[:, 0], [one.before for one in reading.epochs[1:]]]
    return np.unique(np.concatenate([lost, *begins]).astype(np.int64))


def avis_of(packets: Packets) -> list[tuple[int, Avi]]:
    """Returns what the AVI InfoFrames say. One with a wrong checksum is ignored."""
    avis = packets.of(Type.AVI)
    both = zip(avis.at.tolist(), avis)
    return [(at, Avi(it.number("VIC"), it.number("PR"))) for at, it in both if not it.total and it.length >= LEAST_AVI]


def depths_of(packets: Packets) -> list[tuple[int, int]]:
    """Returns the bits of a pixel according to the General Control packets."""
    controls = packets.of(Type.CONTROL)
    depths = ((at, it.number("CD")) for at, it in zip(controls.at.tolist(), controls))
    return [(at, DEPTHS[depth]) for at, depth in depths if depth in DEPTHS]


def meter_of(content: Content) -> Meter:
    """Measures a reading."""
    reading = content.reading
    events, at = reading.events, reading.at
    columns, values = syncs_of(reading)
    rows = events.of(Kind.LINE)
    words, known = damaged_words(reading)
    return Meter(
        hsync=entries(columns, values, HSYNC),
        vsync=entries(columns, values, VSYNC),
        firsts=(at + events.width - events.value)[rows],
        widths=events.value[rows],
        levels=values[np.searchsorted(columns, at[rows], "right") - 1] if len(rows) else rows,
        words=words,
        known=known,
        damaged=at[events.of(*OF_PACKET)],
        slips=np.array([one.before for one in reading.epochs if one.cause is not None], np.int64),
        hurt=hurt_of(content),
        flawed=np.unique(at[events.of(Kind.WORD)]),
        avis=avis_of(content.packets),
        depths=depths_of(content.packets),
        next=reading.columns,
    )
