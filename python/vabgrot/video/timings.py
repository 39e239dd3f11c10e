"""Measures the timing of a capture: the parts of its lines and fields, the polarity of its sync pulses, and how steady they are."""

from __future__ import annotations

from collections.abc import Callable, Iterator, Sequence
from dataclasses import dataclass, field
from typing import NamedTuple

import numpy as np
import numpy.typing as npt

from vabgrot.events import Ints
from vabgrot.formats.characters import PACKET

PARTS = ("active", "front porch", "sync", "back porch", "total")
DEPTH = 24  # the bits of a pixel if it takes one column
LOST = 2  # instead of a level: some columns before the next change are not known
STABLE = 16  # a width or polarity counts as new if this many rows in succession have it
GLITCH = 2  # columns; a shorter change within a damaged packet is no sync pulse


class Place(NamedTuple):
    """A place: its column, and its line in the field, counted from 1 (None if not known)."""

    column: int
    line: int | None


@dataclass(frozen=True)
class Figure:
    """A number of a raster: its most frequent value and how many lines or fields have it. `others` counts those with a different value;
    the first of these is given with its place.

    Horizontal numbers are in columns, vertical ones in lines. They are whole numbers; vertical ones may be halves."""

    value: float
    times: int
    others: int = 0
    other: float | None = None
    place: Place | None = None


@dataclass(frozen=True)
class Raster:
    """What all fields of one size have in common. Numbers that were not seen are missing.

    - `size`: pixels of a row and rows of a field; None if no field is complete.
    - `down`: one item, or two if the fields are interlaced. The first is for fields that begin with HSYNC, the second for those that
      begin half a line later.
    - `late`: by how many columns VSYNC changes after an edge of HSYNC, or after the middle between two.
    - `wide`, `tall`: whether HSYNC and VSYNC are positive; None if they do not change.
    - `absent`: the syncs that do not change although there are rows, or blank lines between rows.
    - `bits`: bits of a pixel. If they are more than 24, `size`, `across` and `columns` count pixels, not columns of the listing.
    - `spans`: for each field its first column and the column after its last."""

    size: tuple[int, int | None]
    fields: int
    interlaced: bool | None
    across: dict[str, Figure]
    down: tuple[dict[str, Figure], ...]
    wide: bool | None
    tall: bool | None
    late: Figure | None
    absent: tuple[str, ...]
    bits: int
    spans: tuple[tuple[int, int], ...]

    @property
    def columns(self) -> float | None:
        """The columns of a field; for interlaced video the mean of both kinds. None if they were not seen."""
        totals = [part["total"].value for part in self.down if "total" in part]
        if "total" not in self.across or not totals or len(totals) < len(self.down):
            return None
        return self.across["total"].value * sum(totals) / len(totals)


class Avi(NamedTuple):
    """The fields of an AVI InfoFrame that matter here: the video identification code, and the pixel repetition (0 if pixels are sent
    once)."""

    vic: int
    repetition: int


@dataclass
class Field:
    """The columns from one leading edge of VSYNC to the next, or to the place where the syncs stop being known."""

    begin: int
    stop: int
    lead: int | None
    trail: int | None
    end: int | None
    rows: slice = field(default_factory=lambda: slice(0, 0))
    is_hurt: bool = False

    @property
    def is_whole(self) -> bool:
        """Whether the field has rows and all of them were seen."""
        return not self.is_hurt and self.trail is not None and self.end is not None and self.rows.stop > self.rows.start


@dataclass(frozen=True, eq=False)
class Meter:
    """The places where HSYNC, VSYNC and rows change, in columns over all epochs. A change is four times its column, plus its level or
    LOST."""

    hsync: Ints
    vsync: Ints
    firsts: Ints  # rows: the columns of their first pixels, their widths, and the syncs before them
    widths: Ints
    levels: Ints
    words: Ints  # damaged columns, and the columns from which the syncs are known again
    known: Ints
    damaged: Ints  # packets with a fault: their first columns
    slips: Ints  # the first columns after slips
    hurt: Ints  # columns at which damage may have removed or added a row
    flawed: Ints  # damaged control columns: they may have moved the begin or end of a row
    avis: list[tuple[int, Avi]]
    depths: list[tuple[int, int]]  # columns, and the bits of a pixel from then on
    next: int  # the column after the last one


class Edges(NamedTuple):
    """The changes of one sync: columns, levels (or LOST), whether the change itself was seen, and whether damage may have moved it. All
    arrays have one length."""

    columns: Ints
    levels: Ints
    seen: npt.NDArray[np.bool_]
    doubtful: npt.NDArray[np.bool_]


class Lines(NamedTuple):
    """The leading edges of HSYNC (`leads`), and the lines between two of them that were seen completely. For each line: its first column,
    its parts (`sync`, `total`), its row (-1 if it has none), and whether the parts are certain."""

    leads: Ints
    start: Ints
    trail: Ints
    end: Ints
    row: Ints
    sure: npt.NDArray[np.bool_]


def spans(begins: Ints, ends: Ints) -> Ints:
    """Returns the union of the intervals from `begins` to `ends` (exclusive) as sorted rows without overlaps."""
    if not len(begins):
        return np.zeros((0, 2), np.int64)
    order = np.argsort(begins, kind="stable")
    begins, ends = begins[order], np.maximum.accumulate(ends[order])
    first = np.flatnonzero(np.concatenate((np.array([True]), begins[1:] > ends[:-1])))
    return np.column_stack([begins[first], ends[np.append(first[1:], len(begins)) - 1]])


def within(columns: Ints, places: Ints) -> tuple[Ints, npt.NDArray[np.bool_]]:
    """Returns for each column the last span that begins at or before it, and whether the column is in that span or directly after it."""
    span = np.searchsorted(places[:, 0], columns, "right") - 1
    return span, (span >= 0) & (columns <= places[np.maximum(span, 0), 1])


def without_pulses(entries: Ints, places: Ints, most: int) -> Ints:
    """Removes pulses that damage made: a value that changes and returns within one of these spans and lasts at most `most` columns."""
    if not len(places) or len(entries) < 3:
        return entries
    columns, known = entries >> 2, entries & 3 != LOST
    span, inside = within(columns, places)
    short = (np.diff(columns) <= most) & inside[:-1] & inside[1:] & (span[:-1] == span[1:]) & known[:-1] & known[1:]
    keep = np.ones(len(entries), bool)
    for place in np.flatnonzero(short).tolist():
        if place and known[place - 1] and keep[place]:
            keep[place : place + 2] = False
    kept: Ints = entries[keep]
    return kept


def period_of(hsync: Edges) -> int:
    """Returns the columns of a line: the most frequent distance of two leading edges of HSYNC, or 0 if there are no two."""
    rises = hsync.columns[hsync.seen & (hsync.levels == 1)]
    apart, counts = np.unique(np.diff(rises), return_counts=True)
    return int(apart[np.argmax(counts)]) if len(apart) else 0


def without_gaps(entries: Ints, most: int, slips: Ints) -> tuple[list[int], dict[int, int]]:
    """Removes unknown stretches of at most `most` columns, unless a lane slips there. Also returns where each removed stretch began, by
    the column after it."""
    kept: list[int] = []
    gaps: dict[int, int] = {}
    for entry in entries.tolist():
        if len(kept) > 1 and kept[-1] & 3 == LOST != entry & 3:
            begin, column = kept[-1] >> 2, entry >> 2
            has_slip = np.searchsorted(slips, begin) < np.searchsorted(slips, column, "right")
            if column - begin <= most and not has_slip:
                kept.pop()
                gaps[column] = begin
        if not kept or kept[-1] & 3 != entry & 3:
            kept.append(entry)
    return kept, gaps


def without_short(entries: list[int], most: int) -> list[int]:
    """Removes glitches: a value that lasts at most `most` columns between two equal values. Unknown values stay."""
    kept: list[int] = []
    for entry in entries:
        if len(kept) > 1 and LOST != kept[-2] & 3 == entry & 3 != kept[-1] & 3 != LOST and (entry >> 2) - (kept[-1] >> 2) <= most:
            kept.pop()
        elif not kept or kept[-1] & 3 != entry & 3:
            kept.append(entry)
    return kept


def held(entries: Ints, period: int, slips: Ints) -> Ints:
    """Returns the changes of VSYNC without errors. Values that last less than a line are removed, the shortest first: one wrong bit can
    change VSYNC, and a row keeps the wrong value to its end. An unknown stretch of up to one and a half lines does not end a value
    either."""
    kept, gaps = without_gaps(entries, 3 * period // 2, slips)
    for most in (GLITCH, period - 1):
        kept = without_short(kept, most)
    found = [it for entry in kept for it in ([gaps[entry >> 2] << 2 | LOST] if entry >> 2 in gaps else []) + [entry]]
    return np.array(found, np.int64)


def edges(entries: Ints, words: Ints, damaged: Ints) -> Edges:
    """Returns the changes of a sync without those that damaged control characters and packets made."""
    entries = without_pulses(entries, words, np.iinfo(np.int64).max)
    entries = without_pulses(entries, damaged, GLITCH)
    columns, levels = entries >> 2, entries & 3
    known = levels != LOST
    seen = known & np.concatenate(([False], known[:-1]))
    doubtful = np.zeros(len(entries), bool)
    for places in (words, damaged):
        if len(places):
            doubtful |= within(columns, places)[1]
    return Edges(columns, levels, seen, doubtful)


def lines_of(hsync: Edges, active: int, firsts: Ints) -> Lines:
    """Returns the lines of a raster whose HSYNC pulses have the level `active`, with the first row of each."""
    leads = np.flatnonzero(hsync.seen & (hsync.levels == active))
    whole = leads[leads + 2 < len(hsync.columns)]
    whole = whole[(hsync.levels[whole + 1] != LOST) & (hsync.levels[whole + 2] != LOST)]
    start, trail, end = (hsync.columns[whole + step] for step in range(3))
    sure = ~(hsync.doubtful[whole] | hsync.doubtful[whole + 1] | hsync.doubtful[whole + 2])
    row = np.searchsorted(firsts, start)
    has = row < len(firsts)
    has[has] = firsts[row[has]] < end[has]
    return Lines(hsync.columns[leads], start, trail, end, np.where(has, row, -1), sure)


def fields_of(vsync: Edges, active: int, stop: int) -> list[Field]:
    """Returns the fields, up to the column `stop`, of a raster whose VSYNC pulses have the level `active`."""
    found: list[Field] = []
    begin, lead, trail = int(vsync.columns[0]), None, None
    for column, level, seen in zip(vsync.columns.tolist(), vsync.levels.tolist(), vsync.seen.tolist()):
        if level == LOST:
            found.append(Field(begin, column, lead, trail, None))
            begin, lead, trail = column, None, None
        elif seen and level == active:
            found.append(Field(begin, column, lead, trail, column))
            begin, lead, trail = column, column, None
        elif seen:
            trail = column
    found.append(Field(begin, stop, lead, trail, None))
    return [one for one in found if one.stop > one.begin]


class Ruler:
    """Measures in half lines how far a column is after the first leading edge of HSYNC. `total` is the columns of a line, or 0 if no line
    was seen completely."""

    def __init__(self, leads: Ints, total: float) -> None:
        self.leads, self.total = leads, total

    def line(self, column: int) -> int:
        """Returns the number of the line with this column, or -1 before the first line."""
        return int(np.searchsorted(self.leads, column, "right")) - 1

    def halves(self, column: int) -> tuple[float | None, int]:
        """Returns the number of lines, rounded to halves (None before the first line), and the columns by which the column is later."""
        line = self.line(column)
        if line < 0 or not self.total:
            return None, 0
        behind = column - int(self.leads[line])
        half = round(2 * behind / self.total)
        late = behind - half * self.total / 2
        return line + half / 2, int(late)


def figure(values: npt.ArrayLike, places: Sequence[int] | Ints, place: Callable[[int], Place]) -> Figure | None:
    """Returns the most frequent value, and the first different value with its place. Returns None if there are no values. `place` makes a
    place of a column."""
    numbers = np.asarray(values, float)
    if not len(numbers):
        return None
    found, counts = np.unique(numbers, return_counts=True)
    value = float(found[np.argmax(counts)])
    others = np.flatnonzero(numbers != value)
    if not len(others):
        return Figure(value, len(numbers))
    first = int(others[0])
    return Figure(value, int(counts.max()), len(others), float(numbers[first]), place(int(places[first])))


def whole_place(column: int) -> Place:
    """Returns the place of a field, given its first column."""
    return Place(column, None)


@dataclass
class Part:
    """A range of columns in which most rows have one width and the syncs one polarity. `bits` are those of a pixel: in deep colour each
    column carries 24 of them (HDMI 1.4, section 6.5)."""

    begin: int
    stop: int
    firsts: Ints
    widths: Ints
    level: int
    bits: int

    def pixels(self, columns: Ints) -> Ints:
        """Converts numbers of columns to numbers of pixels, rounded."""
        if self.bits == DEPTH:
            return columns
        pixels: Ints = np.rint(columns * (DEPTH / self.bits)).astype(np.int64)
        return pixels

    def slice(self, entries: Ints) -> Ints:
        """Returns the changes in these columns. The level at the first column, if it is known, comes before them."""
        first, behind = np.searchsorted(entries >> 2, (self.begin, self.stop))
        level = int(entries[first - 1]) & 3 if first else LOST
        before = [self.begin << 2 | LOST] + [self.begin << 2 | level] * (level != LOST)
        return np.concatenate((np.array(before), entries[first:behind]))


def parts_of(meter: Meter) -> Iterator[Part]:
    """Splits a capture into parts. A new part begins with the row from which STABLE rows have another width or polarity; the part before
    ends there."""
    firsts, widths, levels = meter.firsts, meter.widths, meter.levels
    pairs = widths << 2 | levels & 3
    begins = np.flatnonzero(np.diff(pairs, prepend=-1))
    stable = begins[np.diff(begins, append=len(pairs)) >= STABLE]
    starts = [0, *(int(at) for last, at in zip(stable, stable[1:]) if pairs[last] != pairs[at])]
    for number, start in enumerate(starts):
        behind = starts[number + 1] if number + 1 < len(starts) else len(firsts)
        begin = 0 if not start else int(firsts[start])
        stop = meter.next if behind == len(firsts) else int(firsts[behind - 1] + widths[behind - 1])
        values, counts = np.unique(levels[start:behind], return_counts=True)
        level = int(values[np.argmax(counts)]) if len(values) else 0
        depths = [bits for column, bits in meter.depths if begin <= column < stop]
        bits = max(set(depths), key=depths.count, default=DEPTH)
        yield Part(begin, stop, firsts[start:behind], widths[start:behind], level, bits)


def down_of(one: Field, ruler: Ruler, firsts: Ints) -> dict[str, float]:
    """Returns the vertical parts of a field, as far as they were seen."""
    known = {name: ruler.halves(at)[0] for name, at in (("lead", one.lead), ("trail", one.trail), ("end", one.end)) if at is not None}
    seen = {name: at for name, at in known.items() if at is not None}
    found: dict[str, float] = {}
    if one.is_hurt:
        return found
    if one.is_whole:
        found["active"] = one.rows.stop - one.rows.start
    if one.rows.stop > one.rows.start:
        if "end" in seen:
            found["front porch"] = seen["end"] - ruler.line(int(firsts[one.rows.stop - 1])) - 1
        if "trail" in seen:
            found["back porch"] = ruler.line(int(firsts[one.rows.start])) - seen["trail"]
    if "lead" in seen and "trail" in seen:
        found["sync"] = seen["trail"] - seen["lead"]
    if "lead" in seen and "end" in seen:
        found["total"] = seen["end"] - seen["lead"]
    return found


def phase_of(one: Field, ruler: Ruler, interlaced: bool) -> int:
    """Returns 0 if a field begins with HSYNC, and 1 if it begins half a line later."""
    for at in (one.lead, one.trail):
        lines = ruler.halves(at)[0] if at is not None else None
        if lines is not None:
            return int(2 * lines) % 2
    lines = ruler.halves(one.end)[0] if one.end is not None else None
    return (int(2 * lines) + interlaced) % 2 if lines is not None else 0


def sized(part: Part, found: list[Field]) -> list[tuple[int, int | None]]:
    """Returns the size of each field: pixels of a row, and rows. An incomplete field gets the size of its neighbour."""
    sizes: list[tuple[int, int | None] | None] = []
    for one in found:
        widths, counts = np.unique(part.pixels(part.widths[one.rows]), return_counts=True)
        sizes.append((int(widths[np.argmax(counts)]), one.rows.stop - one.rows.start) if one.is_whole else None)
    every = [size for size in sizes if size is not None]
    last = every[0] if every else (int(np.bincount(part.pixels(part.widths)).argmax()), None)
    kept = []
    for size in sizes:
        last = size if size is not None else last
        kept.append(last)
    return kept


def across_of(part: Part, lines: Lines, mask: npt.NDArray[np.bool_], ruler: Ruler, found: list[Field]) -> dict[str, Figure]:
    """Returns the horizontal parts: `total` and `sync` of all lines, the others of the lines with a row."""
    begins = np.array([one.lead if one.lead is not None else -1 for one in found], np.int64)
    firsts_of = np.array([one.begin for one in found], np.int64)

    def place(column: int) -> Place:
        number = int(np.searchsorted(firsts_of, column, "right")) - 1
        lead = int(begins[number]) if number >= 0 else -1
        return Place(column, ruler.line(column) - ruler.line(lead) + 1 if lead >= 0 else None)

    sure = mask & lines.sure
    rows = sure & (lines.row >= 0)
    row = lines.row[rows]
    first, width = part.firsts[row], part.widths[row]
    values = {
        "active": (width, lines.start[rows]),
        "front porch": (lines.end[rows] - first - width, lines.start[rows]),
        "sync": ((lines.trail - lines.start)[sure], lines.start[sure]),
        "back porch": (first - lines.trail[rows], lines.start[rows]),
        "total": ((lines.end - lines.start)[sure], lines.start[sure]),
    }
    made = {name: figure(part.pixels(columns), starts, place) for name, (columns, starts) in values.items()}
    return {name: one for name, one in made.items() if one is not None}


def late_of(found: list[Field], vsync: Edges, ruler: Ruler) -> Figure | None:
    """Returns by how many columns VSYNC changes after an edge of HSYNC."""
    doubtful = set(vsync.columns[vsync.doubtful].tolist())
    changes = [at for one in found for at in (one.lead, one.trail) if at is not None and at not in doubtful]
    late = [(at, columns) for at in changes for lines, columns in [ruler.halves(at)] if lines is not None]
    return figure([columns for _, columns in late], [at for at, _ in late], whole_place)


def are_hurt(hurt: Ints, begins: npt.ArrayLike, ends: npt.ArrayLike) -> npt.NDArray[np.bool_]:
    """Returns for each range of columns whether a row may be missing there."""
    found: npt.NDArray[np.bool_] = np.searchsorted(hurt, begins) < np.searchsorted(hurt, ends)
    return found


def rasters_of(part: Part, hsync: Edges, vsync: Edges, hurt: Ints, flawed: Ints) -> Iterator[Raster]:
    """Yields the rasters of a part, one for each size of its fields, in the order in which they begin. Fields and lines that contain a
    `hurt` column are not measured, nor lines that contain a `flawed` one."""
    wide, tall = part.level & 1, part.level >> 1
    lines = lines_of(hsync, 1 - wide, part.firsts)
    both = np.union1d(hurt, flawed)
    lines = lines._replace(sure=lines.sure & ~are_hurt(both, lines.start, lines.end))
    found = fields_of(vsync, 1 - tall, part.stop)
    for one in found:
        first, behind = np.searchsorted(part.firsts, (one.begin, one.stop))
        one.rows = slice(int(first), int(behind))
    totals = np.unique(lines.end[lines.sure] - lines.start[lines.sure], return_counts=True)
    ruler = Ruler(lines.leads, float(totals[0][np.argmax(totals[1])]) if len(totals[0]) else 0.0)
    for one in found:  # damage within a line of an edge may be its cause
        one.is_hurt = bool(are_hurt(hurt, one.begin - ruler.total, one.stop + ruler.total))
    number = np.searchsorted([one.begin for one in found], lines.start, "right") - 1
    groups: dict[tuple[int, int | None], list[int]] = {}
    for place, size in enumerate(sized(part, found)):
        groups.setdefault(size, []).append(place)
    for size, chosen in groups.items():
        its = [found[at] for at in chosen]
        interlaced = is_interlaced(its, ruler)
        down = downs_of(its, ruler, part.firsts, bool(interlaced)) if ruler.total else ()
        across = across_of(part, lines, np.isin(number, chosen), ruler, its)
        late = late_of(its, vsync, ruler)
        whole = sum(one.is_whole for one in its)
        polarities = (bool(1 - wide) if hsync.seen.any() else None, bool(1 - tall) if vsync.seen.any() else None)
        where = tuple((one.begin, one.stop) for one in its)
        yield Raster(size, whole, interlaced, across, down, *polarities, late, absent_of(part, hsync, vsync), part.bits, where)


def is_interlaced(its: list[Field], ruler: Ruler) -> bool | None:
    """Returns whether VSYNC begins or ends in the middle of a line in some field. "No" requires that both ends of a field were seen,
    because in interlaced video every second field begins with HSYNC."""
    ends = [(one.trail if one.lead is None else one.lead, one.end) for one in its]
    lines = [[ruler.halves(at)[0] for at in pair if at is not None] for pair in ends]
    seen = [[at for at in one if at is not None] for one in lines]
    if any(at % 1 for one in seen for at in one):
        return True
    return False if any(len(one) == 2 for one in seen) else None


def absent_of(part: Part, hsync: Edges, vsync: Edges) -> tuple[str, ...]:
    """Returns the syncs that never change although there are rows, or rows with blank lines between them."""
    periods = np.diff(part.firsts)
    has_blank = len(periods) > 1 and periods.max() > 2 * np.median(periods)
    absent = (("HSYNC", hsync, len(periods) > 1), ("VSYNC", vsync, has_blank))
    return tuple(name for name, sync, is_due in absent if is_due and not sync.seen.any())


def downs_of(its: list[Field], ruler: Ruler, firsts: Ints, interlaced: bool) -> tuple[dict[str, Figure], ...]:
    """Returns the vertical parts of fields: one set of figures, or two if the fields are interlaced."""
    values: tuple[dict[str, tuple[list[float], list[int]]], ...] = ({}, {})
    for one in its:
        phase = phase_of(one, ruler, interlaced) if interlaced else 0
        for name, value in down_of(one, ruler, firsts).items():
            numbers, places = values[phase].setdefault(name, ([], []))
            numbers.append(value)
            places.append(one.begin)
    figures = []
    for kind in values[: 1 + interlaced]:
        made = {name: figure(*kind[name], whole_place) for name in PARTS if name in kind}
        figures.append({name: one for name, one in made.items() if one is not None})
    return tuple(figures)


def rasters(meter: Meter) -> Iterator[Raster]:
    """Yields the rasters of everything the meter took, in the order in which they begin. Without rows there is none."""
    if not len(meter.firsts):
        return
    words = spans(meter.words, meter.known)
    damaged = spans(meter.damaged, meter.damaged + PACKET)
    slips = meter.slips
    for part in parts_of(meter):
        hsync = edges(part.slice(meter.hsync), words, damaged)
        vsync, period = part.slice(meter.vsync), period_of(hsync)
        if period:
            vsync = held(without_pulses(vsync, words, np.iinfo(np.int64).max), period, slips)
        yield from rasters_of(part, hsync, edges(vsync, words, damaged), meter.hurt, meter.flawed)
