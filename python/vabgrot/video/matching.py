"""Finds the video format of a raster, or the nearest format and the differences. Compares it with the AVI InfoFrame."""

from __future__ import annotations

from bisect import bisect_right
from dataclasses import dataclass
from itertools import islice
from typing import Any, NamedTuple

from vabgrot.formats.modes import CTA, Axis, Format, formats, of_vic
from vabgrot.video.timings import DEPTH, PARTS, Avi, Figure, Meter, Place, Raster, rasters

PULLED = 1001 / 1000  # each rate of CTA-861 has a second one that is lower by this factor
TOLERANCE = 0.005  # of a pixel clock (CTA-861, section 4: 0.5 percent)
MOST_DIFFERENCES = 4  # the nearest format is named only up to this many differences
HDMI_VICS = frozenset((93, 94, 95, 98))  # named by HDMI's own InfoFrame instead (HDMI 1.4, section 8.2.3)
FIELDS = ("first field", "second field")
SIZES = 8  # the most rasters of one capture that are reported
MOST_SAID = 4  # the most differences from an InfoFrame's format that are listed


class Note(NamedTuple):
    """A line about a measurement. `is_fault` marks a fault."""

    text: str
    is_fault: bool = True


class Difference(NamedTuple):
    """A number of a raster that differs from a format's."""

    name: str
    found: str
    wanted: str
    part: float  # the error, relative to the wanted value

    def __str__(self) -> str:
        return f"{self.name} {self.found}, wants {self.wanted}"


@dataclass(frozen=True)
class Rate:
    """The rate that the user gave: a pixel clock in Hz, or frames a second (fields, if interlaced)."""

    clock: float | None = None
    fields: float | None = None

    def clock_of(self, raster: Raster) -> float | None:
        """Returns the pixel clock in Hz, or None if it is not known."""
        return self.clock or (self.fields * raster.columns if self.fields and raster.columns else None)


def number(value: float) -> str:
    """Formats a number of columns or lines."""
    return f"{value:,.0f}" if value == int(value) else f"{value:,.1f}"


def counted(count: int, name: str) -> str:
    return f"{count:,} {name}{'s' * (count != 1)}"


def sign(positive: bool) -> str:
    return "positive" if positive else "negative"


def axis_differences(name: str, figures: dict[str, Figure], wanted: dict[str, tuple[float, ...]], of: str = "") -> list[Difference]:
    """Returns the parts of a line or a field that match none of the wanted values. The total is compared only if a part was not seen."""
    found = []
    names = [part for part in PARTS if part != "total" or len(figures) < len(PARTS)]
    for part in names:
        one = figures.get(part)
        if one is not None and one.value not in wanted[part]:
            off = abs(one.value - wanted[part][0]) / max(wanted[part][0], 1)
            found.append(Difference(f"{name} {part}{of}", number(one.value), number(wanted[part][0]), off))
    return found


def wanted_of(axis: Axis, front: float = 0, back: float = 0, more: int = 0) -> dict[str, tuple[float, ...]]:
    """Returns the allowed values for each part of a line or field of a format, the usual value first. `front`, `back` and `more` are
    added to the porches and the total."""
    fronts = tuple(axis.front + front + one for one in range(more + 1))
    totals = tuple(axis.total + front + back + one for one in range(more + 1))
    return dict(zip(PARTS, ((axis.active,), fronts, (axis.sync,), (axis.back + back,), totals)))


def differences(raster: Raster, wanted: Format) -> list[Difference]:
    """Returns the differences between a raster and a format. Parts that were not seen do not count."""
    found = axis_differences("H", raster.across, wanted_of(wanted.across))
    if raster.interlaced is not None and raster.interlaced != wanted.halves:
        scans = ("progressive", "interlaced")
        found.append(Difference("scan", scans[raster.interlaced], scans[wanted.halves], 1.0))
    for second, figures in enumerate(raster.down):
        halves = ((0.5, 0.0), (0.0, 0.5))[second] if wanted.halves and raster.interlaced else (0.0, 0.0)
        of = f" of the {FIELDS[second]}" if raster.interlaced else ""
        found += axis_differences("V", figures, wanted_of(wanted.down, *halves, wanted.more_front), of)
    for name, positive, axis in (("HSYNC", raster.wide, wanted.across), ("VSYNC", raster.tall, wanted.down)):
        if positive is not None and positive != axis.positive:
            found.append(Difference(name, sign(positive), sign(axis.positive), 0.5))
    return found


def has_clock(wanted: Format, clock: float | None) -> bool:
    """Returns whether a format allows this pixel clock, at its own rate or at the one that differs by 1000/1001. Without a clock every
    format passes."""
    if clock is None:
        return True
    return wanted.clock / PULLED * (1 - TOLERANCE) <= clock <= wanted.clock * PULLED * (1 + TOLERANCE)


def clock_difference(wanted: Format, clock: float) -> Difference:
    """Returns the difference between a pixel clock in Hz and the format's."""
    return Difference("pixel clock", f"{clock:,.0f} Hz", f"{wanted.clock:,} Hz", 1.0)


@dataclass(frozen=True)
class Match:
    """The formats that match a raster, the one that is named, and its differences. `wanted` is None if no format is near."""

    equal: tuple[Format, ...]
    wanted: Format | None
    differences: tuple[Difference, ...]


def match(raster: Raster, clock: float | None, vic: int | None) -> Match:
    """Finds the format of a raster with this pixel clock in Hz (None if not known). If several fit equally well, the format with this VIC
    comes first."""
    unlike_of = {one: differences(raster, one) for one in formats()}
    equal = tuple(one for one, unlike in unlike_of.items() if not unlike)
    timed = tuple(one for one in equal if has_clock(one, clock))

    def is_named(one: Format) -> bool:
        return one.source == CTA and one.code == vic

    if timed:
        return Match(timed, next((one for one in timed if is_named(one)), timed[0]), ())
    if equal:
        wanted = min(equal, key=lambda one: (not is_named(one), abs(one.clock - (clock or 0))))
        return Match((), wanted, (clock_difference(wanted, clock or 0),))
    near = [one for one, unlike in unlike_of.items() if len(unlike) <= MOST_DIFFERENCES * max(1, len(raster.down))]
    if not near:
        return Match((), None, ())
    wanted = min(
        near,
        key=lambda one: (
            any(part.name.endswith("active") for part in unlike_of[one]),
            len(unlike_of[one]),
            not has_clock(one, clock),
            not is_named(one),
            sum(part.part for part in unlike_of[one]),
        ),
    )
    return Match((), wanted, tuple(unlike_of[wanted]))


def headline(raster: Raster, matched: Match) -> Note:
    """Says which format a raster has."""
    if matched.wanted is None:
        return Note("no format of CTA-861 or VESA DMT, and none is near")
    if matched.differences:
        return Note(f"{matched.wanted.words}, but {'; '.join(map(str, matched.differences))}")
    others = [one.name for one in matched.equal if one is not matched.wanted]
    words = matched.wanted.words + (f"; with the same timing {', '.join(others)}" if others else "")
    if "total" not in raster.across or not raster.down or any(len(part) < len(PARTS) for part in raster.down):
        words += "; as far as it was seen"
    return Note(words, False)


def unsteady(raster: Raster) -> list[Note]:
    """Returns a note for each number that is not constant, with the first place where it differs."""
    figures = [(f"H {name}", "line", raster.across[name]) for name in PARTS if name in raster.across]
    for second, kind in enumerate(raster.down):
        of = f" of the {FIELDS[second]}" if raster.interlaced else ""
        figures += [(f"V {name}{of}", "field" if raster.interlaced else "frame", kind[name]) for name in PARTS if name in kind]
    notes = []
    for name, unit, one in figures:
        if one.place is not None and one.other is not None:
            times, other = counted(one.others, unit), number(one.other)
            unlike = f"{other} in {times}," if one.others == 1 else f"another in {times}, first {other}"
            notes.append(Note(f"not steady: {name} {number(one.value)}, but {unlike} {at(one.place)}"))
    return notes + late_notes(raster)


def at(place: Place) -> str:
    """Describes a place in words."""
    line = f" (line {place.line:,} of its field)" if place.line is not None else ""
    return f"at column {place.column:,}{line}"


def late_notes(raster: Raster) -> list[Note]:
    """Returns a note if VSYNC changes neither with HSYNC nor in the middle of a line."""
    late = raster.late
    if late is None or not late.value and late.place is None:
        return []
    columns = late.value or late.other or 0
    side = "after" if columns > 0 else "before"
    where = f", first {at(late.place)}" if late.place is not None else ""
    return [Note(f"VSYNC changes {number(abs(columns))} columns {side} HSYNC, wants 0{where}")]


def avi_note(avi: Avi, times: int, column: int, raster: Raster, clock: float | None, equal: tuple[Format, ...]) -> Note:
    """Compares an AVI InfoFrame with a raster."""
    wanted = of_vic(avi.vic)
    says = f"AVI InfoFrame: {wanted.words if wanted else f'VIC {avi.vic}' if avi.vic else 'no VIC'}"
    says += f", pixel repetition {avi.repetition}" if avi.repetition else ""
    says += f", {counted(times, 'time')}, first at column {column:,}"
    named = [one for one in equal if one.source == CTA and one.code not in HDMI_VICS]
    if not avi.vic:
        return Note(f"{says}; wants {' or '.join(one.name for one in named)}" if named else says, bool(named))
    if wanted is None:
        return Note(f"{says}; no timing of it is known here", False)
    unlike = differences(raster, wanted)
    if not unlike and not has_clock(wanted, clock):
        unlike = [clock_difference(wanted, clock or 0)]
    if unlike:
        more = f"; and {len(unlike) - MOST_SAID} more" if len(unlike) > MOST_SAID else ""
        return Note(f"{says}; but {'; '.join(map(str, unlike[:MOST_SAID]))}{more}")
    if avi.repetition not in wanted.repetitions:
        right = " or ".join(map(str, wanted.repetitions))
        return Note(f"{says}; but pixel repetition {avi.repetition}, wants {right}")
    return Note(says, False)


def avis_of(meter: Meter, raster: Raster) -> dict[Avi, list[int]]:
    """Returns the different AVI InfoFrames in the fields of a raster, each with the columns at which it was sent."""
    begins = [begin for begin, _ in raster.spans]
    found: dict[Avi, list[int]] = {}
    for column, avi in meter.avis:
        span = bisect_right(begins, column) - 1
        if span >= 0 and column < raster.spans[span][1]:
            found.setdefault(avi, []).append(column)
    return found


@dataclass(frozen=True)
class Timing:
    """The result for one raster: size, format, pixel clock (in Hz, None if not known), and notes."""

    raster: Raster
    matched: Match
    clock: float | None
    head: Note
    notes: tuple[Note, ...]

    @property
    def size(self) -> str:
        """Width, height and scan in words."""
        width, rows = self.raster.size
        height = "rows not seen whole" if rows is None else f"{rows * (1 + bool(self.raster.interlaced)):,} rows"
        scan = {None: "", False: ", progressive", True: ", interlaced"}[self.raster.interlaced]
        unit = "field" if self.raster.interlaced else "frame"
        depth = "" if self.raster.bits == DEPTH else f", {self.raster.bits} bits a pixel"
        return f"{width:,} pixels{depth}, {height}{scan}, {counted(self.raster.fields, f'whole {unit}')}"

    @property
    def rate(self) -> str | None:
        """The pixel clock and the frame rate in words, or None if they are not known."""
        if self.clock is None:
            return None
        words = f"pixel clock {self.clock:,.0f} Hz"
        if self.raster.columns:
            unit = "fields" if self.raster.interlaced else "frames"
            words += f", {self.clock / self.raster.columns:.2f} {unit} a second"
        return words

    @property
    def table(self) -> list[tuple[str, list[str], str]]:
        """Returns the rows of a table: a name, one number for each of PARTS, and the polarity of the sync."""
        raster = self.raster
        names = [f"{one}, lines" for one in FIELDS] if raster.interlaced else ["down, lines"]
        rows = [("across, columns" if raster.bits == DEPTH else "across, pixels", raster.across, raster.wide)]
        rows += [(name, kind, raster.tall) for name, kind in zip(names, raster.down)]
        return [
            (name, [number(kind[part].value) if part in kind else "-" for part in PARTS], "-" if positive is None else sign(positive))
            for name, kind, positive in rows
        ]

    @property
    def is_faulty(self) -> bool:
        return any(note.is_fault for note in (self.head, *self.notes))

    def plain(self) -> dict[str, Any]:
        """Returns the same as a value for JSON."""
        raster, wanted = self.raster, self.matched.wanted

        def figures(kind: dict[str, Figure]) -> dict[str, Any]:
            return {part.replace(" ", "_"): plain_figure(kind[part]) for part in PARTS if part in kind}

        return {
            "width": raster.size[0],
            "rows": raster.size[1],
            "fields": raster.fields,
            "column": raster.spans[0][0],
            "interlaced": raster.interlaced,
            "bits": raster.bits,
            "horizontal": figures(raster.across),
            "vertical": [figures(kind) for kind in raster.down],
            "hsync_positive": raster.wide,
            "vsync_positive": raster.tall,
            "vsync_late": plain_figure(raster.late) if raster.late else None,
            "clock": self.clock,
            "rate": self.clock / raster.columns if self.clock and raster.columns else None,
            "equal": [one.name for one in self.matched.equal],
            "nearest": wanted.name if wanted else None,
            "differences": [{"name": one.name, "found": one.found, "wanted": one.wanted} for one in self.matched.differences],
            "notes": [{"text": note.text, "fault": note.is_fault} for note in (self.head, *self.notes)],
        }


def plain_figure(one: Figure) -> dict[str, Any]:
    """Returns a number as a value for JSON. If `others` is not 0, it includes the first different value and its place."""
    said: dict[str, Any] = {"value": whole(one.value), "times": one.times, "others": one.others}
    if one.place is not None and one.other is not None:
        said |= {"other": whole(one.other), "column": one.place.column, "line": one.place.line}
    return said


def whole(value: float) -> float | int:
    return int(value) if value == int(value) else value


def change_note(found: list[Timing]) -> Note | None:
    """Returns a note if the capture has more than one raster."""
    if len(found) < 2:
        return None
    count = f"{len(found)}" if len(found) <= SIZES else f"more than {SIZES}"
    return Note(f"not steady: {count} sizes or rasters{f', of which the first {SIZES} follow' if len(found) > SIZES else ''}")


def timings(meter: Meter, rate: Rate) -> list[Timing]:
    """Returns the result for each raster of a capture: the first SIZES, and one more at most. Without rows there is none."""
    said = []
    for raster in islice(rasters(meter), SIZES + 1):
        clock, avis = rate.clock_of(raster), avis_of(meter, raster)
        most = max(avis, key=lambda one: len(avis[one]), default=None)
        matched = match(raster, clock, most.vic if most else None)
        notes = unsteady(raster) + [Note(f"{name} never changes") for name in raster.absent]
        notes += [avi_note(avi, len(at), at[0], raster, clock, matched.equal) for avi, at in avis.items()]
        notes += [] if avis else [Note("no AVI InfoFrame was received", False)]
        said.append(Timing(raster, matched, clock, headline(raster, matched), tuple(notes)))
    return said
