"""Gathers the contents of a capture for a page: frames and lines while it is read, then periods, faults and packets."""

from __future__ import annotations

from collections.abc import Iterable
from dataclasses import dataclass, field
from functools import cached_property
from typing import Generic, Protocol, TypedDict, TypeVar

import numpy as np

from vabgrot.content import Content, Flow, Frame, Packets, bodies_of, odd_sides
from vabgrot.events import ENDS, UNTOLD, WORDS, Event, Events, Ints, Kind
from vabgrot.formats.characters import TEN
from vabgrot.formats.layouts import BODIES, Type
from vabgrot.packets import Content as Carried
from vabgrot.packets import Packet, content_of, is_other_size
from vabgrot.reading import Reading
from vabgrot.report.fields import Fields
from vabgrot.report.text import Text
from vabgrot.verdict import READ_AVI
from vabgrot.video import images
from vabgrot.video.colours import Signal
from vabgrot.video.signals import Signals

PERIODS = ("control", "video", "packet", "open", "close", "unknown", "unaligned")
OF_KIND = np.array([PERIODS.index(name) for name in ("control", "video", "open", "packet", "close")], np.int64)  # by Kind
UNKNOWN, UNALIGNED = map(PERIODS.index, ("unknown", "unaligned"))
MOST_KNOWN = 4096  # the most different packets whose content is kept
CLEAN = ["clean"] * (BODIES + 1)  # for the blocks of a packet


@dataclass
class Received:
    """A packet with its place, its content (None if a block is lost), the state of its five blocks, and the number of its characters that
    are not in TERC4."""

    line: int
    at: int
    packet: Packet
    content: Carried | None
    verdicts: list[str]
    symbols: int

    @property
    def words(self) -> str:
        """Its content in words."""
        return self.content.words if self.content else "not read, since a block is lost"


@dataclass(frozen=True)
class Stretch:
    """An epoch as a page shows it: its first column, its place in the capture, and whether its lanes were aligned. If not, it has no line
    in the listing, and `hidden` is the number of bits of each lane."""

    at: int
    place: int
    is_aligned: bool
    hidden: int

    @property
    def hidden_columns(self) -> int:
        """The columns without a line."""
        return -(-self.hidden // TEN)


class Periods(TypedDict):
    """A table of periods, column by column: the kind as a number in PERIODS, the first column, the number of columns, the line of the
    listing, and a value: of control columns, the pixels of a row, or the first byte of a packet."""

    kind: Ints
    at: Ints
    columns: Ints
    line: Ints
    value: Ints


class Faults(TypedDict):
    """A table of faults, column by column: the lane (-1 if it has none), the column of the capture, the epoch and the column in it, the
    line of the listing, the other numbers, and the frame, the pixel and its colour (-1 if not known)."""

    kind: list[str]
    lane: list[int]
    at: list[int]
    epoch: list[int]
    column: list[int]
    line: list[int]
    more: list[list[int]]
    frame: list[int]
    x: list[int]
    y: list[int]
    rgb: list[str]


Shown = TypeVar("Shown")
Shows = TypeVar("Shows", covariant=True)


class Show(Protocol[Shows]):
    """Turns a frame into what is kept of it. `part` is how much of the capture was read at its end. `vic` is the code of its InfoFrame if
    that gives another size. `signal` is how its pixels are sent."""

    def __call__(self, frame: Frame, part: float, vic: int | None, signal: Signal) -> Shows: ...


@dataclass
class Findings(Generic[Shown]):
    """Takes the events of a capture while it is read, and passes each complete frame to `show`. `columns` is the expected number of
    columns."""

    show: Show[Shown]
    is_dvi: bool = False
    columns: int = 1
    flow: Flow = field(default_factory=Flow)
    text: Text = field(default_factory=Text)
    fields: Fields = field(default_factory=Fields)
    frames: list[Shown] = field(default_factory=list)
    notes: dict[str, None] = field(default_factory=dict)  # what was assumed for whole frames, without repetitions
    marks: list[tuple[Ints, int]] = field(default_factory=list)  # for each frame, the numbers of its faults, and its number
    pixels: dict[int, tuple[int, int, str]] = field(default_factory=dict)  # pixel, row and colour of faults, by number
    vic: int = 0
    covered: int = 0

    def __post_init__(self) -> None:
        self.signals = Signals(has_packets=not self.is_dvi)

    def take(self, events: Events) -> None:
        """Takes the next events."""
        self.text.take(events)
        self.keep(self.flow.take(events))
        self.covered += int(events.width.sum())
        if len(events.of(*ENDS)):
            self.fields.end()

    def finish(self) -> None:
        """Takes the end of the capture."""
        self.text.end()
        self.keep(self.flow.finish())
        self.fields.end()

    def keep(self, known: Iterable[Packets | Frame]) -> None:
        """Takes packets and frames."""
        for it in known:
            if isinstance(it, Frame):
                self.end_frame(it)
                continue
            self.signals.take_packets(it)
            for packet in it.of(Type.AVI):
                if packet.version == READ_AVI and not content_of(packet).faults:
                    self.vic = packet.number("VIC")

    def end_frame(self, frame: Frame) -> None:
        """Shows a complete frame."""
        number, it = len(self.frames), self.signals.reading(frame.width)
        if frame.is_whole:
            self.notes.update(dict.fromkeys(it.notes))
        self.marks.append((frame.marks.place, number))
        for place, _, row, pixel in frame.marks.of(Kind.CODE):
            self.pixels[place] = coloured(frame, row, pixel, it.signal)
        other = frame.is_whole and is_other_size(self.vic, it.signal.sent(frame.width), len(frame.rows))
        self.fields.take(number, frame, it.signal.pixels(frame.width))
        part = min(1.0, self.covered / max(self.columns, 1))
        self.frames.append(self.show(frame, part, self.vic if other else None, it.signal))


def coloured(frame: Frame, row: int, pixel: int, signal: Signal) -> tuple[int, int, str]:
    """Returns the pixel, the row and the colour with which a fault of a frame is shown."""
    if pixel == UNTOLD:
        return -1, row, ""
    if signal.is_plain:
        return pixel, row, frame.rows[row][3 * pixel : 3 * pixel + 3].hex()
    shown, colours = signal.pixel(pixel), images.shallow(images.colours_of([frame.rows[row]], len(frame.rows[row]) // 3, signal))
    known = shown < colours.shape[1]
    return (shown, row, colours[0, shown].tobytes().hex()) if known else (-1, row, "")


class Contents:
    """The contents of packets. Equal packets share one."""

    def __init__(self) -> None:
        self.known: dict[bytes, Carried] = {}

    def of(self, packet: Packet, is_even: bool) -> Carried:
        """Returns the content of a packet. For samples with correct parity it has only words."""
        key = packet.header if packet.kind == Type.SAMPLES and is_even else packet.header + packet.bytes
        found = self.known.get(key)
        if found is None:
            found = content_of(packet)
            if len(self.known) < MOST_KNOWN:
                self.known[key] = found
        return found


@dataclass(frozen=True, eq=False)
class Page:
    """What a page shows of a reading. Its columns count over all epochs, also over those that were not aligned, which have no line."""

    reading: Reading
    content: Content

    @cached_property
    def stretches(self) -> list[Stretch]:
        """The epochs."""
        epochs, found, more = self.reading.epochs, list[Stretch](), 0
        ends = [*(one.searched for one in epochs[1:]), max(self.reading.bits.read)]
        for epoch, end in zip(epochs, ends):
            is_hidden = len(epochs) > 1 and not epoch.columns and end > epoch.searched
            found.append(Stretch(epoch.before + more, epoch.searched, epoch.columns > 0, end - epoch.searched if is_hidden else 0))
            more += found[-1].hidden_columns
        return found

    @property
    def columns(self) -> int:
        """The number of columns."""
        return self.stretches[-1].at + self.reading.epochs[-1].columns + self.stretches[-1].hidden_columns

    @cached_property
    def at(self) -> Ints:
        """The column of each event."""
        more = np.array([one.at - epoch.before for one, epoch in zip(self.stretches, self.reading.epochs)], np.int64)
        return self.reading.at + more[self.reading.events.epoch]

    def place(self, column: int) -> int:
        """Converts a column of the reading to one of the page."""
        epochs = self.reading.epochs
        number = max((one.number for one in epochs if one.before <= column), default=0)
        return column + self.stretches[number].at - epochs[number].before

    @cached_property
    def periods(self) -> Periods:
        """The periods, including those with unknown content."""
        events = self.reading.events
        places = events.covering
        kinds = OF_KIND[events.kind[places]]
        bounds = (kinds == PERIODS.index("open")) | (kinds == PERIODS.index("close"))
        rows = [np.column_stack([kinds, self.at[places], events.width[places], places + 1, np.where(bounds, 0, events.value[places])])]
        gaps = self.reading.gaps
        if len(gaps):
            before = np.append(-1, places)[np.searchsorted(self.reading.at[places], gaps[:, 0])]
            starts, nothing = np.array([self.place(at) for at in gaps[:, 0].tolist()], np.int64), np.zeros(len(gaps), np.int64)
            rows.append(np.column_stack([nothing + UNKNOWN, starts, gaps[:, 1] - gaps[:, 0], before + 2, nothing]))
        hidden = [(UNALIGNED, one.at, one.hidden_columns, 0, 0) for one in self.stretches if one.hidden]
        rows.append(np.array(hidden, np.int64).reshape(-1, 5))
        table = np.concatenate(rows)
        kind, at, columns, line, value = table[np.argsort(table[:, 1], kind="stable")].T
        return {"kind": kind, "at": at, "columns": columns, "line": line, "value": value}

    def faults(self, found: Findings[Shown]) -> Faults:
        """Returns the faults, with the pixels that were found."""
        events = self.reading.events
        places = events.faults
        views = [*events.views(places)]
        frames = np.full(len(events) + 1, -1, np.int64)
        for those, number in found.marks:
            frames[those] = number
        pixels = [found.pixels.get(place, (-1, -1, "")) for place in places.tolist()]
        columns = [self.reading.epochs[one.epoch].columns if one.kind in ENDS else one.first for one in views]
        return {
            "kind": [WORDS[one.kind] for one in views],
            "lane": [-1 if one.lane is None else one.lane for one in views],
            "at": self.at[places].tolist(),
            "epoch": [one.epoch for one in views],
            "column": columns,
            "line": (places + 1).tolist(),
            "more": [[one.first] if one.kind in ENDS else [*one.more] for one in views],
            "frame": frames[places].tolist(),
            "x": [x for x, _, _ in pixels],
            "y": [y for _, y, _ in pixels],
            "rgb": [rgb for _, _, rgb in pixels],
        }

    @cached_property
    def packets(self) -> list[Received]:
        """The packets."""
        its, events, contents = self.content.packets, self.reading.events, Contents()
        even = ~odd_sides(its.octets, bodies_of(its.octets)).any(axis=(1, 2))
        at = self.at[its.place].tolist()
        found = []
        for place, column, packet, is_lost, is_even, wrong in zip(
            its.place.tolist(), at, its, its.lost.tolist(), even.tolist(), its.wrong.tolist()
        ):
            content = None if is_lost else contents.of(packet, is_even)
            found.append(Received(place + 1, column, packet, content, CLEAN, wrong))
        faults = events.of(Kind.MENDED, Kind.LOST)
        for fault, number in zip(events.views(faults), (np.searchsorted(its.place, faults) - 1).tolist()):
            received = found[number]
            received.verdicts = [*CLEAN] if received.verdicts is CLEAN else received.verdicts
            received.verdicts[fault.value] = f"mended, bit {fault.second}" if fault.kind == Kind.MENDED else "lost"
        return found

    @property
    def cut(self) -> Event | None:
        """The place at which the capture ends within a row, an island or an opening."""
        cuts = self.reading.events.of(Kind.CUT)
        return self.reading.events.view(int(cuts[-1])) if len(cuts) else None
