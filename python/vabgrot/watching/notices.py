"""What happens on a link that is watched: alignments, slips, faults, frozen and black pictures, changes, gaps in sound, lanes that die.
Each is a notice with its time. A noisy link makes no object for each fault: beyond a limit they are counted."""

from __future__ import annotations

import time
import zlib
from collections import Counter
from collections.abc import Iterator, Sequence
from dataclasses import dataclass, field
from datetime import UTC, datetime
from typing import NamedTuple

import numpy as np

from vabgrot import packets
from vabgrot.content import Packets, packet_of
from vabgrot.events import ENDS, LANED, WORDS, Event, Events
from vabgrot.flow.frames import Frame, Framer, Stretch, learn
from vabgrot.flow.parts import Part
from vabgrot.formats.characters import LANES
from vabgrot.formats.layouts import CARRIED, Type
from vabgrot.video import quick
from vabgrot.video.matching import counted
from vabgrot.video.signals import Signals
from vabgrot.watching.counting import Fit
from vabgrot.watching.feeding import Feed
from vabgrot.watching.stuck import LIVES

MOST, MOST_ENDS = 20, 1000  # notices of a kind in a second, and of slips; of others only the count is told
ENDED = frozenset(WORDS[kind] for kind in ENDS)
FROZEN = 60  # frames with the same pixels, from which on the picture is frozen
SURE = 10  # frames with damage, one after another, whose other size is another format
DARK = 16  # of 255: the most of each component of a black picture
QUIET = 1_000_000  # columns without a sample, from which on sound has a gap
TOLD = (Type.AVI, Type.AUDIO, Type.VENDOR, Type.PRODUCT, Type.DYNAMIC, Type.CONTROL)  # packets whose contents are followed
SOUND = (Type.SAMPLES, Type.ONE_BIT, Type.DST, Type.HIGH_RATE)
IS_TOLD, IS_SOUND = (np.isin(np.arange(1 << 8), kinds) for kinds in (TOLD, SOUND))  # by the type of a packet
HEADS = ("time", "seconds", "kind", "lane", "epoch", "column", "says")
FRAME_HEADS = ("time", "seconds", "frame", "column", "width", "rows", "crc", "faults")
SAYS = {
    "aligned": "rows and islands open with guard bands",
    "unaligned": "rows and islands open without guard bands",
    "moving": "the picture changes again",
    "black": "the picture is black",
    "picture": "the picture is no longer black",
}
KINDS = frozenset((*SAYS, "frozen", "format", "changed", "quiet", "sound", "dead", "alive", "stalled", "resumed"))


class Notice(NamedTuple):
    """A row: the wall clock, the seconds since the beginning, what it is, its lane if it has one, where, and words."""

    time: str
    seconds: str
    kind: str
    lane: int | str
    epoch: int
    column: int
    says: str

    def __str__(self) -> str:
        return f"{self.time}: {self.kind}{f', {LANES[int(self.lane)]}' if self.lane != '' else ''}: {self.says}"


class Seen(NamedTuple):
    """A whole frame: the wall clock, the seconds, its number, its first column, its size, CRC-32 of its bytes, and its faults."""

    time: str
    seconds: str
    frame: int
    column: int
    width: int
    rows: int
    crc: str
    faults: int


class Said(NamedTuple):
    """A kind of notice and its words."""

    kind: str
    says: str


def now() -> str:
    """The wall clock in UTC, to the millisecond."""
    return datetime.now(UTC).isoformat(timespec="milliseconds").replace("+00:00", "Z")


def crc_of(frame: Frame) -> int:
    """CRC-32 of the bytes of a frame."""
    crc = 0
    for octets in frame.rows:
        crc = zlib.crc32(octets.data, crc)
    return crc


@dataclass
class Pictures:
    """Takes the frames of a link: whether the format, the pixels or their darkness change. A frame with damage has neither."""

    signals: Signals
    size: tuple[int, int] | None = None
    others: int = 0  # frames with damage and one other size, one after another up to now
    other: tuple[int, int] | None = None
    crc: int | None = None
    alike: int = 0
    is_black: bool = False

    def take(self, frame: Frame, crc: int) -> Iterator[Said]:
        """The next whole frame."""
        yield from self.sized(frame)
        if frame.faults:
            return
        if crc == self.crc:
            self.alike += 1
            if self.alike == FROZEN:
                yield Said("frozen", f"{FROZEN} frames have the CRC {crc:08x}")
            return
        if self.alike >= FROZEN:
            yield Said("moving", SAYS["moving"])
        self.crc, self.alike = crc, 1
        if self.is_dark(frame) != self.is_black:
            self.is_black = not self.is_black
            kind = "black" if self.is_black else "picture"
            yield Said(kind, SAYS[kind])

    def sized(self, frame: Frame) -> Iterator[Said]:
        """Whether a frame has another size than those before. Damage may take rows from one."""
        size, before = (frame.width, len(frame.rows)), self.size
        self.others = 0 if size == before else self.others + 1 if size == self.other else 1
        self.other = size
        if size != before and (not frame.faults or self.others >= SURE):
            self.size = size
            if before:
                yield Said("format", f"{size[0]:,} × {size[1]:,} columns and rows, {before[0]:,} × {before[1]:,} before")

    def is_dark(self, frame: Frame) -> bool:
        """Whether a frame has one colour, which is black."""
        first = frame.rows[0].tobytes()
        if first != first[:3] * (len(first) // 3) or any(row.tobytes() != first for row in frame.rows[1:]):
            return False
        colour = quick.colours(frame.rows[0].reshape(1, -1, 3), self.signals.reading(frame.width).signal)
        return int(colour[0, 0].max()) <= (DARK * 257 if colour.dtype == np.uint16 else DARK)


@dataclass
class Contents:
    """Takes the packets of a link: what those without damage say that is new, and gaps in sound."""

    standing: dict[int, bytes] = field(default_factory=dict)
    last: int | None = None  # the column of the last packet of sound
    is_quiet: bool = False

    def changes(self, its: Packets) -> Iterator[tuple[int, Said]]:
        """The places of packets that say something else than the one of their type before, and what they say."""
        its = its[IS_TOLD[its.kind]]
        for place, octets in zip(its.place.tolist(), its.octets[:, :CARRIED]):
            data = octets.tobytes()
            before = self.standing.get(data[0])
            if data == before:
                continue
            packet = packet_of(data)
            content = packets.content_of(packet)
            if content.faults or data[0] == Type.CONTROL and len(set(packet.bodies)) > 1:
                continue  # what a lane that is about to slip has is often a block, and seldom a packet
            self.standing[data[0]] = data
            if before is not None:
                yield place, Said("changed", f"{packet.name}: {content.words}")

    def gaps(self, its: Packets, end: int) -> Iterator[Said]:
        """Where no sound comes for long, among packets up to a column."""
        at = its.at[~its.lost & IS_SOUND[its.kind]]
        if len(at):
            before = np.append(at[0] if self.last is None else self.last, at[:-1])
            for place in np.flatnonzero(at - before > QUIET).tolist():
                if not self.is_quiet:
                    yield Said("quiet", f"no samples after column {before[place]:,} of the link")
                self.is_quiet = False
                yield Said("sound", f"samples come again after {at[place] - before[place]:,} columns")
            self.last = int(at[-1])
        if self.last is not None and not self.is_quiet and end - self.last > QUIET:
            self.is_quiet = True
            yield Said("quiet", f"no samples after column {self.last:,} of the link")


@dataclass
class Limit:
    """Lets so many notices of a kind through in a second, and counts the others."""

    second: int = 0
    counts: Counter[str] = field(default_factory=Counter)

    def room(self, kind: str, wanted: int) -> int:
        """How many more notices of a kind there may be, of those that are wanted."""
        before = self.counts[kind]
        self.counts[kind] += wanted
        return min(wanted, max(0, self.most(kind) - before))

    @staticmethod
    def most(kind: str) -> int:
        """The most notices of a kind."""
        return MOST_ENDS if kind in ENDED else MOST

    def left(self) -> Iterator[Said]:
        """The kinds of which there were more; they are counted anew."""
        for kind, count in self.counts.items():
            if count > self.most(kind):
                yield Said(kind, f"{count - self.most(kind):,} more in this second")
        self.counts.clear()


@dataclass
class Notices:
    """Takes the parts of a link, and gives what happens. `seen` are the frames of the last part."""

    is_dvi: bool = False
    began: float = field(default_factory=time.monotonic)
    framer: Framer = field(default_factory=Framer)
    contents: Contents = field(default_factory=Contents)
    limit: Limit = field(default_factory=Limit)
    fit: Fit = field(default_factory=Fit)
    seen: list[Seen] = field(default_factory=list)
    frames: int = 0
    stalled: float | None = None  # when the source stalled

    def __post_init__(self) -> None:
        self.pictures = Pictures(Signals(has_packets=not self.is_dvi))

    @property
    def seconds(self) -> float:
        """The seconds since the beginning."""
        return time.monotonic() - self.began

    def row(self, said: Said, epoch: int = 0, column: int = 0, lane: int | str = "") -> Iterator[Notice]:
        """A row of now, unless there are too many of its kind."""
        if self.limit.room(said.kind, 1):
            yield Notice(now(), f"{self.seconds:.3f}", said.kind, lane, epoch, column, said.says)

    def at(self, said: Said, part: Part, place: int) -> Iterator[Notice]:
        """A row of an event."""
        return self.row(said, int(part.events.epoch[place]), int(part.events.first[place]))

    def take(self, part: Part) -> Iterator[Notice]:
        """What happens in the next part."""
        if (second := int(self.seconds)) > self.limit.second:
            self.limit.second = second
            yield from self.flush()
        self.seen, begin = [], 0
        for stop in [*(part.events.of(*ENDS) + 1).tolist(), len(part)]:
            if begin < stop:
                yield from self.aligned(part, begin, stop)
                yield from self.faults(part.events[begin:stop])
            begin = stop
        for stretch in self.framer.take(part):
            yield from self.carried(stretch)
            if stretch.frame:
                yield from self.frame(stretch.frame, int(part.events.epoch[stretch.stop - 1]))

    def aligned(self, part: Part, begin: int, stop: int) -> Iterator[Notice]:
        """Whether openings of an epoch fit. Its end is a row of its own."""
        for place, fits in self.fit.take(part.events[begin:stop]):
            kind = "aligned" if fits else "unaligned"
            yield from self.at(Said(kind, SAYS[kind]), part, begin + place)
        if part.events.kind[stop - 1] in ENDS:
            self.fit = Fit()

    def faults(self, events: Events) -> Iterator[Notice]:
        """The faults of an epoch."""
        its = events.faults
        shown: list[int] = []
        for kind in np.unique(events.kind[its]).tolist():
            places = its[events.kind[its] == kind]
            shown += places[: self.limit.room(WORDS[kind], len(places))].tolist()
        for fault in map(events.view, sorted(shown)):
            yield self.notice(fault)

    def notice(self, fault: Event) -> Notice:
        """The row of a fault."""
        lane: int | str = fault.value if fault.kind in LANED else ""
        says = f"{'bit' if fault.kind in ENDS else 'column'} {fault.first:,}"
        return Notice(now(), f"{self.seconds:.3f}", fault.kind.word, lane, fault.epoch, fault.first, says)

    def flush(self) -> Iterator[Notice]:
        """How many notices of each kind there were beyond the limit."""
        for said in self.limit.left():
            yield Notice(now(), f"{self.seconds:.3f}", said.kind, "", 0, 0, said.says)

    def carried(self, stretch: Stretch) -> Iterator[Notice]:
        """What packets say."""
        its = stretch.packets
        intact = its[its.intact]
        learn(self.pictures.signals, intact)
        for place, said in self.contents.changes(intact):
            yield from self.at(said, stretch.part, place)
        if stretch.begin < stretch.stop:
            last, part = stretch.stop - 1, stretch.part
            for said in self.contents.gaps(its, int(part.at[last] + part.events.width[last])):
                yield from self.at(said, part, last)

    def frame(self, frame: Frame, epoch: int) -> Iterator[Notice]:
        """A whole frame."""
        self.frames += 1
        crc, size = crc_of(frame), (frame.width, len(frame.rows))
        self.seen.append(Seen(now(), f"{self.seconds:.3f}", self.frames, frame.begin, *size, f"{crc:08x}", frame.faults))
        for said in self.pictures.take(frame, crc):
            yield from self.row(said, epoch, frame.begin)

    def idle(self, feed: Feed) -> Iterator[Notice]:
        """Whether nothing comes at all, or on a lane."""
        silence = feed.silence
        if silence and self.stalled is None:
            self.stalled = time.monotonic() - silence
            yield from self.row(Said("stalled", f"nothing comes after {came_of(feed.lanes)}"))
        elif not silence and self.stalled is not None:
            seconds, self.stalled = time.monotonic() - self.stalled, None
            yield from self.row(Said("resumed", f"bytes come again after {seconds:.1f} s"))
        while feed.stuck.changes:
            change = feed.stuck.changes.popleft()
            yield from self.row(Said("alive" if change.bit == LIVES else "dead", str(change)), lane=change.lane)


def came_of(lanes: Sequence[int]) -> str:
    """How many bytes of each lane came, in words."""
    if len(set(lanes)) == 1:
        return f"{counted(lanes[0], 'byte')} of each lane"
    return ", ".join(f"{counted(count, 'byte')} of {name}" for count, name in zip(lanes, LANES))
