"""The packets of a live link as arrays, and as a pcap file."""

from __future__ import annotations

from collections import Counter
from collections.abc import Iterator
from dataclasses import dataclass, field
from fractions import Fraction
from functools import lru_cache
from typing import NamedTuple

import numpy as np

from vabgrot import packets
from vabgrot.content import Packets, blocks_of, packet_of
from vabgrot.events import Ints, Kind, Octets
from vabgrot.flow.frames import Framer, Stretch, learn
from vabgrot.flow.pace import Pace
from vabgrot.flow.parts import Part
from vabgrot.flow.sound import Sound
from vabgrot.formats.layouts import CARRIED
from vabgrot.formats.modes import CUSTOM_CLOCK
from vabgrot.packets import Packet
from vabgrot.video.signals import Signals

MOST_HELD = 1 << 18  # the most packets that wait until the pixel clock is known
MANY = 1 << 12  # the most different packets for which the text is kept
NO_CLOCK = f"nothing tells the pixel clock: {CUSTOM_CLOCK:,} Hz are taken (give --clock)"
GIGA = 1_000_000_000
PCAP_MAGIC, PCAP_VERSION, LINKTYPE_USER0 = 0xA1B23C4D, (2, 4), 147  # the magic number for nanoseconds, the version, and the link type
HEAD = np.dtype(
    [("magic", "<u4"), ("major", "<u2"), ("minor", "<u2"), ("zone", "<i4"), ("figures", "<u4"), ("most", "<u4"), ("type", "<u4")]
)
RECORD = np.dtype(
    [(name, "<u4") for name in ("seconds", "nanoseconds", "taken", "length")]
    + [("column", ">u8"), ("epoch", ">u4"), ("frame", ">u4"), ("lost", "u1"), ("mended", "u1"), ("damaged", "u1"), ("spare", "u1")]
    + [("octets", "u1", CARRIED)]
)
RECORD_HEAD = 16  # bytes of a record before its packet


@dataclass(frozen=True, eq=False)
class Islands:
    """Packets. For each one: its epoch, its column in the epoch, the number of its frame, and a bit for each lost block (4 is the
    header)."""

    packets: Packets
    epoch: Ints
    first: Ints
    frame: Ints
    lost: Octets

    def __len__(self) -> int:
        return len(self.packets)

    @property
    def octets(self) -> Octets:
        """The headers and bodies."""
        return self.packets.octets[:, :CARRIED]


def islands_of(stretch: Stretch, frame: int) -> Islands:
    """Returns the packets of a stretch. They come before the end of frame `frame`."""
    its, every, events = stretch.packets, stretch.part.packets.place, stretch.part.events
    lost = blocks_of(events, every, Kind.LOST)[np.searchsorted(every, its.place)]
    return Islands(its, events.epoch[its.place], events.first[its.place], np.full(len(its), frame, np.int64), lost)


@dataclass
class Paced:
    """Holds packets back until the columns a second are known."""

    pace: Pace
    clock: Fraction | None = None
    note: str = ""
    framer: Framer = field(default_factory=Framer)
    sound: Sound = field(default_factory=Sound)
    signals: Signals = field(default_factory=Signals)
    held: list[Islands] = field(default_factory=list)
    frames: int = 0

    def take(self, part: Part) -> Iterator[Islands]:
        """Takes the next part. Yields its packets after those held back."""
        for stretch in self.framer.take(part):
            found = islands_of(stretch, self.frames)
            if len(found):
                self.held.append(found)
            if self.clock is None:
                self.learn(stretch)
            self.frames += stretch.frame is not None
        if self.clock is None and sum(map(len, self.held)) > MOST_HELD:
            self.guess()
        if self.clock is not None:
            yield from self.held
            self.held.clear()

    def learn(self, stretch: Stretch) -> None:
        """Determines the columns a second from a stretch, if possible."""
        self.sound.take(stretch.packets)
        learn(self.signals, stretch.packets)
        if stretch.frame:
            signal = self.signals.reading(stretch.frame.width).signal
            vic = self.signals.avi["VIC"] if self.signals.avi else 0
            self.clock, self.note = self.pace.of(stretch.frame, signal, vic, self.sound) or (None, "")

    def guess(self) -> None:
        """Sets the columns a second without a frame."""
        self.clock, self.note = self.pace.without(self.sound) or (Fraction(CUSTOM_CLOCK), NO_CLOCK)

    def end(self) -> Iterator[Islands]:
        """Yields the packets that are still held back."""
        if self.clock is None:
            self.guess()
        yield from self.held


class Said(NamedTuple):
    """A packet in words: its name, a description, and the numbers of its fields."""

    name: str
    words: str
    fields: str


@lru_cache(MANY)
def said(octets: bytes, is_lost: bool) -> Said:
    """Describes a packet. If it has a lost block, nothing is said."""
    packet = packet_of(octets)
    if is_lost:
        return Said(packet.name, "", "")
    content = packets.content_of(packet)
    numbers = "; ".join(f"{name}={number}" for name, number in packet.numbers.items())
    return Said(packet.name, ", ".join([content.words, *content.faults]), numbers)


@dataclass
class Kinds:
    """Counts packets by type, and the distance between them."""

    counts: Counter[int] = field(default_factory=Counter)
    lost: Counter[int] = field(default_factory=Counter)
    mended: Counter[int] = field(default_factory=Counter)
    last: dict[int, int] = field(default_factory=dict)
    spans: dict[int, tuple[int, int, int, int]] = field(default_factory=dict)  # minimum, sum, maximum and number of distances

    def take(self, its: Islands) -> Ints:
        """Takes the next packets. Returns for each the columns since the last packet of its type, or -1 if there was none."""
        types, behind = its.octets[:, 0], np.full(len(its), -1, np.int64)
        for kind in np.unique(types).tolist():
            which = np.flatnonzero(types == kind)
            self.counts[kind] += len(which)
            self.lost[kind] += int((its.lost[which] != 0).sum())
            self.mended[kind] += int((its.packets.mended[which] != 0).sum())
            columns = its.packets.at[which]
            apart = np.diff(columns, prepend=self.last.get(kind, columns[0]))[0 if kind in self.last else 1 :]
            behind[which[len(which) - len(apart) :]] = apart
            self.last[kind] = int(columns[-1])
            if len(apart):
                least, total, most, count = self.spans.get(kind, (int(apart[0]), 0, 0, 0))
                self.spans[kind] = min(least, int(apart.min())), total + int(apart.sum()), max(most, int(apart.max())), count + len(apart)
        return behind

    def rows(self, clock: Fraction) -> Iterator[tuple[str, ...]]:
        """Yields the rows of a table: type, name, number of packets, how many have a lost block and a repaired one, and the milliseconds
        between them."""
        for kind, count in sorted(self.counts.items()):
            name = Packet(bytes((kind, 0, 0)), []).name
            least, total, most, spans = self.spans.get(kind, (0, 0, 0, 0))
            figures = (Fraction(least), Fraction(total, spans), Fraction(most)) if spans else ()
            apart = [f"{float(1000 * one / clock):.3f}" for one in figures] or [""] * 3
            yield f"{kind:02x}", name, f"{count:,}", f"{self.lost[kind]:,}", f"{self.mended[kind]:,}", *apart


def pcap_head() -> bytes:
    """Returns the header of a pcap file."""
    return np.array([(PCAP_MAGIC, *PCAP_VERSION, 0, 0, 65_535, LINKTYPE_USER0)], HEAD).tobytes()


def pcap_records(its: Islands, clock: Fraction) -> bytes:
    """Returns the records of packets. Each has a header of 20 bytes and then the 31 bytes of the packet (docs/guide/TOOLS.md)."""
    found = np.zeros(len(its), RECORD)
    whole, rest = np.divmod(its.packets.at * clock.denominator, clock.numerator)
    found["seconds"], found["nanoseconds"] = whole, rest.astype(np.float64) * (GIGA / clock.numerator)
    found["taken"] = found["length"] = RECORD.itemsize - RECORD_HEAD
    found["column"], found["epoch"], found["frame"] = its.first, its.epoch, its.frame
    found["lost"], found["mended"], found["damaged"] = its.lost, its.packets.mended, its.packets.wrong
    found["octets"] = its.octets
    return found.tobytes()
