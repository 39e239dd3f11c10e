"""The contents of a capture: complete packets, samples of both layouts, frames, and the places where something may be missing.

No field is taken from a packet with a lost block. `Losses` says where something may be missing. So a rule can distinguish "the source did
not send it" from "the link lost it"."""

from __future__ import annotations

from collections import Counter
from collections.abc import Iterator, Sequence
from dataclasses import dataclass, field
from functools import cached_property

import numpy as np

from vabgrot.events import ENDS, IS_OF_PACKET, UNTOLD, WORDS, Events, Ints, Kind, Mask, Octets, joined
from vabgrot.formats.characters import PACKET, VSYNC
from vabgrot.formats.layouts import BODIES, BODY, CARRIED, HEADER, LAYOUTS, Type
from vabgrot.packets import Packet
from vabgrot.reading import Reading

SAMPLE = LAYOUTS["samples"].fields
SIDES = ("left", "right")
CERTAIN = 3  # VSYNC has a level once this many neighbouring columns have it
PARITY = np.array([value.bit_count() & 1 for value in range(256)], bool)
NOTHING = np.zeros(0, np.int64)


@dataclass(frozen=True, eq=False)
class Packets:
    """Packets with what the receiver says about their blocks. `at` counts columns over all epochs, `place` is the number of the event.
    `mended` has a bit for each block."""

    at: Ints
    place: Ints
    octets: Octets  # 63 bytes for each packet
    lost: Mask
    mended: Octets
    wrong: Ints  # the number of characters that are not in TERC4

    def __len__(self) -> int:
        return len(self.at)

    @property
    def kind(self) -> Octets:
        """The types."""
        return self.octets[:, 0]

    def __getitem__(self, which: Ints | Mask | slice) -> Packets:
        its = self.at[which], self.place[which], self.octets[which], self.lost[which], self.mended[which], self.wrong[which]
        return Packets(*its)

    @property
    def known(self) -> Packets:
        """The packets without a lost block."""
        return self[~self.lost]

    @property
    def intact(self) -> Mask:
        """Whether each packet has no damaged character and no repaired block. A block with more than one wrong bit may be repaired
        wrongly."""
        found: Mask = ~self.lost & (self.mended == 0) & (self.wrong == 0)
        return found

    def of(self, kind: int) -> Packets:
        """Returns the packets of a type that have no lost block. A General Control packet counts only if its four bodies are equal."""
        which = ~self.lost & (self.kind == kind)
        if kind == Type.CONTROL:
            bodies = self.octets[:, HEADER:CARRIED].reshape(-1, BODIES, BODY)
            which &= (bodies == bodies[:, :1]).all(axis=(1, 2))
        return self[which]

    def packet(self, place: int) -> Packet:
        """Returns one packet."""
        return packet_of(self.octets[place].tobytes())

    def __iter__(self) -> Iterator[Packet]:
        return map(self.packet, range(len(self)))


def packet_of(data: bytes) -> Packet:
    """Returns a packet, given its header and bodies."""
    return Packet(data[:HEADER], [data[at : at + BODY] for at in range(HEADER, CARRIED, BODY)])


def packets_of(events: Events, before: Ints | int = 0, first: int = 0) -> Packets:
    """Returns the packets in some events. The events must contain the faults of these packets. `before` is the number of columns in
    earlier epochs, for each event. `first` is the number of the first event."""
    places = events.of(Kind.PACKET)
    lost, mended = (blocks_of(events, places, kind) for kind in (Kind.LOST, Kind.MENDED))
    at = (events.first + before)[places]
    return Packets(at, places + first, events.octets(places), lost != 0, mended, events.second[places])


def blocks_of(events: Events, packets: Ints, kind: Kind) -> Octets:
    """Returns for each packet the blocks that a kind of fault names, as one bit for each."""
    found, faults = np.zeros(len(packets), np.uint8), events.of(kind)
    which = np.searchsorted(packets, faults) - 1  # a fault of a packet is reported between it and the next one
    np.bitwise_or.at(found, which, (1 << events.value[faults]).astype(np.uint8))
    return found


def packets_in(packets: Sequence[Packet]) -> Packets:
    """Returns packets as undamaged. Use it for the packets of a content listing."""
    octets = np.array([[*one.header, *one.bytes, *bytes(PACKET)] for one in packets], np.uint8)
    number, zeros = np.arange(len(packets)), np.zeros(len(packets), np.int64)
    return Packets(number, number, octets, zeros.astype(bool), zeros.astype(np.uint8), zeros)


@dataclass(frozen=True, eq=False)
class Losses:
    """Where the link may have lost something, and why: a packet with a lost block, unknown columns, or a new alignment. Columns count
    over all epochs and are sorted."""

    at: Ints
    why: tuple[str, ...]

    def between(self, begin: int, end: int) -> str:
        """Returns why something may be missing in a range of columns, or "" if nothing can be."""
        first, behind = np.searchsorted(self.at, (begin, end))
        return self.why[int(first)] if first < behind else ""


@dataclass(frozen=True, eq=False)
class Samples:
    """The samples of both layouts. For each packet: its column, the number of its samples, its layout, and how many sides have odd parity
    (`odd`). For each pair of channels: the bodies, the number of each sample, and which bodies start a block. `breaks` are the samples
    before which some may be lost."""

    at: Ints
    counts: Ints
    layouts: Ints
    odd: Ints
    bodies: tuple[Octets, ...]
    numbers: tuple[Ints, ...]
    starts: tuple[Ints, ...]
    breaks: Ints

    @property
    def total(self) -> int:
        """The number of samples."""
        return int(self.counts.sum())

    @property
    def layout(self) -> int:
        """The layout of the majority of packets."""
        return int(2 * self.layouts.sum() > len(self.layouts))

    @property
    def is_wide(self) -> bool:
        """Whether there are more than two channels."""
        return bool(self.layouts.any())


def odd_sides(headers: Octets, bodies: Octets) -> Mask:
    """Returns for each body and side of packets of samples whether the parity is odd. A body without a sample is never odd."""
    present = SAMPLE["sample_present"].flags(headers)
    both = (PARITY[np.bitwise_xor.reduce(SAMPLE[side].octets(bodies), axis=2) ^ SAMPLE[f"{side} VUCP"].numbers(bodies)] for side in SIDES)
    found: Mask = np.stack([*both], axis=2) & present[:, :, None]
    return found


def bodies_of(octets: Octets) -> Octets:
    """Returns the bodies of packets."""
    return octets[:, HEADER:CARRIED].reshape(-1, BODIES, BODY)


def samples_of(packets: Packets, losses: Ints = NOTHING) -> Samples:
    """Returns the samples of packets. `losses` are columns at which something may be lost."""
    its = packets.of(Type.SAMPLES)
    bodies = bodies_of(its.octets)
    layouts = SAMPLE["layout"].numbers(its.octets)
    wide, present, begins = layouts.astype(bool), SAMPLE["sample_present"].flags(its.octets), SAMPLE["B"].flags(its.octets)
    counts = np.where(wide, present.any(axis=1), present.sum(axis=1)).astype(np.int64)
    firsts, narrow = np.cumsum(counts) - counts, present & ~wide[:, None]
    places = (firsts[:, None] + np.cumsum(present, axis=1) - 1)[narrow]
    pairs = 1 + max(np.flatnonzero((present & wide[:, None]).any(axis=0)).tolist(), default=0)
    found: list[tuple[Octets, Ints, Ints]] = []
    for pair in range(pairs):
        here = present[:, pair] & wide
        number, body, start = firsts[here], bodies[here, pair], begins[here, pair]
        if pair == 0 and len(places):
            number, body = np.concatenate((places, number)), np.concatenate((bodies[narrow], body))
            start = np.concatenate((begins[narrow], start))
            order = np.argsort(number, kind="stable")
            number, body, start = number[order], body[order], start[order]
        found.append((body, number, np.flatnonzero(start)))
    totals = np.append(0, np.cumsum(counts))
    breaks = np.unique(totals[np.searchsorted(its.at, losses)])
    odd = odd_sides(its.octets, bodies).sum(axis=(1, 2)).astype(np.int64)
    kept, numbers, starts = zip(*found)
    return Samples(its.at, counts, layouts.astype(np.int64), odd, kept, numbers, starts, breaks)


@dataclass(frozen=True, eq=False)
class Content:
    """The contents of a reading. With `is_intact` only undamaged packets count, and all others are treated as lost."""

    reading: Reading
    is_intact: bool = False

    @cached_property
    def packets(self) -> Packets:
        """All packets. Those in columns that are not trusted count as lost: a lane that lost one character shifts a header by one bit,
        and in a cyclic code the result is often a block without an error."""
        found = packets_of(self.reading.events, self.reading.before)
        if self.is_intact:
            found.lost[~found.intact] = True
        for begin, end in self.reading.tails.tolist():
            found.lost[np.searchsorted(found.at, begin) : np.searchsorted(found.at, end)] = True
        return found

    @cached_property
    def losses(self) -> Losses:
        """Where something may be missing. Unknown columns at the very end of the capture do not count."""
        found = [(at, "a packet was lost") for at in self.packets.at[self.packets.lost].tolist()]
        end = self.reading.columns
        found += [(begin, "columns could not be read") for begin, stop in self.reading.gaps.tolist() if stop < end]
        found += [(one.before, f"{one.cause.word} of the alignment") for one in self.reading.epochs if one.cause is not None]
        found.sort()
        return Losses(np.array([at for at, _ in found], np.int64), tuple(why for _, why in found))

    @cached_property
    def samples(self) -> Samples:
        """All samples."""
        return samples_of(self.packets, self.losses.at)


# ---- frames: they need pixels, so they are made while a capture is read


@dataclass(frozen=True, eq=False)
class Marks:
    """The faults among the rows of a frame. For each: the number of the event, its kind, its lane (or another number), the row before it,
    and its pixel in that row. A fault without a pixel has one before or after the row."""

    place: Ints
    kind: Octets
    value: Ints
    row: Ints
    pixel: Ints

    def of(self, kind: Kind) -> Iterator[tuple[int, int, int, int]]:
        """Yields the number, lane, row and pixel of the faults of a kind."""
        which = np.flatnonzero(self.kind == kind)
        return zip(*(one[which].tolist() for one in (self.place, self.value, self.row, self.pixel)))

    @property
    def counts(self) -> Counter[str]:
        """Counts the faults by kind."""
        kinds, times = np.unique(self.kind, return_counts=True)
        return Counter({WORDS[kind]: many for kind, many in zip(kinds.tolist(), times.tolist())})


@dataclass(frozen=True, slots=True, eq=False)
class Frame:
    """The rows between two changes of VSYNC in one epoch: their bytes, the columns of their first pixels, and the numbers of their
    events.

    `change` is the column of the change of VSYNC before them (None if not known). `ended` says what ended the frame: "vsync", "slip",
    "relock" or "end". `is_begun` says whether VSYNC changed before the rows."""

    change: int | None
    rows: list[bytes]
    firsts: list[int]
    places: list[int]
    marks: Marks
    end: int  # the number of the event that ended the frame
    ended: str
    is_begun: bool

    @property
    def is_whole(self) -> bool:
        """Whether VSYNC changed before and after the rows."""
        return self.is_begun and self.ended == "vsync"

    @property
    def width(self) -> int:
        """The number of pixels of the first row."""
        return len(self.rows[0]) // 3

    @property
    def ragged(self) -> int:
        """The number of rows with a different width than the first one."""
        sizes = [*map(len, self.rows)]
        return len(sizes) - sizes.count(sizes[0])


def picture_of(rows: Sequence[bytes]) -> Octets:
    """Returns the pixels of rows. The picture is as wide as the first row. Shorter rows are padded with black."""
    width = len(rows[0])
    data = b"".join(row[:width].ljust(width, b"\0") for row in rows)
    return np.frombuffer(data, np.uint8).reshape(len(rows), -1, 3)


@dataclass
class Vsync:
    """Follows VSYNC. A level counts once three neighbouring columns have it. Only a damaged control character may be between them."""

    heard: int | None = None
    level: int | None = None
    streak: int = 0

    def changes(self, events: Events) -> list[tuple[int, int]]:
        """Returns the changes of VSYNC in some events of one epoch: the run in which each counts, and how many columns had the new level
        by the end of that run."""
        runs = events.of(Kind.RUN)
        parts = (events.kind != Kind.RUN) & (events.kind != Kind.WORD)
        parted = np.append(0, np.cumsum(parts))[np.append(runs, len(events))]
        if not len(runs):
            self.streak = 0 if parted[-1] else self.streak
            return []
        levels, counts = events.value[runs] & VSYNC, events.width[runs]
        starts = np.append(0, 1 + np.flatnonzero((levels[1:] != levels[:-1]) | (parted[1:-1] != parted[:-2])))
        sums = np.add.reduceat(counts, starts)
        before = self.streak if levels[0] == self.level and not parted[0] else 0
        sums[0] += before
        found = []
        for group in self.others(levels[starts], sums):
            level = int(levels[starts[group]])
            is_first, self.heard = self.heard is None, level
            place, streak = int(starts[group]), before if group == 0 else 0
            while (streak := streak + int(counts[place])) < CERTAIN:
                place += 1
            if not is_first:
                found.append((int(runs[place]), streak))
        self.level = int(levels[-1])
        self.streak = int(sums[-1]) if parted[-1] == parted[-2] else 0
        return found

    def others(self, levels: Ints, sums: Ints) -> list[int]:
        """Returns the groups of columns that have a different level than the last one that counted."""
        known = np.flatnonzero(sums >= CERTAIN)
        before = np.append(-1 if self.heard is None else self.heard, levels[known[:-1]])
        found: list[int] = known[levels[known] != before[: len(known)]].tolist()
        return found


@dataclass
class Framer:
    """Makes frames from events that arrive in parts. `count` is the number of events so far."""

    vsync: Vsync = field(default_factory=Vsync)
    count: int = 0
    parts: list[Events] = field(default_factory=list)  # events of the current frame
    first: int = 0  # the number of the current frame's first event
    change: int | None = None
    is_begun: bool = False

    def take(self, events: Events) -> Iterator[tuple[int, Frame]]:
        """Takes the next events. Yields the frames that end there, each with the place of its end."""
        ends = events.of(*ENDS).tolist()
        for begin, stop in zip([0, *(end + 1 for end in ends)], [*ends, len(events)]):
            its, at = events[begin:stop], 0
            for place, streak in self.vsync.changes(its):
                self.parts.append(its[at:place])
                for frame in self.ended(begin + place, "vsync"):
                    yield begin + place, frame
                after = int(its.end[place])
                self.change, self.is_begun, at = after - streak if its.first[place] != UNTOLD else None, True, place
                self.first = self.count + begin + place
            self.parts.append(its[at:])
            if stop < len(events):
                for frame in self.finish(Kind(events.kind[stop]).word, stop):
                    yield stop, frame
                self.first = self.count + stop + 1
        self.count += len(events)

    def ended(self, place: int, ended: str) -> Iterator[Frame]:
        """Yields the frame that ends before an event, if it has rows."""
        parts, number, self.parts = self.parts, self.first, []
        rows, firsts, places, marks = list[bytes](), list[int](), list[int](), list[Marks]()
        for its in parts:
            lines = its.of(Kind.LINE)
            marks.append(marks_of(its, lines, number, firsts))
            rows += [its.data[at : at + size].tobytes() for at, size in zip(its.offset[lines].tolist(), its.size[lines].tolist())]
            firsts += first_pixels(its, lines).tolist()
            places += (lines + number).tolist()
            number += len(its)
        if rows:
            both = Marks(*(np.concatenate(one) for one in zip(*((it.place, it.kind, it.value, it.row, it.pixel) for it in marks))))
            yield Frame(self.change, rows, firsts, places, both, self.count + place, ended, self.is_begun)

    def finish(self, ended: str = "end", place: int = 0) -> Iterator[Frame]:
        """Yields the last frame: an epoch ends at an event, or the capture ends."""
        yield from self.ended(place, ended)
        self.change, self.is_begun, self.vsync = None, False, Vsync()


def marks_of(events: Events, lines: Ints, number: int, before: Sequence[int]) -> Marks:
    """Returns the faults after the first row of a frame. `before` are the first columns of the rows before these events."""
    faults = events.faults
    row = len(before) + np.searchsorted(lines, faults) - 1
    faults, row = faults[row >= 0], row[row >= 0]
    firsts = np.append(before[-1:], first_pixels(events, lines)).astype(np.int64)[row - max(0, len(before) - 1)]
    pixel = np.where(firsts == UNTOLD, UNTOLD, events.first[faults] - firsts)
    return Marks(faults + number, events.kind[faults], events.value[faults], row, pixel)


def first_pixels(events: Events, lines: Ints) -> Ints:
    """Returns the columns of the first pixels of rows."""
    return np.where(events.first[lines] == UNTOLD, UNTOLD, (events.end - events.value)[lines])


def known_up_to(its: Events) -> int:
    """Returns the number of events before the last packet, if its faults may still follow, otherwise the number of all events."""
    last = len(its)
    while last and IS_OF_PACKET[its.kind[last - 1]]:
        last -= 1
    return last - 1 if last and its.kind[last - 1] == Kind.PACKET else len(its)


@dataclass
class Flow:
    """The contents of a capture while it is read: packets (once all their faults are known) and frames with their pixels. The packets
    before the end of a frame are yielded before the frame. Columns count in each epoch."""

    framer: Framer = field(default_factory=Framer)
    rest: Events = field(default_factory=lambda: joined([]))
    count: int = 0

    def take(self, events: Events) -> Iterator[Frame | Packets]:
        """Takes the next events. Yields frames and packets."""
        its = joined([self.rest, events]) if len(self.rest) else events
        keep = known_up_to(its)
        self.rest = its[keep:].without_pixels()
        yield from self.known(its[:keep])

    def known(self, its: Events) -> Iterator[Frame | Packets]:
        """Yields the frames and packets of events. The faults of all packets are known."""
        at = 0
        for place, frame in self.framer.take(its):
            yield from self.packets(its[at:place], self.count + at)
            yield frame
            at = place
        yield from self.packets(its[at:], self.count + at)
        self.count += len(its)

    @staticmethod
    def packets(its: Events, first: int) -> Iterator[Packets]:
        """Yields the packets of some events, if there are any."""
        found = packets_of(its, first=first)
        if len(found):
            yield found

    def finish(self) -> Iterator[Frame | Packets]:
        """Yields the rest, at the end of the capture."""
        yield from self.known(self.rest)
        yield from self.framer.finish()
