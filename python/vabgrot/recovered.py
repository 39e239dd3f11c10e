"""The contents of a complete capture as arrays: frames, packets, samples and faults."""

from __future__ import annotations

import html
import io
from base64 import b64encode
from collections.abc import Iterator
from dataclasses import dataclass, field, fields, replace
from functools import cached_property

import numpy as np
import numpy.typing as npt

from vabgrot import packets, reading
from vabgrot.capture import Given, source_of
from vabgrot.content import Flow, Frame, Packets, packet_of, packets_of, picture_of
from vabgrot.events import BLOCKED, ENDS, IS_LANED, UNTOLD, WORDS, End, Event, Events, Kind, Octets, joined
from vabgrot.formats.layouts import BODIES, BODY, CARRIED, HEADER, LAYOUTS, Type
from vabgrot.errors import Refused
from vabgrot.library import KINDS, Grammar
from vabgrot.reading import Reading
from vabgrot.receiving import warn_of_dvi
from vabgrot.video.matching import counted

FAULT = np.dtype([("column", "<i8"), ("at", "<i8"), ("kind", "U10"), *((it, "<i8") for it in ("lane", "block", "bit", "count", "epoch"))])
SAMPLE = np.dtype(
    [("column", "<i8"), ("left", "<i4"), ("right", "<i4"), ("left_flags", "u1"), ("right_flags", "u1"), ("start", "?"), ("pair", "u1")]
    + [("epoch", "<i8")]
)
FIELDS = LAYOUTS["samples"].fields
FULL = 1 << FIELDS["left"].bits - 1  # of full scale
NONE = -1  # of a fault: it has no such number
FEW = 3  # notes, or widths of lines, that are shown


class Packet(Event):
    """An event that is a packet: its type in words, what it says, and the numbers of its fields."""

    __slots__ = ()

    @classmethod
    def of(cls, event: Event) -> Packet:
        """The packet that an event is. Raises ValueError if it is none."""
        if event.kind != Kind.PACKET:
            raise ValueError(f"no packet: {event}")
        return cls(*(getattr(event, it.name) for it in fields(event)))

    @property
    def content(self) -> packets.Packet:
        """Its header and its bodies, as the tools read them."""
        return packet_of(self.data)

    @property
    def name(self) -> str:
        """What its type is called, such as "AVI InfoFrame"."""
        return self.content.name

    @property
    def words(self) -> str:
        """What it says, in words."""
        return packets.content_of(self.content).words

    @property
    def fields(self) -> dict[str, int]:
        """The numbers of its fields by the names of the standard, such as "VIC"; none if its type, version or length is not known."""
        return self.content.numbers

    def __str__(self) -> str:
        return f"column {self.first}: {self.name}: {self.words}"


@dataclass(frozen=True)
class Epoch(reading.Epoch):
    """A stretch with one alignment. `starts` is the bit of each lane at which its column 0 begins; None if it was not aligned."""

    starts: tuple[int, ...] | None


@dataclass(frozen=True, eq=False, repr=False)
class Recovered:
    """The contents of a capture: its events with their bytes, and the end of its lanes. The other properties are computed on first use."""

    reading: Reading  # whose events have their pixels
    end: End

    @property
    def events(self) -> Events:
        """All events with their bytes."""
        return self.reading.events

    @property
    def kind(self) -> Grammar:
        """As which kind of link it was read."""
        return self.reading.grammar

    @property
    def aligned(self) -> bool:
        """Whether the lanes were aligned."""
        return self.end.aligned

    @property
    def columns(self) -> int:
        """How many columns there were, in all epochs."""
        return self.reading.columns if self.end.columns == UNTOLD else self.end.columns

    @cached_property
    def epochs(self) -> list[Epoch]:
        """Its stretches with one alignment each: their cause, and where their columns begin."""
        its = self.reading.epochs
        columns = [one.columns for one in its] if len(its) > 1 else [self.columns]
        starts = [self.reading.starts(one) if self.aligned else None for one in its]
        placed = zip(its, columns, starts)
        return [Epoch(**vars(replace(one, columns=many)), starts=tuple(place) if place else None) for one, many, place in placed]

    @property
    def notes(self) -> list[str]:
        """Where and why it was aligned again, in words."""
        return self.reading.notes

    def pictures(self) -> Iterator[Octets]:
        """The frames, one after another."""
        flow = Flow()
        for parts in (flow.take(self.events), flow.finish()):
            yield from (picture_of(it.rows) for it in parts if isinstance(it, Frame) and it.is_whole)

    @cached_property
    def frames(self) -> list[Octets]:
        """The whole frames: the lines between two changes of VSYNC, an array of rows by columns by three (red, green, blue as bytes)
        each. As wide as its first row is; rows that are shorter end in black."""
        return [*self.pictures()]

    @cached_property
    def packets(self) -> list[Packet]:
        """The packets without a lost block."""
        return [Packet.of(it) for it in self.events.views(self.whole.place)]

    @cached_property
    def whole(self) -> Packets:
        """The packets without a lost block, as arrays."""
        return packets_of(self.events).known

    def __repr__(self) -> str:
        its, lines = self.events, self.events.of(Kind.LINE)
        widths = [f"{width:,} pixels" for width in np.unique(its.value[lines])[:FEW].tolist()]
        rows = counted(len(lines), "line") + (f" of {', '.join(widths)}" if widths else "")
        parts = f"{rows}; {counted(len(its.of(Kind.PACKET)), 'packet')}; {counted(len(its.faults), 'fault')}"
        state = "aligned" if self.aligned else "not aligned"
        return "\n".join([f"Recovered(kind={self.kind!r}, {state}, {self.columns:,} columns: {parts})", *self.notes[:FEW]])

    def _repr_html_(self) -> str:
        """What a notebook shows: the same, and the first frame."""
        text = f"<pre>{html.escape(repr(self))}</pre>"
        first = next(self.pictures(), None)
        if first is None:
            return text
        from PIL import Image

        with io.BytesIO() as file:
            Image.fromarray(first, "RGB").save(file, "PNG")
            data = b64encode(file.getvalue()).decode()
        height, width, _ = first.shape
        return f'{text}<img alt="the first frame, {width} by {height}" src="data:image/png;base64,{data}">'

    @cached_property
    def samples(self) -> npt.NDArray[np.void]:
        """The samples of these packets of L-PCM: the first column of the packet, the values of both sides (24 bits with a sign), V, U,
        C and P of each in bits 0 to 3, whether a block starts, of which pair of channels (0 is channels 1 and 2), and in which epoch."""
        its = self.whole.of(Type.SAMPLES)
        which, body = np.nonzero(FIELDS["sample_present"].flags(its.octets))
        bodies = its.octets[:, HEADER:CARRIED].reshape(-1, BODIES, BODY)[which, body]
        found = np.empty(len(which), SAMPLE)
        found["column"], found["epoch"] = its.at[which], self.events.epoch[its.place[which]]
        for side in ("left", "right"):
            value = FIELDS[side].numbers(bodies)
            found[side] = np.where(value > FULL, value - 2 * FULL, value)
            found[f"{side}_flags"] = FIELDS[f"{side} VUCP"].numbers(bodies)
        found["start"] = FIELDS["B"].flags(its.octets)[which, body]
        found["pair"] = body * FIELDS["layout"].numbers(its.octets)[which]
        return found

    @cached_property
    def faults(self) -> npt.NDArray[np.void]:
        """The faults: the column at which each is reported, the one that it names (`at`), its kind as listings have it, its lane, block,
        bit and count, -1 if the kind has none, and its epoch. Slips and relocks are no faults of an epoch, but begin one."""
        its = self.events[self.events.faults]
        its = its[~np.isin(its.kind, ENDS)]
        found = np.empty(len(its), FAULT)
        found["column"], found["at"], found["epoch"] = its.column, its.first, its.epoch
        found["kind"] = np.array(WORDS, "U10")[its.kind]
        is_blocked, is_mended, is_symbols = np.isin(its.kind, BLOCKED), its.kind == Kind.MENDED, its.kind == Kind.SYMBOLS
        for name, has, values in (
            ("lane", IS_LANED[its.kind], its.value),
            ("block", is_blocked, its.value),
            ("bit", is_mended, its.second),
            ("count", is_symbols, its.value),
        ):
            found[name] = np.where(has, values, NONE)
        return found


@dataclass
class Kept:
    """Keeps all events with their pixels."""

    parts: list[Events] = field(default_factory=list)

    def take(self, events: Events) -> None:
        """The next events."""
        self.parts.append(events)


def recover(source: Given, *, kind: Grammar = "link") -> Recovered:
    """What a capture carries: a file, its bytes, or an open binary file, of either version (docs/guide/FORMATS.md). `kind` is that of the
    Receiver. Warns with KindWarning if it may be DVI, and was not read as that. Raises Refused if it is no whole capture, ValueError if
    there is no such kind, NoLibrary if the C library is missing, or OSError."""
    if kind not in KINDS:
        raise ValueError(f"there is no kind {kind!r} of captures, but {', '.join(KINDS)}")
    its, kept = source_of(source), Kept()
    if (bits := reading.bits_of(its)).is_cut_off:
        raise Refused(f"{its}: {bits.words}. Record or copy it again")
    read, end = reading.read_as(its, kind, kept, is_shown=False)
    found = Recovered(replace(read, events=joined(kept.parts)), end)
    if kind != "dvi":
        warn_of_dvi(np.unique(found.events.kind).tolist(), 2)
    return found
