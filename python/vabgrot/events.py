"""The events that a receiver reports, as one type: arrays of events, and the bytes of rows and packets.

`Events` come from the C library (`of_records`) or from a listing (`listing.parsed`). No other module needs to know which of the two. A
view (`Event`) is an object for one event: use it for faults and for printing, not for a million runs."""

from __future__ import annotations

import enum
import reprlib
from collections.abc import Iterator, Sequence
from dataclasses import dataclass, fields, replace
from typing import Any, overload

import numpy as np
import numpy.typing as npt

from vabgrot.formats import faults
from vabgrot.formats.characters import LANES, PACKET
from vabgrot.formats.layouts import BODY, CARRIED, HEADER

Ints = npt.NDArray[np.int64]
Octets = npt.NDArray[np.uint8]
Mask = npt.NDArray[np.bool_]
Records = npt.NDArray[np.void]

UNTOLD = -1  # a column that a listing does not give
WHOLE = CARRIED + PACKET  # bytes of a packet in `data`: header, bodies, and a sync value for each of its columns
SHOWN = 3  # events at each end that a `repr` of many has
GUARDS = 2  # columns before the pixels of a line, and of what opens or closes an island
# A record of vabgrot.h; its columns are below 2^60.
RECORD = np.dtype(
    [(name, "<i8") for name in ("column", "named", "count", "offset")] + [(name, "<u4") for name in ("size", "kind", "value", "second")]
)


class Kind(enum.IntEnum):
    """The kinds of events, with their numbers in vabgrot.h. From WORD on they are faults. SLIP and RELOCKED end an epoch."""

    RUN = 0
    LINE = 1
    OPEN = 2
    PACKET = 3
    CLOSE = 4
    CUT = 5
    WORD = 6
    SHORT = 7
    PREAMBLE = 8
    NOISE = 9
    EMPTY = 10
    CODE = 11
    LONG_LINE = 12
    SYMBOLS = 13
    MENDED = 14
    LOST = 15
    LONG_ISLAND = 16
    BROKEN = 17
    GUARD = 18
    SLIP = 19
    RELOCKED = 20

    @property
    def word(self) -> str:
        """The word for a fault in a listing."""
        return "relock" if self == Kind.RELOCKED else self.name.lower().replace("_", "")


WORDS = [kind.word for kind in Kind]
OF_WORD = {kind.word: kind for kind in Kind if kind >= Kind.WORD}
ENDS = (Kind.SLIP, Kind.RELOCKED)  # they end an epoch
LANED = tuple(OF_WORD[word] for word in faults.LINK if word in faults.LANED)  # `value` is a lane
BLOCKED = (Kind.MENDED, Kind.LOST)  # `value` is a block of a packet
OF_PACKET = tuple(OF_WORD[word] for word in faults.LINK if word in faults.OF_PACKET)  # reported directly after their packet
COVERS = np.array([kind < Kind.CUT for kind in Kind])  # whether events of a kind cover columns
FAULTY = np.array([kind >= Kind.WORD for kind in Kind])
IS_LANED = np.isin(np.arange(len(Kind)), LANED)
IS_OF_PACKET = np.isin(np.arange(len(Kind)), OF_PACKET)


@dataclass(frozen=True, slots=True, repr=False)
class Event:
    """A view of one event. `first` is the first of the `width` columns that it covers. For a fault, `first` is the column that it
    names; for the end of an epoch, `first` is a bit of each lane. `column` is where the receiver reports the event."""

    kind: Kind
    epoch: int
    column: int
    first: int
    width: int
    value: int
    second: int
    data: bytes = b""

    @property
    def is_fault(self) -> bool:
        """Whether a listing has a fault line for it."""
        return self.kind >= Kind.WORD

    @property
    def lane(self) -> int | None:
        """The lane of a fault, or None if its kind has none."""
        return self.value if self.kind in LANED else None

    @property
    def numbers(self) -> tuple[int, ...]:
        """The numbers of a fault line."""
        return numbers_of(self.kind, self.first, self.value, self.second)

    @property
    def more(self) -> tuple[int, ...]:
        """The numbers of a fault line without the lane and the place."""
        return self.numbers[1 + (self.kind in LANED) :]

    @property
    def line(self) -> str:
        """The fault line of a listing."""
        return " ".join(("!", self.kind.word, *map(str, self.numbers)))

    @property
    def pixels(self) -> Octets:
        """The pixels of a line: an array of pixels by red, green and blue."""
        return np.frombuffer(self.data, np.uint8).reshape(-1, 3)

    @property
    def header(self) -> bytes:
        """The three header bytes of a packet."""
        return self.data[:HEADER]

    @property
    def bodies(self) -> tuple[bytes, ...]:
        """The four bodies of a packet, seven bytes each."""
        return tuple(self.data[at : at + BODY] for at in range(HEADER, CARRIED, BODY))

    @property
    def syncs(self) -> bytes:
        """HSYNC plus twice VSYNC in each of the 32 columns of a packet, a byte each."""
        return self.data[CARRIED:]

    def __repr__(self) -> str:
        shown = [f"{name}={getattr(self, name)}" for name in ("epoch", "column", "first", "width", "value", "second")]
        data = [f"data={reprlib.repr(self.data)} of {len(self.data):,} bytes"] if self.data else []
        return f"{type(self).__name__}({', '.join([self.kind.name, *shown, *data])})"

    def __str__(self) -> str:
        if not self.is_fault:
            return f"column {self.first}: {self.kind.word}, {self.width} columns"
        unit = "bit" if self.kind in ENDS else "column"
        where = "" if self.lane is None else f" on {LANES[self.lane]}"
        return f"{unit} {self.first}{where}: {self.kind.word}, {faults.LINK[self.kind.word].says}"


@dataclass(frozen=True, slots=True)
class End:
    """The end of the lanes: the number of columns (UNTOLD if the lanes may lose bits), of epochs, and of aligned epochs."""

    columns: int
    epochs: int
    aligned_epochs: int

    @property
    def aligned(self) -> bool:
        """Whether the lanes were aligned in any epoch."""
        return self.aligned_epochs > 0


def numbers_of(kind: int, first: int, value: int, second: int) -> tuple[int, ...]:
    """Returns the numbers of a fault line. `first` is the column or place that it names."""
    if kind in LANED:
        return value, first
    if kind == Kind.MENDED:
        return first, value, second
    return (first, value) if kind in (Kind.LOST, Kind.SYMBOLS) else (first,)


@dataclass(frozen=True, eq=False, repr=False)
class Events:
    """Events in the order in which they were reported, an array for each field.

    | kind          | first            | width       | value             | second           | data                        |
    |---------------|------------------|-------------|-------------------|------------------|-----------------------------|
    | RUN           | first column     | columns     | value of six bits |                  |                             |
    | LINE          | first guard      | with guards | pixels            |                  | red, green, blue            |
    | OPEN, CLOSE   | first guard      | 2           | its syncs         | the second's     |                             |
    | PACKET        | first column     | 32          | type              | wrong characters | header, bodies, sync values |
    | CUT           | named column     | 0           |                   |                  |                             |
    | WORD, CODE    | named column     | 0           | lane              |                  |                             |
    | SYMBOLS       | packet's column  | 0           | characters        |                  |                             |
    | MENDED, LOST  | packet's column  | 0           | block             | bit              |                             |
    | SLIP, RELOCKED | bit of each lane | 0          | lane (of SLIP)    |                  |                             |

    `column` and `first` count from 0 in each `epoch`. `Reading.at` counts over all epochs. `offset` and `size` say which bytes of `data`
    belong to a LINE or a PACKET."""

    kind: Octets
    epoch: Ints
    column: Ints
    first: Ints
    width: Ints
    value: Ints
    second: Ints
    offset: Ints
    size: Ints
    data: Octets

    def __len__(self) -> int:
        return len(self.kind)

    def __iter__(self) -> Iterator[Event]:
        return map(self.view, range(len(self)))

    def __repr__(self) -> str:
        kinds, counts = np.unique(self.kind, return_counts=True)
        parts = ", ".join(f"{times:,} {Kind(kind).name}" for kind, times in zip(kinds.tolist(), counts.tolist()))
        head = f"Events({len(self):,}: {parts}; {len(self.data):,} bytes)" if len(self) else "Events(0)"
        gap = ["    .."] if len(self) > 2 * SHOWN else []
        ends = range(min(SHOWN, len(self))), range(max(SHOWN, len(self) - SHOWN), len(self))
        before, after = ([f"    {self.view(place)}" for place in its] for its in ends)
        return "\n".join([head, *before, *gap, *after])

    @property
    def end(self) -> Ints:
        """The column after the last one that each event covers."""
        return self.first + self.width

    def of(self, *kinds: Kind) -> Ints:
        """Returns the places of the events of these kinds."""
        return np.flatnonzero(np.isin(self.kind, kinds) if len(kinds) > 1 else self.kind == kinds[0])

    @property
    def covering(self) -> Ints:
        """The places of the events that cover columns."""
        return np.flatnonzero(COVERS[self.kind])

    @property
    def faults(self) -> Ints:
        """The places of the faults."""
        return np.flatnonzero(FAULTY[self.kind])

    def octets(self, packets: Ints) -> Octets:
        """Returns the bytes of packets, 63 in each row."""
        if not len(packets):
            return np.zeros((0, WHOLE), np.uint8)
        found: Octets = np.lib.stride_tricks.sliding_window_view(self.data, WHOLE)[self.offset[packets]]
        return found

    def row(self, place: int) -> Octets:
        """Returns the pixels of a line, as an array of the shape (pixels, 3)."""
        at = int(self.offset[place])
        return self.data[at : at + int(self.size[place])].reshape(-1, 3)

    def view(self, place: int) -> Event:
        """Returns one event as an object."""
        at, size = int(self.offset[place]), int(self.size[place])
        epoch, column, first, width = (int(one[place]) for one in (self.epoch, self.column, self.first, self.width))
        value, second = int(self.value[place]), int(self.second[place])
        return Event(Kind(self.kind[place]), epoch, column, first, width, value, second, self.data[at : at + size].tobytes())

    def views(self, places: Ints) -> Iterator[Event]:
        """Yields some events as objects."""
        return map(self.view, places.tolist())

    @overload
    def __getitem__(self, which: int) -> Event:
        """Returns one event as an object, or a selection of the events. Their bytes are not copied."""
        ...

    @overload
    def __getitem__(self, which: slice | Ints | Mask) -> Events:
        ...

    def __getitem__(self, which: int | slice | Ints | Mask) -> Event | Events:
        """One event as an object, or some of the events. Their bytes stay where they are."""
        if isinstance(which, int):
            return self.view(which)
        some: dict[str, Any] = {one.name: getattr(self, one.name)[which] for one in fields(self) if one.name != "data"}
        return Events(**some, data=self.data)

    def without_pixels(self) -> Events:
        """Returns the same events, but only with the bytes of packets."""
        packets = self.of(Kind.PACKET)
        offset, size = np.zeros_like(self.offset), np.zeros_like(self.size)
        offset[packets], size[packets] = WHOLE * np.arange(len(packets)), WHOLE
        return replace(self, offset=offset, size=size, data=self.octets(packets).reshape(-1))


def joined(parts: Sequence[Events]) -> Events:
    """Joins successive events."""
    if not parts:
        return of_records(np.zeros(0, RECORD), np.zeros(0, np.uint8))
    if len(parts) == 1:
        return parts[0]
    names = [one.name for one in fields(Events)]
    arrays: dict[str, Any] = {name: np.concatenate([getattr(part, name) for part in parts]) for name in names}
    starts = np.cumsum([0, *(len(part.data) for part in parts)])[:-1]
    arrays["offset"] = arrays["offset"] + np.repeat(starts, [len(part) for part in parts])
    return Events(**arrays)


def of_records(records: Records, data: Octets, epoch: int = 0, guards: int = GUARDS) -> Events:
    """Returns the events that the C library wrote (`vabgrot_event` in vabgrot.h). `epoch` is the epoch of the first one. `guards` is the
    number of columns before the pixels of a line: 2, or 0 for DVI."""
    kind = records["kind"].astype(np.uint8)
    column, first, size = (records[name].astype(np.int64) for name in ("column", "named", "size"))
    value, second, offset = (records[name].astype(np.int64) for name in ("value", "second", "offset"))
    width = np.zeros(len(kind), np.int64)
    runs, lines, packets = (np.flatnonzero(kind == one) for one in (Kind.RUN, Kind.LINE, Kind.PACKET))
    bounds = np.flatnonzero((kind == Kind.OPEN) | (kind == Kind.CLOSE))
    width[runs] = records["count"][runs]
    value[lines] = size[lines] // 3
    width[lines], width[bounds], width[packets] = value[lines] + guards, GUARDS, PACKET
    first[runs], first[lines], first[bounds] = (column - width)[runs], (column - width)[lines], column[bounds] - 1
    if len(packets):
        value[packets], second[packets] = data[offset[packets]], records["count"][packets]
    symbols = np.flatnonzero(kind == Kind.SYMBOLS)
    value[symbols] = records["count"][symbols]
    ended = np.cumsum((kind == Kind.SLIP) | (kind == Kind.RELOCKED))
    epochs = epoch + np.concatenate((np.zeros(1, np.int64), ended[:-1])) if len(kind) else np.zeros(0, np.int64)
    return Events(kind, epochs, column, first, width, value, second, offset, size, data)
