"""The lines of a listing as a page has them: each unlike one once, and which of them each line is."""

from __future__ import annotations

from array import array
from collections.abc import Iterator
from typing import TypedDict

import numpy as np

from vabgrot.events import Events, Ints, Kind
from vabgrot.formats.characters import PACKET
from vabgrot.formats.layouts import CARRIED

FULL_TEXT = 1_000_000  # bytes up to which the listing is kept whole
FIRST_DIGITS = 48  # of a long row
MOST_DIGITS = FIRST_DIGITS + 24  # of a short one
VALUE, KIND = 48, 56  # from which bit of a key on stand a line's value and its kind; below them its columns


class Packed(TypedDict):
    """Lines: the unlike ones, and of each line its number among them."""

    texts: list[str]
    of: list[int]


class Text:
    """The lines of the listing: whole where it is short, else without the pixels behind the first ones of a row."""

    def __init__(self) -> None:
        self.texts: dict[str, int] = {}  # the unlike lines, and their numbers
        self.of = array("q")
        self.size = 0  # bytes
        self.rows: dict[int, str] = {}  # whole long rows, by the numbers of their lines from 0, as long as the listing is short
        self.keys: dict[int, tuple[int, int]] = {}  # of control columns and guards: the number of each line, and its bytes
        self.heads: dict[tuple[bytes, int], int] = {}  # of rows: the number of each, by its first pixels and how many it has

    def take(self, events: Events) -> None:
        """The next events, each of which is a line."""
        kinds = events.kind
        numbers = np.empty(len(kinds), np.int64)
        short = events.of(Kind.RUN, Kind.OPEN, Kind.CLOSE)
        numbers[short] = self.short(events[short])
        islands = events.of(Kind.PACKET)
        numbers[islands] = [self.add(line) for line in packet_lines(events, islands)]
        for place in np.flatnonzero(kinds >= Kind.CUT).tolist():
            event = events.view(place)
            numbers[place] = self.add(event.line if event.is_fault else f"cut {event.first}")
        rows = events.of(Kind.LINE)
        self.size += len(kinds) + int((len("v ") + 6 * events.value[rows]).sum())
        numbers[rows] = [*self.heads_of(events, rows)]
        if self.is_whole:
            self.rows |= {len(self.of) + place: row_line(events.row(place).tobytes()) for place in rows.tolist()}
        else:
            self.rows.clear()
        self.of.frombytes(numbers.tobytes())

    def number(self, text: str) -> int:
        """The number of a line."""
        return self.texts.setdefault(text, len(self.texts))

    def add(self, text: str) -> int:
        """The same, and its bytes are counted."""
        self.size += len(text)
        return self.number(text)

    def short(self, events: Events) -> Ints:
        """The numbers of lines of control columns and of guards."""
        values = np.where(events.kind == Kind.RUN, events.value, events.value + 4 * events.second)
        keys = events.kind.astype(np.int64) << KIND | values << VALUE | events.width
        unlike, places, counts = np.unique(keys, return_inverse=True, return_counts=True)
        found = np.empty(len(unlike), np.int64)
        for place, (key, times) in enumerate(zip(unlike.tolist(), counts.tolist())):
            if key not in self.keys:
                text = short_line(key)
                self.keys[key] = self.number(text), len(text)
            found[place], size = self.keys[key]
            self.size += times * size
        return found[places]

    def heads_of(self, events: Events, rows: Ints) -> Iterator[int]:
        """The numbers of rows, without most of their digits if they are long."""
        data, known = events.data.data, self.heads
        for at, pixels in zip(events.offset[rows].tolist(), events.value[rows].tolist()):
            is_short = 6 * pixels <= MOST_DIGITS
            key = bytes(data[at : at + (3 * pixels if is_short else FIRST_DIGITS // 2)]), pixels
            number = known.get(key)
            if number is None:
                number = known[key] = self.number(row_line(key[0]) if is_short else f"{row_line(key[0])}.. ({pixels} pixels)")
            yield number

    def end(self) -> None:
        """The line `end`."""
        self.of.append(self.add("end"))
        self.size += 1

    @property
    def is_whole(self) -> bool:
        """Whether the lines are kept as they are."""
        return self.size <= FULL_TEXT

    @property
    def lines(self) -> list[str]:
        """The lines, whole or short."""
        texts, rows = [*self.texts], self.rows if self.is_whole else {}
        return [rows.get(place) or texts[number] for place, number in enumerate(self.of)]

    def packed(self) -> Packed:
        """The same, packed."""
        if not (self.is_whole and self.rows):
            return {"texts": [*self.texts], "of": self.of.tolist()}
        texts: dict[str, int] = {}
        numbers = [texts.setdefault(line, len(texts)) for line in self.lines]
        return {"texts": [*texts], "of": numbers}


def row_line(data: bytes) -> str:
    """A line of pixels."""
    return f"v {data.hex()}"


def short_line(key: int) -> str:
    """A line of control columns or of guards, by its key."""
    kind, value = key >> KIND, key >> VALUE & 255
    return f"c {value:02x} {key & (1 << VALUE) - 1}" if kind == Kind.RUN else f"{'i' if kind == Kind.OPEN else 'e'} {value & 3}{value >> 2}"


def packet_lines(events: Events, places: Ints) -> Iterator[str]:
    """The lines of packets."""
    octets = events.octets(places)
    digits, syncs = octets[:, :CARRIED].tobytes().hex(), (octets[:, CARRIED:] & 3 | ord("0")).tobytes().decode()
    for number in range(len(places)):
        it = digits[2 * CARRIED * number : 2 * CARRIED * (number + 1)]
        bodies = f"{it[6:20]} {it[20:34]} {it[34:48]} {it[48:]}"
        yield f"p {it[:6]} {bodies} {syncs[PACKET * number : PACKET * (number + 1)]}"
