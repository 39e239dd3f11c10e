"""Makes the columns of parts of a link with the C library: control periods, lines and data islands in any order."""

from __future__ import annotations

import ctypes
import functools
import operator
from collections.abc import Iterable, Iterator, Sequence
from ctypes import POINTER, addressof, byref, c_bool, c_char_p, c_int, c_size_t, c_uint16, c_uint32, c_void_p
from dataclasses import dataclass
from typing import Any, cast

from vabgrot import library
from vabgrot.buffers import Buffer, Words, view_of
from vabgrot.errors import NoLibrary
from vabgrot.formats.characters import MOST_PACKETS

LANES = 3
MOST = 0xFFFFFFFF
ROWS = (c_void_p, c_size_t) * LANES + (POINTER(c_size_t),)
TYPES: dict[str, tuple[Any, ...]] = {
    "run": (c_uint32, c_uint32),
    "video_guard": (),
    "pixels": (c_char_p, c_size_t),
    "island_guard": (c_uint32,),
    "packet": (c_char_p, c_size_t, c_bool),
}
COLOURS = 3  # of a pixel


@dataclass(frozen=True, slots=True)
class Control:
    """`count` equal control columns. The value has HSYNC in bit 0, VSYNC in bit 1, CTL0 to CTL3 in bits 2 to 5."""

    value: int
    count: int


@dataclass(frozen=True, slots=True)
class Video:
    """A line of 1 to 4,096 pixels: bytes (red, green and blue of each pixel) or an array of the shape (pixels, 3). Two guard columns
    precede them, unless `guard` is False, for a link without guard bands."""

    pixels: Buffer
    guard: bool = True


@dataclass(frozen=True, slots=True)
class Island:
    """A data island.

    A packet has 63 bytes: three of the header, four bodies of seven, and one for each of 32 columns (HSYNC plus twice VSYNC). `opening`
    and `closing` are this sync value for the two guard columns before and after the packets."""

    packets: Sequence[Buffer]
    opening: tuple[int, int] = (0, 0)
    closing: tuple[int, int] = (0, 0)

    def __post_init__(self) -> None:
        if not 1 <= len(self.packets) <= MOST_PACKETS:
            raise ValueError(f"an island has 1 to {MOST_PACKETS} packets, and not {len(self.packets)}")


Part = Control | Video | Island
Step = tuple[str, tuple[Any, ...]]  # a call of the library, and its arguments before the rows


def pixels(given: Buffer) -> tuple[bytes, int]:
    """The bytes of pixels. Raises ValueError if they are an array of another shape than pixels by three."""
    view = view_of(given, "pixels are")
    colours = (view.shape or ())[1:]
    if colours and colours != (COLOURS,):
        alpha = ". Leave out their alpha: `pixels[:, :3]`" if colours == (COLOURS + 1,) else ""
        raise ValueError(f"a line is an array of pixels by three (red, green, blue), and not of the shape {view.shape}{alpha}")
    return view.tobytes(), view.nbytes


def number(given: int) -> int:
    """Returns the number. Raises ValueError if it does not fit 32 bits."""
    found = operator.index(given)
    if not 0 <= found <= MOST:
        raise ValueError(f"a number of a part is 0 to {MOST}, and {found} is none of these")
    return found


def steps_of(part: Part) -> Iterator[Step]:
    """Yields the calls that make a part."""
    if isinstance(part, Control):
        yield "run", (number(part.value), number(part.count))
    elif isinstance(part, Video):
        if part.guard:
            yield "video_guard", ()
        yield "pixels", pixels(part.pixels)
    elif isinstance(part, Island):
        first, second = part.opening
        third, fourth = part.closing
        yield "island_guard", (number(first),)
        yield "island_guard", (number(second),)
        for at, packet in enumerate(part.packets):
            view = view_of(packet, "packets are")
            yield "packet", (view.tobytes(), view.nbytes, at == 0)
        yield "island_guard", (number(third),)
        yield "island_guard", (number(fourth),)
    else:
        raise TypeError(f"a part is a Control, a Video or an Island, and not {part!r:.60}")


@functools.cache
def calls() -> ctypes.CDLL:
    """Returns the library with the types of the calls for columns. Raises NoLibrary."""
    found = library.needed()
    try:
        for name, words in TYPES.items():
            call = getattr(found, f"vabgrot_encode_{name}")
            call.argtypes, call.restype = (*words, *ROWS), c_int
    except AttributeError as why:
        raise NoLibrary(f"the C library {library.find()} lays no columns ({why}). Install a later version") from None
    return found


def laid(step: Step, place: int, stride: int, room: int) -> tuple[int, int]:
    """Makes a call. Returns its status and the number of columns. The rows begin at address `place`, `stride` bytes apart, with room for
    `room` columns."""
    name, words = step
    rows = [word for lane in range(LANES) for word in (place + lane * stride, room)]
    columns = c_size_t()
    status: int = getattr(calls(), f"vabgrot_encode_{name}")(*words, *rows, byref(columns))
    return status, columns.value


def size_of(part: Part, step: Step) -> int:
    """Returns the number of columns of a call. Raises ValueError if the part is not allowed."""
    nothing = (c_uint16 * 1)()
    status, columns = laid(step, addressof(nothing), 0, 0)
    if status == library.MISUSE:
        raise ValueError(f"there is no such part of a link: {part!r:.200}")
    return columns


def encode(parts: Iterable[Part]) -> Words:
    """Returns the characters of successive parts, each a Control, a Video or an Island.

    The result is an array of the shape (columns, 3), or without NumPy a list of lists, with blue, green and red in each column. Bit 0 of
    a character is sent first. The columns of each part are proved (docs/proof/PROVED.md); the caller chooses their order.

    Raises ValueError if a part is not allowed, TypeError if pixels or packets are not bytes, and NoLibrary."""
    steps = [(step, size_of(part, step)) for part in parts for step in steps_of(part)]
    total = sum(size for _, size in steps)
    rows = (c_uint16 * max(1, LANES * total))()
    place, at = addressof(rows), 0
    for step, size in steps:
        status, _ = laid(step, place + 2 * at, 2 * total, size)
        if status != library.OK:
            raise NoLibrary(f"the C library answers the status {status}, which is not known: it is of another version")
        at += size
    return columns_of(rows, total)


def columns_of(rows: ctypes.Array[c_uint16], total: int) -> Words:
    """Returns three successive rows as columns."""
    try:
        import numpy as np
    except ImportError:
        return cast(Words, [list(column) for column in zip(*(rows[lane * total : (lane + 1) * total] for lane in range(LANES)))])
    return np.frombuffer(memoryview(rows), np.uint16, LANES * total).reshape(LANES, total).T.copy()
