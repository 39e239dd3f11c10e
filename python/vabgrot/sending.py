"""Makes a capture from a listing in memory, with one call of the C library or with the program."""

from __future__ import annotations

import ctypes
import functools
import logging
import os
import re
import subprocess
from ctypes import POINTER, Structure, byref, c_char_p, c_int, c_size_t, c_uint32
from typing import Literal, NamedTuple

from vabgrot import library, program
from vabgrot.errors import NoLibrary, Refused

Maker = Literal["link", "dvi", "content"]
log = logging.getLogger(__name__)
KINDS: dict[Maker, int] = {"link": 0, "dvi": 1, "content": 2}  # of vabgrot_make
NOLISTING, REFUSED = 8, 3  # the statuses of the library and of the program for a listing that is refused
MOST, MOST_SKEW = 0xFFFFFFFF, 4095
FIRST_ROOM = 8  # the first guess for the size of a capture, relative to the listing; pixels need about 0.6
WRONG_LINE = re.compile(r"line (\d+) (\w+)")


class BadListing(Refused, ValueError):
    """A listing was refused. `line` is the first wrong line, counted from 1, and `cause` is the reason. If a content does not fit its
    mode, `line` is None and the cause has numbers, for example `noroom 0 3` (docs/guide/FORMATS.md)."""

    def __init__(self, note: str) -> None:
        super().__init__(note)
        found = WRONG_LINE.fullmatch(note)
        self.line = int(found[1]) if found else None
        self.cause = found[2] if found else note


class Tap(NamedTuple):
    """Which bits of the lanes a capture contains, as in the options of `make`."""

    version: int = 1
    offset: int = 0
    skew: tuple[int, int, int] = (0, 0, 0)
    bits: int | None = None

    def checked(self) -> Tap:
        """Returns the tap. Raises ValueError if the command line does not accept these options."""
        if self.version not in (1, 2):
            raise ValueError(f"the version is 1 or 2, and {self.version} is neither")
        if len(self.skew) != 3 or not all(0 <= it <= MOST_SKEW for it in self.skew):
            raise ValueError(f"the skew is three numbers from 0 to {MOST_SKEW}, and {self.skew} is not")
        for name, number in (("offset", self.offset), ("bits", self.bits or 0)):
            if not 0 <= number <= MOST:
                raise ValueError(f"{name} is 0 to {MOST}, and {number} is none of these")
        return self

    def words(self) -> list[str]:
        """Returns the options."""
        words = ["--version", str(self.version), "--offset", str(self.offset), "--skew", ",".join(map(str, self.skew))]
        return words if self.bits is None else [*words, "--bits", str(self.bits)]


class Skews(Structure):
    """By how many bits each lane begins later."""

    _fields_ = (("blue", c_uint32), ("green", c_uint32), ("red", c_uint32))


class LentTap(Structure):
    """A tap in the form of the library."""

    _fields_ = (("version", c_uint32), ("offset", c_uint32), ("skews", Skews), ("limited", c_uint32), ("bits", c_uint32))


@functools.cache
def calls() -> ctypes.CDLL:
    """Returns the library with the types of its call for captures. Raises NoLibrary."""
    path = library.find()
    found = library.loaded(path)
    try:
        found.vabgrot_make.argtypes = c_uint32, POINTER(LentTap), c_char_p, c_size_t, c_char_p, c_size_t, POINTER(c_size_t)
        found.vabgrot_make.restype = c_int
    except AttributeError as why:
        raise NoLibrary(f"the C library {path} makes no captures ({why})") from None
    return found


def by_library(text: bytes, kind: Maker, tap: Tap, room: int) -> tuple[int, int, bytes]:
    """Returns the library's status, the size of the capture or of the note, and the bytes that fit `room`."""
    capture, size = ctypes.create_string_buffer(max(1, room)), c_size_t()
    lent = LentTap(tap.version, tap.offset, Skews(*tap.skew), tap.bits is not None, tap.bits or 0)
    status: int = calls().vabgrot_make(KINDS[kind], byref(lent), text, len(text), capture, room, byref(size))
    return status, size.value, ctypes.string_at(capture, min(size.value, room))


def refusal(note: bytes) -> BadListing:
    """Reads a note of the program as an error."""
    return BadListing(note.decode().strip().removeprefix("input: "))


def by_program(text: bytes, kind: Maker, tap: Tap) -> bytes:
    """Returns the capture, made by the program."""
    words = ["make", kind, *tap.words()]
    run = subprocess.run([program.find(), *words], input=text, capture_output=True, check=False)
    if run.returncode == REFUSED:
        raise refusal(run.stderr)
    if run.returncode:
        raise Refused(f"the program's `{' '.join(words)}` ended with {run.returncode}: {run.stderr.decode().strip()}")
    return run.stdout


def make(
    text: str | bytes,
    *,
    version: int = 1,
    offset: int = 0,
    skew: tuple[int, int, int] = (0, 0, 0),
    bits: int | None = None,
    kind: Maker = "link",
) -> bytes:
    """Returns the capture that `make link`, `make dvi` or `make content` makes of a listing. The options have the same names.

    Uses the C library in this thread, or the program if there is no library. Raises BadListing, ValueError if the options are not
    allowed, or MemoryError."""
    if kind not in KINDS:
        raise ValueError(f"there are listings of {', '.join(KINDS)}, and none of {kind!r}")
    data, tap = text.encode() if isinstance(text, str) else text, Tap(version, offset, skew, bits).checked()
    try:
        status, size, made = by_library(data, kind, tap, FIRST_ROOM * len(data) + 4096)
    except NoLibrary as why:
        if os.environ.get("VABGROT_LIBRARY"):
            raise
        log.info("the program makes the capture: %s", why)
        return by_program(data, kind, tap)
    if status == library.FULL:
        status, size, made = by_library(data, kind, tap, size)
    if status == NOLISTING:
        raise refusal(made)
    if status == library.NOMEM:
        raise MemoryError
    return made
