"""Makes the listing of a complete capture in memory, with one call of the C library or with the program."""

from __future__ import annotations

import ctypes
import functools
import logging
import os
import subprocess
from ctypes import POINTER, byref, c_char_p, c_int, c_size_t, c_uint32
from typing import Literal, NamedTuple

from vabgrot import library, program
from vabgrot.capture import Given, opened, source_of
from vabgrot.errors import NoLibrary, Refused
from vabgrot.library import KINDS, Grammar

Reader = Grammar | Literal["check"]  # the faults alone are vabgrot_check's
log = logging.getLogger(__name__)
STATUSES = {0: 0, 5: 1, 6: 3, 7: 7}  # of the program, by those of the library
FIRST_ROOM = 4  # bytes of a listing for each of a capture, at first: pixels take some 1.6
WORDS = ctypes.c_char_p, c_size_t, c_char_p, c_size_t, POINTER(c_size_t)


class Text(NamedTuple):
    """A listing, and the exit status of the program: 0 done, 1 done with faults, 3 no capture, 7 not aligned."""

    status: int
    text: bytes


@functools.cache
def calls() -> ctypes.CDLL:
    """Returns the library with the types of its calls for whole captures. Raises NoLibrary."""
    path = library.find()
    found = library.loaded(path)
    try:
        found.vabgrot_recover.argtypes, found.vabgrot_check.argtypes = (c_uint32, *WORDS), WORDS
        found.vabgrot_recover.restype = found.vabgrot_check.restype = c_int
    except AttributeError as why:
        raise NoLibrary(f"the C library {path} has no calls for whole captures ({why})") from None
    return found


def by_library(data: bytes, reader: Reader, room: int) -> tuple[int, int, bytes]:
    """Returns the library's status, the size of the listing, and the bytes that fit `room`."""
    listing, size = ctypes.create_string_buffer(max(1, room)), c_size_t()
    words = (data, len(data), listing, room, byref(size))
    if reader == "check":
        status: int = calls().vabgrot_check(*words)
    else:
        status = calls().vabgrot_recover(KINDS[reader], *words)
    return status, size.value, ctypes.string_at(listing, min(size.value, room))


def by_program(data: bytes, reader: Reader) -> Text:
    """Returns the listing, made by the program."""
    words = ["check"] if reader == "check" else ["recover", reader]
    run = subprocess.run([program.find(), *words], input=data, capture_output=True, check=False)
    if run.returncode not in STATUSES.values():
        raise Refused(f"the program's `{' '.join(words)}` ended with {run.returncode}: {run.stderr.decode().strip()}")
    return Text(run.returncode, run.stdout)


def text_of(source: Given, *, kind: Reader = "link") -> Text:
    """What `recover link`, `dvi`, `track` or `relock` writes of a capture (a file, its bytes, or an open binary file), or `check`: by the C
    library, in this thread, or by the program where there is none. The listing is held in memory as a whole. Raises ValueError if there is
    no such kind, OSError, or MemoryError."""
    if kind != "check" and kind not in KINDS:
        raise ValueError(f"there is no listing of the kind {kind!r}, but of {', '.join(KINDS)} and check")
    with opened(source_of(source)) as file:
        data = file.read()
    try:
        status, size, text = by_library(data, kind, FIRST_ROOM * len(data) + 64)
    except NoLibrary as why:
        if os.environ.get("VABGROT_LIBRARY"):
            raise
        log.info("the program lists the capture: %s", why)
        return by_program(data, kind)
    if status == library.FULL:
        status, size, text = by_library(data, kind, size)
    if status == library.NOMEM:
        raise MemoryError
    return Text(STATUSES[status], text)
