"""Whole captures by one call: what the program writes of the same bytes, in buffers of several sizes."""

import random

import pytest

from tests.library import bound
from tests.library.bound import FAULTY, FULL, MISUSE, NOCAPTURE, OK, UNALIGNED, listed
from tests.models import feeding
from tests.support import run

READERS = (("recover", "link"), ("recover", "dvi"), ("recover", "track"), ("recover", "relock"))
CALLS = (*enumerate(READERS), (None, ("check",)))
STATUSES = {0: OK, 1: FAULTY, 3: NOCAPTURE, 7: UNALIGNED}
CAPTURES = 24


@pytest.fixture(scope="module")
def calls(library):
    return bound.loaded(library / "libvabgrot.so.1")


def captures():
    """The name and the bytes of captures, of some that are cut short or have a byte too many, and of bytes that are none."""
    for at in range(CAPTURES):
        rng = random.Random(f"one call {at}")
        data = feeding.made_capture(rng)[0]
        yield f"capture {at}", data
        yield f"capture {at}, cut", data[: rng.randrange(len(data))]
    yield "a byte too many", data + b"\0"
    yield "no bytes", b""
    yield "no capture", b"TMC3"


def test_the_program_says_the_same(calls, executable, compare):
    def cases():
        for name, data in captures():
            for kind, words in CALLS:
                status, text, _ = run(executable, words, data)
                yield f"{name}, {words[-1]}", listed(calls, kind, data, len(text) + 1), (STATUSES[status], len(text), text + b"\0")

    compare(cases())


def test_room(calls, compare):
    """The listing has as many bytes as are said, and the buffer the first of them, and none past them."""
    data = feeding.made_capture(random.Random("room"))[0]

    def cases():
        for kind, words in CALLS:
            status, size, text = listed(calls, kind, data, 1 << 20)
            for room in {0, 1, size // 2, max(0, size - 1), size, size + 1}:
                wanted = (status if room >= size else FULL, size, text[: min(room, size)] + bytes(max(0, room - size)))
                yield f"{words[-1]}, {room} of {size} bytes", listed(calls, kind, data, room), wanted

    compare(cases())


def test_no_kind(calls):
    for kind in (4, 5, 1 << 31, (1 << 32) - 1):
        assert listed(calls, kind, b"TMC1", 4) == (MISUSE, 0, bytes(4))
