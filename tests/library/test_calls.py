"""Calls of the shared library in every order, with too little room or memory, and on two threads."""

import itertools
import re
import threading

import pytest

from tests.library import bound
from tests.library.bound import DVI, FULL, LINK, MISUSE, OK, RELOCK, TRACK, Receiver
from tests.models import hearing, model
from tests.support import LISTING, TOP, ran

# The calls, each by what a handle is before it: what it answers, and what the handle is then.
CLOSED, EMPTY, FED, ENDED, FINISHED = "closed", "open", "fed", "one lane ended", "finished"
STATES = (CLOSED, EMPTY, FED, ENDED, FINISHED)
OPEN = (EMPTY, FED, ENDED)
CALLS = {
    "open": lambda it: (it.open(), {CLOSED: (OK, EMPTY)}),
    "open of the other kind": lambda it: (it.open(DVI), {CLOSED: (OK, EMPTY)}),
    "open of lanes that may lose bits": lambda it: (it.open(TRACK), {CLOSED: (OK, EMPTY)}),
    "open no kind": lambda it: (it.open(4), {}),
    "feed": lambda it: (it.feed([b"ab", b"cd", b"ef"]), {EMPTY: (OK, FED), FED: (OK, FED)}),
    "feed nothing": lambda it: (it.feed([b"", b"", b""]), {state: (OK, state) for state in OPEN}),
    "end a lane": lambda it: (it.feed([b"ab", b"c", b"ef"], [11, 5, 16]), {EMPTY: (OK, ENDED), FED: (OK, ENDED)}),
    "more bits than bytes": lambda it: (it.feed([b"ab", b"cd", b"ef"], [16, 17, 16]), {}),
    "finish": lambda it: (it.finish(), {state: (OK, FINISHED) for state in OPEN}),
    "restart": lambda it: (it.restart(), {state: (OK, EMPTY) for state in STATES[1:]}),
    "close": lambda it: (it.close(), {state: (OK, CLOSED) for state in STATES}),
}

ROOMS = {LINK: bound.LEAST, DVI: bound.LEAST, TRACK: bound.LEAST_TRACK, RELOCK: bound.LEAST_TRACK}


@pytest.fixture(scope="module")
def calls(library):
    return bound.loaded(library / "libvabgrot.so.1")


def lanes_of(text, skews=(0, 0, 0), guards=True):
    """The bytes of each lane of the columns of a listing, and how many bits they are."""
    rows = zip(*hearing.sent_columns(text, guards))
    bits = [model.sent_bits(row)[skew:] for row, skew in zip(rows, skews)]
    return [int(row[::-1], 2).to_bytes((len(row) + 7) // 8, "little") for row in bits], [len(row) for row in bits]


def test_orders(calls, compare):
    """Every five calls one after another answer a status, and what is refused changes nothing."""

    def cases():
        for names in itertools.product(CALLS, repeat=4):
            it, state, came, wanted = Receiver(calls), CLOSED, [], []
            for name in names:
                status, does = CALLS[name](it)
                came.append(status)
                answer, state = does.get(state, (MISUSE, state))
                wanted.append(answer)
            it.close()
            yield " ".join(names), came, wanted

    compare(cases())


def test_room(calls, compare):
    """A feed takes nothing with one event or one byte less than the least room, and a byte of each lane with the least."""

    def cases():
        for kind, (least, fewest) in ROOMS.items():
            for events, size, status, taken in ((least - 1, 1 << 20, FULL, 0), (1 << 12, fewest - 1, FULL, 0), (least, fewest, OK, 8)):
                it = Receiver(calls, events, size)
                assert it.open(kind) == OK
                came = it.feed([b"a", b"b", b"c"])
                yield f"kind {kind}, {events} events, {size} bytes", (came, it.taken()), (status, (taken,) * 3)
                it.close()
        for events, size, status in ((391, 1 << 20, FULL), (1 << 12, 12613, FULL), (392, 12614, OK)):
            it = Receiver(calls, events, size)
            assert it.open(TRACK) == OK
            yield f"an end with {events} events, {size} bytes", it.finish(), status
            it.close()
        it = Receiver(calls, 0, 0)
        assert it.open() == OK
        yield "an end with no room", (it.finish(), it.restart()), (FULL, OK)
        it.close()

    compare(cases())


def test_too_many(calls):
    """2^60 bits and more are refused before any byte is read."""
    it = Receiver(calls)
    assert it.open() == OK
    assert it.feed([b"a", b"b", b"c"], [1 << 60, 0, 0], [1 << 57, 0, 0]) == bound.TOOBIG
    assert it.taken() == (0, 0, 0) and it.feed([b"a", b"b", b"c"]) == OK and it.close() == OK


def test_events(calls):
    """What is written of a small stream, each event at its column; the same again after a restart."""
    lanes, bits = lanes_of(LISTING)
    wanted = [(4, 0, 0, 4, 0, 0, b""), (12, 0, 0, 8, 4, 0, b""), (15, 1, 0, 0, 0, 0, b"\xff\0\0")]
    it = Receiver(calls)
    assert it.open() == OK
    for _ in range(2):
        assert it.feed(lanes, bits) == OK
        assert list(it.written()) == wanted
        assert it.finish() == OK
        assert list(it.written()) == [(27, 0, 0, 12, 0, 0, b"")]
        assert (it.answer.aligned, it.answer.columns) == (1, 27)
        assert it.restart() == OK
    it.close()


def test_a_stream_without_guard_bands(calls):
    """What is written of it, columns counted by hand; a restart keeps the kind, and an opening after a close has the kind that it names."""
    lanes, bits = lanes_of(b"c 00 12\nv ff0000\nc 00 12\nend\n", guards=False)
    wanted = [(12, 0, 0, 12, 0, 0, b""), (13, 1, 0, 0, 0, 0, b"\xff\0\0"), (25, 0, 0, 12, 0, 0, b"")]
    it = Receiver(calls)

    def heard():
        assert it.feed(lanes, bits) == OK
        found = list(it.written())
        assert it.finish() == OK and (it.answer.aligned, it.answer.columns) == (1, 25)
        return found + list(it.written())

    assert it.open(DVI) == OK
    for _ in range(2):
        assert heard() == wanted
        assert it.restart() == OK
    assert it.close() == OK and it.open() == OK
    assert heard() == [(12, 0, 0, 12, 0, 0, b""), (13, 9, 12, 0, 0, 0, b""), (25, 0, 0, 12, 0, 0, b"")]
    it.close()


def test_lanes_that_lose_bits(calls):
    """The slips that are written of lanes one of which loses three bits are those that the listing of the same capture names, and the
    epochs are counted; a restart keeps the kind."""
    lanes, bits = lanes_of(b"c 00 30\nc 04 8\nv ff0000\n" * 4 + b"c 00 30\nend\n", (0, 70, 35))
    whole = [int.from_bytes(it, "little") for it in lanes]
    cut = bits[1] // 2
    whole[1], bits[1] = whole[1] & (1 << cut) - 1 | whole[1] >> cut + 3 << cut, bits[1] - 3
    lanes = [it.to_bytes((count + 7) // 8, "little") for it, count in zip(whole, bits)]
    data = b"TMC2" + b"".join(count.to_bytes(4, "big") for count in bits) + b"".join(lanes)
    for kind in (TRACK, RELOCK):
        status, size, text = bound.listed(calls, kind, data, 1 << 16)
        wanted = [line.split()[2:] for line in text[:size].decode().splitlines() if line.startswith("! slip")]
        assert status == bound.FAULTY and wanted
        it = Receiver(calls)
        assert it.open(kind) == OK
        for _ in range(2):
            assert it.feed(lanes, bits) == OK
            found = list(it.written())
            assert it.finish() == OK
            found += it.written()
            slips = [event for event in found if event[1] == bound.SLIP]
            assert [[str(lane), str(place)] for _, _, place, _, lane, _, _ in slips] == wanted and all(event[0] == 0 for event in slips)
            assert it.answer.columns >= 1 + len(slips) and it.answer.aligned <= it.answer.columns
            assert it.restart() == OK
        it.close()


def test_threads(calls):
    """Two handles on two threads say what each says alone."""
    lanes, bits = lanes_of((TOP / "examples" / "skewed.link").read_bytes(), (0, 70, 35))
    alone, found = [], {}  # what is written of a stream, and by each thread of many

    def hear(found, count):
        it = Receiver(calls)
        assert it.open() == OK
        for _ in range(count):
            assert it.feed(lanes, bits) == OK
            found += it.written()
            assert it.finish() == OK
            found += it.written()
            assert it.restart() == OK
        it.close()

    hear(alone, 1)
    threads = [threading.Thread(target=hear, args=(found.setdefault(at, []), 200)) for at in range(2)]
    for it in threads:
        it.start()
    for it in threads:
        it.join()
    assert alone and all(found[at] == alone * 200 for at in range(2))


def test_refused_memory(compiled):
    """Each allocation of an opening, or of a call that lists or makes a capture, is refused in turn: it answers so, and frees what it
    had; no other call allocates. An opening allocates what the tables of vabgrot.h and its man page say."""
    came = ran([compiled(TOP / "tests" / "library" / "refused.c", "-Wl,--wrap=malloc,--wrap=realloc,--wrap=free")], b"")
    assert came.returncode == 0, came.stdout + came.stderr
    link, dvi, track, relock = re.findall(r"(?m)^kind \d: (\d+) blocks of (\d+) bytes$", came.stdout.decode())
    assert track == relock
    rows = {"vabgrot.h": r"(?m)^\*\*   VABGROT_[A-Z_, ]+  +(\d)  +([\d,]+)$", "vabgrot.3": r"(?m)^VABGROT_[A-Z_, ]+\|(\d)\|([\d,]+)$"}
    for name, row in rows.items():
        text = (TOP / "library" / name).read_text("utf-8")
        assert [(count, size.replace(",", "")) for count, size in re.findall(row, text)] == [link, dvi, track], name
