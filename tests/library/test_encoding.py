"""Parts of a link in rows of characters: what a model of the listings sends, and by hand; rows that are too short, what is no part, and
what stands behind a part; the example in C; and the same in Python, with NumPy and without it."""

import random
import subprocess
import sys

import numpy as np
import pytest

import vabgrot
from tests.library import bound
from tests.library.bound import FULL, MISUSE, OK, encoded
from tests.library.conftest import SANITIZERS
from tests.models import feeding, hearing
from tests.models.tables import CONTROL, ISLAND_GUARD, TERC4, VIDEO_GUARD
from tests.support import HANGS, TOP, ran
from vabgrot import Control, Island, Video, encoding
from vabgrot.events import Event, Kind

LISTINGS = 12
OLD = 0x5A5A  # what stands in the rows before a call
UNCOUNTED = (-1, 1), (0, -1), (1 << 32, 1), (0, 1 << 32)  # pairs in which one is no number of 32 bits
PACKET = bytes.fromhex("82020d") + bytes(range(28)) + bytes([0, 1, 2, 3] * 8)
# A part of each call: its name, what the call is given, and how many columns it has.
PARTS = (
    ("run", (0x2D, 5), 5),
    ("video_guard", (), 2),
    ("pixels", (bytes.fromhex("ff0000102030c0ffee"),), 3),
    ("island_guard", (2,), 1),
    ("packet", (PACKET, True), 32),
    ("packet", (PACKET, False), 32),
)


@pytest.fixture(scope="module")
def calls(library):
    return bound.loaded(library / "libvabgrot.so.1")


def columns_of(name, given):
    """The columns of a part, by the model."""
    if name == "run":
        return hearing.sent_columns(b"c %02x %d" % given)
    if name == "video_guard":
        return [VIDEO_GUARD] * 2
    if name == "pixels":
        return hearing.pixels_of(given[0].hex())
    if name == "island_guard":
        return hearing.sent_columns(b"i %d" % given)
    data, first = given
    fields = [data[at : at + size].hex() for at, size in ((0, 3), (3, 7), (10, 7), (17, 7), (24, 7))]
    return [*hearing.packet_columns([*fields, "".join(map(str, data[31:]))], first)]


def rows_of(columns, behind=0):
    """The rows of columns, and of what stood in the places behind them."""
    return tuple([column[lane] for column in columns] + [OLD] * behind for lane in range(3))


def parts_of(listing, guards):
    """The calls for the lines of a listing."""
    first = True
    for name, *fields in (line.split(" ") for line in listing.decode().splitlines()):
        if name == "c":
            yield "run", (int(fields[0], 16), int(fields[1]))
        elif name == "v":
            yield from [("video_guard", ())] * guards
            yield "pixels", (bytes.fromhex(fields[0]),)
        elif name in ("i", "e"):
            yield from (("island_guard", (int(sync),)) for sync in fields[0])
            first = True
        elif name == "p":
            yield "packet", (bytes.fromhex("".join(fields[:5])) + bytes(map(int, fields[5])), first)
            first = False


def listings():
    """Stored listings and generated ones, and whether they have guard bands."""
    for name in ("red", "island", "skewed"):
        yield name, (TOP / "examples" / f"{name}.link").read_bytes(), True
    for at in range(LISTINGS):
        guards = at % 3 > 0
        yield f"listing {at}", feeding.listing_of(random.Random(f"an encoding {at}"), guards), guards


def test_the_model_sends_the_same(calls, compare):
    """Every line of a listing is a part, or two; their columns are those of the listing."""

    def cases():
        for name, listing, guards in listings():
            columns = []
            for part, given in parts_of(listing, guards):
                _, needed, _ = encoded(calls, part, given, [0] * 3)
                status, count, rows = encoded(calls, part, given, [needed] * 3)
                assert (status, count) == (OK, needed), (name, part, given)
                columns += zip(*rows)
            yield name, columns, hearing.sent_columns(listing, guards)

    compare(cases())


def test_by_hand(calls, compare):
    """Characters of DVI 1.0, section 3.2, and of HDMI 1.4, sections 5.2 and 5.4, looked up by hand."""

    def cases():
        # HSYNC and VSYNC; CTL1 alone; CTL2 and CTL3
        for value, column in ((3, (0x2AB, 0x354, 0x354)), (8, (0x354, 0x154, 0x354)), (0x30, (0x354, 0x354, 0x2AB))):
            yield f"value {value}", encoded(calls, "run", (value, 2), [2, 2, 2]), (OK, 2, rows_of([column] * 2))
        yield "the guard of a line", encoded(calls, "video_guard", (), [2, 2, 2]), (OK, 2, ([0x2CC] * 2, [0x133] * 2, [0x2CC] * 2))
        for sync, word in enumerate((0x28E, 0x271, 0x163, 0x2C3)):
            yield f"a guard of sync {sync}", encoded(calls, "island_guard", (sync,), [1] * 3), (OK, 1, ([word], [0x133], [0x133]))
        # A null packet: all blocks are zero, bit 3 of blue is 0 in its island's first column alone.
        nothing = bytes(63)
        blue, other = [0x29C] + [0x2CC] * 31, [0x29C] * 32
        yield "a first null packet", encoded(calls, "packet", (nothing, True), [32] * 3), (OK, 32, (blue, other, other))
        yield "a later one", encoded(calls, "packet", (nothing, False), [32] * 3), (OK, 32, ([0x2CC] * 32, other, other))
        # Byte 0 by exclusive or is 0x100; with eight zeros more in it than ones the next is 0x3FF, its inverse.
        black = encoded(calls, "pixels", (bytes(6),), [2] * 3)
        yield "two black pixels", black, (OK, 2, ([0x100, 0x3FF],) * 3)

    compare(cases())


def test_rooms(calls, compare):
    """Of each part with rows that fit, are longer, and of which one, two or all are shorter: where one is nothing is written."""

    def cases():
        for name, given, count in PARTS:
            columns = columns_of(name, given)
            assert len(columns) == count
            for rooms in ([count] * 3, [count + 1, count + 2, count + 3], [count + 40] * 3):
                wanted = tuple(row + [OLD] * (room - count) for row, room in zip(rows_of(columns), rooms))
                yield f"{name} {rooms}", encoded(calls, name, given, rooms), (OK, count, wanted)
            for short in (count - 1, count // 2, 0):
                for mask in range(1, 8):
                    rooms = [short if mask >> lane & 1 else count + 1 for lane in range(3)]
                    wanted = tuple([OLD] * room for room in rooms)
                    yield f"{name} {rooms}", encoded(calls, name, given, rooms), (FULL, count, wanted)

    compare(cases())


def not_parts():
    """Calls for which there is no part."""
    for value in (64, 65, 127, 256, 1 << 31, (1 << 32) - 1):
        yield "run", (value, 1)
    for count in (0, 20_000_001, 1 << 31, (1 << 32) - 1):
        yield "run", (0, count)
    for size in (0, 1, 2, 4, 5, 3 * 4096 - 1, 3 * 4096 + 1, 3 * 4097, 1 << 16):
        yield "pixels", (bytes(size),)
    for sync in (4, 5, 16, 256, 1 << 31, (1 << 32) - 1):
        yield "island_guard", (sync,)
    for size in (0, 3, 31, 62, 64, 126):
        yield "packet", (bytes(size), True)
    for at in range(31, 63):
        yield "packet", (PACKET[:at] + bytes([4 << at % 6]) + PACKET[at + 1 :], at % 2 == 0)


def test_misuse(calls, compare):
    """What is no part is told so, with room or without, and nothing is written."""

    def cases():
        for name, given in not_parts():
            for room in (0, 40):
                wanted = MISUSE, 0, ([OLD] * room,) * 3
                yield f"{name} {given!r:.80}, {room}", encoded(calls, name, given, [room] * 3), wanted

    compare(cases())


def test_the_largest_parts(calls, compare):
    """A line of 4,096 pixels, every value of a run, and how much the longest run needs."""

    def cases():
        line = random.Random("a line").randbytes(3 * 4096)
        yield "a line", encoded(calls, "pixels", (line,), [4096] * 3), (OK, 4096, rows_of(hearing.pixels_of(line.hex())))
        for value in range(64):
            column = tuple(CONTROL[value >> 2 * lane & 3] for lane in range(3))
            yield f"value {value}", encoded(calls, "run", (value, 13), [13] * 3), (OK, 13, rows_of([column] * 13))
        yield "the longest run", encoded(calls, "run", (63, 20_000_000), [5] * 3), (FULL, 20_000_000, ([OLD] * 5,) * 3)

    compare(cases())


# ---- the example


def pattern(width, height):
    """The listing of the example's picture."""
    island = "c 15 8\ni 11\np 000000 " + "00000000000000 " * 4 + "1" * 32 + "\ne 11\n"
    for row in range(height):
        pixel = "".join("ff" if row + 1 >> side & 1 else "00" for side in range(3))
        yield f"c 00 12\nc 01 12\n{island}c 01 12\nc 00 12\nc 04 8\nv {pixel * width}\n"
    yield "c 00 12\n"


def test_the_example(compiled, compare):
    """Its characters are those of a listing, under the sanitizers; no pattern is wider than a line may be."""
    program = compiled(TOP / "examples" / "c" / "pattern.c", *SANITIZERS)

    def cases():
        for words, width, height in (((), 8, 4), (("1",), 1, 4), (("4096", "1"), 4096, 1), (("30", "9"), 30, 9), (("5", "0"), 5, 0)):
            came = ran([program, *words], b"")
            columns = [tuple(int(word, 16) for word in line.split()) for line in came.stdout.splitlines()]
            yield f"{words}", (came.returncode, columns), (0, hearing.sent_columns("".join(pattern(width, height)).encode()))
        for words in (("0",), ("4097",), ("none",)):
            came = ran([program, *words], b"")
            yield f"{words}", (came.returncode, came.stdout), (1, b"")

    compare(cases())


# ---- Python


@pytest.fixture
def found(library, monkeypatch):
    path = library / "libvabgrot.so.1"
    monkeypatch.setenv("VABGROT_LIBRARY", str(path))
    encoding.calls.cache_clear()
    return path


def islands(lines):
    """The parts of Python for the lines of a listing."""
    packets = []
    for name, *fields in (line.split(" ") for line in lines):
        if name == "c":
            yield Control(int(fields[0], 16), int(fields[1]))
        elif name == "v":
            yield Video(bytes.fromhex(fields[0]))
        elif name == "i":
            opening, packets = tuple(map(int, fields[0])), []
        elif name == "p":
            packets.append(bytes.fromhex("".join(fields[:5])) + bytes(map(int, fields[5])))
        elif name == "e":
            yield Island(packets, opening, tuple(map(int, fields[0])))


def test_python(found, compare):
    def cases():
        for name, listing, guards in listings():
            if guards:
                words = vabgrot.encode(islands(listing.decode().splitlines()))
                yield name, [*map(tuple, words.tolist())], hearing.sent_columns(listing)
        words = vabgrot.encode([])
        yield "no parts", (words.shape, words.dtype), ((0, 3), np.uint16)
        pixels = np.arange(60, dtype=np.uint8).reshape(20, 3)
        wanted = hearing.pixels_of(pixels[::2].tobytes().hex())
        yield "an array", [*map(tuple, vabgrot.encode([Video(pixels[::2], guard=False)]).tolist())], wanted
        wanted = [(CONTROL[1], CONTROL[0], CONTROL[0])] * 3
        yield "numbers of NumPy", [*map(tuple, vabgrot.encode([Control(np.int64(1), np.uint8(3))]).tolist())], wanted

    compare(cases())


def test_what_is_encoded_is_heard(found):
    """Three lines and an island, in bits, in the receiver."""
    rng = random.Random("a round")
    lines = [rng.randbytes(3 * 20) for _ in range(3)]
    parts = [Control(0, 40), Control(0x15, 8), Island([PACKET, PACKET], (1, 1), (1, 1))]
    for line in lines:
        parts += [Control(0, 12), Control(4, 8), Video(line)]
    words = vabgrot.encode([*parts, Control(0, 12)])
    lanes = [sum(word << 10 * at for at, word in enumerate(lane)) for lane in words.T.tolist()]
    events = [*vabgrot.receive(*(lane.to_bytes((10 * len(words) + 7) // 8, "little") for lane in lanes), bits=[10 * len(words)] * 3)]
    assert [it.data for it in events if isinstance(it, Event) and it.kind == Kind.LINE] == lines
    heard = [it.data for it in events if isinstance(it, Event) and it.kind == Kind.PACKET]
    runs = [(it.value, it.width) for it in events if isinstance(it, Event) and it.kind == Kind.RUN]
    assert heard == [PACKET] * 2 and not any(isinstance(it, Event) and it.is_fault for it in events)
    assert runs[1:] == [(0x15, 8), *[(0, 12), (4, 8)] * 3, (0, 12)] and events[-1].columns == len(words) - 40 + runs[0][1]


def test_python_refuses(found):
    for name, given in not_parts():
        if name == "run":
            part = Control(*given)
        elif name == "pixels":
            part = Video(*given)
        elif name == "island_guard":
            part = Island([PACKET], (0, given[0]))
        else:
            part = Island([given[0]])
        with pytest.raises(ValueError, match="there is no such part of a link"):
            vabgrot.encode([Control(0, 12), part])
    for part in (*(Control(*it) for it in UNCOUNTED), *(Island([PACKET], it) for it in UNCOUNTED)):
        with pytest.raises(ValueError, match="a number of a part"):
            vabgrot.encode([part])
    for part in (Control(0.5, 1), Video("ff0000"), Video(3), Video(np.zeros((2, 3), np.uint16)), Island([63]), None, Kind.RUN):
        with pytest.raises(TypeError):
            vabgrot.encode([part])


def test_no_silent_misreading(found):
    """Arrays of other shapes than pixels by three, and islands of no packets or too many."""
    for shape in ((20, 4), (20, 1), (4, 5, 3), (3, 20)):
        with pytest.raises(
            ValueError, match=r"^a line is an array of pixels by three \(red, green, blue\), and not of the shape .*$"
        ) as why:
            vabgrot.encode([Video(np.zeros(shape, np.uint8), guard=False)])
        assert ("Leave out their alpha" in str(why.value)) == (shape == (20, 4))
    for count in (0, 19, 63):
        with pytest.raises(ValueError, match=f"^an island has 1 to 18 packets, and not {count}$"):
            Island([PACKET] * count)
    assert len(vabgrot.encode([Island([PACKET] * 18)])) == 18 * 32 + 4


WITHOUT = """
import sys
sys.modules["numpy"] = None
import vabgrot
print(vabgrot.encode([vabgrot.Control(3, 2), vabgrot.Island([bytes(63)])]), vabgrot.encode([]))
"""


def test_without_numpy(found):
    """The same columns as lists."""
    env = {"PYTHONPATH": str(TOP / "python"), "VABGROT_LIBRARY": str(found)}
    came = subprocess.run([sys.executable, "-c", WITHOUT], capture_output=True, text=True, timeout=HANGS, env=env)
    assert came.returncode == 0, came.stderr
    guard = [TERC4[12], ISLAND_GUARD, ISLAND_GUARD]
    packet = [[TERC4[0] if at == 0 else TERC4[8], TERC4[0], TERC4[0]] for at in range(32)]
    assert came.stdout == f"{[[CONTROL[3], CONTROL[0], CONTROL[0]]] * 2 + [guard] * 2 + packet + [guard] * 2} []\n"


def test_a_library_without_these_calls(monkeypatch):
    """An older library is told apart."""
    monkeypatch.setattr(encoding.library, "find", lambda: "old")
    monkeypatch.setattr(encoding.library, "loaded", lambda path: object())
    encoding.calls.cache_clear()
    with pytest.raises(vabgrot.NoLibrary, match="the C library old lays no columns"):
        vabgrot.encode([Control(0, 12)])
    encoding.calls.cache_clear()
