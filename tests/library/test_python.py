"""The receiver in Python: its events and their order, pieces, misuse; what a capture carries, by the library and by the program; the
test bench of examples/python; and where the library is found."""

import importlib.util
import io
import os
import random
import re
import shutil
import subprocess
import sys

import numpy as np
import pytest

import vabgrot
from tests.library.conftest import SANITIZERS
from tests.library.test_calls import lanes_of
from tests.models import feeding, hearing, model, relocking
from tests.support import HANGS, LISTING, TOP, run
from vabgrot import capture, library, texts
from vabgrot.events import ENDS, UNTOLD, End, Event, Kind
from vabgrot.formats.characters import CONTROL

CAPTURES = 24
BODIES = tuple(bytes([at] * 7) for at in range(4))
SLIPPED = (TOP / "examples" / "two-lines.link").read_bytes()  # before it slips, in examples/track.txt
EPOCHS = {"track": model.epochs, "relock": relocking.epochs}
ISLAND = b"c 00 12\nc 14 8\ni 12\np 82020d %b %b\ne 30\nc 00 12\nend\n" % (b" ".join(it.hex().encode() for it in BODIES), b"0123" * 8)


@pytest.fixture(autouse=True)
def found(library, monkeypatch):
    """The library that was built for these tests is the one that is found."""
    path = library / "libvabgrot.so.1"
    monkeypatch.setenv("VABGROT_LIBRARY", str(path))
    return path


def run_of(column, value, count, epoch=0):
    return Event(Kind.RUN, epoch, column, column - count, count, value, 0)


def line_event(column, data, guards=2, epoch=0):
    width = len(data) // 3 + guards
    return Event(Kind.LINE, epoch, column, column - width, width, len(data) // 3, 0, data)


def in_pieces(receiver, lanes, bits, size):
    """The events of lanes that are fed in pieces of so many bytes, and of their end."""
    events = []
    for at in range(0, max(map(len, lanes)), size):
        counts = [min(8 * size, max(0, count - 8 * at)) for count in bits]
        events += receiver.feed(*(lane[at : at + size] for lane in lanes), bits=counts)
    rest, end = receiver.finish()
    return [*events, *rest, end]


def least(kind):
    """A receiver with the least room."""
    events, size = library.least_room(kind)
    return vabgrot.Receiver(kind=kind, events=events, size=size)


def test_events():
    """Each kind of two small streams, columns counted by hand; the pixels as an array."""
    lanes, bits = lanes_of(LISTING)
    line = line_event(15, b"\xff\0\0")
    assert [*vabgrot.receive(*lanes, bits=bits)] == [run_of(4, 0, 4), run_of(12, 4, 8), line, run_of(27, 0, 12), End(27, 1, 1)]
    assert line.pixels.tolist() == [[255, 0, 0]]
    lanes, bits = lanes_of(ISLAND)
    packet = Event(Kind.PACKET, 0, 45, 14, 32, 0x82, 0, b"\x82\x02\x0d" + b"".join(BODIES) + bytes([0, 1, 2, 3] * 8))
    guards = Event(Kind.OPEN, 0, 13, 12, 2, 1, 2), Event(Kind.CLOSE, 0, 47, 46, 2, 3, 0)
    wanted = [run_of(4, 0, 4), run_of(12, 0x14, 8), guards[0], packet, guards[1], run_of(60, 0, 12), End(60, 1, 1)]
    assert [*vabgrot.receive(*map(memoryview, lanes), bits=bits)] == wanted
    assert (packet.header, packet.bodies, packet.syncs) == (b"\x82\x02\x0d", BODIES, bytes([0, 1, 2, 3] * 8))
    lanes, bits = lanes_of(LISTING.replace(b"c 00 12\nend", b"c 00 1\nend"))
    assert [*vabgrot.receive(*lanes, bits=[140] * 3)][-2:] == [Event(Kind.CUT, 0, 14, 14, 0, 0, 0), End(14, 1, 1)]
    assert [*vabgrot.receive(b"", b"", b"")] == [End(0, 1, 0)]


def test_a_stream_without_guard_bands():
    lanes, bits = lanes_of(b"c 00 12\nv ff0000\nc 00 12\nend\n", guards=False)
    wanted = [run_of(12, 0, 12), line_event(13, b"\xff\0\0", guards=0), run_of(25, 0, 12), End(25, 1, 1)]
    assert [*vabgrot.receive(*lanes, bits=bits, kind="dvi")] == wanted
    with vabgrot.Receiver(kind="dvi") as receiver:
        for _ in range(2):
            assert in_pieces(receiver, lanes, bits, 7) == wanted
            receiver.restart()
    with pytest.raises(ValueError, match="'content'"):
        vabgrot.Receiver(kind="content")


def test_a_fault_in_words():
    """A character of lane 1 in the second control column."""
    rows = [list(row) for row in zip(*hearing.sent_columns(LISTING))]
    rows[1][24] = 0x133
    lanes = [sum(word << 10 * at for at, word in enumerate(row)).to_bytes(34, "little") for row in rows]
    (fault,) = (it for it in vabgrot.receive(*lanes, bits=[270] * 3) if isinstance(it, Event) and it.is_fault)
    assert fault == Event(Kind.WORD, 0, 24, 24, 0, 1, 0)
    assert str(fault) == "column 24 on lane 1 (green): word, a character of a control column is no control character"


@pytest.mark.parametrize("size", (1, 7, 4095, 100000))
def test_pieces(size):
    """Bytes, NumPy arrays, and every second byte of an array, fed in pieces."""
    _, rows = feeding.made_capture(random.Random("pieces"))
    lanes = [int(row[::-1], 2).to_bytes((len(row) + 7) // 8, "little") for row in rows]
    bits = [len(row) for row in rows]
    arrays = [np.frombuffer(lane, np.uint8) for lane in lanes]
    wanted = [*vabgrot.receive(*lanes, bits=bits)]
    with vabgrot.Receiver() as receiver:
        assert in_pieces(receiver, lanes, bits, size) == wanted
        receiver.restart()
        assert in_pieces(receiver, [np.repeat(lane, 2)[::2] for lane in arrays], bits, size) == wanted


def test_lanes_that_are_read(compare):
    """The events of files are those of their bytes, of lanes of any lengths."""

    def cases():
        rng = random.Random("lanes that are read")
        for at in range(CAPTURES):
            lanes = packed(feeding.made_capture(rng)[1])[0]
            lanes = [lane[: rng.choice((len(lane), rng.randrange(len(lane) + 1)))] for lane in lanes]
            bits = rng.choice((None, [max(0, 8 * len(lane) - rng.randrange(20)) for lane in lanes]))
            kind = rng.choice(sorted(library.KINDS))
            wanted = [*vabgrot.receive(*lanes, bits=bits, kind=kind)]
            yield f"capture {at}", [*vabgrot.receive(*map(io.BytesIO, lanes), bits=bits, kind=kind)], wanted
            blue, green, red = lanes
            yield f"capture {at}, a file and bytes", [*vabgrot.receive(blue, io.BytesIO(green), red, bits=bits, kind=kind)], wanted

    compare(cases())


def test_more_events_than_there_is_room_for():
    """200,000 columns of which each has another value than the one before, in one feed."""
    count = 200_000
    words = np.array([CONTROL[at % 2] for at in range(count)], np.uint16)
    lane = np.packbits((words[:, None] >> np.arange(10) & 1).astype(np.uint8).reshape(-1), bitorder="little")
    head = [np.frombuffer(it, np.uint8)[:30] for it in lanes_of(LISTING)[0]]  # 24 columns, the last nine of value 0
    with vabgrot.Receiver() as receiver:
        events = receiver.feed(*(np.concatenate([it, lane]) for it in head))
        assert len(events) == 4 + count - 2 and events.data.tobytes() == b"\xff\0\0"
        runs = events[4:]
        assert (runs.kind == Kind.RUN).all() and (runs.column == np.arange(26, 24 + count)).all()
        assert (runs.width == 1).all() and set(runs.value[::2]) == {21} and set(runs.value[1::2]) == {0}
        assert receiver.finish()[1] == End(24 + count, 1, 1)


def test_misuse():
    receiver, lanes = vabgrot.Receiver(), (b"ab", b"cd", b"ef")
    for why, words, bits in (
        (TypeError, [np.zeros(2, np.uint16)] * 3, None),
        (TypeError, ["ab"] * 3, None),
        (vabgrot.Misuse, lanes, [16, 17, 16]),
        (vabgrot.Misuse, lanes, [16, 16]),
        (vabgrot.Misuse, lanes, [-1, 16, 16]),
    ):
        with pytest.raises(why):
            receiver.feed(*words, bits=bits)
    receiver.feed(*lanes, bits=[16, 5, 16])
    with pytest.raises(vabgrot.Misuse, match="ended"):
        receiver.feed(*lanes)
    receiver.restart()
    assert [*receiver.feed(*lanes)] == [] and receiver.finish()[1] == End(0, 1, 0)
    for call in (receiver.finish, lambda: receiver.feed(*lanes), receiver.close, receiver.close, receiver.restart, receiver.finish):
        if call == receiver.close:
            call()
        else:
            with pytest.raises(vabgrot.Misuse):
                call()


# ---- lanes that may lose bits


def line_of(event):
    """The line of a listing that an event is."""
    match event.kind:
        case Kind.RUN:
            return f"c {event.value:02x} {event.width}"
        case Kind.LINE:
            return f"v {event.data.hex()}"
        case Kind.OPEN | Kind.CLOSE:
            return f"{'i' if event.kind == Kind.OPEN else 'e'} {event.value}{event.second}"
        case Kind.PACKET:
            return " ".join(["p", event.header.hex(), *(it.hex() for it in event.bodies), "".join(map(str, event.syncs))])
        case Kind.CUT:
            return f"cut {event.first}"
    return event.line


def listing_of(events):
    """The listing of events of lanes that may lose bits, without one where they were never aligned."""
    *events, end = events
    assert end.aligned or not events
    return "".join(f"{line}\n" for line in [*map(line_of, events), "end"]).encode() if end.aligned else b""


def counted(kind, rows):
    """How many epochs the model says that there are, and in how many the lanes are aligned."""
    found = [[bits[start:end] for bits in rows] for start, end, _ in EPOCHS[kind](rows)]
    return len(found), sum(model.aligned(it) is not None for it in found)


def slipped(*hits):
    """The bits of three lanes that lost some: each hit is a lane, a place, and how many."""
    rows = [model.sent_bits(row) for row in zip(*hearing.sent_columns(SLIPPED))]
    for hit in hits:
        rows = model.slipped(rows, *hit)
    return rows


def slips():
    """Lanes that lose bits, whole characters too, and lanes that do not."""
    yield from (slipped(), slipped((2, 300, 3)), slipped((2, 300, 9), (2, 300, 9), (2, 300, 2)), slipped((1, 30, 7), (0, 420, 5)))


def packed(rows):
    """The bytes of three lanes, and how many bits each has."""
    return [int(row[::-1], 2).to_bytes((len(row) + 7) // 8, "little") for row in rows], [len(row) for row in rows]


def test_a_slip():
    """Of the guide's listing: columns are counted anew behind it; and what is an alignment let go there."""
    lanes, bits = packed(slipped((2, 300, 3)))
    ends = Event(Kind.CUT, 0, 43, 14, 0, 0, 0), Event(Kind.SLIP, 0, 0, 437, 0, 2, 0)
    again = run_of(4, 0, 4, 1), run_of(12, 4, 8, 1), line_event(15, b"\xff\0\0", epoch=1), run_of(27, 0, 12, 1)
    wanted = [run_of(4, 0, 4), run_of(12, 4, 8), *ends, *again]
    for kind in EPOCHS:
        assert [*vabgrot.receive(*lanes, bits=bits, kind=kind)] == [*wanted, End(UNTOLD, 2, 2)]
        assert [*vabgrot.receive(b"", b"", b"", kind=kind)] == [End(UNTOLD, 1, 0)]
    lanes, bits = packed(slipped((2, 300, 9), (2, 300, 9), (2, 300, 2)))
    (end,) = (it for it in vabgrot.receive(*lanes, bits=bits, kind="relock") if isinstance(it, Event) and it.kind in ENDS)
    assert (end.kind, end.first, end.line) == (Kind.RELOCKED, 620, "! relock 620")


@pytest.mark.parametrize("kind", EPOCHS)
def test_slips_in_pieces_of_every_size(kind, compare):
    """The same events, those of the model's listing; a restart keeps the kind; and with the least room."""

    def cases():
        with vabgrot.Receiver(kind=kind) as receiver, least(kind) as small:
            for at, rows in enumerate(slips()):
                lanes, bits = packed(rows)
                wanted = [*vabgrot.receive(*lanes, bits=bits, kind=kind)]
                end = End(UNTOLD, *counted(kind, rows))
                said = model.tracked(rows, hearing.link_of) if kind == "track" else relocking.relocked(rows, hearing.link_of)
                yield f"lanes {at}", (listing_of(wanted), wanted[-1]), (said[1], end)
                for size in range(1, max(map(len, lanes)) + 1):
                    for it in (receiver, small):
                        yield f"lanes {at}, pieces of {size} bytes", in_pieces(it, lanes, bits, size), wanted
                        it.restart()

    compare(cases())


@pytest.mark.slow
@pytest.mark.parametrize("kind", EPOCHS)
def test_the_program_lists_the_same(kind, executable, compare):
    """Of random captures, by objects and by arrays, in pieces."""

    def cases():
        for at in range(CAPTURES):
            data, rows = feeding.made_capture(random.Random(f"slips {at}"))
            lanes, bits = packed(rows)
            status, text, _ = run(executable, ["recover", kind], data)
            wanted = [*vabgrot.receive(*lanes, bits=bits, kind=kind)]
            epochs, aligned = counted(kind, rows)
            yield f"capture {at}", (listing_of(wanted), wanted[-1]), (text, End(UNTOLD, epochs, aligned))
            yield f"the status of capture {at}", any(line_of(it)[0] == "!" for it in wanted[:-1]), status == 1
            with vabgrot.Receiver(kind=kind) as receiver:
                for size in (7, 4095, 100000):
                    yield f"capture {at}, pieces of {size} bytes", in_pieces(receiver, lanes, bits, size), wanted
                    receiver.restart()
                views = [event for part in receiver.feed_views(*lanes, bits=bits) for event in part]
                yield f"views of capture {at}", [*views, *receiver.finish()[0]], wanted[:-1]

    compare(cases())


# ---- whole captures


def captures(executable):
    """The name and the bytes of captures: of random bits, of the examples, and of one of them with damage."""
    for at in range(CAPTURES):
        yield f"random capture {at}", feeding.made_capture(random.Random(f"library {at}"))[0]
    for name in ("red", "island", "skewed"):
        words = ["make", "link", "--offset", "7", "--skew", "0,70,35", "--version", "2"]
        yield name, run(executable, words, (TOP / "examples" / f"{name}.link").read_bytes())[1]
    bars = run(executable, ["make", "content"], (TOP / "examples" / "bars.content").read_bytes())[1]
    yield "bars", bars
    rng = random.Random("bars")
    hits = [f"{rng.randrange(3)}:{10 * rng.randrange(len(bars) * 8 // 30)}:{rng.randrange(1024):03x}" for _ in range(50)]
    yield "damaged bars", run(executable, ["damage", *hits], bars)[1]
    for at in (0, 400, 1000):  # columns from the end of a line on, and HSYNC in them, are other ones
        hits = [f"{lane}:{10 * (2000 + at + it)}:{rng.choice((*CONTROL, 0x133)):03x}" for it in range(60) for lane in range(3)]
        yield f"bars with a burst at {at}", run(executable, ["damage", *hits], bars)[1]


def test_recover_a_picture_and_sound(executable, tmp_path):
    """The frames, the samples and the kinds of packets that were sent."""
    text = (TOP / "examples" / "bars.content").read_text()
    rows = [bytes.fromhex(row) for row in re.findall(r"(?m)^row (.*)$", text)]
    sizes = [(int(rows), int(columns), 3) for columns, rows in re.findall(r"(?m)^frame (\d+) (\d+)$", text)]
    path = tmp_path / "bars.tmc"
    path.write_bytes(run(executable, ["make", "content", "--offset", "123"], text.encode())[1])
    came = vabgrot.recover(path)
    assert came.aligned and not len(came.faults)
    assert [it.shape for it in came.frames] == sizes and b"".join(it.tobytes() for it in came.frames) == b"".join(rows)
    sent = [line.split() for line in re.findall(r"(?m)^s (.*)$", text)]
    wanted = [(int(it[0], 16), int(it[1], 16), int(it[2]), int(it[3]), it[4] == "1", 0) for it in sent]
    heard = [(*(side & 0xFFFFFF for side in it[1:3]), it[3] & 7, it[4] & 7, *it[5:7]) for it in came.samples.tolist()]
    assert heard == wanted
    assert {it.header[0] for it in came.packets} == {1, 2, 0x82, 0x84}


def test_recover_refuses(tmp_path):
    for data in (b"", b"TMC3", b"TMC1\0\0\0\x10"):
        with pytest.raises(vabgrot.Refused):
            vabgrot.recover(data)
    with pytest.raises(OSError):
        vabgrot.recover(tmp_path / "none")


def test_texts(executable, compare, monkeypatch, tmp_path):
    """What is listed of whole captures is what the program writes, by the library and without it; of a file as of its bytes."""
    monkeypatch.setenv("VABGROT_PROGRAM", executable)

    def cases():
        for name, data in (("no capture", b"TMC3"), ("nothing", b""), *captures(executable)):
            for reader in ("link", "dvi", "track", "relock", "check"):
                status, text, _ = run(executable, [reader] if reader == "check" else ["recover", reader], data)
                yield f"{name}, {reader}", vabgrot.text_of(data, kind=reader), (status, text)
                yield f"{name}, {reader} by the program", texts.by_program(data, reader), (status, text)
        path = tmp_path / "x.tmc"
        path.write_bytes(data)
        yield "a file", vabgrot.text_of(path), vabgrot.text_of(data)

    compare(cases())


# ---- a test bench


def test_the_bench():
    """A clean stream, one damaged character of a control period, and one of a line."""
    spec = importlib.util.spec_from_file_location("bench", TOP / "examples" / "python" / "bench.py")
    bench = importlib.util.module_from_spec(spec)
    spec.loader.exec_module(bench)
    text = (TOP / "examples" / "red.link").read_bytes()
    columns = [*hearing.sent_columns(text)] * 3

    def heard(columns):
        with bench.Link(clocks=40) as link:
            for words in columns:
                link.tick(*words)
            return link.finish(), link.events

    count, events = heard(columns)
    assert count <= len(columns) and sum(it.kind == Kind.LINE for it in events) == 3 * text.count(b"v ")
    before, at = len(columns) - count, len(columns) - 3
    hurt = [*columns[:at], (columns[at][0], columns[at][1], 0x133), *columns[at + 1 :]]
    with pytest.raises(bench.LinkFault, match=rf"column {at - before} on lane 2 \(red\): word, a character of a control column is no"):
        heard(hurt)
    with pytest.raises(bench.LinkFault, match="not aligned in 3 clocks"):
        heard(columns[:3])


# ---- where the library is


def python(source, folder, **env):
    """Runs Python with a package folder on its path; no variable names a library."""
    env = {**{name: it for name, it in os.environ.items() if not name.startswith("VABGROT")}, "PYTHONPATH": str(folder), **env}
    return subprocess.run([sys.executable, "-c", source], capture_output=True, text=True, env=env, timeout=HANGS)


def test_the_package_alone():
    """What is imported of the package itself needs neither NumPy nor the library."""
    came = python("import sys, vabgrot; print('numpy' in sys.modules, 'ctypes' in sys.modules, vabgrot.Refused.__name__)", TOP / "python")
    assert came.stdout == "False False Refused\n", came.stderr
    assert "no attribute 'nothing'" in python("import vabgrot; vabgrot.nothing", TOP / "python").stderr


def test_an_installed_library_is_found(found, tmp_path):
    """Laid out as `./vabgrot install` does: PREFIX/lib/libvabgrot.so.1 and PREFIX/lib/vabgrot/python."""
    shutil.copytree(TOP / "python", tmp_path / "lib" / "vabgrot" / "python")
    source = "import vabgrot; print(*vabgrot.receive(b'', b'', b''))"
    come = tmp_path / "lib" / "vabgrot" / "python"
    missing = python(source, come)
    assert missing.returncode == 1 and "NoLibrary: there is no C library" in missing.stderr
    shutil.copy(found, tmp_path / "lib")
    came = python(source, come)
    assert came.stdout == "End(columns=0, epochs=1, aligned_epochs=0)\n", came.stderr
    assert "and there is no such file" in python(source, come, VABGROT_LIBRARY="/none").stderr


# ---- docs/guide/LIBRARY.md


BARS = (TOP / "examples" / "bars.content").read_bytes()
BARS_COLUMNS = 3 * (32 + 8 + 16 + 64) * (8 + 2 + 2 + 3)  # of its three frames
LAST_COLUMNS = 32  # after the last frame


def write_lanes(folder, executable, listing):
    """Writes a capture of a content with one damaged character, and the bits of its lanes, into a folder."""
    put_lanes(folder, run(executable, ["damage", "2:28450:0ab"], run(executable, ["make", "content"], listing)[1])[1])


def put_lanes(folder, data):
    """Writes a capture, and the bits of its lanes, into a folder."""
    (folder / "bars.tmc").write_bytes(data)
    for name, lane in zip(("blue", "green", "red"), capture.lanes_of(data)[0]):
        (folder / name).write_bytes(lane)


@pytest.fixture(scope="module")
def bars(executable, tmp_path_factory):
    """The folder of a capture with one damaged character, and of the bits of its lanes."""
    folder = tmp_path_factory.mktemp("guide")
    write_lanes(folder, executable, BARS)
    return folder


@pytest.fixture(scope="module")
def count(bars, compiled):
    """The first program of the guide, under the sanitizers."""
    (bars / "count.c").write_text(blocks("c")[0])
    return compiled(bars / "count.c", *SANITIZERS)


def said_of_lanes(program, folder):
    """What it says of the lanes in a folder."""
    came = subprocess.run([program, "blue", "green", "red"], cwd=folder, capture_output=True, text=True, timeout=HANGS)
    assert not came.stderr, came.stderr
    return came.returncode, came.stdout


def blocks(language):
    return re.findall(rf"(?ms)^```{language}\n(.*?)^```", (TOP / "docs" / "guide" / "LIBRARY.md").read_text())


def test_the_first_program(bars, count):
    assert said_of_lanes(count, bars) == (0, f"{BARS_COLUMNS + LAST_COLUMNS} columns, 24 lines, 1 faults\n")


def test_the_first_program_reads_to_the_end(count, executable, tmp_path):
    """Its lanes are longer than 64 KiB; and one of them is cut off."""
    mode, _, frames = BARS.partition(b"\n")
    write_lanes(tmp_path, executable, mode + b"\n" + frames.removesuffix(b"end\n") * 20 + b"end\n")
    columns = 20 * BARS_COLUMNS + LAST_COLUMNS
    assert (tmp_path / "blue").stat().st_size == (10 * columns + 7) // 8 > 1 << 16
    assert said_of_lanes(count, tmp_path) == (0, f"{columns} columns, {20 * 24} lines, 1 faults\n")
    with open(tmp_path / "green", "r+b") as file:
        file.truncate(5 * 4000)  # 16,000 characters
    assert said_of_lanes(count, tmp_path)[1].startswith("16000 columns, ")


def test_c_as_printed(bars, compiled):
    _, call, making, parts = blocks("c")
    given = "const uint8_t capture[] = {84, 77, 67, 51}; const size_t capture_size = 4, room = 4; uint8_t listing[4];"
    (bars / "call.c").write_text(f"#include <vabgrot.h>\n\nint main(void) {{\n{given}\n{call}return size != 0;\n}}\n")
    assert subprocess.run([compiled(bars / "call.c")], timeout=HANGS).returncode == 0  # no capture: nothing is listed
    given = "const uint8_t listing[] = {101, 110, 100, 10}; const size_t listing_size = 4, room = 64; uint8_t capture[64];"
    (bars / "make.c").write_text(f"#include <stdio.h>\n#include <vabgrot.h>\n\nint main(void) {{\n{given}\n{making}return 0;\n}}\n")
    came = subprocess.run([compiled(bars / "make.c")], capture_output=True, timeout=HANGS)
    assert (came.returncode, came.stderr) == (0, b"input: line 1 order\n")  # `end` alone
    given = "const size_t room = 64; uint16_t blue[64], green[64], red[64];"
    ends = "return at != 12 || blue[0] != 0x354 || green[0] != 0x0ab || blue[9] != 0x2cc || red[10] != 0x200 || red[11] != 0x0ff;"
    (bars / "parts.c").write_text(f"#include <vabgrot.h>\n\nint main(void) {{\n{given}\n{parts}{ends}\n}}\n")
    assert subprocess.run([compiled(bars / "parts.c")], timeout=HANGS).returncode == 0


def said_by(source, folder, *words):
    """What a program in Python says, run in a folder."""
    env = {**os.environ, "PYTHONPATH": str(TOP / "python")}
    came = subprocess.run([sys.executable, "-c", source, *words], cwd=folder, capture_output=True, text=True, env=env, timeout=HANGS)
    assert came.returncode == 0, came.stderr
    return came.stdout


def test_python_as_printed(bars, found):
    """The events of three files, these in pieces, a whole capture, its verdict, one that is made, and parts of a link."""
    lanes, whole, listing = ["blue", "green", "red"], ["bars.tmc"], [TOP / "examples" / "skewed.link"]
    words = (lanes, lanes, whole, whole, [], listing, [])
    says = [said_by(source, bars, *its) for source, its in zip(blocks("python"), words, strict=True)]
    assert "a line of 32 pixels" in says[0] and "on lane 2 (red): code, the first character of a row on its lane" in says[0]
    assert says[0].endswith(" columns, aligned\n")
    assert " faults, " in says[1] and says[1].endswith("aligned_epochs=1)\n")
    assert says[2].count("(8, 32, 3)\n") == 3 and "packets" in says[2] and "'code', 2)" in says[2]
    assert "the first alignment with column 0 at the bits (0, 0, 0)\n" in says[2] and " AVI InfoFrame " in says[2]
    assert says[3].startswith("Link faulty - Link faulty: 1 code")
    assert says[5] == "158 bytes, 20 columns\nline 2 is refused: preamble\n"
    assert says[6] == "(80, 3) ['3ff', '3ff', '0ff']\n"


def test_programs_over_a_damaged_capture(count, found, executable, tmp_path):
    """The guide's programs in C and in Python count what the program lists of a million columns in which characters are replaced."""
    mode, _, frames = BARS.partition(b"\n")
    times, rng = 185, random.Random("a million columns")
    made = run(executable, ["make", "content"], mode + b"\n" + frames.removesuffix(b"end\n") * times + b"end\n")[1]
    columns = times * BARS_COLUMNS + LAST_COLUMNS
    assert columns == 1_000_000 - 968
    hits = [f"{rng.randrange(3)}:{10 * rng.randrange(100, columns)}:{rng.randrange(1024):03x}" for _ in range(250)]
    data = run(executable, ["damage", *hits], made)[1]
    put_lanes(tmp_path, data)
    listing = run(executable, ["recover", "link"], data)[1]
    lines, faults = listing.count(b"\nv "), listing.count(b"\n! ")
    assert faults > 200 and lines > 24 * times - 250
    assert said_of_lanes(count, tmp_path) == (0, f"{columns} columns, {lines} lines, {faults} faults\n")
    events, pieces, whole, judged, *_ = blocks("python")
    lanes = "blue", "green", "red"
    says = said_by(events, tmp_path, *lanes)
    assert (says.count(" a line of "), len(re.findall(r"(?m)^column \d+.*: \w+, ", says))) == (lines, faults)
    assert says.endswith(f"\n{columns} columns, aligned\n")
    assert sum(map(int, re.findall(r"(?m)^(\d+) faults, ", said_by(pieces, tmp_path, *lanes)))) == faults
    assert f": {lines:,} lines of " in (says := said_by(whole, tmp_path, "bars.tmc")) and f"; {faults:,} faults)\n" in says
    assert said_by(judged, tmp_path, "bars.tmc").startswith("Link faulty - ")


def test_without_the_library(executable, monkeypatch):
    """Texts are the program's; all else says how to get the library."""
    monkeypatch.delenv("VABGROT_LIBRARY")
    monkeypatch.setattr(library, "BESIDE", [])
    monkeypatch.setattr(library, "NAME", "libnone.so.1")
    monkeypatch.setenv("VABGROT_PROGRAM", executable)
    data = run(executable, ["make", "link"], LISTING)[1]
    with pytest.raises(vabgrot.NoLibrary):
        vabgrot.Receiver()
    with pytest.raises(vabgrot.NoLibrary, match="vabgrot build library"):
        vabgrot.recover(data)
    assert vabgrot.text_of(data).text == LISTING
