"""Tables of the built program over inputs and devices that are made to harm it: headers that promise too much, captures that end
at each byte, more words than anybody writes, lanes of nothing but noise, lanes full of slips, bytes that are nearly subframes,
listings past each limit, closed and full devices, little memory, a reader that goes away.

A table gives cases: a name, what came, and what is wanted by docs/guide/FORMATS.md and the small models of it."""
import functools
import itertools
import os
import re
import resource
import signal
import subprocess
import tempfile

from tests.hostile.inputs import CONTENT, DVI, ISLAND, SILENT, SLIPPED, busy, frames, noisy, sources
from tests.models import hearing, model, relocking
from tests.models.feeding import answers, feeds
from tests.models.model import BLOCK, lanes_of, packed, replaced, sent
from tests.models.pouring import OPENING, PIXEL, Poured, contents, endless, growing, long, loud, most, texts
from tests.models.tables import CONTROL
from tests.support import FURTHER, HANGS, LISTING, READERS, SLIP, TOP, USAGE, run

# KiB by which a command's stack grows at most past the 132 that the system begins it with: receivers (63 KiB each) are built there, and go
# into their boxes from there. 136 were measured, of `recover dvi`.
STACK = 256
KNOWN = (["make", "link"], ["make", "content"], *READERS)  # little room for the others is tried half as often


def turned(word, by):
    """A character whose ten bits are turned round."""
    return (word >> by | word << (10 - by)) & 0x3FF


def headers(program):
    """Headers with the greatest counts, and nothing more."""
    for header, places in ((b"TMC1" + b"\xff" * 4, [4294967285] * 3), (b"TMC2" + b"\xff" * 12, [4294967285] * 3),
                           (b"TMC2\0\0\0\0\xff\xff\xff\xff\0\0\0\x0a", [None, 4294967285, 0])):
        note = b"input: short %d\n" % len(header)
        for words in (*READERS[:3], *FURTHER):
            yield f"{words} of {header}", run(program, words, header), (3, b"", note)
        yield from slip_headers(program, header, places, note)
        for lane, last in enumerate(places):
            if last is not None:
                yield f"damage {lane}:{last} of {header}", run(program, ["damage", f"{lane}:{last}:3ff"], header), (3, header, note)
            for place in (0 if last is None else last + 1, 4294967295):
                came = run(program, ["damage", f"{lane}:{place}:3ff"], header)
                yield f"damage {lane}:{place} of {header}", came, (3, b"", b"input: place 0\n")


def slip_headers(program, header, places, note):
    """The last bits of each lane that may be left out, the first that may not, and the greatest place."""
    for lane, last in enumerate(places):
        bits = 0 if last is None else last + 10
        for place, drop in ((bits - 1, 1), (bits - 9, 9), (bits, 1), (bits - 8, 9), (4294967295, 9)):
            if place >= 0:
                wanted = note if place + drop <= bits else b"input: place 0\n"
                word = f"{lane}:{place}:{drop}"
                yield f"slip {word} of {header}", run(program, ["slip", word], header), (3, b"", wanted)


def prefixes(program):
    """Captures that end too early: each prefix of that of one red pixel, and some of one of three blocks."""
    red = run(program, ["make", "link"], LISTING)[1]
    yield "a capture of one red pixel", len(red), 110
    for size in range(110):
        note = b"input: short %d\n" % size
        for words in (*READERS[:3], *FURTHER, SLIP):
            yield f"{words} of {size} bytes", run(program, words, red[:size]), (3, b"", note)
        came = run(program, READERS[3], red[:size])
        yield f"damage of {size} bytes", came, (3, red[:8] if size >= 8 else b"", note)
    long = run(program, ["make", "link", "--offset", "5"], LISTING[:-4] + (LISTING[:-4] * 200) + b"c 00 4000\nend\n")[1]
    yield "a capture of three blocks", (len(long) - 8) // (3 * BLOCK), 2
    whole = {" ".join(words): run(program, words, long)[1] for words in (*READERS, *FURTHER, SLIP)}
    for size in [*range(8, len(long), 1499), len(long) - 1]:
        blocks = (size - 8) // (3 * BLOCK)
        for words in (*READERS, *FURTHER, SLIP):
            status, output, notes = run(program, words, long[:size])
            name = f"{words} of {size} of {len(long)} bytes"
            yield name, (status, notes), (3, b"input: short %d\n" % size)
            is_part = whole[" ".join(words)].startswith(output) and not output.endswith((b"end\n", b"clean\n", b"faulty\n"))
            yield name, output == b"" if words[0] in SILENT else is_part, True
            if words[0] == "damage":
                yield name, len(output), 8 + 3 * BLOCK * blocks


def cut_texts(program):
    """Listings that end too early: each prefix of three. The line that breaks off is refused, or its end is missed."""
    odd = rb"(?:form|range|order|control|preamble|size|unended)"
    for words, text in ((["make", "link"], ISLAND), (["make", "content"], CONTENT), (["make", "dvi"], DVI)):
        for size in range(len(text)):
            part = text[:size]
            causes = b"unended" if part[-1:] in (b"", b"\n") else odd
            status, output, notes = run(program, words, part)
            note = rb"input: line %d %b\n" % (part.count(b"\n") + 1, causes)
            yield f"{words} of {size} bytes", (status, output, bool(re.fullmatch(note, notes))), (3, b"", True)


def operands(program):
    """More words than anybody writes, and longer ones."""
    capture = run(program, ["make", "link"], b"c 00 2400\nc 04 8\nv ff0000\nc 00 12\nend\n")[1]
    hits = [(n % 3, 5 * n % 24000, 37 * n % 1024) for n in range(100_000)]
    words = ["damage", *(f"{lane}:{place}:{value:03x}" for lane, place, value in hits)]
    yield "damage of 100,000 words", crowd(program, words, capture), (0, replaced(capture, hits), b"")
    past = crowd(program, [*words[:-1], "0:24241:000"], capture)
    yield "the last of them past the end", past, (3, b"", b"input: place 99999\n")
    yield "the last of them of no form", crowd(program, [*words, "0:0:400"], capture), (2, b"", USAGE)
    every = (["make", "link"], ["make", "content"], ["make", "dvi"], ["read", "biphase"], ["sample", "2"], SLIP, *READERS, *FURTHER)
    for words in every:
        for more in (["x"] * 100_000, ["--offset", "1"] * 50_000, ["x" * 131_000], ["0" * 131_000], [""]):
            yield f"{words} and {len(more)} words {more[0]:.9}", crowd(program, [*words, *more], capture), (2, b"", USAGE)


def crowd(program, words, source):
    """A run with room for many words."""

    def bound():
        resource.setrlimit(resource.RLIMIT_STACK, (64 << 20, resource.getrlimit(resource.RLIMIT_STACK)[1]))

    try:
        ran = subprocess.run([program, *words], input=source, capture_output=True, timeout=HANGS, preexec_fn=bound)
    except subprocess.TimeoutExpired:
        return "over its time"
    return ran.returncode, ran.stdout, ran.stderr


def lanes(program):
    """Lanes that carry nothing that can be aligned."""
    steps = bytes(range(256)) * (BLOCK // 256)
    tables = [("00 to ff", [steps] * 3), ("00 to ff, turned", [steps, steps[::-1], steps[85:] + steps[:85]])]
    tables += [(f"0x{word:03x} alone", [sent([word], BLOCK)] * 3) for word in (*CONTROL, 0, 0x3FF, 0x133, 0x2CC)]
    tables += [("three control characters", [sent([word], BLOCK) for word in CONTROL[:3]])]
    for word in (*CONTROL, 0x133, 0x100):
        tables += [(f"0x{word:03x} turned by {by}", [sent([turned(word, by)], BLOCK)] * 3) for by in range(10)]
        tables.append((f"0x{word:03x} in its ten turns", [sent([turned(word, by) for by in range(10)], BLOCK)] * 3))
    for name, rows in tables:
        data = lanes_of(rows)
        for words in (*READERS[:3], *FURTHER):
            yield f"{words} of lanes of {name}", run(program, words, data), (7, b"", b"no alignment\n")
        yield f"damage of lanes of {name}", run(program, ["damage", "2:32758:3ff"], data)[::2], (0, b"")
        slipped = model.capture_of(2, model.slipped(model.lanes_in(data), 2, 32759, 9))
        yield f"slip of lanes of {name}", run(program, ["slip", "2:32759:9"], data), (0, slipped, b"")


def heard(program):
    """The same between two stretches of control columns, where they are heard."""
    quiet, opening = [0x354] * 24, ([0x354, 0x0AB, 0x354], [0x2CC, 0x133, 0x2CC], [0x28E, 0x133, 0x133], [0x354, 0x0AB, 0x0AB])
    steps = [int.from_bytes(bytes(range(256)), "little") >> 10 * at & 0x3FF for at in range(204)]
    middles = {"steps": [steps] * 3, "steps turned": [steps, steps[::-1], steps[68:] + steps[:68]]}
    for word in (0x354, 0x2AB, 0x133, 0x2CC, 0x000, 0x3FF):
        middles[f"{word:03x}"] = [[word] * 700] * 3
        middles[f"{word:03x} in its ten turns"] = [[turned(word, by) for by in range(10)] * 40] * 3
    for name, before in (("line", [0, 0, 0, 0, 0, 0, 0, 0, 1, 1]), ("island", [3, 3, 3, 3, 3, 3, 3, 3, 2, 2])):
        opened = [[opening[it][lane] for it in before] for lane in range(3)]
        middles[f"a {name} of steps"] = [more + middle for more, middle in zip(opened, [steps] * 3)]
        middles[f"a {name} of guards"] = [more + [opening[before[-1]][lane]] * 900 for lane, more in enumerate(opened)]
        middles[f"a {name} of turns"] = [more + [turned(0x2CC, by) for by in range(10)] * 10 for more in opened]
    for name, rows in middles.items():
        yield from answered(program, name, lanes_of([sent(quiet + row + quiet, (48 + len(row)) * 10 // 8) for row in rows]))


def answered(program, name, data):
    """Each command that hears a capture, by the small models. What is relayed is clean, and a relay of it is the same again but for
    the columns before the last twelve of its first control period."""
    for words, wanted in answers(model.lanes_in(data)):
        yield f"{words} of {name}", run(program, words, data), (*wanted, b"no alignment\n" if wanted[0] == 7 else b"")
    once = run(program, FURTHER[3], data)
    if once[0] == 7:
        return
    is_quiet = model.aligned(model.lanes_in(once[1])) is None
    yield f"check of a relay of {name}", run(program, ["check"], once[1])[:2], (7, b"") if is_quiet else (0, b"clean\n")
    twice = run(program, FURTHER[3], once[1])
    kept = 10 * len(model.aligned(model.lanes_in(once[1])) or ())
    rows = [bits[len(bits) - kept :] for bits in model.lanes_in(once[1])]
    yield f"relay of a relay of {name}", twice[:2], (7, b"") if is_quiet else (0, model.capture_of(1, rows))
    if not is_quiet:
        yield f"relay of relays of {name}", run(program, FURTHER[3], twice[1]), twice


def slips(program):
    """A slip at each place of two small captures, of each length; and what is tracked behind it."""
    red = run(program, ["make", "link"], LISTING)[1]
    worn = run(program, ["make", "link", "--version", "2", "--skew", "0,70,35"], SLIPPED)[1]
    for data, lengths in ((red, range(1, 10)), (worn, None)):
        lanes = model.lanes_in(data)
        for place, lane in itertools.product(range(max(map(len, lanes)) + 2), range(3)):
            for drop in lengths or [1 + (place + 3 * lane) % 9]:
                wanted = (3, b"", b"input: place 0\n")
                if place + drop <= len(lanes[lane]):
                    wanted = (0, model.capture_of(2, model.slipped(lanes, lane, place, drop)), b"")
                yield f"slip {lane}:{place}:{drop}", run(program, ["slip", f"{lane}:{place}:{drop}"], data), wanted
    yield from tracks(program, model.lanes_in(worn))
    yield from worn_out(program)


def tracks(program, lanes):
    """What is tracked behind a slip at each place, and in lanes that slip every 130 bits, in each length, alone and all."""
    once = functools.cache(lambda *bits: hearing.link_of(bits))  # the bits before a slip come again and again
    for place, more in itertools.product(range(len(lanes[0])), (0, 4)):
        lane, drop = (place + more) % 3, 1 + (place + more) % 9
        bits = model.slipped(lanes, lane, place, drop)
        came, wanted = run(program, FURTHER[0], model.capture_of(2, bits))[:2], model.tracked(bits, lambda it: once(*it))
        yield f"recover track of a slip {lane}:{place}:{drop}", came, wanted
    quiet = b"c 00 40\nc 04 8\nv ff0000\n"
    for text in (quiet * 8, quiet.replace(b"40", b"4") * 30, quiet.replace(b"40", b"200") * 2):
        lanes = model.lanes_in(run(program, ["make", "link"], text + b"c 00 40\nend\n")[1])
        for drop, hit in itertools.product(range(1, 10), ([0], [1], [2], [0, 1, 2])):
            bits = lanes
            for lane in hit:
                for place in range(len(lanes[lane]) // 130 * 130, 100, -130):
                    bits = model.slipped(bits, lane, place + 10 * lane * (drop % 3), drop)
            came, wanted = run(program, FURTHER[0], model.capture_of(2, bits))[:2], model.tracked(bits, lambda it: once(*it))
            yield f"recover track of {len(lanes[0])} bits with slips of {drop} on {hit}", came, wanted
            came, wanted = run(program, FURTHER[4], model.capture_of(2, bits))[:2], relocking.relocked(bits, lambda it: once(*it))
            yield f"recover relock of {len(lanes[0])} bits with slips of {drop} on {hit}", came, wanted


def worn_out(program):
    """Lanes of 6,500 control characters that slip every 130 bits behind a good start: an epoch each."""
    start = model.lanes_in(run(program, ["make", "link"], LISTING)[1])
    quiet = model.sent_bits([0x354] * 13)
    for hit in ([0], [1], [2], [0, 1, 2]):
        bits = [row + "".join(quiet[(lane in hit) * (at % 9 + 1) :] for at in range(500)) for lane, row in enumerate(start)]
        data = model.capture_of(2, bits)
        before = resource.getrusage(resource.RUSAGE_CHILDREN)
        came = run(program, FURTHER[0], data)
        after = resource.getrusage(resource.RUSAGE_CHILDREN)
        took = after.ru_utime + after.ru_stime - before.ru_utime - before.ru_stime
        wanted = model.tracked(bits, hearing.link_of)
        yield f"recover track of 500 slips on {hit}", came, (*wanted, b"")
        yield f"the time of it, {took:.1f} s of a core", took < 5, True


def streams(program):
    """Biphase streams that end too early, that have one wrong bit, and bytes that are nearly subframes."""
    words = ["read", "biphase"]
    samples = [(0x123456, 0, 0, 0, 1), (0xFFFFFF, 0x800000, 7, 1, 0), (0, 1, 2, 4, 0)]
    three = b"".join(map(model.frame, samples))
    for size in range(len(three) + 1):
        yield f"{words} of {size} bytes", run(program, words, three[:size]), model.biphase_text(three[:size])
    for bit in range(8 * len(three)):
        hurt = bytearray(three)
        hurt[bit // 8] ^= 1 << bit % 8
        yield f"{words} with another bit {bit}", run(program, words, bytes(hurt)), model.biphase_text(bytes(hurt))
    for bit in range(8 * len(three) - 1):
        hurt = (int.from_bytes(three, "little") ^ 3 << bit).to_bytes(len(three), "little")
        yield f"{words} with other bits {bit} and {bit + 1}", run(program, words, hurt), model.biphase_text(hurt)
    for name, data in nearly(three):
        yield f"{words} of {name}", run(program, words, data), model.biphase_text(data)
    for count in (191, 192, 193, 383, 384, 577):
        for every in (192, 191, 193, 1, 10_000):
            block = [(at, 5 * at, at % 8, at // 3 % 8, int(at % every == 0)) for at in range(count)]
            data = b"".join(map(model.frame, block))
            yield f"{words} of {count} frames, a start every {every}", run(program, words, data), model.biphase_text(data)


def nearly(three):
    """Bytes that are nearly biphase streams."""
    left, right = three[:8], three[8:16]
    turned = bytes(byte ^ 0xFF for byte in three)
    yield "the other level", turned
    yield "one turned subframe", left + turned[8:16]
    yield "its bits in the other order", bytes(int(format(byte, "08b")[::-1], 2) for byte in three)
    yield "its bytes in the other order", b"".join(three[at : at + 8][::-1] for at in range(0, len(three), 8))
    marked = {"W first": "WM", "B twice": "BB", "M twice": "MM", "W twice": "WW", "M first": "MW", "B and M": "BM"}
    for name, marks in marked.items():
        yield name, b"".join(model.subframe(mark, 7, 0) for mark in marks) + three
        yield name + " as the second", three + b"".join(model.subframe(mark, 7, 0) for mark in marks)
    for byte in (0x00, 0xFF, 0x55, 0xAA, 0x33, 0xCC, 0x17, 0x47, 0x27):
        yield f"{byte:02x} over and over", bytes([byte]) * 64
        for mark in (0x17, 0x47, 0x27):
            yield f"{mark:02x} and {byte:02x}", bytes([mark]) + bytes([byte]) * 7 + right
    for mark in range(256):
        yield f"the mark {mark:02x}", bytes([mark]) + left[1:] + right
    for at in range(28):
        wrong = model.line_coded("B", 0x5123457 ^ 1 << at)
        yield f"another parity by bit {at}", wrong + right
        yield f"another parity on the right by bit {at}", left + model.line_coded("W", 0x5123457 ^ 1 << at) + three
    yield "a frame and a half", three[:24]
    yield "three halves of frames and one byte", three[:24] + b"\x47"
    yield "a wrong subframe before a short end", three[:8] + bytes(8) + three[:3]
    yield "one bit too early", (int.from_bytes(three, "little") >> 1).to_bytes(len(three), "little")
    yield "two half cells too late", (int.from_bytes(three, "little") << 2).to_bytes(len(three) + 1, "little")


def relays(program):
    """Islands of nineteen packets and more, packets that are lost, captures whose relay is far longer, and relays of them."""
    packet = ISLAND.split(b"\n")[3] + b"\n"
    for count in (17, 18, 19, 20):
        listing = ISLAND.replace(packet, packet * count)
        status, capture, notes = run(program, ["make", "link"], listing)
        come = run(program, ["recover", "link"], capture) if status == 0 else (status, capture, notes)
        yield f"a listing of {count} packets", come, (0, listing, b"") if count < 19 else (3, b"", b"input: line 22 range\n")
    text = ISLAND.replace(b"00000000\ne 00", b"00000000\n" + ISLAND.split(b"\n")[3] + b"\ne 00")
    data = run(program, ["make", "link"], text)[1]
    lanes = model.lanes_in(data)
    for count in (1, 2, 17, 18, 19, 20, 37):
        bits = [row[: 10 * 14] + (row[140:460] if count else "") + row[460:780] * (count - 1) + row[780:] for row in lanes]
        status, listing, _ = run(program, READERS[0], model.capture_of(1, bits))
        islands = text.replace(text.split(b"\n")[3] + b"\n", b"")
        islands = islands.replace(b"i 00\n", b"i 00\n" + (text.split(b"\n")[3] + b"\n") * min(count, 18))
        wanted = (int(count > 18), run(program, ["make", "link"], islands)[1], b"")
        came, is_long = (status, listing.count(b"\np "), listing.count(b"! longisland")), int(count > 18)
        yield f"packets of an island of {count}", came, (is_long, count, is_long)
        yield f"relay of an island of {count} packets", run(program, FURTHER[3], model.capture_of(1, bits)), wanted
        yield from answered(program, f"an island of {count} packets", model.capture_of(1, bits))
    for place in range(0, 10 * 82, 30):
        hits = [f"{lane}:{at}:{value}" for at, value in ((place, "2aa"), (place + 50, "0ab")) for lane in range(3)]
        hurt = run(program, ["damage", *hits[: 1 + place // 30 % 6]], data)[1]
        yield from answered(program, f"an island with damage from {place} on", hurt)
    yield from grown(program)


def grown(program):
    """Lines of one pixel behind one control column each: a relay has eleven columns more for each, which pass the limit."""
    count = 1_333_332
    for quiet in (20, 24):
        rows = [packed(first + row[1:]) + packed(row) * (count - 1) + packed([0x354] * quiet) for first, row in zip(OPENING, PIXEL)]
        status, output, notes = run(program, FURTHER[3], lanes_of(rows))
        columns = 15 * count + quiet
        wanted = (1, 8 + 3 * (10 * columns // 8), b"") if columns <= 20_000_000 else (3, 0, b"input: long\n")
        yield f"relay of {count} lines of a pixel", (status, len(output), notes), wanted


def listings(program):
    """Listings and contents past each limit."""
    link, content, dvi = ["make", "link"], ["make", "content"], ["make", "dvi"]
    longest = b"v " + b"0" * 32766
    for words in (link, content, dvi):
        for text, note in (
            (longest, "1 form" if words == content else "1 range"),
            (longest + b"0", "1 form"),
            (longest + b"0" * 40_000_000, "1 form"),
            (b"\0", "1 form"),
            (b"\0" * 100_000, "1 form"),
            (b"\0\n" * 50_000, "1 form"),
            (b"\n" * 100_000, "1 form"),
            (b"\xff\xfe" * 1000, "1 form"),
        ):
            for end in (b"", b"\n", b"\nend\n"):
                came, want = run(program, words, text + end), (3, b"", f"input: line {note}\n".encode())
                yield f"{words} of {len(text)} bytes {text[:9]}.. {end}", came, want
    for text, note in (
        (b"c 00 12\0\nend\n", "1 form"),
        (b"c 00 12\nend\n\0", "3 after"),
        (b"c 00 12\nend\n" + bytes(1_000_000), "3 after"),
        (b"c 00 20000001\n", "1 range"),
        (b"c 00 20000000\nc 00 1\n", "2 long"),
        (b"c 00 1\n" * 100_000 + b"c 00 19900001\n", "100001 long"),
        (b"c 00 19999987\nc 04 12\nv 000000\nc 00 12\nend\n", "3 long"),
        (b"c 00 99999999999\n", "1 form"),
    ):
        yield f"make link of {text[:30]}", run(program, link, text), (3, b"", f"input: line {note}\n".encode())
    for text, note in odd_lines():
        yield f"make dvi of {text[-40:]}", run(program, dvi, text), (3, b"", f"input: line {note}\n".encode())
    most = b"c 3F 12\nv " + b"aB" * 3 * 4096 + b"\nc 00 0000000012\nc 01 1\nend\n"
    yield "make dvi of a line of 4,096 pixels", len(run(program, dvi, most)[1]), 8 + 3 * (10 * (12 + 4096 + 13) // 8 + 1)
    for text, note in crowded():
        yield f"make content, {note}", run(program, content, text), (3, b"", f"input: {note}\n".encode())


def odd_lines():
    """Listings that are none of a stream without guard bands."""
    quiet = b"c 00 12\n"
    for line in (b"i 00", b"e 00", b"p 000000 00000000000000", ISLAND.split(b"\n")[3], b"v", b"V 000000", b"v 00000", b"v 0000000",
                 b"v  000000", b"c 0 12", b"c 00 12 ", b" c 00 12", b"c 00  12", b"c 00 12\r", b"c 00 12\0", b"c +0 12", b"c 00 -1",
                 b"c 00 00000000012", b"v 0000g0", b"row 000000", b"end ", b"End", b"", b"\xff", b"cut", b"!"):
        yield quiet + line + b"\nend\n", "2 form"
        yield quiet + line, "2 unended" if not line else "2 form"
    for line, cause in ((b"! noise 12", "fault"), (b"! ", "fault"), (b"cut 12", "fault"), (b"cut ", "fault"), (b"c 40 1", "range"),
                        (b"c 00 0", "range"), (b"c 00 20000001", "range"), (b"v ", "range"), (b"v " + b"000000" * 4097, "range"),
                        (b"end", "unended")):
        yield quiet + line, f"2 {cause}"
    yield b"v 000000\n", "1 order"
    yield b"end\n", "1 order"
    yield quiet + b"v 000000\nv 000000\n", "3 order"
    yield quiet + b"v 000000\nend\n", "3 order"
    yield b"c 00 11\nv 000000\n", "2 control"
    yield quiet + b"v 000000\nc 00 11\nend\n", "4 control"
    yield b"c 00 11\nend\n", "2 control"
    yield quiet + b"end\nc", "3 after"
    yield quiet + b"end\n\n", "3 after"
    yield quiet, "2 unended"
    yield b"c 00 19999988\nv 000000\nc 00 12\nend\n", "3 long"
    yield b"c 00 20000000\nv 000000\n", "2 long"
    yield b"c 00 19995905\nv " + b"000000" * 4096 + b"\n", "2 long"


def crowded():
    """Contents with as many packets as a frame may have and one more."""
    mode = b"mode 2 4 200 64 1 1 1 1 0\n"
    rest = b"row 0102030405ff\nframe 2 1\nend\n"
    yield mode + b"acr 6144 27000\n" * 65_536 + rest, "line 65537 long"
    yield mode + b"s 000001 fffffe 0 0 0 0\n" * (4 * 65_535 + 1) + rest, "line 262142 long"
    yield mode + b"packet 0a0b0c 01020304050607 11121314151617 21222324252627 31323334353637\n" * 65_535 + rest, "noroom 0 28"


def longest(program):
    """The longest listing, and what is made of its capture."""
    status, output, notes = run(program, ["make", "link"], b"c 00 20000000\nend\n")
    yield "the longest listing", (status, notes, output[:8], len(output)), (0, b"", b"TMC1\x0b\xeb\xc2\x00", 75_000_008)
    lane = bytes.fromhex("54534d35d5") * 5_000_000
    whole = all(output[8 + 3 * at : 8 + 3 * at + BLOCK] == lane[at : at + BLOCK] for at in range(0, 24_000_000, BLOCK))
    yield "its lanes", whole, True
    yield "recover link of it", run(program, ["recover", "link"], output), (7, b"", b"no alignment\n")
    came = run(program, ["damage", "2:199999990:354"], output)
    yield "damage of it", (came[0], came[1] == output, came[2]), (0, True, b"")


def devices(program):
    """Inputs that cannot be read, outputs that cannot be written, notes that nobody takes."""
    for words, source in sources(program):
        status, output, notes = run(program, words, source)
        yield f"{words}", (status, notes), (int(words[-1] == "track"), b"")
        folder = os.open(TOP, os.O_RDONLY)
        yield f"{words} of a folder", run(program, words, stdin=folder), (4, b"", b"read failed\n")
        os.close(folder)
        yield f"{words} of a closed input", closed(program, words, b"", 0), (4, b"", b"read failed\n")
        yield f"{words} to a closed output", closed(program, words, source, 1), (5, b"", b"write failed\n")
        yield f"{words} with closed notes", closed(program, words, source, 2), (status, output, b"")
        yield f"{words}, refused, with closed notes", closed(program, words, b"x", 2), (3, b"", b"")
        yield f"{words} with all closed", closed(program, words, b"", 0, 1, 2), (4, b"", b"")
        with open("/dev/full", "wb") as full:
            yield f"{words} to a full device", run(program, words, source, stdout=full), (5, None, b"write failed\n")
            told = subprocess.run([program, *words], input=b"x", stdout=subprocess.PIPE, stderr=full, timeout=HANGS)
            yield f"{words} with full notes", (told.returncode, told.stdout), (3, b"")
        yield f"{words} of a pipe that has nothing yet", waiting(program, words), (4, b"", b"read failed\n")


def closed(program, words, source, *files):
    """A run in which some of the files 0, 1 and 2 are closed."""
    shut = " ".join(("<&-", ">&-", "2>&-")[file] for file in files)
    ran = subprocess.run(["sh", "-c", f'exec "$0" "$@" {shut}', program, *words], input=source, capture_output=True, timeout=HANGS)
    return ran.returncode, ran.stdout, ran.stderr


def waiting(program, words):
    """A run over a pipe that is read without waiting."""
    given, pipe = os.pipe()
    os.set_blocking(given, False)
    came = run(program, words, stdin=given)
    os.close(given)
    os.close(pipe)
    return came


def full(program):
    """A disk of 64 KiB, where one can be mounted."""
    hurt = busy(program)
    content = frames(60, 2)
    pictures = run(program, ["make", "content"], content)[1]
    cases = [(["make", "link"], b"c 00 60000\nend\n"), (["make", "content"], content), (["recover", "link"], hurt),
             (["recover", "content"], pictures), (["check"], hurt), (["damage", "0:0:354"], hurt), (SLIP, hurt), (["relay"], hurt)]
    cases += [(["recover", "track"], hurt), (["make", "dvi"], b"c 00 60000\nend\n"), (["recover", "dvi"], hurt)]
    cases += [(["recover", "biphase", "0"], noisy(program)), (["read", "biphase"], next(loud(192 * 64)))]
    with tempfile.TemporaryDirectory() as folder:
        mounted = subprocess.run(["mount", "-t", "tmpfs", "-o", "size=64k", "none", folder], capture_output=True).returncode == 0
        if not mounted:
            print("full: no disk of 64 KiB can be mounted here, so /dev/full alone was tried")
            return
        try:
            for words, source in cases:
                whole = run(program, words, source)[1]
                yield f"{words} writes more than the disk has", len(whole) > 65_536, True
                path = os.path.join(folder, "out")
                with open(path, "wb") as out:
                    yield f"{words} to a full disk", run(program, words, source, stdout=out), (5, None, b"write failed\n")
                with open(path, "rb") as out:
                    kept = out.read()
                yield f"what {words} left", (whole.startswith(kept), 0 < len(kept) <= 65_536), (True, True)
                os.unlink(path)
        finally:
            subprocess.run(["umount", folder], check=True)


def pipes(program):
    """A capture of 1 GB that is never stored, and readers that go away."""
    for words in READERS[:2] + READERS[3:] + FURTHER[:2]:
        ran = Poured(program, words, endless(program, 1_000_000_000), 1)
        yield f"{words} of 1 GB to a reader of one byte", (ran.status, ran.notes, ran.came), (5, b"write failed\n", 1)
        yield f"{words} stops soon", ran.gone < 20_000_000, True
    hurt = busy(program)
    ran = Poured(program, ["check"], [hurt], 1)
    yield "check to a reader of one byte", (ran.status, ran.notes), (5, b"write failed\n")
    long = b"c 00 1000000\nend\n"
    for words, source in ((["make", "link"], long), (["make", "content"], frames(60, 9)), (["make", "dvi"], long), (["relay"], hurt),
                          (SLIP, hurt), (["recover", "biphase", "0"], noisy(program))):
        ran = Poured(program, words, [source], 1)
        yield f"{words} to a reader of one byte", (ran.status, ran.notes), (5, b"write failed\n")
    yield from streamed(program)
    for words in (["make", "link"], ["make", "content"], ["make", "dvi"], ["read", "biphase"], *READERS, *FURTHER, SLIP):
        note = b"input: %s\n" % {"make": b"line 1 form", "read": b"subframe 0"}.get(words[0], b"magic 0")
        ran = Poured(program, words, itertools.repeat(bytes(65_536)))
        yield f"{words} of NUL bytes without end", (ran.status, ran.notes, ran.came), (3, note, 0)
    for words in (["make", "link"], ["make", "dvi"]):
        ran = Poured(program, words, itertools.repeat(b"c 00 1\n" * 10_000))
        yield f"{words} of control columns without end", (ran.status, ran.notes, ran.came), (3, b"input: line 20000001 long\n", 0)
    script = '"$0" recover link | head -c 1 | od -An -c; echo "${PIPESTATUS[0]}"'
    shell = subprocess.run(["bash", "-c", script, program], input=hurt, capture_output=True, timeout=HANGS)
    yield "recover link | head -c 1", (shell.stdout.split(), shell.stderr), ([b"c", b"5"], b"write failed\n")


def streamed(program):
    """Biphase streams through a pipe, and relays of a capture whose columns pass the limit long before its end."""
    ran = Poured(program, ["read", "biphase"], loud(60_000_000), 1)
    came = ran.status, ran.notes, ran.came, ran.gone < 20_000_000
    yield "read biphase of 1 GB to a reader of one byte", came, (5, b"write failed\n", 1, True)
    ran = Poured(program, ["read", "biphase"], loud(1_500_000))
    yield "read biphase of 1,500,000 frames", (ran.status, ran.notes, ran.came), (0, b"", 24 * 1_500_000 + 104 * 7812 + 4)
    yield f"memory of it: {ran.peak} KiB", ran.peak < 4000, True
    ran = Poured(program, ["relay"], growing(1_000_000_000))
    yield "relay of 1 GB", (ran.status, ran.notes, ran.came, ran.gone < 25_000_000), (3, b"input: long\n", 0, True)
    # 1,333,333 lines become 20,000,000 columns; they take 20,000,000 bytes.
    ran = Poured(program, ["relay"], growing(20_100_000), held=True)
    yield "relay past its limit in an open pipe", (ran.status, ran.notes, ran.came), (3, b"input: long\n", 0)
    short = Poured(program, ["relay"], growing(19_800_000))
    wanted = 3, b"input: short %d\n" % short.gone, 0
    yield "relay short of its limit", (short.status, short.notes, short.came), wanted


# What the system's loader says where there is no room for the program itself.
LOADER = (b"while loading", b"cannot allocate TLS data structures")


def memory(program):
    """Little room for the process: want of memory, or of threads, and nothing else."""
    large = [(["make", "link"], b"c 00 600000\nend\n"), (["make", "content"], frames(60, 4))]
    large += [(words, run(program, *large[0])[1]) for words in (*READERS, SLIP)]
    large += [(["make", "dvi"], large[0][1]), (["relay"], busy(program)), (["recover", "track"], busy(program))]
    for words, source in [*sources(program), *large]:
        whole, rooms = run(program, words, source), range(2200, 9000, 100 if words in KNOWN else 200)
        for room in rooms if len(source) < 1000 else rooms[::4]:
            came = in_room(program, words, source, room)
            loader = came[:2] == (127, b"") and any(text in came[2] for text in LOADER)
            # where the heap left no room for the stack to grow the system ends any process
            if came[0] == -signal.SIGSEGV:
                came = in_room(program, words, source, room + STACK)
            spared = came in ((6, b"", b"out of memory\n"), (6, b"", b""))
            yield f"{words} in {room} KiB", loader or spared or came == whole, True


def in_room(program, words, source, room):
    """A run in so many KiB of addresses."""

    def bound():
        resource.setrlimit(resource.RLIMIT_AS, (room * 1024, room * 1024))

    ran = subprocess.run([program, *words], input=source, capture_output=True, timeout=HANGS, preexec_fn=bound)
    return ran.returncode, ran.stdout, ran.stderr


TABLES = (headers, prefixes, cut_texts, operands, lanes, heard, slips, streams, relays, feeds, listings, contents, longest, devices, full)
TABLES += (pipes, memory)
LONG = (long, most, texts)  # which take a minute or more each
