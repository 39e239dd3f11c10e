"""Random inputs of some blocks for the tests of the built program, in which periods, faults, slips and ends lie about the borders of
blocks; and the table of tests/hostile that compares what is made of them with the small models, which know of no blocks: they
take whole lanes and search from each place anew."""
import functools
import random

from tests.models import hearing, model, rasters, relocking
from tests.models.model import BLOCK
from tests.models.tables import CONTROL, ISLAND_GUARD, TERC4, VIDEO_GUARD
from tests.support import FURTHER, READERS, run

BITS = 8 * BLOCK  # of a lane in a block
GUARDS = {"video": VIDEO_GUARD, "island": (TERC4[12], ISLAND_GUARD, ISLAND_GUARD)}


def control(value, count=1):
    return [tuple(CONTROL[value >> 2 * lane & 3] for lane in range(3))] * count


def pixels(rng, count):
    return hearing.pixels_of(rng.randbytes(3 * count).hex())


def packets(rng, count):
    """The columns of some packets, mostly of samples."""
    for at in range(count):
        fields = [it.hex() for it in packet(rng)]
        yield from hearing.packet_columns([*fields, "".join(rng.choices("0123", k=32))], at == 0)


def packet(rng):
    """The header and the bodies of a packet."""
    kind, bodies = rng.randrange(8), [rng.randbytes(7) for _ in range(4)]
    if kind < 4:
        return bytes([2, rng.choice((1, 3, 7, 15, 17, 31)), rng.choice((0, 16, 48))]), *bodies
    if kind == 4:
        bodies = bodies[:1] * 3 + rng.choice((bodies[:1], bodies[1:2]))
        return bytes([rng.choice((1, 3)), 0, 0]), *bodies
    if kind == 5:
        header = bytes(rng.choice(((0x82, 2, 13), (0x84, 1, 10), (0x83, 1, 25), (0x82, 3, 5), (0x81, 1, 27), (0x85, 0, 0), (0x82, 2, 12))))
        data = bytearray(rng.randbytes(28))
        if rng.random() < 0.8:
            data[4] = rng.choice((1, 4, 16, data[4]))
            data[0] = -(sum(header) + sum(data[1 : header[2] + 1])) & 0xFF
        return header, *(bytes(data[at : at + 7]) for at in range(0, 28, 7))
    return rng.randbytes(3), *bodies


def opening(rng, kind, quiet=12):
    """A control period and the guard columns of a line or an island."""
    return control(rng.randrange(4), max(0, quiet - 8)) + control({"video": 4, "island": 20}[kind], min(quiet, 8)) + [GUARDS[kind]] * 2


def piece(rng):
    """A few columns: a whole period, a part of one, or none that has a meaning."""
    kind = rng.randrange(9)
    if kind < 2:
        return control(rng.randrange(64), rng.choice((1, 2, 7, 12, 13)))
    if kind == 2:
        return opening(rng, rng.choice(("video", "island")), rng.choice((3, 8, 11, 12, 12, 20)))
    if kind == 3:
        return opening(rng, "video") + pixels(rng, rng.randrange(9)) + control(rng.randrange(4), rng.choice((1, 12)))
    if kind == 4:
        return opening(rng, "island") + [*packets(rng, rng.randrange(4)), *[GUARDS["island"]] * 2] + control(0, rng.choice((1, 12)))
    if kind == 5:
        return pixels(rng, rng.randrange(12))
    if kind == 6:
        return [*packets(rng, 1)][: rng.choice((1, 31, 32))]
    if kind == 7:
        return [GUARDS[rng.choice(("video", "island"))]] * rng.choice((1, 2, 3))
    return [tuple(rng.randrange(1024) for _ in range(3)) for _ in range(rng.choice((1, 2, 3, 40)))]


def stretch(rng, count):
    """So many columns, some more or some fewer: control columns, a line, an island, or what opens nothing."""
    kind = rng.randrange(4)
    if kind == 0:
        return control(rng.randrange(64), count // 2) + control(rng.randrange(64), count - count // 2)
    if kind == 1:
        return opening(rng, "video") + pixels(rng, max(0, count - 14))
    if kind == 2:
        return opening(rng, "island") + [*packets(rng, max(0, count - 14) // 32)]
    return control(0, 12) + [(0x100, 0x100, 0x200)] * max(0, count - 12)


def lanes_about(rng, blocks):
    """The bits of three lanes of so many blocks and some more: what is dense in them lies about the borders of blocks."""
    shift = rng.choice((0, 0, rng.randrange(BITS), BITS - rng.randrange(130)))  # at the last the first lock may need bits of two blocks
    skews = [rng.choice((0, 0, rng.randrange(71))) for _ in range(3)]
    columns = opening(rng, "video", rng.choice((12, 20, 60))) + pixels(rng, 5)
    for border in range(1, blocks + 1):
        columns += stretch(rng, (BITS * border - shift) // 10 - rng.randrange(150) - len(columns))
        for _ in range(rng.randrange(2, 9)):
            columns += piece(rng)
    rows = [[column[lane] for column in columns] for lane in range(3)]
    for _ in range(rng.choice((0, 0, 1, 5, 40))):
        row = rng.choice(rows)
        row[near_border(rng, shift, len(row) * 10) // 10] = rng.choice((*CONTROL, *TERC4, 0x133, rng.randrange(1024)))
    lanes = ["0" * shift + model.sent_bits(row)[skew:] for row, skew in zip(rows, skews)]
    return [bits[: len(bits) - rng.choice((0, rng.randrange(80)))] for bits in lanes]


def near_border(rng, shift, size):
    """A place of so many bits that stands behind others, mostly one near the border of a block."""
    place = BITS * rng.randrange(1, 5) - shift + rng.randrange(-300, 300)
    return place if 0 <= place < size and rng.random() < 0.8 else rng.randrange(size)


def made_capture(rng):
    """A capture of random bits of one to three blocks, slipped or not; and its bits."""
    lanes = lanes_about(rng, rng.choice((1, 1, 2, 3)))
    for _ in range(rng.choice((0, 0, 1, 3))):
        lane = rng.randrange(3)
        lanes = model.slipped(lanes, lane, near_border(rng, 0, len(lanes[lane])), rng.randrange(1, 10))
    version = rng.choice((1, 2))
    if version == 1:
        lanes = [bits[: min(map(len, lanes))] for bits in lanes]
    return model.capture_of(version, lanes), lanes


def answers(lanes):
    """What the models answer to each command that hears a capture of these bits: its words, the status and the output."""
    columns = model.aligned(lanes)
    status, listing = hearing.link_of(lanes)
    yield READERS[0], (status, listing)
    yield READERS[1], hearing.content_text(columns) if columns else (7, b"")
    yield READERS[2], hearing.check_text(listing) if columns else (7, b"")
    yield FURTHER[0], model.tracked(lanes, hearing.link_of)
    yield FURTHER[4], relocking.relocked(lanes, hearing.link_of)
    yield FURTHER[5], relocking.relocked_content(lanes)
    yield FURTHER[1], model.dvi_text(columns) if columns else (7, b"")
    for pair in range(4):
        yield ["recover", "biphase", str(pair)], model.biphase_of(listing, pair) if columns else (7, b"")
    yield FURTHER[3], (status, hearing.capture_of_columns(hearing.sent_columns(model.relayed(listing)))) if columns else (7, b"")


def feeds(program):
    """Random captures of some blocks; one stream over the border of two blocks at each of its bits; random texts and biphase streams."""
    for case in range(50):
        rng = random.Random(f"feeds {case}")
        data, lanes = made_capture(rng)
        for words, wanted in answers(lanes):
            yield f"{words} of random capture {case}", run(program, words, data)[:2], wanted
        yield from changes(program, rng, case, data, lanes)
    yield from borders(program)
    yield from texts_and_streams(program)


def changes(program, rng, case, data, lanes):
    """What `slip` and `damage` write of a capture, mostly at the borders of its blocks."""
    version = int(data[3:4])
    for _ in range(3):
        lane, drop = rng.randrange(3), rng.randrange(1, 10)
        place = near_border(rng, 0, len(lanes[lane]) - drop)
        wanted = 0, model.capture_of(2, model.slipped(lanes, lane, place, drop)), b""
        yield f"slip {lane}:{place}:{drop} of random capture {case}", run(program, ["slip", f"{lane}:{place}:{drop}"], data), wanted
    hits, hurt = [], lanes
    for _ in range(rng.choice((1, 30))):
        lane, value = rng.randrange(3), rng.randrange(1024)
        place = near_border(rng, 0, len(lanes[lane]) - 10)
        hits.append(f"{lane}:{place}:{value:03x}")
        hurt = [bits[:place] + model.sent_bits([value]) + bits[place + 10 :] if at == lane else bits for at, bits in enumerate(hurt)]
    yield f"damage of random capture {case}", run(program, ["damage", *hits], data), (0, model.capture_of(version, hurt), b"")


def borders(program):
    """One stream behind so many zeros that the border of two blocks stands at each of its bits."""
    rng = random.Random("borders")
    columns = opening(rng, "video") + pixels(rng, 3) + opening(rng, "island", 11) + [*packets(rng, 2), *[GUARDS["island"]] * 2]
    columns += control(0, 12) + [(0, 1, 2)] + opening(rng, "video") + [(0x3FF, 0x3FF, 0x3FF)] + control(0, 12)
    rows = [[column[lane] for column in columns] for lane in range(3)]
    rows[1][45], rows[1][47], rows[2][80] = 0x354, 0x354, 0x0AB
    lanes = [model.sent_bits(row)[skew:] for row, skew in zip(rows, (0, 70, 35))]
    wanted = list(answers(lanes))
    late = functools.cache(lambda zeros: model.capture_of(2, ["0" * zeros + bits for bits in lanes]))
    for at, (words, came) in enumerate(wanted):
        for zeros in range(BITS - len(lanes[0]) - 10, BITS + 10, 1 if at == 0 else 31):
            yield f"{words} behind {zeros} zeros", run(program, words, late(zeros))[:2], came


def texts_and_streams(program):
    """Listings and contents, some longer than what is read at once, and biphase streams with a fault somewhere."""
    for case in range(30):
        rng = random.Random(f"texts {case}")
        for words, guards in ((["make", "link"], True), (["make", "dvi"], False)):
            text = listing_of(rng, guards)
            wanted = 0, hearing.capture_of_columns(hearing.sent_columns(text, guards)), b""
            yield f"{words} of random listing {case}", run(program, words, text), wanted
        text = content_of(rng)
        columns = rasters.raster_of(text)
        made = run(program, ["make", "content"], text)
        yield f"make content of random content {case}", made, (0, hearing.capture_of_columns(columns), b"")
        aligned = model.aligned(model.lanes_in(made[1]))
        wanted = hearing.content_text(aligned) if aligned else (7, b"")
        yield f"recover content of random content {case}", run(program, READERS[1], made[1])[:2], wanted
        samples = ((rng.randrange(2**24), rng.randrange(2**24), at % 8, rng.randrange(8), int(at % 192 == case % 2)) for at in range(600))
        stream = bytearray(b"".join(map(model.frame, samples)))
        if case % 4:
            stream[rng.choice((rng.randrange(len(stream)), BLOCK * rng.randrange(1, 3) + rng.randrange(-9, 9)))] ^= 1 << rng.randrange(8)
        data = bytes(stream[: len(stream) - rng.choice((0, 0, rng.randrange(40)))])
        yield f"read biphase of random stream {case}", run(program, ["read", "biphase"], data), model.biphase_text(data)


def listing_of(rng, guards):
    """A listing of some thousand columns without a wrong line."""
    lines, quiet = [], b"c 00 12\n"
    for _ in range(rng.choice((3, 30, 300))):
        lines.append(b"c %02x %d\n" % (rng.randrange(64), rng.choice((12, 13, 4000))))
        if not guards or rng.random() < 0.6:
            preamble = b"c %02x 8\n" % (4 + rng.randrange(4)) if guards else b""
            lines += [preamble, b"v " + rng.randbytes(3 * rng.choice((1, 2, 30, 700))).hex().encode() + b"\n"]
        else:
            lines += [b"c %02x 8\ni %d%d\n" % (20 + rng.randrange(4), rng.randrange(4), rng.randrange(4))]
            for _ in range(rng.choice((1, 2, 18))):
                fields = [rng.randbytes(size).hex() for size in (3, 7, 7, 7, 7)]
                lines.append(f"p {' '.join(fields)} {''.join(rng.choices('0123', k=32))}\n".encode())
            lines.append(b"e %d%d\n" % (rng.randrange(4), rng.randrange(4)))
    return b"".join([*lines, quiet, b"end\n"])


def content_of(rng):
    """A content of some small frames without a wrong line, whose packets have room."""
    across = rng.choice((1, 2, 30)), rng.choice((1, 9)), rng.choice((1, 20, 60)), rng.choice((14, 30, 130))
    sizes = [*across, rng.choice((1, 2, 5)), 1, rng.randrange(1, 4), 2]
    room = line_room(sizes)
    lines = ["mode " + " ".join(map(str, [*sizes, rng.randrange(2)]))]
    for _ in range(rng.choice((1, 2, 6))):
        rows = [f"row {rng.randbytes(3 * sizes[0]).hex()}" for _ in range(sizes[4])]
        packets = [packet_line(rng) for _ in range(rng.choice((0, room // 2, room)))]
        order = sorted([0] * len(rows) + [1] * len(packets), key=lambda _: rng.random())
        lines += [rows.pop() if it == 0 else packets.pop() for it in order]
        lines.append(f"frame {sizes[0]} {sizes[4]}")
    return "\n".join([*lines, "end\n"]).encode()


def line_room(sizes):
    """How many packets have room in a frame."""
    active = max(0, (sizes[2] + sizes[3] - 30) // 32)
    return sizes[4] * min(18, active) + sum(sizes[5:]) * min(18, max(0, (sum(sizes[:4]) - 16) // 32))


# Of lines of numbers the limit of each field.
LIMITS = {"avi": (4, 4, 2, 4, 16, 4, 4, 4, 4, 8, 2, 128, 16, *[65_536] * 4), "audio": (8, 16, 4, 8, 256, 16, 2),
          "acr": (2**20, 2**20), "gcp": (2, 2, 16)}


def packet_line(rng):
    """A line that makes a packet, mostly one of a sample."""
    kind, number = rng.randrange(12), rng.randrange
    if kind < len(LIMITS):
        name = [*LIMITS][kind]
        return " ".join([name, *(str(number(limit)) for limit in LIMITS[name])])
    if kind == 4:
        return " ".join(["spd", *(rng.randbytes(size).hex() for size in (8, 16, 1))])
    if kind == 5:
        return f"info {number(0x85, 0xFF):02x} {number(256):02x} {rng.randbytes(number(28)).hex()}".rstrip()
    if kind == 6:
        header = bytes([rng.choice((0, 4, 0x0A, 0x7F))]) + rng.randbytes(2)
        return " ".join(["packet", *(it.hex() for it in (header, *(rng.randbytes(7) for _ in range(4))))])
    return f"s {number(2**24):06x} {number(2**24):06x} {number(8)} {number(8)} {number(2)} {number(2)}"
