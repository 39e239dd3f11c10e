"""Small models of docs/guide/FORMATS.md for the tests of the built program: bits of captures, slips and epochs, what DVI columns
tell, biphase streams, what a relay makes of a listing. They are for inputs of some thousand characters and are no check of speed."""
import bisect
import functools
import itertools
import re

from tests.models.tables import CONTROL

BLOCK = 4096
MARKS = {"B": "11101000", "M": "11100010", "W": "11100100"}


def sent_bits(words):
    """Characters as text of their bits, in the order in which they are sent."""
    return "".join(format(word, "010b")[::-1] for word in words)


SENT_CONTROL = frozenset(sent_bits([word]) for word in CONTROL)
TWELVE = re.compile(f"(?=(?:{'|'.join(sorted(SENT_CONTROL))}){{12}})")


# ---- captures

def lanes_in(capture):
    """The bits of the three lanes of a capture of either version."""
    size, header = 4, 8 if capture[3:4] == b"1" else 16
    counts = [int.from_bytes(capture[at : at + size], "big") for at in range(4, header, size)] * (3 if header == 8 else 1)
    left, rest, lanes = [(count + 7) // 8 for count in counts], capture[header:], [b"", b"", b""]
    while any(left):
        for lane in range(3):
            taken = min(BLOCK, left[lane])
            lanes[lane] += rest[:taken]
            rest, left[lane] = rest[taken:], left[lane] - taken
    bits = [format(int.from_bytes(lane, "little"), f"0{8 * len(lane)}b")[::-1] for lane in lanes]
    return [row[:count] for row, count in zip(bits, counts)]


def capture_of(version, lanes):
    """The capture that has these bits; in version 1 all lanes have as many."""
    rows = [int(lane[::-1] or "0", 2).to_bytes((len(lane) + 7) // 8, "little") for lane in lanes]
    counts = [len(lane) for lane in lanes][: 1 if version == 1 else 3]
    blocks = [row[at : at + BLOCK] for at in range(0, max(map(len, rows)), BLOCK) for row in rows]
    return b"TMC%d" % version + b"".join(count.to_bytes(4, "big") for count in counts) + b"".join(blocks)


def lanes_of(rows):
    """A capture of the first version of three lanes of as many bytes, all of whose bits count."""
    size = len(rows[0])
    blocks = [row[at : at + BLOCK] for at in range(0, size, BLOCK) for row in rows]
    return b"TMC1" + (8 * size).to_bytes(4, "big") + b"".join(blocks)


def sent(words, size):
    """So many bytes of a lane that carries these characters over and over, the lowest bit first."""
    bits = "".join(format(word, "010b")[::-1] for word in words)
    bits = (bits * (8 * size // len(bits) + 1))[: 8 * size]
    return int(bits[::-1], 2).to_bytes(size, "little")


def packed(words):
    """The bytes of characters of which four take five bytes."""
    return sent(words, len(words) * 10 // 8)


def replaced(capture, hits):
    """A capture of one block with the ten bits of each hit replaced, one after another: as `damage` is to write it."""
    size = (int.from_bytes(capture[4:8], "big") + 7) // 8
    lanes = [int.from_bytes(capture[8 + lane * size :][:size], "little") for lane in range(3)]
    for lane, place, value in hits:
        lanes[lane] = lanes[lane] & ~(0x3FF << place) | value << place
    return capture[:8] + b"".join(lane.to_bytes(size, "little") for lane in lanes)


def slipped(lanes, lane, place, drop):
    """The lanes without some bits of one."""
    return [bits[:place] + bits[place + drop :] if at == lane else bits for at, bits in enumerate(lanes)]


# ---- epochs

def strays(bits):
    """Where twelve control characters begin in a lane, and for each place the least later one that is no whole number of
    characters past it (none where there is none)."""
    places = [it.start() for it in TWELVE.finditer(bits)]
    later = [None] * len(places)
    for at in range(len(places) - 2, -1, -1):
        later[at] = places[at + 1] if (places[at + 1] - places[at]) % 10 else later[at + 1]
    return places, later


def epochs(lanes):
    """Where each epoch begins and ends (none: with the capture), and the lane of the stray that ends it."""
    found, start = [strays(bits) for bits in lanes], 0
    while start is not None:
        locks = [bisect.bisect_left(places, start) for places, _ in found]
        ends = [(later[at], lane) for lane, (at, (_, later)) in enumerate(zip(locks, found)) if at < len(later)]
        end, lane = min((it for it in ends if it[0] is not None), default=(None, None))
        yield start, end, lane
        start = end


def tracked(lanes, link):
    """The status and the output of `recover track`, where `link` gives status and listing of `recover link` of bits."""
    text, aligned, faults, slip = b"", False, False, None
    for start, end, lane in epochs(lanes):
        status, listing = link([bits[start:end] for bits in lanes])
        if aligned:
            text += b"! slip %d %d\n" % slip
            faults = True
        if status != 7:
            aligned, faults = True, faults or status == 1
            text += listing.removesuffix(b"end\n")
        slip = lane, end
    return ((1 if faults else 0), text + b"end\n") if aligned else (7, b"")


# ---- pixels

@functools.cache
def coded(byte, disparity):
    """The character of a byte behind characters of this disparity (DVI 1.0, section 3.2.2)."""
    ones = byte.bit_count()
    xnor = ones > 4 or (ones == 4 and not byte & 1)
    made = byte & 1
    for bit in range(1, 8):
        made |= ((made >> bit - 1 & 1) ^ (byte >> bit & 1) ^ xnor) << bit
    lean = 2 * made.bit_count() - 8
    if disparity == 0 or lean == 0:
        turn = xnor
    else:
        turn = (disparity > 0) == (lean > 0)
    return turn << 9 | (not xnor) << 8 | (made ^ 0xFF if turn else made)


def decoded(word):
    """The byte of a character."""
    made = word & 0xFF ^ (0xFF if word >> 9 & 1 else 0)
    turned = 0 if word >> 8 & 1 else 0xFE
    return made ^ made << 1 & 0xFF ^ turned


def first_uncoded(words):
    """The first place at which a character is not the one of its own byte; none where each is."""
    disparity = 0
    for at, word in enumerate(words):
        if coded(decoded(word), disparity) != word:
            return at
        disparity += 2 * word.bit_count() - 10
    return None


# ---- columns without guard bands

def is_control(column):
    return sum(word in CONTROL for word in column) >= 2


def line_of(columns, at):
    """The lines that the pixels from column `at` on tell."""
    kept = columns[:4096]
    yield b"v " + b"".join(b"%02x" % decoded(word) for column in kept for word in reversed(column))
    for lane in range(3):
        found = first_uncoded([column[lane] for column in kept])
        if found is not None:
            yield b"! code %d %d" % (lane, at + found)
    if len(columns) > 4096:
        yield b"! longline %d" % at


def dvi_lines(columns):
    """What aligned columns tell without guard bands. A run is told before what ends with it, a `word` after it."""
    run, quiet, pixels = None, 0, []
    for at, column in enumerate([*columns, None]):
        if column and not is_control(column):
            if run:
                yield b"c %02x %d" % run
            run = None
            pixels.append(column)
            continue
        if pixels and column:
            first = at - len(pixels)
            if quiet < 12:
                yield b"! short %d" % first
            yield from line_of(pixels, first)
        if pixels and not column:
            yield b"cut %d" % (at - len(pixels))
        if pixels:
            quiet, pixels = 0, []
        values = [CONTROL.index(word) if word in CONTROL else 0 for word in column or ()]
        value = sum(two << 2 * lane for lane, two in enumerate(values)) if column else None
        if run and run[0] != value:
            yield b"c %02x %d" % run
            run = None
        if column:
            run = value, (run[1] if run else 0) + 1
            quiet += 1
            for lane, word in enumerate(column):
                if word not in CONTROL:
                    yield b"! word %d %d" % (lane, at)


def dvi_text(columns):
    """The status and the output of `recover dvi` of columns that begin with the first aligned one."""
    lines = [*dvi_lines(columns), b"end"]
    return int(any(line.startswith(b"! ") for line in lines)), b"".join(line + b"\n" for line in lines)


# ---- biphase streams

def subframe(mark, value, flags):
    """The eight bytes of a subframe; V is bit 0 of the flags, U bit 1, C bit 2."""
    bits = value | flags << 24
    return line_coded(mark, bits | (bits.bit_count() & 1) << 27)


def line_coded(mark, bits):
    """The eight bytes of a mark and 28 bits, the last of which is their parity in a subframe."""
    halves = MARKS[mark]
    for at in range(28):
        first = "1" if halves[-1] == "0" else "0"
        halves += first + (halves[-1] if bits >> at & 1 else first)
    return int(halves[::-1], 2).to_bytes(8, "little")


def subframe_in(group):
    """The mark, the value and the flags that give these eight bytes; none where none do."""
    halves = format(int.from_bytes(group, "little"), "064b")[::-1]
    bits = sum((halves[8 + 2 * at] != halves[9 + 2 * at]) << at for at in range(28))
    for mark in MARKS:
        if subframe(mark, bits & 0xFFFFFF, bits >> 24 & 7) == group:
            return mark, bits & 0xFFFFFF, bits >> 24 & 7
    return None


def frame(sample):
    """The sixteen bytes of a sample: left, right, the flags of both, and whether it starts a block."""
    left, right, flags, more, start = sample
    return subframe("B" if start else "M", left, flags) + subframe("W", right, more)


def status_of(samples):
    """The line of the last 192 samples, where the first alone of them starts a block."""
    last = samples[-192:]
    if len(last) < 192 or [at for at, sample in enumerate(last) if sample[4]] != [0]:
        return b""
    sides = [sum((sample[side] >> 2 & 1) << at for at, sample in enumerate(last)) for side in (2, 3)]
    return b"block %s %s\n" % tuple(side.to_bytes(24, "little").hex().encode() for side in sides)


def biphase_text(stream):
    """The status, the output and the note of `read biphase`."""
    text, samples, subframes = b"", [], []
    for at in range(len(stream) // 8):
        found = subframe_in(stream[8 * at : 8 * at + 8])
        if not found or found[0] not in ("W" if at % 2 else "BM"):
            return 3, text, b"input: subframe %d\n" % at
        subframes.append(found)
        if at % 2:
            left, right = subframes[-2:]
            samples.append((left[1], right[1], left[2], right[2], int(left[0] == "B")))
            text += b"s %06x %06x %d %d %d 0\n" % samples[-1] + status_of(samples)
    if len(stream) % 16:
        return 3, text, b"input: short %d\n" % len(stream)
    return 0, text + b"end\n", b""


def samples_of(listing, pair):
    """The samples of a pair in the packets of a link listing, and whether a packet of samples was lost."""
    samples, lost, lines = [], False, listing.split(b"\n")
    for at, line in enumerate(lines):
        if not line.startswith(b"p 02"):
            continue
        faults = faults_of_packet(lines[at + 1 :])
        if any(it.startswith(b"! lost ") for it in faults):
            lost = True
            continue
        _, header, *bodies, _ = line.split(b" ")
        header, bodies = bytes.fromhex(header.decode()), [bytes.fromhex(it.decode()) for it in bodies]
        wanted = [pair] if header[1] & 16 else range(4) if pair == 0 else []
        for body in (it for it in wanted if header[1] >> it & 1):
            data, start = bodies[body], header[2] >> 4 + body & 1
            left, right = (int.from_bytes(data[it : it + 3], "little") for it in (0, 3))
            samples.append((left, right, data[6] & 7, data[6] >> 4 & 7, start))
    return samples, lost


def faults_of_packet(lines):
    """The fault lines of the packet before these lines."""
    kinds = (b"! symbols ", b"! mended ", b"! lost ", b"! longisland ")
    for line in lines:
        if not line.startswith(kinds):
            return
        yield line


def biphase_of(listing, pair):
    """The status and the output of `recover biphase` where `recover link` writes this listing."""
    samples, lost = samples_of(listing, pair)
    start = next((at for at, sample in enumerate(samples) if sample[4]), len(samples))
    return int(lost), b"".join(map(frame, samples[start:]))


# ---- alignment

def edges(bits):
    """The edges of a lane."""
    lock = TWELVE.search(bits)
    words = [bits[at : at + 10] for at in range(lock.start(), len(bits) - 9, 10)] if lock else []
    quiet = 0
    for at, word in enumerate(words):
        if word in SENT_CONTROL:
            quiet += 1
            continue
        if quiet >= 12:
            yield lock.start() + 10 * at
        quiet = 0


def aligned(lanes):
    """The columns from the first full alignment on; none where there is none."""
    found = [list(edges(bits)) for bits in lanes]
    for last in sorted(itertools.chain(*found)):
        near = [lane[bisect.bisect_left(lane, last - 70) : bisect.bisect_right(lane, last)] for lane in found]
        if all(near):
            rows = [bits[edge[0] - 120 :] for bits, edge in zip(lanes, near)]
            rows = [[int(row[at : at + 10][::-1], 2) for at in range(0, len(row) - 9, 10)] for row in rows]
            return list(zip(*rows))
    return None


# ---- relays

def kept(listing):
    """The runs, lines and islands of a link listing that a relay sends again, in order, with the lines of each."""
    island = None
    for line in listing.split(b"\n"):
        name = line[:2]
        if name == b"c ":
            yield [b"control", line]
        elif name == b"v ":
            yield [b"video", line]
        elif name == b"i ":
            island = [b"island", line]
        elif name == b"p " and island:
            island.append(line)
        elif line.startswith(b"! lost ") and island and len(island) > 2:
            island[-1] = b"p " + b"0" * 6 + 4 * (b" " + b"0" * 14) + island[-1][-33:]
        elif name == b"e " and island and len(island) > 2:
            yield [*island[:20], line]
        if name in (b"c ", b"v ", b"e ", b"cu"):
            island = None


def periods(things):
    """Neighbouring runs as one control period; one between two other things, before the first and behind the last."""
    items = [[b"control"]]
    for kind, *lines in things:
        if kind == b"control":
            _, value, count = lines[0].split(b" ")
            items[-1].append((int(value, 16), int(count)))
        else:
            items += [[kind, *lines], [b"control"]]
    if len(items) > 1 and items[0] == [b"control"]:
        items[0] = [b"control", (0, 12)]
    return [item if len(item) > 1 else [b"control", (0, 12)] for item in items]


def relayed(listing):
    """The link listing of what `relay` sends where `recover link` writes this listing."""
    items, lines = periods(kept(listing)), []
    for (kind, *parts), after in zip(items, [*items[1:], None]):
        if kind != b"control":
            lines += parts
            continue
        values = [value for value, count in parts for _ in range(count)]
        values = values[:1] * (12 - len(values)) + values
        if after:
            opens = 0x04 if after[0] == b"video" else 0x14
            values[-8:] = [value & 3 | opens for value in values[-8:]]
        lines += [b"c %02x %d" % (value, len(list(same))) for value, same in itertools.groupby(values)]
    return b"".join(line + b"\n" for line in [*lines, b"end"])
