"""A small model of docs/guide/FORMATS.md over whole lists of columns, for the tests of the built program: what aligned columns tell, and
the columns that a link listing sends. It searches from each place anew, and is no check of speed."""
import functools
import itertools

from tests.models.model import aligned, capture_of, coded, decoded, first_uncoded, is_control, sent_bits
from tests.models.tables import ACTIVE, CONTROL, ISLAND_GUARD, MOST_PACKETS, MOST_PIXELS, TERC4, VIDEO_GUARD

PACKET_FAULTS = (b"! symbols ", b"! mended ", b"! lost ")


# ---- blocks

def remainder(bits):
    """What a division by x^8 + x^7 + x^6 + 1 leaves of bits, the first of which is the highest power."""
    left = 0
    for bit in bits:
        left = left << 1 | bit
        if left & 0x100:
            left ^= 0x1C1
    return left


@functools.lru_cache(50_000)
def mended(bits):
    """The bits of a block, and which of them was wrong: -1 where none was, none where more were."""
    if remainder(bits) == 0:
        return bits, -1
    for at in range(len(bits)):
        other = (*bits[:at], 1 - bits[at], *bits[at + 1 :])
        if remainder(other) == 0:
            return other, at
    return bits, None


def bytes_of(bits):
    return bytes(sum(bit << at for at, bit in enumerate(bits[first : first + 8])) for first in range(0, len(bits), 8))


def block_of(data):
    """The bits of some bytes and of their parity byte."""
    bits = tuple(byte >> at & 1 for byte in data for at in range(8))
    parity = remainder((*bits, *(0,) * 8))
    return (*bits, *(parity >> 7 - at & 1 for at in range(8)))


# ---- what columns tell

def nibble(word):
    return TERC4.index(word) if word in TERC4 else 0


def value_of(column):
    return sum(CONTROL.index(word) << 2 * lane for lane, word in enumerate(column) if word in CONTROL)


def is_island_guard(column):
    return column[0] in TERC4[12:] and column[1:] == (ISLAND_GUARD, ISLAND_GUARD)


def opened_by(columns):
    """What two columns open: their like characters are counted."""
    pairs = [(word, lane) for column in columns for lane, word in enumerate(column)]
    if sum(word == VIDEO_GUARD[lane] for word, lane in pairs) >= 5:
        return "video"
    if sum(word in TERC4[12:] if lane == 0 else word == ISLAND_GUARD for word, lane in pairs) >= 5:
        return "island"
    return None


def runs_of(columns, first):
    """The runs of a control period and the characters in it that are none of control."""
    run = None
    for at, column in enumerate(columns, first):
        if run and run[0] != value_of(column):
            yield b"c %02x %d" % run
            run = None
        run = value_of(column), (run[1] if run else 0) + 1
        yield from (b"! word %d %d" % (lane, at) for lane, word in enumerate(column) if word not in CONTROL)
    yield b"c %02x %d" % run


def judged(quiet, opened, first):
    """The faults of a control period before what opens at a column."""
    if len(quiet) < 12:
        yield b"! short %d" % first
    bits = {"video": 1, "island": 5}[opened]
    if len(quiet) < 8 or any(value_of(column) >> 2 != bits for column in quiet[-8:]):
        yield b"! preamble %d" % first


def line_of(columns, first, is_last):
    """A line whose two guard columns stand at `first`."""
    yield from (b"! guard %d" % (first + at) for at in (0, 1) if columns[at] != VIDEO_GUARD)
    pixels = columns[2 : 2 + MOST_PIXELS]
    if is_last:
        yield b"cut %d" % (first + 2)
    elif not pixels:
        yield b"! empty %d" % first
    else:
        yield b"v " + b"".join(b"%02x" % decoded(word) for column in pixels for word in reversed(column))
        for lane in range(3):
            found = first_uncoded([column[lane] for column in pixels])
            if found is not None:
                yield b"! code %d %d" % (lane, first + 2 + found)
        if len(columns) > 2 + MOST_PIXELS:
            yield b"! longline %d" % first


def packet_of(columns, first):
    """The lines of a packet's 32 columns."""
    rows = [[nibble(word) for word in column] for column in columns]
    blocks = [tuple(bit >> body & 1 for row in rows for bit in row[1:]) for body in range(4)]
    blocks.append(tuple(row[0] >> 2 & 1 for row in rows))
    found = [mended(block) for block in blocks]
    fields = [bytes_of(bits)[:-1].hex().encode() for bits, _ in found]
    yield b" ".join([b"p", fields[4], *fields[:4], b"".join(b"%d" % (row[0] & 3) for row in rows)])
    wrong = sum(word not in TERC4 for column in columns for word in column)
    if wrong:
        yield b"! symbols %d %d" % (first, wrong)
    for block, (_, bit) in enumerate(found):
        if bit is None:
            yield b"! lost %d %d" % (first, block)
        elif bit >= 0:
            yield b"! mended %d %d %d" % (first, block, bit)


def sync_of(columns):
    return b"".join(b"%d" % (nibble(column[0]) & 3) for column in columns)


def island_of(columns, first, is_last):
    """An island whose two guard columns stand at `first`."""
    yield b"i " + sync_of(columns[:2])
    yield from (b"! guard %d" % (first + at) for at in (0, 1) if not is_island_guard(columns[at]))
    for count in itertools.count(1):
        at = 2 + 32 * (count - 1)
        pair = columns[at : at + 2]
        if len(pair) == 2 and sum(word == ISLAND_GUARD for column in pair for word in column[1:]) >= 3:
            break
        if len(columns) < at + 32:
            yield (b"cut %d" if is_last else b"! broken %d") % (first + at)
            return
        yield from packet_of(columns[at : at + 32], first + at)
        if count == MOST_PACKETS + 1:
            yield b"! longisland %d" % (first + at)
    yield b"e " + sync_of(pair)
    yield from (b"! guard %d" % (first + at + it) for it in (0, 1) if not is_island_guard(pair[it]))
    if count == 1:
        yield b"! empty %d" % first
    if len(columns) > at + 2:
        yield b"! noise %d" % (first + at + 2)


def told(columns):
    """What columns from the first aligned one on tell, each line with the first column of its period."""
    quiet, first = [], 0
    for is_quiet, group in itertools.groupby(columns, is_control):
        group = list(group)
        is_last = first + len(group) == len(columns)
        opened = opened_by(group[:2]) if len(group) > 1 else None
        lines = []
        if is_quiet:
            lines.append(runs_of(group, first))
            quiet = group
        elif opened:
            lines += [judged(quiet, opened, first), (line_of if opened == "video" else island_of)(group, first, is_last)]
        else:
            lines.append([(b"cut %d" if is_last and len(group) == 1 else b"! noise %d") % first])
        yield from ((first, line) for line in itertools.chain(*lines))
        first += len(group)


def link_text(columns):
    """The status and the output of `recover link` of columns that begin with the first aligned one."""
    return with_status([line for _, line in told(columns)])


def with_status(lines):
    """The status and the output of lines that `end` follows."""
    lines = [*lines, b"end"]
    return int(any(line.startswith(b"! ") for line in lines)), b"".join(line + b"\n" for line in lines)


def link_of(lanes):
    """The status and the output of `recover link` of the bits of three lanes."""
    columns = aligned(lanes)
    return link_text(columns) if columns else (7, b"")


def check_text(listing):
    """The status and the output of `check` where `recover link` writes this listing."""
    lines = [line for line in listing.splitlines(True) if line.startswith((b"! ", b"cut "))]
    is_faulty = any(line.startswith(b"! ") for line in lines)
    return int(is_faulty), b"".join(lines) + (b"faulty\n" if is_faulty else b"clean\n")


# ---- pictures and sound

AVI, AUDIO, PRODUCT = (0x82, 2), (0x84, 1), (0x83, 1)
LENGTHS = {AVI: 13, AUDIO: 10, PRODUCT: 25}


def bits_of(byte, *fields):
    """The fields of a byte, each with its first and its last bit."""
    return [byte >> low & (2 << high - low) - 1 for low, high in fields]


def text_of(name, numbers):
    return b" ".join([name, *(b"%d" % number for number in numbers)])


def info_of(header, bodies, first):
    """The line of an InfoFrame."""
    kind, length, data = (header[0], header[1]), header[2] & 31, b"".join(bodies)
    if length > 27 or length != LENGTHS.get(kind, length):
        return b"! length %d" % first
    left = sum(header) + sum(data[: length + 1]) & 0xFF
    if left:
        return b"! checksum %d %02x" % (first, left)
    if kind == AVI:
        numbers = [*bits_of(data[1], (0, 1), (2, 3), (4, 4), (5, 6)), *bits_of(data[2], (0, 3), (4, 5), (6, 7))]
        numbers += [*bits_of(data[3], (0, 1), (2, 3), (4, 6), (7, 7)), data[4] & 127, data[5] & 15]
        return text_of(b"avi", [*numbers, *(int.from_bytes(data[at : at + 2], "little") for at in (6, 8, 10, 12))])
    if kind == AUDIO:
        numbers = [*bits_of(data[1], (0, 2), (4, 7)), *bits_of(data[2], (0, 1), (2, 4)), data[4], *bits_of(data[5], (3, 6), (7, 7))]
        return text_of(b"audio", numbers)
    cuts = [(1, 9), (9, 25), (25, 26)] if kind == PRODUCT else [(1, length + 1)] if length else []
    names = [b"spd"] if kind == PRODUCT else [b"info", b"%02x" % kind[0], b"%02x" % kind[1]]
    return b" ".join([*names, *(data[low:high].hex().encode() for low, high in cuts)])


def samples_in(header, bodies, first):
    """The lines of a packet of samples."""
    if header[1] & 16:
        yield b"! layout %d" % first
        return
    for at, body in enumerate(bodies):
        if header[1] >> at & 1:
            left, right = (int.from_bytes(body[it : it + 3], "little") for it in (0, 3))
            sides = body[6] & 15, body[6] >> 4
            numbers = sides[0] & 7, sides[1] & 7, header[2] >> 4 + at & 1, header[2] >> at & 1
            yield text_of(b"s %06x %06x" % (left, right), numbers)
            for name, value, flags in ((b"l", left, sides[0]), (b"r", right, sides[1])):
                if (value.bit_count() + flags.bit_count()) % 2:
                    yield b"! parity %d %d %b" % (first, at, name)


def contents_of(line, first):
    """The lines of a packet without a lost block, whose line of the link listing is given."""
    header, *bodies = (bytes.fromhex(field.decode()) for field in line.split(b" ")[1:6])
    body = bodies[0]
    if header[0] >= 0x80:
        yield info_of(header, bodies, first)
    elif header[0] == 1:
        high = [int.from_bytes(body[at : at + 3], "big") & 0xFFFFF for at in (4, 1)]
        yield text_of(b"acr", high) if len(set(bodies)) == 1 else b"! uneven %d" % first
    elif header[0] == 2:
        yield from samples_in(header, bodies, first)
    elif header[0] == 3:
        depth = body[1] & 15
        yield text_of(b"gcp", (body[0] & 1, body[0] >> 4 & 1, depth))
        if depth not in (0, 4):
            yield b"! depth %d %d" % (first, depth)
    elif header[0]:
        yield line.replace(b"p ", b"packet ", 1).rpartition(b" ")[0]


class Frames:
    """The frames of what is told: whether a change of VSYNC was heard, and the rows since then."""

    def __init__(self):
        self.alike, self.last, self.level, self.counts = 0, None, None, False
        self.rows, self.format = [], None

    def hear_run(self, line):
        """A run of control columns, which may end a frame."""
        _, value, count = line.split(b" ")
        level = int(value, 16) >> 1 & 1
        self.alike = int(count) + (self.alike if level == self.last else 0)
        self.last = level
        if self.alike < 3 or level == self.level:
            return
        is_change, self.level = self.level is not None, level
        if is_change and self.counts and self.rows:
            size = self.rows[0], len(self.rows)
            yield b"frame %d %d" % size
            if ACTIVE.get(self.format, size) != size:
                yield b"! vic %d" % self.format
        if is_change:
            self.counts, self.rows = True, []

    def hear_line(self, line):
        """A line of pixels."""
        if self.counts:
            self.rows.append((len(line) - 2) // 6)
            yield line.replace(b"v ", b"row ", 1)
            if self.rows[-1] != self.rows[0]:
                yield b"! ragged %d" % (len(self.rows) - 1)

    def hear(self, line, packet, is_lost):
        """Anything else, with the first column of its packet, if it is one."""
        if line.startswith(b"p ") and not is_lost:
            for text in contents_of(line, packet):
                self.format = int(text.split(b" ")[12]) if text.startswith(b"avi ") else self.format
                yield text
        if line.startswith((b"! ", b"cut ")):
            yield line


def contents(events):
    """The lines of the content of what is told, each with its first column; the line of a slip or of an alignment let go stands where
    it is, and changes nothing."""
    frames, packet = Frames(), 0
    for at, (first, line) in enumerate(events):
        if line.startswith((b"! slip ", b"! relock ")):
            yield line
            continue
        if line.startswith(b"c "):
            yield from frames.hear_run(line)
            continue
        if not line.startswith(b"! word "):
            frames.alike = 0
        if line.startswith(b"v "):
            yield from frames.hear_line(line)
            continue
        packet = packet + 32 if line.startswith(b"p ") else first - 30 if line.startswith(b"i ") else packet
        faults = itertools.takewhile(lambda it: it[1].startswith(PACKET_FAULTS), events[at + 1 :])
        yield from frames.hear(line, packet, any(it.startswith(b"! lost ") for _, it in faults))


def content_text(columns):
    """The status and the output of `recover content` of columns that begin with the first aligned one."""
    return with_status(contents(list(told(columns))))


# ---- what is sent

def pixels_of(text):
    """The columns of a line's pixels."""
    rows, lean = [], [0, 0, 0]
    for at in range(0, len(text), 6):
        column = []
        for lane, byte in enumerate(reversed(bytes.fromhex(text[at : at + 6]))):
            column.append(coded(byte, lean[lane]))
            lean[lane] += 2 * column[lane].bit_count() - 10
        rows.append(tuple(column))
    return rows


def packet_columns(fields, is_first):
    """The columns of a packet of the first of an island or of a later one."""
    header, *bodies = (block_of(bytes.fromhex(it)) for it in fields[:5])
    for at, sync in enumerate(map(int, fields[5])):
        low = sync | header[at] << 2 | (0 if is_first and at == 0 else 8)
        sides = (sum(body[2 * at + side] << it for it, body in enumerate(bodies)) for side in (0, 1))
        yield (TERC4[low], *(TERC4[side] for side in sides))


def sent_columns(listing, guards=True):
    """The columns that a listing without a wrong line sends, with guard bands before lines or without."""
    columns, count = [], 0
    for name, *fields in (line.split(" ") for line in listing.decode().splitlines()):
        if name == "c":
            value = int(fields[0], 16)
            columns += [tuple(CONTROL[value >> 2 * lane & 3] for lane in range(3))] * int(fields[1])
        elif name == "v":
            columns += [VIDEO_GUARD] * 2 * guards + pixels_of(fields[0])
        elif name == "p":
            columns += packet_columns(fields, count == 0)
            count += 1
        elif name in ("i", "e"):
            columns += [(TERC4[12 + int(sync)], ISLAND_GUARD, ISLAND_GUARD) for sync in fields[0]]
            count = 0
    return columns


def capture_of_columns(columns):
    """The capture that `make` writes of columns without a tap."""
    return capture_of(1, [sent_bits([column[lane] for column in columns]) for lane in range(3)])
