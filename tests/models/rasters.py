"""A small model of docs/guide/FORMATS.md for the tests of the built program: the packets and the columns of a content listing that has no
wrong line and whose packets have room."""
from tests.models.hearing import packet_columns, pixels_of
from tests.models.tables import ACTIVE, CONTROL, ISLAND_GUARD, MOST_PACKETS, PORCHES, TERC4, VIDEO_GUARD


# ---- packets

def four(data):
    return [bytes(data[at : at + 7]) for at in range(0, 28, 7)]


def info(kind, version, payload):
    """An InfoFrame's header and bodies."""
    header = bytes((kind, version, len(payload)))
    return header, *four(bytes([-(sum(header) + sum(payload)) & 0xFF]) + payload + bytes(27 - len(payload)))


def joined(*fields):
    """A byte of fields, each with its first bit."""
    return sum(value << low for value, low in fields)


def avi(s, b, a, y, r, m, c, sc, q, ec, itc, vic, pr, *bars):
    data = [joined((s, 0), (b, 2), (a, 4), (y, 5)), joined((r, 0), (m, 4), (c, 6)), joined((sc, 0), (q, 2), (ec, 4), (itc, 7)), vic, pr]
    return info(0x82, 2, bytes(data) + b"".join(bar.to_bytes(2, "little") for bar in bars))


def audio(cc, ct, ss, sf, ca, lsv, dm):
    return info(0x84, 1, bytes([joined((cc, 0), (ct, 4)), joined((ss, 0), (sf, 2)), 0, ca, joined((lsv, 3), (dm, 7)), 0, 0, 0, 0, 0]))


def clock(n, cts):
    return b"\1\0\0", *[b"\0" + cts.to_bytes(3, "big") + n.to_bytes(3, "big")] * 4


def general(mute, clear, depth):
    return b"\3\0\0", *[bytes((mute | clear << 4, depth, 0, 0, 0, 0, 0))] * 4


def samples(group):
    """A packet of up to four samples: left, right, the flags of both, and whether each starts a block and is flat."""
    bodies, header = [bytes(7)] * 4, [2, 0, 0]
    for at, (left, right, low, high, start, flat) in enumerate(group):
        flags = [it | (value.bit_count() + it.bit_count()) % 2 << 3 for value, it in ((left, low), (right, high))]
        bodies[at] = left.to_bytes(3, "little") + right.to_bytes(3, "little") + bytes([flags[0] | flags[1] << 4])
        header[1] |= 1 << at
        header[2] |= start << 4 + at | flat << at
    return bytes(header), *bodies


def packet_of(name, fields):
    """The packet of any line but one of a sample."""
    if name in ("packet", "spd", "info"):
        parts = [bytes.fromhex(field) for field in fields]
        if name == "info":
            return info(parts[0][0], parts[1][0], b"".join(parts[2:]))
        return info(0x83, 1, b"".join(parts)) if name == "spd" else parts
    return {"avi": avi, "audio": audio, "acr": clock, "gcp": general}[name](*map(int, fields))


# ---- rasters

def read(text):
    """The mode of a content, and the rows and packets of each frame."""
    mode, frames, rows, packets, group = None, [], [], [], []
    for name, *fields in (line.split(" ") for line in text.decode().splitlines()):
        if name == "s":
            group.append([int(field, 16 if at < 2 else 10) for at, field in enumerate(fields)])
        if group and (name != "s" or len(group) == 4):
            packets.append(samples(group))
            group = []
        if name == "vic":
            (width, height), porches = ACTIVE[int(fields[0])], PORCHES[int(fields[0])]
            mode = [width, *porches[:3], height, *porches[3:]]
        elif name == "mode":
            mode = list(map(int, fields))
        elif name == "row":
            rows.append(fields[0])
        elif name == "frame":
            frames.append((rows, packets))
            rows, packets = [], []
        elif name not in ("s", "end"):
            packets.append(packet_of(name, fields))
    return mode, frames


def control(value):
    return tuple(CONTROL[value >> 2 * lane & 3] for lane in range(3))


def line_of(mode, number, row, packets):
    """The columns of a line; the packets that it has room for are taken from the list."""
    width, front, sync, back, _, _, down, _, positive = mode
    level = lambda is_active: is_active if positive else not is_active  # noqa: E731
    total, start = width + front + sync + back, sync + back
    values = [level(at < sync) | level(number < down) << 1 for at in range(total)]
    columns = [control(value) for value in values]
    room = min((start - 30 if row else total - 16) // 32, MOST_PACKETS, len(packets))
    if room > 0:
        end = 14 + 32 * room
        columns[4:12] = [control(value | 0x14) for value in values[4:12]]
        guards = [(TERC4[12 + value], ISLAND_GUARD, ISLAND_GUARD) for value in values]
        columns[12:14], columns[end : end + 2] = guards[12:14], guards[end : end + 2]
        for at in range(room):
            first = 14 + 32 * at
            fields = [it.hex() for it in packets[at]]
            columns[first : first + 32] = packet_columns([*fields, "".join(map(str, values[first : first + 32]))], at == 0)
        del packets[:room]
    if row:
        columns[start - 10 : start - 2] = [control(value | 4) for value in values[start - 10 : start - 2]]
        columns[start - 2 : start] = [VIDEO_GUARD] * 2
        columns[start : start + width] = pixels_of(row)
    return columns


def raster_of(text):
    """The columns of a content listing."""
    mode, frames = read(text)
    _, _, _, _, height, front, sync, back, positive = mode
    columns = []
    for rows, packets in frames:
        left = list(packets)
        for number in range(sync + back + height + front):
            at = number - sync - back
            columns += line_of(mode, number, rows[at] if 0 <= at < height else None, left)
    return columns + [control(3 if positive else 0)] * 32
