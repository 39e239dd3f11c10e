#!/usr/bin/env python3
"""Runs the built program over broken listings, contents, captures and words, and looks for answers that it must never give.

    fuzz/run.py [--seconds S] [--seed N] [--program PROGRAM] [--limit S] [--keep FOLDER] [--shrink]

Each case takes an input of some command and changes it at random. The inputs are the examples, the captures, listings and biphase streams
that the program makes of them, and random captures and listings of some blocks. The changes flip bits; cut, repeat, move and splice bytes
and lines; change numbers; replace characters of the lanes; shift lanes; and drop bits of a lane. Each case runs twice: once with a file as
its input, and once with a pipe that gets small pieces. These are findings:

- a signal ends the run, or it takes longer than the limit (twice in a row);
- the command has no such status for a whole input and an output that can be written;
- standard error has anything but the one line of the status (docs/guide/FORMATS.md), or has anything on status 0 and 1;
- the status does not allow the output, such as a listing without its last line or a capture that does not fit its header;
- the second run has another status, output or line;
- the status or the output is not that of the models (tests/models). They judge captures and streams of at most 60,000 bytes, which are
  six blocks, and listings of as many columns.

With --shrink Hypothesis (Debian's python3-hypothesis) draws the cases, a thousand if --cases is not given. It makes the first finding as
small as it can: the same kind of finding with fewer words and bytes.

Case K of seed N depends on N, on K and on what the program makes of the examples, so `--seed N --first K --cases 1` runs it again. The
last line has the numbers of runs and findings. Exit status: 0; 1 if there was a finding. It is not part of the gate."""
import argparse
import collections
import os
import random
import re
import subprocess
import sys
import tempfile
import threading
import time
from pathlib import Path

TOP = Path(__file__).resolve().parents[1]
sys.path[:0] = [str(TOP / "python"), str(TOP)]
from tests.models import feeding, hearing, model, rasters, relocking  # noqa: E402
from tests.support import USAGE  # noqa: E402
from vabgrot.capture import BLOCK  # noqa: E402
from vabgrot.formats.characters import CONTROL, ISLAND_GUARD, ISLAND_PREAMBLE, TERC4, VIDEO_GUARD, VIDEO_PREAMBLE  # noqa: E402
from vabgrot.place import PROGRAM  # noqa: E402

SMALL = 60_000
LINE = rb"line [1-9]\d* (?:fault|form|range|order|control|preamble|size|long|unended|after)"
CAPTURE = rb"(?:magic|version|short|padding|trailing) \d+"
REFUSED = {
    "make link": LINE,
    "make content": LINE + rb"|mode \d+|row \d+ \d+|noroom \d+ \d+|long",
    "recover link": CAPTURE,
    "recover content": CAPTURE,
    "check": CAPTURE,
    "damage": CAPTURE + rb"|place \d+",
    "make dvi": LINE,
    "recover track": CAPTURE,
    "recover relock": CAPTURE,
    "recover content relock": CAPTURE,
    "recover dvi": CAPTURE,
    "recover biphase": CAPTURE,
    "slip": CAPTURE + rb"|place 0",
    "relay": CAPTURE + rb"|long",
    "read biphase": rb"subframe \d+|short [1-9]\d*",
}
STATUSES = {name: (0, 3) if name.startswith(("make", "damage", "slip", "read")) else (0, 1, 3, 7) for name in REFUSED}
MARKED = [*CONTROL, *TERC4, ISLAND_GUARD, 0x100, 0x3FF, 0x200]
# The characters of the three lanes before and in an opening, and in a control period.
OPENINGS = (VIDEO_GUARD, (TERC4[12], ISLAND_GUARD, ISLAND_GUARD), CONTROL[:1] * 3)
OPENINGS += ((CONTROL[0], *VIDEO_PREAMBLE), (CONTROL[0], *ISLAND_PREAMBLE))
NUMBERS = [0, 1, 2, 3, 7, 8, 9, 11, 12, 13, 18, 19, 63, 64, 255, 256, 1023, 1024, 4095, 4096, 4097, 32767, 32768, 65535, 65536,
           2**31 - 1, 2**31, 2**32 - 11, 2**32 - 1, 2**32, 9999999999]
CONTENT = b"""mode 4 4 200 64 2 1 1 1 0
avi 2 1 1 3 9 2 1 5 3 7 1 16 3 1 2 3 4
audio 1 2 3 1 7 4 1
spd 4142434445464748 30313233343536373839616263646566 0a
info 85 01 00112233
gcp 1 0 4
acr 6144 27000
s 000001 fffffe 1 2 1 0
s 7fffff 800000 4 5 0 1
s 123456 654321 0 0 0 0
s 000000 000000 0 0 0 0
s 00000a 00000b 0 0 0 0
packet 0a0b0c 01020304050607 11121314151617 21222324252627 31323334353637
row 000000ffffff102030ff00ff
row 0102030405060708090a0b0c
frame 4 2
info 81 02
row ffffff000000ffffff000000
row ffffff000000ffffff000000
frame 4 2
end
"""


def ran(program, words, source=b""):
    return subprocess.run([program, *words], input=source, capture_output=True, timeout=60)


def pack(words):
    """Returns the bytes of the characters of a lane, and their number of bits."""
    bits = "".join(format(word, "010b") for word in reversed(words))
    return (int(bits, 2).to_bytes((len(bits) + 7) // 8, "little") if bits else b""), len(bits)


def body(lanes):
    most = max(map(len, lanes), default=0)
    return b"".join(lane[at : at + BLOCK] for at in range(0, most, BLOCK) for lane in lanes)


def capture(lanes, counts, version):
    """Returns a capture. In version 1 each lane has as many bits as the shortest."""
    if version == 1:
        counts = [min(counts)] * 3
    cut = []
    for lane, count in zip(lanes, counts):
        lane = bytearray(lane[: (count + 7) // 8])
        if count % 8:
            lane[-1] &= (1 << count % 8) - 1
        cut.append(bytes(lane))
    told = counts[:1] if version == 1 else counts
    return b"TMC%d" % version + b"".join(count.to_bytes(4, "big") for count in told) + body(cut)


def size_of(data):
    """Returns how many bytes a capture with this header has. None if there is no header."""
    if len(data) < 8 or data[:3] != b"TMC":
        return None
    counts = [int.from_bytes(data[4:8], "big")] * 3
    header = 8
    if data[3:4] == b"2":
        header, counts = 16, [int.from_bytes(data[at : at + 4], "big") for at in (4, 8, 12)]
    return header + sum((count + 7) // 8 for count in counts)


class Seeds:
    """The inputs before they are changed: listings, contents, captures, and the characters of three lanes."""

    def __init__(self, program):
        self.listings, self.contents, self.captures, self.lanes, self.streams = [], [], [], [], []
        self.listings += [path.read_bytes() for path in sorted((TOP / "examples").glob("*.link"))]
        self.contents += [path.read_bytes() for path in sorted((TOP / "examples").glob("*.content"))]
        self.contents.append(CONTENT)
        island = self.listings[0].split(b"v ")[0]
        self.listings.append(island + b"v " + b"0123ab" * 700 + b"\nc 03 3000\n" + self.listings[0])
        packet = b"p 82020d " + 4 * b"66000800010000 " + 32 * b"1" + b"\n"
        self.listings.append(b"c 00 12\n" + (b"c 14 8\ni 01\n" + 18 * packet + b"e 23\nc 00 12\n") * 3 + b"end\n")
        makes = [(["make", "link"], it) for it in self.listings] + [(["make", "content"], it) for it in self.contents]
        self.dvi = [b"c 00 12\nv ff0000\nc 00 12\nend\n", b"c 00 30\n" + (b"v " + b"0123ab" * 300 + b"\nc 02 3\nc 01 20\n") * 5 + b"end\n"]
        makes += [(["make", "dvi"], it) for it in self.dvi]
        for words, text in makes:
            for tap in ([], ["--offset", "7", "--skew", "0,70,35"], ["--version", "2", "--offset", "3", "--skew", "9,0,70"]):
                self.captures.append(ran(program, words + tap, text).stdout)
            self.lanes.append(self.columns(self.captures[-3]))
        for data in self.captures[:]:
            came = ran(program, ["recover", "link"], data).stdout
            if came:
                self.listings.append(came)
            self.streams.append(ran(program, ["recover", "biphase", "0"], data).stdout)
        block = bytes.fromhex("172b2dd3ca34cd4c2733333333333333" + "472b2dd3ca34cd4c2733333333333333" * 191)
        self.streams = [it for it in self.streams if it] + [block[:16], block[:3000], block * 2]

    @staticmethod
    def columns(data):
        """Returns the characters of a capture of version 1, from bit 0 on."""
        rest, lanes = data[8:], [b"", b"", b""]
        size = (int.from_bytes(data[4:8], "big") + 7) // 8
        for at in range(0, size, BLOCK):
            for lane in range(3):
                part, rest = rest[: min(BLOCK, size - at)], rest[min(BLOCK, size - at) :]
                lanes[lane] += part
        rows = []
        for lane in lanes:
            bits = int.from_bytes(lane, "little")
            text = format(bits, f"0{8 * size}b")[::-1]
            rows.append([int(text[at : at + 10][::-1], 2) for at in range(0, 8 * size - 9, 10)])
        return rows


def change_bytes(rng, data, other):
    """Changes some bytes."""
    data = bytearray(data)
    size = len(data)
    at, to = sorted((rng.randrange(size + 1), rng.randrange(size + 1)))
    kind = rng.randrange(9)
    if kind == 0 and size:
        for _ in range(rng.choice((1, 1, 2, 8, 64))):
            data[rng.randrange(size)] ^= 1 << rng.randrange(8)
    elif kind == 1 and size:
        data[rng.randrange(size)] = rng.choice((0, 9, 10, 13, 32, 33, 48, 57, 127, 128, 255, rng.randrange(256)))
    elif kind == 2:
        del data[at : min(to, at + rng.choice((1, 4, 64, size + 1)))]
    elif kind == 3:
        data[at:at] = data[at : min(to, at + 4096)] * rng.choice((1, 2, 3, 9))
    elif kind == 4:
        data[at:at] = rng.randbytes(rng.choice((1, 2, 7, 40, 5000)))
    elif kind == 5:
        cut = rng.randrange(len(other) + 1)
        data[at:] = other[cut : cut + 50_000]
    elif kind == 6:
        del data[at:]
    elif kind == 7:
        data[at:to] = bytes([rng.choice((0, 255, 10, 0x55))]) * (to - at)
    else:
        data += rng.choice((b"\0", b"\n", b"x", bytes(4096)))
    return bytes(data)


def change_text(rng, data, other):
    """Changes lines, fields or numbers."""
    lines = data.split(b"\n")
    at = rng.randrange(len(lines))
    kind = rng.randrange(8)
    if kind in (0, 1):
        found = list(re.finditer(rb"(?<=[ ])\d{1,10}(?=[ \n]|$)", lines[at]))
        if found:
            spot = rng.choice(found)
            old = int(spot.group())
            most = 1_000_000 if rng.random() < 0.97 else 2**40
            new = rng.choice([old + 1, max(0, old - 1), old * 2, old + rng.randrange(100), *NUMBERS])
            if new <= most or old > most or not lines[at].startswith(b"c "):
                text = b"%d" % new if rng.random() < 0.9 else b"%010d" % new
                lines[at] = lines[at][: spot.start()] + text + lines[at][spot.end() :]
    elif kind == 2:
        del lines[at]
    elif kind == 3:
        lines[at:at] = [lines[at]] * rng.choice((1, 2, 20))
    elif kind == 4:
        to = rng.randrange(len(lines))
        lines[at], lines[to] = lines[to], lines[at]
    elif kind == 5:
        rows = other.split(b"\n")
        cut = rng.randrange(len(rows))
        lines[at:at] = rows[cut : cut + rng.choice((1, 2, 5, 100))]
    elif kind == 6:
        fields = lines[at].split(b" ")
        spot = rng.randrange(len(fields))
        others = ([], [b""], [fields[spot]] * 2, [b"%x" % rng.randrange(2**24)], [fields[spot][:-1]], [b"-1"], [b"0x1"])
        fields[spot : spot + 1] = rng.choice(others)
        lines[at] = b" ".join(fields)
    else:
        lines[at] = lines[at][: rng.randrange(len(lines[at]) + 1)] + rng.choice((b"", b" ", b"\0", b"\r", b"0" * 40_000))
    return b"\n".join(lines)


def change_lanes(rng, rows, other):
    """Changes some characters of the three lanes."""
    lane, size = rng.randrange(3), min(map(len, rows))
    at = rng.randrange(size + 1)
    kind = rng.randrange(8)
    if kind == 0:
        for _ in range(rng.choice((1, 2, 5, 50))):
            row = rows[rng.randrange(3)]
            if row:
                row[rng.randrange(len(row))] = rng.choice(MARKED + [rng.randrange(1024)])
    elif kind == 1:
        del rows[lane][at : at + rng.choice((1, 3, 7, 20))]
    elif kind == 2:
        rows[lane][at:at] = [rng.choice(MARKED)] * rng.choice((1, 2, 7, 12, 32))
    elif kind == 3:
        much = rng.choice((1, 2, 12, 32, 600))
        for row in rows:
            row[at:at] = row[at : at + much] * rng.choice((1, 2, 5))
    elif kind == 4:
        cut, much = rng.randrange(min(map(len, other)) + 1), rng.choice((1, 2, 14, 44, 700))
        for row, more in zip(rows, other):
            row[at:at] = more[cut : cut + much]
    elif kind == 5:
        guards = rng.choice(OPENINGS)
        much = rng.choice((1, 2, 8, 12))
        for row, word in zip(rows, guards):
            row[at:at] = [word] * much
    elif kind == 6:
        much = rng.choice((1, 12, 32, 500))
        for row in rows:
            row[at:at] = [rng.choice(TERC4) for _ in range(much)]
    else:
        much = rng.choice((1, 2, 32, 600))
        for row in rows:
            del row[at : at + much]


def slip(rng, bits, count):
    """Drops bits of a lane at one place or at many. Returns the bits and their number."""
    step = rng.choice((0, 0, 130, 1000))
    for place in range(count - 10, 0, -step) if step else [rng.randrange(count + 1)]:
        drop = min(rng.randrange(1, 10), count)
        bits = bits & (1 << place) - 1 | bits >> place + drop << place
        count -= min(drop, max(0, count - place))
    return bits & (1 << count) - 1, count


def change_subframes(rng, data, other):
    """Changes whole subframes or their marks."""
    groups = [data[at : at + 8] for at in range(0, len(data), 8)] or [b""]
    at = rng.randrange(len(groups))
    kind = rng.randrange(4)
    if kind == 0:
        groups[at] = rng.choice((b"\x17", b"\x47", b"\x27", b"\xe8")) + groups[at][1:]
    elif kind == 1:
        del groups[at]
    elif kind == 2:
        cut = rng.randrange(len(other) // 8 + 1) * 8
        groups[at:at] = [other[cut : cut + 8 * rng.choice((1, 2, 384))]]
    else:
        groups[at] = bytes(byte ^ 0xFF for byte in groups[at])
    return b"".join(groups)


def captured(rng, seeds):
    """Makes a capture from changed lanes."""
    rows = [row[:] for row in rng.choice(seeds.lanes)]
    for _ in range(rng.choice((0, 1, 1, 2, 3, 6))):
        change_lanes(rng, rows, rng.choice(seeds.lanes))
        for row in rows:
            del row[20_000:]
    lanes, counts = [], []
    for row in rows:
        data, count = pack(row)
        bits = int.from_bytes(data, "little")
        if rng.random() < 0.5:
            shift = rng.randrange(80)
            bits, count = bits >> shift, max(0, count - shift)
        if rng.random() < 0.2:
            bits, count = slip(rng, bits, count)
        data = bits.to_bytes((count + 7) // 8, "little")
        lanes.append(data)
        counts.append(count)
    return capture(lanes, counts, rng.choice((1, 2)))


def changed(rng, data, others, changes):
    for _ in range(rng.choice((0, 1, 1, 1, 2, 3, 8))):
        data = rng.choice(changes)(rng, data, rng.choice(others))
    return data


def hits(rng):
    places = (0, 10, 20, 110, rng.randrange(130), rng.randrange(130), rng.randrange(300))
    if rng.random() < 0.3:
        places += (rng.randrange(40_000), 2**32 - 1)
    return [f"{rng.randrange(3)}:{rng.choice(places)}:{rng.randrange(1024):03x}" for _ in range(rng.choice((1, 1, 2, 30)))]


def tap(rng):
    words = []
    if rng.random() < 0.3:
        words += ["--offset", str(rng.choice(NUMBERS[:-2]))]
    if rng.random() < 0.3:
        words.append("--skew=" + ",".join(str(rng.choice((0, 1, 35, 70, 71, 4095))) for _ in range(3)))
    if rng.random() < 0.2:
        words += ["--bits", str(rng.choice(NUMBERS[:-2]))]
    if rng.random() < 0.4:
        words.append(f"--version={rng.choice((1, 2))}")
    return words


ODD_WORDS = ("--", "-", "--offset", "--offset=7", "", "link", "dvi", "check", "biphase", "track", "relock", "relay", "4")
ODD_WORDS += ("--skew=1,2", "0:0:000", "é", "\udcff", "x" * 5000)


def spoil(rng, words):
    """Changes the words of a command once."""
    words = words[:]
    at = rng.randrange(len(words) + 1)
    kind = rng.randrange(6)
    if kind == 0 and words:
        del words[at % len(words)]
    elif kind == 1:
        words.insert(at, rng.choice(ODD_WORDS))
    elif kind == 2 and words:
        word = words[at % len(words)]
        spot = rng.randrange(len(word) + 1)
        words[at % len(words)] = word[:spot] + rng.choice(("", "0", ":", ",", "=", "-", "A")) + word[spot + rng.randrange(2) :]
    elif kind == 3:
        rng.shuffle(words)
    elif kind == 4:
        words += words[-1:] * rng.choice((1, 2, 500))
    else:
        words = [word.upper() for word in words]
    return words


def case(seeds, rng):
    """Returns the words and the input of a case. They depend only on the random numbers."""
    name = rng.choice(list(REFUSED))
    words = name.split(" ")
    if name == "make link":
        words += tap(rng)
        text = feeding.listing_of(rng, True) if rng.random() < 0.1 else rng.choice(seeds.listings)
        data = changed(rng, text, seeds.listings + seeds.contents, (change_text, change_text, change_bytes))
    elif name == "make dvi":
        words += tap(rng)
        text = feeding.listing_of(rng, False) if rng.random() < 0.1 else rng.choice(seeds.dvi)
        data = changed(rng, text, seeds.dvi + seeds.listings, (change_text, change_text, change_bytes))
    elif name == "read biphase":
        data = changed(rng, rng.choice(seeds.streams), seeds.streams, (change_subframes, change_bytes))
    elif name == "make content":
        words += tap(rng)
        text = feeding.content_of(rng) if rng.random() < 0.2 else rng.choice(seeds.contents)
        data = changed(rng, text, seeds.listings + seeds.contents, (change_text, change_text, change_bytes))
    else:
        if name == "damage":
            words += hits(rng)
        if name == "slip":
            place = rng.choice((0, 119, 120, rng.randrange(300), rng.randrange(40_000), 2**32 - 1))
            words.append(f"{rng.randrange(3)}:{place}:{rng.randrange(1, 10)}")
        if name == "recover biphase":
            words.append(str(rng.choice((0, 0, rng.randrange(4)))))
        kind = rng.random()
        data = captured(rng, seeds) if kind < 0.6 else feeding.made_capture(rng)[0] if kind < 0.75 else rng.choice(seeds.captures)
        if rng.random() < 0.5:
            data = changed(rng, data, seeds.captures, (change_bytes,))
    if rng.random() < 0.05:
        words = spoil(rng, words)
    return words, data[:2_000_000]


def fed(data, pipe):
    """Writes data into a pipe, in pieces of a size that depends on its length."""
    piece = (1, 7, 4096, 65536)[len(data) % 4] if len(data) < 20_000 else 65_521
    try:
        for at in range(0, len(data), piece):
            os.write(pipe, data[at : at + piece])
    except OSError:
        pass
    os.close(pipe)


def run_once(program, words, data, limit, folder, piped):
    """Returns the status, the output and standard error of a run. The status is None if it takes too long."""
    with open(os.path.join(folder, "out"), "w+b") as out, open(os.path.join(folder, "notes"), "w+b") as notes:
        feeder = None
        if piped:
            given, pipe = os.pipe()
            os.set_inheritable(pipe, False)
        else:
            with open(os.path.join(folder, "in"), "wb") as file:
                file.write(data)
            given = os.open(os.path.join(folder, "in"), os.O_RDONLY)
        process = subprocess.Popen([program, *words], stdin=given, stdout=out, stderr=notes)
        os.close(given)
        if piped:
            feeder = threading.Thread(target=fed, args=(data, pipe))
            feeder.start()
        try:
            status = process.wait(limit)
        except subprocess.TimeoutExpired:
            process.kill()
            process.wait()
            status = None
        if feeder:
            feeder.join()
        out.seek(0)
        notes.seek(0)
        return status, out.read(), notes.read()


def name_of(words):
    name = " ".join(words[:2]) if words[:1] in (["make"], ["recover"], ["read"]) else "".join(words[:1])
    if name not in REFUSED:  # options may stand before the operand
        found = [it for it in REFUSED if it.split(" ")[0] == "".join(words[:1]) and it.split(" ")[-1] in words]
        name = found[0] if found else name
    return name


def wrong_output(name, status, output, notes):
    """Says why the status does not allow the output. None if it does."""
    if status in (2, 7) and output:
        return "there is an output, and the status allows none"
    if name.startswith("make") and status == 3 and output:
        return "there is an output of a refused listing"
    if name.startswith("make") and status == 0 and size_of(output) != len(output):
        return "a capture of a wrong size"
    if name == "damage" and status == 0 and size_of(output) != len(output):
        return "a damaged capture of a wrong size"
    if name == "damage" and status == 3 and notes.startswith(b"input: place") and output:
        return "there is an output of a refused damage"
    if name in ("slip", "relay") and status == 3 and output:
        return "there is an output of a refused capture"
    if name in ("slip", "relay") and status < 3 and size_of(output) != len(output):
        return "a capture of a wrong size"
    if name in ("slip", "relay") and status < 3 and output[3:4] != (b"2" if name == "slip" else b"1"):
        return "a capture of another version"
    if name == "recover biphase":
        return "a stream without its first block, or of a wrong size" if len(output) % 16 or output[:1] not in (b"", b"\x17") else None
    lines = output.split(b"\n")
    if name.startswith(("recover", "read")):
        if output and lines[-1] != b"":
            return "a last line without a line feed"
        if (status in (0, 1)) != (lines[-2:] == [b"end", b""]):
            return "a wrong last line"
        is_whole = name in ("recover link", "recover track", "recover relock", "recover dvi") and status in (0, 1)
        if is_whole and (status == 1) != any(it.startswith(b"! ") for it in lines):
            return "fault lines that do not fit the status"
    if name == "check":
        last = {0: [b"clean", b""], 1: [b"faulty", b""]}.get(status)
        if last and lines[-2:] != last:
            return "a wrong last line"
    return None


def judge(words, answer):
    """Says what is wrong with an answer. None if nothing is."""
    status, output, notes = answer
    if status is None:
        return "it takes longer than the limit"
    if status < 0:
        return f"signal {-status}"
    if status == 2:
        return None if re.fullmatch(USAGE, notes) and not output else "a wrong note or output of status 2"
    name = name_of(words)
    if name not in REFUSED:
        return f"status {status} for words that name no command"
    if status not in STATUSES[name]:
        return f"status {status}"
    wanted = {3: rb"input: (?:" + REFUSED[name] + rb")\n", 7: rb"no alignment\n"}.get(status, b"")
    if not re.fullmatch(wanted, notes):
        return f"a wrong note of status {status}: {notes[:200]!r}"
    return wrong_output(name, status, output, notes)


def tapped(words, columns):
    """Returns the capture of columns that the options of `make` ask for, if `tap` made them."""
    given = dict(re.findall(r"--(\w+)[ =](\S+)", " ".join(words)))
    offset, skews = int(given.get("offset", 0)), [int(it) for it in given.get("skew", "0,0,0").split(",")]
    most, version = int(given.get("bits", 2**32)), int(given.get("version", 1))
    skew_of = skews if version == 2 else [max(skews)] * 3
    rows = [model.sent_bits([column[lane] for column in columns])[offset + skews[lane] :] for lane in range(3)]
    counts = [min(max(0, 10 * len(columns) - offset - skew), most) for skew in skew_of]
    return model.capture_of(version, [row[:count] for row, count in zip(rows, counts)])


def made(words, text):
    """Returns the status and the capture of a listing that the program takes. None if the listing is long."""
    if words[1] == "content":
        mode, frames = rasters.read(text)
        count = sum(mode[:4]) * sum(mode[4:8]) * len(frames)
    else:
        count = sum(map(int, re.findall(rb"(?m)^c .. (\d+)$", text)))
    if count > SMALL:
        return None
    columns = rasters.raster_of(text) if words[1] == "content" else hearing.sent_columns(text, words[1] == "link")
    return 0, tapped(words, columns)


def put_in(words, data):
    """Returns the status and the output of `damage`."""
    lanes = model.lanes_in(data)
    for lane, place, value in (word.split(":") for word in words[1:]):
        row, at = lanes[int(lane)], int(place)
        lanes[int(lane)] = row[:at] + model.sent_bits([int(value, 16)]) + row[at + 10 :]
    return 0, model.capture_of(int(data[3:4]), lanes)


def modelled(words, data):
    """Returns the status and the output by the models. None if they do not know the command."""
    if words == ["read", "biphase"]:
        return model.biphase_text(data)[:2]
    if words[0] == "make":
        return made(words, data)
    if words[0] == "damage":
        return put_in(words, data)
    lanes = model.lanes_in(data)
    if words[0] == "slip":
        lane, place, drop = map(int, words[1].split(":"))
        return 0, model.capture_of(2, model.slipped(lanes, lane, place, drop))
    if words == ["recover", "track"]:
        return model.tracked(lanes, hearing.link_of)
    if words == ["recover", "relock"]:
        return relocking.relocked(lanes, hearing.link_of)
    if words == ["recover", "content", "relock"]:
        return relocking.relocked_content(lanes)
    columns = model.aligned(lanes)
    if columns is None:
        return 7, b""
    if words == ["recover", "dvi"]:
        return model.dvi_text(columns)
    if words == ["recover", "content"]:
        return hearing.content_text(columns)
    status, listing = hearing.link_text(columns)
    if words == ["recover", "link"]:
        return status, listing
    if words[:2] == ["recover", "biphase"]:
        return model.biphase_of(listing, int(words[2]))
    if words == ["relay"]:
        return status, hearing.capture_of_columns(hearing.sent_columns(model.relayed(listing)))
    return hearing.check_text(listing)


HIT = r"[0-2]:\d{1,10}:[0-3][0-9a-f]{2}"
TAP = r"(?: --(?:offset|skew|bits|version)[ =][\d,]+)*"
MODELLED = re.compile(rf"check|relay|read biphase|slip [0-2]:\d{{1,10}}:[1-9]|damage {HIT}(?: {HIT})*|make (?:link|content|dvi){TAP}|"
                      r"recover (?:link|content(?: relock)?|track|relock|dvi|biphase [0-3])")


def unlike_models(words, data, answer):
    """Says what the models find wrong with an answer. None if they agree or are not asked."""
    asked = {"read": (0, 3), "slip": (0,), "damage": (0,), "make": (0,)}.get("".join(words[:1]), (0, 1, 7))
    if len(data) > SMALL or answer[0] not in asked or not MODELLED.fullmatch(" ".join(words)):
        return None
    return None if modelled(words, data) in (None, answer[:2]) else "the models have another answer"


def found_in(program, words, data, limit, folder):
    """Says what is wrong with a case (None if nothing is), and returns its status."""
    first = run_once(program, words, data, limit, folder, False)
    if first[0] is None:
        first = run_once(program, words, data, limit, folder, False)
    second = run_once(program, words, data, limit, folder, True)
    if second[0] is None:
        second = run_once(program, words, data, limit, folder, True)
    found = judge(words, first) or judge(words, second)
    if found is None and first != second:
        found = "the second run has another answer"
    return found or unlike_models(words, data, first), first[0]


def keep(folder, seed, number, words, data):
    os.makedirs(folder, exist_ok=True)
    with open(os.path.join(folder, f"{seed}-{number}.in"), "wb") as file:
        file.write(data)
    with open(os.path.join(folder, f"{seed}-{number}.words"), "w", errors="surrogateescape") as file:
        file.write("\n".join(words))


def options():
    reader = argparse.ArgumentParser(description=__doc__, formatter_class=argparse.RawDescriptionHelpFormatter)
    reader.add_argument("--seconds", type=float, default=60, help="seconds for all cases (default %(default)s)")
    reader.add_argument("--seed", type=int, default=1, help="seed of the cases (default %(default)s)")
    reader.add_argument("--program", default=PROGRAM, help="program to run (default %(default)s)")
    reader.add_argument("--limit", type=float, default=20, help="seconds that a run may take (default %(default)s)")
    reader.add_argument("--first", type=int, default=0, help="number of the first case (default %(default)s)")
    reader.add_argument("--cases", type=int, default=None, help="most cases (default: as many as the time allows)")
    reader.add_argument("--keep", default=None, help="folder for the inputs of findings")
    reader.add_argument("--shrink", action="store_true", help="make the first finding as small as possible")
    return reader.parse_args()


def shrunk(program, seeds, given, folder):
    """Returns the smallest case with a finding that Hypothesis reaches. None if it finds none. Hypothesis draws few bytes for a case, so it
    skips the largest ones."""
    import hypothesis
    from hypothesis import strategies

    def is_found(drawn):
        return found_in(program, *drawn, given.limit, folder)[0] is not None

    drawn = strategies.randoms(use_true_random=False).map(lambda rng: case(seeds, rng))
    words = {"max_examples": given.cases or 1000, "suppress_health_check": hypothesis.HealthCheck.all()}
    often = hypothesis.settings(**words, database=None, deadline=None)
    try:
        return hypothesis.find(drawn, is_found, settings=often, random=random.Random(given.seed))
    except hypothesis.errors.NoSuchExample:
        return None


def shrink(program, seeds, given):
    """Looks for one finding and prints its smallest case. Returns the exit status."""
    with tempfile.TemporaryDirectory() as folder:
        smallest = shrunk(program, seeds, given, folder)
        if smallest is None:
            print(f"seed {given.seed}: no finding")
            return 0
        words, data = smallest
        print(f"seed {given.seed}: {found_in(program, words, data, given.limit, folder)[0]}: {words!r:.300}, {len(data)} bytes")
        if given.keep:
            keep(given.keep, given.seed, "smallest", words, data)
    return 1


def main():
    given = options()
    program = os.path.abspath(given.program)
    if not os.path.isfile(program):
        sys.exit(f"{program}: there is no such program. `./vabgrot` builds it, or --program names one.")
    seeds = Seeds(program)
    if given.shrink:
        return shrink(program, seeds, given)
    ends, findings, number = collections.Counter(), 0, given.first
    start = time.monotonic()
    with tempfile.TemporaryDirectory() as folder:
        while time.monotonic() - start < given.seconds and (given.cases is None or number - given.first < given.cases):
            words, data = case(seeds, random.Random(f"{given.seed} {number}"))
            found, status = found_in(program, words, data, given.limit, folder)
            ends[name_of(words) if status != 2 else "usage", status] += 1
            if found:
                findings += 1
                print(f"seed {given.seed} case {number}: {found}: {words!r:.300}, {len(data)} bytes", flush=True)
                if given.keep:
                    keep(given.keep, given.seed, number, words, data)
            number += 1
    for (name, status), count in sorted(ends.items(), key=str):
        print(f"{name:<16} status {status}: {count}")
    cases, used = number - given.first, sum(os.times()[:4])
    took = f"{time.monotonic() - start:.0f} s, {used:.0f} s of processors"
    print(f"seed {given.seed}: {cases} cases, {2 * cases} executions, {findings} findings, {took}")
    return 1 if findings else 0


if __name__ == "__main__":
    sys.exit(main())
