#!/usr/bin/python3
"""Makes the captures of this folder. They are the same each time, because each random number comes from a fixed seed.

    examples/captures/make.py [DIR]     writes them into DIR (default: this folder)

README.md of this folder says what is wrong with each of them."""

import argparse
import io
import lzma
import random
import subprocess
import sys
from collections.abc import Iterator
from pathlib import Path

HERE = Path(__file__).resolve().parent
TOP = HERE.parents[1]
sys.path.insert(0, str(TOP / "python"))

from vabgrot import capture, program  # noqa: E402
from vabgrot.formats.characters import ISLAND_GUARD, ISLAND_PREAMBLE, PACKET, TEN, TERC4  # noqa: E402

SMALL = "96,16,16,32,40,4,3,8,1"  # a mode of 96 x 40 pixels, which leaves room for the packets of the sound
FRAMES = 2
TAP = ("--offset", "3", "--skew", "0,17,35")  # where a capture begins in a character, and how far its lanes are apart
VGA = "640,8,96,56,480,10,2,33,0"  # 640 x 480 whose front porch has 8 columns instead of 16, and its back porch 56 instead of 48
DAMAGED, BURST = 60, 40  # single damaged characters, and those of a burst
SLIP_AT, SLIPPED = 140_000, 3  # the place of lane 1 where bits are lost, and how many

Columns = list[list[int]]  # the characters of each lane


def ran(words: list[str], given: bytes = b"") -> bytes:
    done = subprocess.run(words, input=given, capture_output=True, check=False)
    if done.returncode not in (0, 1):
        sys.exit(f"make.py: {' '.join(words)} ended with status {done.returncode}: {done.stderr.decode().strip()}")
    return done.stdout


def vabgrot(*words: str, given: bytes) -> bytes:
    return ran([str(program.find()), *words], given)


def content(*words: str) -> bytes:
    return ran([str(TOP / "tools/content"), *words])


def clean(*tap: str) -> bytes:
    """Two frames with sound, without a fault."""
    listing = content(f"pattern:bars*{FRAMES}", "--mode", SMALL, "--sound", "tone:1000")
    return vabgrot("make", "content", *tap, given=listing)


def marginal() -> bytes:
    """Single damaged characters, mostly on lane 2, and one burst, as from a bad cable."""
    some, data = random.Random(1), clean(*TAP)
    most = capture.header_of(data)[0][0] // TEN - 1
    places = {(2 if some.random() < 0.8 else some.randrange(2), TEN * some.randrange(100, most)) for _ in range(DAMAGED)}
    start = TEN * some.randrange(most // 2, most - BURST)
    places |= {(2, start + TEN * at) for at in range(BURST)}
    return vabgrot("damage", *(f"{lane}:{place}:{some.randrange(1 << TEN):03x}" for lane, place in sorted(places)), given=data)


def slip() -> bytes:
    """Lane 1 loses three bits within the second frame."""
    return vabgrot("slip", f"1:{SLIP_AT}:{SLIPPED}", given=clean(*TAP))


def swapped() -> bytes:
    """Lanes 0 and 1 are exchanged, as by a wrong connection."""
    lanes, counts = capture.lanes_of(clean(*TAP))
    return captured([lanes[1], lanes[0], lanes[2]], [counts[1], counts[0], counts[2]])


def porches() -> bytes:
    """A frame of 640 x 480 with wrong porches, which the AVI InfoFrame calls VIC 1."""
    return vabgrot("make", "content", given=content(f"pattern:bars*{FRAMES}", "--mode", VGA, "--packet", "avi:VIC=1"))


def encrypted() -> bytes:
    """Pixels and packets are mixed with random bits, as HDCP does. Control periods, guard bands and the syncs are not."""
    some = random.Random(2)
    listing = vabgrot("recover", "link", given=clean())
    lines = [mixed_row(line, some) if line.startswith(b"v ") else line for line in listing.splitlines(keepends=True)]
    columns = characters_of(vabgrot("make", "link", given=b"".join(lines)))
    for at in packet_columns(columns):
        for lane, mask in enumerate((1 << 2, 15, 15)):
            columns[lane][at] = TERC4[TERC4.index(columns[lane][at]) ^ some.randrange(16) & mask]
    return of_characters(columns)


def mixed_row(line: bytes, some: random.Random) -> bytes:
    row = bytes.fromhex(line[2:].decode())
    return b"v " + bytes(byte ^ some.randrange(256) for byte in row).hex().encode() + b"\n"


def packet_columns(columns: Columns) -> Iterator[int]:
    """The columns of packets: those between the guard bands of an island, which has two columns of each."""
    green, red, guard = columns[1], columns[2], [ISLAND_GUARD] * 2
    at = 1
    while at < len(green):
        if (green[at - 1], red[at - 1]) == ISLAND_PREAMBLE and green[at : at + 2] == guard == red[at : at + 2]:
            at += 2
            while green[at : at + 2] != guard:
                yield from range(at, at + PACKET)
                at += PACKET
        at += 1


def characters_of(data: bytes) -> Columns:
    """The characters of a capture whose lanes begin with a whole one."""
    lanes, counts = capture.lanes_of(data)
    numbers = [int.from_bytes(lane, "little") for lane in lanes]
    return [[number >> at & (1 << TEN) - 1 for at in range(0, count, TEN)] for number, count in zip(numbers, counts)]


def of_characters(columns: Columns) -> bytes:
    lanes = []
    for lane in columns:
        bits = "".join(f"{word:0{TEN}b}"[::-1] for word in lane)
        lanes.append(bytearray(int(bits[at : at + 8][::-1], 2) for at in range(0, len(bits), 8)))
    return captured(lanes, [TEN * len(lane) for lane in columns])


def captured(lanes: list[bytearray], counts: list[int]) -> bytes:
    """A capture of lanes of one length."""
    out = io.BytesIO()
    capture.write(out, [io.BytesIO(lane) for lane in lanes], counts[:1])
    return out.getvalue()


MADE = {
    "clean.tmc": lambda: clean(*TAP),
    "marginal.tmc": marginal,
    "slip.tmc": slip,
    "swapped.tmc": swapped,
    "porches.tmc.xz": lambda: lzma.compress(porches(), preset=9),
    "encrypted.tmc": encrypted,
}


def main() -> int:
    parser = argparse.ArgumentParser(description=__doc__, formatter_class=argparse.RawDescriptionHelpFormatter)
    parser.add_argument("folder", metavar="DIR", type=Path, nargs="?", default=HERE, help="the folder of the captures")
    args = parser.parse_args()
    for name, make in MADE.items():
        data = make()
        (args.folder / name).write_bytes(data)
        print(f"{name}: {len(data):,} bytes")
    return 0


if __name__ == "__main__":
    sys.exit(main())
