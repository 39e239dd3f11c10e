"""tools/packets: each packet of a listing, in a table and in a pcap file, with what was mended and lost; and Wireshark's dissector."""

import csv
import io
import os
import random
import shutil
import struct
import subprocess
import sys
from collections import Counter
from fractions import Fraction

import numpy as np
import pytest

from tests.support import HANGS, TOP
from tests.tools.live import bits_of, blocks, times
from vabgrot.content import packet_of, packets_in
from vabgrot.flow import dissector, islands
from vabgrot.formats.characters import TERC4
from vabgrot.formats.layouts import LAYOUTS, Type
from vabgrot.infoframes import layout_of, numbers_of

PACKETS = [sys.executable, str(TOP / "tools" / "packets")]
LUA = TOP / "share" / "wireshark" / "vabgrot.lua"
COLUMNS, FRAMES = 1800, 3  # of a frame of the bars, and frames
WHOLE = 10 * COLUMNS * FRAMES
MADE = 4  # packets of each layout
HEAD, RECORD = 24, 16  # bytes of a pcap file's head and of a record's
NEEDS_TSHARK = pytest.mark.skipif(not shutil.which("tshark"), reason="Debian's package tshark is missing")


@pytest.fixture
def bars(program):
    return program("make", "content", source=(TOP / "examples" / "bars.content").read_bytes())


def ran(source, *words, status=0):
    """The output and the notes of the tool."""
    came = subprocess.run([*PACKETS, *map(str, words)], input=source, capture_output=True, timeout=HANGS)
    assert came.returncode == status and b"Traceback" not in came.stderr, came.stderr.decode()
    return came.stdout, came.stderr.decode()


def rows_of(source, *words, status=0):
    """The rows of its table."""
    return [*csv.DictReader(io.StringIO(ran(source, *words, "--csv", "-", status=status)[0].decode()))]


def listed(listing):
    """The bytes of each packet of a link listing, and which of them have a lost and a mended block."""
    found, lost, mended = [], [], []
    for line in listing.decode().splitlines():
        words = line.split()
        if words[0] == "p":
            found.append("".join(words[1:6]))
        elif words[:2] == ["!", "lost"]:
            lost.append(len(found) - 1)
        elif words[:2] == ["!", "mended"]:
            mended.append(len(found) - 1)
    return found, sorted(set(lost)), sorted(set(mended))


def records(data):
    """The records of a pcap file: nanoseconds and bytes."""
    at, found = HEAD, []
    while at < len(data):
        seconds, nanoseconds, size, length = struct.unpack_from("<4I", data, at)
        assert size == length == dissector.HEAD_BYTES + 31
        found.append((seconds * 10**9 + nanoseconds, data[at + RECORD : at + RECORD + size]))
        at += RECORD + size
    return found


def test_a_clean_capture(receives, program, bars, tmp_path):
    """As the listing has it, from a file, standard input, and raw blocks; the times are those of the columns."""
    wanted, _, _ = listed(program("recover", "link", source=bars))
    (tmp_path / "a.tmc").write_bytes(bars)
    rows = rows_of(bars)
    assert [row["bytes"] for row in rows] == wanted and rows == rows_of(b"", tmp_path / "a.tmc")
    assert rows == rows_of(blocks(bits_of(bars)), "--raw")
    assert {row["lost"] + row["mended"] for row in rows} == {""} and {row["damaged"] for row in rows} == {"0"}
    assert [float(row["seconds"]) for row in rows] == pytest.approx([int(row["column"]) / 25_200_000 for row in rows], abs=1e-9)
    avis = [row for row in rows if row["name"] == "AVI InfoFrame"]
    assert [row["interval"] for row in avis] == ["", "0.000071429", "0.000071429"] and "VIC=0" in avis[0]["fields"]
    text = ran(bars)[0].decode()
    assert "AVI InfoFrame: RGB, no video identification code" in text and "Audio clock: N 6144, CTS 25200" in text
    assert text.splitlines()[-1].split()[:4] == ["84", "Audio", "InfoFrame", "3"]


def flipped(data, lane, *columns):
    """Words of `damage` that turn over the lowest bit of characters of a packet."""
    bits = bits_of(data)[lane]
    for column in columns:
        word = sum(int(bit) << place for place, bit in enumerate(bits[10 * column : 10 * column + 10]))
        yield f"{lane}:{10 * column}:{TERC4[TERC4.index(word) ^ 1]:03x}"


def hurt_of(program, bars):
    """A capture with a mended block in its first packet, and a lost one in its second."""
    return program("damage", *flipped(bars, 2, 20), *flipped(bars, 1, 50, 52), source=bars)


def test_mended_and_lost(receives, program, bars):
    """One wrong bit of a block, and more; a lost packet says nothing."""
    hurt = hurt_of(program, bars)
    octets, lost, mended = listed(program("recover", "link", source=hurt, status=1))
    assert lost and mended
    rows = rows_of(hurt, status=1)
    assert [row["bytes"] for row in rows] == octets
    assert [at for at, row in enumerate(rows) if row["lost"]] == lost and [at for at, row in enumerate(rows) if row["mended"]] == mended
    assert all((not row["says"]) == bool(row["lost"]) for row in rows)
    text = ran(hurt, status=1)[0].decode()
    assert text.count(" [lost]") == len(lost) and text.count("[mended]") == len(mended)


def test_a_pcap_file(receives, program, bars):
    """Its records are the packets."""
    wanted, _, _ = listed(program("recover", "link", source=bars))
    data, _ = ran(bars, "--pcap", "-")
    its = records(data)
    assert struct.unpack_from("<IHHiIII", data) == (0xA1B23C4D, 2, 4, 0, 0, 65_535, 147)
    assert [octets[dissector.HEAD_BYTES :].hex() for _, octets in its] == wanted
    columns = [struct.unpack_from(">Q", octets)[0] for _, octets in its]
    assert [time for time, _ in its] == pytest.approx([column * 10**9 / 25_200_000 for column in columns], abs=1)


def test_a_growing_file(receives, bars, tmp_path):
    """--follow waits until the capture is whole."""
    path = tmp_path / "a.tmc"
    path.write_bytes(bars[:9000])
    with subprocess.Popen([*PACKETS, path, "--follow", "--csv", "-"], stdout=subprocess.PIPE, stderr=subprocess.PIPE) as process:
        with open(path, "ab") as file:
            file.write(bars[9000:])
        out, says = process.communicate(timeout=HANGS)
    assert process.returncode == 0 and out == ran(bars, "--csv", "-")[0], says


def test_what_it_refuses(receives, bars):
    """Two files for one output, no capture, and no packets."""
    assert "only one" in ran(bars, "--csv", "-", "--pcap", "-", status=3)[1]
    assert "not a capture" in ran(b"what", status=3)[1]
    for option in ("--csv", "--pcap"):
        assert ran(bars, option, "/dev/full", status=3)[1] == "packets: /dev/full: No space left on device\n"


def test_the_dissector_is_current():
    """The file in the repository is what the tool makes."""
    assert LUA.read_text("utf-8") == dissector.lua()


def made_packets():
    """Random packets of each layout, their bytes."""
    rng, found = random.Random("dissector"), []
    for layout in LAYOUTS.values():
        for _ in range(MADE):
            header, data = bytearray(layout.header), bytearray(rng.randbytes(28))
            if layout.header[0] > Type.CONTROL and not layout.is_infoframe:
                header[1:] = rng.randbytes(2)
            for name, number in layout.where.items():
                layout.all_fields[name].put(data, number)
            if layout.is_infoframe:
                data[0] = 0
                data[0] = -sum(header) - sum(data[: header[2] + 1]) & 255
            found.append(bytes(header + data))
    return found


def tshark(path, *words):
    """The lines of tshark."""
    env = os.environ | {"HOME": str(path.parent)}
    came = subprocess.run(["tshark", "-X", f"lua_script:{LUA}", "-r", path, *words], capture_output=True, text=True, env=env, timeout=HANGS)
    assert came.returncode == 0, came.stderr
    return came.stdout.splitlines()


@NEEDS_TSHARK
def test_the_fields_of_each_layout(compare, tmp_path):
    """tshark reads the numbers that the table of fields gives."""
    each = made_packets()
    count, path = len(each), tmp_path / "a.pcap"
    zeros = np.zeros(count, np.int64)
    made = packets_in([packet_of(it) for it in each])
    its = islands.Islands(made, zeros, np.arange(count), zeros, zeros.astype(np.uint8))
    path.write_bytes(islands.pcap_head() + islands.pcap_records(its, Fraction(1)))
    names = {id(layout): name for name, layout in LAYOUTS.items()}
    wanted, keys = [], {}
    for packet in each:
        layout = layout_of(packet[:3], packet[3:])
        numbers = numbers_of(layout, packet[:3], packet[3:]) if layout else {}
        wanted.append({dissector.key_of("vabgrot", names[id(layout)], name): str(number) for name, number in numbers.items()})
        keys |= dict.fromkeys(wanted[-1])
    fields = [word for key in keys for word in ("-e", key)]
    lines = tshark(path, "-T", "fields", "-E", "occurrence=f", *fields)

    def cases():
        for number, (line, numbers) in enumerate(zip(lines, wanted)):
            yield number, {key: text for key, text in zip(keys, line.split("\t")) if text}, numbers

    compare(cases())
    assert len(lines) == count


@NEEDS_TSHARK
def test_tshark_counts_as_the_listing(receives, program, bars, tmp_path):
    """Each type, and lost and mended packets, of a damaged capture that was sent again and again."""
    hurt = hurt_of(program, bars)
    path = tmp_path / "a.pcap"
    ran(blocks(times(bits_of(hurt, WHOLE), 5)), "--raw", "--pcap", path, status=1)
    octets, lost, mended = listed(program("recover", "link", source=hurt, status=1))
    kinds = Counter(f"0x{one[:2]}" for one in octets)
    assert Counter(tshark(path, "-T", "fields", "-e", "vabgrot.type")) == {kind: 5 * count for kind, count in kinds.items()}
    assert len(tshark(path, "-Y", "vabgrot.lost > 0")) == 5 * len(lost)
    assert len(tshark(path, "-Y", "vabgrot.mended > 0")) == 5 * len(mended)
