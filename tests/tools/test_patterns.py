"""Test patterns and the tone of tools/content: they go there and back, and are what their standards say."""

import json
import math

import numpy as np
import pytest

from vabgrot.video.patterns import PATTERNS, sequence

MODE = "32,8,16,64,16,2,2,2,1"


def shift_register(register, count):
    """Bits of x^23 + x^18 + 1, one at a time."""
    bits = [register >> place & 1 for place in range(23)]
    while len(bits) < count:
        bits.append(bits[-23] ^ bits[-18])
    return bits[:count]


def test_the_sequence():
    """It is that of a shift register, and its period is 2^23 - 1."""
    for register in (1, 0x5A5A5, (1 << 23) - 1):
        assert sequence(5000, register).tolist() == shift_register(register, 5000)
    period = (1 << 23) - 1
    bits = sequence(period + 64, 12345)
    assert (bits[:64] == bits[period:]).all() and bits[:period].sum() == 1 << 22


@pytest.mark.parametrize("size", ((640, 480), (33, 17), (1, 1), (3, 2)))
def test_each_pattern_has_its_size(size):
    for name, pattern in PATTERNS.items():
        picture = pattern(*size, 3)
        assert (picture.shape, picture.dtype) == ((size[1], size[0], 3), np.uint8), name


def test_what_they_show():
    """Corners, edges and steps, by hand."""
    bars, ramp, zone = (PATTERNS[name](640, 480, 0) for name in ("bars", "ramp", "zone"))
    assert [tuple(bars[100, 80 * at + 40]) for at in range(8)][:3] == [(255, 255, 255), (255, 255, 0), (0, 255, 255)]
    assert tuple(bars[0, 639]) == (0, 0, 0)
    assert ramp[0, 0].tolist() == [0, 0, 0] and ramp[0, 639].tolist() == [255, 255, 255]
    assert ramp[479, 639].tolist() == [0, 0, 255] and (np.diff(ramp[0, :, 0].astype(int)) >= 0).all()
    assert zone[240, 320].tolist() == [255, 255, 255]
    assert zone[240, 330, 0] == round(127.5 * (1 + math.cos(math.pi * 100 / 640)))
    board = PATTERNS["checkerboard"](640, 480, 0)
    assert board[7, 7, 0] == 255 and board[7, 8, 0] == 0 and board[8, 8, 0] == 255
    one, other = PATTERNS["moving"](640, 480, 0), PATTERNS["moving"](640, 480, 1)
    assert (one[:, :40] == 255).all() and (np.roll(one, 8, axis=1) == other).all()


def test_there_and_back(tool, program, tmp_path):
    """Frames of patterns beside one another, and a tone whose pitch and level come back."""
    words = ["pattern:noise*2", "pattern:moving", "--mode", MODE, "--clock", 200_000, "--sound", "tone:1000@32000"]
    refused = tool("content", *words, status=3)
    assert b"has room for" in refused.stderr
    words[5] = 1_000_000
    words[4] = "--clock"
    content = tool("content", *words).stdout
    path = tmp_path / "a.tmc"
    path.write_bytes(program("make", "content", source=content))
    lines = program("recover", "content", source=path.read_bytes()).decode().splitlines()
    rows = [bytes.fromhex(line[4:]) for line in lines if line.startswith("row ")]
    wanted = [PATTERNS["noise"](32, 16, 0), PATTERNS["noise"](32, 16, 1), PATTERNS["moving"](32, 16, 0)]
    assert rows == [row.tobytes() for picture in wanted for row in picture]
    samples = [int(line.split()[1], 16) for line in lines if line.startswith("s ")]
    values = [value - (value >> 23 << 24) for value in samples]
    peak = (1 << 23) - 1
    for k, value in enumerate(values):
        assert abs(value - 0.5 * peak * math.sin(2 * math.pi * 1000 * k / 32000)) <= 0.5
    assert len(values) > 100


def test_refusals(tool):
    """Names, counts, sizes and tones that there are not."""
    for words in (["pattern:none", "--vic", 1], ["pattern:bars*0", "--vic", 1], ["pattern:bars"]):
        tool("content", *words, status=3)
    for tone in ("tone:x", "tone:0", "tone:30000", "tone:100@12345"):
        tool("content", "pattern:bars", "--mode", MODE, "--sound", tone, status=3)


def test_a_conforming_capture(tool, program, tmp_path):
    """Of VIC 1, with a moving bar; three frames of it last less than 50 ms."""
    content = tool("content", "pattern:moving*3", "--vic", 1).stdout
    (tmp_path / "a.tmc").write_bytes(program("make", "content", source=content))
    said = json.loads(tool("conform", tmp_path / "a.tmc", "--json").stdout)
    assert {one["rule"]: one["verdict"] for one in said["rules"]}["format"] == "pass"
