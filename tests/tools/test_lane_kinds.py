"""`lanes look` names what a lane is that has no control periods, and what to do; lanes that are far apart; lanes are made here."""

import json
import random

import pytest

from tests.models.model import capture_of, coded, lanes_in, sent_bits
from tests.models.tables import CONTROL
from tests.tools.test_characters import sent
from tests.tools.test_lanes import pasted

pytest.importorskip("numpy")
DICE = random.Random(5)
# The sub-blocks of 8b/10b at a running disparity of -1, by the value of their five or three bits (Widmer and Franaszek, 1983).
FIVE = """100111 011101 101101 110001 110101 101001 011001 111000 111001 100101 010101 110100 001101 101100 011100 010111
011011 100011 010011 110010 001011 101010 011010 111010 110011 100110 010110 110110 001110 101110 011110 101011""".split()
THREE = "1011 1001 0101 1100 1101 1010 0110 1110".split()


def turned(bits):
    return bits.translate(str.maketrans("01", "10"))


def in_8b10b(count):
    """Random bytes in 8b/10b."""
    below, found = True, []
    for _ in range(count):
        for table, flat in ((FIVE, "111000"), (THREE, "1100")):
            block = DICE.choice(table)
            is_even = 2 * block.count("1") == len(block)
            found.append(block if below or is_even and block != flat else turned(block))
            below ^= not is_even
    return "".join(found)


def pixels(count):
    disparity, words = 0, []
    for _ in range(count):
        words.append(coded(DICE.randrange(256), disparity))
        disparity += 2 * words[-1].bit_count() - 10
    return words


def scrambled(lines):
    """Characters of random bytes in place of all else, and in each fourth line the eight control characters that restart scramblers."""
    words = []
    for line in range(lines):
        words += [DICE.choice(CONTROL) for _ in range(8)] * (line % 4 == 0) + pixels(400)
    return sent_bits(words)


def plain():
    """The lanes of a link that is right."""
    return [sent_bits(lane) for lane in zip(*sent())]


def hurt(bits, rate):
    return "".join("10"[int(bit)] if DICE.random() < rate else bit for bit in bits)


def copied(bits, times):
    """Samples of bits, so many a bit."""
    return "".join(bits[int(at / times)] for at in range(int(len(bits) * times)))


RIGHT = plain()
KINDS = {
    "stuck": (lambda: "0" * 50_000, "stuck: always 0. Check the probe"),
    "stuck with noise": (lambda: hurt("1" * 50_000, 1e-4), "of its bits are 1. Check the probe"),
    "clock": (lambda: "0011111000" * 5000, "the TMDS clock: "),
    "clock with noise": (lambda: hurt("1111100000" * 5000, 1e-3), "the TMDS clock: "),
    "scrambled": (lambda: scrambled(120), "scrambled (HDMI 2.0): TMDS characters from bit 0 on, and at most 8 control"),
    "scrambled with noise": (lambda: hurt(scrambled(120)[7:], 1e-3), "scrambled (HDMI 2.0): TMDS characters from bit 3 on"),
    "3 samples a bit": (lambda: copied(RIGHT[1], 3), "several samples a bit: 3. Keep one sample in 3"),
    "10 samples a bit": (lambda: copied(RIGHT[1], 10), "several samples a bit: 10. "),
    "2.7 samples a bit": (lambda: copied(RIGHT[1], 2.7), "several samples a bit: about 2.7. Give the samples to `tools/slice`"),
    "8b/10b": (lambda: in_8b10b(5000), "8b/10b: no more than five equal bits in a row, as DisplayPort sends. "),
    "8b/10b with noise": (lambda: hurt(in_8b10b(5000), 1e-3), "8b/10b: "),
    "noise": (lambda: "".join(DICE.choices("01", k=50_000)), "noise or another code: no structure of ten bits, a transition at 50%"),
    "a part of a row": (lambda: sent_bits(pixels(3000)), "too short to tell: 30,000 bits of TMDS characters without a control period"),
    "few bits": (lambda: sent_bits(pixels(30)), "too short to tell: 300 bits"),
    "nothing": (lambda: "", "empty: it has no bits"),
}


@pytest.mark.parametrize("name", KINDS)
def test_each_kind_is_named(tool, tmp_path, name):
    """On each lane, with the lane's number and a remedy, in text and as JSON; the other lanes lock."""
    make, says = KINDS[name]
    for number in (1, 2):
        lanes = list(RIGHT)
        lanes[number] = make()
        (tmp_path / "a.tmc").write_bytes(capture_of(2, lanes))
        lines = tool("lanes", "look", tmp_path / "a.tmc", status=1).stdout.decode().splitlines()
        assert lines[number].startswith(f"lane {number}: {len(lanes[number])} bits, no twelve control characters in a row in ")
        assert says in lines[number] and lines[3] == "no alignment: not all lanes lock"
        kinds = json.loads(tool("lanes", "look", tmp_path / "a.tmc", "--json", status=1).stdout)["kinds"]
        assert [kind is None for kind in kinds] == [lane != number for lane in range(3)]
        assert kinds[number]["says"] in lines[number] and kinds[number]["remedy"] in lines[number]


@pytest.mark.parametrize("skew", ["0,80,0", "400,0,0", "0,400,80", "80,0,1000"])
def test_lanes_that_are_far_apart(tool, tmp_path, skew):
    """The skew is told as `make --skew` takes it, and the command that is to be pasted brings the lanes within reach."""
    lanes = ["01" * (int(late) // 2) + lane for lane, late in zip(RIGHT, skew.split(","))]
    path = tmp_path / "a.tmc"
    path.write_bytes(capture_of(2, lanes))
    lines = tool("lanes", "look", path, status=1).stdout.decode().splitlines()
    late = [int(word) for word in skew.split(",")]
    skews = ",".join(str(max(late) - it) for it in late)  # a lane that begins later has fewer bits before it
    assert lines[3].startswith(f"no alignment: at the skew {skews} ") and lines[3].endswith("lanes more than 70 bits apart are not aligned")
    path.write_bytes(pasted(lines[4], tmp_path / "a.again.tmc"))
    assert tool("lanes", "look", path).stdout.decode().splitlines()[3].startswith("right as it is: ")
    assert [len(lane) < len(RIGHT[0]) for lane in lanes_in(path.read_bytes())] == [True] * 3
