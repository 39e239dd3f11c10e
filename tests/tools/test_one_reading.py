"""What every tool says of one capture: slips come first, what the link lost carries no field, and no damage of the link is a fault of the
source."""

import json
import random

import pytest

from tests.heard import events_of, verdict_of
from tests.models.source import CODES, Source, infoframe, text
from vabgrot import verdict
from vabgrot.events import Kind

SMALL = {"across": (64, 16, 96, 80), "down": (16, 2, 2, 6), "vic": 0, "clock": 25_200_000}
COLUMNS = 256 * 26  # of a field of SMALL


def states(found):
    return {one.rule.name: one.state for one in found.rules}


def failed(found):
    return {name for name, state in states(found).items() if state == "fail"}


# ---- packets


def with_lost(lines, header, number, changed):
    """Lines in which one packet with this header came with another body, and with a lost block."""
    its = [at for at, line in enumerate(lines) if line[:2] == ("p", header)]
    events, at = events_of(lines), its[number]
    packet = events.view(int(events.of(Kind.PACKET)[[line[0] for line in lines[:at]].count("p")]))
    name, head, _, *rest = lines[at]
    return [*lines[:at], (name, head, changed, *rest), ("!", "lost", str(packet.first), "0"), *lines[at + 1 :]]


def test_a_lost_packet_does_not_change_the_format():
    """One General Control packet of each field says 24 bits. One that lost a block would say 30."""
    lines = list(Source(control=[(0, (0x10, 0x04))]).lines())
    hurt = with_lost(lines, "030000", 1, "10050000000000")
    one, other = verdict_of(lines), verdict_of(hurt)
    assert [it.size for it in one.timings] == [it.size for it in other.timings] == ["640 pixels, 480 rows, progressive, 3 whole frames"]
    assert failed(one) == failed(other) == set()


class Version3(Source):
    """A source whose AVI InfoFrame has version 3, in which bit 7 of PB1 is a bit of Y."""

    def packets_of(self, number, line):
        found = super().packets_of(number, line)
        return [infoframe(0x82, 3, [*body[1:14]]) if head[0] == 0x82 else (head, body) for head, body in found]


@pytest.mark.parametrize(
    "source, wanted",
    [
        (Source(vic=0x81), {"reserved bits"}),  # bit 7 of PB4
        (Source(reserved=0x80), {"reserved bits"}),  # bit 7 of PB1, in version 2
        (Version3(), set()),
    ],
    ids=["PB4", "PB1", "version 3"],
)
def test_reserved_bits_by_version(source, wanted):
    assert failed(verdict_of(list(source.lines()))) == wanted


class Eight(Source):
    """A source of eight channels: each packet has one sample of four pairs."""

    def samples(self, number, line):
        found = []
        for head, body in super().samples(number, line):
            for place in range(head[1].bit_length()):
                found.append((bytes([2, 0x1F, 0xF0 * (head[2] >> 4 + place & 1)]), self.pairs(self.sent - head[1].bit_length() + place)))
        return found

    def pairs(self, k):
        """The four bodies of a sample: the channels 1 to 8 in pairs."""
        bodies = b""
        for pair in range(4):
            sides = []
            for channel in (2 * pair + 1, 2 * pair + 2):
                value = (k * 4099 + channel) & 0xFFFFFF
                status = 4 | channel << 20 | CODES[self.rate] << 24 | 0b1011 << 32
                bit = status >> k % 192 & 1
                sides.append((value.to_bytes(3, "little"), 4 * bit + 8 * ((value.bit_count() + bit) % 2)))
            bodies += sides[0][0] + sides[1][0] + bytes([sides[0][1] | sides[1][1] << 4])
        return bodies


def test_eight_channels():
    """Right sound of eight channels breaks no rule, and its samples are judged."""
    found = verdict_of(list(Eight(audio=(7, 0, 0, 0x13, 0)).lines()))
    assert failed(found) == set()
    said = states(found)
    assert [said[name] for name in ("sample parity", "block start", "channel status", "samples a line")] == ["pass"] * 4


# ---- captures


@pytest.fixture
def whole(program):
    """Some small fields of a right source."""
    return program("make", "link", "--offset", 1234, "--skew", "0,30,70", source=text(Source(**SMALL, fields=12).lines()))


def test_a_slip_is_said_first(tool, program, whole, tmp_path):
    """Three bits that one lane loses are no bit errors, no rows and no other pictures: each tool says the slip before all else."""
    (tmp_path / "whole.tmc").write_bytes(whole)
    path = tmp_path / "a.tmc"
    path.write_bytes(program("slip", f"1:{10 * 6 * COLUMNS + 1234}:3", source=whole))
    errors = json.loads(tool("errors", path, "--json", status=1).stdout)
    assert errors["wrong_bits"] == errors["rate"] == 0 and errors["notes"][0].startswith("slip: lane 1, ")
    for name in ("timing", "conform", "errors"):
        lines = tool(name, path, status=1).stdout.decode().splitlines()
        assert "slip: lane 1" in lines[0], (name, lines[:3])
    assert "64 pixels, 16 rows, progressive" in tool("timing", path, status=1).stdout.decode()
    lines = tool("compare", tmp_path / "whole.tmc", path, status=1).stdout.decode().splitlines()
    assert lines[0].startswith("a.tmc: slip: lane 1") and sum(": equal, CRC " in line for line in lines) >= 10


@pytest.mark.slow
def test_damage_is_no_fault_of_the_source(tool, program, whole, tmp_path):
    """Of 120 captures of right sources with random damage at most three blame the source."""
    path, bits, blamed = tmp_path / "a.tmc", 10 * 12 * COLUMNS, []
    for number in range(120):
        dice = random.Random(f"right {number}")
        hits = [
            f"{dice.randrange(3)}:{dice.randrange(bits - 2000)}:{dice.randrange(1024):03x}" for _ in range(dice.choice((1, 5, 30, 100)))
        ]
        path.write_bytes(program("damage", *hits, source=whole))
        found = verdict.judge(path)
        if failed(found):
            blamed.append((number, failed(found)))
    assert len(blamed) <= 3, blamed
