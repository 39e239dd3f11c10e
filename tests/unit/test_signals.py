"""How pixels are sent, by the packets of a link: what is told, what is assumed, and what tells nothing. Bytes are those of HDMI 1.4 and
CTA-861, by hand."""

from fractions import Fraction

import numpy as np
import pytest

from vabgrot import making
from vabgrot.packets import Packet
from vabgrot.video.colours import BT601, BT709, BT2020, Encoding, Signal, coloured, packed, unpacked
from vabgrot.video.signals import Signals
from vabgrot.video.weaving import Pair, Weaver, lines_down


def infoframe(version, payload):
    data = bytes.fromhex(payload)
    head = bytes((0x82, version, len(data)))
    return Packet(head, making.bodies_of(bytes([-(sum(head) + sum(data)) % 256]) + data.ljust(27, b"\0")))


def control(depth, phase=0):
    return Packet(bytes((3, 0, 0)), [bytes((0, depth | phase << 4, 0, 0, 0, 0, 0))] * 4)


def reading(*packets, columns=640):
    signals = Signals()
    for packet in packets:
        signals.take_packet(packet)
    return signals.reading(columns)


@pytest.mark.parametrize(
    "payload, signal",
    [
        ("00000800" + "00" * 9, Signal()),
        ("00000400" + "00" * 9, Signal(is_full=False)),
        ("40400000" + "00" * 9, Signal(Encoding.YCC444, BT601, False)),
        ("4080000040" + "00" * 8, Signal(Encoding.YCC444, BT709, True)),
        ("2080000003" + "00" * 8, Signal(Encoding.YCC422, BT709, False, 24, 4)),
        ("40c0600000" + "00" * 8, Signal(Encoding.YCC444, BT2020, False)),
        ("40c0000000" + "00" * 8, Signal(Encoding.YCC444, BT601, False)),
        ("40c0100000" + "00" * 8, Signal(Encoding.YCC444, BT709, False)),
    ],
)
def test_what_an_infoframe_tells(payload, signal):
    """YQ is bits 6 and 7 of PB5; 0 is the limited range."""
    found = reading(infoframe(2, payload))
    assert found.signal == signal and not found.notes


def test_what_tells_nothing():
    """An InfoFrame whose sum or length is wrong, and a depth of 0."""
    wrong = infoframe(2, "40400000" + "00" * 9)
    wrong.bodies[0] = bytes([wrong.bodies[0][0] ^ 1]) + wrong.bodies[0][1:]
    assert reading(wrong).notes == ("no AVI InfoFrame came: the pixels are taken for RGB of full range",)
    assert reading(infoframe(2, "40400000")).notes == reading().notes
    assert reading(infoframe(2, "00000800" + "00" * 9), control(5), control(0)).signal.bits == 30


def test_version_3_has_yet_an_encoding():
    found = reading(infoframe(3, "60" + "00" * 12))
    assert found.signal.is_plain and found.notes[0].startswith("YCbCr 4:2:0 are not converted")


@pytest.mark.parametrize(
    "depth, columns, phase, is_right",
    [
        (5, 800, 0, True),
        (5, 803, 2, True),
        (5, 800, 4, False),
        (6, 960, 2, True),
        (6, 961, 1, False),
        (7, 1280, 1, True),
        (7, 1280, 0, False),
    ],
)
def test_packing_phases(depth, columns, phase, is_right):
    """PP is the phase of the last column, 0 for phase 4: of 800 columns of 30 bits it is 4, of 960 of 36 bits 2, of 1,280 of 48 bits 1."""
    found = reading(infoframe(2, "00000800" + "00" * 9), control(depth, phase), columns=columns)
    assert (not found.notes) == is_right


def test_a_group_of_thirty_bits():
    """HDMI 1.4, section 6.5.2: A 0 to 7; A 8, 9 and B 0 to 5; B 6 to 9 and C 0 to 3; C 4 to 9 and D 0, 1; D 2 to 9."""
    a, b, c, d = 0x2A5, 0x13C, 0x3F0, 0x00F
    wanted = [a & 255, a >> 8 | (b & 63) << 2, b >> 6 | (c & 15) << 4, c >> 4 | (d & 3) << 6, d >> 2]
    samples = np.array([[[it] * 3 for it in (a, b, c, d)]], np.uint16)
    assert packed(samples, 10)[0, :, 0].tolist() == wanted
    assert unpacked(np.array([[[it] * 3 for it in wanted]], np.uint8), 10)[0, :, 1].tolist() == [a, b, c, d]


def test_white_and_black_of_each_range():
    for size in (8, 10, 12, 16):
        for is_full, low, high in ((True, 0, 2**size - 1), (False, 16 << size - 8, 235 << size - 8)):
            columns = packed(np.array([[[low] * 3, [high] * 3]], np.uint16), size)
            most = 255 if size == 8 else 65535
            assert coloured(columns, Signal(is_full=is_full, bits=3 * size)).tolist() == [[[0] * 3, [most] * 3]]


class Field:
    """A field as far as weaving looks at it."""

    def __init__(self, name, down, size=(720, 240)):
        self.name, self.lines_down, self.size = name, down, size


def woven(*fields):
    weaver = Weaver()
    found = [pair for field in fields for pair in weaver.take(field)] + [*weaver.end()]
    return [(it.upper.name, it.lower.name if it.lower else None, it.is_field) for it in found]


def test_weaving():
    """Of the fields of 480i the rows begin 15 and 15.5 lines behind VSYNC."""
    low, high = Fraction(31, 2), Fraction(15)
    assert woven(Field(1, high), Field(2, low), Field(3, high), Field(4, low)) == [(1, 2, False), (3, 4, False)]
    assert woven(Field(1, low), Field(2, high), Field(3, low)) == [(1, None, True), (2, 3, False)]
    assert woven(Field(1, high), Field(2, high)) == [(1, None, False), (2, None, False)]
    assert woven(Field(1, high), Field(2, low), Field(3, None), Field(4, low)) == [
        (1, 2, False),
        (3, None, True),
        (4, None, True),
    ]
    assert woven(Field(1, high), Field(2, low, (720, 239))) == [(1, None, False), (2, None, False)]
    assert woven(Field(1, None)) == [(1, None, False)] and Pair(Field(1, None)).lower is None


def test_lines_down():
    assert lines_down(100, [1000, 1200, 1400]) == Fraction(9, 2)
    for change, firsts in ((None, [1, 2]), (0, [1]), (0, [-1, 2]), (0, [1, -1]), (5, [7, 7])):
        assert lines_down(change, firsts) is None
