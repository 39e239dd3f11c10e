"""vabgrot.packets: what packets carry. Bytes and meanings are those of HDMI 1.4, CTA-861 and IEC 60958-3, written out by hand."""

import pytest

from vabgrot.errors import Refused
from vabgrot.packets import Packet, channel_status, clock_numbers, content_of, packet_of

NOTHING = bytes(7)


def packet(header, *bodies):
    each = [bytes.fromhex(body).ljust(7, b"\0") for body in bodies]
    return Packet(bytes.fromhex(header), each + [NOTHING] * (4 - len(each)))


def info(header, payload):
    """An InfoFrame with the right checksum."""
    head, data = bytes.fromhex(header), bytes.fromhex(payload)
    whole = (bytes([-(sum(head) + sum(data)) & 255]) + data).ljust(28, b"\0")
    return Packet(head, [whole[at : at + 7] for at in range(0, 28, 7)])


def test_the_fields_of_a_line():
    fields = ["020311", *(f"{body:02x}" * 7 for body in range(4)), "0" * 32]
    found = packet_of(fields, 9)
    assert (found.kind, found.name, found.header[1:]) == (2, "Audio samples", b"\x03\x11")
    assert found.bytes == bytes(7) + b"\1" * 7 + b"\2" * 7 + b"\3" * 7
    with pytest.raises(Refused, match="line 9: `zz`"):
        packet_of(["zz", *fields[1:]], 9)


@pytest.mark.parametrize("kind, name", [(0x00, "Null"), (0x82, "AVI InfoFrame"), (0x0B, "Packet 0b"), (0xFE, "InfoFrame fe")])
def test_names(kind, name):
    assert Packet(bytes([kind, 0, 0]), [NOTHING] * 4).name == name


def test_a_clock_packet():
    """CTS 27,000 is 006978h and N 6,144 is 001800h (HDMI 1.4, table 5-11); the upper four bits of both are reserved."""
    found = packet("010000", *["00f06978f01800"] * 4)
    assert clock_numbers(found) == (6144, 27000)
    assert content_of(found).faults == [] and ("N", "6144", "") in content_of(found).rows
    assert content_of(packet("010000", *["00006978001800"] * 3, "00006979001800")).faults == ["uneven"]


def test_samples():
    """The present bits are those of HB1, the starts of blocks bits 4 to 7 of HB2; low byte first, and P makes ones even."""
    found = content_of(packet("020310", "563412bc9a7808", "010000ffffff88"))
    assert [(it.left, it.right, it.left_flags, it.right_flags, it.start) for it in found.samples] == [
        (b"\x56\x34\x12", b"\xbc\x9a\x78", 8, 0, True),
        (b"\x01\0\0", b"\xff\xff\xff", 8, 8, False),
    ]
    # 123456h has nine ones, 789abch thirteen, 000001h one, ffffffh 24: with P of 1, 0, 1 and 1 they are 10, 13, 2 and 25.
    assert found.faults == ["parity 0 r", "parity 1 r"]
    assert content_of(packet("021310", "563412bc9a7888")).faults == ["layout"]


@pytest.mark.parametrize("depth, faults", [(0, []), (4, []), (5, ["depth 5"]), (6, ["depth 6"]), (7, ["depth 7"]), (9, ["depth 9"])])
def test_general_control(depth, faults):
    assert content_of(packet("030000", *[f"01{depth:02x}"] * 4)).faults == faults


def test_checksums_and_lengths():
    """An AVI InfoFrame of version 2 has 13 bytes, and all bytes of an InfoFrame sum to 0 (CTA-861, section 6)."""
    right = info("82020d", "10080001")
    assert content_of(right).faults == []
    wrong = Packet(right.header, [bytes([right.bodies[0][0] ^ 1]) + right.bodies[0][1:], *right.bodies[1:]])
    assert content_of(wrong).faults == ["checksum 01" if right.bodies[0][0] % 2 == 0 else "checksum ff"]
    assert content_of(info("82020c", "10080001")).faults == ["length"]


def test_a_channel_status():
    """Consumer use, linear PCM, no copyright asserted (bit 2), channel 1 (bits 20 to 23), 48 kHz (bits 24 to 27: 0100 from the
    lowest on), 16 bits (bits 32 to 35: 0100)."""
    bits = [int(at in (2, 20, 25, 33)) for at in range(192)]
    found = dict(channel_status(bits))
    assert found["use"] == "consumer" and found["samples"] == "linear PCM" and found["copyright"] == "not asserted"
    assert found["channel"] == "1, left" and found["rate"] == "48000 Hz" and found["word"] == "16 bits"
    assert channel_status([1, *bits[1:]]) == [("use", "professional (IEC 60958-4), which is not read")]
