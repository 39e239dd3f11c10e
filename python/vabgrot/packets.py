"""Describes packets of data islands in words, with the field names of HDMI 1.4, CTA-861 and IEC 60958-3."""

import builtins
from collections.abc import Callable, Sequence
from dataclasses import dataclass, field
from typing import NamedTuple

from vabgrot import infoframes, listing
from vabgrot.formats.audio import ACCURACY, CODED, WORDS
from vabgrot.formats.layouts import BODIES, LAYOUTS, LENGTH, MOST_LENGTH, VERSION, Type
from vabgrot.formats.layouts import NAMES as NAMES
from vabgrot.formats.modes import VICS
from vabgrot.infoframes import Row

STRICT = {it.header[:2]: it.header[2] for it in LAYOUTS.values() if it.is_strict}  # the lengths that `recover content` requires
SAMPLE = LAYOUTS["samples"].fields
PAIRS = BODIES  # pairs of channels: in layout 1, each body of a packet has one
SHORT = frozenset(
    "format,picture,aspect,range,channels,coding,vendor,product,kind of source,registered to,structure,curve".split(",")
)


class Packet(NamedTuple):
    """A packet as in a `p` line."""

    header: builtins.bytes
    bodies: list[builtins.bytes]

    @property
    def kind(self) -> int:
        """The type."""
        return self.header[0]

    @property
    def name(self) -> str:
        """The name of the type."""
        if self.kind in NAMES:
            return NAMES[self.kind]
        return f"InfoFrame {self.kind:02x}" if self.is_infoframe else f"Packet {self.kind:02x}"

    @property
    def bytes(self) -> builtins.bytes:
        """The bytes from PB0 on."""
        return b"".join(self.bodies)

    @property
    def is_infoframe(self) -> bool:
        """Whether it has a version, a length and a checksum."""
        return self.kind >= Type.INFOFRAMES

    @property
    def version(self) -> int:
        """The version of an InfoFrame."""
        return VERSION.of(self.header)

    @property
    def length(self) -> int:
        """The number of bytes after PB0, as an InfoFrame gives it."""
        return LENGTH.of(self.header)

    @property
    def total(self) -> int:
        """The sum of an InfoFrame's bytes modulo 256; 0 if it is right."""
        return sum(self.header) + sum(self.bytes[: self.length + 1]) & 255

    @property
    def numbers(self) -> dict[str, int]:
        """The values of its fields. Empty if its type, its version or its length is not known."""
        layout = infoframes.layout_of(self.header, self.bytes)
        return infoframes.numbers_of(layout, self.header, self.bytes) if layout else {}

    def number(self, name: str) -> int:
        """Returns the value of a field. An InfoFrame with an unknown version is read as the next lower known version."""
        form = infoframes.form_of(self.header)
        if form is None:
            raise KeyError(name)
        return infoframes.number_in(form.fields[name], self.header, self.bytes)


class Sample(NamedTuple):
    """A sample of two channels: three bytes a side, low byte first; V, U, C and P of each; whether a block starts; and the pair of
    channels (0 is channels 1 and 2)."""

    left: bytes
    right: bytes
    left_flags: int
    right_flags: int
    start: bool
    pair: int = 0

    def uneven(self) -> list[str]:
        """The sides (l, r) with odd parity."""
        sides = (("l", self.left, self.left_flags), ("r", self.right, self.right_flags))
        return [name for name, value, flags in sides if (int.from_bytes(value, "little").bit_count() + flags.bit_count()) % 2]


@dataclass
class Content:
    """The content of a packet: in words, as fields of its InfoFrame, as samples, and as fault lines. `pairs` are the samples of layout 1,
    one for each pair of channels that is present."""

    words: str
    rows: list[Row] = field(default_factory=list)
    samples: list[Sample] = field(default_factory=list)
    faults: list[str] = field(default_factory=list)
    pairs: list[Sample] = field(default_factory=list)


def packet_of(fields: Sequence[str], line: int) -> Packet:
    """Returns a packet, given the fields of a `p` line. With an empty last field it accepts those of a `packet` line."""
    header, *bodies, _ = fields
    parts = [listing.digits(part, size, line) for part, size in zip((header, *bodies), (3, 7, 7, 7, 7))]
    return Packet(parts[0], parts[1:])


def content_of(packet: Packet) -> Content:
    """Returns the content of a packet without a lost block."""
    if packet.is_infoframe:
        return infoframe(packet)
    reader = READERS.get(packet.kind)
    return reader(packet) if reader else Content(f"{packet.header.hex()} {' '.join(body.hex() for body in packet.bodies)}")


def clock(packet: Packet) -> Content:
    """Reads a clock regeneration packet."""
    if any(body != packet.bodies[0] for body in packet.bodies):
        return Content("its four copies are not alike", faults=["uneven"])
    rows = rows_of(packet)
    return Content(", ".join(f"{row.name} {row.value}" for row in rows), rows)


def clock_numbers(packet: Packet) -> tuple[int, int]:
    """Returns N and CTS."""
    return packet.number("N"), packet.number("CTS")


def bits_of(number: int) -> list[int]:
    """Returns which of four bits are set, such as those for the bodies that are present."""
    return [place for place in range(BODIES) if number >> place & 1]


def samples(packet: Packet) -> Content:
    """Reads a packet of samples. Layout 0 has up to four samples of two channels, layout 1 has one of up to eight (HDMI 1.4, section
    5.3.4)."""
    present, flat = SAMPLE["sample_present"].of(packet.header), SAMPLE["sample_flat"].of(packet.header)
    found = samples_of(packet)
    behind = ", a block starts" * any(sample.start for sample in found)
    behind += f", {(present & flat).bit_count()} flat" * bool(present & flat)
    if SAMPLE["layout"].of(packet.header):
        channels = " and ".join(f"{2 * sample.pair + 1}, {2 * sample.pair + 2}" for sample in found)
        words = f"1 sample of more than two channels: {channels or 'none'}"
        return Content(words + behind, faults=["layout"], pairs=found)
    words = f"{len(found)} sample{'s' * (len(found) != 1)} of two channels"
    faults = [f"parity {number} {side}" for number, sample in zip(bits_of(present), found) for side in sample.uneven()]
    return Content(words + behind, samples=found, faults=faults)


def samples_of(packet: Packet) -> list[Sample]:
    """Returns the samples in those bodies that are present."""
    present, starts, is_wide = (SAMPLE[name].of(packet.header) for name in ("sample_present", "B", "layout"))
    return [sample_of(packet.bodies[number], bool(starts >> number & 1), number * is_wide) for number in bits_of(present)]


def sample_of(body: bytes, start: bool, pair: int) -> Sample:
    """Returns the sample in a body."""
    left, right, left_flags, right_flags = (SAMPLE[name] for name in ("left", "right", "left VUCP", "right VUCP"))
    return Sample(body[left.byte : left.end], body[right.byte : right.end], left_flags.of(body), right_flags.of(body), start, pair)


def one_bit(packet: Packet) -> Content:
    """Reads a packet of One Bit Audio samples (HDMI 1.4, section 5.3.9)."""
    present, layout, invalid = (packet.number(name) for name in ("samples_present", "layout", "samples_invalid"))
    words = f"One Bit Audio: {present.bit_count()} of four bodies, layout {layout}, {(present & invalid).bit_count()} not valid"
    return Content(words)


def dst(packet: Packet) -> Content:
    """Reads a packet of DST audio (HDMI 1.4, section 5.3.10)."""
    starts, invalid = packet.number("frame_start"), packet.number("samples_invalid")
    return Content(f"DST audio{', a frame starts' * starts}{', not valid' * invalid}")


def high_rate(packet: Packet) -> Content:
    """Reads a packet of high bit rate audio (HDMI 1.4, section 5.3.11)."""
    return Content(f"high bit rate audio (IEC 61937), four frames{', a block starts' * bool(packet.number('B'))}")


def described(packet: Packet) -> Content:
    """Reads a packet that is described by rows."""
    rows = rows_of(packet)
    return Content(", ".join(f"{row.name} {row.value}" for row in rows[:3]), rows)


def control(packet: Packet) -> Content:
    """Reads a General Control packet."""
    depth, rows = packet.number("CD"), rows_of(packet)
    mute = "leaves mute" if rows[0].value == "as it is" else rows[0].value
    return Content(f"{mute}, {rows[1].value}", rows, faults=[] if depth in (0, 4) else [f"depth {depth}"])


def infoframe(packet: Packet) -> Content:
    """Reads an InfoFrame."""
    length, total = packet.length, packet.total
    if length != STRICT.get((packet.kind, packet.version), length) or length > MOST_LENGTH:
        return Content(f"a length of {length}, which is wrong", faults=["length"])
    if total:
        return Content(f"a checksum that leaves {total:02x}", faults=[f"checksum {total:02x}"])
    rows = rows_of(packet)
    if not rows:
        payload = packet.bytes[1 : length + 1].hex()
        rows = [Row("version", str(packet.version)), Row("payload", payload)]
        return Content(f"version {packet.version}: {payload or 'no payload'}", rows)
    if packet.kind == Type.VENDOR:
        return Content(f"{rows[0].value}: {', '.join(row.value for row in rows[1:])}", rows)
    return Content(", ".join(row.value for row in rows if row.name in SHORT) or rows[0].value, rows)


def rows_of(packet: Packet) -> list[Row]:
    """Returns the rows of a packet. It returns none if the fields are not known, or if an InfoFrame's length or checksum is wrong."""
    layout = infoframes.layout_of(packet.header, packet.bytes)
    return infoframes.rows_of(layout, packet.header, packet.bytes) if layout else []


READERS: dict[int, Callable[[Packet], Content]] = {
    **{Type.NULL: lambda _: Content("nothing"), Type.CLOCK: clock, Type.SAMPLES: samples, Type.CONTROL: control},
    **{Type.ONE_BIT: one_bit, Type.DST: dst, Type.HIGH_RATE: high_rate},
    **dict.fromkeys((Type.PROTECTION, Type.ISRC1, Type.ISRC2, Type.GAMUT, Type.EXTENDED), described),
}


def channel_status(bits: Sequence[int]) -> list[tuple[str, str]]:
    """Describes the 192 bits of a channel status (IEC 60958-3) in words."""

    def number(first: int, count: int) -> int:
        return sum(bits[first + place] << place for place in range(count))

    if bits[0]:
        return [("use", "professional (IEC 60958-4), which is not read")]
    rate, channel = number(24, 4), number(20, 4)
    size = WORDS.get((bits[32], number(33, 3)))
    emphasis = {0: "no emphasis", 1: "50/15 µs emphasis"}.get(number(3, 3), "reserved emphasis")
    return [
        ("use", "consumer"),
        ("samples", "not linear PCM" if bits[1] else "linear PCM"),
        ("copyright", "not asserted" if bits[2] else "asserted"),
        ("emphasis", emphasis if not bits[1] else "none told"),
        ("category", f"code {number(8, 8):02x}"),
        ("channel", {0: "not told", 1: "1, left", 2: "2, right"}.get(channel, str(channel))),
        ("rate", "not told" if rate == 1 else f"{CODED[rate]} Hz" if rate in CODED else f"code {rate}"),
        ("clock", ACCURACY[number(28, 2)]),
        ("word", f"{size} bits" if size else "length not told"),
    ]


def is_other_size(vic: int, width: int, height: int) -> bool:
    """Returns whether a frame's size differs from that of a known video identification code."""
    return vic in VICS and VICS[vic].mode.size != (width, height)
