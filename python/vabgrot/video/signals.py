"""Determines how a source sends its pixels, from its AVI InfoFrames and General Control packets, and what to assume if they do not say
it."""

from collections.abc import Mapping
from dataclasses import dataclass, field

import numpy as np

from vabgrot import making
from vabgrot.content import Packets
from vabgrot.formats import modes
from vabgrot.formats.layouts import Type
from vabgrot.formats.names import EXTENDED
from vabgrot.packets import Packet
from vabgrot.video.colours import BT601, BT709, BT2020, DEPTHS, Encoding, Matrix, Signal

PHASES = {24: 1, 30: 5, 36: 3, 48: 2}  # the columns of a group of pixels (HDMI 1.4, section 6.5.2)
BY_EXTENDED = {0: BT601, 1: BT709, 2: BT601, 3: BT601, 6: BT2020}  # the matrix by EC of an AVI InfoFrame
HD = 1280  # pixels of a row; a format at least this wide is high definition
NOT_CONVERTED = "the bytes of the lanes are shown as red, green and blue"
TOLD = "S B A Y R M C SC Q EC ITC VIC PR top bottom left right".split()  # the fields of an `avi` line of a content listing
Avi = Mapping[str, int]  # the numbers of an AVI InfoFrame; YQ and CN only where they are known


@dataclass(frozen=True)
class Rendering:
    """How to read the rows of a frame, and in words what had to be assumed."""

    signal: Signal
    notes: tuple[str, ...] = ()


@dataclass
class Signals:
    """Takes InfoFrames and General Control packets, and says how the rows of a frame that ends after them are sent. With DVI
    `has_packets` is False: pixels are RGB with 24 bits."""

    has_packets: bool = True
    avi: Avi | None = None
    depth: int | None = None  # CD of the last General Control packet with a depth
    phase: int | None = None  # PP of that packet, None if not known
    odd: set[str] = field(default_factory=set)

    def take_packet(self, packet: Packet) -> None:
        """Takes a packet without a lost block. It is ignored if its length or checksum is wrong."""
        if packet.kind == Type.CONTROL:
            self.take_control(packet.number("CD"), packet.number("PP"))
        elif packet.kind == Type.AVI and not packet.total:
            self.avi = packet.numbers or self.avi

    def take_packets(self, packets: Packets) -> None:
        """Takes packets. Those with a lost block are ignored."""
        which = ~packets.lost & np.isin(packets.kind, (Type.AVI, Type.CONTROL))
        for packet in packets[which]:
            self.take_packet(packet)

    def take_control(self, depth: int, phase: int | None = None) -> None:
        """Takes CD and PP of a General Control packet. A CD of 0 means "no depth given" and changes nothing."""
        if depth:
            self.depth, self.phase = depth, phase

    def take_line(self, name: str, numbers: list[int]) -> None:
        """Takes an `avi` or a `gcp` line of a content listing. Such lines contain neither YQ, CN nor PP."""
        if name == "gcp":
            self.take_control(numbers[2])
            return
        self.avi = dict(zip(TOLD, numbers))

    def take_info(self, kind: int, version: int, payload: bytes) -> None:
        """Takes an `info` line of a content listing."""
        if kind == Type.AVI:
            self.avi = making.infoframe(kind, version, payload).numbers or self.avi

    def reading(self, columns: int) -> Rendering:
        """Says how to read rows that are `columns` columns wide."""
        notes: list[str] = []
        bits = self._bits(notes)
        if self.avi is None:
            if self.has_packets:
                notes.append("no AVI InfoFrame came: the pixels are taken for RGB of full range")
            return Rendering(Signal(bits=bits), tuple(notes))
        signal = self._signal(self.avi, bits, columns, notes)
        self._judge_phase(signal, columns, notes)
        return Rendering(signal, tuple(notes))

    def _bits(self, notes: list[str]) -> int:
        if self.depth is not None and self.depth not in DEPTHS:
            notes.append(f"the depth {self.depth} of a general control packet is reserved: 24 bits are taken")
        return DEPTHS.get(self.depth or 4, 24)

    def _signal(self, avi: Avi, bits: int, columns: int, notes: list[str]) -> Signal:
        if avi["Y"] > Encoding.YCC444:
            name = "YCbCr 4:2:0" if avi["Y"] == Encoding.YCC420 else f"pixels of the encoding {avi['Y']}"
            notes.append(f"{name} are not converted: {NOT_CONVERTED}")
            return Signal(bits=bits)
        encoding = Encoding(avi["Y"])
        times = avi["PR"] + 1 if avi["PR"] < 10 else 1
        if encoding == Encoding.RGB:
            is_limited = avi["Q"] == 1
            if avi["Q"] == 0 and avi["VIC"] > 1:
                notes.append("RGB of the default range, which CTA-861 makes the limited one here, is shown as it was sent")
            return Signal(encoding, None, not is_limited, bits, times)
        if encoding == Encoding.YCC422:
            bits = 24
        plain = Signal(encoding, None, True, bits, times)
        matrix = self._matrix(avi, plain.pixels(columns), notes)
        if matrix is None:
            return Signal(bits=bits, times=times)
        return Signal(encoding, matrix, self._is_full(avi, notes), bits, times)

    @staticmethod
    def _matrix(avi: Avi, width: int, notes: list[str]) -> Matrix | None:
        """Returns the matrix that the colorimetry names. If none is given, it is the one that CTA-861 has for the size. Returns None if
        the colours are not converted."""
        if avi["C"] == 3:
            if avi["EC"] not in BY_EXTENDED:
                notes.append(f"the colorimetry {EXTENDED.of(avi['EC'])} is not converted: {NOT_CONVERTED}")
            return BY_EXTENDED.get(avi["EC"])
        if avi["C"]:
            return BT601 if avi["C"] == 1 else BT709
        known = modes.of_vic(avi["VIC"])
        width = known.across.active // (known.repetitions[0] + 1) if known else width
        matrix = BT709 if width >= HD else BT601
        notes.append(f"no colorimetry is told: {matrix.name} is taken, as CTA-861 has it for {width} pixels a row")
        return matrix

    @staticmethod
    def _is_full(avi: Avi, notes: list[str]) -> bool:
        """Returns whether YCbCr has full range. YQ says so. A listing without YQ has Q, which a source has to set to the same range."""
        if "YQ" in avi:
            return avi["YQ"] == 1
        if avi["Q"] in (1, 2):
            return avi["Q"] == 2
        notes.append("the range of YCbCr is not told by a content listing: the limited one is taken")
        return False

    def _judge_phase(self, signal: Signal, columns: int, notes: list[str]) -> None:
        """Adds a note if the packing phase does not fit the end of a row. Rows are always read from phase 0."""
        group = PHASES[signal.bits]
        if self.phase is None or group == 1:
            return
        last = (columns - 1) % group
        wanted = 0 if last == 4 else last
        if self.phase != wanted:
            notes.append(
                f"the packing phase {self.phase} of a general control packet is not that of a row's last column, "
                f"which is {wanted}: rows are read from phase 0 on"
            )
