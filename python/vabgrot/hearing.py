"""Reads the sound of a capture or a listing: the samples of each channel, their kind, and the sampling rates that clock regeneration,
channel status and audio InfoFrame give."""

from collections import Counter
from collections.abc import Sequence
from dataclasses import dataclass, field

import numpy as np

from vabgrot import listing, packets, pcm
from vabgrot.channels import Values, Wide
from vabgrot.content import SIDES, Packets, Samples, packets_in, samples_of
from vabgrot.errors import Refused
from vabgrot.formats import speakers
from vabgrot.formats.audio import BLOCK, CODED
from vabgrot.formats.faults import OF_SOUND
from vabgrot.formats.layouts import LAYOUTS, Type
from vabgrot.formats.modes import CUSTOM_CLOCK, VICS
from vabgrot.formats.names import FREQUENCIES
from vabgrot.judging.of_sound import statuses
from vabgrot.packets import Packet
from vabgrot.video.colours import DEPTHS

STATUS_BYTES = BLOCK // 8
SIDE = 3  # bytes of a sample on one channel
SAMPLE = LAYOUTS["samples"].fields
C_BIT = SAMPLE["left C"].low  # the bit of the channel status in V, U, C and P
NAMED: dict[int, str] = {
    Type.ONE_BIT: "One Bit Audio",
    Type.DST: "DST audio",
    Type.HIGH_RATE: "high bit rate audio (IEC 61937)",
}  # packets of sound that is not PCM, by type
Line = tuple[int, str, list[str]]


@dataclass
class Status:
    """Collects the channel status of one channel: the C bits of its samples from the first start of a block on."""

    bits: list[int] = field(default_factory=list)
    block: bytes = b""  # the first complete block

    def take(self, starts: bool, bit: int) -> None:
        """Takes the C bit of a sample."""
        if self.block:
            return
        if starts:
            self.bits = []
        elif not self.bits:
            return
        self.bits.append(bit)
        if len(self.bits) == BLOCK:
            self.block = np.packbits(self.bits, bitorder="little").tobytes()

    @property
    def rate(self) -> int | None:
        """The sampling rate, or None if it gives none or is for professional use."""
        return CODED.get(self.block[3] & 15) if self.block and not self.block[0] & 1 else None

    @property
    def is_pcm(self) -> bool:
        """Whether it describes linear PCM, or is not known."""
        return not self.block or not self.block[0] & 2


@dataclass
class Heard:
    """The sound of a capture, or of a listing while its lines are read."""

    sides: list[bytearray] = field(default_factory=list)  # channels 1, 2 and so on: three bytes a sample, high byte first
    samples: int = 0
    status: Status = field(default_factory=Status)
    clock: tuple[int, int] | None = None  # N and CTS of the first clock regeneration packet
    vic: int | None = None
    depth: int = 24
    frequency: int = 0  # from the audio InfoFrame, in Hz; 0 means "as the stream says"
    allocation: int | None = None
    others: Counter[str] = field(default_factory=Counter)
    faults: Counter[str] = field(default_factory=Counter)
    is_wide: bool = False  # whether the samples have layout 1
    kept: list[Packet] = field(default_factory=list)  # from a content listing: packets of samples without a line of their kind

    def take(self, line: int, name: str, fields: list[str]) -> None:
        """Takes a line of a content listing, or of the output of `read biphase`."""
        if name == "s":
            self.sample_line(line, listing.fields_of(fields, 6, line))
        elif name == "acr":
            n, cycles = (listing.number(part, line) for part in listing.fields_of(fields, 2, line))
            self.clock = self.clock or (n, cycles)
        elif name == "block":
            left, _ = listing.fields_of(fields, 2, line)
            block = listing.digits(left, STATUS_BYTES, line)
            self.status.block = block if self.status.rate is None else self.status.block
        elif name in ("vic", "mode"):
            self.vic = listing.number(listing.fields_of(fields, 1, line)[0], line) if name == "vic" else 0
        elif name == "avi" and self.vic is None:
            self.vic = listing.number(listing.fields_of(fields, 17, line)[11], line)
        elif name == "gcp":
            self.depth = DEPTHS.get(listing.number(listing.fields_of(fields, 3, line)[2], line), self.depth)
        elif name == "audio":
            numbers = [listing.number(part, line) for part in listing.fields_of(fields, 7, line)]
            self.infoframe(numbers[3], numbers[4])
        elif name == "packet":
            packet = packets.packet_of([*fields, ""], line)
            if packet.kind == Type.SAMPLES:
                self.kept.append(packet)
            else:
                self.packet(packet)
        elif name == "!" and fields[0] in OF_SOUND:
            self.faults[fields[0]] += 1

    def end(self) -> None:
        """Takes the end of the listing."""
        if self.kept and not self.samples:
            its = packets_in(self.kept)
            self.hear(its, samples_of(its))

    def sample_line(self, line: int, fields: list[str]) -> None:
        """Takes a line with a sample of two channels."""
        left, right, flags, _, starts, _ = fields
        self.sides = self.sides or [bytearray(), bytearray()]
        for side, text, name in zip(self.sides, (left, right), SIDES):
            side += self.value(text, name)
        self.samples += 1
        self.status.take(starts == "1", listing.number(flags, line) >> C_BIT & 1)

    @staticmethod
    def value(text: str, name: str) -> bytes:
        """Returns the three bytes of a sample."""
        try:
            data = bytes.fromhex(text)
        except ValueError:
            data = b""
        if len(data) != SIDE:
            raise Refused(f"a sample's {name} value has not six hexadecimal digits")
        return data

    def infoframe(self, rate: int, allocation: int) -> None:
        """Takes SF and CA of an audio InfoFrame. The first one counts."""
        if self.allocation is None:
            self.frequency, self.allocation = FREQUENCIES[rate & 7], allocation

    def packet(self, it: Packet) -> None:
        """Takes a packet that has no samples and no lost block."""
        if it.kind in NAMED:
            self.others[NAMED[it.kind]] += 1
        faults = [fault.split()[0] for fault in packets.content_of(it).faults]
        self.faults.update(fault for fault in faults if fault in OF_SOUND)
        if it.kind == Type.CLOCK and not faults:
            self.clock = self.clock or packets.clock_numbers(it)
        elif it.kind == Type.CONTROL:
            self.depth = DEPTHS.get(it.number("CD"), self.depth)
        elif it.kind == Type.AVI and not faults and self.vic is None:
            self.vic = it.number("VIC")
        elif it.kind == Type.AUDIO and not faults:
            self.infoframe(it.number("SF"), it.number("CA"))

    def hear(self, its: Packets, samples: Samples) -> None:
        """Takes all packets and their samples."""
        for packet in its[~its.lost & (its.kind != Type.NULL) & (its.kind != Type.SAMPLES)]:
            self.packet(packet)
        lost = int((its.lost & np.isin(its.kind, (Type.CLOCK, Type.SAMPLES))).sum())
        self.faults.update({"lost": lost} if lost else {})
        self.faults.update({"parity": int(samples.odd.sum())} if samples.odd.any() else {})
        for bodies, numbers in zip(samples.bodies, samples.numbers):
            for side in SIDES:
                values = np.zeros((samples.total, SIDE), np.uint8)
                values[numbers] = SAMPLE[side].octets(bodies)[:, ::-1]
                self.sides.append(bytearray(values.tobytes()))
        self.samples, self.is_wide = samples.total, samples.is_wide
        first = next(iter(statuses(samples, 0)), None)
        if first is not None:
            self.status.block = np.packbits(first[0], bitorder="little").tobytes()

    def usual_clock(self) -> int | None:
        """Returns the columns a second in Hz: from the mode's code, or for a custom mode the rate that `content` assumes. In deep colour
        it is higher than the pixel clock."""
        clock = CUSTOM_CLOCK if self.vic == 0 else VICS[self.vic].clock if self.vic in VICS else None
        return clock and clock * self.depth // 24

    def rates(self, clock: int | None) -> dict[str, int]:
        """Returns the sampling rates by source. The one from clock regeneration (HDMI 1.4, section 7.2) comes first. The pixel clock of a
        custom mode is a guess. It is used only if no other source gives a rate."""
        is_guess, clock = clock is None and self.vic == 0, clock or self.usual_clock()
        told = {"the channel status": self.status.rate or 0, "the audio InfoFrame": self.frequency or 0}
        told = {who: rate for who, rate in told.items() if rate}
        if not (self.clock and all(self.clock) and clock) or is_guess and told:
            return told
        return {"the clock packets": pcm.rate_of(*self.clock, clock)} | told

    def rate(self, clock: int | None) -> int:
        """Returns the sampling rate from the first source that gives one."""
        found = self.rates(clock)
        if found:
            return next(iter(found.values()))
        has_clock = self.clock and all(self.clock)
        lack, give = ("AVI InfoFrame with a known code", "--rate or --clock") if has_clock else ("clock packet", "--rate")
        raise Refused(f"the sound has no {lack}, so its rate is not known. Give it with {give}")

    def values(self) -> Values:
        """Returns the samples of all channels."""
        parts = []
        for side in self.sides:
            data = np.frombuffer(bytes(side).ljust(SIDE * self.samples, b"\0"), np.uint8).reshape(-1, SIDE).astype(np.int32)
            parts.append(data[:, 0] << 16 | data[:, 1] << 8 | data[:, 2])
        found = np.stack(parts, axis=1)
        return np.where(found >> 23, found - (1 << 24), found).astype(np.int32)

    def names(self, allocation: int | None) -> tuple[str, ...]:
        """Returns the speakers of the channels: by `allocation`, by the InfoFrame, or by the usual allocation for this number of
        channels."""
        count = len(self.sides)
        chosen = self.allocation if allocation is None else allocation
        if chosen is None:
            chosen = speakers.SENT[count]
        names = speakers.speakers(chosen)
        if not names:
            raise Refused(f"the channel allocation {chosen} of the audio InfoFrame is reserved. Give another one with --allocation CA")
        return names[:count]

    def wide(self, rate: int, bits: int | None, allocation: int | None) -> Wide:
        """Returns the sound. Without `bits`, samples have 16 bits if the lower eight are always 0, otherwise 24."""
        values = self.values()
        bits = bits or (24 if (values & 255).any() else 16)
        names = self.names(allocation)
        return Wide(rate, bits, values[:, : len(names)], names)


def heard_of(its: Packets, samples: Samples) -> Heard:
    """Returns the sound of packets."""
    found = Heard()
    found.hear(its, samples)
    return found


def joined(pairs: Sequence[Heard]) -> Heard:
    """Joins pairs of channels that were read separately, for example by `recover biphase 0`, `1` and so on. Each begins at its first
    block. Longer ones are cut at the end."""
    first = pairs[0]
    first.samples = min(pair.samples for pair in pairs)
    first.sides = [side for pair in pairs for side in pair.sides]
    for side in first.sides:
        del side[SIDE * first.samples :]
    for pair in pairs[1:]:
        first.faults.update(pair.faults)
    first.is_wide = len(pairs) > 1
    return first
