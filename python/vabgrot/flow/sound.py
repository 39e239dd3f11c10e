"""The sound of a live link: its samples as numbers, and what its packets say about the sampling rate."""

from __future__ import annotations

from dataclasses import dataclass, field
from typing import NamedTuple

import numpy as np
import numpy.typing as npt

from vabgrot import packets
from vabgrot.content import Packets, bodies_of
from vabgrot.events import Ints, Octets
from vabgrot.formats import speakers
from vabgrot.formats.audio import BLOCK, CODED, RATES
from vabgrot.formats.layouts import BODIES, LAYOUTS, Type
from vabgrot.formats.names import FREQUENCIES
from vabgrot.packets import Packet

FIELDS = LAYOUTS["samples"].fields
FULL = 1 << FIELDS["left"].bits - 1
CHANNELS = 2 * BODIES  # the channels of layout 1
N_OF = {rate.n: rate.hertz for rate in RATES.values()}  # the sampling rates by N, as HDMI 1.4 recommends it for most clocks
Values = npt.NDArray[np.int32]  # samples by channels, 24 bits with a sign


class Samples(NamedTuple):
    """Successive samples: for each the column of its packet, and the values of its channels in the order of the link."""

    at: Ints
    values: Values


@dataclass
class Status:
    """Reads the sampling rate from the channel status of the left side of the first pair of channels. It needs one complete block."""

    bits: Octets = field(default_factory=lambda: np.empty(0, np.uint8))
    rate: int | None = None
    is_known: bool = False

    def take(self, starts: npt.NDArray[np.bool_], bits: Octets) -> None:
        """Takes the C bits of samples, and whether each sample starts a block."""
        if self.is_known:
            return
        first = np.flatnonzero(starts)
        if len(first):
            ends = [*first[1:].tolist(), len(bits)]
            whole = next((begin for begin, end in zip(first.tolist(), ends) if end - begin >= BLOCK), int(first[-1]))
            self.bits = bits[whole:]
        elif len(self.bits):
            self.bits = np.concatenate((self.bits, bits))
        if len(self.bits) >= BLOCK:
            block = np.packbits(self.bits[:BLOCK], bitorder="little")
            self.rate, self.is_known = None if block[0] & 1 else CODED.get(int(block[3]) & 15), True

    def lose(self) -> None:
        """Drops the block in progress, because samples are missing."""
        self.bits = self.bits[:0]


@dataclass
class Sound:
    """Takes the packets of a link. Keeps what they say about the rate and the speakers, and returns the samples."""

    status: Status = field(default_factory=Status)
    clock: tuple[int, int] | None = None  # N and CTS of the last clock regeneration packet
    frequency: int = 0  # the sampling rate of the audio InfoFrame, in Hz
    allocation: int | None = None
    is_wide: bool = False  # whether the samples have layout 1
    lost: int = 0  # lost packets that may have carried sound

    @property
    def rate(self) -> int | None:
        """The sampling rate according to the channel status, the audio InfoFrame or N."""
        return self.status.rate or self.frequency or (N_OF.get(self.clock[0]) if self.clock else None)

    @property
    def channels(self) -> tuple[tuple[int, ...], int]:
        """Returns the channels to play, in the order of a WAV file, and the channel mask."""
        if not self.is_wide:
            return (0, 1), 3
        names = speakers.speakers(speakers.SENT[CHANNELS] if self.allocation is None else self.allocation)
        used = [at for at, name in enumerate(names) if name != speakers.NONE] or [*range(CHANNELS)]
        order, mask = speakers.places([names[at] if names else "" for at in used])
        return tuple(used[at] for at in order), mask

    def take(self, found: Packets) -> Samples:
        """Takes the next packets. Returns their samples."""
        lost = int(found.lost.sum())
        if lost:
            self.lost += lost
            self.status.lose()
        for kind in (Type.CLOCK, Type.AUDIO):
            its = found.of(kind)
            if len(its):
                self.infoframe(its.packet(-1))
        return self.samples(found.of(Type.SAMPLES))

    def infoframe(self, packet: Packet) -> None:
        """Takes a packet that gives the sampling rate. It is ignored if it is wrong."""
        if packets.content_of(packet).faults:
            return
        if packet.kind == Type.CLOCK:
            numbers = packets.clock_numbers(packet)
            self.clock = numbers if all(numbers) else self.clock
        else:
            self.frequency, self.allocation = FREQUENCIES[packet.number("SF")] or 0, packet.number("CA")

    def samples(self, found: Packets) -> Samples:
        """Returns the samples of packets. Layout 0 has one sample in each body that is present, layout 1 has one in all bodies together."""
        heads, bodies, at = found.octets, bodies_of(found.octets), found.at
        wide, present = FIELDS["layout"].numbers(heads).astype(bool), FIELDS["sample_present"].flags(heads)
        if len(found):
            self.is_wide = bool(wide[-1])
        its = wide == self.is_wide  # the layout rarely changes; samples of the other layout are dropped
        at, bodies, present, starts = at[its], bodies[its], present[its], FIELDS["B"].flags(heads)[its]
        sides = np.stack([FIELDS[side].numbers(bodies) for side in ("left", "right")], axis=2)
        values = np.where(sides >= FULL, sides - 2 * FULL, sides).astype(np.int32)
        c_bits = FIELDS["left C"].numbers(bodies).astype(np.uint8)
        if self.is_wide:
            self.status.take(starts[:, 0], c_bits[:, 0])
            return Samples(at, (values * present[:, :, None]).reshape(-1, CHANNELS))
        self.status.take(starts[present], c_bits[present])
        return Samples(np.repeat(at, present.sum(axis=1)), values[present])
