"""Sounds with up to eight channels: WAV files with their speakers, and the packets of samples in layout 1 (HDMI 1.4, section 5.3.4)."""

import io
import os
from collections.abc import Iterator
from dataclasses import dataclass

import numpy as np
import soundfile
from numpy.typing import NDArray

from vabgrot import pcm
from vabgrot.errors import Refused
from vabgrot.formats import speakers
from vabgrot.formats.audio import BLOCK, RATES
from vabgrot.pcm import USED_BITS, WAVES

MOST = 8  # the most channels
BYTE = 8
VALUE, SIDE = 24, 3  # bits and bytes of a sample on one channel
WHOLE = 32 - VALUE  # how far soundfile shifts a sample to the left
MASK_AT = 20  # the offset in a WAV file's chunk `fmt `
USUAL_MASKS = {1: 0x4, 2: 0x3, 3: 0x7, 4: 0x33, 5: 0x37, 6: 0x3F, 7: 0x70F, 8: 0x63F}  # if a file names no speakers
Values = NDArray[np.int32]  # signed 24-bit numbers; shape: samples, channels


@dataclass(frozen=True)
class Wide:
    """A sound with one to eight channels in the order of a link. `names` are their speakers, `NONE` for a channel that is not used."""

    rate: int
    bits: int
    values: Values
    names: tuple[str, ...]

    @property
    def samples(self) -> int:
        """The number of samples on each channel."""
        return len(self.values)

    @property
    def allocation(self) -> int:
        """The channel allocation (CA) of the audio InfoFrame."""
        return speakers.ALLOCATIONS.index((*self.names, *(speakers.NONE,) * (MOST - len(self.names))))

    @property
    def used(self) -> int:
        """The number of channels in use."""
        return sum(name != speakers.NONE for name in self.names)


def mask_in(data: bytes) -> int:
    """Returns the channel mask of a WAV file, or 0 if it has none."""
    at = 12
    while at + BYTE <= len(data):
        size = int.from_bytes(data[at + 4 : at + 8], "little")
        begin = at + BYTE
        if data[at : at + 4] == b"fmt " and size >= 40 and data[begin : begin + 2] == b"\xfe\xff":
            return int.from_bytes(data[begin + MASK_AT : begin + MASK_AT + 4], "little")
        at = begin + size + size % 2
    return 0


def channels_in(path: str | os.PathLike[str]) -> int:
    """Returns the number of channels of a WAV file, or 0 if it is none."""
    try:
        return int(soundfile.info(str(path)).channels)
    except (soundfile.SoundFileError, RuntimeError):
        return 0


def read(path: str | os.PathLike[str], allocation: int | None = None) -> Wide:
    """Reads a WAV file of linear PCM. The channels are put in the order of an allocation.

    Without `allocation`, it is the one with the file's speakers. With `allocation`, the file's channels have its speakers, in the order
    of a WAV file."""
    with open(path, "rb") as file:
        data = file.read()
    try:
        with soundfile.SoundFile(io.BytesIO(data)) as sound:
            rate, kind, subtype, count = sound.samplerate, sound.format, sound.subtype, sound.channels
            values = sound.read(dtype="int32", always_2d=True) >> WHOLE
    except (soundfile.SoundFileError, RuntimeError) as why:
        raise Refused(f"{path}: not a WAV file of linear PCM ({why}). Convert it first") from None
    if kind not in WAVES or subtype not in USED_BITS:
        raise Refused(f"{path}: not a WAV file of linear PCM, but {kind}, {subtype}. Convert it first")
    if count > MOST:
        raise Refused(f"{path}: it has {count} channels. Give a file with one to eight")
    if rate not in RATES:
        raise Refused(f"{path}: its rate is {rate} Hz, which no link carries. Convert it to one of {', '.join(map(str, RATES))} Hz")
    names = _names(str(path), count, mask_in(data) or USUAL_MASKS[count], allocation)
    order, _ = speakers.places([name for name in names if name != speakers.NONE])
    wide = np.zeros((len(values), len(names)), np.int32)
    used = [at for at, name in enumerate(names) if name != speakers.NONE]
    wide[:, [used[at] for at in order]] = values
    return Wide(rate, USED_BITS[subtype], wide, names)


def _names(path: str, count: int, mask: int, allocation: int | None) -> tuple[str, ...]:
    """Returns the speakers of the channels of a link, up to the last one in use."""
    found = speakers.of_mask(mask) if allocation is None else allocation
    names = speakers.speakers(found) if found is not None else ()
    used = [at for at, name in enumerate(names) if name != speakers.NONE]
    if count == 1 and allocation is None:
        return names[:1]
    if len(used) != count and allocation is None:
        raise Refused(f"{path}: no allocation has the speakers of its channel mask {mask:x}. Give one with --allocation CA")
    if len(used) != count:
        its = f"{len(used)} ({speakers.words(found or 0)})"
        raise Refused(f"{path}: it has {count} channels, but allocation {found} has {its}. Give another one")
    return names[: used[-1] + 1]


def write(wide: Wide) -> bytes:
    """Returns a WAV file of the extensible format. The channels are in the order of their speakers, which its mask names."""
    used = [at for at, name in enumerate(wide.names) if name != speakers.NONE]
    order, mask = speakers.places([wide.names[at] for at in used])
    values = wide.values[:, [used[at] for at in order]] << WHOLE
    out = io.BytesIO()
    soundfile.write(out, values, wide.rate, format="WAVEX", subtype=f"PCM_{wide.bits}")
    data = bytearray(out.getvalue())
    at = data.index(b"fmt ") + BYTE + MASK_AT
    data[at : at + 4] = mask.to_bytes(4, "little")
    return bytes(data)


def packet_lines(wide: Wide, first: int, behind: int) -> Iterator[str]:
    """Yields the lines of a content listing for the samples from `first` on: one packet of layout 1 for each."""
    pairs = [pair for pair in range(MOST // 2) if any(name != speakers.NONE for name in wide.names[2 * pair : 2 * pair + 2])]
    plain = pcm.Sound(wide.rate, wide.bits, b"", b"")
    status = [pcm.channel_status(plain, channel + 1) for channel in range(MOST)]
    present = sum(1 << pair for pair in pairs)
    for number in range(first, min(behind, wide.samples)):
        place = number % BLOCK
        bodies = ["00" * 7] * 4
        for pair in pairs:
            sides = [int(wide.values[number, at]) if at < len(wide.names) else 0 for at in (2 * pair, 2 * pair + 1)]
            bodies[pair] = body_of(sides, [status[2 * pair + side][place] for side in (0, 1)])
        starts = present << 4 if place == 0 else 0
        yield f"packet 02{present | 16:02x}{starts:02x} {' '.join(bodies)}\n"


def body_of(sides: list[int], status: list[int]) -> str:
    """Returns the body of a pair of channels: the values, low byte first, and V, U, C and P of each. V and U are 0. P makes the parity
    even."""
    data, flags = b"", 0
    for side, (value, bit) in enumerate(zip(sides, status)):
        number = value & ((1 << VALUE) - 1)
        data += number.to_bytes(SIDE, "little")
        odd = (number.bit_count() + bit) % 2
        flags |= (4 * bit + 8 * odd) << 4 * side
    return (data + bytes([flags])).hex()
