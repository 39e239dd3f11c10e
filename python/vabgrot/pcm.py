"""Sound for the tools: WAV files as 24-bit samples of two sides, and their channel status."""

import io
from pathlib import Path
from typing import NamedTuple

import numpy as np
import numpy.typing as npt
import soundfile

from vabgrot.errors import Refused
from vabgrot.formats.audio import BLOCK, RATES, WORD_LENGTHS

WAVES = ("WAV", "WAVEX")  # the formats of libsndfile that are accepted
USED_BITS = {"PCM_U8": 16, "PCM_16": 16, "PCM_24": 24, "PCM_32": 24}  # bits of a sample, by subtype


class Sound(NamedTuple):
    """Samples of two sides, three bytes each, high byte first. `bits` of the 24 are used."""

    rate: int
    bits: int
    left: bytes
    right: bytes

    @property
    def samples(self) -> int:
        return len(self.left) // 3


def side(values: npt.NDArray[np.int32]) -> bytes:
    """Returns the upper three bytes of each number, the highest first."""
    return values.astype(">i4").view(np.uint8).reshape(-1, 4)[:, :3].tobytes()


def read(path: str | Path) -> Sound:
    """Reads a WAV file with one or two channels. Shorter samples are padded with zeros, longer ones are cut to 24 bits. Raises OSError if
    it cannot be read, and Refused if it is not such a file."""
    with open(path, "rb") as source:
        try:
            with soundfile.SoundFile(source) as file:
                kind, subtype, channels, rate = file.format, file.subtype, file.channels, file.samplerate
                values = file.read(dtype="int32", always_2d=True)
        except soundfile.SoundFileError as why:
            raise Refused(f"{path}: not a WAV file of linear PCM ({why}). Convert it first") from None
    if kind not in WAVES or subtype not in USED_BITS:
        raise Refused(f"{path}: not a WAV file of linear PCM, but {kind}, {subtype}. Convert it first")
    if channels > 2:
        raise Refused(f"{path}: it has {channels} channels. Give a file with one or two")
    if rate not in RATES:
        raise Refused(f"{path}: its rate is {rate} Hz, which no link carries. Convert it to one of {', '.join(map(str, RATES))} Hz")
    return Sound(rate, USED_BITS[subtype], side(values[:, 0]), side(values[:, -1]))


def wav(sound: Sound) -> bytes:
    """Returns a WAV file with two channels and the sound's number of bits."""
    values = np.zeros((sound.samples, 2, 4), np.uint8)
    for channel, taken in enumerate((sound.left, sound.right)):
        values[:, channel, :3] = np.frombuffer(taken, np.uint8).reshape(-1, 3)
    out = io.BytesIO()
    soundfile.write(out, values.view(">i4")[:, :, 0].astype(np.int32), sound.rate, f"PCM_{sound.bits}", format="WAV")
    return out.getvalue()


def rate_of(n: int, cycles: int, clock: float) -> int:
    """Returns the sampling rate, given clock regeneration and the pixel clock (HDMI 1.4, section 7.2). If a usual rate is within 0.2
    percent, it is returned."""
    rate = clock * n / (128 * cycles)
    return next((usual for usual in RATES if abs(rate - usual) <= usual / 500), round(rate))


def rate_in(status: bytes) -> int | None:
    """Returns the sampling rate in the 24 bytes of a channel status, or None if it is not a usual one."""
    return next((usual.hertz for usual in RATES.values() if usual.code == status[3] & 15), None)


def channel_status(sound: Sound, channel: int) -> list[int]:
    """Returns the 192 bits of a channel status (IEC 60958-3): consumer use, linear PCM, no copyright, the channel's number, the rate, and
    the bits of a sample."""
    status = 1 << 2 | channel << 20 | RATES[sound.rate].code << 24 | WORD_LENGTHS[sound.bits] << 32
    return [status >> place & 1 for place in range(BLOCK)]
