"""Test pictures of any size, and a test tone, as files that `tools/content` accepts in place of images and sound."""

from __future__ import annotations

import tempfile
import wave
from collections.abc import Callable, Iterator, Sequence
from contextlib import contextmanager
from dataclasses import dataclass
from pathlib import Path

import numpy as np
import numpy.typing as npt
from PIL import Image
from tqdm import tqdm

from vabgrot.errors import Refused
from vabgrot.formats.audio import RATES

Picture = npt.NDArray[np.uint8]  # rows, pixels, and red, green and blue
PATTERN, TONE, TIMES = "pattern:", "tone:", "*"
BARS = ((255, 255, 255), (255, 255, 0), (0, 255, 255), (0, 255, 0), (255, 0, 255), (255, 0, 0), (0, 0, 255), (0, 0, 0))
BANDS = ((1, 1, 1), (1, 0, 0), (0, 1, 0), (0, 0, 1))  # of the ramps: grey, red, green and blue
SQUARE = 8  # pixels of a square of the checkerboard
STEP, BAR = 8, 16  # pixels that the bar moves in each frame; the bar's width is this part of the picture's
TAPS = (23, 18)  # of the pseudo-random sequence: x^23 + x^18 + 1 (ITU-T O.150)
LEVEL, SECOND = 0.5, 1 << 23  # the tone's peak relative to full scale, and full scale in 24 bits
RATE = 48000


def bars(width: int, height: int, _: int) -> Picture:
    """Eight bars of full colours: white, yellow, cyan, green, magenta, red, blue, black."""
    row = np.array(BARS, np.uint8)[np.arange(width) * len(BARS) // width]
    return np.broadcast_to(row, (height, width, 3))


def ramp(width: int, height: int, _: int) -> Picture:
    """Four bands (grey, red, green and blue) that rise from 0 to 255 from left to right."""
    level = np.linspace(0, 255, width).round().astype(np.uint8)
    band = np.array(BANDS, np.uint8)[np.arange(height) * len(BANDS) // height]
    picture: Picture = level[None, :, None] * band[:, None, :]
    return picture


def zone(width: int, height: int, _: int) -> Picture:
    """A zone plate: rings around the centre. They become finer, up to half a cycle a pixel at the farther edge."""
    x, y = np.arange(width) - width // 2, np.arange(height)[:, None] - height // 2
    level = 127.5 * (1 + np.cos(np.pi * (x * x + y * y) / max(width, height)))
    return np.repeat(level.round().astype(np.uint8)[:, :, None], 3, axis=2)


def checkerboard(width: int, height: int, _: int) -> Picture:
    """White and black squares of eight pixels."""
    white = (np.arange(width) // SQUARE + np.arange(height)[:, None] // SQUARE) % 2 == 0
    return np.repeat((255 * white).astype(np.uint8)[:, :, None], 3, axis=2)


def moving(width: int, height: int, frame: int) -> Picture:
    """A white bar on grey that moves eight pixels to the right in each frame."""
    size = max(1, width // BAR)
    level = np.where((np.arange(width) - STEP * frame) % width < size, 255, 64).astype(np.uint8)
    return np.broadcast_to(level[None, :, None], (height, width, 3))


def noise(width: int, height: int, frame: int) -> Picture:
    """Bytes of a pseudo-random sequence of 2^23 - 1 bits, each byte's lowest bit first. Frame k starts with k + 1 in the register."""
    bits = sequence(8 * 3 * width * height, frame % ((1 << TAPS[0]) - 1) + 1)
    return np.packbits(bits, bitorder="little").reshape(height, width, 3)


def sequence(count: int, register: int) -> npt.NDArray[np.uint8]:
    """Returns the first `count` bits of the sequence. It starts with the bits of the register, the lowest first.

    Bit n is the sum (modulo 2) of bits n - 23 and n - 18. The same holds if both distances are multiplied by 2, 4 and so on, so each step
    can produce twice as many bits as the one before."""
    long, short = TAPS
    bits = np.zeros(count + long, np.uint8)
    bits[:long] = [register >> place & 1 for place in range(long)]
    made = long
    while made < count:
        step = 1
        while long * step * 2 <= made:
            step *= 2
        more = min(short * step, count - made)
        bits[made : made + more] = bits[made - long * step :][:more] ^ bits[made - short * step :][:more]
        made += more
    return bits[:count]


PATTERNS: dict[str, Callable[[int, int, int], Picture]] = {
    "bars": bars,
    "ramp": ramp,
    "zone": zone,
    "checkerboard": checkerboard,
    "moving": moving,
    "noise": noise,
}


@dataclass(frozen=True)
class Wanted:
    """A pattern's name and the number of frames to make."""

    name: str
    frames: int


def wanted_of(text: str) -> Wanted | None:
    """Returns the pattern that an operand names (`pattern:NAME` or `pattern:NAME*N`), or None if the operand is a file."""
    if not text.startswith(PATTERN):
        return None
    name, _, times = text.removeprefix(PATTERN).partition(TIMES)
    if name not in PATTERNS:
        raise Refused(f"{text}: there is no such pattern. Choose one of: {', '.join(PATTERNS)}")
    if times and not (times.isdecimal() and 1 <= int(times) <= 9999):
        raise Refused(f"{text}: give 1 to 9999 frames")
    return Wanted(name, int(times or 1))


@contextmanager
def as_files(words: Sequence[str], size: tuple[int, int]) -> Iterator[list[str]]:
    """Yields the paths of image files. For each operand that names a pattern, a temporary file of this size is made for each frame."""
    wanted = [wanted_of(word) for word in words]
    with tempfile.TemporaryDirectory() as folder:
        paths: list[str] = []
        with tqdm(total=sum(one.frames for one in wanted if one), unit="frame", disable=None) as bar:
            for word, one in zip(words, wanted):
                if one is None:
                    paths.append(word)
                    continue
                for frame in range(one.frames):
                    path = Path(folder) / f"{len(paths):05}.png"
                    Image.fromarray(np.ascontiguousarray(PATTERNS[one.name](*size, frame))).save(path, "PNG", compress_level=1)
                    paths.append(str(path))
                    bar.update()
        yield paths


@contextmanager
def sound_file(word: str | None, seconds: float) -> Iterator[str | None]:
    """Yields the path of a sound file. For `tone:HZ` or `tone:HZ@RATE` it makes a 24-bit file: `seconds` of a sine at half the full scale
    on both sides."""
    if word is None or not word.startswith(TONE):
        yield word
        return
    pitch, _, rate = word.removeprefix(TONE).partition("@")
    try:
        hertz, rate_of = float(pitch), int(rate or RATE)
    except ValueError:
        raise Refused(f"{word}: write tone:HZ or tone:HZ@RATE") from None
    if rate_of not in RATES or not 0 < hertz <= rate_of / 2:
        rates = ", ".join(map(str, RATES))
        raise Refused(f"{word}: no link carries this tone. Give a rate of {rates} Hz, and a tone of at most half of it")
    moments = np.arange(int(seconds * rate_of) + 1)
    level = np.rint(LEVEL * (SECOND - 1) * np.sin(2 * np.pi * hertz * moments / rate_of)).astype("<i4")
    data = np.repeat(level.view(np.uint8).reshape(-1, 4)[:, :3], 2, axis=0).tobytes()
    with tempfile.NamedTemporaryFile(suffix=".wav") as file:
        with wave.open(file.name, "wb") as out:
            out.setnchannels(2)
            out.setsampwidth(3)
            out.setframerate(rate_of)
            out.writeframes(data)
        yield file.name
