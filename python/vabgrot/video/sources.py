"""Reads picture files as the rows of a raster, and chooses the mode and the bytes in which they are sent."""

from collections.abc import Iterator
from contextlib import contextmanager
from dataclasses import dataclass
from fractions import Fraction

import numpy as np
import png
from numpy.typing import NDArray
from PIL import Image

from vabgrot import making
from vabgrot.errors import Refused
from vabgrot.formats.modes import Mode
from vabgrot.packets import Packet
from vabgrot.video.colours import BT601, BT709, BT2020, DEPTHS, Encoding, Signal, columns_of
from vabgrot.video.images import Colours
from vabgrot.video.signals import PHASES

ENCODINGS = {"rgb": Encoding.RGB, "ycbcr422": Encoding.YCC422, "ycbcr444": Encoding.YCC444}
RANGES = ("limited", "full")
DEEP_GREY = ("I;16", "I;16B", "I;16L", "I")  # modes of Pillow: grey of 16 bits a pixel
DEEP_FILE = 16  # the bits of a component of a PNG file that Pillow reads as eight
CODES = {bits: code for code, bits in DEPTHS.items()}


@dataclass(frozen=True)
class Sender:
    """How to send pictures: signal, bits of a component, the mode in pixels, and the mode in columns. In deep colour a pixel takes more
    than one column (HDMI 1.4, section 6.5.1)."""

    signal: Signal
    size: int
    mode: Mode

    @property
    def columns(self) -> Mode:
        """The mode in columns. Each edge of a line is where it is in pixels, or at the start of the next column."""
        it, part = self.mode, Fraction(self.signal.packed, 8)
        if part == 1:
            return it
        active = -(-it.active_across * part // 1)
        sync = -(-it.sync_across * part // 1)
        back = -(-(it.sync_across + it.back_across) * part // 1) - sync
        front = max(1, it.across * part // 1 - active - sync - back)
        return Mode(int(active), int(front), int(sync), int(back), *it[4:])

    @property
    def is_exact(self) -> bool:
        """Whether a line takes exactly the time of its pixels."""
        return bool(self.columns.across == self.mode.across * Fraction(self.signal.packed, 8))

    def clock(self, pixels: int) -> int:
        """Returns the rate of columns in Hz for a pixel rate in Hz."""
        return (
            round(Fraction(pixels * self.columns.columns, self.mode.columns))
            if self.is_exact
            else pixels * self.signal.packed // 8
        )

    @property
    def picture(self) -> tuple[int, int]:
        """The width and height of the pictures."""
        return self.mode.active_across // self.signal.times, self.mode.active_down

    def avi(self, numbers: dict[str, int]) -> dict[str, int]:
        """Returns the fields of the AVI InfoFrame: `numbers`, completed by those that describe the signal."""
        it = self.signal
        side = 1 + it.is_full
        if it.encoding == Encoding.RGB:
            return numbers | {"Q": side, "PR": it.times - 1}
        colour = {BT601: {"C": 1}, BT709: {"C": 2}, BT2020: {"C": 3, "EC": 6}}[it.matrix or BT709]
        return numbers | colour | {"Y": int(it.encoding), "Q": side, "YQ": int(it.is_full), "PR": it.times - 1}

    def control(self) -> Packet | None:
        """Returns the General Control packet with the depth and the packing phase, or None if pixels have 24 bits."""
        if self.signal.packed == 8:
            return None
        group = PHASES[self.signal.bits]
        phase = (self.columns.active_across - 1) % group
        mode = self.columns
        aligned = all(number % group == 0 for number in (mode.active_across, mode.sync_across, mode.back_across, mode.across))
        told = {"CD": CODES[self.signal.bits], "PP": 0 if phase == 4 else phase, "Default_Phase": int(aligned)}
        return making.packet("control", told)

    def rows(self, path: str) -> list[str]:
        """The lines of a picture's rows."""
        colours = colours_in(path, self.picture, self.size > 8)
        columns = colours if self.signal.is_plain else columns_of(colours, self.signal, self.size)
        return [f"row {row.tobytes().hex()}\n" for row in columns]


@contextmanager
def opened(path: str) -> Iterator[Image.Image]:
    """Opens an image. Errors name the file."""
    try:
        with Image.open(path) as image:
            yield image
    except (OSError, SyntaxError, ValueError, Image.DecompressionBombError) as why:
        raise Refused(f"{path}: {getattr(why, 'strerror', None) or why}") from None


def size_of(path: str) -> tuple[int, int]:
    """Returns the width and height of an image. Only the head of the file is read."""
    with opened(path) as image:
        width, height = image.size
    return width, height


def shallow(image: Image.Image) -> Image.Image:
    """Converts a grey image of 16 bits a pixel to 8 bits: 65535 becomes 255."""
    return image.convert("I").point(lambda level: level * (1 / 257) + 0.5).convert("L")


def deep_png(path: str) -> NDArray[np.uint16] | None:
    """Returns the colours of a PNG file with 16 bits a component, without alpha. Returns None for any other file."""
    try:
        with open(path, "rb") as file:
            reader = png.Reader(file=file)
            reader.preamble()
            if reader.bitdepth != DEEP_FILE:
                return None
            width, height, rows, info = reader.read()
            planes = info["planes"]
            found = np.vstack([np.asarray(row, np.uint16) for row in rows]).reshape(height, width, planes)
    except (png.Error, EOFError):
        return None
    return found[:, :, :3] if planes > 2 else np.repeat(found[:, :, :1], 3, axis=2)


def colours_in(path: str, size: tuple[int, int], is_deep: bool) -> Colours:
    """Returns the colours of an image, scaled to `size`: bytes, or 16-bit numbers if `is_deep` is set and the file is a PNG file with 16
    bits."""
    with opened(path) as file:
        found = deep_png(path) if is_deep and file.format == "PNG" else None
        if found is None:
            image = (shallow(file) if file.mode in DEEP_GREY else file).convert("RGB")
            if image.size != size:
                image = image.resize(size, Image.Resampling.LANCZOS)
            return np.asarray(image)
    if found.shape[1::-1] == size:
        return found
    planes = [Image.fromarray(found[:, :, at].astype(np.float32)).resize(size, Image.Resampling.LANCZOS) for at in range(3)]
    return np.stack([np.clip(np.asarray(plane) + 0.5, 0, 65_535) for plane in planes], axis=2).astype(np.uint16)
