"""Embeds frames in a page: complete and exact if there is room, otherwise as a lossy picture; and a small picture of each."""

import io
import struct
import zlib
from base64 import b64encode
from dataclasses import dataclass
from typing import Any

import numpy as np
from PIL import Image

from vabgrot.content import Frame
from vabgrot.report.alike import Alike
from vabgrot.video.colours import Signal
from vabgrot.video.images import colours_of, shallow

SMALL = (192, 144)
ROOM = 24_000_000  # bytes for all pictures; base64 adds a third
QUALITIES = (90, 75, 55, 35, 20)
SCALES = (1, 2, 4, 8, 16)
LEVEL = 4  # the compression level of exact files
QUICK = 4  # an exact file is made quickly if it fits this fraction of the room
PART = 1 << 16  # bytes that are compressed at a time
SIGN, UP = b"\x89PNG\r\n\x1a\n", 2  # the first bytes of a PNG file, and the filter that predicts a row from the one above


@dataclass
class Picture:
    """The file of a frame. Each of its pixels replaces `scale` by `scale` pixels of the frame."""

    data: bytes
    kind: str
    scale: int

    @property
    def text(self) -> str:
        """The file in base64."""
        return b64encode(self.data).decode()


def encoded(image: Image.Image, kind: str, **words: int) -> bytes:
    """Returns an image as a file of this kind. `words` are PIL's options."""
    out = io.BytesIO()
    image.save(out, kind, **words)
    return out.getvalue()


def url(image: Image.Image) -> str:
    """Returns a picture as a data URL. The image is reduced for it."""
    image.thumbnail(SMALL, Image.Resampling.BOX)
    photograph, exact = encoded(image, "JPEG", quality=75), encoded(image, "PNG")
    kind, data = ("png", exact) if len(exact) <= len(photograph) else ("jpeg", photograph)
    return f"data:image/{kind};base64,{b64encode(data).decode()}"


def rows_of(frame: Frame) -> list[bytes]:
    """Returns the rows of a frame. Each is cut or padded with zeros to the width of the first."""
    size = len(frame.rows[0])
    if {*map(len, frame.rows)} == {size}:
        return frame.rows
    return [row[:size].ljust(size, b"\0") for row in frame.rows]


class Album:
    """The pictures of a page. Equal frames share one file."""

    def __init__(self, room: int = ROOM) -> None:
        self.room = room
        self.pictures: list[Picture] = []
        self.small: list[str] = []  # a small version of each picture
        self.alike = Alike()
        self.exact = 0  # the size of the last frame's exact file

    def add(self, frame: Frame, left: int, signal: Signal = Signal()) -> int:
        """Adds a frame, with the colours of a signal. Returns the number of its picture. `left` is the expected number of frames after
        it."""
        rows = rows_of(frame)
        number, is_new = self.alike.number((frame.width, signal), rows)
        if is_new:
            if signal.is_plain:
                image = Image.frombytes("RGB", (frame.width, len(rows)), b"".join(rows))
            else:
                image = Image.fromarray(shallow(colours_of(frame.rows, frame.width, signal)), "RGB")
            picture = self.picture(image, max(self.room, 0) // (left + 1))
            self.small.append(url(image))
            self.pictures.append(picture)
            self.room -= len(picture.data)
        return number

    def picture(self, image: Image.Image, room: int) -> Picture:
        """Returns a frame's file with at most `room` bytes, if that is possible."""
        if self.exact < 2 * room or not self.exact:
            data = quick_file(image, room // QUICK) or exact_file(image, 2 * room)
            self.exact = len(data)
            if len(data) <= room:
                return Picture(data, "image/png", 1)
        for scale in SCALES:
            data = photograph(image.reduce(scale) if scale > 1 else image, room)
            if len(data) <= room:
                break
        return Picture(data, "image/jpeg", scale)


class Over(Exception):
    """A file is longer than allowed."""


class Limited(io.BytesIO):
    """A file with a limited size. It raises Over when more is written."""

    def __init__(self, most: int) -> None:
        super().__init__()
        self.most = most

    def write(self, data: Any) -> int:
        found = super().write(data)
        if self.tell() > self.most:
            raise Over
        return found


def exact_file(image: Image.Image, most: int) -> bytes:
    """Returns the PNG file of an image. If it needs more than `most` bytes, the result is longer than that and incomplete."""
    out = Limited(most)
    try:
        image.save(out, "PNG", compress_level=LEVEL)
    except Over:
        pass
    return out.getvalue()


def quick_file(image: Image.Image, most: int) -> bytes:
    """Returns the PNG file of an image, with each row predicted from the row above. Returns nothing if it needs more than `most` bytes."""
    rows = np.asarray(image).reshape(image.height, -1)
    told = np.empty((image.height, 1 + rows.shape[1]), np.uint8)
    told[:, 0] = UP
    told[0, 1:] = rows[0]
    np.subtract(rows[1:], rows[:-1], out=told[1:, 1:])
    packer, packed = zlib.compressobj(LEVEL), bytearray()
    for part in np.array_split(told, -(-told.size // PART)):
        packed += packer.compress(part.tobytes())
        if len(packed) > most:
            return b""
    packed += packer.flush()
    head = struct.pack(">IIBBBBB", image.width, image.height, 8, 2, 0, 0, 0)  # eight bits a colour, of three
    found = SIGN + b"".join(chunk(*it) for it in ((b"IHDR", head), (b"IDAT", bytes(packed)), (b"IEND", b"")))
    return found if len(found) <= most else b""


def chunk(name: bytes, data: bytes) -> bytes:
    """Returns a chunk of a PNG file."""
    return struct.pack(">I", len(data)) + name + data + struct.pack(">I", zlib.crc32(name + data))


def photograph(image: Image.Image, room: int) -> bytes:
    """Returns an image with the best quality that fits `room` bytes, or with the lowest quality. A higher quality takes more bytes."""

    def of(quality: int) -> bytes:
        return encoded(image, "JPEG", quality=quality, subsampling=0)

    best, *others, worst = QUALITIES
    found = of(best)
    if len(found) <= room:
        return found
    found = of(worst)
    while others and len(found) <= room:
        middle = len(others) // 2
        data = of(others[middle])
        fits = len(data) <= room
        found, others = (data, others[:middle]) if fits else (found, others[middle + 1 :])
    return found
