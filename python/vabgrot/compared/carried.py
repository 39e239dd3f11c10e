"""Reads what a capture, pictures or a WAV file contain (frames, packets and samples), so that they can be compared."""

from __future__ import annotations

import tempfile
import zlib
from collections import Counter
from collections.abc import Iterable, Iterator, Sequence
from contextlib import contextmanager
from dataclasses import dataclass, field
from pathlib import Path
from typing import IO, NamedTuple

import numpy as np
import numpy.typing as npt
from PIL import Image

from vabgrot import pcm
from vabgrot import reading as reader
from vabgrot.content import SAMPLE, Content, Flow, Frame, Packets, picture_of
from vabgrot.errors import Refused
from vabgrot.events import Events, Ints
from vabgrot.formats.layouts import Type
from vabgrot.library import Grammar
from vabgrot.reading import Reading
from vabgrot.video.images import colours_of, shallow
from vabgrot.video.signals import Signals

Picture = npt.NDArray[np.uint8]  # rows, pixels, and red, green and blue
SMALL = 16  # pixels of a small picture across and down
CAPTURE, WAV = b"TMC", b"RIFF"
CONVERTED = "pixels of {name} are converted to RGB of full range and 24 bits, as its InfoFrames tell"


class Still(NamedTuple):
    """A frame: its width and height, the CRC-32 of its bytes (red, green and blue of each pixel, row by row), and a small picture of it."""

    width: int
    height: int
    crc: int
    small: npt.NDArray[np.float32]
    place: int


@dataclass
class Carried:
    """The contents of one or more files. The pixels of frames are kept in a temporary file.

    A number in `samples` is the left value times 2^24 plus the right one. `packets` counts each content of a packet, without Null packets
    and samples."""

    name: str
    file: IO[bytes]
    frames: list[Still] = field(default_factory=list)
    samples: Ints = field(default_factory=lambda: np.zeros(0, np.int64))
    packets: Counter[tuple[bytes, bytes]] = field(default_factory=Counter)
    lost: int = 0
    is_reference: bool = False
    has_sound: bool = False
    first: list[str] = field(default_factory=list)  # the first lines of the result: slips, a second reading, a capture that is cut off
    notes: dict[str, None] = field(default_factory=dict)  # how the pixels were converted, and what was assumed, without repetitions

    def add(self, picture: Picture) -> None:
        """Keeps a frame."""
        data = picture.tobytes()
        height, width = picture.shape[:2]
        self.frames.append(Still(width, height, zlib.crc32(data), small_of(picture), self.file.seek(0, 2)))
        self.file.write(data)

    def forget(self) -> None:
        """Drops all frames, before a capture is read again."""
        self.frames.clear()

    def picture(self, number: int) -> Picture:
        """Returns the pixels of a frame."""
        still = self.frames[number]
        self.file.seek(still.place)
        data = self.file.read(3 * still.width * still.height)
        return np.frombuffer(data, np.uint8).reshape(still.height, still.width, 3)


def small_of(picture: Picture) -> npt.NDArray[np.float32]:
    """Returns a small picture: the means of the parts of a frame."""
    rows = np.linspace(0, picture.shape[0], SMALL + 1).astype(int)[:-1]
    columns = np.linspace(0, picture.shape[1], SMALL + 1).astype(int)[:-1]
    across = np.add.reduceat(picture.astype(np.float32), columns, axis=1)
    sums = np.add.reduceat(across, rows, axis=0)
    widths, heights = np.diff(columns, append=picture.shape[1]), np.diff(rows, append=picture.shape[0])
    small: npt.NDArray[np.float32] = (sums / np.maximum(np.outer(heights, widths), 1)[:, :, None]).astype(np.float32)
    return small


@contextmanager
def carried(paths: Sequence[Path], converts: bool = False) -> Iterator[Carried]:
    """Reads a capture, or pictures and WAV files. If `converts` is set, the pixels of a capture are converted to colours."""
    with tempfile.TemporaryFile() as file:
        found = Carried(" ".join(map(str, paths)), file)
        kinds = [kind_of(path) for path in paths]
        if CAPTURE in kinds and len(paths) > 1:
            raise Refused(f"{paths[kinds.index(CAPTURE)]}: a capture can only be compared alone. Leave the other files out")
        for path, kind in zip(paths, kinds):
            if kind == CAPTURE:
                take_capture(found, path, converts)
            elif kind == WAV:
                take_sound(found, path)
            else:
                found.add(picture_in(path))
        found.is_reference = CAPTURE not in kinds
        yield found


def kind_of(path: Path) -> bytes:
    """Returns the first bytes of a capture or a sound file, and b"" for a picture."""
    with open(path, "rb") as file:
        head = file.read(4)
    return next((kind for kind in (CAPTURE, WAV) if head.startswith(kind)), b"")


def picture_in(path: Path) -> Picture:
    """Reads the pixels of a picture file."""
    try:
        with Image.open(path) as image:
            return np.asarray(image.convert("RGB"))
    except (OSError, SyntaxError, ValueError, Image.DecompressionBombError) as why:
        cause = getattr(why, "strerror", None) or why
        raise Refused(f"{path}: not a capture, a picture or a WAV file ({cause}). Give one of these") from None


def take_sound(found: Carried, path: Path) -> None:
    """Adds the samples of a WAV file after those already there."""
    sound = pcm.read(path)
    sides = [np.frombuffer(side, np.uint8).reshape(-1, 3).astype(np.int64) @ (1 << 16, 1 << 8, 1) for side in (sound.left, sound.right)]
    found.samples = np.concatenate([found.samples, sides[0] << 24 | sides[1]])
    found.has_sound = True


class Taking:
    """Keeps the whole frames of a capture while it is read. If `converts` is set, their pixels are converted to colours, as the packets
    before the end of each frame say."""

    def __init__(self, found: Carried, grammar: Grammar, converts: bool) -> None:
        found.forget()
        self.found, self.converts, self.flow = found, converts, Flow()
        self.signals = Signals(has_packets=grammar != "dvi")

    def take(self, events: Events) -> None:
        """Takes the next events."""
        self.keep(self.flow.take(events))

    def keep(self, known: Iterable[Packets | Frame]) -> None:
        """Takes packets and frames."""
        for it in known:
            if isinstance(it, Frame):
                if it.is_whole:
                    self.found.add(self.picture(it))
            elif self.converts:
                self.signals.take_packets(it)

    def picture(self, frame: Frame) -> Picture:
        """Returns the colours of a frame. If they are not its bytes, the conversion is noted."""
        reading = self.signals.reading(frame.width) if self.converts else None
        if reading is None or reading.signal.is_plain:
            return picture_of(frame.rows)
        self.found.notes.update(dict.fromkeys((CONVERTED.format(name=self.found.name), *reading.notes)))
        return shallow(colours_of(frame.rows, frame.width, reading.signal))


def take_capture(found: Carried, path: Path, converts: bool) -> None:
    """Adds the whole frames, the packets and the samples of a capture."""
    taken: list[Taking] = []

    def taking(grammar: Grammar) -> Taking:
        taken[:] = [Taking(found, grammar, converts)]
        return taken[0]

    it = reader.read(path, taker=taking)
    it.refuse_unaligned()
    taken[0].keep(taken[0].flow.finish())
    take_packets(found, it)
    found.first = [f"{path.name}: {note}" for note in it.notes]


def take_packets(found: Carried, it: Reading) -> None:
    """Adds the packets and the samples of a reading."""
    content = Content(it)
    known = content.packets.known
    found.lost = int(content.packets.lost.sum())
    others = known[(known.kind != Type.NULL) & (known.kind != Type.SAMPLES)]
    found.packets = Counter((packet.header, packet.bytes) for packet in others)
    pairs = [SAMPLE["left"].numbers(bodies) << 24 | SAMPLE["right"].numbers(bodies) for bodies in content.samples.bodies]
    found.samples, found.has_sound = np.concatenate(pairs), True
