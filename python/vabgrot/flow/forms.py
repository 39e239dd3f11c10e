"""Output formats of a stream (NUT, YUV4MPEG2 and WAV), and the properties that a segment has."""

from __future__ import annotations

import io
import os
import sys
from collections.abc import Iterator
from contextlib import contextmanager
from dataclasses import dataclass
from fractions import Fraction
from pathlib import Path
from typing import IO, Any, Protocol

import numpy as np
import numpy.typing as npt

from vabgrot.errors import Refused
from vabgrot.flow.sound import Values
from vabgrot.replacing import naming
from vabgrot.video.colours import BT601, BT709, Bytes, Encoding, Samples, Signal
from vabgrot.video.images import Colours

HD = 1280  # pixels of a row; players use the matrix of BT.709 from this width
MOST_BASE = (1 << 31) - 1  # the limit of both numbers of a time base
NO_AV = "NUT is written by Debian's package python3-av, which is missing; --y4m and --wav need no package"
BAND = 16  # rows that are converted at a time
SAMPLE = 3  # bytes of a sample on one channel
UNKNOWN = 0xFFFFFFFF  # a size of a WAV file that is not known yet


@dataclass(frozen=True)
class Form:
    """The properties of a segment. Pictures: their size, whether they have 16 bits a component, the columns a second, and the columns of
    a picture. Sound: the rate (0 without sound), the channels to play, in order, and their mask in a WAV file."""

    width: int
    height: int
    is_deep: bool
    pace: Fraction
    period: int
    rate: int = 0
    channels: tuple[int, ...] = ()
    mask: int = 0

    @property
    def pictures(self) -> Fraction:
        """The pictures a second."""
        return (self.pace / self.period).limit_denominator(1001)

    def seconds(self, column: int) -> float:
        """Returns the time of a column in seconds."""
        return float(column / self.pace)

    def sample(self, column: int) -> int:
        """Returns the number of the sample at the time of a column."""
        return round(column * self.rate / self.pace)

    def __str__(self) -> str:
        bits = ", 16 bits a component" * self.is_deep
        sound = f"{self.rate:,} Hz, {len(self.channels)} channels" if self.rate else "no sound"
        return f"{self.width} x {self.height} pixels{bits}, {float(self.pictures):.6g} pictures a second, {sound}"


def octets_of(values: Values) -> bytes:
    """Returns samples as bytes: 24 bits each, low byte first."""
    return np.ascontiguousarray(values, "<i4").view(np.uint8).reshape(-1, 4)[:, :SAMPLE].tobytes()


class Sink(Protocol):
    """Writes a stream, segment by segment."""

    def begin(self, form: Form, number: int) -> None:
        """Begins a segment. The first one has number 1."""

    def picture(self, column: int, colours: Colours) -> None:
        """Writes a picture that begins at a column."""

    def sound(self, at: int, values: Values) -> None:
        """Writes samples. The first one has the number `at`."""

    def end(self) -> None:
        """Ends the segment."""


def numbered(path: str, number: int) -> str:
    """Returns the file name of a segment. From the second one on, a number is added before the suffix."""
    it = Path(path)
    return path if number == 1 else str(it.with_name(f"{it.stem}.{number}{it.suffix}"))


class Nut:
    """Writes NUT with PyAV, to a file or to standard output."""

    def __init__(self, path: str) -> None:
        try:
            import av
        except ImportError:
            raise Refused(NO_AV) from None
        self.av: Any = av
        self.path, self.name = path, path
        self.container: Any = None
        self.video: Any = None
        self.audio: Any = None

    def begin(self, form: Form, number: int) -> None:
        """Opens a file, or continues the one that contains all segments."""
        if self.path == "-":
            sys.stdout.flush()
            self.name, url = "standard output", f"pipe:{sys.stdout.fileno()}"
        else:
            self.name = numbered(self.path, number)
            url = f"file:{self.name}"
        with self.errors():
            self.container = self.av.open(url, "w", format="nut", options={"max_interleave_delta": "100000"})
            self.video = self.container.add_stream("rawvideo", rate=form.pictures)
            self.video.width, self.video.height = form.width, form.height
            self.video.pix_fmt = "rgb48le" if form.is_deep else "rgb24"
            self.base = (1 / form.pace).limit_denominator(MOST_BASE)
            self.video.codec_context.time_base = self.base
            self.audio = None
            if form.rate:
                self.audio = self.container.add_stream("pcm_s24le", rate=form.rate)
                self.audio.layout = hex(form.mask) if form.mask.bit_count() == len(form.channels) else f"{len(form.channels)}c"
        self.rate = form.rate

    def picture(self, column: int, colours: Colours) -> None:
        """Writes a picture."""
        self.put(self.video, np.ascontiguousarray(colours), column, self.base)

    def sound(self, at: int, values: Values) -> None:
        """Writes samples."""
        if self.audio is not None and len(values):
            self.put(self.audio, octets_of(values), at, Fraction(1, self.rate))

    def put(self, stream: Any, octets: bytes | npt.NDArray[Any], at: int, base: Fraction) -> None:
        """Writes a packet."""
        packet = self.av.Packet(octets if isinstance(octets, bytes) else octets.reshape(-1).view(np.uint8))
        packet.stream, packet.pts, packet.dts, packet.time_base = stream, at, at, base
        with self.errors():
            self.container.mux(packet)

    def end(self) -> None:
        """Ends the file."""
        if self.container is not None:
            with self.errors():
                self.container.close()
            self.container = None

    @contextmanager
    def errors(self) -> Iterator[None]:
        """Turns errors of PyAV into errors of the system."""
        try:
            yield
        except self.av.error.FFmpegError as why:
            raise OSError(why.errno, why.strerror, self.name) from None


class Plain:
    """A file that is written directly, one for each segment. With "-" all segments go to standard output."""

    def __init__(self, path: str) -> None:
        self.path, self.name = path, path
        self.file: IO[bytes] | None = None

    def opened(self, number: int) -> IO[bytes]:
        """Opens the file of a segment."""
        if self.path == "-":
            self.name, self.file = "standard output", sys.stdout.buffer
        else:
            self.name = numbered(self.path, number)
            self.file = open(self.name, "wb")
        return self.file

    def write(self, octets: bytes | npt.NDArray[Any]) -> None:
        """Writes bytes."""
        if self.file:
            with naming(self.name):
                self.file.write(octets if isinstance(octets, bytes) else octets.data)

    def end(self) -> None:
        """Ends the file."""
        if self.file:
            with naming(self.name):
                self.file.flush()
                if self.path != "-":
                    self.file.close()
        self.file = None


class Y4m(Plain):
    """Writes YUV4MPEG2: YCbCr 4:4:4 with eight bits and limited range. The matrix is BT.709 from 1,280 pixels a row on, below that
    BT.601."""

    def begin(self, form: Form, number: int) -> None:
        """Writes the header."""
        self.opened(number)
        self.signal = Signal(Encoding.YCC444, BT709 if form.width >= HD else BT601, is_full=False)
        rate, size = form.pictures, f"W{form.width} H{form.height}"
        self.write(f"YUV4MPEG2 {size} F{rate.numerator}:{rate.denominator} Ip A0:0 C444 XCOLORRANGE=LIMITED\n".encode())

    def picture(self, column: int, colours: Colours) -> None:
        """Writes a picture."""
        self.write(b"FRAME\n")
        self.write(planes_of(colours, self.signal))

    def sound(self, at: int, values: Values) -> None:
        """Does nothing: the format has no sound."""


class Wav(Plain):
    """Writes a WAV file with 24-bit samples. With more than two channels it has a channel mask.

    The sizes in the header say "unlimited" until the file ends. Then the true sizes are written, unless it is a pipe."""

    def begin(self, form: Form, number: int) -> None:
        """Writes the header, if there is sound."""
        self.form, self.size = form, 0
        if form.rate:
            self.opened(number)
            self.head = head_of(form)
            self.write(sized(self.head, UNKNOWN))

    def picture(self, column: int, colours: Colours) -> None:
        """Does nothing: the format has no pictures."""

    def sound(self, at: int, values: Values) -> None:
        """Writes samples."""
        octets = octets_of(values)
        self.size += len(octets)
        self.write(octets)

    def end(self) -> None:
        """Writes the true sizes."""
        if self.file and self.path != "-" and self.file.seekable():
            with naming(self.name):
                if self.size % 2:
                    self.file.write(b"\0")
                self.file.seek(0)
                self.file.write(sized(self.head, self.size))
        super().end()


def head_of(form: Form) -> bytes:
    """Returns the header of a WAV file, up to the samples."""
    import soundfile

    out, count = io.BytesIO(), len(form.channels)
    soundfile.write(out, np.zeros((0, count), np.int32), form.rate, "PCM_24", format="WAV" if count <= 2 else "WAVEX")
    data = bytearray(out.getvalue())
    end = data.index(b"data") + 8
    if count > 2:
        at = data.index(b"fmt ") + 8 + 20  # the channel mask
        data[at : at + 4] = form.mask.to_bytes(4, "little")
    return bytes(data[:end])


def sized(head: bytes, size: int) -> bytes:
    """Returns the header for `size` bytes of samples."""
    whole = min(len(head) - 8 + size + size % 2, UNKNOWN)
    return head[:4] + whole.to_bytes(4, "little") + head[8:-4] + min(size, UNKNOWN).to_bytes(4, "little")


def planes_of(colours: Colours, signal: Signal) -> Bytes:
    """Converts red, green and blue to planes of Y, Cb and Cr, rounded."""
    matrix, most = signal.matrix or BT709, 65_535 if colours.dtype == np.uint16 else 255
    luma = np.array([matrix.red, matrix.green, matrix.blue])
    blue, red = ((np.eye(3)[at] - luma) / (2 * (1 - part)) for at, part in ((2, matrix.blue), (0, matrix.red)))
    turned = np.stack([219 * luma, 224 * blue, 224 * red], axis=1) / most
    found = np.empty((3, *colours.shape[:2]), np.uint8)
    for begin in range(0, len(colours), BAND):
        band = colours[begin : begin + BAND].astype(np.float64) @ turned + (16.5, 128.5, 128.5)
        found[:, begin : begin + BAND] = np.moveaxis(band.astype(np.uint8), 2, 0)
    return found


def widened(colours: Colours, is_deep: bool) -> Colours:
    """Returns colours with the segment's number of bits."""
    if is_deep == (colours.dtype == np.uint16):
        return colours
    if is_deep:
        found: Samples = colours.astype(np.uint16) * np.uint16(257)
        return found
    narrow: Bytes = ((colours.astype(np.uint32) + 128) // 257).astype(np.uint8)
    return narrow


def fitted(colours: Colours, form: Form) -> Colours:
    """Returns colours in the size of the segment's pictures. Larger pictures are cut, smaller ones padded with black."""
    its = widened(colours, form.is_deep)
    if its.shape[:2] == (form.height, form.width):
        return its
    found = np.zeros((form.height, form.width, 3), its.dtype)
    height, width = min(form.height, its.shape[0]), min(form.width, its.shape[1])
    found[:height, :width] = its[:height, :width]
    return found


def is_terminal() -> bool:
    """Returns whether standard output is a terminal, which cannot show a stream."""
    return os.isatty(sys.stdout.fileno())
