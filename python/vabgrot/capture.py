"""Reads and writes captures (docs/guide/FORMATS.md): the header, and three lanes in alternating blocks of 4,096 bytes."""

import io
import os
import shutil
import tempfile
from collections.abc import Iterator, Sequence
from contextlib import contextmanager
from dataclasses import dataclass
from io import BufferedIOBase, BufferedReader
from pathlib import Path
from typing import IO, BinaryIO, TypeAlias, cast

from vabgrot import place
from vabgrot.buffers import Buffer, view_of
from vabgrot.errors import Refused

BLOCK = 4096
MOST_BITS = (1 << 32) - 1
HEADER = 16  # the greatest size of a header in bytes


def head_of(counts: Sequence[int]) -> bytes:
    """The header of a capture: the bits of each lane, or one number for all."""
    return (b"TMC2" if len(counts) > 1 else b"TMC1") + b"".join(count.to_bytes(4, "big") for count in counts)


@dataclass(frozen=True, eq=False)
class Memory:
    """A capture in memory, which stands for its file."""

    data: bytes

    def __str__(self) -> str:
        return "the capture in memory"


Source = str | Path | Memory
Given: TypeAlias = "str | os.PathLike[str] | Buffer | IO[bytes]"


def source_of(given: Given) -> Path | Memory:
    """The capture that a path, bytes or an open binary file has. Raises TypeError if it is none of them, and OSError."""
    if isinstance(given, (str, os.PathLike)):
        return Path(given)
    read = getattr(given, "read", None)
    data = given if isinstance(given, bytes) else read() if read else view_of(cast(Buffer, given), "a capture is").tobytes()
    if not isinstance(data, bytes):
        raise TypeError('a capture is bytes: open its file with the mode "rb"')
    return Memory(data)


def opened(source: Source) -> BufferedIOBase:
    """An open file of a capture. Raises OSError."""
    if isinstance(source, Memory):
        return io.BytesIO(source.data)
    return open(source, "rb")


def write(out: IO[bytes], lanes: Sequence[IO[bytes]], counts: Sequence[int]) -> None:
    """Writes a capture of three lanes, which are open files of bits (the first bit lowest). `counts` gives the bits of each lane. In
    version 1 it is one number for all lanes. Raises OSError."""
    out.write(head_of(counts))
    for _ in range(0, (max(counts) + 7) // 8, BLOCK):
        out.writelines(lane.read(BLOCK) for lane in lanes)
    out.flush()


def check_magic(data: bytes) -> None:
    """Raises Refused if the first bytes of a file cannot begin a capture. Fewer bytes than the header has are enough."""
    if data[:3] != b"TMC"[: len(data)]:
        made = place.named("Make one from raw bits with `tools/lanes pack`")
        raise Refused(f"not a capture: it starts with {data[:3].hex(' ')}, not with TMC. {made}")
    if data[3:4] not in (b"", b"1", b"2"):
        raise Refused(f"the capture has the version {data[3:4]!r}. Only the versions 1 and 2 exist")


def size_of_header(data: bytes) -> int:
    """Returns the size of a header, given its first four bytes."""
    return 4 + 4 * (3 if data[3:4] == b"2" else 1)


def header_of(data: bytes) -> tuple[list[int], int]:
    """Reads a capture's header from its first 16 bytes. Returns the number of bits of each lane and the offset of the first block. Raises
    Refused if this is not a header."""
    check_magic(data)
    start = size_of_header(data)
    if len(data) < start:
        raise Refused(f"the capture ends after {len(data)} bytes, in its header. Record or copy it again")
    counts = [int.from_bytes(data[at : at + 4], "big") for at in range(4, start, 4)]
    return counts * (3 // len(counts)), start


def place_of(start: int, lengths: Sequence[int], lane: int, byte: int) -> int:
    """Returns where byte `byte` of lane `lane` is stored in a capture file. `lengths` are the sizes of the lanes in bytes, `start` is the
    offset of the first block."""
    at = byte - byte % BLOCK
    before = sum(min(at, length) for length in lengths)
    return start + before + sum(min(BLOCK, max(length - at, 0)) for length in lengths[:lane]) + byte - at


def lanes_of(data: bytes) -> tuple[list[bytearray], list[int]]:
    """Reads the three lanes of a complete capture: their bytes (the first bit lowest) and their numbers of bits. Raises Refused if this
    is not a capture."""
    counts, at = header_of(data)
    lengths = [(count + 7) // 8 for count in counts]
    if len(data) != at + sum(lengths):
        raise Refused(f"the capture has {len(data)} bytes, but its header says {at + sum(lengths)}. Record or copy it again")
    lanes = [bytearray() for _ in range(3)]
    for _ in range(0, max(lengths), BLOCK):
        for lane, length in zip(lanes, lengths):
            size = min(BLOCK, length - len(lane))
            lane += data[at : at + size]
            at += size
    for number, (lane, count) in enumerate(zip(lanes, counts)):
        if count % 8 and lane[-1] >> count % 8:
            raise Refused(f"lane {number} has ones after its last bit. Pack the capture again")
    return lanes, counts


@contextmanager
def path_in(source: BinaryIO) -> Iterator[Path | None]:
    """Yields the path of the capture if `source` (for example standard input) is a file that begins with one, otherwise None."""
    if cast(BufferedReader, source).peek(1)[:1] != b"T":
        yield None
        return
    path = Path(f"/proc/self/fd/{source.fileno()}")
    if source.seekable() and source.tell() == 0 and path.is_file():
        yield path
        return
    with tempfile.NamedTemporaryFile(suffix=".tmc") as file:
        shutil.copyfileobj(source, file)
        file.flush()
        yield Path(file.name)
