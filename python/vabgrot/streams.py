"""Lanes that arrive by files, pipes or sockets: pieces of all three, as their bytes come."""

from __future__ import annotations

import mmap
import selectors
import socket
from collections.abc import Callable, Iterator, Sequence
from dataclasses import dataclass, field
from functools import cached_property
from typing import Protocol, TypeAlias, TypeGuard

from vabgrot.buffers import Buffer
from vabgrot.errors import Misuse

SIZE = 1 << 18  # bytes that are asked for at a time


class Reader(Protocol):
    """A binary file: `open(path, "rb")`, a pipe of a process, an `io.BytesIO`."""

    def read(self, size: int, /) -> bytes | None:
        """Returns at most so many bytes, and none at the end."""


Stream: TypeAlias = Reader | socket.socket
Lane: TypeAlias = "Buffer | Stream"


def is_stream(lane: Lane) -> TypeGuard[Stream]:
    """Whether a lane is read, and is no buffer."""
    return not isinstance(lane, mmap.mmap) and (hasattr(lane, "read") or hasattr(lane, "recv"))


def reader_of(stream: Stream) -> Callable[[int], bytes | None]:
    """The call that waits for the first bytes alone, and not for all that it is asked for."""
    if isinstance(stream, socket.socket):
        return stream.recv
    found: Callable[[int], bytes | None] = getattr(stream, "read1", stream.read)
    return found


@dataclass(eq=False)
class Source:
    """A lane that is read. `held` are the bytes that came early, `left` are the bits that are still to be taken: None if they are all
    up to its end."""

    number: int
    stream: Stream
    left: int | None
    held: bytearray = field(default_factory=bytearray)
    has_ended: bool = False

    @cached_property
    def descriptor(self) -> int | None:
        """Its file's number for the system, if it has one."""
        try:
            return int(self.stream.fileno())  # type: ignore[union-attr]
        except (AttributeError, ValueError):
            return None

    def come(self) -> None:
        """Reads what is there now. Raises Misuse if the lane ends before the bits that it is to have."""
        most = SIZE if self.left is None else (self.left + 7) // 8 - len(self.held)
        data = reader_of(self.stream)(min(SIZE, most)) if most else b""
        if isinstance(data, str):
            raise TypeError('a lane is bytes: open its file with the mode "rb"')
        self.held += data or b""
        self.has_ended = data is not None and not data
        if self.has_ended and self.left is not None and 8 * len(self.held) < self.left:
            raise Misuse(f"lane {self.number} ends {self.left - 8 * len(self.held)} bits before the bits that it is to have")

    def take(self, size: int) -> tuple[bytes, int]:
        """At most so many of its bytes, and how many bits they are."""
        data = bytes(self.held[:size])
        del self.held[:size]
        bits = 8 * len(data) if self.left is None else min(8 * len(data), self.left)
        self.left = None if self.left is None else self.left - bits
        return data, bits


def ready(selector: selectors.BaseSelector, sources: Sequence[Source]) -> list[Source]:
    """The lanes that have bytes or have ended, as soon as there is one. A file without a descriptor is always ready."""
    others = [it for it in sources if it.descriptor is None and not it.has_ended]
    its = [key.data for key, _ in selector.select(0 if others else None)] if selector.get_map() else []
    return its + others


def pieces_of(streams: Sequence[Stream], bits: Sequence[int] | None) -> Iterator[tuple[list[bytes], list[int]]]:
    """Bits of three lanes in pieces that a receiver can be fed one after another: the bytes, and how many bits of each. All lanes have
    equally many until one of them has ended. Bytes that come early are kept, so that no order of writing stops a sender."""
    sources = [Source(number, it, bits[number] if bits else None) for number, it in enumerate(streams)]
    with selectors.PollSelector() as selector:
        for source in sources:
            if source.descriptor is not None:
                selector.register(source.descriptor, selectors.EVENT_READ, source)
        while not all(it.has_ended for it in sources):
            for source in ready(selector, sources):
                source.come()
                if source.has_ended and source.descriptor is not None:
                    selector.unregister(source.descriptor)
            size = min((len(it.held) for it in sources if not it.has_ended), default=max(len(it.held) for it in sources))
            if size:
                data, counts = zip(*(it.take(size) for it in sources))
                yield [*data], [*counts]
