"""The receiver of the C library in Python. It takes the bits of three lanes in pieces of any size, and returns events."""

import ctypes
import io
import threading
import warnings
import weakref
from collections.abc import Collection, Iterator, Sequence
from ctypes import byref
from dataclasses import replace
from typing import Self, cast

import numpy as np

from vabgrot import library
from vabgrot.buffers import Buffer, view_of
from vabgrot.errors import KindWarning, Misuse, NoLibrary, Refused
from vabgrot.events import ENDS, GUARDS, RECORD, UNTOLD, End, Event, Events, Kind, Octets, joined, of_records
from vabgrot.library import FULL, KINDS, MISUSE, NOMEM, OF_EPOCHS, OK, TOOBIG, Grammar
from vabgrot.streams import Lane, is_stream, pieces_of

EVENTS, BYTES = 1 << 16, 1 << 20  # events and bytes that a receiver has room for
PIECE = 1 << 18  # bytes of a lane that `receive` feeds at a time

Empty = np.zeros(1, np.uint8)


def octets(lane: Buffer) -> Octets:
    """The bytes of a lane as an array. Raises TypeError where it is no buffer of bytes."""
    view = view_of(np.ascontiguousarray(lane) if isinstance(lane, np.ndarray) else lane, "a lane is")
    return np.frombuffer(view.cast("B"), np.uint8) if view.nbytes else Empty[:0]


def counts_in(bits: Sequence[int]) -> list[int]:
    """The counts of bits of three lanes. Raises Misuse if they are not three."""
    if len(bits) != 3:
        raise Misuse(f"there are {len(bits)} counts of bits, and three lanes")
    return [*bits]


def bits_of(lanes: Sequence[Octets], bits: Sequence[int] | None) -> list[int]:
    """How many bits of each lane are meant: so many, or all. Raises Misuse where its bytes have not so many."""
    counts = [8 * len(lane) for lane in lanes] if bits is None else counts_in(bits)
    for number, (lane, count) in enumerate(zip(lanes, counts)):
        if not 0 <= count <= 8 * len(lane):
            raise Misuse(f"lane {number} is to have {count} bits, and its {len(lane)} bytes have {8 * len(lane)}")
    return counts


class Receiver:
    """Turns the raw bits of three lanes into events.

    The lanes may start at any bit and be up to 70 bits apart. Within a byte, the first bit is the lowest.

        kind="link"     HDMI, with guard bands and preambles (default)
        kind="dvi"      DVI, without them
        kind="track"    like "link"; if a lane loses bits, Kind.SLIP is reported and the lanes are aligned again
        kind="relock"   like "track"; a wrong alignment is dropped too, which is reported as Kind.RELOCKED

    The events are proved to depend only on the bits, not on how they are cut into calls (docs/proof/PROVED.md). Several threads may call
    one receiver; the calls wait for each other.

    Raises ValueError (unknown kind, or too little room), NoLibrary (no C library, or it lacks the kind), MemoryError, and Misuse (a call
    does not fit the calls before it, and has done nothing).

        with Receiver() as receiver:
            for event in receiver.feed(blue, green, red):
                print(event)
            rest, end = receiver.finish()"""

    def __init__(self, *, kind: Grammar = "link", events: int = EVENTS, size: int = BYTES) -> None:
        """Of a kind, with room for so many events and so many of their bytes, which its calls fill as often as they must."""
        if kind not in KINDS:
            raise ValueError(f"there is no receiver of the kind {kind!r}, but of {', '.join(KINDS)}")
        fewest, least = library.least_room(kind)
        if events < fewest or size < least:
            raise ValueError(f"a receiver of the kind {kind!r} wants room for {fewest} events and {least} bytes at least")
        self._calls = library.needed()
        self._lock, self._has_epochs = threading.Lock(), kind in OF_EPOCHS
        self._handle, self._answer = library.Handle(), library.Answer()
        self._records, self._bytes = np.empty(events, RECORD), np.empty(size, np.uint8)
        self._epoch, self._guards = 0, 0 if kind == "dvi" else GUARDS
        self._room = self._records.ctypes.data, events, self._bytes.ctypes.data, size, byref(self._answer)
        self._open(kind)
        self._end = weakref.finalize(self, close, self._calls, self._handle)

    def __enter__(self) -> Self:
        return self

    def __exit__(self, *_: object) -> None:
        self.close()

    def feed(self, blue: Buffer, green: Buffer, red: Buffer, *, bits: Sequence[int] | None = None) -> Events:
        """Takes bits of each lane, all of its bytes or as many as `bits` says of it, and answers the events that they decide. A lane
        whose bits are no whole bytes, or are fewer than another lane's, has ended with them."""
        with self._lock:
            return joined([replace(it, data=it.data.copy()) for it in self._fed(blue, green, red, bits)])

    def feed_views(self, blue: Buffer, green: Buffer, red: Buffer, *, bits: Sequence[int] | None = None) -> Iterator[Events]:
        """The same without a copy of the bytes of rows and packets, each time that the receiver's own room is full. Read each before you
        ask for the next one, and ask for all of them before another call. No other thread may call the receiver meanwhile."""
        yield from self._fed(blue, green, red, bits)

    def finish(self) -> tuple[Events, End]:
        """Ends the lanes. Returns the remaining events and the End. The receiver takes no more bits until `restart`."""
        with self._lock:
            self._check(self._calls.vabgrot_finish(byref(self._handle), *self._room))
            rest, answer = self._written(), self._answer
            end = End(UNTOLD, answer.columns, answer.aligned) if self._has_epochs else End(answer.columns, 1, answer.aligned)
            return replace(rest, data=rest.data.copy()), end

    def restart(self) -> None:
        """Resets the receiver to its initial state."""
        with self._lock:
            self._check(self._calls.vabgrot_restart(byref(self._handle)))
            self._epoch = 0

    def close(self) -> None:
        """Frees the memory. Later calls raise Misuse, except another `close`."""
        with self._lock:
            self._end()

    def _open(self, kind: Grammar) -> None:
        """Allocates the memory of a receiver."""
        status = self._calls.vabgrot_open(byref(self._handle), KINDS[kind])
        if status == MISUSE:
            raise NoLibrary(f"the C library has no receiver of the kind {kind!r}: it is of another version")
        self._check(status)

    def _fed(self, blue: Buffer, green: Buffer, red: Buffer, bits: Sequence[int] | None) -> Iterator[Events]:
        """What is written of bits, each time that there was no room for all."""
        lanes, status = [octets(lane) for lane in (blue, green, red)], FULL
        left = bits_of(lanes, bits)
        places = [lane.ctypes.data if len(lane) else Empty.ctypes.data for lane in lanes]
        while status == FULL:
            words = [word for place, count in zip(places, left) for word in (place, (count + 7) // 8)]
            status = self._calls.vabgrot_feed(byref(self._handle), *words, byref(library.Bits(*left)), *self._room)
            self._check(status)
            taken = self._answer.taken
            for at, count in enumerate((taken.blue, taken.green, taken.red)):
                places[at] += count // 8
                left[at] -= count
            yield self._written()

    def _written(self) -> Events:
        """Returns the events of the last call. Their bytes are not copied."""
        records, data = self._records[: self._answer.events], self._bytes[: self._answer.bytes]
        found = of_records(records, data, self._epoch, self._guards)
        self._epoch += len(found.of(*ENDS))
        return found

    def _check(self, status: int) -> None:
        """Raises the error for a status."""
        if status == MISUSE:
            raise Misuse("the receiver is closed or was finished, or a lane that had ended was given bits")
        if status == TOOBIG:
            raise Refused("a lane would have 2^60 bits or more")
        if status == NOMEM:
            raise MemoryError("there is no memory for a receiver")
        if status not in (OK, FULL):
            raise NoLibrary(f"the C library answers the status {status}, which is not known: it is of another version")


def close(calls: ctypes.CDLL, handle: library.Handle) -> None:
    """Closes a handle."""
    calls.vabgrot_close(byref(handle))


def pieces(lanes: Sequence[Buffer], bits: Sequence[int] | None = None) -> Iterator[tuple[list[Octets], list[int]]]:
    """Bits of three lanes in pieces that a receiver can be fed one after another: the bytes, and how many bits of each."""
    given = [octets(lane) for lane in lanes]
    counts = bits_of(given, bits)
    for at in range(0, (max(counts) + 7) // 8, PIECE):
        yield [lane[at : at + PIECE] for lane in given], [min(8 * PIECE, max(0, count - 8 * at)) for count in counts]


def pieces_from(lanes: Sequence[Lane], bits: Sequence[int] | None) -> Iterator[tuple[Sequence[Buffer], list[int]]]:
    """The same of lanes that are buffers, files or both."""
    if any(map(is_stream, lanes)):
        streams = [it if is_stream(it) else io.BytesIO(octets(cast(Buffer, it)).tobytes()) for it in lanes]
        yield from pieces_of(streams, None if bits is None else counts_in(bits))
    else:
        yield from pieces(cast(Sequence[Buffer], lanes), bits)


def warn_of_dvi(kinds: Collection[int], level: int) -> None:
    """Warns if no row and no island opens, but something else comes in their places, as of a DVI source. `level` counts the calls up to
    the caller whose line the warning names. (Kinds of events are given.)"""
    if Kind.NOISE in kinds and not {Kind.LINE, Kind.OPEN, Kind.PACKET} & {*kinds}:
        says = 'no row and no island opens, but other columns come in their places. If this is DVI, read it with kind="dvi"'
        warnings.warn(says, KindWarning, level + 1)


def receive(blue: Lane, green: Lane, red: Lane, *, bits: Sequence[int] | None = None, kind: Grammar = "link") -> Iterator[Event | End]:
    """The events of the bits of three lanes, one after another, all of their bytes or as many as `bits` says of each; the last is the
    End. A lane is bytes, a binary file, a pipe or a socket; events come as soon as all lanes have their bits. `kind` is that of the
    Receiver: "link", "dvi", "track" or "relock"; and it raises as that does. Warns with KindWarning if this may be DVI."""
    kinds: set[int] = set()
    with Receiver(kind=kind) as receiver:
        for lanes, counts in pieces_from((blue, green, red), bits):
            events = receiver.feed(*lanes, bits=counts)
            kinds.update(np.unique(events.kind).tolist())
            yield from events
        rest, end = receiver.finish()
        yield from rest
        if kind != "dvi":
            warn_of_dvi(kinds, 2)
        yield end
