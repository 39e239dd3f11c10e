"""What comes in is fed to the receiver: from standard input, a FIFO, a file, or a file that grows; raw blocks, which have no end, or a
capture."""

from __future__ import annotations

import contextlib
import fcntl
import os
import select
import time
from collections.abc import Iterator

from vabgrot import capture, program
from vabgrot.capture import BLOCK
from vabgrot.errors import Refused
from vabgrot.events import Events, joined
from vabgrot.library import Grammar
from vabgrot.receiving import Receiver
from vabgrot.watching.blocks import LANES, Blocks
from vabgrot.watching.keeping import Kept
from vabgrot.watching.stuck import Stuck

PAUSE = 100  # milliseconds after which a file that grows is looked at again
FIRST = 4  # bytes that say how long a header is
SOON = 0.03  # seconds within which more is waited for: many small batches take longer than some large ones
STALLED = 1.0  # seconds without a byte, from which on the source stalls
EVENTS, BYTES = 1 << 18, 1 << 24  # room for what a room of blocks mostly says
NOTHING = joined([])


class Feed:
    """A receiver over what comes from a file: with `is_raw` blocks without a header, else a capture. If the file `grows`, its end is waited
    for. `bytes` are those that came, `is_stopped` says that no more are wanted, and `refusal` says why it is no capture. `kept` keeps the
    last bits. Raises NoLibrary."""

    def __init__(self, source: int, grammar: Grammar, grows: bool, is_raw: bool) -> None:
        self.receiver = Receiver(kind=grammar, events=EVENTS, size=BYTES)
        self.source, self.grammar, self.grows, self.is_raw = source, grammar, grows, is_raw
        self.head, self.bytes, self.bits, self.refusal = b"", 0, [0] * LANES, ""
        self.error: OSError | None = None
        self.is_stopped, self.is_waiting, self.is_ended, self.is_aligned, self.is_cut_off = False, False, False, False, False
        self.blocks = Blocks() if is_raw else None  # of a capture they are known by its header
        self.left = [0] * LANES  # of a capture, the bits of each lane that were not fed
        self.came_at, self.is_silent, self.stuck = time.monotonic(), False, Stuck()
        self.kept: Kept | None = None
        self.heard: Iterator[Events] = iter(())
        self.next: Events | None = None
        self.wake, self.waker = os.pipe()
        with contextlib.suppress(OSError, AttributeError):  # where it is no pipe, or the system lets none be so large
            fcntl.fcntl(source, fcntl.F_SETPIPE_SZ, program.PIPE)

    @property
    def length(self) -> int:
        """The bits of the longest lane, by the header of a capture."""
        return max(self.bits)

    @property
    def is_whole(self) -> bool:
        """Whether a capture is there to its last byte."""
        return self.blocks is not None and self.blocks.is_done

    @property
    def silence(self) -> float:
        """The seconds since the last byte, if the source stalls; 0 if it does not."""
        seconds = time.monotonic() - self.came_at
        return seconds if self.is_silent and not self.is_ended and seconds >= STALLED else 0.0

    @property
    def lanes(self) -> list[int]:
        """The bytes of each lane that came."""
        return self.blocks.came() if self.blocks else [0] * LANES

    def ready(self, seconds: float) -> bool:
        """Waits for bytes, or for the end of what comes, or so long; answers whether there is something to read."""
        self.next = self.next or next(self.heard, None)
        if self.next or self.is_ended or self.is_stopped or self.refusal:
            return True
        if self.is_waiting:
            self.is_waiting = False
            select.select([self.wake], [], [], min(seconds, PAUSE / 1000))
            return True
        self.is_silent = not select.select([self.source, self.wake], [], [], seconds)[0]
        return not self.is_silent

    def read(self) -> Events | None:
        """The events that the bytes which are there decide. Their bytes are valid until the next call. At the end None."""
        found, self.next = self.next or next(self.heard, None), None
        if found is None:
            if self.is_ended:
                return None
            came = not (self.is_stopped or self.refusal) and self.fill()
            if came or not self.goes_on():
                self.heard = self.fed() if came and not self.refusal else self.last()
                found = next(self.heard, None)
        return found or NOTHING

    def fill(self) -> bool:
        """Takes in what is there, as far as there is room, and what comes soon after; answers whether something came."""
        came = total = self.came()
        now = time.monotonic()
        self.is_silent, self.came_at, until = not came, now if came else self.came_at, now + SOON
        while came and self.blocks and not self.blocks.is_full and self.waits(until - time.monotonic()):
            came = self.came()
            total += came
        return total > 0

    def waits(self, seconds: float) -> bool:
        """Waits so long for bytes or for the end of what comes; answers whether that is there. A stop ends the wait."""
        ready = select.select([self.source, self.wake], [], [], max(0.0, seconds))[0]
        return self.source in ready and not self.is_stopped

    def came(self) -> int:
        """Takes in bytes that are there: answers how many."""
        try:
            if self.blocks is None:
                came = self.begin()
            elif self.blocks.is_done:
                came = len(os.read(self.source, 1))
                self.refusal = f"not a capture: something follows its last bit, at byte {self.bytes:,}" if came else ""
            else:
                came = self.blocks.read(self.source)
        except OSError as why:
            self.error, came = why, 0
        self.bytes += came
        return came

    def begin(self) -> int:
        """Takes in a part of the header of a capture: answers how many bytes."""
        wanted = capture.size_of_header(self.head) if len(self.head) >= FIRST else FIRST
        piece = os.read(self.source, wanted - len(self.head))
        self.head += piece
        try:
            capture.check_magic(self.head)
            if len(self.head) >= FIRST and len(self.head) == capture.size_of_header(self.head):
                self.bits, _ = capture.header_of(self.head)
                self.left = [*self.bits]
                self.blocks = Blocks([(count + 7) // 8 for count in self.bits])
        except Refused as why:
            self.refusal = str(why)
        return len(piece)

    def goes_on(self) -> bool:
        """At the end of what is there: whether more is waited for."""
        self.is_waiting = self.grows and not (self.is_stopped or self.error or self.refusal or self.is_whole)
        return self.is_waiting

    def fed(self) -> Iterator[Events]:
        """Feeds all blocks that are whole."""
        count = self.judged() if self.blocks else 0
        if not self.blocks or not count:
            return
        lanes = blue, green, red = self.blocks.lanes(count)
        self.stuck.take(lanes)
        if self.kept:
            self.kept.add(lanes)
        bits = None if self.is_raw else [min(left, 8 * len(lane)) for left, lane in zip(self.left, lanes)]
        yield from self.receiver.feed_views(blue, green, red, bits=bits)
        if bits:
            self.left = [left - count for left, count in zip(self.left, bits)]
        self.blocks.take(count)

    def judged(self) -> int:
        """How many blocks are whole, and of a capture without ones after the end of a lane."""
        assert self.blocks
        count = self.blocks.whole()
        for number, lane in enumerate(self.blocks.lanes(count) if any(left % 8 for left in self.left) else []):
            spare = self.left[number] % 8
            if len(lane) == self.blocks.left[number] and spare and lane[-1] >> spare:
                count = min(count, (len(lane) - 1) // BLOCK)
                self.refusal = f"not a capture: lane {number} has ones after its last bit"
        return count

    def last(self) -> Iterator[Events]:
        """What is decided at the end of what came. A capture that is cut off is read to its last whole block."""
        if self.is_raw and self.blocks:
            blue, green, red = self.blocks.last()
            yield from self.receiver.feed_views(blue, green, red)
        elif not (self.refusal or self.error or self.is_stopped or self.is_whole):
            self.is_cut_off = self.blocks is not None
            self.refusal = "" if self.blocks else f"the capture breaks off after {self.bytes} bytes, in its header"
        if not self.refusal:
            rest, end = self.receiver.finish()
            self.is_aligned = end.aligned
            yield rest
        self.is_ended = True

    def stop(self) -> None:
        """Takes no more in: what was decided until then still comes."""
        self.is_stopped = True
        os.write(self.waker, b"x")

    def close(self) -> None:
        """Gives the receiver's memory back."""
        self.receiver.close()
