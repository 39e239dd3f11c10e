"""The events of a live link, part by part. Columns count over all epochs, although the link has no end yet."""

from __future__ import annotations

import contextlib
import os
import stat
import sys
from collections.abc import Iterator
from dataclasses import dataclass, replace
from functools import cached_property
from pathlib import Path

import numpy as np

from vabgrot import command
from vabgrot import reading as reader
from vabgrot.content import Packets, known_up_to, packets_of
from vabgrot.errors import Refused, Unaligned
from vabgrot.events import ENDS, Events, Ints, joined
from vabgrot.formats.characters import TEN
from vabgrot.library import Grammar
from vabgrot.watching.feeding import Feed

LIVE: Grammar = "relock"  # the kind of receiver for a link that cannot be read twice
CUT_OFF = "the capture is cut off: it was read to its last whole block"


@dataclass(frozen=True, eq=False)
class Part:
    """Successive events. A packet and its faults are always in the same part. `at` counts columns over all epochs. A new epoch begins at
    the column that the bit of its slip gives."""

    events: Events
    at: Ints

    def __len__(self) -> int:
        return len(self.events)

    @cached_property
    def packets(self) -> Packets:
        """The packets of this part."""
        return packets_of(self.events, self.at - self.events.first)

    def among(self, begin: int, stop: int) -> Packets:
        """Returns the packets among the events from `begin` to `stop` (exclusive)."""
        first, last = np.searchsorted(self.packets.place, (begin, stop)).tolist()
        return self.packets[first:last]


class Making:
    """Makes parts of events. `before` is the difference between `at` and `first` in the current epoch."""

    def __init__(self) -> None:
        self.before, self.end = 0, 0
        self.rest = joined([])  # the last packet: its faults may still follow

    def take(self, events: Events) -> Iterator[Part]:
        """Takes events and yields a part, if one is complete. The caller may overwrite their bytes after this call."""
        its = replace(events, data=events.data.copy())
        its = joined([self.rest, its]) if len(self.rest) else its
        keep = known_up_to(its)
        self.rest = its[keep:].without_pixels()
        yield from self.made(its[:keep])

    def finish(self) -> Iterator[Part]:
        """Yields the last part, at the end of the link."""
        yield from self.made(self.rest)

    def made(self, its: Events) -> Iterator[Part]:
        """Yields a part. The faults of its packets are complete."""
        if len(its):
            yield Part(its, self.counted(its))

    def counted(self, its: Events) -> Ints:
        """Returns the column of each event over all epochs."""
        at, begin, ends = np.empty(len(its), np.int64), 0, its.of(*ENDS).tolist()
        for stop in [*ends, len(its)]:
            inside = slice(begin, stop)
            at[inside] = its.first[inside] + self.before
            self.end = max(self.end, int((at[inside] + its.width[inside]).max(initial=0)))
            if stop < len(its):
                at[stop] = self.before = self.end = max(self.end, int(its.first[stop]) // TEN)
            begin = stop + 1
        return at


class Link:
    """A link that is read from a file: a capture, or with `is_raw` raw blocks without an end. `kind` is the kind of the receiver. Raises
    NoLibrary if the C library is missing."""

    def __init__(self, file: int, kind: Grammar, is_raw: bool = False, grows: bool = False) -> None:
        self.kind, self.is_dvi = kind, kind == "dvi"
        self.feed = Feed(file, kind, grows, is_raw)

    def parts(self) -> Iterator[Part]:
        """Yields the events until the link ends or is stopped."""
        making = Making()
        while True:
            if not self.feed.ready(1):
                continue
            events = self.feed.read()
            if events is None:
                yield from making.finish()
                return
            yield from making.take(events)

    def check(self) -> None:
        """Raises Refused if the input was no capture, or Unaligned if nothing aligned. Says if the capture was cut off. Call it after the
        last part."""
        if self.feed.error:
            raise self.feed.error
        if self.feed.is_stopped:
            return
        if self.feed.refusal:
            raise Refused(self.feed.refusal)
        if not self.feed.is_aligned:
            raise Unaligned(reader.UNALIGNED)
        if self.feed.is_cut_off:
            command.say(CUT_OFF)


@contextlib.contextmanager
def opened(path: str, is_dvi: bool = False, is_raw: bool = False, grows: bool = False) -> Iterator[Link]:
    """Opens a link; "-" is standard input.

    A capture in a regular file is read once before, and is received as the other tools do it. Everything else is a live link and is
    received as `recover relock` does it."""
    if path == "-" and sys.stdin.isatty():
        raise Refused("standard input is a terminal: a capture is wanted there, or the name of a file")
    with contextlib.ExitStack() as stack:
        file = sys.stdin.fileno() if path == "-" else os.open(path, os.O_RDONLY)
        if path != "-":
            stack.callback(os.close, file)
        kind: Grammar = "dvi" if is_dvi else LIVE
        if not (is_dvi or is_raw or grows) and stat.S_ISREG(os.fstat(file).st_mode):
            kind = reader.read(Path("/dev/stdin" if path == "-" else path)).grammar
        link = Link(file, kind, is_raw, grows)
        stack.callback(link.feed.close)
        yield link
