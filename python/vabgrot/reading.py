"""Reads a capture, epoch by epoch: the function `read`, and its result (`Reading`).

An epoch is a stretch of the capture with one alignment. It ends if a lane loses bits (a slip), or if later guard bands refute the
alignment (a relock). Columns count from 0 in each epoch. Every tool gets the epochs with their cause, their place in bits and their
alignment, so no statistic mixes two alignments."""

from __future__ import annotations

import logging
import os
from collections.abc import Callable, Iterator
from dataclasses import dataclass, replace
from functools import cached_property
from io import BufferedIOBase
from pathlib import Path
from typing import Any, Protocol, cast

import numpy as np
import numpy.typing as npt
from tqdm import tqdm

from vabgrot import capture, place
from vabgrot.capture import Memory
from vabgrot.errors import Refused, Unaligned
from vabgrot.events import ENDS, End, Events, Ints, Kind, Mask, joined
from vabgrot.lanes.columns import Columns, alignment_of
from vabgrot.library import Grammar
from vabgrot.receiving import Receiver

ROOM, BYTES = 1 << 17, 1 << 22  # events and bytes that the receiver has room for
BLOCKS = 240  # blocks of each lane that are read at a time: a multiple of 80 bytes
SIZE = BLOCKS * capture.BLOCK
IN_A_ROW = 3  # openings without a whole guard band, one after another, are rare unless the alignment is wrong
log = logging.getLogger(__name__)
UNALIGNED = place.named("not aligned: `tools/lanes look` says what the lanes have")
Octets = npt.NDArray[np.uint8]
Piece = tuple[Octets, Octets, Octets, list[int]]


class Taker(Protocol):
    """Takes events while a capture is read. This is the only way to get pixels."""

    def take(self, events: Events) -> None:
        """Takes the next events."""


@dataclass(frozen=True)
class Bits:
    """The number of bits of each lane: in the header (`told`) and in the file (`read`). A capture that was stopped has fewer bits in the
    file. It is read up to its last complete block."""

    told: tuple[int, ...]
    read: tuple[int, ...]
    start: int

    @property
    def is_cut_off(self) -> bool:
        """Whether the file ends before its lanes do."""
        return self.told != self.read

    @property
    def words(self) -> str:
        """What is missing of the capture, in words; "" if it is complete."""
        if not self.is_cut_off:
            return ""
        return f"the capture is cut off: {min(self.read):,} of {min(self.told):,} bits a lane are there, to the last whole block"


def bits_of(source: Path | Memory) -> Bits:
    """The bits of a capture's lanes. Raises Refused if the file is no capture, or if something follows its last bit."""
    with capture.opened(source) as file:
        try:
            counts, start = capture.header_of(file.read(capture.HEADER))
        except Refused as why:
            raise Refused(f"{source}: {why}") from None
        lengths = [(count + 7) // 8 for count in counts]
        have = file.seek(0, os.SEEK_END) - start
        if have > sum(lengths):
            raise Refused(f"{source}: not a capture: {have - sum(lengths):,} bytes follow its last bit")
        if have < sum(lengths):
            turns = min(have // (3 * capture.BLOCK), min(lengths) // capture.BLOCK)
            return Bits(tuple(counts), (8 * capture.BLOCK * turns,) * 3, start)
        for lane, (count, length) in enumerate(zip(counts, lengths)):
            file.seek(capture.place_of(start, lengths, lane, length - 1) if count % 8 else 0)
            if count % 8 and file.read(1)[0] >> count % 8:
                raise Refused(f"{source}: not a capture: lane {lane} has ones after its last bit")
    return Bits(tuple(counts), tuple(counts), start)


def pieces_of(file: BufferedIOBase, bits: Bits) -> Iterator[Piece]:
    """The bytes and the bits of the three lanes of a capture, some blocks of each at a time."""
    lengths, at = [(count + 7) // 8 for count in bits.read], 0
    file.seek(bits.start)
    block = np.empty((BLOCKS, 3, capture.BLOCK), np.uint8)
    room = memoryview(cast(Any, block)).cast("B")
    while at + SIZE <= min(lengths):
        if file.readinto(room) != block.nbytes:
            raise Refused("the capture became shorter while it was read")
        first, second, third = (block[:, lane].reshape(-1) for lane in range(3))
        yield first, second, third, [min(8 * SIZE, count - 8 * at) for count in bits.read]
        at += SIZE
    while at < max(lengths):
        lanes = [bytearray() for _ in lengths]
        for begin in range(at, min(at + SIZE, max(lengths)), capture.BLOCK):
            for lane, length in zip(lanes, lengths):
                lane += file.read(max(0, min(capture.BLOCK, length - begin)))
        first, second, third = (np.frombuffer(lane, np.uint8) for lane in lanes)
        yield first, second, third, [min(8 * SIZE, max(0, count - 8 * at)) for count in bits.read]
        at += SIZE


@dataclass(frozen=True)
class Epoch:
    """A stretch with one alignment.

    `searched` is the bit of each lane at which the search for the alignment began. `cause` is the reason for a new epoch: None for the
    first one, Kind.SLIP (of `lane`) or Kind.RELOCKED. `before` counts the columns of all earlier epochs."""

    number: int
    cause: Kind | None
    lane: int | None
    searched: int
    before: int
    columns: int

    @property
    def words(self) -> str:
        """Why and where it begins."""
        if self.cause is None:
            return "the first alignment"
        where = f"lane {self.lane}, before bit {self.searched:,}" if self.cause == Kind.SLIP else f"at bit {self.searched:,}"
        return f"{self.cause.word}: {where}"

    @property
    def behind(self) -> int:
        """The column after its last one, over all epochs."""
        return self.before + self.columns


@dataclass(frozen=True, eq=False)
class Reading:
    """What a capture carried. `source` is None of a link that goes on. `events` has no pixels: a `Taker` gets these. `grammar` is how it
    was read, and `why` says why not in the usual way ("" if it was). `aligned` is how many epochs were aligned."""

    source: Path | Memory | None
    grammar: Grammar
    why: str
    bits: Bits
    events: Events
    epochs: tuple[Epoch, ...]
    aligned: int

    @property
    def is_aligned(self) -> bool:
        """Whether the lanes were aligned anywhere."""
        return self.aligned > 0

    @property
    def is_dvi(self) -> bool:
        """Whether it was read as DVI."""
        return self.grammar == "dvi"

    @property
    def command(self) -> list[str]:
        """The command of the program that lists the same."""
        return ["recover", self.grammar]

    @property
    def columns(self) -> int:
        """The columns of all epochs."""
        return self.epochs[-1].behind

    @property
    def slips(self) -> list[Epoch]:
        """The epochs that begin with a slip or a relock."""
        return [one for one in self.epochs if one.cause is not None]

    @property
    def notes(self) -> list[str]:
        """The first lines of every tool's output: slips and relocks by lane and place, a second reading, and a capture that is cut off."""
        return [it for it in (*(one.words for one in self.slips), self.why, self.bits.words) if it]

    @property
    def ends_at(self) -> int | None:
        """The bit of each lane after which nothing aligns, following a slip or a relock. None if the last epoch is aligned."""
        last = self.epochs[-1]
        return last.searched if last.cause is not None and not last.columns else None

    @cached_property
    def before(self) -> Ints:
        """For each event, the columns of the epochs before its epoch."""
        return np.array([one.before for one in self.epochs], np.int64)[self.events.epoch]

    @cached_property
    def at(self) -> Ints:
        """The first column of each event, over all epochs. For the end of an epoch it is the column after its last one."""
        its = self.events
        ends = np.isin(its.kind, ENDS)
        behind = np.array([one.behind for one in self.epochs], np.int64)[its.epoch]
        return np.where(ends, behind, its.first + self.before)

    @cached_property
    def tails(self) -> Ints:
        """The columns that are not trusted: rows of a first column and the column after the last, over all epochs.

        If a slip or a relock ended an epoch, these are its columns from its last opening with a whole guard band on. The bits were lost
        somewhere there."""
        places, whole = openings_of(self.events)
        found = []
        for epoch in self.epochs[:-1]:
            its = places[whole & (self.events.epoch[places] == epoch.number)]
            begin = int(self.at[its[-1]]) if len(its) else epoch.before
            found.append((begin, epoch.behind))
        return np.array(found, np.int64).reshape(-1, 2)

    @cached_property
    def gaps(self) -> Ints:
        """The columns that no event covers: rows of a first column and the column after the last, over all epochs."""
        places = self.events.covering
        begins, ends = self.at[places], (self.at + self.events.width)[places]
        starts = np.array([one.before for one in self.epochs], np.int64)
        stops = np.array([one.behind for one in self.epochs], np.int64)
        begins, ends = np.concatenate((begins, stops)), np.concatenate((starts[:1], ends, starts[1:]))
        begins, ends = np.sort(begins), np.sort(ends)
        wide = begins > ends
        return np.column_stack([ends[wide], begins[wide]])

    def starts(self, epoch: Epoch) -> list[int] | None:
        """The bit of each lane at which column 0 of an epoch begins; None if it was not aligned. (The C library knows it and does not say
        it; so it is searched again.)"""
        return alignment_of(self.source, epoch.searched, self.grammar == "relock") if self.source else None

    def characters(self, epoch: Epoch) -> Columns | None:
        """The characters of an epoch, column by column; None if it was not aligned."""
        starts = self.starts(epoch)
        if starts is None or self.source is None:
            return None
        found = Columns(self.source, starts, self.bits.read)
        if epoch.number < len(self.epochs) - 1:
            found.count = min(found.count, epoch.columns)
        return found

    def refuse_unaligned(self) -> None:
        """Raises Unaligned if nothing aligns. Call it in a tool that has nothing to say then."""
        if not self.is_aligned:
            raise Unaligned(f"{self.source}: {UNALIGNED}")


def read_as(source: Path | Memory, grammar: Grammar, taker: Taker | None = None, is_shown: bool = True) -> tuple[Reading, End]:
    """One pass of a receiver over a capture, and how its lanes ended. Its progress is shown on a terminal unless that is not wanted."""
    bits, parts = bits_of(source), list[Events]()

    def give(events: Events) -> None:
        parts.append(events.without_pixels())
        if taker is not None:
            taker.take(events)

    shown = tqdm(total=max(bits.read) // 8, unit="B", unit_scale=True, disable=None if is_shown else True)
    with capture.opened(source) as file, Receiver(kind=grammar, events=ROOM, size=BYTES) as receiver, shown:
        for blue, green, red, counts in pieces_of(file, bits):
            give(receiver.feed(blue, green, red, bits=counts))
            shown.update(max(counts) // 8)
        rest, end = receiver.finish()
        give(rest)
    events = joined(parts)
    return Reading(source, grammar, "", bits, events, epochs_of(events), end.aligned_epochs), end


def read(source: Path | Memory, is_dvi: bool = False, taker: Callable[[Grammar], Taker] | None = None, is_shown: bool = True) -> Reading:
    """Reads a capture. `taker` makes what takes the events and the pixels while it is read; it is called again if the capture has to be
    read anew. Raises Refused if the file is no capture, NoLibrary if the C library is missing, and OSError."""
    usual: Grammar = "dvi" if is_dvi else "track"
    first, _ = read_as(source, usual, taker(usual) if taker else None, is_shown)
    if is_dvi or not first.aligned or not is_astray(first.events):
        return first
    other, _ = read_as(source, "relock", None, is_shown)
    mine, its = (int(openings_of(one.events)[1].sum()) for one in (first, other))
    if its <= mine:
        return first
    why = f"read again by guard bands: {its:,} rows and islands open with a whole guard band, {mine:,} at the first alignment"
    log.info("%s: %s", source, why)
    if taker:
        read_as(source, "relock", taker("relock"), is_shown)
    return replace(other, why=why)


def part_of(events: Events, grammar: Grammar) -> Reading:
    """Returns a reading of some events of a live link. Columns count from the first of them."""
    base = int(events.first[0]) if len(events) and events.kind[0] not in ENDS else 0
    is_first = (events.epoch == events.epoch[:1].sum()) & ~np.isin(events.kind, ENDS)
    first, column = events.first - base * is_first, events.column - base * is_first
    its = replace(events, epoch=events.epoch - events.epoch[:1].sum(), first=first, column=column)
    nothing = Bits((0,) * 3, (0,) * 3, 0)
    return Reading(None, grammar, "", nothing, its, epochs_of(its), int(len(its) > 0))


def epochs_of(events: Events) -> tuple[Epoch, ...]:
    """Returns the epochs of some events. The first event belongs to epoch 0."""
    ends = events.of(*ENDS)
    most = np.zeros(len(ends) + 1, np.int64)
    inside = np.flatnonzero(~np.isin(events.kind, ENDS))
    np.maximum.at(most, events.epoch[inside], events.end[inside])
    found, before = [], 0
    for number, columns in enumerate(most.tolist()):
        end = events.view(int(ends[number - 1])) if number else None
        cause = (end.kind, end.lane, end.first) if end else (None, None, 0)
        found.append(Epoch(number, *cause, before, columns))
        before += columns
    return tuple(found)


def openings_of(events: Events) -> tuple[Ints, Mask]:
    """Returns the places at which rows and islands open (or noise replaces them), and which of these begin with a whole guard band."""
    opened = events.of(Kind.LINE, Kind.OPEN)
    guards, noise = events.of(Kind.GUARD), events.of(Kind.NOISE)
    if not len(guards) and not len(noise):
        return opened, np.ones(len(opened), np.bool_)
    places = np.union1d(opened, noise[np.diff(noise, prepend=-2) > 1])
    return places, np.isin(places, opened) & ~np.isin(places, guarded(events, guards))


def guarded(events: Events, guards: Ints) -> Ints:
    """Returns the rows and islands with damaged guards. A damaged guard is reported before its row, but after the opening of its island."""
    regular = events.covering
    behind = np.searchsorted(regular, guards)
    rows, islands = regular[behind[behind < len(regular)]], regular[behind[behind > 0] - 1]
    return np.concatenate((rows[events.kind[rows] == Kind.LINE], islands[events.kind[islands] == Kind.OPEN]))


def is_astray(events: Events) -> bool:
    """Returns whether an alignment is probably wrong: the first opening has no whole guard band, or IN_A_ROW successive ones have none."""
    _, whole = openings_of(events)
    if not len(whole) or whole.all():
        return False
    if not whole[0]:
        return True
    right: Ints = np.append(np.flatnonzero(whole), len(whole))
    return bool((np.diff(right) > IN_A_ROW).any())
