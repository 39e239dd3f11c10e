"""Explains in words why many rows, openings or packets fail in the same way: mistakes that a source makes each time."""

from __future__ import annotations

from collections import Counter
from collections.abc import Callable, Iterator
from itertools import permutations
from typing import NamedTuple

import numpy as np

from vabgrot.capture import Source
from vabgrot.formats.characters import (
    CONTROL,
    ISLAND_GUARD,
    ISLAND_GUARDS_0,
    ISLAND_PREAMBLE,
    PACKET,
    PREAMBLE,
    TEN,
    TERC4,
    VIDEO_GUARD,
    VIDEO_PREAMBLE,
)
from vabgrot.judging.naming import announced
from vabgrot.judging.spans import Spans
from vabgrot.lanes import looking
from vabgrot.lanes.coding import BALANCE, first_unlike, starts_of
from vabgrot.lanes.columns import Columns, Words
from vabgrot.lanes.looking import IS_CONTROL
from vabgrot.lanes.openings import beginnings

MOST = 400  # faults of a kind that are examined
ALIKE = 0.8  # the share of these that must fail in the same way
LEAST = 3  # the least number of faults for a cause
LOOKED = 1 << 22  # bits of each lane that are searched for the order of the lanes
GENERATOR = 0x83  # x^8 + x^7 + x^6 + 1; the first bit of a block is the highest power (HDMI 1.4, section 5.2.3.5)
NIBBLES = {word: nibble for nibble, word in enumerate(TERC4)}


class Cause(NamedTuple):
    """A common cause of faults: in words, how many of the examined faults have it, and the column of the first one."""

    words: str
    times: int
    of: int
    column: int

    def __str__(self) -> str:
        return f"{self.words} ({self.times:,} of {self.of:,} looked at)"


def alike(found: list[tuple[str, int]], of: int) -> Iterator[Cause]:
    """Yields the causes that most of these faults share."""
    for words, times in Counter(words for words, _ in found).most_common():
        if times >= LEAST and times >= ALIKE * of:
            yield Cause(words, times, of, next(column for one, column in found if one == words))


class Physician:
    """Examines the faults of a capture."""

    def __init__(self, spans: Spans, columns: Columns) -> None:
        self.spans, self.columns = spans, columns

    def causes(self) -> Iterator[Cause]:
        """Yields the common causes, kind by kind."""
        yield from self.of_rows()
        yield from self.of_openings()
        yield from self.of_preambles()
        yield from self.of_guards()
        yield from self.of_packets()

    def of_rows(self) -> Iterator[Cause]:
        """Yields the cause "rows are right at another disparity"."""
        firsts, widths = self.spans.rows
        told = sorted({(int(np.searchsorted(firsts, at, "right")) - 1, numbers[0]) for at, numbers in self.spans.of_kind("code")})
        found = []
        for row, lane in told[:MOST]:
            starts = starts_of(self.columns.words(lane, int(firsts[row]), int(widths[row])))
            if starts and 0 not in starts:
                words = "the right bytes at another disparity: the coder does not start at 0 after blanking"
                before = self.carried(row, lane)
                words += ", but goes on with that of the row before" if before in starts else ""
                found.append((words, int(firsts[row])))
        said = list(alike(found, min(len(told), MOST)))
        if not said:  # only some rows show that the disparity is carried over
            said = list(alike([(words.partition(", but")[0], at) for words, at in found], min(len(told), MOST)))
        yield from said

    def carried(self, row: int, lane: int) -> int:
        """Returns the disparity at the end of the row before. That row began at 0, or at another disparity at which it is coded without a
        fault."""
        firsts, widths = self.spans.rows
        total = 0
        for number in range(max(0, row - 1), row):
            words = self.columns.words(lane, int(firsts[number]), int(widths[number]))
            starts = starts_of(words)
            total = int(BALANCE[words].sum()) + (0 if 0 in starts or not starts else starts[0])
        return total

    def of_openings(self) -> Iterator[Cause]:
        """Yields what is wrong with control periods that end without a guard band."""
        places = [at for at, _ in self.spans.of_kind("noise")]
        firsts = [at for at in places[: 4 * MOST] if at and IS_CONTROL[self.columns.at(at - 1, 1)[:, 0]].sum() >= 2][:MOST]
        yield from alike([(words, at) for at in firsts if (words := self.opening(at))], len(firsts))

    def opening(self, at: int) -> str:
        """Says what is wrong with an opening; "" if that is not known."""
        opens, words = announced(self.columns, at), self.columns.at(at, 64)
        ends = np.flatnonzero(IS_CONTROL[words].sum(axis=0) >= 2)
        inside = words[:, : int(ends[0])] if len(ends) else words
        if not inside.shape[1]:
            return ""
        if opens == "row":
            guards = [bool((inside[:, place] == VIDEO_GUARD).all()) for place in range(min(2, inside.shape[1]))]
            if guards[0] and all(first_unlike(lane[1:]) is None for lane in inside):
                return "one guard column before a row where two are wanted, else right"
            if not guards[0] and all(first_unlike(lane) is None for lane in inside):
                return "no guard band before a row, else right"
        if opens == "island" and np.isin(inside[:, 0], (*TERC4, ISLAND_GUARD)).all():
            is_guard = bool((inside[1:, 0] == ISLAND_GUARD).all())
            return f"{'one guard column' if is_guard else 'no guard band'} before an island{' where two are wanted' if is_guard else ''}"
        return ""

    def of_preambles(self) -> Iterator[Cause]:
        """Yields what is wrong with preambles that are too short or have other bits."""
        rows = set(self.spans.guards[0].tolist())
        for is_row in (True, False):
            told = [at for at, _ in self.spans.of_kind("preamble") if (at in rows) == is_row][:MOST]
            yield from alike([(self.preamble(at, is_row), at) for at in told], len(told))

    def preamble(self, at: int, is_row: bool) -> str:
        """Says what is wrong with the preamble before a column."""
        wanted = VIDEO_PREAMBLE if is_row else ISLAND_PREAMBLE
        words = self.columns.at(max(at - 16, 0), min(at, 16))[1:]
        right = (words == np.array(wanted)[:, None]).all(axis=0)
        count = int(right[::-1].argmin()) if not right.all() else len(right)
        of = "a row" if is_row else "an island"
        if 0 < count < PREAMBLE:
            return f"a preamble of {count} columns before {of}, wants {PREAMBLE}"
        last = [CONTROL.index(int(it)) if it in CONTROL else None for it in words[:, -1]]
        if None in last:
            return f"no preamble before {of}"
        bits = "".join(str(int(value or 0) >> bit & 1) for value in last for bit in (0, 1))
        return f"CTL0 to CTL3 are {bits} before {of}, want {'1000' if is_row else '1010'}"

    def of_guards(self) -> Iterator[Cause]:
        """Yields what is wrong with guard columns that all have the same error."""
        told = [at for at, _ in self.spans.of_kind("guard")][:MOST]
        rows = set(self.spans.guards[0].tolist())
        found = []
        for at in told:
            is_row = at in rows or at - 1 in rows
            for lane, word in enumerate(self.columns.at(at, 1)[:, 0].tolist()):
                wanted = (VIDEO_GUARD[lane],) if is_row else ISLAND_GUARDS_0 if lane == 0 else (ISLAND_GUARD,)
                if word not in wanted:
                    says = f"{wanted[0]:03x}" if len(wanted) == 1 else "one of TERC4 12 to 15"
                    found.append((f"lane {lane} has {word:03x} for the guard of {'a row' if is_row else 'an island'}, wants {says}", at))
        yield from alike(found, len(told))

    def of_packets(self) -> Iterator[Cause]:
        """Yields the cause of packets with a parity that would be right in another form."""
        told = sorted({at for kind in ("mended", "lost") for at, _ in self.spans.of_kind(kind)})[:MOST]
        found = []
        for at in told:
            blocks = blocks_of(self.columns.at(at, PACKET))
            found += [(words, at) for words, other in FORMS.items() if blocks and all(other(it) == it.parity for it in blocks)]
        yield from alike(found, len(told))


class Block(NamedTuple):
    """A block of a packet: its bits without the parity (the first one lowest), their number, and the parity byte."""

    data: int
    size: int
    parity: int


def blocks_of(words: Words) -> list[Block]:
    """Returns the received blocks of a packet: the header's and the bodies'. Returns none if a character is not in TERC4."""
    if words.shape[1] < PACKET or not np.isin(words, TERC4).all():
        return []
    nibbles = [[NIBBLES[int(word)] for word in lane] for lane in words]
    rows = [[nibble >> 2 & 1 for nibble in nibbles[0]]]
    for body in range(4):
        rows.append([nibbles[1 + bit % 2][bit // 2] >> body & 1 for bit in range(2 * PACKET)])
    numbers = [(sum(bit << place for place, bit in enumerate(row)), len(row) - 8) for row in rows]
    return [Block(number & (1 << size) - 1, size, number >> size) for number, size in numbers]


def parity_of(block: Block) -> int:
    """Returns the correct parity byte of a block."""
    rest = 0
    for place in range(block.size):
        bit = (rest ^ block.data >> place) & 1
        rest = rest >> 1 ^ (GENERATOR if bit else 0)
    return rest


def reversed_byte(byte: int) -> int:
    return int(f"{byte:08b}"[::-1], 2)


FORMS: dict[str, Callable[[Block], int]] = {
    "the parity in reverse: its highest bit is sent first": lambda block: reversed_byte(parity_of(block)),
    "the parity inverted": lambda block: parity_of(block) ^ 0xFF,
    "no parity: its byte is 0": lambda block: 0,
}


def of_lanes(source: Source) -> list[str]:
    """What is exchanged, inverted or turned round of the lanes of a capture, in words; nothing where they are right or nothing can be
    told."""
    found_of = [looking.looked(bits) for bits in beginnings(source, LOOKED)]
    looked = [one for one in found_of if one is not None]
    if len(looked) < len(found_of):
        return []
    rows = looking.openings([ends for _, ends in looked])
    if not rows.shape[1]:
        return []
    fit, others = looking.fit_of(rows)
    if others:
        fit = exchange_of(rows)
    if not fit.right:
        return []
    found = []
    if all(turn.unit == TEN for turn, _ in looked):
        found.append("the highest bit of each character is sent first")
    if fit.order != (0, 1, 2):
        moved = [lane for lane in range(3) if fit.order[lane] != lane]
        found.append(f"lanes {moved[0]} and {moved[1]} exchanged" if len(moved) == 2 else f"lanes in the order {fit.order}")
    found += [f"lane {lane} inverted (its pair is swapped)" for lane in fit.inverts]
    return [f"{words}: {fit.right:,} of {rows.shape[1]:,} openings are right then" for words in found]


def exchange_of(rows: Words) -> looking.Fit:
    """Returns the order of lanes with the most valid openings. If several are equally good, it is the one that moves the fewest lanes."""
    orders = {order: looking.right_openings(rows[list(order)]) for order in permutations(range(3))}
    best = max(orders, key=lambda order: (orders[order], sum(order[lane] == lane for lane in range(3))))
    return looking.Fit(orders[best], best, ())


def causes_of(source: Source, spans: Spans, columns: Columns) -> list[str]:
    """Why a capture's faults are alike, in words; first what is wrong with its lanes."""
    if not spans.faults:
        return []
    return of_lanes(source) or [f"{cause}, first at column {cause.column:,}" for cause in Physician(spans, columns).causes()]
