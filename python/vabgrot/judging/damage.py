"""Finds the damaged characters of a capture.

Two methods: use what is known about control periods, guards, packets and the video coding, or compare with an undamaged capture of the
same source."""

from __future__ import annotations

from collections import Counter
from collections.abc import Iterator
from typing import NamedTuple

import numpy as np
import numpy.typing as npt

from vabgrot.events import Ints
from vabgrot.formats.characters import CONTROL, ISLAND_GUARD, ISLAND_GUARDS_0, PACKET, TERC4, VIDEO_GUARD
from vabgrot.judging.spans import Spans
from vabgrot.lanes.coding import BITS
from vabgrot.lanes.columns import Columns
from vabgrot.lanes.looking import IS_CONTROL
from vabgrot.lanes.search import damage_of

KINDS = ("control", "guard", "packet", "video")
IS_TERC4 = np.isin(np.arange(1024), TERC4)
TO_TERC4 = BITS[np.arange(1024)[:, None] ^ np.array(TERC4)[None, :]].min(axis=1)
TOGETHER = 1024  # rows processed at a time
FEW = 2  # up to this many wrong characters of a preamble count as damage; if more are wrong, the source is


class Hit(NamedTuple):
    """A damaged character: its column, its lane, the kind of its surroundings, and how many of its bits are wrong, at least."""

    column: int
    lane: int
    kind: str
    bits: int


def exposed(spans: Spans) -> dict[str, int]:
    """Returns the number of characters of each kind on one lane."""
    guards = sum(2 * len(pairs) for pairs in spans.guards)
    return dict(zip(KINDS, (int(spans.runs[1].sum()), guards, PACKET * len(spans.packets), int(spans.rows[1].sum()))))


def in_control(spans: Spans, columns: Columns) -> Iterator[Hit]:
    """Yields the damaged characters of control periods: those that are no control characters, and those that differ in one bit from the
    characters on both sides."""
    begins, counts, values = spans.runs
    words = {(at, numbers[0]) for at, numbers in spans.of_kind("word")}
    for at, lane in sorted(words):
        mine = int(columns.words(lane, at, 1)[0])
        yield Hit(at, lane, "control", int(min(BITS[mine ^ word] for word in CONTROL)))
    if len(begins) < 3:
        return
    ends = begins + counts
    alone = (counts[1:-1] == 1) & (values[:-2] == values[2:]) & (values[1:-1] != values[:-2])
    alone &= (ends[:-2] == begins[1:-1]) & (ends[1:-1] == begins[2:])
    for number in (np.flatnonzero(alone) + 1).tolist():
        at, found, wanted_value = int(begins[number]), int(values[number]), int(values[number - 1])
        for lane in range(3):
            unlike = CONTROL[found >> 2 * lane & 3] ^ CONTROL[wanted_value >> 2 * lane & 3]
            if unlike.bit_count() == 1 and (at, lane) not in words:
                yield Hit(at, lane, "control", 1)
    yield from in_preambles(spans, columns)


def in_preambles(spans: Spans, columns: Columns) -> Iterator[Hit]:
    """Yields the damaged characters of preambles. Preambles with more than FEW wrong characters are left out."""
    rows = set(spans.guards[0].tolist())
    for at, _ in spans.of_kind("preamble"):
        wanted = (CONTROL[1], CONTROL[0 if at in rows else 1])
        found = [(lane, columns.words(lane, at - 8, 8)) for lane in (1, 2)]
        hits = [
            Hit(at - 8 + place, lane, "control", int(BITS[int(word) ^ wanted[lane - 1]]))
            for lane, words in found
            for place, word in enumerate(words)
            if IS_CONTROL[word] and word != wanted[lane - 1]
        ]
        if len(hits) <= FEW:
            yield from hits


def in_guards(spans: Spans, columns: Columns) -> Iterator[Hit]:
    """Yields the damaged characters of guard bands, if it is known what follows or precedes the guard band."""
    rows, islands = set(spans.guards[0].tolist()), {at for pairs in spans.guards[1:] for at in pairs.tolist()}
    for at, _ in spans.of_kind("guard"):
        is_row = at in rows or at - 1 in rows
        if not (is_row or at in islands or at - 1 in islands):
            continue
        for lane, word in enumerate(columns.at(at, 1)[:, 0].tolist()):
            wanted = (VIDEO_GUARD[lane],) if is_row else ISLAND_GUARDS_0 if lane == 0 else (ISLAND_GUARD,)
            unlike = min((word ^ one).bit_count() for one in wanted)
            if unlike:
                yield Hit(at, lane, "guard", unlike)


def in_packets(spans: Spans, columns: Columns) -> Iterator[Hit]:
    """Yields the damaged characters of packets: those that are no TERC4 characters, and those with a wrong bit in a block."""
    told: dict[int, list[tuple[str, tuple[int, ...]]]] = {}
    for kind in ("symbols", "mended", "lost"):
        for at, numbers in spans.of_kind(kind):
            told.setdefault(at, []).append((kind, numbers))
    for at, faults in sorted(told.items()):
        words = columns.at(at, PACKET)
        found = {(int(lane), int(place)): int(TO_TERC4[words[lane, place]]) for lane, place in np.argwhere(~IS_TERC4[words])}
        for kind, numbers in faults:
            if kind == "mended":
                lane, place = where(numbers[1], numbers[2])
                found.setdefault((lane, place), to_nibble(int(words[lane, place]), numbers[1]))
            elif kind == "lost" and not any((lane == 0) == (numbers[1] == 4) for lane, _ in found):
                lane = 0 if numbers[1] == 4 else 1
                found[lane, 0] = 2
        yield from (Hit(at + place, lane, "packet", bits) for (lane, place), bits in sorted(found.items()))


def where(block: int, bit: int) -> tuple[int, int]:
    """Returns the lane and the column that carry bit `bit` of a block. Blocks 0 to 3 are the bodies, block 4 is the header."""
    return (0, bit) if block == 4 else (1 + bit % 2, bit // 2)


def to_nibble(word: int, block: int) -> int:
    """Returns in how many bits a character of TERC4 differs from the one with the opposite bit of this block."""
    if word not in TERC4:
        return int(TO_TERC4[word])
    other = TERC4.index(word) ^ 1 << (2 if block == 4 else block)
    return (word ^ TERC4[other]).bit_count()


def in_rows(spans: Spans, columns: Columns) -> Iterator[Hit]:
    """Yields the damaged characters of rows: the smallest damage that turns validly coded rows into those received."""
    firsts, widths = spans.rows
    told = sorted({(numbers[0], int(np.searchsorted(firsts, at, "right")) - 1) for at, numbers in spans.of_kind("code")})
    groups: dict[tuple[int, int], list[int]] = {}
    for lane, row in told:
        groups.setdefault((lane, int(widths[row])), []).append(row)
    for (lane, width), rows in groups.items():
        for part in range(0, len(rows), TOGETHER):
            chosen = rows[part : part + TOGETHER]
            words = np.stack([columns.words(lane, int(firsts[row]), width) for row in chosen])
            damage = damage_of(words)
            for row, pixel, bits in zip(*map(np.ndarray.tolist, damage)):
                yield Hit(int(firsts[chosen[row]]) + pixel, lane, "video", bits)


def hits_of(spans: Spans, columns: Columns) -> list[Hit]:
    """Returns the damaged characters that this capture itself shows, in the order of their columns."""
    found: list[Hit] = []
    for part, (begins, lengths) in zip((in_control, in_guards, in_packets, in_rows), periods(spans)):
        hits = [*part(spans, columns)]
        at = np.array([hit.column for hit in hits], np.int64)
        place = np.searchsorted(begins, at, "right") - 1
        are_known = (place >= 0) & (at < (begins + lengths)[place]) if len(begins) else np.zeros(len(at), np.bool_)
        found += [hit for hit, is_known in zip(hits, are_known.tolist()) if is_known]
    return sorted(found)


def periods(spans: Spans) -> list[tuple[Ints, Ints]]:
    """Returns for each kind the first columns of its stretches and their lengths."""
    pairs, packets = np.sort(np.concatenate(spans.guards)), spans.packets
    return [spans.runs[:2], (pairs, np.full(len(pairs), 2)), (packets, np.full(len(packets), PACKET)), spans.rows]


# ---- comparison with another capture of the same source

PART = 1 << 18  # columns compared at a time
WINDOW, TRIED = 64, 24  # columns of a search pattern, and how many patterns are tried
RAREST = 3  # the rarest columns of a pattern: the search begins with these


def joined(words: npt.NDArray[np.uint16]) -> Ints:
    """Returns the three characters of each column as one number of 30 bits."""
    wide = words.astype(np.int64)
    return np.asarray(wide[0] | wide[1] << 10 | wide[2] << 20)


def offset_of(mine: Columns, other: Columns) -> int | None:
    """Returns by how many columns the contents of `mine` are later in `other`: the offset with the most votes of the search patterns.
    Returns None if no pattern is in both."""
    whole = joined(other.at(0, min(other.count, 1 << 24)))
    order = np.argsort(whole, kind="stable")
    votes: Counter[int] = Counter()
    for column in np.linspace(0, max(mine.count - WINDOW, 0), TRIED).astype(int).tolist():
        pattern = joined(mine.at(column, WINDOW))
        votes.update({begin - column for begin in found_in(whole, order, pattern)})
    return max(votes, key=lambda offset: (votes[offset], -abs(offset))) if votes else None


def found_in(whole: Ints, order: Ints, pattern: Ints) -> Iterator[int]:
    """Yields the places at which most of a pattern is found. The search begins with the pattern's rarest columns. `order` sorts `whole`."""
    first, last = np.searchsorted(whole, pattern, "left", sorter=order), np.searchsorted(whole, pattern, "right", sorter=order)
    known = np.flatnonzero(last > first)
    for rarest in known[np.argsort((last - first)[known], kind="stable")][:RAREST].tolist():
        for at in order[first[rarest] : min(last[rarest], first[rarest] + 4096)].tolist():
            begin = at - rarest
            if 0 <= begin <= len(whole) - len(pattern) and (whole[begin : begin + len(pattern)] == pattern).mean() > 0.75:
                yield begin


class Compared(NamedTuple):
    """The result of a comparison: the damaged characters, and for each kind the number of characters on one lane that both captures
    have."""

    hits: list[Hit]
    exposed: dict[str, int]


def compared(mine: Columns, other: Columns, spans: Spans, offset: int, count: int) -> Compared:
    """Compares two captures; the columns of `other` are `offset` later. Returns the first `count` characters that differ. `spans` are
    those of `other`, and give the kind of each character."""
    first, behind = max(0, -offset), min(count, other.count - offset)
    hits: list[Hit] = []
    counts = np.zeros(len(KINDS), np.int64)
    for column in range(first, behind, PART):
        size = min(PART, behind - column)
        kinds = kinds_of(spans, column + offset, size)
        counts += np.bincount(kinds, minlength=len(KINDS) + 1)[: len(KINDS)]
        unlike = mine.at(column, size) ^ other.at(column + offset, size)
        for lane, place in np.argwhere(unlike).tolist():
            kind = int(kinds[place])
            if kind < len(KINDS):
                hits.append(Hit(column + place, lane, KINDS[kind], int(BITS[unlike[lane, place]])))
    return Compared(sorted(hits), dict(zip(KINDS, counts.tolist())))


def kinds_of(spans: Spans, column: int, count: int) -> Ints:
    """Returns the kind of each column as its number in KINDS, or len(KINDS) if nothing is known."""
    found = np.full(count, len(KINDS), np.int64)
    for kind, (begins, lengths) in enumerate(periods(spans)):
        near = (begins + lengths > column) & (begins < column + count)
        for begin, length in zip(begins[near].tolist(), lengths[near].tolist()):
            found[max(begin - column, 0) : max(begin + length - column, 0)] = kind
    return found
