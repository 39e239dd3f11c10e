"""Determines the rate of wrong bits without a reference: by counting, and for rows of pixels by an estimate."""

from __future__ import annotations

from collections import Counter
from collections.abc import Iterator, Mapping, Sequence
from typing import Any, NamedTuple

import numpy as np

from vabgrot.formats.characters import TEN
from vabgrot.judging.spans import Spans
from vabgrot.judging.statistics import limits_of as exact_limits
from vabgrot.lanes.columns import Columns
from vabgrot.lanes.estimate import NOTHING, Estimate, Kind, Part, estimate, limits_of
from vabgrot.lanes.search import Ints, Seen, seen

MOST_CHARACTERS = 1 << 22  # the most characters of a lane's rows that an estimate uses
LEAST_CLEAN = 0.25  # the least share of clean rows among these, if the capture has enough
TOGETHER = 1 << 21  # characters processed at a time
LEAST_MEASURED = 0.5  # the least share of measured pixels; with fewer there is no upper limit


class Row(NamedTuple):
    """A row of pixels on one lane: where it is, and whether it has a fault there."""

    columns: Columns
    first: int
    width: int
    is_faulty: bool


class Video(NamedTuple):
    """The damage of the rows of one lane: an estimate, the least damage in both units, and the number of characters."""

    estimate: Estimate
    seen: tuple[int, int]
    characters: int


class Rate(NamedTuple):
    """A rate of wrong bits with its limits. If `upper` is None, all numbers are lower limits, and `why` gives the reason."""

    rate: float
    lower: float
    upper: float | None
    why: str = ""


def rows_in(spans: Spans, columns: Columns, lane: int) -> Iterator[Row]:
    """Yields the rows of a lane."""
    firsts, widths = spans.rows
    told = {int(np.searchsorted(firsts, at, "right")) - 1 for at, numbers in spans.of_kind("code") if numbers[0] == lane}
    for number, (first, width) in enumerate(zip(firsts.tolist(), widths.tolist())):
        if first + width <= columns.count:
            yield Row(columns, first, width, number in told)


def words_of(rows: Sequence[Row], lane: int) -> Ints:
    """Returns the characters of rows of one width. The first axis is the pixel."""
    return np.stack([row.columns.words(lane, row.first, row.width) for row in rows], axis=1).astype(np.int64)


def video_of(parts: Sequence[tuple[Spans, Columns]], lane: int) -> Video:
    """Determines the damage of a lane. Each part of the capture has its own alignment."""
    rows = [row for spans, columns in parts for row in rows_in(spans, columns, lane)]
    every = sum(row.width for row in rows)
    sizes = Counter(row.width for row in rows)
    if not rows:
        return Video(NOTHING, (0, 0), 0)
    width = max(sizes, key=lambda it: it * sizes[it])
    return Video(estimate_of([row for row in rows if row.width == width], lane), least_of(rows, lane), every)


def least_of(rows: Sequence[Row], lane: int) -> tuple[int, int]:
    """Returns the least damage of all rows, in both units."""
    bits, characters = 0, 0
    for width in {row.width for row in rows if row.is_faulty}:
        faulty = [row for row in rows if row.is_faulty and row.width == width]
        step = max(1, TOGETHER // width)
        for at in range(0, len(faulty), step):
            found: Seen = seen(words_of(faulty[at : at + step], lane))
            bits, characters = bits + int(found.bits.sum()), characters + int(found.characters.sum())
    return bits, characters


def estimate_of(rows: Sequence[Row], lane: int) -> Estimate:
    """Returns the estimate for rows of one width. If there are too many, it uses a random choice of them."""
    random = np.random.default_rng(lane)
    most = max(2, MOST_CHARACTERS // rows[0].width)
    faulty = [row for row in rows if row.is_faulty]
    clean = [row for row in rows if not row.is_faulty]
    room = most - len(faulty)
    if len(rows) <= most or room >= min(len(clean), LEAST_CLEAN * most):
        chosen = [clean[at] for at in random.permutation(len(clean))[:room]]
        weights = np.ones(len(faulty) + len(chosen))
        weights[len(faulty) :] = len(clean) / max(len(chosen), 1)
        return estimate(words_of([*faulty, *chosen], lane), weights)
    found = estimate(words_of([rows[at] for at in random.permutation(len(rows))[:most]], lane))
    factor = len(rows) / most
    return found._replace(part=found.part.times(factor), damaged=found.damaged * factor)


def rate_of(counted: tuple[int, int], others: tuple[int, int], videos: Sequence[Video], confidence: float) -> Rate:
    """Returns the rate of wrong bits. `counted` are the wrong bits and the characters of the whole capture, `others` those outside of
    rows."""
    wrong, characters = others
    parts = [Part(float(wrong), float(wrong), 1.0, float(characters)), *(video.estimate.part for video in videos)]
    why = why_not(videos)
    if not why:
        return Rate(*limits_of(parts, confidence))
    found = exact_limits(counted[0], max(TEN * counted[1], 1), confidence)
    return Rate(counted[0] / max(TEN * counted[1], 1), found.lower, None, why)


def why_not(videos: Sequence[Video]) -> str:
    """Says why there is no upper limit; "" if there is one."""
    every, measured = (sum(numbers) for numbers in zip(*((it.characters, it.estimate.part.characters) for it in videos), (0, 0)))
    if measured < LEAST_MEASURED * every:
        return f"only {measured / every:.0%} of the pixels stand in rows in which most damage shows"
    return next((it.estimate.why for it in videos if it.estimate.why and it.estimate.kind != Kind.NOTHING), "")


def plain_of(video: Video) -> Mapping[str, Any]:
    """Returns the damage of a lane as a value for JSON."""
    found = video.estimate
    return {
        "kind": found.kind,
        "seen_bits": found.seen[0],
        "seen_characters": found.seen[1],
        "share_seen": found.share,
        "measured": round(found.part.characters),
        "wrong_bits": found.part.bits,
        "damaged": found.damaged,
        "why": found.why,
    }


def words_of_video(name: str, video: Video) -> str:
    """Describes the damage of a lane. Returns "" if nothing is wrong, or if only single bits are wrong and nearly all of them are
    visible."""
    found = video.estimate
    if not any(video.seen) or found.kind == Kind.SINGLE and not found.why:
        return ""
    if found.kind == Kind.NOTHING:
        return f"{name}: {found.why}"
    least, behind = "at least" if found.why else "about", f": {found.why}" if found.why else ""
    return f"{name}, video: {found.kind}, {least} {found.damaged:,.0f} characters{behind}"
