"""The verdict on a rule, and the data of a capture that the rules judge."""

from __future__ import annotations

from collections import Counter
from dataclasses import dataclass
from functools import cached_property
from typing import Any

import numpy as np

from vabgrot.content import Content
from vabgrot.events import Ints
from vabgrot.formats.characters import PACKET
from vabgrot.formats.layouts import BODIES, Type
from vabgrot.formats.rules import RULES, Rule
from vabgrot.judging.record import Placed, Record
from vabgrot.video.matching import Rate, Timing
from vabgrot.video.timings import DEPTH, LOST, edges, held, period_of, spans, without_pulses

PASS, FAIL, DAMAGED, OPEN = "pass", "fail", "damaged", "not judged"
ORDER = (FAIL, DAMAGED, OPEN, PASS)  # as verdicts are shown
MARKS = {PASS: "pass", FAIL: "FAIL", DAMAGED: "damaged", OPEN: "not judged"}
TWO = 2  # fields


@dataclass(frozen=True)
class Verdict:
    """The verdict on a rule. Its state is pass, fail (the source is wrong), damaged (the damage of the link explains it) or not judged.
    `words` give the details; a failure has its first column and how often it happened."""

    rule: Rule
    state: str
    words: str
    column: int | None = None
    times: int = 0

    @property
    def name(self) -> str:
        """What the rule is called."""
        return self.rule.name

    @property
    def line(self) -> str:
        """The same as a line of text."""
        where = f" (first at column {self.column:,})" if self.column is not None else ""
        return f"{MARKS[self.state]:<10}  {self.rule.name:<24}  {self.words}{where}  [{self.rule.clause}]"

    def plain(self) -> dict[str, Any]:
        """Returns the same as a value for JSON."""
        names = {"rule": self.rule.name, "asks": self.rule.asks, "clause": self.rule.clause}
        return names | {"verdict": self.state, "words": self.words, "column": self.column, "times": self.times}


def passed(name: str, words: str) -> Verdict:
    return Verdict(RULES[name], PASS, words)


def failed(name: str, words: str, column: int | None, times: int = 1) -> Verdict:
    return Verdict(RULES[name], FAIL, words, column, times)


def unjudged(name: str, why: str) -> Verdict:
    return Verdict(RULES[name], OPEN, why)


@dataclass(frozen=True)
class Span:
    """The columns of a field, from one leading edge of VSYNC to the next, or of several successive fields."""

    begin: int
    end: int

    def __contains__(self, column: int) -> bool:
        return self.begin <= column < self.end


class Case:
    """A capture with the data that the rules need: its contents, its timing, and the rate that the user gave."""

    def __init__(self, content: Content, record: Record, timings: list[Timing], rate: Rate = Rate()) -> None:
        self.content, self.record, self.timings, self.rate = content, record, timings, rate
        self.lost: Ints = content.losses.at  # columns at which the link may have lost something

    @cached_property
    def clock(self) -> float | None:
        """The columns a second, or None if not known. It uses the given pixel clock, or the one of the first raster's format. In deep
        colour it is higher than the pixel clock."""
        if not self.timings:
            return self.rate.clock
        first = self.timings[0]
        wanted = first.matched.wanted
        pixels = first.clock or (wanted.clock if wanted and is_near(first) else None)
        return pixels * first.raster.bits / DEPTH if pixels else None

    @cached_property
    def fields(self) -> list[Span]:
        """The whole fields: from one leading edge of VSYNC to the next, without unknown columns between them. One damaged character does
        not make a field."""
        meter = self.record.meter
        tall = next((one.raster.tall for one in self.timings if one.raster.tall is not None), None)
        if tall is None:
            return []
        words, damaged = spans(meter.words, meter.known), spans(meter.damaged, meter.damaged + PACKET)
        period, changes = period_of(edges(meter.hsync, words, damaged)), meter.vsync
        if period:
            changes = held(without_pulses(changes, words, np.iinfo(np.int64).max), period, meter.slips)
        vsync = edges(changes, words, damaged)
        found: list[Span] = []
        begin: int | None = None
        for column, level, seen in zip(vsync.columns.tolist(), vsync.levels.tolist(), vsync.seen.tolist()):
            if level == LOST:
                begin = None
            elif seen and level == int(tall):
                if begin is not None:
                    found.append(Span(begin, column))
                begin = column
        return found

    @cached_property
    def pairs(self) -> list[Span]:
        """All pairs of successive fields."""
        return [Span(one.begin, other.end) for one, other in zip(self.fields, self.fields[1:]) if one.end == other.begin]

    @cached_property
    def field(self) -> float | None:
        """The columns of a field: measured, or those of the raster's format. None if neither is known."""
        if not self.timings:
            return None
        first = self.timings[0]
        wanted = first.matched.wanted
        pixels = first.raster.columns or (float(wanted.columns) if wanted and not first.matched.differences else None)
        return pixels * first.raster.bits / DEPTH if pixels else None

    def longest(self, begin: int, end: int) -> Span:
        """Returns the longest stretch between two columns in which nothing can be missing."""
        losses = self.lost[(self.lost >= begin) & (self.lost < end)]
        begins, ends = np.append(begin, losses), np.append(losses, end)
        at = int((ends - begins).argmax())
        return Span(int(begins[at]), int(ends[at]))

    @cached_property
    def line(self) -> float | None:
        """The columns of a line, or None if no line was seen."""
        totals = [one.raster.across["total"].value for one in self.timings if "total" in one.raster.across and one.raster.bits == DEPTH]
        return totals[0] if totals else None

    @cached_property
    def whole(self) -> list[Placed]:
        """The packets without a lost block."""
        return [one for one in self.record.packets if one.is_whole]

    def of_kind(self, kind: int) -> list[Placed]:
        """Returns the packets of a type that have no lost block."""
        return [one for one in self.whole if one.packet.kind == kind]

    @property
    def controls(self) -> list[Placed]:
        """The General Control packets with four equal bodies."""
        return [one for one in self.of_kind(Type.CONTROL) if one.packet.bodies.count(one.packet.bodies[0]) == BODIES]

    def without(self, places: list[int], among: list[Span]) -> tuple[list[Span], int]:
        """Returns the spans that contain none of these columns. The number counts further spans without one, in which the link may have
        lost it."""
        columns = np.array(places, np.int64)
        found, doubtful = [], 0
        for span in among:
            if np.searchsorted(columns, span.begin) < np.searchsorted(columns, span.end):
                continue
            if np.searchsorted(self.lost, span.begin) < np.searchsorted(self.lost, span.end):
                doubtful += 1
            else:
                found.append(span)
        return found, doubtful


def total_of(found: list[Verdict]) -> str:
    """Says how many rules are in which state."""
    counts = Counter(one.state for one in found)
    return f"{counts[PASS]} pass, {counts[FAIL]} fail, {counts[DAMAGED]} damaged by the link, {counts[OPEN]} not judged"


def is_seen(timing: Timing) -> bool:
    """Whether a whole line and a whole frame of a raster were seen."""
    return "total" in timing.raster.across and timing.raster.size[1] is not None and timing.raster.columns is not None


def is_near(timing: Timing) -> bool:
    """Whether a raster was seen and has the active pixels and rows of the nearest format."""
    matched = timing.matched
    return is_seen(timing) and matched.wanted is not None and not any(" active" in one.name for one in matched.differences)


def counted(count: int, name: str) -> str:
    """Formats a number of things in words."""
    return f"{count:,} {name}{'s' * (count != 1)}"


def absent(case: Case, name: str, what: str, begin: int, end: int) -> Verdict:
    """Returns the verdict if something required in each two fields is missing between two columns. It is a failure if this takes the time
    of at least two fields."""
    stretch, length = case.longest(begin, end), case.field
    if length is None:
        return unjudged(name, f"no {what} came, and no whole field was seen")
    fields = (stretch.end - stretch.begin) / length
    if fields < TWO:
        why = case.content.losses.between(begin, end)
        return unjudged(name, f"no {what} came in the time of {fields:.1f} fields{f'; {why}' if why else ''}")
    return failed(name, f"no {what} came in {stretch.end - stretch.begin:,} columns, the time of {fields:.1f} fields", stretch.begin)


def every_two(case: Case, name: str, what: str, places: list[int], within: Span | None = None) -> Verdict:
    """Judges whether each pair of fields contains one of these columns. If `within` is given, only pairs that overlap it count."""
    whole = within or Span(0, case.record.columns)
    if not places:
        return absent(case, name, what, whole.begin, whole.end)
    pairs = [pair for pair in case.pairs if whole.begin < pair.end and pair.begin < whole.end]
    if not pairs:
        return unjudged(name, f"no two whole fields were seen; {counted(len(places), what)} came")
    found, doubtful = case.without(places, pairs)
    if found:
        words = f"none in {len(found):,} of {counted(len(pairs), 'pair')} of fields; {counted(len(places), what)} in all"
        return failed(name, words, found[0].begin, len(found))
    if doubtful:
        return unjudged(name, f"{doubtful:,} of {counted(len(pairs), 'pair')} of fields have none, but the link may have lost it")
    return passed(name, f"{counted(len(places), what)}, and one in each of {counted(len(pairs), 'pair')} of fields")
