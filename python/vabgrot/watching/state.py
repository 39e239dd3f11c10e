"""What is known of a watched link at a moment, in words."""

from __future__ import annotations

import time
from collections import Counter, deque
from dataclasses import dataclass, field, replace
from typing import NamedTuple

from vabgrot.events import ENDS, Event, Ints
from vabgrot.formats.characters import LANES, TEN
from vabgrot.verdict import Link, Word
from vabgrot.video.matching import counted
from vabgrot.video.timings import DEPTH
from vabgrot.watching.counting import Count, Key, counter_of
from vabgrot.watching.feeding import Feed
from vabgrot.watching.happenings import Happenings
from vabgrot.watching.looking import Looks
from vabgrot.watching.notices import came_of

SECOND, STEP = 1.0, 0.1  # what "the last second" is, and how far its samples are apart
UNITS = ((1e9, "G"), (1e6, "M"), (1e3, "k"))


class Sample(NamedTuple):
    """What had come at a moment."""

    at: float
    bytes: int
    times: Ints  # of faults, as Count has them


def short(number: float) -> str:
    """A number of three digits and a unit."""
    for unit, name in UNITS:
        if number >= unit:
            return f"{number / unit:.3g} {name}"
    return f"{number:.0f}"


def lane_of(key: Key) -> str:
    """A lane in words; nothing of a fault without one."""
    return "" if key[1] is None else LANES[key[1]]


def place_of(fault: Event) -> str:
    """A fault in words: where it is, and its numbers."""
    lane = f", {LANES[fault.lane]}" if fault.lane is not None else ""
    more = f", {' '.join(map(str, fault.more))}" if fault.more else ""
    if fault.kind in ENDS:
        return f"{fault.kind.word}: bit {fault.first:,}{lane}"
    behind = f" behind slip {fault.epoch}" if fault.epoch else ""
    return f"{fault.kind.word}: column {fault.first:,}{behind}{lane}{more}"


@dataclass
class State:
    """What was counted, what was looked at, and when."""

    feed: Feed
    count: Count
    looks: Looks
    happenings: Happenings | None = None
    began: float = field(default_factory=time.monotonic)
    samples: deque[Sample] = field(default_factory=deque)
    is_ended: bool = False
    ended: float = 0.0

    def sample(self) -> None:
        """Notes what has come until now."""
        now = time.monotonic()
        if self.samples and now - self.samples[-1].at < STEP:
            return
        self.samples.append(Sample(now, self.feed.bytes, self.count.times.copy()))
        while len(self.samples) > 2 and self.samples[1].at <= now - SECOND:
            self.samples.popleft()

    def end(self) -> None:
        """No more comes."""
        self.is_ended, self.ended = True, time.monotonic()
        self.looks.keep(is_last=True)
        if self.happenings:
            self.happenings.end()

    @property
    def seconds(self) -> float:
        """How long it was watched."""
        return (self.ended if self.is_ended else time.monotonic()) - self.began

    @property
    def recent(self) -> Counter[Key]:
        """The faults of the last second."""
        return counter_of(self.count.times - self.samples[0].times if self.samples else self.count.times)

    @property
    def bits(self) -> int:
        """How many bits of each lane came."""
        return self.feed.bytes * 8 // 3

    @property
    def columns(self) -> float:
        """The columns a second: of the last one, and at the end of all of it."""
        began, before, now = self.began, 0, self.began + self.seconds
        if self.samples and not self.is_ended:
            began, before, now = self.samples[0].at, self.samples[0].bytes, time.monotonic()
        return (self.feed.bytes - before) * 8 / (3 * TEN) / max(now - began, 1e-3)

    @property
    def clock(self) -> float | None:
        """The columns a second that the link has by its format; None where that is not known."""
        timing = self.looks.timing
        if timing is None:
            return None
        clock = timing.clock or (timing.matched.wanted.clock if timing.matched.equal and timing.matched.wanted else None)
        return clock and clock * timing.raster.bits / DEPTH

    def aligned(self) -> str:
        """Whether the lanes are aligned, and since when; and what does not come."""
        return "; ".join([self.alignment(), *self.missing()])

    def alignment(self) -> str:
        """Whether the lanes are aligned, and since when."""
        count = self.count
        slip, slips = count.slip, counted(count.epoch, "slip")
        behind = f" behind the {slip.kind.word} at bit {slip.first:,} ({slips})" if slip else ""
        if count.is_aligned:
            return f"aligned for {count.columns:,} columns{behind}"
        if count.is_heard:
            return f"not aligned{behind}: rows and islands open without guard bands"
        return f"not aligned{behind}: {counted(self.bits, 'bit')} a lane came"

    def missing(self) -> list[str]:
        """That nothing comes, at all or on a lane."""
        silence = self.feed.silence
        stalled = [f"nothing comes for {silence:.0f} s after {came_of(self.feed.lanes)}"] if silence else []
        return stalled + [*map(str, self.feed.stuck.dead)]

    def rate(self) -> str:
        """How fast it comes."""
        words = f"{short(self.columns)} columns a second"
        if clock := self.clock:
            words += f", {self.columns / clock:.2f} of the link's {clock / 1e6:,.6g} M"
        return words + (f" ({self.progress})" if self.progress else "")

    @property
    def progress(self) -> str:
        """How much of the capture came; nothing where its length is not known."""
        bits = self.feed.length
        return f"{min(self.bits / bits, 1):.0%} of {bits:,} bits a lane" if bits else ""

    def format(self) -> str:
        """The video format."""
        timing = self.looks.timing
        if timing is None:
            return "no raster was seen"
        width, rows = timing.raster.size
        return f"{width:,} × {rows if rows is not None else '?'}{', interlaced' * bool(timing.raster.interlaced)}: {timing.head.text}"

    def frames(self) -> str:
        """How many frames came, and whether all of them were looked at."""
        words = counted(self.count.frames, "whole frame")
        if self.looks.is_behind:
            words += f", {self.looks.looked:,} looked at: the view cannot follow, all faults and columns are counted"
        return words

    def faults(self) -> str:
        """How many faults came."""
        return f"{counted(self.count.total, 'fault')}, {sum(self.recent.values()):,} in the last second"

    @property
    def word(self) -> Word:
        """The word of the verdict on all that came: of the link by all events, of the source by what was looked at."""
        seen = self.looks.verdict
        slips = (place_of(self.count.slip),) if self.count.slip else ()
        link = Link(self.count.was_aligned, self.count.faults, slips, seen is not None and seen.link.is_source)
        if seen is not None:
            return replace(seen, link=link).word
        return Word.UNALIGNED if not link.is_aligned else Word.NOTHING if link.is_clean else Word.LINK

    def judged(self) -> str:
        """The verdict in words."""
        seen = self.looks.verdict
        return f"verdict: {self.word}" + (f"; what was looked at last: {seen.headline}" if seen else "")

    def line(self) -> str:
        """All of it in one line."""
        return f"{self.seconds:.0f} s: {self.aligned()}; {self.rate()}; {self.frames()}; {self.faults()}"

    def summary(self) -> list[str]:
        """What is said at the end."""
        lines = [f"watched for {self.seconds:.1f} s: {self.aligned()}", f"{self.rate()}", self.format(), self.frames(), self.judged()]
        lines += [f"{times:,} {kind}{f', {lane_of((kind, lane))}' if lane is not None else ''}" for (kind, lane), times in self.table()]
        lines += self.happenings.words if self.happenings else []
        return lines + ([] if self.count.total else ["no fault"])

    def table(self) -> list[tuple[Key, int]]:
        """The faults by kind and lane."""
        return sorted(self.count.faults.items(), key=lambda one: (one[0][0], -1 if one[0][1] is None else one[0][1]))
