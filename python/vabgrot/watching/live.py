"""What a page in a browser has of a live link: its state as JSON, the counts of the last seconds, and the last frame as a PNG file."""

from __future__ import annotations

import json
import threading
from collections import deque
from collections.abc import Iterator
from contextlib import contextmanager
from dataclasses import dataclass, field
from io import BytesIO
from typing import Any

import numpy as np
from PIL import Image

from vabgrot.events import Ints, Kind
from vabgrot.formats.characters import LANES
from vabgrot.formats.faults import LINK
from vabgrot.watching.counting import WAYS
from vabgrot.watching.looking import Budget, Colours, words_of
from vabgrot.watching.state import State, lane_of, place_of

EACH = 0.2  # seconds between two messages, and of a step of the timeline
STEPS = 300  # of the timeline, which are kept: a minute
LARGE = (480, 270)  # the pixels of a picture, at most
ROWS = ("lane", "lane", "lane", "packet", "structure", "slip")  # of the timeline, the three lanes in turn
HEARTBEAT = 15.0  # seconds after which a reader is sent something, so that it is noticed if it is gone


def rows_of_times() -> Ints:
    """For each count of `Count.times`, the row of the timeline on which it stands."""
    found = np.zeros(len(Kind) * WAYS, np.int64)
    for kind in (it for it in Kind if it.word in LINK and it >= Kind.WORD):
        for way in range(WAYS):
            row = LINK[kind.word].row
            found[kind * WAYS + way] = ROWS.index(row) + (max(0, way - 1) if row == "lane" else 0)
    return found


ROW_OF_TIMES = rows_of_times()


@dataclass(frozen=True)
class Step:
    """A step of the timeline: its number, the columns and the whole frames in it, whether the lanes were aligned at its end, and its
    faults by row."""

    number: int
    columns: int
    frames: int
    is_aligned: bool
    faults: list[int]

    def plain(self) -> list[Any]:
        """The same for a page."""
        return [self.number, self.columns, self.frames, int(self.is_aligned), self.faults]


@dataclass
class Live:
    """A view that other threads read: `show` takes the state as it is, and wakes all that wait in `message`."""

    state: State
    each: float = EACH
    steps: deque[Step] = field(default_factory=lambda: deque(maxlen=STEPS))
    told: dict[str, Any] = field(default_factory=dict)
    picture: bytes = b""  # a PNG file
    pictures: int = 0  # how many there were
    shown: Colours | None = None  # of which the last one was made
    readers: int = 0
    budget: Budget = field(default_factory=Budget)  # for pictures: what is looked at must not wait for them
    news: threading.Condition = field(default_factory=threading.Condition)
    times: Ints = field(default_factory=lambda: np.zeros(len(ROW_OF_TIMES), np.int64))
    columns: int = 0
    frames: int = 0

    def show(self) -> None:
        """Takes the state as it is."""
        if self.state.looks.budget.is_left:
            with self.state.looks.budget:
                self.state.looks.keep()
        if self.readers and self.budget.is_left:
            with self.budget:
                self.draw()
        step, told = self.step(), self.plain()
        with self.news:
            self.steps.append(step)
            self.told = told
            self.news.notify_all()

    def step(self) -> Step:
        """What came since the last step."""
        count = self.state.count
        columns = count.before + count.columns
        faults = np.bincount(ROW_OF_TIMES, count.times - self.times, len(ROWS)).astype(int).tolist()
        number = self.steps[-1].number + 1 if self.steps else 0
        found = Step(number, max(0, columns - self.columns), count.frames - self.frames, count.is_aligned, faults)
        self.times, self.columns, self.frames = count.times.copy(), columns, count.frames
        return found

    def draw(self) -> None:
        """Makes a picture of the last whole frame, if it is another one."""
        colours = self.state.looks.picture(self.state.count.standing, LARGE)
        if colours is None or colours is self.shown:
            return
        file = BytesIO()
        Image.fromarray(np.ascontiguousarray(colours), "RGB").save(file, "PNG", compress_level=1)
        self.shown, self.picture, self.pictures = colours, file.getvalue(), self.pictures + 1

    def plain(self) -> dict[str, Any]:
        """The state, for a page."""
        state, seen = self.state, self.state.looks.verdict
        word, recent = state.word, state.recent
        lines = (("link", state.aligned()), ("rate", state.rate()), ("format", state.format()), ("frames", state.frames()))
        return {
            "word": str(word),
            "sign": word.sign,
            "kind": word.style,
            "says": f"What was looked at last: {seen.headline}" if seen else state.aligned(),
            "seconds": round(state.seconds, 1),
            "each": self.each,
            "ended": state.is_ended,
            "lines": [*lines, ("faults", state.faults())],
            "faults": [[kind, lane_of((kind, lane)), recent[kind, lane], times] for (kind, lane), times in state.table()],
            "packets": words_of(state.count.standing),
            "levels": [[one.name, *one.levels[0]] for one in state.looks.channels],
            "last": [place_of(fault) for fault in state.count.last],
            "picture": self.pictures,
        }

    @contextmanager
    def reading(self) -> Iterator[None]:
        """Somebody looks: a picture is made only then."""
        with self.news:
            self.readers += 1
        try:
            yield
        finally:
            with self.news:
                self.readers -= 1

    def message(self, after: int, seconds: float = HEARTBEAT) -> tuple[int, bytes]:
        """Waits for a step behind one, at most so long. Answers the number of the last step, and all that came as an event of a stream."""
        with self.news:
            self.news.wait_for(lambda: bool(self.steps) and self.steps[-1].number > after, seconds)
            steps = [one.plain() for one in self.steps if one.number > after]
            told = self.told
        if not steps:
            return after, b": nothing came\n\n"
        data = json.dumps({**told, "steps": steps, "lanes": LANES, "most": STEPS}, separators=(",", ":"))
        return steps[-1][0], f"data: {data}\n\n".encode()
