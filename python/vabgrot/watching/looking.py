"""What is looked at of a link that comes in, as far as there is time: its raster, its last frame, its sound, and the verdict on it."""

from __future__ import annotations

import functools
import time
from concurrent.futures import Future, ThreadPoolExecutor
from dataclasses import dataclass, field, replace

import numpy as np
import numpy.typing as npt
from PIL import Image

from vabgrot import packets
from vabgrot.content import Content, Framer
from vabgrot.events import RECORD, Events, joined
from vabgrot.formats.layouts import BODY, HEADER
from vabgrot.hearing import heard_of
from vabgrot.library import Grammar
from vabgrot.packets import Packet
from vabgrot.reading import part_of
from vabgrot.report.sound import Channel, Told
from vabgrot.verdict import Verdict, verdict_of
from vabgrot.video import images
from vabgrot.video.colours import Signal
from vabgrot.video.matching import Rate, Timing
from vabgrot.video.signals import Signals

SHARE, GRACE = 0.05, 0.2  # of the time that may be looked, and seconds that may be so in any case
FRAMES = 12  # whole frames after which a look begins anew: its raster and its sound are those of so many
ENOUGH, MOST = 2, 1 << 27  # whole frames, or bytes of events, that a look has before it ends for want of time
Colours = npt.NDArray[np.uint8]
FINER = 4  # rows of a frame that are taken for a row of its small picture
SMALL = (64, 48)  # the pixels of a small picture, at most
MANY = 64  # unlike packets that are kept as they were read


@dataclass
class Budget:
    """How long may be looked: a share of all time, so that the receiver is not held up."""

    began: float = field(default_factory=time.monotonic)
    spent: float = 0.0
    entered: float = 0.0

    @property
    def is_left(self) -> bool:
        """Whether there is time to look."""
        return self.spent <= GRACE + SHARE * (time.monotonic() - self.began)

    def __enter__(self) -> None:
        self.entered = time.monotonic()

    def __exit__(self, *_: object) -> None:
        self.spent += time.monotonic() - self.entered


class Look:
    """Takes events from any place on, and keeps what they show."""

    def __init__(self) -> None:
        self.parts: list[Events] = []
        self.framer = Framer()
        self.rows: list[bytes] = []  # of the last whole frame
        self.whole, self.kept, self.size = 0, 0, 0

    @property
    def is_enough(self) -> bool:
        """Whether it saw a raster and a frame, or so much that it will not."""
        return self.whole >= ENOUGH or self.size >= MOST

    def take(self, events: Events) -> None:
        """The next events."""
        self.size += len(events) * RECORD.itemsize + len(events.data)
        self.parts.append(events.without_pixels())
        for _, frame in self.framer.take(replace(events, data=events.data.copy())):  # those that are there are written over
            if frame.is_whole:
                self.rows, self.whole = frame.rows, self.whole + 1


@dataclass
class Looks:
    """Looks at events one after another as long as there is time, and keeps what the last look saw."""

    grammar: Grammar = "track"
    rate: Rate = field(default_factory=Rate)
    budget: Budget = field(default_factory=Budget)
    look: Look | None = None
    verdict: Verdict | None = None  # on the last look
    frame: list[bytes] = field(default_factory=list)  # the rows of the last whole frame that was seen
    channels: list[Channel] = field(default_factory=list)
    looked: int = 0  # whole frames
    is_behind: bool = False  # events were not looked at
    thread: ThreadPoolExecutor = field(default_factory=lambda: ThreadPoolExecutor(1))
    judging: Future[None] | None = None
    drawn: tuple[list[bytes], Signal, tuple[int, int], Colours] | None = None  # the last small picture, and what it is of

    def take(self, events: Events) -> None:
        """The next events; if there is no time they are let go."""
        if self.look is None and (not self.budget.is_left or self.is_judging):
            self.is_behind = True
            return
        with self.budget:
            self.look = self.look or Look()
            self.look.take(events)
        if self.look.whole >= FRAMES or self.look.is_enough and not self.budget.is_left:
            self.keep()
            self.look = None

    def keep(self, is_last: bool = False) -> None:
        """Keeps what the look saw until now, if a frame ended since, or nothing more comes. If the last look is still judged, this one is
        let go, unless it is the last."""
        look = self.look
        if self.is_judging and not is_last:
            return
        self.wait()
        if look is None or look.whole == look.kept and not is_last:
            return
        self.looked += look.whole - look.kept
        look.kept = look.whole
        self.frame = look.rows or self.frame
        if look.rows or self.verdict is None:
            self.judging = self.thread.submit(self.judged, [*look.parts])
        if is_last:
            self.wait()

    @property
    def is_judging(self) -> bool:
        """Whether the last look is still judged."""
        return self.judging is not None and not self.judging.done()

    def wait(self) -> None:
        """Waits until the last look is judged. Raises what that raised."""
        if self.judging:
            self.judging.result()
            self.judging = None

    def judged(self, parts: list[Events]) -> None:
        """Judges some events, beside the receiver."""
        begun = time.thread_time()
        content = Content(part_of(joined(parts), self.grammar))
        self.verdict = verdict_of(content.reading, self.rate)
        if content.samples.total:
            self.channels = Told.of(heard_of(content.packets, content.samples), content.samples).channels()
        self.budget.spent += time.thread_time() - begun

    @property
    def timing(self) -> Timing | None:
        """What is said of the last raster that was seen whole, or of the first one."""
        found = self.verdict.timings if self.verdict else []
        return next((one for one in reversed(found) if one.raster.size[1] is not None), found[0] if found else None)

    def picture(self, standing: dict[int, bytes], size: tuple[int, int] = SMALL) -> Colours | None:
        """The last whole frame that was seen, small; None where there is none."""
        if not self.frame:
            return None
        signal = self.signal(standing, self.frame)
        if self.drawn is None or self.drawn[0] is not self.frame or self.drawn[1:3] != (signal, size):
            self.drawn = self.frame, signal, size, small(self.frame, signal, size)
        return self.drawn[3]

    def signal(self, standing: dict[int, bytes], rows: list[bytes]) -> Signal:
        """How the pixels of a frame are sent, by the packets that stand."""
        signals = Signals(has_packets=self.grammar != "dvi")
        for data in standing.values():
            signals.take_packet(packet_of(data))
        return signals.reading(len(rows[0]) // 3).signal


@functools.lru_cache(MANY)
def packet_of(data: bytes) -> Packet:
    """The packet of the bytes of its header and its bodies; most are as one before."""
    return Packet(data[:HEADER], [data[at : at + BODY] for at in range(HEADER, len(data), BODY)])


def small(frame: list[bytes], signal: Signal, size: tuple[int, int]) -> Colours:
    """The rows of a frame in at most so many pixels, across an even number of rows."""
    columns = len(frame[0]) // 3
    across, down = signal.pixels(columns), len(frame)
    scale = min(size[0] / across, size[1] / down, 1)
    width, height = max(1, round(across * scale)), max(2, 2 * round(down * scale / 2))
    rows = [frame[at * len(frame) // (FINER * height)] for at in range(FINER * height)]
    colours = images.shallow(images.colours_of(rows, columns, signal))
    return np.asarray(Image.fromarray(np.ascontiguousarray(colours), "RGB").resize((width, height), Image.Resampling.BOX))


def words_of(standing: dict[int, bytes]) -> list[tuple[str, str]]:
    """Each packet that stands, its name and what it says, by its type from the highest one on."""
    found = []
    for _, data in sorted(standing.items(), reverse=True):
        packet = packet_of(data)
        content = packets.content_of(packet)
        if content.rows or content.faults:
            found.append((packet.name, content.words))
    return found
