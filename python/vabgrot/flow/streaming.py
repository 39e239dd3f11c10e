"""Turns a link into a stream of pictures and sound. Each segment has one format."""

from __future__ import annotations

import sys
from collections.abc import Callable, Iterator, Sequence
from dataclasses import dataclass, field, replace
from fractions import Fraction

import numpy as np

from vabgrot import pcm
from vabgrot.flow.forms import Form, Sink, fitted
from vabgrot.flow.frames import Frame, Framer, Stretch, learn
from vabgrot.flow.pace import Pace
from vabgrot.flow.parts import Part
from vabgrot.flow.sound import Samples, Sound, Values
from vabgrot.video import images, quick
from vabgrot.video.colours import Signal
from vabgrot.video.images import Colours
from vabgrot.video.signals import Signals
from vabgrot.video.weaving import Pair, Weaver

SURE = 2  # this many successive pictures with another size begin a new format
USUAL_RATE = 48_000  # Hz, if nothing gives the sampling rate
BY_USUAL = f"nothing tells the sampling rate: {USUAL_RATE:,} Hz are taken"
APART = 0.02  # seconds that samples may be early or late before they are numbered again from their columns
MOST_WAITING = 64  # stretches of sound that are kept while there is no picture
MOST_APART = 0.005  # the relative change of a sampling rate that counts as a new rate
FIELDS = "a field of interlaced video without its other one is left out"


@dataclass
class Picture:
    """A picture: its colours, the column of its first pixel, the frame it was made of, and what its format depends on."""

    colours: Colours
    column: int
    frame: Frame
    signal: Signal
    vic: int
    is_field: bool = False

    @property
    def size(self) -> tuple[int, int]:
        """Width and height."""
        return self.colours.shape[1], self.colours.shape[0]

    @property
    def lines_down(self) -> Fraction | None:
        """The lines from VSYNC to the first row."""
        return self.frame.lines_down

    @property
    def key(self) -> tuple[int, int, bool]:
        """What all pictures of one format have in common."""
        return (*self.size, self.colours.dtype == np.uint16)


def woven(pair: Pair[Picture]) -> Picture:
    """Weaves two fields into a picture."""
    upper, lower = pair.upper, pair.lower
    if lower is None:
        return upper
    colours = images.woven(images.Picture(upper.colours), images.Picture(lower.colours)).colours
    return replace(upper, colours=colours, is_field=True)


@dataclass
class Streamer:
    """Takes the parts of a link and writes pictures and sound to sinks."""

    sinks: Sequence[Sink]
    pace: Pace
    is_dvi: bool = False
    is_raw: bool = False
    weaves: bool = True
    say: Callable[[str], None] = lambda text: print(f"stream: {text}", file=sys.stderr)
    framer: Framer = field(default_factory=Framer)
    heard: Sound = field(default_factory=Sound)
    form: Form | None = None
    held: list[Picture] = field(default_factory=list)  # pictures that wait until their format is certain
    waiting: list[Samples] = field(default_factory=list)
    number: int = 0  # the number of segments so far
    pictures: int = 0
    samples: int = 0
    faults: int = 0
    misfits: int = 0  # pictures with a different size than their neighbours
    next: int | None = None  # the number of the next sample
    said: set[str] = field(default_factory=set)

    def __post_init__(self) -> None:
        self.signals = Signals(has_packets=not self.is_dvi)
        self.weaver: Weaver[Picture] | None = Weaver() if self.weaves else None

    def take(self, part: Part) -> None:
        """Takes the next part of the link."""
        for stretch in self.framer.take(part):
            self.packets(stretch)
            if stretch.frame:
                self.faults += stretch.frame.faults
                for pair in self.paired(self.picture(stretch.frame)):
                    self.show(woven(pair))
        if self.form and not self.held:
            self.play()
        elif not self.form:
            del self.waiting[:-MOST_WAITING]

    def packets(self, stretch: Stretch) -> None:
        """Takes the packets of a stretch: they describe the pixels and contain the sound."""
        learn(self.signals, stretch.packets)
        found = self.heard.take(stretch.packets)
        if len(found.at):
            self.waiting.append(found)

    def picture(self, frame: Frame) -> Picture:
        """Makes the picture of a frame."""
        reading = self.signals.reading(frame.width)
        signal = Signal() if self.is_raw else reading.signal
        for note in () if self.is_raw else reading.notes:
            self.note(note)
        columns = frame.columns()
        colours = quick.colours(columns, signal)
        if not signal.is_plain:
            short = [(number, len(row) // 3) for number, row in enumerate(frame.rows) if len(row) < 3 * frame.width]
            for number, pixels in short:
                colours[number, signal.pixels(pixels) :] = 0
        vic = self.signals.avi["VIC"] if self.signals.avi else 0
        return Picture(colours, frame.firsts[0], frame, signal, vic)

    def paired(self, picture: Picture) -> Iterator[Pair[Picture]]:
        """Yields the picture, or the pair of two fields that make a frame."""
        if self.weaver is None:
            yield Pair(picture)
            return
        for pair in self.weaver.take(picture):
            if pair.is_field:
                self.note(FIELDS)
            else:
                yield pair

    def note(self, text: str) -> None:
        """Prints a note. The same note is printed only once."""
        if text not in self.said:
            self.said.add(text)
            self.say(text)

    def show(self, picture: Picture) -> None:
        """Takes a picture. If it has the current format it is written. Otherwise it waits until a second one with its size follows."""
        if self.form and picture.key == (self.form.width, self.form.height, self.form.is_deep) and not self.is_other(picture):
            self.misfit()
            self.write(picture)
            return
        if self.held and self.held[-1].key != picture.key:
            self.misfit()
        self.held.append(picture)
        if len(self.held) >= SURE:
            self.settle()

    def is_other(self, picture: Picture) -> bool:
        """Returns whether the rate of pictures or of sound differs from the current format's."""
        form = self.form_of(picture, is_last=False)
        return form is not None and self.form is not None and form != self.form

    def misfit(self) -> None:
        """Writes the waiting pictures in the current format, because they do not begin a new one."""
        if self.form is None:
            self.misfits += len(self.held)
            self.held.clear()
        while self.held:
            self.misfits += 1
            self.write(self.held.pop(0))

    def settle(self, is_last: bool = False) -> None:
        """Begins a new format with the waiting pictures, if the format is known."""
        form = self.form_of(self.held[-1], is_last or len(self.held) > SURE)
        if form is None:
            return
        self.begin(form, self.held[0].column)
        for picture in self.held:
            self.write(picture)
        self.held.clear()

    def form_of(self, picture: Picture, is_last: bool) -> Form | None:
        """Returns the format of a picture, or None if the next one will say more. Guessed values stay the same as long as the size does."""
        frame, now = picture.frame, self.form
        if is_last and frame.period is None:
            frame = replace(frame, before=frame.begin)
        found = self.pace.of(frame, picture.signal, picture.vic, self.heard)
        if found is None:
            return None
        pace, why = found
        is_same = now is not None and picture.key == (now.width, now.height, now.is_deep)
        if now and is_same and why:
            pace = now.pace
        else:
            self.note(why) if why else None
        period = (frame.period or frame.across * len(frame.rows) or 1) * (1 + picture.is_field)
        if now and is_same and pace == now.pace:
            period = now.period
        rate = self.rate_of(pace)
        channels, mask = self.heard.channels if rate else ((), 0)
        return Form(*picture.key, pace, period, rate, channels, mask)

    def rate_of(self, pace: Fraction) -> int:
        """Returns the sampling rate, or 0 if there is no sound."""
        now = self.form.rate if self.form else 0
        if not self.waiting and not self.samples:
            return now
        if self.heard.clock:
            found = pcm.rate_of(*self.heard.clock, float(pace))
            return now if now and abs(found - now) <= MOST_APART * now else found
        if self.heard.rate is None and not now:
            self.note(BY_USUAL)
        return self.heard.rate or now or USUAL_RATE

    def begin(self, form: Form, column: int) -> None:
        """Begins a segment."""
        if self.form:
            self.play(column)
            for sink in self.sinks:
                sink.end()
        self.number += 1
        self.form, self.next = form, None
        self.say(f"segment {self.number} from {form.seconds(column):.3f} s: {form}")
        for sink in self.sinks:
            sink.begin(form, self.number)

    def write(self, picture: Picture) -> None:
        """Writes a picture and the sound before it."""
        assert self.form
        self.play(picture.column)
        colours = fitted(picture.colours, self.form)
        for sink in self.sinks:
            sink.picture(picture.column, colours)
        self.pictures += 1

    def play(self, before: int | None = None) -> None:
        """Writes the samples before a column, or all samples."""
        assert self.form
        rest: list[Samples] = []
        for at, values in self.waiting:
            stop = len(at) if before is None else int(np.searchsorted(at, before))
            if stop < len(at):
                rest.append(Samples(at[stop:], values[stop:]))
            if stop and self.form.rate and values.shape[1] > max(self.form.channels):
                self.sound(int(at[0]), values[:stop, list(self.form.channels)])
        self.waiting = rest

    def sound(self, column: int, values: Values) -> None:
        """Writes samples. The first one was received at `column`."""
        assert self.form
        at = self.form.sample(column)
        if self.next is None or abs(at - self.next) > APART * self.form.rate:
            self.next = at
        for sink in self.sinks:
            sink.sound(self.next, values)
        self.next += len(values)
        self.samples += len(values)

    def end(self) -> None:
        """Writes the rest, at the end of the link."""
        for pair in self.weaver.end() if self.weaver else ():
            if pair.is_field:
                self.note(FIELDS)
            else:
                self.show(woven(pair))
        if self.held and (self.form is None or len(self.held) >= SURE):
            self.settle(is_last=True)
        self.misfit()
        if self.form:
            self.play()
            for sink in self.sinks:
                sink.end()
