"""Determines the columns a second of a link, from the user's options, the format or the sound."""

from __future__ import annotations

from dataclasses import dataclass
from fractions import Fraction

from vabgrot.flow.frames import Frame
from vabgrot.flow.sound import Sound
from vabgrot.formats import modes
from vabgrot.video.colours import Encoding, Signal

USUAL = 60  # fields a second, if nothing gives the rate
PULLED = Fraction(1001, 1000)  # each rate of CTA-861 has a second one that differs by this factor
HERTZ = 128  # clock regeneration: 128 times the sampling rate is the columns a second times N / CTS (HDMI 1.4, section 7.2)
BY_SOUND = "the pixel clock is taken from N, CTS and the sampling rate: no format has this raster"
BY_GUESS = f"nothing tells the pixel clock: {USUAL} fields a second are taken (give --clock or --rate)"


def deep(signal: Signal) -> Fraction:
    """Returns the columns that a pixel takes."""
    return Fraction(24 if signal.encoding == Encoding.YCC422 else signal.bits, 24)


def format_of(frame: Frame, columns: Fraction, vic: int) -> modes.Format | None:
    """Returns the format with this VIC if the frame has its size, otherwise the first format with the frame's raster."""

    def has_size(it: modes.Format) -> bool:
        return it.across.active * columns == frame.width and it.down.active == len(frame.rows)

    named = modes.of_vic(vic)
    if named and has_size(named):
        return named
    period = frame.period
    alike = (it for it in modes.formats() if has_size(it) and it.across.total * columns == frame.across)
    return next((it for it in alike if period is not None and abs(it.columns * columns - period) <= it.across.total), None)


@dataclass(frozen=True)
class Pace:
    """The rate that the user gave: the pixel clock in Hz, or fields a second."""

    clock: float | None = None
    fields: float | None = None

    def of(self, frame: Frame, signal: Signal, vic: int, sound: Sound) -> tuple[Fraction, str] | None:
        """Returns the columns a second, and a note for the user. `frame` gives the raster. Returns None if the next frame will say more."""
        columns = deep(signal)
        if self.clock:
            return Fraction(self.clock).limit_denominator(1000) * columns, ""
        if self.fields:
            return None if frame.period is None else (Fraction(self.fields).limit_denominator(1001) * frame.period, "")
        if found := format_of(frame, columns, vic):
            return self.nearest(Fraction(found.clock) * columns, sound), ""
        if frame.period is None:
            return None
        if sound.clock and sound.rate:
            return by_sound(sound.clock, sound.rate), BY_SOUND
        return Fraction(USUAL * frame.period), BY_GUESS

    def without(self, sound: Sound) -> tuple[Fraction, str] | None:
        """Does the same as `of` without a frame."""
        if self.clock:
            return Fraction(self.clock).limit_denominator(1000), ""
        return (by_sound(sound.clock, sound.rate), BY_SOUND) if sound.clock and sound.rate else None

    @staticmethod
    def nearest(clock: Fraction, sound: Sound) -> Fraction:
        """Returns a format's clock, or the one that differs by 1.001 if the sound's clock is nearer to that."""
        if not (sound.clock and sound.rate):
            return clock
        wanted = by_sound(sound.clock, sound.rate)
        return min((clock, clock / PULLED, clock * PULLED), key=lambda one: abs(one - wanted))


def by_sound(clock: tuple[int, int], rate: int) -> Fraction:
    """Returns the columns a second, given N, CTS and the sampling rate."""
    n, cycles = clock
    return Fraction(HERTZ * rate * cycles, n)


def rate_by(clock: tuple[int, int], columns: Fraction) -> Fraction:
    """Returns the sampling rate, given N, CTS and the columns a second."""
    n, cycles = clock
    return columns * n / (HERTZ * cycles)
