"""Recovers bits from a waveform: levels, edges, a phase-locked loop over the edges, and the level in the middle of each bit."""

import tempfile
from dataclasses import dataclass, field
from typing import IO, Any, NamedTuple, Protocol

import numpy as np
import numpy.typing as npt

from vabgrot.capture import MOST_BITS
from vabgrot.errors import Refused
from vabgrot.replacing import naming
from vabgrot.waves import loops
from vabgrot.waves.loops import Ints, Reals
from vabgrot.waves.mask import OFFSETS
from vabgrot.waves.mask import Mask as EyeMask
from vabgrot.waves.waveform import Channel, Piece, Samples

Mask = npt.NDArray[np.bool_]

FIRST = 2000  # the number of edges that give bit rate and phase
RUNS, RUN = 32, 1024  # number and length of the runs of values that give the levels of a piece
LEAST_SAMPLES = 2.6  # the least samples a bit if there is no clock
HYSTERESIS = 0.1  # as a part of the swing, on both sides of the threshold
EYE_WIDTH, EYE_HEIGHT, EYE_BITS, EYE_ROOM = 101, 101, 4096, 0.5
LEAST_OPENING, MOST_JITTER = 0.1, 0.9  # the limits of an open eye


def rows_of(keys: npt.NDArray[Any], values: npt.NDArray[Any]) -> Ints:
    """Returns for each of the rising `values` the last of the rising `keys` that is not greater, or the first one."""
    begins = np.maximum.accumulate(np.searchsorted(values, keys))
    begins[0] = 0
    return np.repeat(np.arange(len(keys)), np.diff(begins, append=len(values)))


class Bits:
    """Collects the bits of a lane in a temporary file. Bit i is bit i mod 8 of byte i / 8."""

    def __init__(self) -> None:
        self.file: IO[bytes] = tempfile.TemporaryFile()
        self.count = 0
        self.held: Mask = np.zeros(0, bool)

    def write(self, bits: Mask) -> None:
        """Adds the bits of a Boolean array."""
        self.count += len(bits)
        if self.count > MOST_BITS:
            raise Refused(f"a lane has at most {MOST_BITS} bits")
        bits = np.concatenate([self.held, bits])
        whole = len(bits) // 8 * 8
        self.put(bits[:whole])
        self.held = bits[whole:]

    def put(self, bits: Mask) -> None:
        """Writes whole bytes of bits, or the last ones. An OSError names the file's folder."""
        with naming(tempfile.gettempdir()):
            self.file.write(np.packbits(bits, bitorder="little").tobytes())

    def ended(self) -> IO[bytes]:
        """Returns the complete file, positioned at its beginning."""
        self.put(self.held)
        with naming(tempfile.gettempdir()):
            self.file.seek(0)
        return self.file


class Trace:
    """The levels of one lane in a piece, preceded by the last ones before it."""

    def __init__(self, piece: Piece, channel: Channel, before: "Trace | None" = None) -> None:
        kept = before.values[-2:] if before else np.zeros(0, np.float32)
        self.new = tail = len(kept)  # the index at which the values of the piece begin
        self.values: npt.NDArray[np.float32] = np.empty(tail + len(piece.values), np.float32)
        self.values[:tail] = kept
        channel.write(piece.values, self.values[tail:])
        self.times = piece.times
        if piece.times is not None and before and before.times is not None:
            self.times = np.concatenate([before.times[-2:], piece.times])
        self.first = piece.first - (tail if piece.times is None else 0)
        self.last = piece.last

    def at(self, moments: Reals) -> Reals:
        """Returns the level at each moment, interpolated between samples."""
        if self.times is not None:
            stood: Reals = self.values[np.maximum(np.searchsorted(self.times, moments, "right") - 1, 0)]
            return stood
        places = np.clip(moments - self.first, 0, len(self.values) - 1)
        whole = np.minimum(places.astype(np.int64), len(self.values) - 2)
        left: Reals = self.values[whole].astype(float)
        between: Reals = left + (self.values[whole + 1] - left) * (places - whole)
        return between

    def moments(self, places: npt.NDArray[np.intp], thresholds: Reals) -> Reals:
        """Returns when the level crossed the thresholds before the samples at some places."""
        if self.times is not None:
            changed: Reals = self.times[places]
            return changed
        left: Reals = self.values[places - 1].astype(float)
        steps = self.values[places] - left
        passed: Reals = self.first + places - 1 + np.clip((thresholds - left) / np.where(steps, steps, 1), 0, 1)
        return passed


@dataclass
class Levels:
    """The two levels of a lane."""

    low: float
    high: float

    @property
    def swing(self) -> float:
        return self.high - self.low

    @property
    def middle(self) -> float:
        return (self.high + self.low) / 2


def spread(values: Samples) -> Samples:
    """Returns the values. If there are many, it returns runs spread evenly over them."""
    if len(values) <= RUNS * RUN:
        return values
    begins = np.linspace(0, len(values) - RUN, RUNS).astype(int)
    return np.concatenate([values[begin : begin + RUN] for begin in begins])


def levels_of(values: Samples) -> Levels:
    """Returns the two levels: the means of the values above and below the middle."""
    values = spread(values)
    middle = (float(values.min()) + float(values.max())) / 2
    low = high = middle
    for _ in range(20):
        above = values > middle
        if above.all() or not above.any():
            break
        low, high = float(values[~above].mean(dtype=float)), float(values[above].mean(dtype=float))
        if abs(middle - (low + high) / 2) <= 1e-4 * (high - low):
            break
        middle = (low + high) / 2
    return Levels(low, high)


def crossed(trace: Trace, side: bool, low: np.float32, high: np.float32) -> Reals:
    """Returns the moments that `loops.cross` writes for the new values of a trace."""
    run = trace.times is None and loops.fast(loops.cross)
    if run:
        moments = np.empty(len(trace.values))
        return moments[: run(trace.values, trace.new, side, low, high, float(trace.first), moments)]
    above, below = trace.values[trace.new :] > high, trace.values[trace.new :] < low
    turned = above | below
    turned[1:] = (above[1:] > above[:-1]) | (below[1:] > below[:-1])
    places = np.flatnonzero(turned)
    sides = above[places]
    changed = sides != np.concatenate([[side], sides])[:-1]
    return trace.moments(places[changed] + trace.new, np.where(sides[changed], float(high), float(low)))


def edges_of(trace: Trace, levels: Levels, side: bool) -> tuple[Reals, Mask, bool]:
    """Returns the moments at which the level crosses the threshold, whether each edge rises, and the side at the end."""
    low, high = (np.float32(levels.middle + part * levels.swing) for part in (-HYSTERESIS, HYSTERESIS))
    moments = crossed(trace, side, low, high)
    rising = np.arange(len(moments)) % 2 == int(side)
    return moments, rising, side != bool(len(moments) % 2)


class Track(NamedTuple):
    """The states of a loop before some edges and after each of them: bit `numbers` begins at `phases`. `errors` is by how many bits each
    edge was later than the beginning of a bit."""

    phases: Reals
    numbers: Ints
    periods: Reals
    errors: Reals

    def middles(self, numbers: Ints) -> tuple[Reals, Reals]:
        """Returns the middles of bits, and their periods. `numbers` must rise."""
        at = rows_of(self.numbers, numbers)
        return self.phases[at] + (numbers - self.numbers[at] + 0.5) * self.periods[at], self.periods[at]


@dataclass
class Loop:
    """A phase-locked loop: bit `number` begins at `phase` and lasts `period`."""

    phase: float
    period: float
    number: int = 0
    pull: float = loops.PULL

    def track(self, edges: Reals) -> Track:
        """Follows the edges."""
        track = Track(*loops.followed(edges, self.phase, self.period, self.pull, self.number))
        self.phase, self.number, self.period = float(track.phases[-1]), int(track.numbers[-1]), float(track.periods[-1])
        return track


def settled(edges: Reals, loop: Loop, start: float) -> Loop:
    """Returns the loop in its state before the first edge, after it followed the edges forwards and backwards. Bit 0 is the first bit
    with its middle at or after `start`."""
    loop.track(edges)
    back = Loop(-loop.phase, loop.period, 0, loop.pull)
    back.track(-edges[::-1])
    number = int(np.floor((-back.phase - start) / back.period + 0.5))
    return Loop(-back.phase, back.period, number, loop.pull)


def period_of(edges: Reals, least: float) -> float | None:
    """Returns the bit period: the longest one that divides the distances of the edges."""
    steps = np.diff(edges)
    low, high = max(np.percentile(steps, 25) / 3, least), 1.5 * np.percentile(steps, 75)
    if not low < high:
        return None
    periods = np.geomspace(low, high, 2 + int(np.log(high / low) / 0.005))
    scores = np.array([np.cos(2 * np.pi * steps / period).mean() for period in periods])
    if scores.max() < 0.25:
        return None
    rank = np.flatnonzero(scores >= 0.75 * scores.max())[-1]
    near = periods > periods[rank] * 0.9
    period = periods[near][scores[near].argmax()]
    for _ in range(3):
        bits = np.round(steps / period)
        period = (steps @ bits) / (bits @ bits)
    return float(np.polyfit(np.cumsum(np.round(steps / period)), edges[1:], 1)[0])


NO_TRACK = Track(np.empty(0), np.empty(0, np.int64), np.empty(0), np.empty(0))


class Base(Protocol):
    """The time base of lanes: a scale on which all bits have (nearly) the same length."""

    track: Track

    def feed(self, piece: Piece) -> None:
        """Takes the next piece. Call it before the lanes take the piece."""

    def bits(self, moments: Reals) -> Reals:
        """Converts moments of the file, which must rise, to the scale."""

    def moments(self, bits: Reals) -> Reals:
        """Converts rising times on the scale to moments of the file."""

    def lock(self, edges: Reals, start: float, name: str, least: float) -> Loop:
        """Returns the loop of a lane, given its first edges. A bit has `least` samples or more. Raises Refused if they show no bit rate."""


class Freely:
    """The time base of lanes without a clock: the file's own time."""

    def __init__(self) -> None:
        self.track = NO_TRACK

    def feed(self, piece: Piece) -> None:
        """Does nothing."""

    def bits(self, moments: Reals) -> Reals:
        """Returns the same moments."""
        return moments

    def moments(self, bits: Reals) -> Reals:
        """Returns the same moments."""
        return bits

    def lock(self, edges: Reals, start: float, name: str, least: float) -> Loop:
        period = period_of(edges, least / 2)
        if period is None or period < least:
            text = "its edges keep to no bit rate" if period is None else f"its edges show some {period:.2g} samples a bit"
            wanted = f"; under {least} the clock's channel is wanted, with --clock" if least else ""
            raise Refused(f"{name}: {text}{wanted}")
        return settled(edges, Loop(edges[0], period), start)


class Lane:
    """Finds the bits of a lane piece by piece, and keeps them in a file. `trace`, `levels` and `loop` belong to the last piece."""

    trace: Trace
    levels: Levels
    loop: Loop

    def __init__(self, name: str, channel: Channel, eye: bool = False, mask: EyeMask | None = None) -> None:
        self.mask = mask
        self.name, self.channel, self.pieces = name, channel, 0
        self.state = False  # whether the level was above the threshold when last seen
        self.written = Bits()
        self.measure = Measure()
        self.eye = np.zeros(EYE_WIDTH * EYE_HEIGHT) if eye else None
        self.eye_levels: Levels | None = None

    def edges(self, piece: Piece) -> tuple[Reals, Mask]:
        """Returns the edges of the next piece: their moments, and whether each rises. Raises Refused if the level does not change."""
        is_first, self.pieces = not self.pieces, self.pieces + 1
        self.trace = Trace(piece, self.channel, None if is_first else self.trace)
        if not np.isfinite(self.trace.values).all():
            raise Refused(f"{self.name}: a level is no finite number")
        levels = levels_of(self.trace.values)
        if is_first:
            if not levels.swing > 0:
                raise Refused(f"{self.name}: its level does not change")
            self.state = bool(self.trace.values[0] > levels.middle)
        if is_first or levels.swing > self.levels.swing / 2:
            self.levels = levels
        moments, rising, self.state = edges_of(self.trace, self.levels, self.state)
        return moments, rising

    def feed(self, piece: Piece, base: Base) -> None:
        """Takes the next piece, after `base` took it. Raises Refused if the first piece shows no bit rate."""
        moments, _ = self.edges(piece)
        edges = base.bits(moments)
        if self.pieces == 1:
            if len(edges) < 8:
                raise Refused(f"{self.name}: its level changes {len(edges)} times, which shows no bit rate")
            least = LEAST_SAMPLES if piece.times is None else 0.0
            self.loop = base.lock(edges[:FIRST], base.bits(np.array([self.trace.first]))[0], self.name, least)
        track = self.loop.track(edges)
        self.measure.errors(track.errors)
        self.slice(track, base)

    def slice(self, track: Track, base: Base) -> None:
        """Reads the level in the middle of each bit, up to the end of the piece."""
        loop, last = self.loop, base.bits(np.array([self.trace.last]))[0]
        behind = loop.number + int(np.floor((last - loop.phase) / loop.period - 0.5)) + 1
        if behind <= self.written.count:
            return
        ones, lowest_one, highest_zero = self.sampled(track, base, behind)
        self.measure.take(len(ones), self.levels, lowest_one, highest_zero)
        self.measure.spans(base.moments(track.middles(np.array([self.written.count, behind - 1]))[0]))
        if self.eye is not None:
            self.draw(self.eye, *track.middles(np.arange(self.written.count, behind)[:EYE_BITS]), base)
        if self.mask is not None:
            self.measure_mask(self.mask, *track.middles(np.arange(self.written.count, behind)), base)
        self.written.write(ones)

    def measure_mask(self, mask: EyeMask, middles: Reals, periods: Reals, base: Base) -> None:
        """Passes the levels around the middle of bits to the mask. Bits that are only partly in the piece are left out."""
        rows = [base.moments(middles + offset * periods) for offset in OFFSETS]
        whole = (rows[0] >= self.trace.first) & (rows[-1] <= self.trace.last)
        mask.take(np.stack([self.trace.at(moments[whole]) for moments in rows]) - self.levels.middle)

    def take(self, piece: Piece) -> None:
        """Takes the next piece of a lane with one sample for each bit. Raises Refused if the level does not change."""
        self.edges(piece)
        levels = self.trace.values[self.trace.new :]
        ones = levels > self.levels.middle
        ends = levels[ones].min(initial=np.inf), levels[~ones].max(initial=-np.inf)
        self.measure.take(len(ones), self.levels, float(ends[0]), float(ends[1]))
        self.measure.spans(np.array([piece.first, piece.last]))
        self.written.write(ones)

    def sampled(self, track: Track, base: Base, behind: int) -> tuple[Mask, float, float]:
        """Returns for each new bit whether the level in its middle is above the threshold, and the two levels that `loops.sample`
        returns."""
        trace, number, middle = self.trace, self.written.count, self.levels.middle
        run = trace.times is None and loops.fast(loops.sample)
        if run:
            ones = np.empty(behind - number, bool)
            ends = run(trace.values, float(trace.first), track[:3], base.track[:3], number, middle, ones)
            return ones, *ends
        levels = trace.at(base.moments(track.middles(np.arange(number, behind))[0]))
        ones = levels > middle
        return ones, levels[ones].min(initial=np.inf), levels[~ones].max(initial=-np.inf)

    def draw(self, eye: Reals, middles: Reals, periods: Reals, base: Base) -> None:
        """Adds the levels from one bit before the middle of a bit to one bit after it to the eye diagram."""
        if self.eye_levels is None:
            room = EYE_ROOM * self.levels.swing
            self.eye_levels = Levels(self.levels.low - room, self.levels.high + room)
        low, swing = self.eye_levels.low, self.eye_levels.swing
        for x, offset in enumerate(np.linspace(-1, 1, EYE_WIDTH)):
            moments = base.moments(middles + offset * periods)
            moments = moments[(moments >= self.trace.first) & (moments <= self.trace.last)]
            heights = (self.trace.at(moments) - low) / swing * (EYE_HEIGHT - 1)
            places = np.clip(np.round(heights), 0, EYE_HEIGHT - 1).astype(int)
            eye[x::EYE_WIDTH] += np.bincount(places, minlength=EYE_HEIGHT)


@dataclass
class Measure:
    """The measurements of a lane: bit period, jitter in unit intervals, levels, and the opening of the eye."""

    bits: int = 0
    edges: int = 0
    square: float = 0.0
    early: float = 0.0
    late: float = 0.0
    ends: list[float] = field(default_factory=list)  # the moments of the first and the last bit
    sums: Reals = field(default_factory=lambda: np.zeros(2))
    lowest_one: float = np.inf
    highest_zero: float = -np.inf

    def errors(self, errors: Reals) -> None:
        """Adds by how many bits some edges were late."""
        self.edges += len(errors)
        if len(errors):
            self.square += float(np.square(errors).sum())
            self.early, self.late = min(self.early, errors.min()), max(self.late, errors.max())

    def take(self, bits: int, levels: Levels, lowest_one: float, highest_zero: float) -> None:
        """Adds bits: their number, the lane's levels, and the extreme levels in the middle of the bits."""
        self.lowest_one = min(self.lowest_one, lowest_one)
        self.highest_zero = max(self.highest_zero, highest_zero)
        self.sums += bits * np.array([levels.low, levels.high])
        self.bits += bits

    def spans(self, middles: Reals) -> None:
        """Adds the moments of the first and the last of some bits."""
        self.ends = [self.ends[0] if self.ends else middles[0], middles[-1]]

    @property
    def period(self) -> float:
        """The length of a bit, in the file's units."""
        return (self.ends[1] - self.ends[0]) / (self.bits - 1) if self.bits > 1 else 0.0

    @property
    def levels(self) -> Levels:
        return Levels(*(self.sums / max(self.bits, 1)))

    @property
    def opening(self) -> float:
        """The distance between ones and zeros in the middle of bits, as a part of the swing."""
        return (self.lowest_one - self.highest_zero) / self.levels.swing

    @property
    def jitter(self) -> tuple[float, float]:
        """The jitter: root mean square, and peak to peak."""
        return (self.square / max(self.edges, 1)) ** 0.5, self.late - self.early

    @property
    def is_shut(self) -> bool:
        """Whether a level was near the threshold, or an edge near the middle of a bit. Then bits may be wrong."""
        return self.opening < LEAST_OPENING or self.jitter[1] > MOST_JITTER


class Clock:
    """The time base given by the rising edges of a clock channel: ten bits a cycle."""

    def __init__(self, channel: Channel) -> None:
        self.lane = Lane("the clock", channel)
        self.loop: Loop | None = None
        self.track = NO_TRACK

    def feed(self, piece: Piece) -> None:
        """Follows the clock through the next piece. Call it before the lanes take the piece."""
        moments, rising = self.lane.edges(piece)
        edges = moments[rising]
        if self.loop is None:
            if len(edges) < 8:
                raise Refused(f"the clock: it rises {len(edges)} times, which shows no bit rate")
            loop = Loop(edges[0], float(np.median(np.diff(edges[:FIRST]))))
            self.loop = settled(edges[:FIRST], loop, piece.first)
        self.track = self.loop.track(edges)

    def bits(self, moments: Reals) -> Reals:
        """Converts rising moments to bits, ten in each cycle."""
        track = self.track
        at = rows_of(track.phases, moments)
        bits: Reals = loops.CYCLE * (track.numbers[at] + (moments - track.phases[at]) / track.periods[at])
        return bits

    def moments(self, bits: Reals) -> Reals:
        """Converts rising times in bits to moments of the file."""
        track, cycles = self.track, bits / loops.CYCLE
        at = rows_of(track.numbers, cycles)
        moments: Reals = track.phases[at] + (cycles - track.numbers[at]) * track.periods[at]
        return moments

    def lock(self, edges: Reals, start: float, name: str, least: float) -> Loop:
        turn = np.exp(2j * np.pi * edges).mean()
        if abs(turn) < 0.25:
            raise Refused(f"{name}: its edges do not keep to a tenth of the clock's cycle")
        phase = np.angle(turn) / (2 * np.pi)
        return settled(edges, Loop(phase + round(edges[0] - phase), 1.0, 0, 0.0), start)
