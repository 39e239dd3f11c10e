"""The inner loops of `slice`: one over edges, and two over samples and bits.

With Debian's python3-numba they are compiled once and cached in a folder of the user. Without it, Python runs `follow`, and NumPy does
the work of the other two (recovery.py). The results are equal to the last bit."""

import importlib
import os
from collections.abc import Callable, MutableSequence
from functools import cache as once
from math import floor
from pathlib import Path
from types import ModuleType
from typing import Any, ParamSpec, TypeVar

import numpy as np
import numpy.typing as npt

Reals = npt.NDArray[np.float64]
Ints = npt.NDArray[np.int64]
Levels = npt.NDArray[np.float32]
Numbers = Reals | MutableSequence[float]  # NumPy arrays for numba, lists for Python
Places = Ints | MutableSequence[int]
Track = tuple[Reals, Ints, Reals]  # phases, numbers and periods
P = ParamSpec("P")
R = TypeVar("R")

GAIN, PULL = 0.03, 0.03**2 / 10  # gains of the phase-locked loop, for one bit
MOST_WEIGHT = 8  # the greatest weight of an edge, in bits since the edge before
STRAY = 0.02  # the relative change of the period that is allowed
CYCLE = 10  # bits in a cycle of the clock (HDMI 1.4, section 4.2.4)
WITHOUT = "Debian's package python3-numba is not here: with it this takes a fraction of the time"


def follow(
    edges: Numbers,
    phase: float,
    period: float,
    pull: float,
    phases: Numbers,
    numbers: Places,
    periods: Numbers,
    errors: Numbers,
) -> None:
    """Follows the edges with a second-order digital phase-locked loop. The weight of an edge is the number of bits since the edge before,
    at most 8.

    Bit numbers[i] begins at phases[i], and periods[i] is the length of a bit. Index 0 is the state before the first edge, which the
    caller gives; index i + 1 is the state after edge i. errors[i] is by how many bits edge i is later than the beginning of a bit."""
    least, most = (1 - STRAY) * period, (1 + STRAY) * period
    number = numbers[0]
    phases[0] = phase
    periods[0] = period
    for place in range(len(edges)):
        edge = edges[place]
        ahead = (edge - phase) / period
        steps = floor(ahead + 0.5)
        errors[place] = ahead - steps
        phase += steps * period
        error = (edge - phase) * (steps if steps < MOST_WEIGHT else MOST_WEIGHT)
        phase += GAIN * error
        period += pull * error
        if period < least:
            period = least
        elif period > most:
            period = most
        number += steps
        phases[place + 1] = phase
        numbers[place + 1] = number
        periods[place + 1] = period


def cross(values: Levels, begin: int, side: bool, low: np.float32, high: np.float32, first: float, moments: Numbers) -> int:
    """Writes the moments at which the level crosses to the other side: above `high` after it was below `low`, and the other way round.
    Returns their number. `side` says whether the level was above when last seen.

    Value i, from 1 on, is at `first` + i. Between two values the level is interpolated."""
    count, place = 0, begin
    while place < len(values):
        if side:
            while place < len(values) and values[place] >= low:
                place += 1
        else:
            while place < len(values) and values[place] <= high:
                place += 1
        if place < len(values):
            side = not side
            left = np.float64(values[place - 1])
            step = np.float64(values[place]) - left
            threshold = np.float64(high) if side else np.float64(low)
            part = float((threshold - left) / (step if step != 0 else np.float64(1.0)))
            moments[count] = first + (place - 1) + min(max(part, 0.0), 1.0)
            count += 1
    return count


def sample(
    values: Levels,
    first: float,
    track: Track,
    clock: Track,
    number: int,
    middle: float,
    ones: npt.NDArray[np.bool_],
) -> tuple[float, float]:
    """Writes for each bit from `number` on whether the level in its middle is above `middle`. Returns the lowest level above and the
    highest level that is not.

    `track` has the phases, numbers and periods of the lane, `clock` those of the clock (empty without a clock). Value i is at `first` +
    i; there are at least two. Between two values the level is interpolated."""
    phases, numbers, periods = track
    clock_phases, clock_numbers, clock_periods = clock
    lowest_one, highest_zero = np.inf, -np.inf
    last, clock_last, clock_at, place = len(values) - 1, len(clock_phases) - 1, 0, 0
    for at in range(len(phases)):
        end = min(numbers[at + 1] - number, len(ones)) if at + 1 < len(phases) else len(ones)
        while place < end:
            moment = phases[at] + (number + place - numbers[at] + 0.5) * periods[at]
            if clock_last >= 0:
                cycles = moment / CYCLE
                while clock_at < clock_last and clock_numbers[clock_at + 1] <= cycles:
                    clock_at += 1
                moment = clock_phases[clock_at] + (cycles - clock_numbers[clock_at]) * clock_periods[clock_at]
            part = min(max(moment - first, 0.0), float(last))
            whole = min(int(part), last - 1)
            left = np.float64(values[whole])
            level = left + (np.float64(values[whole + 1]) - left) * (part - whole)
            ones[place] = level > middle
            if level > middle:
                lowest_one = min(lowest_one, level)
            else:
                highest_zero = max(highest_zero, level)
            place += 1
    return lowest_one, highest_zero


TRACK = "Tuple((f8[::1], i8[::1], f8[::1]))"
TYPES: dict[Callable[..., Any], str] = {
    follow: "void(f8[::1], f8, f8, f8, f8[::1], i8[::1], f8[::1], f8[::1])",
    cross: "i8(f4[::1], i8, b1, f4, f4, f8, f8[::1])",
    sample: f"UniTuple(f8, 2)(f4[::1], f8, {TRACK}, {TRACK}, i8, f8, b1[::1])",
}


def cache() -> str | None:
    """Returns the user's folder for compiled loops, or None if there is none that can be written."""
    try:
        place = Path(os.environ.get("XDG_CACHE_HOME") or Path.home() / ".cache") / "vabgrot"
        if place.is_absolute():
            place.mkdir(parents=True, exist_ok=True)
    except (OSError, RuntimeError):  # no folder, no home
        return None
    return str(place) if place.is_absolute() and os.access(place, os.W_OK) else None


@once
def numba() -> ModuleType | None:
    """Returns the module numba, set up to cache in this folder, or None if it is not installed."""
    try:
        found = importlib.import_module("numba")
    except ImportError:
        return None
    found.config.CACHE_DIR = found.config.CACHE_DIR or cache() or ""
    return found


@once
def compiled(function: Callable[..., Any]) -> Any:
    """Returns one of the loops as machine code, or None without numba."""
    tool = numba()
    if tool is None:
        return None
    try:
        if tool.config.CACHE_DIR:
            return tool.njit(TYPES[function], cache=True)(function)
    except Exception:  # the folder is full or its content damaged: numba raises many kinds of errors then
        pass
    return tool.njit(TYPES[function])(function)


def fast(function: Callable[P, R]) -> Callable[P, R] | None:
    """Returns one of the loops as machine code, or None without numba."""
    found: Callable[P, R] | None = compiled(function)
    return found


def followed(edges: Reals, phase: float, period: float, pull: float, number: int) -> tuple[Reals, Ints, Reals, Reals]:
    """Returns the phases, numbers, periods and errors that `follow` writes for an array of edges."""
    size = len(edges) + 1
    if run := fast(follow):
        phases, periods, errors, numbers = np.empty(size), np.empty(size), np.empty(size - 1), np.empty(size, np.int64)
        numbers[0] = number
        run(np.ascontiguousarray(edges), phase, period, pull, phases, numbers, periods, errors)
        return phases, numbers, periods, errors
    starts, counts, steps, behind = [0.0] * size, [number] * size, [0.0] * size, [0.0] * (size - 1)
    follow(edges.tolist(), float(phase), float(period), pull, starts, counts, steps, behind)
    return np.array(starts), np.array(counts), np.array(steps), np.array(behind)
