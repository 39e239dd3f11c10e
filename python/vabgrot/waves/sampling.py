"""Reads words of ten bits from a value change dump: sampled by a clock, or one for each step of time."""

import math
from collections.abc import Iterator
from itertools import chain, islice
from typing import NamedTuple

import numpy as np
import numpy.typing as npt

from vabgrot.capture import MOST_BITS
from vabgrot.errors import Refused
from vabgrot.formats.characters import TEN
from vabgrot.waves.dump import Dump, Variable

Row = tuple[int, ...]  # the words of lanes 0, 1 and 2
Words = npt.NDArray[np.uint16]  # columns by lanes

UNKNOWN = -1  # a word with a bit that is x or z
ASK = "give --clock"
MOST_AT_ONCE = 1 << 16  # columns


class Stretch(NamedTuple):
    """Columns with equal words: the times of the first and the last, their number, and the words of lanes 0 to 2."""

    first: int
    last: int
    columns: int
    words: Row


class Columns:
    """The columns of a dump, piece by piece, without those that contain x or z. `early` counts such columns before the first complete one
    (at time `first`), `late` those after it (the first of them at time `torn`)."""

    def __init__(self, stretches: Iterator[Stretch], size: int) -> None:
        self.stretches, self.size = stretches, min(size, MOST_AT_ONCE)
        self.count, self.early, self.late = 0, 0, 0
        self.first: int | None = None
        self.torn: int | None = None
        self.last = 0

    @property
    def step(self) -> float:
        """The mean time from one column to the next, or 0 if there is only one."""
        steps = self.count + self.late - 1
        return (self.last - (self.first or 0)) / steps if steps > 0 else 0

    def take(self, stretch: Stretch) -> bool:
        """Counts a stretch. Returns whether to write its columns."""
        is_whole = UNKNOWN not in stretch.words
        if is_whole:
            self.count += stretch.columns
        elif self.first is None:
            self.early += stretch.columns
        else:
            self.late += stretch.columns
            self.torn = stretch.first if self.torn is None else self.torn
        if is_whole and self.first is None:
            self.first = stretch.first
        self.last = stretch.last
        if TEN * self.count > MOST_BITS:
            raise Refused(f"a lane has at most {MOST_BITS} bits")
        return is_whole

    def pieces(self) -> Iterator[Words]:
        """Yields arrays of columns, three words in each row."""
        held: list[Stretch] = []
        columns = 0
        for stretch in filter(self.take, self.stretches):
            held.append(stretch)
            columns += stretch.columns
            if columns >= self.size:
                yield repeated(held)
                held, columns = [], 0
        if held:
            yield repeated(held)


def repeated(stretches: list[Stretch]) -> Words:
    """Returns the columns of some stretches, three words in each row."""
    rows = np.array([stretch.words for stretch in stretches], np.uint16)
    return np.repeat(rows, [stretch.columns for stretch in stretches], axis=0)


def variables_of(dump: Dump, names: list[str], clock: str | None) -> tuple[list[Variable], Variable | None]:
    """Returns the variables of the three lanes, ten bits each, and of the clock (None if no clock is named)."""
    lanes = [dump.find(name) for name in names]
    for lane in lanes:
        if lane.width != TEN:
            raise Refused(f"{dump.path}: `{lane.path}` has {lane.width} bits, and a word has {TEN}")
    ticks = dump.find(clock) if clock else None
    if ticks and ticks.width != 1:
        raise Refused(f"{dump.path}: the clock `{ticks.path}` has {ticks.width} bits")
    every = lanes + ([ticks] if ticks else [])
    for place, it in enumerate(every):
        if it.code in {other.code for other in every[:place]}:
            raise Refused(f"{dump.path}: `{it.path}` is named twice")
    return lanes, ticks


class Held(dict[str, int]):
    """The current words of the three lanes, by the codes of their variables."""

    known: dict[str, int] = {}

    def __init__(self, lanes: list[Variable]) -> None:
        super().__init__((lane.code, UNKNOWN) for lane in lanes)

    def change(self, code: str, digits: str) -> None:
        if digits not in self.known:
            self.known[digits] = int(digits, 2) if not digits.strip("01") else UNKNOWN
        self[code] = self.known[digits]

    def row(self) -> Row:
        return tuple(self.values())


def by_clock(dump: Dump, lanes: list[Variable], clock: Variable) -> Iterator[Stretch]:
    """Yields a column at each rising edge of the clock. Its words are those before that time, as a register would take them."""
    held, coming, level = Held(lanes), list[tuple[str, str]](), "x"
    rose: int | None = None
    for time, code, digits in dump.changes({clock.code, *held}):
        if code is None:
            for change in coming:
                held.change(*change)
            coming.clear()
        elif code != clock.code:
            coming.append((code, digits))
        else:
            if level == "0" and digits == "1":
                if rose == time:
                    raise Refused(f"{dump.path}: `{clock.path}` rises twice at time {time}: it goes by too coarse a unit")
                yield Stretch(time, time, 1, held.row())
                rose = time
            level = digits


def changes_of(dump: Dump, lanes: list[Variable]) -> Iterator[tuple[int, Row | None]]:
    """Yields the times at which words change, each with the new words. The last item is the end of the dump and None."""
    held, changed, before = Held(lanes), set[str](), 0
    for time, code, digits in dump.changes(set(held)):
        if code is not None:
            if code in changed and UNKNOWN not in held.row():
                raise Refused(f"{dump.path}: a word changes more than once at time {time}: {ASK}")
            held.change(code, digits)
            changed.add(code)
        elif time > before:
            if changed:
                yield before, held.row()
            changed.clear()
            before = time
    if changed:
        yield before, held.row()
    yield before, None


def by_step(dump: Dump, lanes: list[Variable], size: int) -> Iterator[Stretch]:
    """Yields a column for each step of time. The step is the shortest time between changes of the words. Raises Refused if another time
    is not a multiple of it."""
    found, size = changes_of(dump, lanes), min(size, MOST_AT_ONCE)
    for time, row in found:
        if row is None:
            return
        held = row
        if UNKNOWN not in row:
            break
        yield Stretch(time, time, 1, row)
    first = [(time, row), *islice(found, size)]
    times = [time for time, row in first if row]  # the end of the dump need not be at a step
    spans = [later - earlier for earlier, later in zip(times, times[1:])]
    step = min(spans, default=0)
    if not step or math.gcd(*spans) != step:
        steps = f"{math.gcd(*spans)} and {step} units of time" if step else "fewer than two times"
        raise Refused(f"{dump.path}: the words change at no even steps ({steps}): {ASK}")
    for later, following in chain(first[1:], found):
        if following and (later - time) % step:
            raise Refused(f"{dump.path}: the words change at time {later}, at no step of {step} units: {ASK}")
        columns = max(1, (later - time) // step)
        for at in range(0, columns, size):
            part = min(size, columns - at)
            yield Stretch(time + at * step, time + (at + part - 1) * step, part, held)
        if following:
            time, held = later, following
