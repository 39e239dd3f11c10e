"""Writes a link as a value change dump (VCD): periods, syncs, CTL bits, packets and faults over time. It can be merged with a
simulation's dump."""

from __future__ import annotations

from collections.abc import Callable, Iterable, Iterator
from dataclasses import dataclass, field
from pathlib import Path
from typing import NamedTuple

import numpy as np

from vabgrot.events import ENDS, GUARDS, WORDS, Ints, Kind
from vabgrot.flow.parts import Part
from vabgrot.formats.characters import HSYNC, TEN, VSYNC
from vabgrot.formats.layouts import CARRIED
from vabgrot.packets import Packet
from vabgrot.waves.dump import PREFIXES, lines_of

VIDEO_PREAMBLE, ISLAND_PREAMBLE = 0b0001, 0b0101  # CTL3 to CTL0 (HDMI 1.4, section 5.2.1.1)
PREAMBLES = {VIDEO_PREAMBLE: "video preamble", ISLAND_PREAMBLE: "island preamble"}
NOTHING = "-"
UNKNOWN = "unknown"
PICO = "1 ps"
SCOPE = "link"


class Variable(NamedTuple):
    """A variable of the dump: a string, or a wire with this many bits."""

    name: str
    bits: int  # 0 for a string

    def change(self, value: str | int, code: str) -> str:
        """Returns the line for a change."""
        if not self.bits:
            return f"s{str(value).replace(' ', '_')} {code}"
        return f"{value}{code}" if self.bits == 1 else f"b{value:0{self.bits}b} {code}"

    @property
    def first(self) -> str | int:
        """The value before anything is known."""
        return NOTHING if not self.bits else "x"


PERIOD, PACKET_NAME, FAULT = Variable("period", 0), Variable("packet", 0), Variable("fault", 0)
HSYNCS, VSYNCS, CTL, PIXELS, FAULTY = (
    Variable("hsync", 1),
    Variable("vsync", 1),
    Variable("ctl", 4),
    Variable("pixels", 1),
    Variable("is_faulty", 1),
)
VARIABLES = (PERIOD, PACKET_NAME, HSYNCS, VSYNCS, CTL, PIXELS, FAULT, FAULTY)
Times = Callable[[Ints], Ints]  # converts bits of a lane to times


@dataclass
class Trace:
    """Takes the parts of a link, and records the changes of the variables. The time of a column is the bit of a lane at which it begins.
    `starts` gives this bit for the first column of an epoch. Its argument is the bit from which the epoch was searched."""

    starts: Callable[[int], int]
    is_dvi: bool = False
    changes: dict[Variable, list[tuple[int, str | int]]] = field(default_factory=lambda: {it: [] for it in VARIABLES})
    faults: dict[int, list[str]] = field(default_factory=dict)  # by the bit at which they begin
    start: int | None = None
    searched: int = 0
    end: int = 0  # the column of the epoch after the last one that an event covers

    def take(self, part: Part) -> None:
        """Takes the next part."""
        its, syncs = part.events, part.packets.octets[:, CARRIED:]
        numbers = np.stack([its.kind, its.first, its.width, its.value, its.second], axis=1).tolist()
        packet = 0
        for kind, first, width, value, second in numbers:
            if kind in ENDS:
                self.faults.setdefault(first, []).append(WORDS[kind])
                self.start, self.searched, self.end = None, first, 0
                continue
            if self.start is None:
                self.start = self.starts(self.searched)
            if kind >= Kind.WORD:
                self.faults.setdefault(self.bit(first), []).append(WORDS[kind])
            elif width:
                self.cover(first, width)
                if kind == Kind.PACKET:
                    self.packet(first, value, syncs[packet])
                    packet += 1
                else:
                    self.period(kind, first, width, value, second)

    def bit(self, column: int) -> int:
        """Returns the bit at which a column begins."""
        return (self.start or 0) + TEN * column

    def put(self, variable: Variable, column: int, value: str | int) -> None:
        """Records that a variable has this value from a column on."""
        its = self.changes[variable]
        if not its or its[-1][1] != value:
            its.append((self.bit(column), value))

    def cover(self, first: int, width: int) -> None:
        """Records that an event covers these columns. The variables are unknown in a gap before them."""
        if first > self.end:
            self.put(PERIOD, self.end, UNKNOWN)
            self.put(PACKET_NAME, self.end, NOTHING)
            self.put(PIXELS, self.end, 0)
        self.end = max(self.end, first + width)

    def syncs(self, column: int, value: int) -> None:
        """Records both syncs from a column on."""
        self.put(HSYNCS, column, int(bool(value & HSYNC)))
        self.put(VSYNCS, column, int(bool(value & VSYNC)))

    def period(self, kind: int, first: int, width: int, value: int, second: int) -> None:
        """Records an event that is not a packet."""
        self.put(PACKET_NAME, first, NOTHING)
        if kind == Kind.RUN:
            control = value >> 2
            self.put(PERIOD, first, "control" if self.is_dvi else PREAMBLES.get(control, "control"))
            self.put(CTL, first, control)
            self.syncs(first, value)
        elif kind == Kind.LINE:
            guards = width - value
            if guards:
                self.put(PERIOD, first, "video guard")
            self.put(PERIOD, first + guards, "pixels")
            self.put(PIXELS, first + guards, 1)
        elif kind in (Kind.OPEN, Kind.CLOSE):
            self.put(PERIOD, first, "island guard")
            for at, sync in zip(range(GUARDS), (value, second)):
                self.syncs(first + at, sync)
        if kind != Kind.LINE:
            self.put(PIXELS, first, 0)

    def packet(self, first: int, kind: int, syncs: Iterable[int]) -> None:
        """Records a packet."""
        self.put(PERIOD, first, "packet")
        self.put(PIXELS, first, 0)
        its = self.changes[PACKET_NAME]
        its.append((self.bit(first), Packet(bytes((kind, 0, 0)), []).name))
        for at, sync in enumerate(syncs):
            self.syncs(first + at, int(sync))

    def events(self, codes: dict[Variable, str], times: Times) -> Iterator[tuple[int, str]]:
        """Yields the lines of all changes in the order of their times."""
        found: list[tuple[int, str]] = []
        for variable, changes in (*self.changes.items(), *self.pulses()):
            if changes:
                bits, values = zip(*changes)
                lines = (variable.change(value, codes[variable]) for value in values)
                found += zip(times(np.array(bits, np.int64)).tolist(), lines)
        found.sort(key=lambda one: one[0])
        return iter(found)

    def pulses(self) -> Iterator[tuple[Variable, list[tuple[int, str | int]]]]:
        """Yields the changes of the variables for faults. Each fault lasts one column."""
        names: list[tuple[int, str | int]] = []
        wires: list[tuple[int, str | int]] = []
        for bit, kinds in sorted(self.faults.items()):
            names.append((bit, "+".join(dict.fromkeys(kinds))))
            wires.append((bit, 1))
            if bit + TEN not in self.faults:
                names.append((bit + TEN, NOTHING))
                wires.append((bit + TEN, 0))
        yield FAULT, names
        yield FAULTY, wires


def unit_of(scale: float | None) -> str:
    """Returns a unit of time as VCD writes it, 1 ns if the unit is not known."""
    for unit, seconds in PREFIXES.items():
        times = round((scale or 0) / seconds)
        if times in (1, 10, 100):
            return f"{times} {unit}s"
    return "1 ns"


def codes_of(known: Iterable[str]) -> dict[Variable, str]:
    """Returns codes for the variables. They differ from the `known` ones."""
    used, number, found = set(known), 0, {}
    for variable in VARIABLES:
        while f"v{number}" in used:
            number += 1
        found[variable] = f"v{number}"
        number += 1
    return found


def head_of(codes: dict[Variable, str]) -> Iterator[str]:
    """Yields the lines of the scope with the variables."""
    yield f"$scope module {SCOPE} $end"
    for variable, code in codes.items():
        kind = "wire" if variable.bits else "string"
        span = f" [{variable.bits - 1}:0]" if variable.bits > 1 else ""
        yield f"$var {kind} {max(1, variable.bits)} {code} {variable.name}{span} $end"
    yield "$upscope $end"


def first_values(codes: dict[Variable, str]) -> Iterator[str]:
    """Yields the initial values of the variables."""
    for variable, code in codes.items():
        yield f"bx {code}" if variable.bits > 1 else variable.change(variable.first, code)


def alone(trace: Trace, times: Times, unit: str) -> Iterator[str]:
    """Yields the lines of a dump of the link only."""
    codes = codes_of(())
    yield from (f"$timescale {unit} $end", *head_of(codes), "$enddefinitions $end", "#0", *first_values(codes))
    now = 0
    for time, line in trace.events(codes, times):
        if time > now:
            yield f"#{time}"
            now = time
        yield line


def beside(trace: Trace, times: Times, path: str | Path, known: Iterable[str]) -> Iterator[str]:
    """Yields the lines of a simulation's dump, with those of the link inserted."""
    codes = codes_of(known)
    events = trace.events(codes, times)
    waiting = next(events, None)
    now, is_head = -1, True
    for text in lines_of(path):
        line = text.rstrip("\n")
        if is_head and "$enddefinitions" in line:
            yield from head_of(codes)
            is_head = False
            yield line
            yield from first_values(codes)
            continue
        if not is_head and line.startswith("#"):
            later = int(line[1:])
            while waiting and waiting[0] < later:
                if waiting[0] > now:
                    now = waiting[0]
                    yield f"#{now}"
                yield waiting[1]
                waiting = next(events, None)
            if later == now:
                continue
            now = later
        yield line
    while waiting:
        if waiting[0] > now:
            now = waiting[0]
            yield f"#{now}"
        yield waiting[1]
        waiting = next(events, None)


def column_times(stretches: Iterable[tuple[int, int, int]]) -> Ints:
    """Returns the times of columns. Each stretch gives the times of its first and last column, and the number of columns."""
    return np.concatenate([np.zeros(0, np.int64), *(np.linspace(*one).round().astype(np.int64) for one in stretches)])
