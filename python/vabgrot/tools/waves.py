"""The tool `waves`: what a capture carried as waves over time, for GTKWave."""

from __future__ import annotations

import argparse
import shutil
import subprocess
import sys
import tempfile
from collections.abc import Iterable, Sequence
from fractions import Fraction
from pathlib import Path

import numpy as np

from vabgrot import command
from vabgrot.errors import Refused
from vabgrot.events import Ints
from vabgrot.flow.islands import Paced
from vabgrot.flow.pace import Pace
from vabgrot.flow.parts import Link, opened
from vabgrot.flow.vcd import Times, Trace, alone, beside, column_times, unit_of
from vabgrot.formats.characters import TEN
from vabgrot.lanes.columns import alignment_of
from vabgrot.replacing import replacing
from vabgrot.waves import dump, sampling

TEXT = """Writes what a capture carried as a value change dump for GTKWave, to standard output: the periods, HSYNC and VSYNC, the CTL bits,
packets by their names, and faults. A fault stands for one column.

With --dump, the output has the variables of a simulation's dump too, and the link on the time axis of that dump. The capture is the one
that `tools/slice` made of it: give the same --words and --clock. A column stands at the time at which the words change to its characters.

Without --dump, time begins at the first bit of the capture, and a column takes a period of the pixel clock."""
EXAMPLES = """tools/slice examples/words.vcd --words source.q0,source.q1,source.q2 --clock clk > words.tmc
tools/waves words.tmc --dump examples/words.vcd --words source.q0,source.q1,source.q2 --clock clk > words.vcd
./vabgrot make content < examples/bars.content > bars.tmc
tools/waves bars.tmc --clock 25200000 -o bars.vcd"""
PICO = 1_000_000_000_000


def parser() -> argparse.ArgumentParser:
    """Returns the tool's argument parser."""
    found = command.parser("waves", TEXT, examples=EXAMPLES)
    command.add_capture(found)
    command.add_dvi(found)
    found.add_argument("-o", "--output", metavar="FILE", help="write into a file, as FST if it ends in .fst (needs gtkwave's vcd2fst)")
    found.add_argument("--dump", metavar="FILE", help="the dump of the simulation (.vcd, .fst)")
    found.add_argument("--words", metavar="Q0,Q1,Q2", help="with --dump: the variables of lanes 0, 1 and 2")
    text = "the pixel clock in Hz; with --dump, the variable of the clock"
    found.add_argument("--clock", metavar="HZ|CLK", help=text)
    return found


def check_words(found: argparse.ArgumentParser, args: argparse.Namespace) -> float | None:
    """Returns the pixel clock if it is given. Exits with status 2 if options do not fit each other."""
    if (args.dump is None) != (args.words is None) or args.words and args.words.count(",") != 2:
        found.error("--dump and --words go together, and --words has three variables with commas between them")
    if args.dump or args.clock is None:
        return None
    try:
        clock = float(args.clock)
    except ValueError:
        clock = 0.0
    if not 0 < clock < PICO:
        found.error("--clock is the pixel clock in Hz; it is a variable's name only with --dump")
    return clock


def times_of(args: argparse.Namespace) -> tuple[Ints, dump.Dump]:
    """Returns the time of each column in a dump of words, and the dump. The time is when the words change to this column."""
    source = dump.Dump(args.dump)
    lanes, clock = sampling.variables_of(source, args.words.split(","), args.clock)
    stretches = sampling.by_clock(source, lanes, clock) if clock else sampling.by_step(source, lanes, sampling.MOST_AT_ONCE)
    every = [(it.first, it.last, it.columns, sampling.UNKNOWN not in it.words) for it in stretches]
    times = column_times((first, last, count) for first, last, count, _ in every)
    if clock and len(times):  # at a rising edge a register takes the value that it had since the edge before
        times = np.append(max(0, 2 * times[0] - times[min(1, len(times) - 1)]), times[:-1])
    is_whole = np.repeat([it[3] for it in every], [it[2] for it in every])
    whole: Ints = times[is_whole]
    return whole, source


def by_dump(times: Ints) -> Times:
    """Returns a function that converts bits to times, given the times of columns."""

    def found(bits: Ints) -> Ints:
        if not len(times):
            return bits
        step = int(times[-1] - times[0]) // max(1, len(times) - 1)
        columns = np.clip(bits // TEN, 0, len(times) - 1)
        return times[columns] + np.maximum(bits // TEN - len(times) + 1, 0) * step

    return found


def by_clock(clock: Fraction) -> Times:
    """Returns a function that converts bits to picoseconds, given the columns a second."""
    period = float(PICO / clock / TEN)

    def found(bits: Ints) -> Ints:
        times: Ints = np.rint(bits * period).astype(np.int64)
        return times

    return found


def traced(link: Link, path: Path, pace: Pace) -> tuple[Trace, Paced]:
    """Returns the changes of a link, and its columns a second."""

    def start(searched: int) -> int:
        found = alignment_of(path, searched, link.kind == "relock")
        return max(found) if found else searched

    trace, paced = Trace(start, link.is_dvi), Paced(pace)
    for part in link.parts():
        trace.take(part)
        if paced.clock is None:
            for _ in paced.take(part):
                pass
    link.check()
    for _ in paced.end():
        pass
    return trace, paced


def write(lines: Iterable[str], path: str | None) -> None:
    """Writes a dump. If the file is named .fst it is converted to FST."""
    if path is None:
        sys.stdout.writelines(f"{line}\n" for line in lines)
        return
    if Path(path).suffix.lower() != ".fst":
        with replacing(path, "w", encoding="ascii", errors="replace") as file:
            file.writelines(f"{line}\n" for line in lines)
        return
    if not shutil.which("vcd2fst"):
        raise Refused(f"{path}: `vcd2fst` of Debian's package gtkwave is missing, which writes FST; a name with .vcd needs no package")
    with tempfile.TemporaryDirectory() as folder:
        made = Path(folder) / "link.vcd"
        write(lines, str(made))
        ran = subprocess.run(["vcd2fst", "-v", made, "-f", f"{made}.fst"], capture_output=True, text=True)
        if ran.returncode:
            raise Refused(f"{path}: vcd2fst ended with status {ran.returncode}: {ran.stderr.strip()}")
        with replacing(path) as out:
            out.write(Path(f"{made}.fst").read_bytes())


def work(argv: Sequence[str] | None) -> int:
    """Does the work of the tool. Returns the exit status."""
    found = parser()
    args = found.parse_args(argv)
    pace = Pace(check_words(found, args))
    path = args.capture
    if not path.is_file():
        raise Refused(f"{path}: a file is needed, since it is read twice")
    with opened(str(path), args.dvi) as link:
        trace, paced = traced(link, path, pace)
    if args.dump:
        times, source = times_of(args)
        write(beside(trace, by_dump(times), args.dump, (it.code for it in source.variables)), args.output)
    else:
        if paced.note:
            print(f"waves: {paced.note}", file=sys.stderr)
        write(alone(trace, by_clock(paced.clock or Fraction(1)), unit_of(1e-12)), args.output)
    return command.DONE


def main(argv: Sequence[str] | None = None) -> int:
    """Runs the tool with `argv`, or with the arguments of the command line. Returns the exit status."""
    return command.run("waves", lambda: work(argv))
