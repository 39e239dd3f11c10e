"""The tool `characters`: the characters of a capture at a place, with their names and what was expected there."""

from __future__ import annotations

import argparse
import json
from collections.abc import Sequence

from vabgrot import command
from vabgrot.formats.characters import LANES
from vabgrot.judging.diagnosis import causes_of
from vabgrot.judging.naming import Column, Namer
from vabgrot.judging.places import PLACE, Place, column_of
from vabgrot.judging.spans import epoch_spans, spans_of
from vabgrot.lanes.encryption import Runs, encryption_of
from vabgrot.reading import Reading, read

TEXT = """Shows columns of a capture, character by character. For each lane it prints the ten bits, in hexadecimal digits
and as q[9] to q[0], the standard's name of the character at this place, and which character was expected.

Columns are counted as by `recover link`, `check`, `tools/conform` and the page of `tools/report`. Without --at, the tool
begins at the first fault. If the faults have a common cause, the last line names it: exchanged lanes, a coder that does not
start at disparity 0, a missing guard band, or an inverted parity."""
FAULTY = "done, and the capture has a fault"
EXAMPLES = """./vabgrot make content < examples/bars.content > bars.tmc
tools/characters bars.tmc --at 500 --count 8
tools/characters bars.tmc --at 1:4:12"""
BEFORE = 2  # columns shown before the first fault, if the user gives no column
MOST = 100_000


def count(text: str) -> int:
    """Reads a number of columns."""
    if not text.isdecimal() or not 1 <= int(text) <= MOST:
        raise argparse.ArgumentTypeError(f"{text}: write a number of columns from 1 to {MOST}")
    return int(text)


def place(text: str) -> int | Place:
    """Reads a column, or a frame, a row and a pixel."""
    if found := PLACE.fullmatch(text):
        return Place(*map(int, found.groups()))
    if not text.replace(",", "").isdecimal():
        raise argparse.ArgumentTypeError(f"{text}: write the number of a column, or FRAME:ROW:PIXEL, as the report shows them")
    return int(text.replace(",", ""))


def lines_of(column: Column) -> list[str]:
    """Returns a column as lines of text."""
    lines = [f"column {column.column:,}: {column.says}"]
    for cell in column.cells:
        wanted = f"; WANTED {cell.wanted}" if cell.wanted else ""
        lines.append(f"  {LANES[cell.lane]:<15} {cell.word:03x}  {cell.bits}  {cell.name}{wanted}")
    return lines


def parser() -> argparse.ArgumentParser:
    """Returns the tool's argument parser."""
    found = command.parser("characters", TEXT, FAULTY, EXAMPLES)
    command.add_capture(found)
    text = "the first column, or its pixel: frame, row of the picture and pixel, each from 0 (default: the first fault)"
    found.add_argument("--at", type=place, metavar="COLUMN|FRAME:ROW:PIXEL", help=text)
    found.add_argument("--count", type=count, default=8, metavar="N", help="the number of columns (default: %(default)s)")
    command.add_dvi(found)
    command.add_json(found)
    return found


def work(argv: Sequence[str] | None) -> int:
    words = parser()
    args = words.parse_args(argv)
    it = read(args.capture, args.dvi)
    it.refuse_unaligned()
    first = first_of(it, args.at)
    if first is None:
        words.error(f"--at {args.at}: the capture has no such pixel. Choose one of a row that was received")
    epoch = next((one for one in it.epochs if one.before <= first < one.behind), None)
    columns = it.characters(epoch) if epoch else None
    if epoch is None or columns is None:
        words.error(f"--at {first}: the capture ends before this column. Choose one from 0 to {it.columns - 1}")
    spans = epoch_spans(it, epoch, is_trusted=False)
    shown = [one._replace(column=one.column + epoch.before) for one in Namer(spans, columns).at(first - epoch.before, args.count)]
    encryption = encryption_of(Runs(*spans.runs))
    causes = [str(encryption)] if encryption else causes_of(args.capture, spans, columns)
    faulty = bool(len(it.events.faults))
    if args.json:
        said = {"capture": str(args.capture), "faulty": faulty, "notes": it.notes}
        print(json.dumps(said | {"columns": [one.plain() for one in shown], "alike": causes}, indent=1))
    else:
        lines = [*it.notes, *(line for one in shown for line in lines_of(one)), *(f"alike: {cause}" for cause in causes)]
        print("\n".join(lines))
    return command.FAULTY if faulty else command.DONE


def first_of(it: Reading, at: int | Place | None) -> int | None:
    """Returns the first column to show: the place that the user gave, or a little before the first fault. Returns None if there is no
    such pixel."""
    if isinstance(at, Place):
        return column_of(at, *spans_of(it.events, it.at, it.columns, it.is_dvi).rows)
    if at is not None:
        return at
    faults = it.at[it.events.faults]
    return max(0, int(faults.min()) - BEFORE) if len(faults) else 0


def main(argv: Sequence[str] | None = None) -> int:
    """Runs the tool with `argv`, or with the arguments of the command line. Returns the exit status."""
    return command.run("characters", lambda: work(argv))
