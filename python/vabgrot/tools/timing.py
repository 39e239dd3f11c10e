"""The tool `timing`: which video format a capture has, and what differs from it."""

from __future__ import annotations

import argparse
import json
from collections.abc import Sequence
from typing import Any

from vabgrot import command
from vabgrot import reading as reader
from vabgrot.content import Content
from vabgrot.reading import UNALIGNED, Reading
from vabgrot.video.matching import SIZES, Note, Rate, Timing, change_note, timings
from vabgrot.video.raster import meter_of
from vabgrot.video.timings import PARTS

TEXT = """Measures the video timing of a capture. For each size of its frames, it prints the parts of a line and of a frame
(active, front porch, sync, back porch, total), the polarities, and whether the video is interlaced.

It names the video format of CTA-861 (VIC 1 to 107) or VESA DMT, or the nearest one and what differs. It also names the
first place where a number changes, and says whether the AVI InfoFrame names the same format. Some formats have the same
raster, such as VIC 16 and VIC 34. Only --clock, --rate or the AVI InfoFrame can tell them apart.

Porches are counted in columns (pixel clocks) and in lines of a field. They have half lines if VSYNC of every second field
begins in the middle of a line. In deep colour, pixels are counted instead of columns. If an alignment was wrong, the tool
reads the capture again with `recover relock` and says so on standard error."""
FAULTY = "done, and the timing fits no format, differs from it, changes, or is not that of the AVI InfoFrame"
EXAMPLES = """tools/content examples/sent.png examples/sent.png > sent.content
./vabgrot make content < sent.content > sent.tmc
tools/timing sent.tmc --clock 25175000"""
NOTHING = "no row of pixels was received, so there is no raster"


def positive(text: str) -> float:
    """Reads a number greater than 0."""
    try:
        value = float(text)
    except ValueError:
        value = 0.0
    if not 0 < value < 1e12:
        raise argparse.ArgumentTypeError(f"{text}: write a number above 0")
    return value


def said_of(found: list[Timing], read: Reading) -> list[Note]:
    """Returns the notes about the whole capture, slips first."""
    notes = [Note(text, text != read.bits.words) for text in read.notes]
    if not read.is_aligned:
        return [*notes, Note(UNALIGNED)]
    if not found:
        return [*notes, Note(NOTHING)]
    change = change_note(found)
    return notes + ([change] if change else [])


def lines_of(timing: Timing) -> list[str]:
    """Returns the lines about one raster."""
    table = [("", list(PARTS), "polarity"), *timing.table]
    lines = [timing.size, f"  format: {timing.head.text}"]
    for name, cells, sign in table:
        lines.append(f"  {name:<20}" + "".join(f"{cell:>12}" for cell in cells) + f"  {sign}")
    lines += [timing.rate] if timing.rate else []
    return lines[:-1] + [f"  {lines[-1].strip()}"] + [f"  {note.text}" for note in timing.notes]


def parser() -> argparse.ArgumentParser:
    """Returns the tool's argument parser."""
    found = command.parser("timing", TEXT, FAULTY, EXAMPLES, "done, and the timing is that of a format")
    command.add_capture(found)
    rate = found.add_mutually_exclusive_group()
    rate.add_argument("--clock", type=positive, metavar="HZ", help="the pixel clock")
    text = "the frames per second, or fields per second of interlaced video"
    rate.add_argument("--rate", type=positive, metavar="FIELDS_PER_SECOND", help=text)
    command.add_dvi(found)
    command.add_json(found)
    return found


def work(argv: Sequence[str] | None) -> int:
    args = parser().parse_args(argv)
    read = reader.read(args.capture, args.dvi)
    found = timings(meter_of(Content(read)), Rate(args.clock, args.rate))
    whole = said_of(found, read)
    faulty = any(note.is_fault for note in whole) or any(timing.is_faulty for timing in found)
    if args.json:
        said: dict[str, Any] = {"capture": str(args.capture), "faulty": faulty, "notes": [note.text for note in whole]}
        print(json.dumps(said | {"rasters": [timing.plain() for timing in found[:SIZES]]}, indent=1))
    else:
        print("\n".join([*(note.text for note in whole), *(line for one in found[:SIZES] for line in lines_of(one))]))
    return command.FAULTY if faulty else command.DONE


def main(argv: Sequence[str] | None = None) -> int:
    """Runs the tool with `argv`, or with the arguments of the command line. Returns the exit status."""
    return command.run("timing", lambda: work(argv))
