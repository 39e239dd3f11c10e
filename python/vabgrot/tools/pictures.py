"""The tool `pictures`: the frames of a capture or a listing as PNG files."""

import argparse
import sys
from collections import Counter
from collections.abc import Callable, Iterable
from dataclasses import dataclass, field
from fractions import Fraction
from pathlib import Path
from typing import BinaryIO

import numpy as np
from tqdm import tqdm

from vabgrot import capture, command, listing, packets, reading
from vabgrot.content import Flow, Frame, Packets, first_pixels
from vabgrot.errors import Refused
from vabgrot.events import UNTOLD, Events, Kind
from vabgrot.formats import modes
from vabgrot.formats.faults import OF_PICTURE
from vabgrot.library import Grammar
from vabgrot.replacing import replacing
from vabgrot.video import images
from vabgrot.video.colours import Signal
from vabgrot.video.images import Picture
from vabgrot.video.signals import Rendering, Signals
from vabgrot.video.weaving import Pair, Weaver, lines_down

TEXT = """Writes each frame as a picture: DIR/frame0000.png and so on. The input is a capture, a content listing or a link
listing, of HDMI or DVI, on standard input.

Pixels have the colours that the AVI InfoFrame and the General Control packets name: YCbCr 4:4:4 and 4:2:2 of BT.601, BT.709
or BT.2020, limited or full range, and deep colour (a PNG file with 16 bits per component). Repeated pixels are shown once.
If something is not said, the tool assumes it and says so on standard error. With --raw, pictures have the bytes that are
listed.

In a capture and a link listing, a frame is what lies between two changes of VSYNC, and the two fields of an interlaced
frame are woven into one picture. Standard error counts the faults that touch a frame. If an alignment was wrong, the tool
reads the capture again with `recover relock` and says so."""
EXAMPLES = """./vabgrot make content < examples/bars.content > bars.tmc
tools/pictures pictures < bars.tmc"""
FIELDS = """a content listing does not tell which of two fields is the upper, so each is a picture of its own; of a link listing
they are woven"""
Places = dict[int, int]


@dataclass
class Growing:
    """The current frame of a content listing. Each mark of a fault is kept with its row and its column of the listing."""

    rows: list[bytes] = field(default_factory=list)
    faults: Counter[str] = field(default_factory=Counter)
    marks: list[tuple[int, int]] = field(default_factory=list)


def pixel_places(path: Path) -> Places:
    """Returns the pixel of each column that a `! code` line of a link listing names, as far as the listing gives columns."""
    with open(path, "rb") as source:
        its = listing.parsed(listing.lines(source, listing.LINK))
    rows, codes = its.of(Kind.LINE), its.of(Kind.CODE)
    before = np.searchsorted(rows, codes) - 1
    codes, firsts = codes[before >= 0], first_pixels(its, rows[before[before >= 0]])
    columns = its.first[codes]
    return {column: column - first for column, first in zip(columns.tolist(), firsts.tolist()) if first != UNTOLD}


class Pictures:
    """Takes frames and writes them to files. `says` are the lines to print at the end."""

    def __init__(self, folder: Path, mark: bool, is_raw: bool, weaves: bool, is_listed: bool = False) -> None:
        self.folder, self.mark, self.is_raw, self.is_listed = folder, mark, is_raw, is_listed
        self.weaver: Weaver[Picture] | None = Weaver() if weaves else None
        self.signals = Signals()
        self.notes: dict[str, int] = {}  # each note with the number of the first frame that has it
        self.says: list[str] = []
        self.written, self.touched, self.left, self.read = 0, 0, 0, 0

    def add(self, rows: list[bytes], faults: Counter[str], marks: Iterable[tuple[int | None, int]], down: Fraction | None) -> None:
        """Takes the next frame: its rows, its faults, the pixels and rows to mark, and the lines from VSYNC to its first row."""
        width = len(rows[0]) // 3
        it = Rendering(Signal()) if self.is_raw else self.signals.reading(width)
        colours = images.colours_of(rows, width, it.signal)
        shown = [(None if x is None else it.signal.pixel(x), row) for x, row in marks]
        for text in (*it.notes, *self.notes_of_fields()):
            self.notes.setdefault(text, self.read)
        self.read += 1
        picture = Picture(colours, faults, shown, down)
        for pair in self.weaver.take(picture) if self.weaver else [Pair(picture)]:
            self.write(pair)

    def notes_of_fields(self) -> list[str]:
        """Returns the notes about the fields of a content listing."""
        known = self.signals.avi and modes.of_vic(self.signals.avi["VIC"])
        return [FIELDS] if self.weaver and self.is_listed and known and known.interlaced else []

    def leave(self, rows: int) -> None:
        """Counts the rows of a frame that does not end, and leaves them out."""
        self.left += rows
        for pair in self.weaver.end() if self.weaver else ():
            self.write(pair)

    def write(self, pair: Pair[Picture]) -> None:
        """Writes a picture."""
        picture = images.woven(pair.upper, pair.lower) if pair.lower else pair.upper
        if pair.is_field:
            self.notes.setdefault("a field without its other one is a picture of its own", self.written)
        with replacing(self.path(self.written)) as file:
            images.save(images.marked(picture) if self.mark else picture.colours, file)
        if picture.faults:
            told = ", ".join(f"{count} {kind}" for kind, count in sorted(picture.faults.items()))
            self.says.append(f"frame {self.written}: {told}")
        self.written += 1
        self.touched += picture.faults.total()

    def path(self, number: int) -> Path:
        """Returns the path of a picture."""
        return self.folder / f"frame{number:04}.png"

    def remove(self) -> None:
        """Removes all written files, before a capture is read again."""
        for number in range(self.written):
            self.path(number).unlink()


class Taking:
    """Passes the frames of a capture to `Pictures`. `faults` counts all faults."""

    def __init__(self, pictures: Pictures, is_dvi: bool) -> None:
        self.pictures, self.flow, self.faults = pictures, Flow(), 0
        pictures.signals.has_packets = not is_dvi

    def take(self, events: Events) -> None:
        """Takes the next events."""
        self.faults += len(events.faults)
        self.keep(self.flow.take(events))

    def finish(self) -> None:
        """Takes the end of the capture."""
        self.keep(self.flow.finish())
        self.pictures.leave(0)

    def keep(self, known: Iterable[Packets | Frame]) -> None:
        """Takes packets and frames."""
        for it in known:
            if isinstance(it, Packets):
                self.pictures.signals.take_packets(it)
            elif it.is_whole:
                counts = it.marks.counts + Counter(ragged=it.ragged)
                faults = Counter({kind: times for kind, times in counts.items() if kind in OF_PICTURE})
                marks = ((x if x != UNTOLD else None, row) for _, _, row, x in it.marks.of(Kind.CODE))
                self.pictures.add(it.rows, faults, marks, lines_down(it.change, it.firsts))
            else:
                self.pictures.leave(len(it.rows) if it.is_begun else 0)

    @property
    def others(self) -> int:
        """The number of faults that touch no picture."""
        return max(0, self.faults - self.pictures.touched)


class Lines:
    """Takes the lines of a content listing. `places` are the pixels that a link listing of the same capture gives for columns."""

    def __init__(self, pictures: Pictures, places: Places) -> None:
        self.pictures, self.places, self.frame, self.others = pictures, places, Growing(), 0

    def take(self, line: int, name: str, fields: list[str]) -> None:
        """Takes a line."""
        signals = self.pictures.signals
        if name == "row":
            self.frame.rows.append(listing.digits(listing.fields_of(fields, 1, line)[0], 3, line))
        elif name == "frame":
            self.end_frame(line, *(listing.number(part, line) for part in listing.fields_of(fields, 2, line)))
        elif name == "!":
            self.fault(line, fields)
        elif name == "packet":
            signals.take_packet(packets.packet_of([*fields, ""], line))
        elif name in ("avi", "gcp"):
            wanted = 17 if name == "avi" else 3
            signals.take_line(name, [listing.number(part, line) for part in listing.fields_of(fields, wanted, line)])
        elif name == "info":
            self.info(line, fields)

    def info(self, line: int, fields: list[str]) -> None:
        """Takes an InfoFrame without a line of its kind. Its payload may be empty."""
        kind, version, *payload = fields if len(fields) == 2 else listing.fields_of(fields, 3, line)
        head = listing.digits(kind, 1, line) + listing.digits(version, 1, line)
        self.pictures.signals.take_info(head[0], head[1], listing.digits(payload[0], 1, line) if payload else b"")

    def fault(self, line: int, fields: list[str]) -> None:
        """Counts a fault. If it precedes the first row of the frame, it touches no listed row."""
        kind = fields[0]
        if kind not in OF_PICTURE or not self.frame.rows:
            self.others += 1
            return
        self.frame.faults[kind] += 1
        if kind == "code":
            self.frame.marks.append((len(self.frame.rows) - 1, listing.number(fields[-1], line)))

    def end_frame(self, line: int, width: int, height: int) -> None:
        """Ends a frame with the rows so far."""
        frame, self.frame = self.frame, Growing()
        if (3 * width, height) != (len(frame.rows[0]) if frame.rows else 0, len(frame.rows)):
            raise Refused(f"line {line}: the rows before it are no frame of {width} x {height} pixels")
        self.pictures.add(frame.rows, frame.faults, ((self.places.get(column), row) for row, column in frame.marks), None)

    def finish(self) -> None:
        """Takes the end of the listing."""
        self.pictures.leave(len(self.frame.rows))


def clear(folder: Path, force: bool) -> None:
    """Removes the frames of an earlier run, or refuses to write to their folder."""
    earlier = sorted(path for path in folder.glob("frame*.png") if path.stem[5:].isdecimal())
    if earlier and not force:
        raise Refused(f"{folder}: it already contains {earlier[0].name}. Choose another folder, or delete the old frames with --force")
    for path in earlier:
        path.unlink()


def by_capture(path: Path, make: Callable[[], Pictures], is_dvi: bool) -> tuple[Pictures, int]:
    """Writes the frames of a capture. Returns the number of faults that touch none."""
    taken: list[Taking] = []

    def taking(grammar: Grammar) -> Taking:
        if taken:
            taken[0].pictures.remove()
        taken[:] = [Taking(make(), grammar == "dvi")]
        return taken[0]

    it = reading.read(path, is_dvi, taking)
    it.refuse_unaligned()
    taken[0].finish()
    taken[0].pictures.says[:0] = it.notes
    return taken[0].pictures, taken[0].others


def by_listing(source: BinaryIO, make: Callable[[], Pictures], places: Places) -> tuple[Pictures, int]:
    """Writes the frames of a listing. Returns the number of faults that touch none."""
    pictures = make()
    is_link, lines = listing.either(source, listing.EITHER, listing.CONTENT)
    shown = tqdm(lines, unit="line", disable=None)
    pictures.is_listed = not is_link
    if is_link:
        events = listing.parsed(shown)
        rows = events.of(Kind.LINE)
        taking = Taking(pictures, bool((events.width == events.value)[rows].any()))
        taking.take(events)
        taking.finish()
        return pictures, taking.others
    listed = Lines(pictures, places)
    for line, name, fields in shown:
        listed.take(line, name, fields)
    listed.finish()
    return pictures, listed.others


def parser() -> argparse.ArgumentParser:
    """Returns the tool's argument parser."""
    found = command.parser("pictures", TEXT, "done, and a fault touched a frame", EXAMPLES)
    found.add_argument("dir", metavar="DIR", type=Path, help="the folder of the PNG files; the tool creates it")
    text = """draw a box around the first faulty pixel of each lane in a row, as `! code` names it. A content listing does not say
    where in its row a pixel is, so without --link the row is marked at both ends"""
    found.add_argument("--mark", action="store_true", help=text)
    text = "the link listing of the same capture, which says where in its row a faulty pixel is"
    found.add_argument("--link", metavar="FILE", help=text)
    found.add_argument("--raw", action="store_true", help="show the listed bytes as red, green and blue")
    found.add_argument("--fields", action="store_true", help="write each field of interlaced video as a picture")
    command.add_dvi(found)
    found.add_argument("--force", action="store_true", help="delete the frames that an earlier run left in the folder")
    return found


def work(argv: list[str] | None) -> int:
    """Does the work of the tool. Returns the exit status."""
    words = parser()
    args = words.parse_args(argv)
    if args.link and not args.mark:
        words.error("--link: it only works with --mark. Add --mark, or leave --link out")
    places = pixel_places(args.link) if args.link else {}
    args.dir.mkdir(parents=True, exist_ok=True)
    clear(args.dir, args.force)

    def make() -> Pictures:
        return Pictures(args.dir, args.mark, args.raw, not (args.raw or args.fields))

    with capture.path_in(sys.stdin.buffer) as path:
        pictures, others = by_capture(path, make, args.dvi) if path else by_listing(sys.stdin.buffer, make, places)
    command.say(*pictures.says, *(f"frame {first}: {text}" for text, first in pictures.notes.items()))
    if pictures.left:
        command.say(f"{pictures.left} rows of a frame that did not end are left out")
    command.say(f"{pictures.written} frames, {pictures.touched} faults in them, {others} others")
    return command.FAULTY if pictures.touched else command.DONE


def main(argv: list[str] | None = None) -> int:
    """Runs the tool with `argv`, or with the arguments of the command line. Returns the exit status."""
    return command.run("pictures", lambda: work(argv))
