"""The tool `stream`: pictures and sound of a link as a stream for other programs."""

from __future__ import annotations

import argparse
import sys
from collections.abc import Callable, Sequence

from vabgrot import command
from vabgrot.errors import Refused
from vabgrot.flow.ahead import Ahead
from vabgrot.flow.forms import Nut, Sink, Wav, Y4m, is_terminal
from vabgrot.flow.pace import Pace
from vabgrot.flow.parts import Link, opened
from vabgrot.flow.streaming import Streamer
from vabgrot.tools.timing import positive

TEXT = """Writes the pictures and the sound of a capture, or of a live link, as one stream to standard output. The stream is NUT with
raw video and PCM, which ffmpeg, ffplay, mpv and OBS read. It goes on as long as the link does. The colours are those of
`tools/pictures`. Each picture and each sample has the time of its columns.

The format is known after two whole frames. If two frames in a row have another size, depth or rate, a new segment begins. Standard
error says so. On standard output, a segment is a whole NUT file after the one before; with -o it is a file of its own.

With --raw the input is raw blocks without a header and without an end, as `tools/lanes blocks` writes them."""
FAULTY = "done, and a fault touched a picture, or a packet was lost"
EXAMPLES = """./vabgrot make content < examples/bars.content > bars.tmc
tools/stream bars.tmc --y4m bars.y4m --wav bars.wav
tools/lanes blocks bars.tmc --bits 54000 --repeat 9 | tools/stream --raw --y4m - | wc -c"""


def parser() -> argparse.ArgumentParser:
    """Returns the tool's argument parser."""
    found = command.parser("stream", TEXT, FAULTY, EXAMPLES)
    found.add_argument("capture", metavar="CAPTURE", nargs="?", default="-", help="a file or a FIFO (default: standard input)")
    found.add_argument("--follow", action="store_true", help="at the end of the file, wait for more until the capture is whole")
    command.add_dvi(found)
    text = "read raw blocks without a header and without an end: 4,096 bytes of each lane in turn"
    found.add_argument("--raw", action="store_true", help=text)
    text = "write NUT into a file; later segments have their number before the suffix. Without it, to standard output"
    found.add_argument("-o", "--output", metavar="FILE.nut", help=text)
    text = "write pictures as YUV4MPEG2 (4:4:4, eight bits, limited range); - is standard output"
    found.add_argument("--y4m", metavar="FILE.y4m", help=text)
    found.add_argument("--wav", metavar="FILE.wav", help="write sound as a WAV file of 24 bits; - is standard output")
    rate = found.add_mutually_exclusive_group()
    rate.add_argument("--clock", type=positive, metavar="HZ", help="the pixel clock of the link")
    text = "the frames a second of the link, or the fields where it is interlaced"
    rate.add_argument("--rate", type=positive, metavar="FIELDS_PER_SECOND", help=text)
    found.add_argument("--bytes", action="store_true", help="show the bytes of the lanes as red, green and blue")
    found.add_argument("--fields", action="store_true", help="write the fields of interlaced video as pictures of their own")
    return found


def sinks_of(args: argparse.Namespace) -> list[Sink]:
    """Returns the outputs of the stream. Refuses two outputs to standard output, and output to a terminal."""
    names = [args.output or (None if args.y4m or args.wav else "-"), args.y4m, args.wav]
    if names.count("-") > 1:
        raise Refused("only one of -o, --y4m and --wav can be standard output")
    if "-" in names and is_terminal():
        raise Refused("standard output is a terminal: pipe it into a player, as `| ffplay -`, or name a file with -o")
    makers: tuple[Callable[[str], Sink], ...] = (Nut, Y4m, Wav)
    return [make(name) for make, name in zip(makers, names) if name]


def written(link: Link, streamer: Streamer) -> int:
    """Writes the stream. Returns the exit status."""
    for part in Ahead(link.parts()):
        streamer.take(part)
    streamer.end()
    link.check()
    if not streamer.number:
        raise Refused("no whole frame came, so there is no stream: VSYNC has to change before and after one")
    words = f"{streamer.pictures:,} pictures and {streamer.samples:,} samples in {streamer.number} segment{'s' * (streamer.number > 1)}"
    for count, what in (
        (streamer.faults, "faults in pictures"),
        (streamer.heard.lost, "lost packets"),
        (streamer.misfits, "pictures of another size, cut or filled"),
        (streamer.framer.left, "rows of frames that were not whole left out"),
    ):
        words += f", {count:,} {what}" * bool(count)
    print(f"stream: {words}", file=sys.stderr)
    return command.FAULTY if streamer.faults or streamer.heard.lost else command.DONE


def work(argv: Sequence[str] | None) -> int:
    """Does the work of the tool. Returns the exit status."""
    args = parser().parse_args(argv)
    sinks = sinks_of(args)
    from vabgrot.tools.watch import stop_on_signals

    with opened(args.capture, args.dvi, args.raw, args.follow) as link:
        stop_on_signals(link.feed)
        streamer = Streamer(sinks, Pace(args.clock, args.rate), args.dvi, args.bytes, not (args.fields or args.bytes))
        return written(link, streamer)


def main(argv: Sequence[str] | None = None) -> int:
    """Runs the tool with `argv`, or with the arguments of the command line. Returns the exit status."""
    return command.run("stream", lambda: work(argv))
