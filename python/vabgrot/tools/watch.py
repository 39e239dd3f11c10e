"""The tool `watch`: what a link carries while it arrives, in a terminal, as counters and as a log of faults."""

from __future__ import annotations

import argparse
import contextlib
import os
import signal
import sys
import time
from collections.abc import Iterator, Sequence
from dataclasses import dataclass
from pathlib import Path
from types import FrameType
from typing import Any, Protocol

from vabgrot import command
from vabgrot.errors import Refused
from vabgrot.events import LANED, WORDS, Events, numbers_of
from vabgrot.formats.faults import LINK
from vabgrot.flow.parts import LIVE
from vabgrot.library import Grammar
from vabgrot.reading import UNALIGNED
from vabgrot.tools.timing import positive
from vabgrot.verdict import Word
from vabgrot.video.matching import Rate
from vabgrot.watching.counting import Count, Ear
from vabgrot.watching.feeding import Feed
from vabgrot.watching.happenings import happening
from vabgrot.watching.keeping import Kept
from vabgrot.watching.looking import Looks
from vabgrot.watching.notices import KINDS
from vabgrot.watching.state import State
from vabgrot.watching.tables import table_in

TEXT = """Shows a capture while it arrives, from standard input, a FIFO, or a file that grows. With --raw, it shows a live
link: raw blocks without a header and without an end. Ctrl-C ends the tool with a summary.

The view shows whether the lanes are aligned and since when, columns per second, the video format, frames, faults by kind
and lane, packets, sound levels, the last ten faults, and a small picture of the last frame. It says if nothing comes, at
all or on a lane. If the output is not a terminal, the tool writes a line each second.

All faults and columns are counted. The view takes at most a twentieth of the time, and says if it cannot show every frame.

With --events, what happens goes into a table with its time. With --stop-on, the tool ends at an event, and with --keep it
then writes what came before."""
FAULTY = "done, and there was a fault, or the lanes were not aligned"
EXAMPLES = """./vabgrot make content < examples/bars.content > bars.tmc
cat bars.tmc | tools/watch --log faults.csv
tools/watch --follow --stop-on-fault bars.tmc
tools/lanes blocks bars.tmc | tools/watch --raw --events events.csv --stop-on slip --keep 2"""
EACH = 0.25  # seconds between two views, at least
REST = 40  # times as long as a view takes to draw passes before the next one: drawing has half of the time of what looks
SECOND = 1.0
Row = tuple[str, str, int | str, int, int, str]
HEADS = ("seconds", "kind", "lane", "epoch", "column", "numbers")


class View(Protocol):
    """Shows a state again and again."""

    each: float

    def show(self) -> None: ...


@dataclass
class Plain:
    """Writes a line a second."""

    state: State
    each: float = SECOND

    def show(self) -> None:
        """Writes a line."""
        print(self.state.line(), flush=True)


@dataclass
class Screen:
    """Draws a view in a terminal."""

    state: State
    live: Any
    each: float = EACH

    def show(self) -> None:
        """Draws it anew."""
        from vabgrot.watching.screen import view

        budget = self.state.looks.budget
        before = budget.spent
        with budget:
            self.state.looks.keep()
            self.live.update(view(self.state, *self.live.console.size), refresh=True)
        self.each = max(EACH, REST * (budget.spent - before))


@contextlib.contextmanager
def viewing(state: State, is_plain: bool) -> Iterator[View]:
    """A view; that of a terminal stays there when it ends."""
    if is_plain:
        yield Plain(state)
        return
    from rich.console import Console
    from rich.live import Live

    from vabgrot.watching.screen import view

    console = Console(highlight=False)
    with Live(console=console, screen=True, auto_refresh=False) as live:
        yield Screen(state, live)
    console.print(view(state, console.size.width, console.size.height))


@contextlib.contextmanager
def logging(path: Path | None, state: State) -> Iterator[Ear | None]:
    """What writes each fault into a CSV file as it comes; None where none is wanted."""
    with table_in(path, HEADS) as table:

        def write(faults: Events) -> None:
            if table:
                table.write(rows_of(faults, f"{state.seconds:.3f}"))

        yield write if table else None


def rows_of(faults: Events, seconds: str) -> Iterator[Row]:
    """The rows of faults, by HEADS."""
    its = faults.kind.tolist(), faults.epoch.tolist(), faults.first.tolist(), faults.value.tolist(), faults.second.tolist()
    for kind, epoch, first, value, second in zip(*its):
        lane: int | str = value if kind in LANED else ""
        more = numbers_of(kind, first, value, second)[1 + (kind in LANED) :]
        yield seconds, WORDS[kind], lane, epoch, first, " ".join(map(str, more))


@contextlib.contextmanager
def opened(path: str, grows: bool) -> Iterator[int]:
    """The file that a capture comes from."""
    if path == "-":
        yield sys.stdin.fileno()
        return
    file = os.open(path, os.O_RDONLY)
    try:
        yield file
    finally:
        os.close(file)


@dataclass
class Watch:
    """Takes what the receiver says until it ends."""

    state: State
    ear: Ear | None
    stops: bool

    def run(self, view: View) -> bool:
        """Answers whether it came to its end, and was not stopped."""
        shown, feed = time.monotonic(), self.state.feed
        while True:
            if feed.ready(max(0.0, shown + view.each - time.monotonic())):
                events = feed.read()
                if events is None:
                    return not feed.is_stopped
                if not self.take(events):
                    return False
            self.state.sample()
            if self.state.happenings and not self.state.happenings.idle(feed):
                return False
            if time.monotonic() >= shown + view.each:
                view.show()
                shown = time.monotonic()

    def take(self, events: Events) -> bool:
        """The next events; answers whether more is wanted."""
        faults = events.faults.tolist() if self.stops else []
        its = events[: faults[0] + 1] if faults else events
        if len(its):
            self.state.count.take(its, self.ear)
            self.state.looks.take(its)
        wanted = self.state.happenings is None or self.state.happenings.take(its)
        return wanted and not faults


def ended(state: State) -> int:
    """What is said last, and the status."""
    if state.feed.error:
        raise state.feed.error
    if state.feed.refusal:
        raise Refused(state.feed.refusal)
    if state.word == Word.UNALIGNED:
        print(UNALIGNED)
    if state.feed.is_cut_off:
        print("the capture is cut off: it was read to its last whole block")
    return command.DONE if state.word == Word.CLEAN else command.FAULTY


def port(text: str) -> int:
    """A port of the command line."""
    if not text.isdecimal() or not 0 < int(text) < 1 << 16:
        raise argparse.ArgumentTypeError(f"{text}: write a port from 1 to 65535")
    return int(text)


def parser() -> argparse.ArgumentParser:
    """The parser of the tool's words."""
    found = command.parser("watch", TEXT, FAULTY, EXAMPLES)
    found.add_argument("capture", metavar="CAPTURE", nargs="?", default="-", help="a file or a FIFO (default: standard input)")
    found.add_argument("--follow", action="store_true", help="at the end of the file, wait for more until the capture is whole")
    command.add_dvi(found)
    text = "read raw blocks without a header and without an end: 4,096 bytes of each lane in turn"
    found.add_argument("--raw", action="store_true", help=text)
    rate = found.add_mutually_exclusive_group()
    rate.add_argument("--clock", type=positive, metavar="HZ", help="the pixel clock of the link")
    text = "the frames per second of the link, or fields per second of interlaced video"
    rate.add_argument("--rate", type=positive, metavar="FIELDS_PER_SECOND", help=text)
    found.add_argument("--log", type=Path, metavar="FILE.csv", help="write each fault into a table, as it arrives")
    found.add_argument("--metrics", type=port, metavar="PORT", help="serve counters for Prometheus on this port of 127.0.0.1")
    found.add_argument("--stop-on-fault", action="store_true", help="end at the first fault")
    add_events(found)
    found.add_argument("--plain", action="store_true", help="write a line each second instead of the view")
    return found


def add_events(found: argparse.ArgumentParser) -> None:
    """Adds the options for what happens on a link."""
    text = "write what happens into a table: alignments, slips, faults (at most 20 of a kind a second), changes, gaps, lanes that die"
    found.add_argument("--events", type=Path, metavar="FILE.csv", help=text)
    found.add_argument("--frames", type=Path, metavar="FILE.csv", help="write each whole frame into a table, with the CRC-32 of its bytes")
    text = "end at the first event of these kinds, such as slip,relock,unaligned,frozen,black,format,changed,quiet,stalled,dead"
    found.add_argument("--stop-on", type=kinds_of, metavar="KIND[,KIND]", default=frozenset(), help=text)
    found.add_argument("--keep", type=positive, metavar="SECONDS", help="at the end, write the bits of the last seconds as a capture")
    text = "the capture that --keep writes (default: %(default)s)"
    found.add_argument("--kept", type=Path, metavar="FILE.tmc", default="kept.tmc", help=text)


def kinds_of(text: str) -> frozenset[str]:
    """The kinds of events of a word of the command line."""
    known, found = KINDS | LINK.keys(), frozenset(text.split(","))
    if wrong := sorted(found - known):
        raise argparse.ArgumentTypeError(f"{wrong[0]}: no kind of event. The kinds are {', '.join(sorted(known))}")
    return found


def stop_on_signals(feed: Feed) -> None:
    """The first Ctrl-C or SIGTERM ends the input; the second one ends the tool. A handler raises nothing the first time, so that none is
    lost, wherever it comes."""

    def stop(number: int, frame: FrameType | None) -> None:
        if feed.is_stopped:
            signal.default_int_handler(number, frame)
        feed.stop()

    signal.signal(signal.SIGINT, stop)
    signal.signal(signal.SIGTERM, stop)


def grammar_of(args: argparse.Namespace) -> Grammar:
    """How the link is received: a live one, which cannot be read twice, as `recover relock` does it."""
    if args.dvi:
        return "dvi"
    return LIVE if args.raw else "track"


def write_kept(feed: Feed, path: Path, seconds: float) -> None:
    """Writes what was kept."""
    if feed.kept:
        bits = feed.kept.write(path)
        print(f"the last {seconds:g} s are in {path}: {bits:,} bits a lane")


def watched(args: argparse.Namespace, state: State) -> None:
    """Watches a link to its end."""
    is_plain = args.plain or not sys.stdout.isatty()
    with contextlib.ExitStack() as stack:
        ear = stack.enter_context(logging(args.log, state))
        how = args.events, args.frames, args.stop_on, args.dvi, args.metrics is not None
        state.happenings = stack.enter_context(happening(*how))
        with viewing(state, is_plain) as view:
            Watch(state, ear, args.stop_on_fault).run(view)
            state.end()


def work(argv: Sequence[str] | None) -> int:
    args = parser().parse_args(argv)
    if args.capture == "-" and sys.stdin.isatty():
        raise Refused("standard input is a terminal. Name a file, or send a capture there: `tools/watch < my.tmc`")
    with opened(args.capture, args.follow) as source:
        feed = Feed(source, grammar_of(args), args.follow, args.raw)
        try:
            stop_on_signals(feed)
            feed.kept = Kept(args.keep) if args.keep else None
            state = State(feed, Count(), Looks(feed.grammar, Rate(args.clock, args.rate)))
            if args.metrics:
                from vabgrot.watching.metrics import serve

                serve(state, args.metrics)
            watched(args, state)
            print("\n".join(state.summary()))
            write_kept(feed, args.kept, args.keep)
            return ended(state)
        finally:
            feed.close()


def main(argv: Sequence[str] | None = None) -> int:
    """Runs the tool over its words, those of the command line if none are given; answers its status."""
    return command.run("watch", lambda: work(argv))
