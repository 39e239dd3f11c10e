#!/usr/bin/env python3
"""Measures the C library (library/out, or the one that VABGROT_LIBRARY names): million columns a second on one processor.

    bench/library.py [--program PROGRAM] [--lines LINES] [--runs RUNS] [--processor P]

PROGRAM (crates/hdmi_cli/out/hdmi_cli) makes five streams. They begin at bit 123,457 and have the skews 0, 70 and 35:

    lines               LINES lines (2,000) of 2,200 columns with 1,920 noisy pixels, as 1,920 by 1,080 has them
    lines and packets   the same with a data island of one packet in each line
    long lines          half as many lines of 4,400 columns with 3,840 pixels
    quarter islands     lines of 1,920 pixels, each with an island of 18 packets
    islands             islands of 18 packets, with 20 control columns between them

Two more streams are the lines with damage from a fixed seed: one wrong bit in each line, and one in a thousand bits of each lane.

Each stream is fed from memory, 65,536 bytes of each lane at a time, in one thread on one processor: P, or the last one that this script may
use. It is fed RUNS times (7), and the best run counts. Times are those of the thread, so other programs count less. What is measured:

    feed     vabgrot_feed, which writes all events and pixels into one array and one buffer; nobody looks at them
    relock   the same with VABGROT_RELOCK (of the lines and the damaged lines)

and of the lines, the lines and packets, and the islands:

    faults   as feed, and looks for each event whether it is a fault
    views    Receiver.feed_views of the package, 4 MiB of each lane at a time
    watched  the same, and counts what tools/watch counts
    arrays   Receiver.feed of the package
    objects  the same, and makes an object for each event

Each rate is also printed as a part of 340 million columns a second, the fastest link of HDMI 1.4. A fixed loop, SHA-256 of 4 MiB, takes
turns with the runs. Columns for each byte of the loop compare runs on a processor whose clock changes. The load of the machine is printed
before. The numbers are good only if nothing else runs.
"""

import argparse
import hashlib
import os
import subprocess
import sys
import tempfile
import time
from ctypes import byref
from pathlib import Path

import numpy as np

import inputs

TOP = Path(__file__).resolve().parents[1]
sys.path.insert(0, str(TOP / "python"))
from vabgrot import Receiver, capture, library  # noqa: E402
from vabgrot.events import RECORD, Kind  # noqa: E402
from vabgrot.place import PROGRAM  # noqa: E402
from vabgrot.receiving import BYTES, EVENTS  # noqa: E402
from vabgrot.watching import feeding  # noqa: E402
from vabgrot.watching.blocks import LONGEST  # noqa: E402
from vabgrot.watching.counting import Count  # noqa: E402

PIECE = 1 << 16  # bytes of a lane
FASTEST = 340.0  # million columns a second
LOOP = bytes(1 << 22)  # what the fixed loop hashes
COLUMNS = 2200
ISLAND_COLUMNS = 20 + 2 + 18 * 32 + 2
LONG_COLUMNS, LONG_PIXELS = 4400, 3840
FULL_COLUMNS = ISLAND_COLUMNS + 12 + 8 + 2 + inputs.PIXELS
SOUND = 1 << 19  # bits of each lane before the first damage
THOUSANDTH = 1e-3
SEED = 3
TAP = ["--offset", "123457", "--skew", "0,70,35", "--version", "2"]


class Fed:
    """Calls the C functions without the copies that the package makes."""

    piece = PIECE

    def __init__(self, looks=False, kind="link"):
        self.calls, self.looks, self.found = library.loaded(library.find()), looks, 0
        self.handle, self.answer = library.Handle(), library.Answer()
        self.records, self.bytes = np.empty(EVENTS, RECORD), np.empty(BYTES, np.uint8)
        self.room = self.records.ctypes.data, EVENTS, self.bytes.ctypes.data, BYTES, byref(self.answer)
        assert self.calls.vabgrot_open(byref(self.handle), library.KINDS[kind]) == library.OK

    def feed(self, lanes):
        places, left, status = [it.ctypes.data for it in lanes], [8 * len(it) for it in lanes], library.FULL
        while status == library.FULL:
            words = [word for place, count in zip(places, left) for word in (place, (count + 7) // 8)]
            status = self.calls.vabgrot_feed(byref(self.handle), *words, byref(library.Bits(*left)), *self.room)
            assert status in (library.OK, library.FULL)
            taken = self.answer.taken
            for at, count in enumerate((taken.blue, taken.green, taken.red)):
                places[at] += count // 8
                left[at] -= count
            if self.looks:
                self.found += int((self.records["kind"][: self.answer.events] >= Kind.WORD).sum())

    def finish(self):
        assert self.calls.vabgrot_finish(byref(self.handle), *self.room) == library.OK
        assert self.answer.aligned and not self.found
        assert self.calls.vabgrot_restart(byref(self.handle)) == library.OK


class Viewed:
    """Receives as tools/watch does, without a copy, and counts what it counts."""

    piece = LONGEST

    def __init__(self, counts):
        self.receiver, self.counts = Receiver(kind="link", events=feeding.EVENTS, size=feeding.BYTES), counts

    def feed(self, lanes):
        count = Count()
        for events in self.receiver.feed_views(*lanes):
            if self.counts:
                count.take(events)

    def finish(self):
        self.receiver.finish()
        self.receiver.restart()


class Packaged:
    """Receives with the package."""

    piece = PIECE

    def __init__(self, views):
        self.receiver, self.views = Receiver(), views

    def feed(self, lanes):
        events = self.receiver.feed(*lanes)
        if self.views:
            list(events)

    def finish(self):
        self.receiver.finish()
        self.receiver.restart()


FEED = {"feed": Fed}
RELOCK = {"relock": lambda: Fed(kind="relock")}
WAYS = {
    **FEED,
    "faults": lambda: Fed(looks=True),
    "views": lambda: Viewed(False),
    "watched": lambda: Viewed(True),
    "arrays": lambda: Packaged(views=False),
    "objects": lambda: Packaged(views=True),
}


def loop():
    """Returns how long the fixed loop takes, in seconds of this thread."""
    begin = time.thread_time()
    hashlib.sha256(LOOP).digest()
    return time.thread_time() - begin


def speed(way, lanes, runs):
    """Returns the best of some runs in million columns a second, and the best of the fixed loop in million bytes a second."""
    it, taken, loops = way(), [], []
    size = min(map(len, lanes))  # the last bits of longer lanes have no column
    columns = size * 8 // 10
    for _ in range(runs):
        loops.append(loop())
        begin = time.thread_time()
        for at in range(0, size, it.piece):
            it.feed([lane[at : min(size, at + it.piece)] for lane in lanes])
        it.finish()
        taken.append(time.thread_time() - begin)
    return columns / min(taken) / 1e6, len(LOOP) / min(loops) / 1e6


def streams(program, lines, folder):
    """Yields the name and the lanes of each stream that PROGRAM makes."""
    path = folder / "listing"
    for name, write in (
        ("lines", lambda: inputs.write_listing(path, lines, COLUMNS)),
        ("lines and packets", lambda: inputs.write_listing(path, lines, COLUMNS, islands=True)),
        ("long lines", lambda: inputs.write_listing(path, lines // 2, LONG_COLUMNS, width=LONG_PIXELS)),
        ("quarter islands", lambda: inputs.write_full_islands(path, lines * COLUMNS // FULL_COLUMNS)),
        ("islands", lambda: inputs.write_islands(path, lines * COLUMNS // ISLAND_COLUMNS)),
    ):
        write()
        with open(path, "rb") as source:
            made = subprocess.run([program, "make", "link", *TAP], stdin=source, stdout=subprocess.PIPE, check=True)
        yield name, [np.frombuffer(lane, np.uint8) for lane in capture.lanes_of(made.stdout)[0]]


def flipped(lane, places):
    """Returns a lane with some bits flipped."""
    damaged = lane.copy()
    np.bitwise_xor.at(damaged, places // 8, (1 << places % 8).astype(np.uint8))
    return damaged


def one_a_line(lanes):
    """Returns lanes with one wrong bit in each line."""
    noise, bits = np.random.default_rng(SEED), 10 * COLUMNS
    starts = np.arange(SOUND, 8 * min(map(len, lanes)) - bits, bits)
    places = starts + noise.integers(bits, size=len(starts))
    chosen = noise.integers(len(lanes), size=len(starts))
    return [flipped(lane, places[chosen == at]) for at, lane in enumerate(lanes)]


def one_in_a_thousand(lanes):
    """Returns lanes with one wrong bit in a thousand."""
    noise, bits = np.random.default_rng(SEED), 8 * min(map(len, lanes))
    places = [SOUND + np.cumsum(noise.geometric(THOUSANDTH, int(2 * THOUSANDTH * bits))) for _ in lanes]
    return [flipped(lane, wrong[wrong < bits]) for lane, wrong in zip(lanes, places)]


def measured(program, lines, folder):
    """Yields the name and the lanes of each stream, and how it is measured."""
    for name, lanes in streams(program, lines, folder):
        if name == "lines":
            yield name, lanes, WAYS | RELOCK
            yield "one wrong bit a line", one_a_line(lanes), FEED | RELOCK
            yield "one wrong bit in 1,000", one_in_a_thousand(lanes), FEED | RELOCK
        else:
            yield name, lanes, WAYS if name in ("lines and packets", "islands") else FEED


def main():
    parser = argparse.ArgumentParser(description=__doc__, formatter_class=argparse.RawDescriptionHelpFormatter)
    parser.add_argument("--program", default=os.environ.get("VABGROT_PROGRAM", PROGRAM))
    parser.add_argument("--lines", type=int, default=2000)
    parser.add_argument("--runs", type=int, default=7)
    parser.add_argument("--processor", type=int)
    words = parser.parse_args()
    one = max(os.sched_getaffinity(0)) if words.processor is None else words.processor
    print(f"load {os.getloadavg()[0]:.2f}, processor {one}, best of {words.runs}")
    os.sched_setaffinity(0, {one})
    with tempfile.TemporaryDirectory() as folder:
        for stream, lanes, ways in measured(words.program, words.lines, Path(folder)):
            for name, way in ways.items():
                came, looped = speed(way, lanes, words.runs)
                told = f"{came:.1f} million columns a second, {came / FASTEST:.2f} of 340, {came / looped:.3f} columns a byte of the loop"
                print(f"{stream}, {name}: {told}", flush=True)


if __name__ == "__main__":
    main()
