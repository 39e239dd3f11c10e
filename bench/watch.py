#!/usr/bin/env python3
"""Compares tools/watch with the receiver of the C library (library/out, or the one that VABGROT_LIBRARY names).

    bench/watch.py [--program PROGRAM] [--columns MILLIONS] [--runs RUNS]

PROGRAM (crates/hdmi_cli/out/hdmi_cli) makes two streams of bench/library.py: lines of 2,200 columns with 1,920 noisy pixels, and the same
with a data island of one packet in each line. Two more are these with one wrong bit in a thousand. 64 lines repeat up to MILLIONS of
columns (150). Each stream arrives on standard input, as a capture and as raw blocks, RUNS times (3). It prints the user time in seconds:
the least of the runs, without the start, which a twentieth of the stream measures. The ways are:

    feed     a Python process that reads the blocks as tools/watch does and feeds them to vabgrot_feed, which writes all events and
             pixels into one array and one buffer; nobody looks at them
    watch    tools/watch --plain of the capture
    raw      tools/watch --plain --raw of the blocks
    events   the same with --events and --frames

It prints how many times as long as `feed` the others take, how many million columns a second that is (1,920 by 1,080 at 60 Hz has 148.5),
and the load of the machine before. The numbers are good only if nothing
else runs.
"""

import argparse
import os
import resource
import subprocess
import sys
import tempfile
from itertools import islice
from pathlib import Path

import numpy as np

import inputs
import library

TOP = library.TOP
STREAMS = 2  # the first ones of bench/library.py
PERIOD = inputs.KINDS * library.COLUMNS * 10 // 8  # bytes of a lane after which it repeats
PARTS = 20  # of a stream; one of them measures the start
WAYS = ("feed", "watch", "raw", "events")


def feed(file):
    """Feeds raw blocks to the library."""
    from vabgrot.watching.blocks import Blocks

    fed, blocks = library.Fed(False), Blocks()
    while blocks.read(file):
        if blocks.is_full:
            fed.feed(blocks.lanes(blocks.whole()))
            blocks.take(blocks.whole())
    fed.feed(blocks.lanes(blocks.whole()))
    fed.finish()


def write(folder, lanes, columns):
    """Writes a capture that repeats these lanes, and its raw blocks. Returns their paths."""
    capture, blocks = folder / "capture", folder / "blocks"
    count = columns * 10 // 8 // library.capture.BLOCK
    size = count * library.capture.BLOCK
    period = [lane[PERIOD : 2 * PERIOD] for lane in lanes]
    found = [np.resize(lane, size).reshape(count, 1, -1) for lane in period]
    np.concatenate(found, axis=1).tofile(blocks)
    capture.write_bytes(b"TMC1" + (8 * size).to_bytes(4, "big") + blocks.read_bytes())
    return capture, blocks


def user(way, paths):
    """Returns the user time of a run."""
    capture, blocks = paths
    watch = [TOP / "tools" / "watch", "--plain"]
    raw = [*watch, "--raw"]
    events = [*raw, "--events", f"{blocks}.events", "--frames", f"{blocks}.frames"]
    words = {"feed": [sys.executable, __file__, "--feed"], "watch": watch, "raw": raw, "events": events}[way]
    before = resource.getrusage(resource.RUSAGE_CHILDREN).ru_utime
    with open(capture if way == "watch" else blocks, "rb") as file:
        ran = subprocess.run(words, stdin=file, capture_output=True, check=False)
    assert ran.returncode in (0, 1), ran.stderr.decode()  # 1: the lines have no frames, which rules want
    return resource.getrusage(resource.RUSAGE_CHILDREN).ru_utime - before


def least(paths, runs):
    """Returns the least time of each way. They take turns, so that all have the same load."""
    taken = [[user(way, paths) for way in WAYS] for _ in range(runs)]
    return dict(zip(WAYS, map(min, zip(*taken))))


def times(program, columns, runs, folder):
    """Yields the name of each stream, and for each way its time without the start."""
    clean = [*islice(library.streams(program, 4 * inputs.KINDS, folder), STREAMS)]
    noisy = [(f"{name}, one wrong bit in 1,000", library.one_in_a_thousand(lanes)) for name, lanes in clean]
    for name, lanes in clean + noisy:
        few = least(write(folder, lanes, columns // PARTS), runs)
        all_of_it = least(write(folder, lanes, columns), runs)
        yield name, {way: (all_of_it[way] - few[way]) * PARTS / (PARTS - 1) for way in WAYS}


def main():
    words = argparse.ArgumentParser(description=__doc__, formatter_class=argparse.RawDescriptionHelpFormatter)
    words.add_argument("--program", default=os.environ.get("VABGROT_PROGRAM", library.PROGRAM))
    words.add_argument("--columns", type=int, default=150, metavar="MILLIONS")
    words.add_argument("--runs", type=int, default=3)
    words.add_argument("--feed", action="store_true", help=argparse.SUPPRESS)
    args = words.parse_args()
    if args.feed:
        feed(sys.stdin.fileno())
        return
    print(f"load {os.getloadavg()[0]:.2f}, best of {args.runs}")
    with tempfile.TemporaryDirectory() as folder:
        for name, taken in times(args.program, args.columns * 1_000_000, args.runs, Path(folder)):
            rates = {way: args.columns / max(seconds, 1e-9) for way, seconds in taken.items()}
            told = ", ".join(f"{way} {taken[way]:.2f} s, {taken[way] / taken['feed']:.2f} times, {rates[way]:.0f} M" for way in WAYS)
            print(f"{name}: {told}", flush=True)


if __name__ == "__main__":
    main()
