#!/usr/bin/env python3
"""Measures the processor time of tools/report and tools/survey, with the C library and with the program.

    bench/report.py [--program PROGRAM] [--frames N ..] [--runs RUNS] [--surveyed N] [--package FOLDER]

The captures are 1,920 by 1,080 (format 16) with a tone. `make content` makes at most eight frames at a time, because a content has at most
20,000,000 columns; the lanes of several contents are joined. For each number of frames (12 and 60) report runs RUNS times (5) with each
source. The survey is over N captures of two frames (20; 0 for none). It prints the least and the median of:

    the user time of the process, and with what it started, in seconds
    the system time of the process, in seconds
    the most memory of the process, in MiB

FOLDER is the folder of another version of the package (python). Runs of the two sources take turns, so that both have the same load.
"""

import argparse
import json
import os
import statistics
import subprocess
import sys
import tempfile
from pathlib import Path

TOP = Path(__file__).resolve().parents[1]
sys.path.insert(0, str(TOP / "python"))
from vabgrot import capture, library  # noqa: E402
from vabgrot.place import PROGRAM  # noqa: E402

PATTERNS = ("bars", "ramp", "zone", "moving", "noise", "checkerboard")
MOST = 8  # frames of a content
SOURCES = {"library": {}, "program": {"VABGROT_LIBRARY": "/none"}}
RUN = """
import resource, sys, json
sys.path.insert(0, {package!r})
from importlib import import_module
status = import_module("vabgrot.tools." + sys.argv[1]).main(sys.argv[2:])
own, started = (resource.getrusage(it) for it in (resource.RUSAGE_SELF, resource.RUSAGE_CHILDREN))
print(json.dumps([own.ru_utime, own.ru_utime + started.ru_utime, own.ru_stime, own.ru_maxrss / 1024]))
"""


def made(program, frames, first, folder):
    """Returns the lanes of a capture of some frames."""
    names = [f"pattern:{PATTERNS[(first + at) % len(PATTERNS)]}" for at in range(frames)]
    words = [TOP / "tools" / "content", *names, "--vic", "16", "--sound", "tone:1000@48000"]
    content = subprocess.run(words, stdout=subprocess.PIPE, stderr=subprocess.DEVNULL, check=True)
    path = folder / "content"
    path.write_bytes(content.stdout)
    with open(path, "rb") as source:
        data = subprocess.run([program, "make", "content"], stdin=source, stdout=subprocess.PIPE, check=True).stdout
    path.unlink()
    return capture.lanes_of(data)


def joined(program, frames, path):
    """Writes a capture of some frames."""
    lanes, bits = [bytearray(), bytearray(), bytearray()], 0
    for first in range(0, frames, MOST):
        parts, counts = made(program, min(MOST, frames - first), first, path.parent)
        assert bits % 8 == 0
        bits += counts[0]
        for lane, part in zip(lanes, parts):
            lane += part
    blocks = (lane[at : at + capture.BLOCK] for at in range(0, len(lanes[0]), capture.BLOCK) for lane in lanes)
    with open(path, "wb") as out:
        out.write(b"TMC1" + bits.to_bytes(4, "big"))
        out.writelines(blocks)


def measured(words, package, env):
    """Returns the numbers of one run of a tool."""
    source = RUN.format(package=str(package))
    command = [sys.executable, "-c", source, *map(str, words)]
    ran = subprocess.run(command, stdout=subprocess.PIPE, stderr=subprocess.PIPE, env=os.environ | env)
    if ran.returncode:
        sys.exit(ran.stderr.decode())
    return json.loads(ran.stdout.splitlines()[-1])


def tell(name, rows):
    """Prints what was measured."""
    own, whole, system, peak = zip(*rows)
    print(
        f"{name}: user least {min(own):.2f} median {statistics.median(own):.2f}; with what it started {min(whole):.2f} "
        f"{statistics.median(whole):.2f}; system {min(system):.2f}; {max(peak):.0f} MiB",
        flush=True,
    )


def main():
    parser = argparse.ArgumentParser(description=__doc__, formatter_class=argparse.RawDescriptionHelpFormatter)
    parser.add_argument("--program", default=os.environ.get("VABGROT_PROGRAM", PROGRAM))
    parser.add_argument("--frames", type=int, nargs="+", default=[12, 60])
    parser.add_argument("--runs", type=int, default=5)
    parser.add_argument("--surveyed", type=int, default=20)
    parser.add_argument("--package", type=Path, default=TOP / "python")
    parser.add_argument("--folder", type=Path, help="folder to keep the captures in; those that are there are used again")
    words = parser.parse_args()
    os.environ["VABGROT_PROGRAM"] = str(Path(words.program).resolve())
    os.environ["VABGROT_LIBRARY"] = str(library.find())
    print(f"load {os.getloadavg()[0]:.2f}")
    with tempfile.TemporaryDirectory() as made_here:
        folder = words.folder or Path(made_here)
        tasks = []
        for frames in words.frames:
            path = folder / f"{frames}.tmc"
            path.exists() or joined(words.program, frames, path)
            tasks.append((f"report of {frames} frames", ["report", path, "-o", Path(made_here) / "page.html"]))
        if words.surveyed:
            few = folder / "surveyed"
            few.mkdir(exist_ok=True)
            for at in range(words.surveyed):
                path = few / f"{at:02}.tmc"
                path.exists() or joined(words.program, 2, path)
            tasks.append((f"survey of {words.surveyed} captures", ["survey", few, "-o", Path(made_here) / "a.csv", "--anew", "--timing"]))
        for name, task in tasks:
            rows = {source: [] for source in SOURCES}
            for _ in range(words.runs):
                for source, env in SOURCES.items():
                    rows[source].append(measured(task, words.package, env))
            for source in SOURCES:
                tell(f"{name} by the {source}", rows[source])


if __name__ == "__main__":
    main()
