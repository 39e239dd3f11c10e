#!/usr/bin/env python3
"""Measures the program: instructions for each column, times and memory for large inputs, and what its threads cost.

    bench/bench.py [--program PROGRAM] [--lines LINES] [PART ..]

PROGRAM is crates/hdmi_cli/out/hdmi_cli if you leave it out; ./vabgrot builds it. Without a PART all parts run:

    instructions  counts the instructions of each command for each column, with valgrind's callgrind. The count is the difference of
                  a large and a small input, so it leaves out the start. Lines have 1,920 noisy pixels, 280 control columns and no
                  island. Captures begin with bit 0. Frames are of code 16 (1,920 by 1,080). Then follow data islands without lines,
                  lanes that do not align, and control columns without lines, with recover link and recover relock; lanes that slip
                  every 130 bits, with recover track; and read biphase, for each byte.
    times         runs each command over LINES lines (4,000 if you leave it out, at least 3) of 5,000 columns: 20,000,000 columns.
                  Lines have an island of one packet if the command reads islands. Captures begin at bit 123,457 with the skews 0,
                  70 and 35, so no character begins at a byte. Contents are eight frames of code 16. For comparison, cat and
                  sha256sum read the same capture. Prints the best of three runs, each on one processor if `taskset` is there, as
                  ./vabgrot does.
    clock         runs check over a capture of 33 MB on one, two and four processors, beside 0, 4 and 16 programs that keep a whole
                  processor busy. Prints the median of five runs, and the load of the machine before.
    memory        prints the most memory that recover link uses for captures of 1, 100 and 1,000 MB.

MB are those of the capture. Columns count as pixels. MiB are the most memory that was seen.
"""

import argparse
import os
import re
import shutil
import statistics
import subprocess
import sys
import tempfile
import time
from pathlib import Path

import inputs

TOP = Path(__file__).resolve().parents[1]
sys.path.insert(0, str(TOP / "python"))
from vabgrot.place import PROGRAM  # noqa: E402

FRONT = TOP / "vabgrot"
COLUMNS = 5000
COUNTED_COLUMNS = 2200
COUNTED = (20, 60)  # lines of the small and the large input
BLOCK = 3 * inputs.BLOCK  # bytes of a whole block of a capture
FRAME_COLUMNS = 2200 * 1125
FRAMES = 8
TAP = ["--offset", "123457", "--skew", "0,70,35"]
DAMAGE = ["damage", "1:1000:2cc", "0:12345:133", "2:20007:001"]
READERS = (
    *(["recover", it] for it in ("link", "track", "relock")),
    ["check"],
    DAMAGE,
    ["slip", "1:1000:3"],
    ["recover", "biphase", "0"],
    ["relay"],
)
ENDS = (0, 1)  # statuses of a measured run: there may be faults


class Measured:
    """One run: its time by the clock and its processor time in seconds, and its memory in MiB."""

    def __init__(self, words, source, target, ends=ENDS):
        with open(source, "rb") as given, open(target, "wb") as taken:
            start = time.perf_counter()
            process = subprocess.Popen(words, stdin=given, stdout=taken)
            self.peak, ended = 0, (0, 0, None)
            while not ended[0]:
                self.peak = max(self.peak, resident(process.pid))
                time.sleep(0.002)
                ended = os.wait4(process.pid, os.WNOHANG)
            self.clock = time.perf_counter() - start
        self.used = ended[2].ru_utime + ended[2].ru_stime
        process.returncode = os.waitstatus_to_exitcode(ended[1])
        if process.returncode not in ends:
            sys.exit(f"{' '.join(words)} ended with {process.returncode}")


def resident(pid):
    """Returns the most memory that a running program has used, in MiB. 0 if it is unknown, or is that of this script."""
    try:
        if os.path.realpath(f"/proc/{pid}/exe") == os.path.realpath(sys.executable):
            return 0
        with open(f"/proc/{pid}/status") as status:
            found = re.search(r"VmHWM:\s+(\d+) kB", status.read())
        return int(found.group(1)) / 1024 if found else 0
    except OSError:
        return 0


def on(count):
    """Returns the words that start a program on `count` of the processors that this one may use. None if there are fewer, or `taskset`
    is missing."""
    places = sorted(os.sched_getaffinity(0))
    if shutil.which("taskset") is None or len(places) < count:
        return None
    return ["taskset", "-c", ",".join(map(str, places[-count:]))]


def counted(words, source):
    """Returns the instructions of one run, which callgrind counts."""
    with tempfile.TemporaryDirectory() as folder, open(source, "rb") as given:
        log = os.path.join(folder, "log")
        grind = ["valgrind", "--tool=callgrind", "--callgrind-out-file=" + os.path.join(folder, "out"), "--log-file=" + log]
        status = subprocess.run(grind + words, stdin=given, stdout=subprocess.DEVNULL, stderr=subprocess.DEVNULL).returncode
        if status not in (*ENDS, 7):
            sys.exit(f"{' '.join(words)} under valgrind ended with {status}")
        with open(log) as text:
            return int(re.search(r"Collected : (\d+)", text.read()).group(1))


class Bench:
    """The parts for one program, with a folder for their inputs."""

    def __init__(self, program, lines, folder):
        self.program, self.lines, self.folder = program, lines, folder

    def path(self, name):
        return os.path.join(self.folder, name)

    def made(self, words, source, name):
        """Runs the program over a file, and returns the path of the output."""
        with open(source, "rb") as given, open(self.path(name), "wb") as taken:
            subprocess.run([self.program, *words], stdin=given, stdout=taken, check=True)
        return self.path(name)

    def written(self, write, name, *size):
        """Returns the path of an input."""
        write(self.path(name), *size)
        return self.path(name)

    # ---- instructions

    def each(self, name, words, small, large, more, unit="column"):
        """Prints the instructions of a command for each further column."""
        counts = [counted([self.program, *words], source) for source in (small, large)]
        print(f"  {name:<44}{(counts[1] - counts[0]) / more:9.1f} a {unit}", flush=True)

    def instructions(self):
        if shutil.which("valgrind") is None:
            print("instructions: not counted, because valgrind is missing")
            return
        print("Instructions (callgrind)")
        more = (COUNTED[1] - COUNTED[0]) * COUNTED_COLUMNS
        listings = [self.written(inputs.write_listing, f"{lines}.link", lines, COUNTED_COLUMNS) for lines in COUNTED]
        self.each("make link", ["make", "link"], *listings, more)
        captures = [self.made(["make", "link"], listing, f"{listing}.tmc") for listing in listings]
        for words in READERS:
            self.each(" ".join(words[: 1 if words[0] in ("damage", "slip") else 3]), words, *captures, more)
        listings = [self.written(inputs.write_dvi, f"{lines}.dvi", lines, COUNTED_COLUMNS) for lines in COUNTED]
        self.each("make dvi", ["make", "dvi"], *listings, more)
        captures = [self.made(["make", "dvi"], listing, f"{listing}.tmc") for listing in listings]
        self.each("recover dvi", ["recover", "dvi"], *captures, more)
        listings = [self.written(inputs.write_content, f"{frames}.content", frames) for frames in (1, 2)]
        self.each("make content", ["make", "content"], *listings, FRAME_COLUMNS)
        captures = [self.made(["make", "content"], listing, f"{listing}.tmc") for listing in listings]
        self.each("recover content", ["recover", "content"], *captures, FRAME_COLUMNS)
        streams = [self.written(inputs.write_stream, f"{frames}.stream", frames) for frames in (192 * 50, 192 * 100)]
        self.each("read biphase", ["read", "biphase"], *streams, 16 * 192 * 50, "byte")
        self.islands()
        self.unaligned()

    def islands(self):
        """Counts the instructions for data islands without lines."""
        more = (COUNTED[1] - COUNTED[0]) * (12 + 8 + 2 + 32 * inputs.MOST_PACKETS + 2)
        listings = [self.written(inputs.write_islands, f"{islands}.islands", islands) for islands in COUNTED]
        self.each("make link: islands of 18 packets", ["make", "link"], *listings, more)
        captures = [self.made(["make", "link"], listing, f"{listing}.tmc") for listing in listings]
        for words in (["recover", "link"], ["check"], ["recover", "content"]):
            self.each(f"{' '.join(words)}: islands of 18 packets", words, *captures, more)

    def unaligned(self):
        """Counts the instructions for lanes that do not align, for control columns without lines, and for lanes that slip."""
        for name, words, build, sizes in (
            ("recover link: three lanes of noise", ["recover", "link"], inputs.noisy, (100_000, 600_000)),
            ("recover link: three lanes of one value", ["recover", "link"], inputs.one_value, (100_000, 600_000)),
            ("recover link: control beside two of noise", ["recover", "link"], inputs.one_lock, (100_000, 600_000)),
            ("recover link: control columns", ["recover", "link"], inputs.clean_control, (100_000, 600_000)),
            ("recover link: damaged control columns", ["recover", "link"], inputs.damaged_control, (100_000, 600_000)),
            ("recover track: a slip every 130 bits", ["recover", "track"], inputs.slipping, (20_000, 60_000)),
            ("recover relock: three lanes of noise", ["recover", "relock"], inputs.noisy, (100_000, 600_000)),
            ("recover relock: control beside two of noise", ["recover", "relock"], inputs.one_lock, (100_000, 600_000)),
            ("recover relock: control columns", ["recover", "relock"], inputs.clean_control, (100_000, 600_000)),
        ):
            paths = [self.path(f"{columns}.unaligned") for columns in sizes]
            for path, columns in zip(paths, sizes):
                with open(path, "wb") as out:
                    out.write(build(columns))
            self.each(name, words, *paths, sizes[1] - sizes[0])

    # ---- times

    def timed(self, name, words, source, target, columns, size=None):
        """Prints the best of three runs. If no size is given, it is the size of the output."""
        runs = [Measured([*(on(1) or []), *words], source, target) for _ in range(3)]
        best, peak = min(runs, key=lambda it: it.clock), max(it.peak for it in runs)
        size = size or os.path.getsize(target)
        rates = f"{size / best.clock / 1e6:7.0f} MB/s{columns / best.clock / 1e6:8.1f} M columns/s"
        print(f"  {name:<24}{best.clock:8.3f} s, {best.used:6.3f} s of a processor{rates}{peak:8.1f} MiB", flush=True)

    def times(self):
        columns, other = self.lines * COLUMNS, self.path("other")
        listing = self.written(inputs.write_listing, "large.link", self.lines, COLUMNS, True)
        capture = self.path("large.tmc")
        print(f"Times ({columns} columns, {self.lines} islands, {os.path.getsize(listing)} bytes; {told_load()})")
        self.timed("make link", [self.program, "make", "link", *TAP], listing, capture, columns)
        size = os.path.getsize(capture)
        for words in READERS:
            name = " ".join(words[: 1 if words[0] in ("damage", "slip") else 3])
            self.timed(name, [self.program, *words], capture, other, columns, size)
        for words in (["cat"], ["sha256sum"]):
            self.timed(words[0], words, capture, other, columns, size)
        listing = self.written(inputs.write_dvi, "large.dvi", self.lines, COLUMNS)
        self.timed("make dvi", [self.program, "make", "dvi", *TAP], listing, capture, columns)
        self.timed("recover dvi", [self.program, "recover", "dvi"], capture, other, columns, os.path.getsize(capture))
        columns = FRAMES * FRAME_COLUMNS
        listing = self.written(inputs.write_content, "frames.content", FRAMES)
        self.timed("make content", [self.program, "make", "content"], listing, capture, columns)
        self.timed("recover content", [self.program, "recover", "content"], capture, other, columns, os.path.getsize(capture))
        stream = self.written(inputs.write_stream, "large.stream", 192 * 8000)
        self.timed("read biphase (samples)", [self.program, "read", "biphase"], stream, other, 192 * 8000, os.path.getsize(stream))

    # ---- the clock

    def clock(self):
        if on(1) is None:
            print("clock: not measured, because taskset is missing")
            return
        listing = self.written(inputs.write_listing, "clock.link", 4000, COUNTED_COLUMNS)
        capture = self.made(["make", "link"], listing, "clock.tmc")
        print(f"Clock (check of {os.path.getsize(capture)} bytes; {told_load()})")
        for load in (0, 4, 16):
            busy = [subprocess.Popen([sys.executable, "-c", "while True: pass"]) for _ in range(load)]
            try:
                time.sleep(1)
                for count in (1, 2, 4):
                    self.on_processors(capture, load, count)
            finally:
                for process in busy:
                    process.kill()
                    process.wait()

    def on_processors(self, capture, load, count):
        if on(count) is None:
            return
        runs = [Measured([*on(count), self.program, "check"], capture, os.devnull) for _ in range(5)]
        clock, used = (statistics.median(getattr(it, name) for it in runs) for name in ("clock", "used"))
        places = "1 processor " if count == 1 else f"{count} processors"
        print(f"  beside {load:>2} programs, on {places}{clock:9.3f} s, {used:6.3f} s of processors", flush=True)

    # ---- memory

    def memory(self):
        """Prints the most memory that recover link uses for captures of three sizes. Each repeats whole blocks of one capture."""
        listing, long = self.written(inputs.write_listing, "long.link", 50, COUNTED_COLUMNS), self.path("long.tmc")
        with open(self.made(["make", "link"], listing, "part.tmc"), "rb") as given:
            part = given.read()
        blocks = part[8 : 8 + (len(part) - 8) // BLOCK * BLOCK]
        print("Memory (recover link)")
        for size in (1_000_000, 100_000_000, 1_000_000_000):
            copies = size // len(blocks)
            with open(long, "wb") as out:
                out.write(part[:4] + (copies * len(blocks) // 3 * 8).to_bytes(4, "big"))
                for _ in range(copies):
                    out.write(blocks)
            run = Measured([*(on(1) or []), self.program, "recover", "link"], long, os.devnull)  # a seam is no period
            print(f"  {size // 1_000_000:>5} MB{run.clock:9.3f} s{run.peak:8.1f} MiB", flush=True)


def told_load():
    """Says how busy the machine is."""
    with open("/proc/loadavg") as load:
        return f"{len(os.sched_getaffinity(0))} processors, load average {load.read().split()[0]}"


def main():
    parts = ("instructions", "times", "clock", "memory")
    reader = argparse.ArgumentParser(description=__doc__, formatter_class=argparse.RawDescriptionHelpFormatter)
    reader.add_argument("--program")
    reader.add_argument("--lines", type=int, default=4000)
    reader.add_argument("parts", nargs="*", metavar="PART", help=", ".join(parts))
    given = reader.parse_args()
    unknown = [part for part in given.parts if part not in parts]
    if unknown:
        reader.error(f"there is no part {unknown[0]}: the parts are {', '.join(parts)}")
    if given.program is None:  # builds the program if it is old
        subprocess.run([FRONT, "check"], stdin=subprocess.DEVNULL, stderr=subprocess.DEVNULL)
    program = os.path.abspath(given.program or PROGRAM)
    if not os.path.isfile(program):
        sys.exit(f"{program}: there is no such program. `./vabgrot` builds it, or --program names one.")
    with tempfile.TemporaryDirectory() as folder:
        bench = Bench(program, given.lines, folder)
        for part in given.parts or parts:
            getattr(bench, part)()


if __name__ == "__main__":
    main()
