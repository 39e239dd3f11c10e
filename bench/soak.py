#!/usr/bin/env python3
"""Watches a link for long that loses bits again and again, at the rate of a real one.

    bench/soak.py [--program PROGRAM] [--seconds S] [--every S] [--rate TIMES] [--errors PART]

PROGRAM (crates/hdmi_cli/out/hdmi_cli) makes four frames of 640 by 480 pixels with sound (25.2 million columns a second), which are sent
again and again as raw blocks to `tools/watch --raw --events FILE --frames FILE`: for S seconds (1,800), at the pixel clock times TIMES (1).
Once in every S seconds (60) a lane loses three bits, the lanes in turn. With PART, such a part of all bits is wrong.

It prints how many slips were made and how many the table of events has within a frame of where they were made, the memory of the tool
(RSS in KiB: after a tenth of the time, the least and the most after that, and at the end), its processor time as a part of the time, and by
how much the source was late at most, because the tool did not take its bits. Status 1: a slip is missing, or memory grew by more than
GROWS KiB from the first half to the second.
"""

import argparse
import csv
import os
import subprocess
import sys
import tempfile
import time
from fcntl import F_SETPIPE_SZ, fcntl
from pathlib import Path

import numpy as np

TOP = Path(__file__).resolve().parents[1]
sys.path.insert(0, str(TOP / "python"))
from vabgrot import capture, program  # noqa: E402
from vabgrot.capture import BLOCK  # noqa: E402
from vabgrot.place import PROGRAM  # noqa: E402

FRAME, FRAMES, CLOCK = 800 * 525, 4, 25_200_000  # columns; frames that repeat; columns a second
PERIOD = 10 * FRAME * FRAMES  # bits
LOST = 3  # bits of a slip
BLOCKS = 16  # of each lane that are written at a time
SLIPS = ("slip", "relock")
GROWS = 16 << 10  # what the room of a batch takes
SEED = 90


def lanes_of(made_by):
    """Returns the bits of the frames, a period of each lane."""
    words = [TOP / "tools" / "content", f"pattern:moving*{FRAMES}", "--vic", "1", "--sound", "tone:1000"]
    content = subprocess.run(words, capture_output=True, check=True).stdout
    made = subprocess.run([made_by, "make", "content"], input=content, capture_output=True, check=True).stdout
    lanes, _ = capture.lanes_of(made)
    return [np.unpackbits(np.frombuffer(lane, np.uint8), bitorder="little")[:PERIOD] for lane in lanes]


class Source:
    """Raw blocks of lanes that repeat, from any bit of each lane on."""

    def __init__(self, lanes, errors):
        size = PERIOD // 8
        shifted = [[np.packbits(np.roll(lane, -shift), bitorder="little") for shift in range(8)] for lane in lanes]
        self.lanes = [[np.resize(octets, size + BLOCKS * BLOCK) for octets in lane] for lane in shifted]
        self.at = [0] * len(lanes)  # the next bit of each lane
        self.sent = 0  # bits of each lane
        self.errors, self.noise = errors, np.random.default_rng(SEED)

    def slip(self, lane):
        """Lets a lane lose bits. Returns the bit of the lanes at which it does."""
        self.at[lane] += LOST
        return self.sent

    def blocks(self):
        """Returns the next blocks."""
        found = np.empty((BLOCKS, len(self.lanes), BLOCK), np.uint8)
        for number, lane in enumerate(self.lanes):
            octets, shift = divmod(self.at[number] % PERIOD, 8)
            found[:, number] = lane[shift][octets : octets + BLOCKS * BLOCK].reshape(BLOCKS, BLOCK)
            self.at[number] += 8 * BLOCKS * BLOCK
        self.sent += 8 * BLOCKS * BLOCK
        wrong = self.noise.integers(8 * found.size, size=self.noise.poisson(self.errors * 8 * found.size))
        np.bitwise_xor.at(found.reshape(-1), wrong // 8, (1 << wrong % 8).astype(np.uint8))
        return found.data


class Memory:
    """The memory of a process, once a second."""

    def __init__(self, process):
        self.process, self.sizes, self.next = process, [], 0.0

    def look(self):
        """Looks if a second is over."""
        if time.monotonic() >= self.next:
            self.next = time.monotonic() + 1
            with open(f"/proc/{self.process}/status") as file:
                self.sizes.append(next(int(line.split()[1]) for line in file if line.startswith("VmRSS:")))

    @property
    def grew(self):
        """By how much the least of the last quarter is more than the most of the second one."""
        quarter = max(1, len(self.sizes) // 4)
        return min(self.sizes[-quarter:]) - max(self.sizes[quarter : 2 * quarter] or self.sizes)

    def __str__(self):
        late = self.sizes[len(self.sizes) // 10 :]
        return f"memory {late[0]:,} KiB after a tenth, {min(late):,} to {max(late):,}, {late[-1]:,} at the end"


def send(source, out, memory, words):
    """Sends a link for some time. Returns the bits at which lanes slipped, and by how many seconds the source was late at most."""
    made, late, begin = [], 0.0, time.monotonic()
    pace = 10 * CLOCK * words.rate
    while (now := time.monotonic() - begin) < words.seconds:
        due = source.sent / pace
        if now < due:
            time.sleep(due - now)
        late = max(late, now - due)
        if due >= words.every * (len(made) + 1):
            made.append(source.slip(len(made) % 3))
        out.write(source.blocks())
        memory.look()
    return made, late


def found_of(path, made):
    """Returns how many of the slips that were made are in the table of events, and how many it has in all."""
    with open(path, newline="") as file:
        places = np.array([int(row["column"]) for row in csv.DictReader(file) if row["kind"] in SLIPS])
    near = [bool(((places >= at - 10 * FRAME) & (places <= at + 10 * FRAME)).any()) for at in made]
    return sum(near), len(places)


def watched(words, folder):
    """Runs the soak. Returns whether all is as it has to be."""
    events, said = folder / "events.csv", folder / "said"
    tool = [TOP / "tools" / "watch", "--raw", "--plain", "--events", events, "--frames", folder / "frames.csv"]
    source = Source(lanes_of(words.program), words.errors)
    with open(said, "w") as out:
        process = subprocess.Popen(tool, stdin=subprocess.PIPE, stdout=out, bufsize=0)
    fcntl(process.stdin.fileno(), F_SETPIPE_SZ, program.PIPE)
    memory = Memory(process.pid)
    made, late = send(source, process.stdin, memory, words)
    process.stdin.close()
    _, _, usage = os.wait4(process.pid, 0)
    found, rows = found_of(events, made)
    print(
        f"{words.seconds} s, {source.sent / 10 / words.seconds / 1e6:.1f} million columns a second: {len(made)} slips made, {found} found"
    )
    print(f"{rows} rows of slips and relocks; {len((folder / 'frames.csv').read_text().splitlines()) - 1:,} frames")
    print(memory, f"{memory.grew:+,} KiB from the second quarter to the last", sep="; ")
    print(f"processor {(usage.ru_utime + usage.ru_stime) / words.seconds:.2f} of the time; the source was at most {late:.3f} s late")
    print("\n".join(said.read_text().splitlines()[-20:]))
    return found == len(made) and memory.grew <= GROWS


def main():
    parser = argparse.ArgumentParser(description=__doc__, formatter_class=argparse.RawDescriptionHelpFormatter)
    parser.add_argument("--program", default=os.environ.get("VABGROT_PROGRAM", PROGRAM))
    parser.add_argument("--seconds", type=int, default=1800, metavar="S")
    parser.add_argument("--every", type=float, default=60, metavar="S")
    parser.add_argument("--rate", type=float, default=1, metavar="TIMES")
    parser.add_argument("--errors", type=float, default=0, metavar="PART")
    words = parser.parse_args()
    print(f"load {os.getloadavg()[0]:.2f}")
    with tempfile.TemporaryDirectory() as folder:
        sys.exit(0 if watched(words, Path(folder)) else 1)


if __name__ == "__main__":
    main()
