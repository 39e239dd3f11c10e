#!/usr/bin/env python3
"""Checks a link in a test bench, clock by clock, and stops at the first fault.

    bench.py BLUE GREEN RED

Each file has the characters of one lane as hexadecimal numbers, one per clock. `tools/lanes unpack --words 10` writes such files. In a
cocotb bench, give a Link the characters of the core's lanes:

    async def watch(dut):
        with Link() as link:
            while dut.sending.value:
                await RisingEdge(dut.clock)
                link.tick(int(dut.blue.value), int(dut.green.value), int(dut.red.value))
            link.finish()

Exit status: 0; 1 if there was a fault or the lanes never aligned; 2 for wrong arguments.
"""

from __future__ import annotations

import sys
from collections.abc import Iterable, Sequence

from vabgrot import Event, Receiver

TEN = 10  # bits of a character


class LinkFault(AssertionError):
    """The first fault of a link in words, with its column and its lane."""


class Link:
    """Takes one ten-bit character of each lane per clock, and collects what they carry in `events`. Bit 0 of a character is sent first. It
    feeds the receiver every `clocks` clocks. That is a multiple of four, so that the bits are whole bytes."""

    def __init__(self, clocks: int = 320) -> None:
        self.receiver, self.clocks, self.count = Receiver(), clocks, 0
        self.words: tuple[list[int], ...] = ([], [], [])
        self.events: list[Event] = []

    def __enter__(self) -> Link:
        return self

    def __exit__(self, *_: object) -> None:
        self.receiver.close()

    def tick(self, blue: int, green: int, red: int) -> None:
        """Takes the characters of one clock. Raises LinkFault at the first fault among the characters so far."""
        for words, word in zip(self.words, (blue, green, red)):
            words.append(word)
        self.count += 1
        if self.count % self.clocks == 0:
            self.feed()

    def feed(self) -> None:
        """Feeds the receiver the characters that it has not seen yet."""
        count = TEN * len(self.words[0])
        blue, green, red = (bytes_of(words) for words in self.words)
        self.words = ([], [], [])
        self.hear(self.receiver.feed(blue, green, red, bits=[count] * 3))

    def hear(self, events: Iterable[Event]) -> None:
        """Collects events up to the first fault, and raises LinkFault there."""
        for event in events:
            if event.is_fault:
                raise LinkFault(f"{event} (of {self.count} clocks)")
            self.events.append(event)

    def finish(self) -> int:
        """Ends the lanes and returns the number of columns. Raises LinkFault if the lanes never aligned."""
        self.feed()
        rest, end = self.receiver.finish()
        self.hear(rest)
        if not end.aligned:
            raise LinkFault(f"the lanes were not aligned in {self.count} clocks")
        return end.columns


def bytes_of(words: Sequence[int]) -> bytes:
    """The bytes of characters, which follow one another bit by bit."""
    bits = sum(word << TEN * at for at, word in enumerate(words))
    return bits.to_bytes((TEN * len(words) + 7) // 8, "little")


def main(paths: Sequence[str]) -> int:
    if len(paths) != 3:
        print("usage: bench.py BLUE GREEN RED", file=sys.stderr)
        return 2
    lanes = []
    for path in paths:
        with open(path) as file:
            lanes.append([int(word, 16) for word in file.read().split()])
    with Link() as link:
        try:
            for words in zip(*lanes):
                link.tick(*words)
            print(f"{link.finish()} columns without a fault")
        except LinkFault as why:
            print(why)
            return 1
    return 0


if __name__ == "__main__":
    sys.exit(main(sys.argv[1:]))
