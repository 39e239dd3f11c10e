"""A model of what lies between a sender and a scope's samples, for the tests of tools/slice."""

from dataclasses import dataclass

import numpy as np


@dataclass
class Channel:
    """Samples a bit; how far the rate is off and how far it drifts; peak-to-peak jitter in unit intervals, random (of a
    normal distribution, taken as 14 times its deviation) and periodic; the bandwidth in parts of the bit rate; noise,
    offset and swing of the level; the delay of each lane in bits."""

    samples: float = 8.3
    off: float = 0.0
    drift: float = 0.0
    random: float = 0.0
    periodic: float = 0.0
    every: float = 97.3  # bits a turn of the periodic jitter
    bandwidth: float = 0.0
    noise: float = 0.0
    offset: float = 0.0
    swing: float = 1.0
    skew: tuple = (0.0, 0.0, 0.0)
    seed: int = 1

    HEAD = 10  # the bits of a lane without skew that went by before the first sample

    def times(self, bits):
        """When each bit begins, and the last one ends, in samples, but for jitter."""
        turn = np.arange(bits + 1) / bits
        return self.samples * (1 + self.off) * bits * (turn + self.drift * (1 - np.cos(2 * np.pi * turn)) / (2 * np.pi))

    def lane(self, bits, skew, count, noise):
        """The level of a lane at so many samples, and the number of the first bit whose middle they have."""
        begins = self.times(len(bits))
        start = self.samples * (1 + self.off) * (self.HEAD - skew)
        unit = np.diff(begins, append=2 * begins[-1] - begins[-2])
        turns = np.arange(len(begins)) / self.every
        jitter = self.periodic / 2 * np.sin(2 * np.pi * turns) + self.random / 14 * noise.standard_normal(len(begins))
        edges = begins + unit * jitter - start
        moments = np.arange(count, dtype=float)
        at = np.clip(np.searchsorted(edges, moments, "right") - 1, 0, len(bits) - 1)
        levels = bits.astype(float)
        if self.bandwidth:
            levels = self.settling(levels, edges, moments, at)
        else:
            levels = levels[at]
        levels = self.offset + self.swing * (levels - 0.5) + self.noise * self.swing * noise.standard_normal(count)
        return levels, int(np.argmax((begins[:-1] + begins[1:]) / 2 >= start))

    def settling(self, levels, edges, moments, at):
        """One pole: from where a bit begins its level comes up to the bit's as e^-t."""
        slow = self.samples / (2 * np.pi * self.bandwidth)
        left = np.exp(-np.diff(edges) / slow)
        stood, now = np.empty(len(levels)), levels[0]
        for place, (level, part) in enumerate(zip(levels.tolist(), left.tolist())):
            stood[place] = now
            now = level + (now - level) * part
        return levels[at] + (stood[at] - levels[at]) * np.exp(-(moments - edges[at]) / slow)

    def waves(self, lanes):
        """Samples by lanes, and the first bit of each lane that they have."""
        noise = np.random.default_rng(self.seed)
        shortest = min(len(lane) for lane in lanes)
        count = int(self.times(shortest)[-1] - (self.HEAD + 1) * self.samples * 1.01)
        sides = [self.lane(lane, skew, count, noise) for lane, skew in zip(lanes, self.skew)]
        return np.column_stack([levels for levels, _ in sides]), [first for _, first in sides]

    def clock(self, bits, count):
        """The clock of the lanes: ten bits a cycle, its own jitter left out."""
        edges = self.times(bits)[::5] - self.samples * (1 + self.off) * self.HEAD
        return np.searchsorted(edges, np.arange(count, dtype=float), "right") % 2 * 1.0
