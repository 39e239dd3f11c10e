"""Finds out what a lane without control periods carries, and what to do about it: stuck, the clock, several samples a bit, scrambled,
another code, or noise."""

from __future__ import annotations

from enum import StrEnum
from typing import NamedTuple

import numpy as np
import numpy.typing as npt

from vabgrot.formats.characters import CONTROL, TEN, TERC4, VIDEO_GUARD
from vabgrot.lanes.coding import CODES
from vabgrot.lanes.looking import IS_CONTROL, Bits, words_at_all

Ints = npt.NDArray[np.int64]
LOOKED = 1 << 20  # bits of a lane that are examined
LEAST = 2_000  # the least number of bits to decide
ONE_ROW = 10 * (4096 + 500)  # a source without scrambling has a control period within this many bits
NEARLY = 0.99  # the share of a count that is enough, because some bits may be damaged
COPIES = (10, 8, 6, 5, 4, 3, 2)  # numbers of samples a bit to try
SINGLE = 0.002  # a lane with several samples a bit has at most this share of runs of one bit
IS_SENT = np.isin(np.arange(1 << TEN), [*CODES.ravel(), *CONTROL, *TERC4, *VIDEO_GUARD])  # all characters that a source can send
LEAST_SENT, APART = 0.75, 0.15  # the least share of valid characters at the right phase, and its least distance from most other phases
LONGEST_RUN, WINDOW, MOST_SUM = 5, 240, 8  # limits of 8b/10b: bits of a run, bits of a window, and the imbalance within the window


class Kind(StrEnum):
    """The kinds of lanes that do not lock."""

    SHORT = "short"
    STUCK = "stuck"
    CLOCK = "clock"
    COPIED = "several samples a bit"
    SCRAMBLED = "scrambled"
    OTHER_CODE = "8b/10b"
    NOISE = "noise"


class LaneKind(NamedTuple):
    """The kind of a lane, the reason, and what to do."""

    kind: Kind
    says: str
    remedy: str

    def __str__(self) -> str:
        return f"{self.says}. {self.remedy}."


def kind_of(bits: Bits) -> LaneKind:
    """Returns the kind of a lane that has no twelve control characters in a row. It examines the first bits."""
    bits = bits[:LOOKED]
    for told in (stuck, short, clock, copied, other_code, scrambled):
        found = told(bits)
        if found:
            return found
    share = float(np.diff(bits.astype(np.int8)).astype(bool).mean())
    says = f"noise or another code: no structure of ten bits, a transition at {share:.0%} of the bits"
    return LaneKind(Kind.NOISE, says, "Sample in the middle of the bits, and check the probe and its ground")


def runs_of(bits: Bits) -> Ints:
    """The lengths of the whole runs of equal bits."""
    return np.asarray(np.diff(np.flatnonzero(np.diff(bits))))


def stuck(bits: Bits) -> LaneKind | None:
    """Detects a lane that never or hardly ever changes."""
    if not len(bits):
        return LaneKind(Kind.SHORT, "empty: it has no bits", "Record this lane, too")
    ones = float(bits.mean())
    if min(ones, 1 - ones) > 1e-3:
        return None
    says = f"stuck: always {round(ones)}" if ones in (0.0, 1.0) else f"stuck: {max(ones, 1 - ones):.2%} of its bits are {round(ones)}"
    return LaneKind(Kind.STUCK, says, "Check the probe, the cable and the threshold of this lane")


def short(bits: Bits) -> LaneKind | None:
    """Detects a lane with too few bits to decide."""
    if len(bits) >= LEAST:
        return None
    return LaneKind(Kind.SHORT, f"too short to tell: {len(bits):,} bits", "Capture at least one row of pixels, better a frame")


def clock(bits: Bits) -> LaneKind | None:
    """Detects the TMDS clock: five ones and five zeros, repeated."""
    runs = runs_of(bits)
    if not len(runs) or (bits[:-TEN] == bits[TEN:]).mean() < NEARLY or (runs == TEN // 2).mean() < 0.9:
        return None
    return LaneKind(Kind.CLOCK, "the TMDS clock: five ones and five zeros in turn", "Record the data lane in its place")


def copied(bits: Bits) -> LaneKind | None:
    """Detects a lane with several samples of each bit."""
    runs = runs_of(bits)
    if len(runs) < 100 or (runs == 1).mean() > SINGLE:
        return None
    for copies in COPIES:
        if (runs % copies == 0).mean() > 0.95:
            says = f"several samples a bit: {copies}"
            return LaneKind(Kind.COPIED, says, f"Keep one sample in {copies}, or give the samples to `tools/slice`")
    least = float(np.percentile(runs, 5))
    about = float(runs[runs <= 1.5 * least + 0.5].mean())
    return LaneKind(Kind.COPIED, f"several samples a bit: about {about:.1f}", "Give the samples to `tools/slice`, which finds the bits")


def other_code(bits: Bits) -> LaneKind | None:
    """Detects 8b/10b: no run is longer than five bits, and ones and zeros are always balanced."""
    runs = runs_of(bits)
    if (runs <= LONGEST_RUN).mean() < 1 - 1e-3:
        return None
    count = len(bits) // WINDOW
    sums = np.cumsum(2 * bits[: count * WINDOW].astype(np.int64).reshape(count, WINDOW) - 1, axis=1)
    if ((sums.max(axis=1) - sums.min(axis=1)) <= MOST_SUM).mean() < 0.9:
        return None
    says = "8b/10b: no more than five equal bits in a row, as DisplayPort sends"
    return LaneKind(Kind.OTHER_CODE, says, "Record an HDMI or DVI output; an adapter of another kind may be in the path")


def scrambled(bits: Bits) -> LaneKind | None:
    """Detects TMDS characters at one phase without a control period of twelve (HDMI 2.0, section 6.1.2)."""
    words = words_at_all(bits)
    shares = [float(IS_SENT[words[phase::TEN]].mean()) for phase in range(TEN)]
    best = int(np.argmax(shares))
    if shares[best] < LEAST_SENT or shares[best] - sorted(shares)[TEN // 2] < APART:
        return None
    others = np.flatnonzero(~IS_CONTROL[words[best::TEN]])
    longest = int(np.diff(others).max()) - 1 if len(others) > 1 else 0
    if len(bits) < ONE_ROW:
        says = f"too short to tell: {len(bits):,} bits of TMDS characters without a control period"
        return LaneKind(Kind.SHORT, says, "Capture at least one row of pixels, better a frame")
    says = f"scrambled (HDMI 2.0): TMDS characters from bit {best} on, and at most {longest} control characters in a row"
    return LaneKind(Kind.SCRAMBLED, says, "Choose a mode of at most 340 MHz; a scrambled link cannot be read")
