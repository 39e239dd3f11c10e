"""Estimates the true rate of wrong bits of coded rows, with confidence limits, from the least damage that explains the rows."""

from __future__ import annotations

import math
from collections.abc import Iterable
from enum import StrEnum
from typing import NamedTuple

import numpy as np
from scipy import stats

from vabgrot.formats.characters import TEN
from vabgrot.lanes.coding import COUNT
from vabgrot.lanes.search import Ints, machine, seen, steps_of
from vabgrot.lanes.visible import Floats, Planted, Planter, flipped, likely, shares_of

LEAST_SHARE = 0.5  # the least share of planted damage that must be visible
LEAST_VISIBLE = 0.9  # a row is measured if at least this share of single wrong bits is visible in it
MOST_RATE = 0.02  # the highest rate of wrong bits that is estimated
LEAST_PLANTED = 400  # the least number of wrong bits to plant, in total
MOST_PLANTED, PLANTED = 2048, 1 << 21  # rows that get planted damage each time, and about how many characters they have
CLOSE = 4  # damaged characters within this many pixels are a burst
BITS_OF_NOISE = 5.0  # the mean number of wrong bits in a character replaced by random bits


class Kind(StrEnum):
    """What was damaged. In bursts less of the damage is visible, so the numbers are too low."""

    NOTHING = "nothing"
    SINGLE = "single bits"
    WHOLE = "whole characters"
    BURSTS = "bursts"


class Part(NamedTuple):
    """A number of wrong bits with its variance, and the number of characters. `unit` is the number of true wrong bits for each visible
    one. It gives the limit if none is visible."""

    bits: float
    variance: float
    unit: float
    characters: float

    def times(self, factor: float) -> Part:
        """Returns the part for `factor` times as many characters."""
        return Part(self.bits * factor, self.variance * factor**2, self.unit * factor, self.characters * factor)


class Limits(NamedTuple):
    """A rate of wrong bits and its confidence limits."""

    rate: float
    lower: float
    upper: float


class Estimate(NamedTuple):
    """An estimate for the rows in which damage is visible.

    - `seen`: wrong bits and damaged characters of the least explanations.
    - `share`: the visible share of planted damage of the same kind and rate.
    - `damaged`: the number of damaged characters.
    - `why`: why the numbers are lower limits, "" if they are not."""

    kind: Kind
    seen: tuple[int, int]
    share: float
    part: Part
    damaged: float
    why: str = ""


NOTHING = Estimate(Kind.NOTHING, (0, 0), 0.0, Part(0.0, 0.0, 1.0, 0.0), 0.0, "in no row most damage would show")


def limits_of(parts: Iterable[Part], confidence: float) -> Limits:
    """Returns the rate over independent parts. Its sum is treated as a Poisson count with the same relative error."""
    found = [part for part in parts if part.characters]
    half, size = (1 - confidence) / 2, TEN * sum(part.characters for part in found)
    bits, variance = sum(part.bits for part in found), sum(part.variance for part in found)
    if not size:
        return Limits(0.0, 0.0, 1.0)
    if not bits:
        unit = sum(part.unit * part.characters for part in found) * TEN / size
        return Limits(0.0, 0.0, min(-math.log(half) * unit / size, 1.0))
    count = bits**2 / variance
    lower, upper = float(stats.gamma.ppf(half, count)), float(stats.gamma.ppf(1 - half, count + 1))
    return Limits(bits / size, bits * lower / count / size, min(bits * upper / count / size, 1.0))


class Counts:
    """The least damage of rows, in both units. Each row represents `weights` rows."""

    def __init__(self, columns: Ints, weights: Floats) -> None:
        self.width, self.weights = columns.shape[0], weights
        self.found = np.stack(seen(columns)).astype(np.float64)
        self.count = float(weights.sum())
        self.total: Floats = self.found @ weights
        self.mean = self.total / self.count

    @property
    def size(self) -> float:
        """The number of characters in all rows."""
        return self.width * self.count

    @property
    def spread(self) -> Floats:
        """The covariance of both counts between rows."""
        apart = self.found - self.mean[:, None]
        return np.asarray((apart * self.weights) @ apart.T / max(self.count - 1, 1))


def estimate(columns: Ints, weights: Floats | None = None, seed: int = 1) -> Estimate:
    """Estimates the true damage of rows of one width. The first axis is the pixel. Some rows must be clean. `weights` says how many rows
    each one represents."""
    random = np.random.default_rng(seed)
    clean = likely(columns)
    is_measured = shares_of(clean) >= LEAST_VISIBLE
    weights = (np.ones(columns.shape[1]) if weights is None else weights)[is_measured]
    columns, clean = columns[:, is_measured], clean[:, is_measured]
    if columns.shape[1] < 2:
        return NOTHING
    rows = min(MOST_PLANTED, max(MOST_PLANTED // 8, PLANTED // columns.shape[0]))
    counts, planter = Counts(columns, weights), Planter(clean, rows, random)
    rate, planted = rate_of(counts, planter, random)
    # Can single bits explain the number of characters with wrong bits? `short` is the number of characters that are missing.
    ratio = planted.mean[1] / planted.mean[0] if planted.mean[0] else 1.0
    short = ratio * counts.total[0] - counts.total[1]
    turn = np.array([ratio, -1.0])
    noise = math.sqrt(max(float(turn @ planted.spread @ turn) / max(planted.mean[0], 1e-9) * counts.total[0], 0.0))
    if short < 5 * noise + 3:
        return of_singles(counts, rate, planted, planter)
    return of_wholes(columns, counts, planter)


def rate_of(counts: Counts, planter: Planter, random: np.random.Generator) -> tuple[float, Planted]:
    """Returns the rate of single wrong bits that makes as many visible ones as were seen. The visible share falls slowly with the rate,
    so repeated division converges."""
    least = LEAST_PLANTED / (TEN * planter.rows.size)
    planted, seen_rate = planter.seen(least, 0.0), counts.mean[0] / (TEN * counts.width)
    for _ in range(4 if counts.total[0] else 0):
        planted = planter.seen(min(max(seen_rate / planted.share, least), 0.2), 0.0)
    rate = float(seen_rate / planted.share)
    if rate > 1e-3:  # less damage is visible in a least explanation than in what was sent: about as much less as in its own explanation
        rate *= 1 - loss_of(planter, min(rate, 0.2), planted.share, random)
    return rate, planted


def loss_of(planter: Planter, rate: float, share: float, random: np.random.Generator) -> float:
    """Returns how much less is visible of damage planted into explanations of planted rows, compared with the rows themselves."""
    other = Planter(likely(flipped(planter.rows, rate, random)), planter.rows.shape[1], random)
    return 1 - float(np.mean([other.seen(rate, 0.0).share for _ in range(2)])) / share


def dispersion(counts: Counts, planted: Planted) -> float:
    """Returns the variance of the count divided by its mean: the one of planted damage, or the one of the rows if their damage is
    clustered."""
    mine = counts.spread[0, 0] / counts.mean[0] if counts.mean[0] else 1.0
    usual = planted.spread[0, 0] / planted.mean[0] if planted.mean[0] else 1.0
    is_clustered = mine > usual * (1 + 4 * math.sqrt(2 / counts.count))
    return float(max(mine if is_clustered else usual, 1.0))


def of_singles(counts: Counts, rate: float, planted: Planted, planter: Planter) -> Estimate:
    """Returns the estimate for single wrong bits. The slope of the count over the rate converts its variance to that of the rate."""
    spread = dispersion(counts, planted) + counts.total[0] * planted.doubts[0]
    slope = planted.share
    if rate > 1e-3:
        slope = (1.5 * planter.seen(1.5 * rate, 0.0).share - planted.share) / 0.5
    why = too_little(planted.share) or too_much(rate if slope >= LEAST_SHARE else 1.0)
    slope = max(slope, 0.1)
    bits = rate * TEN * counts.size
    part = Part(bits, float(spread * counts.total[0]) / slope**2, spread / slope, counts.size)
    damaged = (1 - (1 - min(rate, 1.0)) ** TEN) * counts.size
    return Estimate(Kind.SINGLE, whole(counts.total), planted.share, part, damaged, why)


def whole(total: Floats) -> tuple[int, int]:
    """Returns both counts as integers."""
    return round(total[0]), round(total[1])


def too_little(share: float) -> str:
    """Says why there is no upper limit if less than half of the damage is visible."""
    return f"of such damage {share:.0%} shows in these pictures" if share < LEAST_SHARE else ""


def too_much(rate: float) -> str:
    """Says why there is no upper limit at a high rate."""
    return f"over {MOST_RATE:.0e} wrong bits hide each other" if rate > MOST_RATE else ""


def close_of(columns: Ints) -> tuple[int, int]:
    """Returns the number of damaged characters in a least explanation, and how many of them follow another one within CLOSE pixels."""
    wrong = steps_of(columns, machine("characters").path(columns)).wrong
    rows, pixels = np.nonzero((wrong > 0).T)
    return len(rows), int(((np.diff(rows) == 0) & (np.diff(pixels) <= CLOSE)).sum())


def is_in_bursts(columns: Ints, planted: Ints) -> bool:
    """Returns whether damage is closer together than evenly planted damage."""
    (count, close), (planted_count, planted_close) = close_of(columns), close_of(planted)
    share = planted_close / max(planted_count, 1)
    return bool(close > share * count + 4 * math.sqrt(share * count * (1 + count / max(planted_count, 1))) + 2)


def rates_of(counts: Counts, planter: Planter) -> tuple[Floats, Floats]:
    """Returns the rates of single bits and of replaced characters that explain both counts, by Newton's method, and the slopes there."""
    rates, slopes = np.array([0.0, float(counts.mean[1]) / counts.width]), np.zeros((2, 2))
    for _ in range(3):
        here = planter.seen(*rates).mean
        steps = np.array([max(0.3 * rates[0], 2e-4), max(0.3 * rates[1], 2e-3)])
        for one in range(2):
            more = rates.copy()
            more[one] += steps[one]
            slopes[:, one] = (planter.seen(*more).mean - here) / steps[one]
        rates = np.maximum(rates + np.linalg.solve(slopes, counts.mean - here), 0.0)
        if not rates[1]:
            rates = np.array([0.0, float(counts.mean[1]) / counts.width])
    return rates, slopes


def of_wholes(columns: Ints, counts: Counts, planter: Planter) -> Estimate:
    """Returns the estimate for replaced characters, perhaps with single wrong bits: two counts, two unknown rates."""
    rates, slopes = rates_of(counts, planter)
    spread, back = counts.spread / counts.count, np.linalg.inv(slopes)
    errors = back @ (spread * (1 + counts.count / planter.rows.shape[1])) @ back.T
    if rates[0] < 2 * math.sqrt(errors[0, 0]):  # so few single bits cannot be distinguished from none
        rates = np.array([0.0, float(counts.mean[1]) / counts.width])
        planted = planter.seen(*rates)
        rates[1] = counts.mean[1] / (counts.width * planted.shares[1] * (1 - 1 / COUNT))
        spread[1, 1] += planted.doubts[1] * counts.mean[1] ** 2
        back = np.array([[0.0, 0.0], [0.0, 1 / (counts.width * planted.shares[1])]])
        errors = back @ spread @ back.T
    of_bits, of_characters = np.array([float(TEN), BITS_OF_NOISE]), np.array([float(TEN), 1 - 1 / COUNT])
    bits, damaged = (float(one @ rates) * counts.size for one in (of_bits, of_characters))
    share = float(counts.total[1] / max(damaged, 1e-9))
    part = Part(bits, float(of_bits @ errors @ of_bits) * counts.size**2, 1.0, counts.size)
    kind = Kind.BURSTS if is_in_bursts(columns, planter.damaged(*rates)) else Kind.WHOLE
    why = "bursts hide a part of themselves" if kind == Kind.BURSTS else ""
    why = why or too_little(share) or too_much(bits / (TEN * counts.size))
    return Estimate(kind, whole(counts.total), share, part, damaged, why)
