"""Measures how much of the damage of coded rows a receiver can see.

A wrong bit is visible only if its character, or a later one of the row, contradicts the coding. How often that happens depends on the
picture. So known damage is planted into rows like those that were sent, and counted in the same way as the real damage."""

from __future__ import annotations

from typing import NamedTuple

import numpy as np
import numpy.typing as npt

from vabgrot.formats.characters import TEN
from vabgrot.lanes.coding import BALANCE, BITS, COUNT
from vabgrot.lanes.search import BYTE, PLACES, SENT_AT, START, Ints, encoded, machine, seen, steps_of

Floats = npt.NDArray[np.float64]
IS_SENT = np.array([np.isin(np.arange(COUNT), codes) for codes in SENT_AT])  # the characters that are sent at each disparity
ALIKE = 3  # a picture is flat at a byte if this many of the four nearest bytes are equal


def smoothed(octets: Ints) -> Ints:
    """Removes single different bytes from flat parts of rows. Invisible damage makes such bytes. They would hide that the picture is
    flat."""
    near = [np.roll(octets, turn, axis=0) for turn in (2, 1, -1, -2)]
    found = octets.copy()
    for one in near[:2]:
        is_flat = sum((one == other).astype(np.int8) for other in near) >= ALIKE
        is_flat[:2] = is_flat[-2:] = False
        found[is_flat] = one[is_flat]
    return found


def likely(columns: Ints) -> Ints:
    """Returns rows like those that were sent: the bytes of a least explanation, smoothed and encoded."""
    sent = steps_of(columns, machine("bits").path(columns)).sent
    return encoded(smoothed(smoothed(BYTE[sent])))


def at_once_and_later() -> tuple[Ints, Ints, Ints]:
    """For each disparity and sent character, counts the wrong bits by their effect: contradict the coding at once; raise the disparity by
    2; lower it by 2."""
    at_once, up, down = (np.zeros((PLACES, COUNT), np.int64) for _ in range(3))
    words = np.arange(COUNT)
    for state in range(PLACES):
        for bit in range(TEN):
            other = words ^ 1 << bit
            after = state + BALANCE[other] // 2
            is_hidden = IS_SENT[state, other] & (after >= 0) & (after < PLACES)
            at_once[state] += ~is_hidden
            up[state] += is_hidden & (other > words)
            down[state] += is_hidden & (other < words)
    return at_once, up, down


VISIBLE = at_once_and_later()


def shares_of(sent: Ints) -> Floats:
    """Returns for each sent row the share of its single wrong bits that a receiver can see."""
    turns = np.cumsum(BALANCE[sent] // 2, axis=0)
    states = START + np.concatenate([np.zeros((1, sent.shape[1]), np.int64), turns[:-1]])
    at_once, up, down = (table[states, sent] for table in VISIBLE)
    total = at_once.sum(axis=0).astype(np.float64)
    for hidden, turn in ((up, 1), (down, -1)):
        other = states + turn
        is_out = (other < 0) | (other >= PLACES)
        contradicts = is_out | ~IS_SENT[np.clip(other, 0, PLACES - 1), sent]
        later = np.logical_or.accumulate(contradicts[::-1], axis=0)[::-1]
        total += (hidden[:-1] * later[1:]).sum(axis=0)
    return np.asarray(total / (TEN * sent.shape[0]))


def flipped(columns: Ints, rate: float, random: np.random.Generator) -> Ints:
    """Inverts each bit with the probability `rate`."""
    at = random.choice(TEN * columns.size, random.binomial(TEN * columns.size, rate), replace=False, shuffle=False)
    masks = np.zeros(columns.size, columns.dtype)
    np.bitwise_or.at(masks, at // TEN, (1 << at % TEN).astype(columns.dtype))
    return np.asarray(columns ^ masks.reshape(columns.shape))


def replaced(columns: Ints, rate: float, random: np.random.Generator) -> Ints:
    """Replaces each character by ten random bits with the probability `rate`."""
    at = random.choice(columns.size, random.binomial(columns.size, rate), replace=False, shuffle=False)
    made = columns.copy().ravel()
    made[at] = random.integers(0, COUNT, len(at))
    return made.reshape(columns.shape)


class Planted(NamedTuple):
    """The result of planted damage: the mean of both counts for a row, their covariance between rows, the visible shares of wrong bits
    and of damaged characters, and the variance of these shares divided by their square."""

    mean: Floats
    spread: Floats
    shares: tuple[float, float]
    doubts: tuple[float, float]

    @property
    def share(self) -> float:
        """The visible share of the planted wrong bits."""
        return self.shares[0]


class Planter:
    """Plants damage into `count` rows, and counts how much of it is visible."""

    def __init__(self, clean: Ints, count: int, random: np.random.Generator) -> None:
        chosen = random.permutation(clean.shape[1])[:count]
        self.rows, self.random = np.tile(clean[:, chosen], (1, max(1, count // len(chosen)))), random

    def damaged(self, bits: float, characters: float) -> Ints:
        """Returns rows with single wrong bits and replaced characters at these rates."""
        rows = flipped(self.rows, bits, self.random) if bits else self.rows
        return replaced(rows, characters, self.random) if characters else rows

    def seen(self, bits: float, characters: float) -> Planted:
        """Plants damage at these rates and counts what is visible."""
        rows = self.damaged(bits, characters)
        found = np.stack(seen(rows)).astype(np.float64)
        unlike = rows ^ self.rows
        shares, doubts = [], []
        for counts, planted in zip(found, (BITS[unlike].sum(axis=0), (unlike > 0).sum(axis=0))):
            total = max(float(planted.sum()), 1.0)
            shares.append(max(float(counts.sum()) / total, 1e-9))
            doubts.append(float(((counts - shares[-1] * planted) ** 2).sum()) / (shares[-1] * total) ** 2)
        return Planted(found.mean(axis=1), np.cov(found), (shares[0], shares[1]), (doubts[0], doubts[1]))
