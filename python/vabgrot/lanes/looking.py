"""Examines the lanes of a capture: control characters, how control periods end, and the bit order, order and polarity of the lanes."""

from collections.abc import Sequence
from itertools import permutations, product
from typing import NamedTuple

import numpy as np
import numpy.typing as npt

from vabgrot.formats.characters import (
    ALL,
    CONTROL,
    ISLAND_GUARDS_0,
    ISLAND_PREAMBLE,
    LEAST_CONTROL,
    MOST_SKEW,
    PREAMBLE,
    TEN,
    VIDEO_GUARD,
    VIDEO_PREAMBLE,
)

Bits = npt.NDArray[np.uint8]  # of a lane, each 0 or 1
Words = npt.NDArray[np.uint16]  # characters
Mask = npt.NDArray[np.bool_]

GUARD, OTHER, _ = VIDEO_GUARD  # the two guard characters; islands use the second one on lanes 1 and 2
PART = 1 << 22
MOST_ENDS = 20_000
IS_CONTROL = np.isin(np.arange(1024), CONTROL)
IS_TURNED_CONTROL = np.isin(np.arange(1024), [int(f"{word:010b}"[::-1], 2) for word in CONTROL])


class Ends(NamedTuple):
    """The ends of control periods with at least twelve characters: their places, the preamble's character (0 if its eight are not equal),
    and the guard's character (0 if its two are not equal)."""

    lock: int
    places: npt.NDArray[np.int64]
    preambles: Words
    guards: Words


def words_at_all(bits: Bits) -> Words:
    """Returns the ten bits from each place on, the first one lowest."""
    words = np.zeros(max(len(bits) - TEN + 1, 0), np.uint16)
    for place in range(TEN):
        words |= bits[place : place + len(words)].astype(np.uint16) << np.uint16(place)
    return words


def lock_of(bits: Bits, is_control: Mask = IS_CONTROL) -> int | None:
    """Returns the first place with twelve control characters in a row, or None."""
    for first in range(0, len(bits), PART):
        control = is_control[words_at_all(bits[first : first + PART + TEN * LEAST_CONTROL])]
        size = len(control) - TEN * (LEAST_CONTROL - 1)
        if size <= 0:
            return None
        found = np.logical_and.reduce([control[TEN * step : TEN * step + size] for step in range(LEAST_CONTROL)])
        if found.any():
            return first + int(found.argmax())
    return None


def characters_of(bits: Bits, start: int) -> Words:
    """Returns the characters from a place on."""
    count = (len(bits) - start) // TEN
    rows = bits[start : start + TEN * count].reshape(count, TEN)
    return rows.astype(np.uint16) @ (1 << np.arange(TEN)).astype(np.uint16)


def ends_of(bits: Bits) -> Ends | None:
    """Returns the ends of a lane's control periods, or None if it has none."""
    lock = lock_of(bits)
    if lock is None:
        return None
    words = characters_of(bits, lock)
    control = IS_CONTROL[words]
    others = np.flatnonzero(~control)
    lengths = np.diff(others, prepend=-1) - 1
    at = others[(lengths >= LEAST_CONTROL) & (others < len(words) - 1)][:MOST_ENDS]
    like = np.logical_and.reduce([words[at - back] == words[at - 1] for back in range(2, PREAMBLE + 1)])
    guards = np.where(words[at] == words[at + 1], words[at], 0)
    return Ends(lock, lock + TEN * at, np.where(like, words[at - 1], 0), guards)


class Turn(NamedTuple):
    """A bit order: from bit `start` on, each group of `unit` bits is reversed."""

    unit: int
    start: int

    def of(self, bits: Bits) -> Bits:
        """Returns the bits with each complete group reversed. An incomplete group at the end is dropped."""
        end = self.start + (len(bits) - self.start) // self.unit * self.unit
        turned = bits[self.start : end].reshape(-1, self.unit)[:, ::-1].reshape(-1)
        return np.concatenate([bits[: self.start], turned]) if self.start else turned

    def __str__(self) -> str:
        if self == AS_IT_IS:
            return "as it is"
        unit = {BYTES.unit: "byte", TEN: "ten"}[self.unit]
        return f"with each {unit}{f' from bit {self.start} on' if self.start else ''} turned round"


AS_IT_IS, BYTES = Turn(1, 0), Turn(8, 0)


def turns_of(bits: Bits) -> list[Turn]:
    """Returns the bit orders to try. Groups of ten begin at bit 0, as in a dump of words, or at the phase at which the lane has reversed
    control characters."""
    place = lock_of(bits, IS_TURNED_CONTROL)
    return [*dict.fromkeys([AS_IT_IS, BYTES, Turn(TEN, 0), Turn(TEN, (place or 0) % TEN)])]


def score(ends: Ends | None) -> int:
    """Counts the control periods that end in a guard character."""
    return int(np.isin(ends.guards, (GUARD, OTHER, *ISLAND_GUARDS_0)).sum()) if ends else -1


def looked(bits: Bits) -> tuple[Turn, Ends] | None:
    """Returns the bit order with the most guards, and the ends it gives. The first of equally good ones is used. Returns None if no order
    has an end."""
    turn, ends = max(((turn, ends_of(turn.of(bits))) for turn in turns_of(bits)), key=lambda pair: score(pair[1]))
    return (turn, ends) if ends else None


def openings(found: Sequence[Ends]) -> Words:
    """Returns the preambles and guards of the three lanes, at each end that all three have within 70 bits. Shape: lanes, ends, 2."""
    first = found[0].places
    rows = [np.stack([found[0].preambles, found[0].guards], axis=1)]
    near = np.ones(len(first), bool)
    for ends in found[1:]:
        if not len(ends.places):
            return np.zeros((3, 0, 2), np.uint16)
        at = np.clip(np.searchsorted(ends.places, first), 1, max(len(ends.places) - 1, 1))
        at = np.minimum(at, len(ends.places) - 1)
        before = np.maximum(at - 1, 0)
        at = np.where(np.abs(ends.places[before] - first) <= np.abs(ends.places[at] - first), before, at)
        near &= np.abs(ends.places[at] - first) <= MOST_SKEW
        rows.append(np.stack([ends.preambles[at], ends.guards[at]], axis=1))
    both: Words = np.stack(rows)[:, near]
    return both


def right_openings(rows: Words) -> int:
    """Counts the openings of a line or an island in rows of preambles and guards of lanes 0, 1 and 2 (HDMI 1.4, section 5.2.1.1)."""
    (_, guard_0), (preamble_1, guard_1), (preamble_2, guard_2) = (lane.T for lane in rows)

    def are(preambles: tuple[int, int]) -> Mask:
        announced: Mask = (preamble_1 == preambles[0]) & (preamble_2 == preambles[1]) & (guard_1 == OTHER)
        return announced

    line = are(VIDEO_PREAMBLE) & (guard_2 == GUARD) & (guard_0 == GUARD)
    island = are(ISLAND_PREAMBLE) & (guard_2 == OTHER) & np.isin(guard_0, ISLAND_GUARDS_0)
    return int((line | island).sum())


class Fit(NamedTuple):
    """The number of valid openings if lane `order[c]` is used as lane c, after the lanes in `inverts` are inverted."""

    right: int
    order: tuple[int, ...]
    inverts: tuple[int, ...]


def fit_of(rows: Words) -> tuple[Fit, int]:
    """Returns the order and polarity with the most valid openings (the smallest change, if several are equally good), and how many others
    are as good."""
    fits: list[Fit] = []
    for order, signs in product(permutations(range(3)), product((0, 1), repeat=3)):
        turned = np.stack([np.where(rows[lane] > 0, rows[lane] ^ (ALL * sign), 0) for lane, sign in enumerate(signs)])
        inverts = tuple(lane for lane in range(3) if signs[lane])
        fits.append(Fit(right_openings(turned[list(order)]), order, inverts))
    best = max(fits, key=lambda fit: (fit.right, -len(fit.inverts) - 2 * (fit.order != (0, 1, 2))))
    return best, sum(fit.right == best.right for fit in fits) - 1
