"""Matches the frames of two captures by their content, and finds the offset between their samples."""

from __future__ import annotations

from typing import NamedTuple

import numpy as np
import numpy.typing as npt

from vabgrot.compared.carried import Carried, Still
from vabgrot.events import Ints

APART = 0.3  # the cost of a frame without a partner
UNLIKE = 40.0  # if the mean difference of two small pictures is at least this, the frames have nothing in common
SLIGHT = 1e-4  # the cost of frames that are not equal, but whose small pictures are
WINDOW, TRIED = 48, 32  # samples of a search pattern, and how many patterns are tried


class Pair(NamedTuple):
    """The numbers of two frames to compare. None means that the other frame has no partner."""

    mine: int | None
    other: int | None


def cost_of(one: Still, other: Still) -> float:
    """Returns how different two frames are, from 0 to 1."""
    if (one.width, one.height) != (other.width, other.height):
        return 1.0
    if one.crc == other.crc:
        return 0.0
    return min(1.0, SLIGHT + float(np.abs(one.small - other.small).mean()) / UNLIKE)


def pairs_of(mine: Carried, other: Carried) -> list[Pair]:
    """Returns the frames to compare: in order, each once. If `other` contains reference pictures, each frame gets the most similar
    picture."""
    if other.is_reference:
        found = []
        for number, one in enumerate(mine.frames):
            costs = [cost_of(one, still) for still in other.frames]
            found.append(Pair(number, int(np.argmin(costs)) if costs else None))
        return found
    return aligned(np.array([[cost_of(one, still) for still in other.frames] for one in mine.frames]).reshape(len(mine.frames), -1))


def aligned(costs: npt.NDArray[np.float64]) -> list[Pair]:
    """Returns the cheapest order of pairs and single frames."""
    rows, columns = costs.shape
    total = np.zeros((rows + 1, columns + 1))
    total[:, 0], total[0, :] = APART * np.arange(rows + 1), APART * np.arange(columns + 1)
    for row in range(1, rows + 1):
        for column in range(1, columns + 1):
            both = total[row - 1, column - 1] + costs[row - 1, column - 1]
            total[row, column] = min(both, total[row - 1, column] + APART, total[row, column - 1] + APART)
    found, row, column = [], rows, columns
    while row or column:
        if row and column and np.isclose(total[row, column], total[row - 1, column - 1] + costs[row - 1, column - 1]):
            row, column = row - 1, column - 1
            found.append(Pair(row, column))
        elif row and np.isclose(total[row, column], total[row - 1, column] + APART):
            row -= 1
            found.append(Pair(row, None))
        else:
            column -= 1
            found.append(Pair(None, column))
    return found[::-1]


def alone(pairs: list[Pair]) -> list[Pair]:
    """Returns the single frames that count as a difference. Frames that one side has before the other begins, or after it ends, do not
    count."""
    matched = [number for number, pair in enumerate(pairs) if None not in pair]
    if not matched:
        return pairs
    ends = [pairs[: matched[0]], pairs[matched[-1] + 1 :]]
    found = [pair for pair in pairs[matched[0] : matched[-1]] if None in pair]
    return found + [pair for end in ends if {pair.mine is None for pair in end} == {True, False} for pair in end]


def offset_of(mine: Ints, other: Ints) -> int | None:
    """Returns by how many samples the contents of `mine` are later in `other`, or None if they are not found there."""
    votes: dict[int, int] = {}
    order = np.argsort(other, kind="stable")
    ordered = other[order]
    for start in np.linspace(0, max(len(mine) - WINDOW, 0), TRIED).astype(int).tolist():
        pattern = mine[start : start + WINDOW]
        first = int(np.searchsorted(ordered, pattern[0], "left"))
        last = int(np.searchsorted(ordered, pattern[0], "right"))
        for at in order[first : min(last, first + 2048)].tolist():
            if len(other) - at >= len(pattern) and (other[at : at + len(pattern)] == pattern).mean() > 0.5:
                votes[at - start] = votes.get(at - start, 0) + 1
    return max(votes, key=lambda offset: (votes[offset], -abs(offset))) if votes else None
