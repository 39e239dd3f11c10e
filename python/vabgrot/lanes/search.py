"""Finds the least damage that explains rows of characters, by a search over the disparities of the video encoder (DVI 1.0, section
3.2.2).

The encoder has nine disparities. For each pair of disparities before and after a character, a table has the least damage that turns a
valid character into the received one. The least damage of a row is a shortest path.

At each character, the nine costs minus the smallest one have few different values. So the search is an automaton: one look-up for each
character. Many rows are searched at once: the first axis of an array of characters is the pixel."""

from __future__ import annotations

import functools
from typing import Any, Literal, NamedTuple

import numpy as np
import numpy.typing as npt

from vabgrot.formats.characters import TEN
from vabgrot.lanes.coding import BALANCE, BITS, CODES, COUNT

Ints = npt.NDArray[Any]
Unit = Literal["bits", "characters"]
STATES = np.arange(-8, 9, 2)  # the disparities of the encoder
PLACES = len(STATES)
START = int(np.flatnonzero(STATES == 0)[0])  # the place of disparity 0, with which each row begins
NONE = 1000  # the cost of an impossible step
SENT_AT = CODES[np.sign(STATES) + 1]  # the characters of all bytes at each disparity
BYTE = np.zeros(COUNT, np.int64)  # the byte of each character that can be sent
for _codes in SENT_AT:
    BYTE[_codes] = np.arange(256)


def tables() -> tuple[Ints, Ints, Ints]:
    """Returns tables by received character and by the places of the disparities before and after it: the fewest wrong bits, the sent
    character with these, and how many bytes need as few. The first is NONE if no byte connects the two disparities."""
    wrong = np.full((COUNT, PLACES, PLACES), NONE, np.int16)
    sent, ways = np.zeros((COUNT, PLACES, PLACES), np.int16), np.zeros((COUNT, PLACES, PLACES), np.int16)
    for before, codes in enumerate(SENT_AT):
        behind = before + BALANCE[codes] // 2
        unlike = BITS[np.arange(COUNT)[:, None] ^ codes]
        for after in range(PLACES):
            at = np.flatnonzero(behind == after)
            if len(at):
                part = unlike[:, at]
                wrong[:, before, after] = part.min(axis=1)
                sent[:, before, after] = codes[at[part.argmin(axis=1)]]
                ways[:, before, after] = (part == part.min(axis=1, keepdims=True)).sum(axis=1)
    return wrong, sent, ways


WRONG, SENT, WAYS = tables()


class Machine:
    """The search as an automaton. A state is the costs of the nine disparities minus the smallest one. For each state and character,
    `next` is the next state, `added` the added cost, and `came` the best previous disparity of each disparity."""

    def __init__(self, cost: Ints, first: Ints) -> None:
        known, costs = {first.tobytes(): 0}, [first]
        following: list[Ints] = []
        added: list[Ints] = []
        came: list[Ints] = []
        while len(following) < len(costs):
            steps = costs[len(following)][None, :, None] + cost
            best = steps.argmin(axis=1)
            new = np.take_along_axis(steps, best[:, None], axis=1)[:, 0]
            least = new.min(axis=1)
            rest, place = np.unique(np.where(new >= NONE, NONE, new - least[:, None]).astype(np.int16), axis=0, return_inverse=True)
            numbers = []
            for one in rest:
                number = known.setdefault(one.tobytes(), len(costs))
                if number == len(costs):
                    costs.append(one)
                numbers.append(number)
            following.append(np.array(numbers)[place.ravel()])
            added.append(least)
            came.append(best)
        self.costs = np.array(costs)
        self.next = np.array(following, np.int32).ravel()
        self.added = np.array(added, np.int32).ravel()
        self.came = np.array(came, np.int8).ravel()

    def run(self, columns: Ints) -> npt.NDArray[np.int64]:
        """Returns the least damage of each row."""
        cost, here = np.zeros(columns.shape[1], np.int64), np.zeros(columns.shape[1], np.int32)
        for words in columns:
            key = (here << TEN) + words
            cost += self.added[key]
            here = self.next[key]
        return cost

    def costs_along(self, words: Ints) -> Ints:
        """Returns the costs of the disparities before each character of one row and after the last, minus the smallest of each place."""
        states, here = np.zeros(len(words) + 1, np.int32), 0
        for at, word in enumerate(words.tolist()):
            states[at + 1] = here = int(self.next[(here << TEN) + word])
        found: Ints = self.costs[states]
        return found

    def path(self, columns: Ints) -> npt.NDArray[np.int8]:
        """Returns the disparities of a least explanation of each row, as places in STATES: one more than pixels."""
        width, count = columns.shape
        keys, here = np.zeros((width, count), np.int32), np.zeros(count, np.int32)
        for at, words in enumerate(columns):
            keys[at] = (here << TEN) + words
            here = self.next[keys[at]]
        found = np.zeros((width + 1, count), np.int8)
        found[width] = state = self.costs[here].argmin(axis=1)
        for at in range(width - 1, -1, -1):
            found[at] = state = self.came[keys[at].astype(np.int64) * PLACES + state]
        return found


@functools.cache
def cost_of(unit: Unit) -> Ints:
    """Returns the table of costs in this unit: wrong bits, or damaged characters."""
    return WRONG if unit == "bits" else np.where(WRONG >= NONE, NONE, np.minimum(WRONG, 1)).astype(np.int16)


@functools.cache
def machine(unit: Unit) -> Machine:
    """Returns the automaton that counts wrong bits, or damaged characters, from the start of a row."""
    first = np.full(PLACES, NONE, np.int16)
    first[START] = 0
    return Machine(cost_of(unit), first)


def costs_behind(words: Ints, unit: Unit) -> Ints:
    """Returns the costs of the rest of a row, by the disparity at each character and after the last. A row can end at any disparity."""
    found = np.zeros((len(words) + 1, PLACES), np.int64)
    cost = cost_of(unit).astype(np.int64)
    for at in range(len(words) - 1, -1, -1):
        found[at] = (cost[words[at]] + found[at + 1]).min(axis=1)
    return found


class Steps(NamedTuple):
    """What a path says about each character: its wrong bits, what was sent, and how many other characters are possible too."""

    wrong: Ints
    sent: Ints
    ways: Ints


def steps_of(columns: Ints, path: Ints) -> Steps:
    """Returns what paths say about rows of characters."""
    before, after = path[:-1].astype(np.int64), path[1:].astype(np.int64)
    keys = columns, before, after
    return Steps(WRONG[keys], SENT[keys].astype(np.int64), WAYS[keys])


class Seen(NamedTuple):
    """The least damage of each row, in wrong bits and in damaged characters."""

    bits: npt.NDArray[np.int64]
    characters: npt.NDArray[np.int64]


def seen(columns: Ints) -> Seen:
    """Returns the least damage of each row, in both units."""
    return Seen(machine("bits").run(columns), machine("characters").run(columns))


def encoded(octets: Ints) -> npt.NDArray[np.int64]:
    """Encodes rows of bytes."""
    made, state = np.zeros(octets.shape, np.int64), np.full(octets.shape[1], START)
    for at, row in enumerate(octets):
        made[at] = SENT_AT[state, row]
        state += BALANCE[made[at]] // 2
    return made


class Damage(NamedTuple):
    """The damaged characters of rows: the row, the pixel, and the least number of wrong bits."""

    rows: npt.NDArray[np.int64]
    pixels: npt.NDArray[np.int64]
    bits: npt.NDArray[np.int64]


MANY = 1.5  # with more wrong bits a character than this, whole characters are damaged


def damage_of(rows: npt.NDArray[np.uint16]) -> Damage:
    """Returns the least damage of rows of one length. The first axis is the row. It is the explanation with the fewest wrong bits. If
    these are in many more characters than necessary, it is the one with the fewest characters."""
    columns = rows.T.astype(np.int64)
    bits, characters = (int(counts.sum()) for counts in seen(columns))
    path = machine("characters" if bits > MANY * characters else "bits").path(columns)
    wrong = steps_of(columns, path).wrong.T
    row, pixel = np.nonzero(wrong)
    return Damage(row, pixel, wrong[row, pixel].astype(np.int64))


AFTER = np.arange(PLACES)[:, None] + BALANCE[SENT_AT] // 2  # the place of the disparity after each byte, by disparity


class Explained:
    """What the least explanations of one row say about its characters."""

    def __init__(self, words: npt.NDArray[np.uint16]) -> None:
        self.words = words.astype(np.int64)
        bits, characters = (int(counts[0]) for counts in seen(self.words[:, None]))
        self.is_damaged = bits > 0
        self.unit: Unit = "characters" if bits > MANY * characters else "bits"
        self.ahead = machine(self.unit).costs_along(self.words).astype(np.int64)
        self.behind = costs_behind(self.words, self.unit)

    def disparity(self, pixel: int) -> int:
        """Returns the disparity before a pixel. If several fit, it is one of them."""
        return int(STATES[int((self.ahead[pixel] + self.behind[pixel]).argmin())])

    def fitting(self, pixel: int) -> list[int]:
        """Returns the characters that may have been sent: one or more. The received one is among them if it may be right."""
        unlike = BITS[SENT_AT ^ self.words[pixel]]
        costs = self.ahead[pixel][:, None] + (unlike if self.unit == "bits" else unlike > 0)
        costs = costs + self.behind[pixel + 1][np.clip(AFTER, 0, PLACES - 1)]
        return [int(word) for word in np.unique(SENT_AT[costs == costs.min()])]
