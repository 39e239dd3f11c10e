"""Names characters as the standards do, and says what a column should contain."""

from __future__ import annotations

from typing import Any, NamedTuple

import numpy as np

from vabgrot.formats.characters import (
    CONTROL,
    ISLAND_GUARD,
    ISLAND_GUARDS_0,
    ISLAND_PREAMBLE,
    PACKET,
    TEN,
    TERC4,
    VIDEO_GUARD,
    VIDEO_PREAMBLE,
)
from vabgrot.judging.places import place_at, rows_of
from vabgrot.judging.spans import Spans
from vabgrot.lanes.coding import BYTES
from vabgrot.lanes.columns import Columns, Words
from vabgrot.lanes.looking import IS_CONTROL
from vabgrot.lanes.search import Explained

SIGNALS = (("HSYNC", "VSYNC"), ("CTL0", "CTL1"), ("CTL2", "CTL3"))  # D0 and D1 of a control character, by lanes
GAP = 4  # a guard band is searched for at most this many control columns after the preamble
MOST_KEPT = 64  # explanations of rows that are kept
NOT_KNOWN = "nothing is known of this column"


class Cell(NamedTuple):
    """A character: its lane, its ten bits as a number, its name, and what it should be in words ("" if it is right, or if nothing is
    known)."""

    lane: int
    word: int
    name: str
    wanted: str

    @property
    def bits(self) -> str:
        """The bits as text, q[9] first."""
        return f"{self.word:0{TEN}b}"


class Column(NamedTuple):
    """A column: its number, its kind in words, and its three characters."""

    column: int
    says: str
    cells: tuple[Cell, ...]

    def plain(self) -> dict[str, Any]:
        """Returns the same as a value for JSON."""
        cells = [{"lane": it.lane, "hex": f"{it.word:03x}", "bits": it.bits, "name": it.name, "wanted": it.wanted} for it in self.cells]
        return {"column": self.column, "says": self.says, "lanes": cells}


def control_name(lane: int, value: int) -> str:
    """Names a control character of a lane."""
    low, high = SIGNALS[lane]
    return f"control, {low} {value & 1}, {high} {value >> 1}"


def name_of(lane: int, word: int) -> str:
    """Returns all names that a character can have, independent of the characters around it."""
    names = []
    if word in CONTROL:
        names.append(control_name(lane, CONTROL.index(word)))
    if word == VIDEO_GUARD[lane]:
        names.append("guard of a row")
    if word == ISLAND_GUARD and lane:
        names.append("guard of an island")
    if word in TERC4:
        names.append(f"TERC4 {TERC4.index(word)}")
    if not names or word not in CONTROL:
        names.append(f"byte {int(BYTES[word]):02x}")
    return " or ".join(names)


def announced(columns: Columns, at: int) -> str:
    """Returns what the last preamble announces: "row" or "island". It may end up to GAP columns before this column. Returns "" if there
    is none."""
    words = columns.at(max(at - GAP - 1, 0), min(at, GAP + 1))
    for lanes in words.T[::-1]:
        if IS_CONTROL[lanes].sum() < 2:
            return ""
        kind = {VIDEO_PREAMBLE: "row", ISLAND_PREAMBLE: "island"}.get((int(lanes[1]), int(lanes[2])))
        if kind:
            return kind
    return ""


class Namer:
    """Names the columns of a capture."""

    def __init__(self, spans: Spans, columns: Columns) -> None:
        self.spans, self.columns = spans, columns
        (runs, counts, _), packets = spans.runs, spans.packets
        pairs = [(begins, np.full(len(begins), 2)) for begins in spans.guards]
        self.parts = [(runs, counts), *pairs, (packets, np.full(len(packets), PACKET)), spans.rows]
        self.told = spans.of_kind("mended")
        self.rows = rows_of(spans.rows[0])
        self.kept: dict[tuple[int, int], Explained] = {}

    def at(self, column: int, count: int) -> list[Column]:
        """Returns `count` columns, or fewer at the end of the capture."""
        words = self.columns.at(column, count)
        return [self.column(column + place, words[:, place]) for place in range(words.shape[1])]

    def column(self, column: int, words: Words) -> Column:
        """Names one column according to its surroundings."""
        named = (self.control, self.row_guard, self.island_guard, self.island_guard, self.packet, self.pixel)
        for (begins, lengths), name in zip(self.parts, named):
            at = int(np.searchsorted(begins, column, "right")) - 1
            if at >= 0 and column < int(begins[at] + lengths[at]):
                return name(column, words.astype(np.int64), at)
        return self.unknown(column, words.astype(np.int64))

    def made(self, column: int, says: str, words: Words, names: list[str], wanted: list[str]) -> Column:
        """Returns a column with these names."""
        return Column(column, says, tuple(Cell(lane, int(words[lane]), names[lane], wanted[lane]) for lane in range(3)))

    def control(self, column: int, words: Words, at: int) -> Column:
        """Names a control column. A character that is no control character should equal one of its neighbours."""
        names, wanted = [], []
        for lane, word in enumerate(words.tolist()):
            is_right = word in CONTROL
            names.append(control_name(lane, CONTROL.index(word)) if is_right else f"no control character; {name_of(lane, word)}")
            near = [int(it) for it in self.columns.words(lane, max(column - 1, 0), 3) if IS_CONTROL[it]]
            one = min(near or CONTROL, key=lambda other: (word ^ other).bit_count())
            wanted.append("" if is_right else f"{one:03x}, {control_name(lane, CONTROL.index(one))}")
        value, number = int(self.spans.runs[2][at]), column - int(self.spans.runs[0][at]) + 1
        says = f"control column {number:,} of a run of {int(self.spans.runs[1][at]):,}, value {value:02x}"
        return self.made(column, says, words, names, wanted)

    def row_guard(self, column: int, words: Words, at: int) -> Column:
        """Names a guard column before a row."""
        pairs = list(zip(words.tolist(), VIDEO_GUARD))
        wanted = ["" if word == guard else f"{guard:03x}, guard of a row" for word, guard in pairs]
        names = ["guard of a row" if not it else name_of(lane, int(words[lane])) for lane, it in enumerate(wanted)]
        return self.made(column, f"guard column {column - int(self.spans.guards[0][at]) + 1} before row {at:,}", words, names, wanted)

    def island_guard(self, column: int, words: Words, _: int) -> Column:
        """Names a guard column before or after an island."""
        names, wanted = [], []
        for lane, word in enumerate(words.tolist()):
            if lane:
                is_right, says = word == ISLAND_GUARD, f"{ISLAND_GUARD:03x}, guard of an island"
                name = "guard of an island"
            else:
                is_right, says = word in ISLAND_GUARDS_0, "TERC4 12 to 15, guard of an island"
                value = TERC4.index(word) & 3 if is_right else 0
                name = f"guard of an island, HSYNC {value & 1}, VSYNC {value >> 1}"
            names.append(name if is_right else name_of(lane, word))
            wanted.append("" if is_right else says)
        return self.made(column, "guard column of an island", words, names, wanted)

    def packet(self, column: int, words: Words, at: int) -> Column:
        """Names a column of a packet."""
        place = column - int(self.spans.packets[at])
        mended = {(lane, it): bit for lane, it, bit in self.mended(int(self.spans.packets[at]))}
        names, wanted = [], []
        for lane, word in enumerate(words.tolist()):
            if word not in TERC4:
                names.append(f"none of TERC4; {name_of(lane, word)}")
                wanted.append("a character of TERC4")
                continue
            value = TERC4.index(word)
            names.append(f"TERC4 {value}: {self.bits_in(lane, place, value)}")
            bit = mended.get((lane, place))
            wanted.append(f"{TERC4[value ^ bit]:03x}, TERC4 {value ^ bit}, by the parity" if bit else "")
        return self.made(column, f"column {place} of packet {at:,}", words, names, wanted)

    def mended(self, packet: int) -> list[tuple[int, int, int]]:
        """Returns the repaired bits of a packet: lane, column and bit of the nibble."""
        found = []
        for at, numbers in self.told:
            if at == packet:
                block, bit = numbers[1:3]
                found.append((0, bit, 4) if block == 4 else (1 + bit % 2, bit // 2, 1 << block))
        return found

    @staticmethod
    def bits_in(lane: int, place: int, value: int) -> str:
        """Says what the four bits of a packet's character carry."""
        if lane == 0:
            return f"HSYNC {value & 1}, VSYNC {value >> 1 & 1}, header bit {place} is {value >> 2 & 1}"
        return f"bit {2 * place + lane - 1} of bodies 0 to 3 is {', '.join(str(value >> body & 1) for body in range(4))}"

    def pixel(self, column: int, words: Words, at: int) -> Column:
        """Names a pixel. If the least damage of the row leaves only one possible character, that one is given as sent."""
        first = int(self.spans.rows[0][at])
        names, wanted = [], []
        for lane, word in enumerate(words.tolist()):
            row = self.explained(at, lane)
            fitting, disparity = row.fitting(column - first), row.disparity(column - first)
            is_right = word in fitting
            doubt = ", or damaged" if is_right and len(fitting) > 1 else ""
            names.append(f"byte {int(BYTES[word]):02x}{' at' if is_right else ', not at'} disparity {disparity:+d}{doubt}")
            wanted.append("" if is_right else wanted_code(fitting))
        where = place_at(column, *self.spans.rows, self.rows)
        says = f"pixel {column - first:,} of row {at:,}" + (f", {where} as frame:row:pixel" if where else "")
        return self.made(column, says, words, names, wanted)

    def explained(self, row: int, lane: int) -> Explained:
        """Returns the explanation of a row of a lane. The last MOST_KEPT are kept."""
        if (row, lane) not in self.kept:
            if len(self.kept) >= MOST_KEPT:
                self.kept.clear()
            firsts, widths = self.spans.rows
            self.kept[row, lane] = Explained(self.columns.words(lane, int(firsts[row]), int(widths[row])))
        return self.kept[row, lane]

    def unknown(self, column: int, words: Words) -> Column:
        """Names a column that no line of the listing describes."""
        names = [name_of(lane, word) for lane, word in enumerate(words.tolist())]
        wanted = ["", "", ""]
        if not column or IS_CONTROL[self.columns.at(column - 1, 1)[:, 0]].sum() < 2:
            return self.made(column, NOT_KNOWN, words, names, wanted)
        opens = announced(self.columns, column)
        guards: tuple[int | None, ...] = VIDEO_GUARD if opens == "row" else (None, ISLAND_GUARD, ISLAND_GUARD)
        for lane, guard in enumerate(guards if opens else ()):
            if guard is not None and words[lane] != guard:
                wanted[lane] = f"{guard:03x}, guard of {'a row' if opens == 'row' else 'an island'}"
        return self.made(column, "the first column behind a control period, and no guard band", words, names, wanted)


def wanted_code(fitting: list[int]) -> str:
    """Says what was sent in place of a damaged pixel; "" if that is not known."""
    if len(fitting) == 1:
        return f"{fitting[0]:03x}, byte {int(BYTES[fitting[0]]):02x}"
    return f"one of {len(fitting)} characters that fit"
