"""Links that are encrypted, as a receiver without keys sees them: pixels and packets are random, control periods and guard bands are
not, and control columns say that it is so (HDCP 1.4, section 2.7). Written without the package."""

import random

from tests.models.model import capture_of, coded, sent_bits
from tests.models.tables import CONTROL, ISLAND_GUARD, TERC4, VIDEO_GUARD

HSYNC, VSYNC, PREAMBLE, ISLAND = 1, 2, 0x04, 0x14
MARKS = {"EESS": (0b1001, 512, 16), "OESS": (0b1000, 128, 8)}  # CTL3 to CTL0, columns behind the edge of VSYNC, and how many


def control(value):
    """The characters of a control column."""
    return tuple(CONTROL[value >> 2 * lane & 3] for lane in range(3))


class Link:
    """The columns of some fields. `mark` is the signalling or None; `islands` says whether there are guards and islands; `ctl` are bits
    that each control column has besides, as of a wire that is tied."""

    def __init__(self, mark, fields=3, islands=True, ctl=0, seed=1):
        self.mark, self.fields, self.islands, self.ctl = mark, fields, islands, ctl
        self.dice = random.Random(seed)
        self.across, self.down = (96, 16, 32, 96), (20, 2, 4, 6)  # active, front porch, sync, back porch

    def columns(self):
        """All columns, the sync pulses positive."""
        active, front, sync, back = self.across
        for number in range(self.fields * sum(self.down)):
            line = number % sum(self.down)
            since = line * sum(self.across)
            is_vsync = line < self.down[2]
            columns = [control(self.value(at < sync, is_vsync, since + at)) for at in range(sum(self.across))]
            has_row = self.down[2] + self.down[3] <= line < sum(self.down) - self.down[1]
            if has_row:
                first = sync + back
                columns[first:] = [*self.row(active), *columns[first + active :]]
                self.open(columns, first, PREAMBLE, VIDEO_GUARD if self.islands else ())
            if self.islands and line in (0, 9, 12):
                self.island(columns, 40, VSYNC * is_vsync)
            yield from columns

    def value(self, is_hsync, is_vsync, since):
        """The value of a control column so many columns behind the edge of VSYNC."""
        value = HSYNC * is_hsync | VSYNC * is_vsync | self.ctl << 2
        if self.mark:
            bits, first, count = MARKS[self.mark]
            value |= bits << 2 if first <= since < first + count else 0
        return value

    def open(self, columns, first, value, guard):
        """Puts a preamble and a guard band before a column."""
        if guard:
            syncs = columns[first - 1][0]
            columns[first - 2 : first] = [guard] * 2
            for at in range(first - 10, first - 2):
                columns[at] = (syncs, *control(value)[1:])

    def row(self, count):
        """Pixels that are random, rightly coded."""
        lanes = []
        for _ in range(3):
            disparity, words = 0, []
            for _ in range(count):
                words.append(coded(self.dice.randrange(256), disparity))
                disparity += 2 * words[-1].bit_count() - 10
            lanes.append(words)
        return zip(*lanes)

    def island(self, columns, first, syncs):
        """Puts an island of one packet at a column, its nibbles random except for the syncs."""
        guard = (TERC4[12 | syncs], ISLAND_GUARD, ISLAND_GUARD)
        self.open(columns, first, ISLAND, guard)
        for at in range(first, first + 32):
            low = self.dice.randrange(4) << 2
            columns[at] = (TERC4[low | syncs], TERC4[self.dice.randrange(16)], TERC4[self.dice.randrange(16)])
        columns[first + 32 : first + 34] = [guard] * 2

    def capture(self, rate=0.0, seed=1):
        """The capture of version 1, each bit wrong at a rate."""
        lanes = [sent_bits(words) for words in zip(*self.columns())]
        return capture_of(1, [hurt(bits, rate, seed + lane) for lane, bits in enumerate(lanes)])


def hurt(bits, rate, seed):
    """A text of bits, each wrong at a rate."""
    if not rate:
        return bits
    dice = random.Random(seed)
    return "".join("10"[int(bit)] if dice.random() < rate else bit for bit in bits)
