"""Link listings of rasters, for the tests of tools/timing: any porches, polarities, interlaced fields and AVI InfoFrames."""

from dataclasses import dataclass

HSYNC, VSYNC, BEFORE_LINE, BEFORE_ISLAND = 1, 2, 0x04, 0x14
PIXEL = "336699"


@dataclass
class Sent:
    """A raster: active, front porch, sync and back porch across and down (of a field where it is `interlaced`), whether HSYNC
    and VSYNC are positive; `halves`, whether each second field begins half a line later. `vic` and `repetition` go into an AVI
    InfoFrame a field, where `vic` is not None. `late` columns VSYNC is behind HSYNC. `more` lines are added to the front porch
    of one field, and `wider` columns to a line's: keys are the numbers of fields and of lines, counted from 0."""

    across: tuple
    down: tuple
    positive: tuple = (True, True)
    halves: bool = False
    vic: int = None
    repetition: int = 0
    late: int = 0
    more: dict = None
    wider: dict = None
    guards: int = 2  # columns before a row; 0 of DVI
    depth: int = None  # of colour, as a general control packet behind the InfoFrame says it

    def fields(self, count):
        """The first line of each field with its offset in half lines, the first of its rows, and the lines of all."""
        _, front, sync, back = self.down
        line, found = 0, []
        for number in range(count):
            half = self.halves and number % 2
            rows = line + half + sync + back
            found.append((line, half, rows))
            line = rows + self.down[0] + front + (self.more or {}).get(number, 0)
        return found, line

    def lines(self, count):
        """The lines of the listing of so many fields, as fields of text; the rest of VSYNC's last change follows at the end."""
        fields, total = self.fields(count)
        active, front, sync, back = self.across
        length = active + front + sync + back
        pulses = [(2 * line + half, rows) for line, half, rows in fields]
        spans = [(at * length // 2 + self.late, at * length // 2 + self.down[2] * length + self.late) for at, _ in pulses]
        with_rows = {rows + row for _, _, rows in fields for row in range(self.down[0])}
        islands = {line + half + 1 for line, half, _ in fields} if self.vic is not None else set()
        for line in range(total):
            begin, wide = line * length, length + (self.wider or {}).get(line, 0)
            changes = {at - begin for span in spans for at in span if begin < at < begin + wide}

            def level(column):
                vsync = any(first <= begin + column < last for first, last in spans)
                return HSYNC * ((column < sync) == self.positive[0]) + VSYNC * (vsync == self.positive[1])

            yield from self.line(line in with_rows, line in islands, wide, changes, level)
        behind = length // 2 * (self.halves and count % 2) + self.late
        yield from runs({0, sync}, behind, lambda column: HSYNC * ((column < sync) == self.positive[0]) + VSYNC * (not self.positive[1]))
        yield ("c", f"{HSYNC * ((behind < sync) == self.positive[0]) + VSYNC * self.positive[1]:02x}", "40")

    def line(self, has_row, has_island, wide, changes, level):
        active, _, sync, back = self.across
        row = (sync + back, sync + back + active)
        cuts = {0, sync, *changes}
        if has_row:
            yield from runs(cuts, row[0] - 8 - self.guards, level)
            yield ("c", f"{level(row[0] - 1) | BEFORE_LINE:02x}", "8")
            yield ("v", PIXEL * active)
            yield from runs({row[1], *changes}, wide, level, row[1])
        elif has_island:
            first = sync + 12
            yield from runs(cuts, first, level)
            yield ("c", f"{level(first) | BEFORE_ISLAND:02x}", "8")
            packets = [avi(self.vic, self.repetition)] + ([] if self.depth is None else [control(self.depth)])
            digits = "".join(str(level(first + 8 + column)) for column in range(4 + 32 * len(packets)))
            yield ("i", digits[:2])
            for number, packet in enumerate(packets):
                yield ("p", *packet, digits[2 + 32 * number :][:32])
            yield ("e", digits[-2:])
            behind = first + 8 + len(digits)
            yield from runs({behind, *changes}, wide, level, behind)
        else:
            yield from runs(cuts, wide, level)


def runs(cuts, stop, level, start=0):
    """The control columns from `start` to `stop`, a run for each value; none where there are no columns."""
    if stop <= start:
        return
    inside = sorted({start, *(cut for cut in cuts if start < cut < stop)})
    for first, last in zip(inside, [*inside[1:], stop]):
        yield ("c", f"{level(first):02x}", str(last - first))


def avi(vic, repetition):
    """Header and bodies of an AVI InfoFrame: version 2, 13 bytes, RGB."""
    data = [0, 0x10, 0x08, 0, vic, repetition] + [0] * 22
    data[0] = -(0x82 + 2 + 13 + sum(data)) % 256
    return ["82020d", *(bytes(data[at : at + 7]).hex() for at in range(0, 28, 7))]


def control(depth):
    """Header and bodies of a general control packet that says a depth of colour."""
    return ["030000", *[bytes((0, depth, 0, 0, 0, 0, 0)).hex()] * 4]


def text(lines):
    """A listing of these lines, as bytes."""
    return ("\n".join(map(" ".join, lines)) + "\nend\n").encode()
