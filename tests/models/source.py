"""A conforming HDMI source as link listings, for the tests of tools/conform: progressive rasters with InfoFrames, clock
regeneration and samples that come evenly, and what can be wrong with them. Bytes and numbers are written out from HDMI 1.4, CTA-861
and IEC 60958; nothing of the package is used."""

from dataclasses import dataclass, field

HSYNC, VSYNC = 1, 2
VIDEO, ISLAND = 0x04, 0x14  # the bits of preambles
N = {32000: 4096, 44100: 6272, 48000: 6144, 88200: 12544, 96000: 12288, 176400: 25088, 192000: 24576}
CODES = {32000: 3, 44100: 0, 48000: 2, 88200: 8, 96000: 10, 176400: 12, 192000: 14}


def infoframe(kind, version, data, error=0):
    """The header and the bytes of an InfoFrame; `error` is added to its checksum."""
    head = (kind, version, len(data))
    return bytes(head), bytes([(error - sum(head) - sum(data)) % 256, *data]).ljust(28, b"\0")


@dataclass
class Source:
    """Active, front porch, sync and back porch across and down; whether the sync pulses are positive; the pixel clock in Hz; the
    VIC of the AVI InfoFrame; the rate of the sound, 0 for none. The others are what may be wrong: see the tests."""

    across: tuple = (640, 16, 96, 48)
    down: tuple = (480, 10, 2, 33)
    positive: bool = False
    clock: int = 25_175_000
    vic: int = 1
    rate: int = 48000
    fields: int = 3
    pixel: str = "336699"
    has_avi: bool = True
    has_audio: bool = True
    avi_every: int = 1
    n: int = 0
    cts: int = 0
    speed: float = 1.0  # of the samples
    block: int = 192
    status_rate: int = 0
    parity: int = 0
    audio: tuple = (1, 0, 0, 0, 0)  # PB1 to PB5 of the audio InfoFrame
    avi_error: int = 0
    reserved: int = 0
    aspect: int = 0  # M of the AVI InfoFrame
    holes: bool = False  # whether two samples of a packet are in its first and third body
    control: list = field(default_factory=list)  # (line of the field, bytes of the body)
    least: int = 32  # control columns before a row at most where none is extended

    def packets_of(self, number, line):
        """The packets of a line of a field: InfoFrames early, samples on each line."""
        found = []
        if line == 1 and self.has_avi and number % self.avi_every == 0:
            found.append(infoframe(0x82, 2, [0x10 | self.reserved, 8 | self.aspect << 4, 0, self.vic, 0] + [0] * 8, self.avi_error))
        if line == 2 and self.rate and self.has_audio:
            found.append(infoframe(0x84, 1, [*self.audio, 0, 0, 0, 0, 0]))
        if line % 40 == 3 and self.rate:
            found.append(self.regeneration())
        found += [(b"\3\0\0", bytes(body).ljust(7, b"\0") * 4) for at, body in self.control if at == line]
        return found + (self.samples(number, line) if self.rate and not found else [])

    def regeneration(self):
        n = self.n or N[self.rate]
        cts = self.cts or round(self.clock * N[self.rate] / (128 * self.rate))
        return b"\1\0\0", (b"\0" + cts.to_bytes(3, "big") + n.to_bytes(3, "big")) * 4

    def samples(self, number, line):
        """As many packets as the samples need that are due up to this line."""
        total = sum(self.across)
        passed = (number * sum(self.down) + line + 1) * total
        due = int(passed * self.rate * self.speed / self.clock)
        found = []
        while self.sent < due:
            count = min(4, due - self.sent)
            bodies = [self.sample(self.sent + place) for place in range(count)]
            places = (0, 2) if self.holes and count == 2 else range(count)
            starts = sum(1 << 4 + place for at, place in enumerate(places) if (self.sent + at) % self.block == 0)
            each = dict(zip(places, bodies))
            data = b"".join(each.get(place, bytes(7)) for place in range(4))
            found.append((bytes([2, sum(1 << place for place in places), starts]), data))
            self.sent += count
        return found

    def sample(self, k):
        sides = []
        for channel in (1, 2):
            value = (k * 4099 + channel) & 0xFFFFFF
            status = 4 | channel << 20 | CODES[self.status_rate or self.rate] << 24 | 0b1011 << 32
            bit = status >> k % self.block & 1
            odd = (value.bit_count() + bit + self.parity) % 2
            sides.append((value.to_bytes(3, "little"), 4 * bit + 8 * odd))
        return sides[0][0] + sides[1][0] + bytes([sides[0][1] | sides[1][1] << 4])

    def lines(self):
        """The lines of the listing, as fields of text."""
        self.sent = 0
        _, front, sync, back = self.down
        for number in range(self.fields):
            for line in range(sum(self.down)):
                has_row = sync + back <= line < sync + back + self.down[0]
                yield from self.line(self.packets_of(number, line), has_row, line < sync)
        yield ("c", f"{self.value(True, True):02x}", "40")

    def value(self, is_hsync, is_vsync):
        return HSYNC * (is_hsync == self.positive) + VSYNC * (is_vsync == self.positive)

    def line(self, packets, has_row, is_vsync):
        active, front, sync, back = self.across

        def level(column):
            return self.value(column < sync, is_vsync)

        at = 0
        if packets:
            yield from runs(level, 0, 4, 0, sync)
            yield from runs(level, 4, 12, ISLAND, sync)
            length = 4 + 32 * len(packets)
            digits = "".join(str(level(12 + column)) for column in range(length))
            yield ("i", digits[:2])
            for place, (head, body) in enumerate(packets):
                parts = [body[start : start + 7].hex() for start in range(0, 28, 7)]
                yield ("p", head.hex(), *parts, digits[2 + 32 * place :][:32])
            yield ("e", digits[-2:])
            at = 12 + length
        if has_row:
            row = sync + back
            assert row - 10 - at >= 4, "no room for a control period before the row"
            yield from runs(level, at, row - 10, 0, sync)
            yield from runs(level, row - 10, row - 2, VIDEO, sync)
            yield ("v", self.pixel * active)
            at = row + active
        yield from runs(level, at, sum(self.across), 0, sync)


def runs(level, first, last, preamble, sync):
    """The control columns from `first` to before `last`, a run for each value."""
    cuts = [first, *(cut for cut in (sync,) if first < cut < last), last]
    for one, other in zip(cuts, cuts[1:]):
        if other > one:
            yield ("c", f"{level(one) | preamble:02x}", str(other - one))


def text(lines):
    """A listing of these lines, as bytes."""
    return ("\n".join(map(" ".join, lines)) + "\nend\n").encode()
