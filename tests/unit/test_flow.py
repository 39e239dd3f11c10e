"""vabgrot.flow: parts of records, frames and packets of parts, and the clock; by records
made here, without the C library."""

import itertools
from fractions import Fraction

import numpy as np
import pytest

from vabgrot.events import RECORD, Kind, of_records
from vabgrot.flow import forms, islands
from vabgrot.flow.ahead import Ahead
from vabgrot.flow.frames import Frame, Framer, Stretch
from vabgrot.flow.pace import BY_GUESS, BY_SOUND, Pace
from vabgrot.flow.parts import Making
from vabgrot.flow.sound import Sound
from vabgrot.video.colours import Signal

RUN, LINE, PACKET, MENDED, LOST, SLIP = Kind.RUN, Kind.LINE, Kind.PACKET, Kind.MENDED, Kind.LOST, Kind.SLIP
WIDE, DOWN, TOTAL = 4, 3, 20  # pixels, rows, columns of a line


class Made:
    """Records of a link that are made one after another."""

    def __init__(self):
        self.column, self.rows, self.data = 0, [], bytearray()

    def put(self, kind, column=0, named=0, count=0, value=0, second=0, data=b""):
        self.rows.append((column, named, count, len(self.data), len(data), kind, value, second))
        self.data += data

    def run(self, value, count):
        self.column += count
        self.put(RUN, self.column, count=count, value=value)

    def line(self, pixels):
        self.column += 2 + len(pixels) // 3
        self.put(LINE, self.column, data=pixels)

    def packet(self, octets, *faults):
        """A packet, and faults of its blocks."""
        first, self.column = self.column, self.column + 32
        self.put(PACKET, self.column - 1, first, data=octets + bytes(32))
        for kind, block in faults:
            self.put(kind, self.column - 1, first, value=block)

    def frame(self, colour, vsync=0):
        """A frame of rows of one colour, then two lines of the other level of VSYNC."""
        for row in range(DOWN):
            self.run(vsync << 1 | 1, 4)
            self.run(vsync << 1, TOTAL - 6 - WIDE)
            self.line(bytes(colour) * WIDE if isinstance(colour, tuple) else bytes([colour + row] * 3 * WIDE))
        self.run((1 - vsync) << 1, TOTAL)

    @property
    def arrays(self):
        return np.array(self.rows, RECORD), np.frombuffer(bytes(self.data), np.uint8)

    def parts(self, *cuts):
        """The same as parts, cut at some records."""
        records, data = self.arrays
        making, found, epoch = Making(), [], 0
        for begin, end in itertools.pairwise([0, *cuts, len(records)]):
            found += making.take(of_records(records[begin:end], data, epoch))
            epoch += int((records["kind"][begin:end] == SLIP).sum())
        return [*found, *making.finish()]


def frames_of(each):
    framer = Framer()
    return [stretch.frame for part in each for stretch in framer.take(part) if stretch.frame]


def test_columns_go_on_over_epochs():
    """Behind a slip the columns begin at the one of its bit, or behind those before where these are more."""
    made = Made()
    made.run(0, 30)
    made.put(SLIP, 0, 1000, value=2)
    made.column = 0
    made.run(0, 7)
    made.put(SLIP, 0, 1010, value=1)
    made.column = 0
    made.run(0, 5)
    (part,) = made.parts()
    assert part.events.epoch.tolist() == [0, 0, 1, 1, 2] and part.events.first.tolist() == [0, 1000, 0, 1010, 0]
    assert part.at.tolist() == [0, 100, 100, 107, 107] and part.events.width.tolist() == [30, 0, 7, 0, 5]


def test_a_packet_and_its_faults_are_in_one_part(compare):
    """Wherever records are cut."""
    made = Made()
    for number in range(4):
        made.run(0, 12)
        made.packet(bytes([number]) * 31, *[(MENDED, 4), (LOST, number)][: number % 3])
    made.run(0, 12)
    whole = islands.islands_of(Stretch(made.parts()[0], 0, len(made.rows)), 0)

    def cases():
        for cut in range(1, len(made.rows)):
            each = [islands.islands_of(Stretch(part, 0, len(part)), 0) for part in made.parts(cut)]
            for name in ("at", "octets", "mended"):
                parts = [getattr(it.packets, name) for it in each]
                yield (cut, name), np.concatenate(parts).tolist(), getattr(whole.packets, name).tolist()
            yield (cut, "lost"), np.concatenate([it.lost for it in each]).tolist(), whole.lost.tolist()

    compare(cases())
    assert whole.lost.tolist() == [0, 0, 4, 0] and whole.packets.mended.tolist() == [0, 16, 16, 0]


def test_frames(compare):
    """Those between two changes of VSYNC, wherever records are cut; a slip ends a frame, which is left out."""
    made = Made()
    for number in range(4):
        made.frame(10 * number)
    wanted = [bytes([colour + row]) * 3 * WIDE for colour in (10, 20, 30) for row in range(DOWN)]

    def cases():
        for cut in range(1, len(made.rows)):
            found = frames_of(made.parts(cut))
            yield cut, [row.tobytes() for frame in found for row in frame.rows], wanted
            yield (cut, "periods"), [frame.period for frame in found], [TOTAL * (DOWN + 1)] * 3

    compare(cases())
    made.rows[20:20] = [(0, 5000, 0, 0, 0, SLIP, 0, 0)]
    assert len(frames_of(made.parts())) < 3


def test_rows_of_other_widths():
    """A frame is as wide as its first row."""
    frame = Frame(None, 0, rows=[np.arange(6, dtype=np.uint8), np.arange(9, dtype=np.uint8), np.arange(3, dtype=np.uint8)])
    assert frame.columns().reshape(3, -1).tolist() == [[0, 1, 2, 3, 4, 5]] * 2 + [[0, 1, 2, 0, 0, 0]]


def test_the_clock():
    """What is given, the format of the code, one with the same raster, sound, and a guess; and which of the two rates of CTA-861."""
    row = np.zeros(3 * 1280, np.uint8)
    frame = Frame(0, 0, 1650 * 750, [row] * 720, [0, 1650])
    unlike = Frame(0, 0, 1000 * 750, [row] * 720, [0, 1000])
    quiet, pulled = Sound(), Sound(clock=(11648, 140625), frequency=48000)
    assert Pace(1e6).of(frame, Signal(), 4, quiet) == (Fraction(1_000_000), "")
    assert Pace(None, 50).of(frame, Signal(), 4, quiet) == (Fraction(50 * 1650 * 750), "")
    assert Pace().of(frame, Signal(), 4, quiet) == Pace().of(frame, Signal(), 0, quiet) == (Fraction(74_250_000), "")
    assert Pace().of(frame, Signal(), 4, pulled) == (Fraction(74_250_000_000, 1001), "")
    assert Pace().of(unlike, Signal(), 0, Sound(clock=(6144, 60000), frequency=48000)) == (Fraction(60_000_000), BY_SOUND)
    assert Pace().of(unlike, Signal(), 0, quiet) == (Fraction(60 * 1000 * 750), BY_GUESS)
    assert Pace().of(Frame(None, 0, 9, [row] * 720, [0, 1000]), Signal(), 0, quiet) is None
    deep = Frame(0, 0, 1650 * 750 * 5 // 4, [np.zeros(3 * 1600, np.uint8)] * 720, [0, 2062])
    assert Pace().of(deep, Signal(bits=30), 4, quiet) == (Fraction(74_250_000 * 5, 4), "")


def test_wav_heads():
    """The sizes of a file that has an end, and of one that is not known to have one."""
    soundfile = pytest.importorskip("soundfile")
    form = forms.Form(2, 2, False, Fraction(1), 1, 48000, (0, 1, 2, 3, 4, 5), 0x3F)
    head = forms.head_of(form)
    assert forms.sized(head, 18)[-4:] == (18).to_bytes(4, "little") and forms.sized(head, forms.UNKNOWN)[-4:] == b"\xff" * 4
    assert soundfile is not None and b"\x3f\x00\x00\x00" in head


def test_what_runs_ahead_raises_here():
    """All items, and then what the iterable raises."""

    def source():
        yield from range(20)
        raise ValueError("ended")

    found = []
    with pytest.raises(ValueError, match="ended"):
        for item in Ahead(source()):
            found.append(item)
    assert found == [*range(20)]
