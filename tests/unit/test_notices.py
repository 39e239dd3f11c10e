"""vabgrot.watching: notices of what happens, lanes that die, and the bits that are kept; by records made here, without the C library."""

import itertools
import json
import re
import time
from types import SimpleNamespace

import numpy as np
import pytest

from tests.support import TOP
from tests.unit.test_flow import DOWN, TOTAL, Made
from vabgrot import capture
from vabgrot.events import Kind, joined
from vabgrot.watching import notices as told
from vabgrot.watching.blocks import Blocks
from vabgrot.watching.counting import ASTRAY, Count
from vabgrot.watching.keeping import Kept
from vabgrot.watching.looking import Look
from vabgrot.watching.notices import FROZEN, MOST, QUIET, SURE, Notices
from vabgrot.watching.stuck import LIVES, Change, Stuck
from vabgrot.watching.tables import Table

METRIC = re.compile(r"vabgrot_\w+")
AVIS = [bytes.fromhex(text) + bytes(22) for text in ("82020d6f0000000000", "82020d5f1000000000")]  # their sums are 0
SAMPLES = bytes.fromhex("020100") + bytes(28)


def notices_of(made, *cuts):
    """The notices of a link, and their kinds."""
    notices = Notices()
    found = [notice for part in made.parts(*cuts) for notice in notices.take(part)]
    return notices, found, [notice.kind for notice in found]


def test_frozen_black_and_changed():
    """A picture that stands, a black one, and another packet; damage to a frame changes none of them."""
    made = Made()
    for number in range(3):
        made.frame(10 * number)
    for _ in range(FROZEN):
        made.frame(50)
    made.put(Kind.CODE, made.column, made.column)
    made.frame((0, 0, 0))
    made.frame((0, 0, 0))
    made.frame(60)
    for avi in AVIS:
        made.packet(avi)
    made.run(0, 12)
    _, found, kinds = notices_of(made)
    assert [kind for kind in kinds if kind != "code"] == ["aligned", "frozen", "moving", "black", "picture", "changed"]
    assert found[-1].says.startswith("AVI InfoFrame") and found[1].time.endswith("Z")


def test_mended_packets_change_nothing():
    """A block that was mended may be mended wrongly."""
    made = Made()
    made.packet(AVIS[0])
    made.packet(AVIS[1], (Kind.MENDED, 4))
    made.packet(AVIS[0])
    made.run(0, 12)
    assert "changed" not in notices_of(made)[2]


def frame_of(made, rows, *faults):
    """A frame of so many rows, with faults behind the first."""
    for row in range(rows):
        made.run(1, 4)
        made.run(0, TOTAL - 10)
        made.line(bytes([row]) * 12)
        for kind in faults if row == 0 else ():
            made.put(kind, made.column, made.column)
    made.run(2, TOTAL)


def test_the_format(compare):
    """A clean frame of another size is another format; a damaged one is not, but some of one size in a row are."""

    def cases():
        for name, others, faults, wanted in (
            ("clean", 1, (), 1),
            ("damaged", SURE - 2, (Kind.NOISE,), 0),
            ("damaged for long", SURE - 1, (Kind.NOISE,), 1),
        ):
            made = Made()
            for _ in range(2):
                frame_of(made, DOWN)
            for _ in range(others):
                frame_of(made, DOWN + 2, *faults)
            frame_of(made, DOWN + 2, Kind.NOISE)
            _, found, kinds = notices_of(made)
            yield name, kinds.count("format"), wanted
            yield name, [it.says for it in found if it.kind == "format"], ["4 × 5 columns and rows, 4 × 3 before"] * wanted

    compare(cases())


def test_faults_beyond_a_limit_are_counted():
    """No row for each; a slip always has one."""
    made = Made()
    made.frame(1)
    for column in range(500):
        made.put(Kind.NOISE, column, column)
    made.put(Kind.SLIP, 0, 1000, value=2)
    notices, found, kinds = notices_of(made)
    assert kinds.count("noise") == MOST and kinds.count("slip") == 1 and next(it for it in found if it.kind == "slip").lane == 2
    assert [it.says for it in notices.flush()] == [f"{500 - MOST:,} more in this second"]
    assert str(found[-1]).endswith(": slip, lane 2 (red): bit 1,000")


def test_gaps_in_sound(compare):
    """A gap is told while it lasts, or once it is over; wherever records are cut."""
    made = Made()
    made.packet(SAMPLES)
    made.run(0, QUIET)
    made.packet(SAMPLES)
    made.run(0, QUIET - 50)
    made.packet(SAMPLES)
    made.run(0, QUIET + 1)
    wanted = [("quiet", f"no samples after column {at:,} of the link") for at in (0, 2 * QUIET + 14)]
    wanted[1:1] = [("sound", f"samples come again after {QUIET + 32:,} columns")]

    def cases():
        for cuts in [(), *((at,) for at in range(1, len(made.rows)))]:
            _, found, _ = notices_of(made, *cuts)
            yield cuts, [(it.kind, it.says) for it in found if it.kind in ("quiet", "sound")], wanted

    compare(cases())


def events_of(kinds):
    """Events of some kinds, the columns of which do not matter."""
    made = Made()
    for kind in kinds:
        made.run(0, 12) if kind == Kind.RUN else made.line(bytes(3)) if kind == Kind.LINE else made.put(kind, made.column, made.column)
    return joined([part.events for part in made.parts()])


def test_openings_that_do_not_fit():
    """Some in a row without a whole guard band; one that fits makes it good again, and a slip begins anew."""
    count, (run, line, noise) = Count(), (Kind.RUN, Kind.LINE, Kind.NOISE)
    for kinds, wanted in (
        ([run, line, run], True),
        ([noise, run] * (ASTRAY - 1), True),
        ([noise, run], False),
        ([line], True),
        ([noise, run] * ASTRAY, False),
        ([Kind.SLIP], False),
        ([run], True),
    ):
        count.take(events_of(kinds))
        assert count.is_aligned is wanted, kinds


def test_a_frame_in_pieces():
    """The receiver writes its next events over the bytes of those before, so a look keeps its own."""
    made, look = Made(), Look()
    for number in range(3):
        made.frame(10 * number)
    room = np.zeros(1 << 10, np.uint8)
    for part in made.parts(*range(1, len(made.rows))):
        size = int(part.events.size.sum())
        data = part.events.data[int(part.events.offset[0]) : int(part.events.offset[0]) + size]
        room[:size] = data
        look.take(type(part.events)(**{**vars(part.events), "offset": part.events.offset * 0, "data": room[:size]}))
    assert look.rows == [bytes([20 + row]) * 12 for row in range(DOWN)]


def test_what_is_kept(tmp_path, monkeypatch):
    """The last seconds, as a capture of whole blocks."""
    now = itertools.count()
    monkeypatch.setattr(time, "monotonic", lambda: next(now))
    kept = Kept(3)
    for number in range(10):
        kept.add([np.full(2 * 4096 + 5, number + lane, np.uint8) for lane in (0, 20, 40)])
    bits = kept.write(tmp_path / "a.tmc")
    lanes, counts = capture.lanes_of((tmp_path / "a.tmc").read_bytes())
    assert counts == [bits] * 3
    for lane, first in zip(lanes, (0, 20, 40)):
        assert bytes(lane) == b"".join(bytes([number + first]) * 8192 for number in range(10))[-bits // 8 :]
    assert 3 * 8192 <= bits // 8 <= 4 * 8192


def test_lanes_that_die(compare):
    """A lane that repeats a bit for a block, from which bit on, and one that lives again; however the blocks come."""
    noise = np.arange(20 * 4096, dtype=np.int64).astype(np.uint8)
    ones, zeros = noise.copy(), noise.copy()
    ones[4321 : 13 * 4096 + 1] = 255
    zeros[:9000], zeros[5 * 4096 + 4000 : 6 * 4096 + 4000] = 0, 0
    wanted = [Change(1, 1, 8 * 4321), Change(1, LIVES, 8 * 13 * 4096), Change(2, 0, 0), Change(2, LIVES, 8 * 2 * 4096)]

    def cases():
        for count in (1, 2, 7, 20):
            stuck = Stuck()
            for at in range(0, len(noise), count * 4096):
                stuck.take([lane[at : at + count * 4096] for lane in (noise, ones, zeros)])
            yield count, sorted(stuck.changes, key=lambda it: (it.lane, it.at)), wanted

    compare(cases())
    assert str(wanted[0]) == f"nothing comes on lane 1 (green): always 1 from bit {8 * 4321:,} on"


def test_nothing_comes():
    """Of a source that stalls how much of each lane came; of a lane that it died."""
    feed, notices = SimpleNamespace(silence=0.0, lanes=[8192, 4196, 4096], stuck=Stuck()), Notices()
    assert not [*notices.idle(feed)]
    feed.silence = 1.5
    (row,) = notices.idle(feed)
    assert (row.kind, row.says) == (
        "stalled",
        "nothing comes after 8,192 bytes of lane 0 (blue), 4,196 bytes of lane 1 (green), " "4,096 bytes of lane 2 (red)",
    )
    assert not [*notices.idle(feed)]
    feed.silence = 0.0
    feed.stuck.changes.extend((Change(2, 0, 80), Change(2, LIVES, 800)))
    assert [(row.kind, row.lane) for row in notices.idle(feed)] == [("resumed", ""), ("dead", 2), ("alive", 2)]
    assert not [*notices.idle(feed)]
    assert told.came_of([5] * 3) == "5 bytes of each lane"


@pytest.mark.parametrize("filled, wanted", ((0, [0, 0, 0]), (5000, [4096, 904, 0]), (3 * 4096 + 1, [4097, 4096, 4096])))
def test_the_bytes_of_each_lane(filled, wanted):
    """How many came, also after some were taken out."""
    blocks = Blocks()
    blocks.filled = filled
    assert blocks.came() == wanted
    blocks.take(blocks.whole())
    assert blocks.came() == wanted


def test_a_full_disk(monkeypatch):
    """Names the table."""
    with pytest.raises(OSError, match="No space left on device: '/dev/full'"):
        Table("/dev/full", ["kind"])


def test_the_board():
    """Each of its figures is one that is served."""
    board = json.loads((TOP / "share" / "grafana" / "vabgrot.json").read_text())
    served = METRIC.findall((TOP / "docs" / "guide" / "TOOLS.md").read_text())
    used = {name for panel in board["panels"] for target in panel["targets"] for name in METRIC.findall(target["expr"])}
    assert used and used <= set(served), used - set(served)
