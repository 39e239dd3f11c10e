"""vabgrot.report.findings: what a listing says, as a page shows it. Columns are counted by hand from docs/guide/FORMATS.md."""

from dataclasses import dataclass

import pytest

from tests.heard import events_of, lines_of
from vabgrot.content import Content
from vabgrot.hearing import heard_of
from vabgrot.reading import Bits, part_of
from vabgrot.report.findings import PERIODS, Findings, Page
from vabgrot.report.sound import Told
from vabgrot.verdict import contents_of

PACKET = "p 82020d {} 00000000000000 00000000000000 00000000000000 " + "0" * 32
SAMPLES = "p 020110 {} 00000000000000 00000000000000 00000000000000 " + "0" * 32
ISLAND = "c 00 4\nc 14 8\ni 00\n{}\ne 00\n"


@dataclass
class Found:
    """What was found of a listing: as it was read, and as a page has it."""

    findings: Findings
    page: Page

    @property
    def faults(self):
        return self.page.faults(self.findings)


@pytest.fixture
def found():
    """Reads a listing, and keeps of each frame its size, its first column and its end."""

    def read(text, bits=100_000):
        def show(frame, part, vic, signal):
            return frame.width, len(frame.rows), frame.is_whole, frame.ragged, vic

        events = events_of([(name, *fields) for _, name, fields in lines_of(text)])
        findings = Findings(show)
        findings.take(events)
        findings.finish()
        reading = part_of(events.without_pixels(), "track")
        object.__setattr__(reading, "bits", Bits((bits,) * 3, (bits,) * 3, 0))
        return Found(findings, Page(reading, Content(reading)))

    return read


def test_periods(found):
    read = found("c 00 4\nc 04 8\nv ff0000\nc 00 12")
    periods = read.page.periods
    assert [PERIODS[kind] for kind in periods["kind"]] == ["control", "control", "video", "control"]
    assert [*periods["at"]] == [0, 4, 12, 15] and [*periods["columns"]] == [4, 8, 3, 12]
    assert [*periods["value"]] == [0, 4, 1, 0] and [*periods["line"]] == [1, 2, 3, 4]
    assert read.page.columns == 27 and read.findings.frames == [(1, 1, False, 0, None)]
    assert read.findings.text.lines == ["c 00 4", "c 04 8", "v ff0000", "c 00 12", "end"]


def test_a_damaged_pixel_has_its_place_and_its_colour(found):
    read = found("c 00 4\nc 04 8\nv 010203040506\n! code 2 15\nc 00 12")
    wanted = {"kind": ["code"], "lane": [2], "at": [15], "column": [15], "line": [4], "frame": [0], "x": [1], "y": [0], "rgb": ["040506"]}
    assert {name: read.faults[name] for name in wanted} == wanted


def test_noise_goes_on_until_the_next_period(found):
    """Columns that nothing covers are a period of their own, in the line of the fault that is reported there."""
    read = found("c 00 12\n! noise 12\n! short 40\nc 00 4\n! noise 44\n! short 50\nc 00 12")
    periods, unknown = read.page.periods, PERIODS.index("unknown")
    rows = zip(*(periods[name].tolist() for name in ("kind", "at", "columns", "line")))
    assert [row for row in rows if row[0] == unknown] == [(unknown, 12, 28, 2), (unknown, 44, 6, 5)]


def test_the_verdicts_of_a_packet(found):
    """A packet of which a block is lost is not read; its samples are missing at its place."""
    read = found(ISLAND.format(SAMPLES.format("00000000000000") + "\n! symbols 14 3\n! mended 14 1 5\n! lost 14 4") + "c 00 12")
    (packet,) = read.page.packets
    assert packet.verdicts == ["clean", "mended, bit 5", "clean", "clean", "lost"] and packet.symbols == 3
    samples = read.page.content.samples
    assert packet.content is None and (samples.total, samples.breaks.tolist()) == (0, [0])
    assert (packet.at, packet.line) == (14, 4)


def test_samples_and_faults_of_contents(found):
    """122457h, low byte first, has nine ones, and its parity bit is 0; the bytes of the InfoFrame sum to 92h."""
    read = found(ISLAND.format(SAMPLES.format("57241200000000") + "\n" + PACKET.format("01000000000000")) + "c 00 12")
    content = read.page.content
    assert Told.of(heard_of(content.packets, content.samples), content.samples).values.tolist() == [[0x122457, 0]]
    assert contents_of(content) == {"parity": 1, "checksum": 1}


def test_a_slip_that_is_not_aligned_hides_columns(found):
    """40 bits from place 400 on have no line: four columns."""
    read = found("c 00 20\n! slip 1 400\n! slip 0 440\nc 00 20", bits=1000)
    assert [(epoch.at, epoch.place, epoch.is_aligned, epoch.hidden) for epoch in read.page.stretches] == [
        (0, 0, True, 0),
        (20, 400, False, 40),
        (24, 440, True, 0),
    ]
    assert (read.page.columns, read.page.reading.columns) == (44, 40)
    assert read.faults["lane"] == [1, 0] and read.faults["more"] == [[400], [440]]
    read = found("c 00 20\n! slip 1 400\n! relock 440\nc 00 20", bits=1000)
    assert [(epoch.place, epoch.hidden) for epoch in read.page.stretches] == [(0, 0), (400, 40), (440, 0)]
    assert read.faults["kind"] == ["slip", "relock"] and read.faults["lane"] == [1, -1] and read.faults["more"] == [[400], [440]]


def test_a_frame_of_another_size_than_its_infoframe_says(found):
    """VIC 1 is 640 by 480; the frame has one pixel. The bytes of the InfoFrame sum to 91h + 56h + 19h, which is 0."""
    info = PACKET.format("56100800010000")
    vsync = "c 02 3\nc 00 20\n"
    text = f"c 00 12\n{vsync}" + ISLAND.format(info) + f"c 00 12\nc 04 8\nv 112233\nc 00 12\n{vsync}c 00 12"
    read = found(text)
    assert contents_of(read.page.content) == {"vic": 1}
    assert read.findings.frames == [(1, 1, True, 0, 1)]
