"""tools/timing: right formats are found and planted faults are named with their place. The numbers of formats are written
out here, from CTA-861, or are those of edid-decode."""

import json
import random
import shutil
from functools import partial

import pytest

from tests.heard import reading_of
from tests.models.timed import Sent, text
from tests.tools.test_formats import decoded
from vabgrot.content import Content
from vabgrot.formats.modes import CTA, DMT, of_vic
from vabgrot.video.matching import Rate, timings
from vabgrot.video.raster import meter_of

# CTA-861, section 4: VIC 1, 4, 5, 6 and 16.
VGA = partial(Sent, across=(640, 16, 96, 48), down=(480, 10, 2, 33), positive=(False, False))
HD = partial(Sent, across=(1280, 110, 40, 220), down=(720, 5, 5, 20))
I1080 = partial(Sent, across=(1920, 88, 44, 148), down=(540, 2, 5, 15), halves=True)
I480 = partial(Sent, across=(1440, 38, 124, 114), down=(240, 4, 3, 15), positive=(False, False), halves=True)
MODES = (1, 2, 3, 4, 16, 17, 18, 19)  # of `make content` (docs/guide/FORMATS.md)


def measured(sent, fields=3, rate=Rate()):
    """What is said of a listing, without the program."""
    return timings(meter_of(Content(reading_of(sent.lines(fields)))), rate)


@pytest.fixture
def timing(tool, program, tmp_path):
    """What the tool writes of the capture of a listing, and what it writes as JSON."""

    def run(sent, *words, fields=3, status=0, kind="link", damage=(), make=()):
        source = text(sent.lines(fields)) if isinstance(sent, Sent) else sent
        capture = program("make", kind, *make, source=source)
        if damage:
            capture = program("damage", *damage, source=capture)
        (tmp_path / "a.tmc").write_bytes(capture)
        words += ("--dvi",) * (kind == "dvi")
        shown = tool("timing", tmp_path / "a.tmc", *words, status=status).stdout.decode()
        said = json.loads(tool("timing", tmp_path / "a.tmc", "--json", *words, status=status).stdout)
        assert said["faulty"] == (status == 1)
        return shown, said

    return run


def test_what_is_written(timing):
    """Columns are counted from the first of the twelve before the first opening on, which is the InfoFrame's island."""
    shown, said = timing(VGA(vic=1), "--clock", 25175000)
    assert shown == (
        "640 pixels, 480 rows, progressive, 3 whole frames\n"
        "  format: VIC 1 (640x480p, 59.94 Hz, 4:3); with the same timing DMT 04h\n"
        "                            active front porch        sync  back porch       total  polarity\n"
        "  across, columns              640          16          96          48         800  negative\n"
        "  down, lines                  480          10           2          33         525  negative\n"
        "  pixel clock 25,175,000 Hz, 59.94 frames a second\n"
        "  AVI InfoFrame: VIC 1 (640x480p, 59.94 Hz, 4:3), 3 times, first at column 14\n"
    )
    (raster,) = said["rasters"]
    assert {name: one["value"] for name, one in raster["horizontal"].items()} == {
        "active": 640, "front_porch": 16, "sync": 96, "back_porch": 48, "total": 800
    }
    assert [{name: one["value"] for name, one in kind.items()} for kind in raster["vertical"]] == [
        {"active": 480, "front_porch": 10, "sync": 2, "back_porch": 33, "total": 525}
    ]
    assert (raster["hsync_positive"], raster["vsync_positive"], raster["interlaced"]) == (False, False, False)
    assert (raster["equal"], raster["clock"]) == (["VIC 1", "DMT 04h"], 25175000)


def notes(said):
    """The texts of the faults."""
    found = [note["text"] for one in said["rasters"] for note in one["notes"] if note["fault"]]
    return said["notes"] + found


def test_planted_porch_lines_and_polarity(timing):
    """Each alone, and all in one source: back porch 40 for 48, two lines too many, the other polarity."""
    fault = partial(timing, status=1)
    head = "VIC 1 (640x480p, 59.94 Hz, 4:3), but "
    assert notes(fault(VGA(across=(640, 16, 96, 40)))[1]) == [head + "H back porch 40, wants 48"]
    assert notes(fault(VGA(down=(480, 12, 2, 33)))[1]) == [head + "V front porch 12, wants 10"]
    assert notes(fault(VGA(down=(480, 10, 2, 35)))[1]) == [head + "V back porch 35, wants 33"]
    assert notes(fault(VGA(positive=(True, False)))[1]) == [head + "HSYNC positive, wants negative"]
    assert notes(fault(VGA(positive=(False, True)))[1]) == [head + "VSYNC positive, wants negative"]
    sent = VGA(across=(640, 16, 96, 40), down=(480, 12, 2, 33), positive=(True, True))
    differences = "H back porch 40, wants 48; V front porch 12, wants 10; HSYNC positive, wants negative; VSYNC positive, wants negative"
    assert notes(fault(sent)[1]) == [head + differences]


def test_planted_sizes(timing):
    fault = partial(timing, status=1)
    assert notes(fault(VGA(down=(482, 10, 2, 33)))[1]) == ["VIC 1 (640x480p, 59.94 Hz, 4:3), but V active 482, wants 480"]
    assert notes(fault(HD(across=(1279, 110, 40, 220)))[1])[0].endswith("but H active 1,279, wants 1,280")
    assert notes(fault(HD(across=(1280, 109, 41, 220)))[1])[0].endswith("but H front porch 109, wants 110; H sync 41, wants 40")
    assert notes(fault(Sent((200, 20, 30, 40), (50, 2, 3, 4)), fields=9)[1]) == ["no format of CTA-861 or VESA DMT, and none is near"]


def test_planted_infoframe(timing):
    """Another VIC, a pixel repetition that the format has not, and no VIC where there is one."""
    fault = partial(timing, status=1)
    (said,) = notes(fault(VGA(vic=4))[1])
    assert said == (
        "AVI InfoFrame: VIC 4 (1280x720p, 60 Hz, 16:9), 3 times, first at column 14; but H active 640, wants 1,280; "
        "H front porch 16, wants 110; H sync 96, wants 40; H back porch 48, wants 220; and 6 more"
    )
    (said,) = notes(fault(VGA(vic=1, repetition=1))[1])
    assert said.endswith("; but pixel repetition 1, wants 0")
    (said,) = notes(fault(VGA(vic=0))[1])
    assert said.startswith("AVI InfoFrame: no VIC, ") and said.endswith("; wants VIC 1")
    (said,) = notes(fault(I480(vic=6))[1])
    assert said.endswith("; but pixel repetition 0, wants 1")
    shown, said = timing(VGA(vic=120))
    assert "VIC 120" in shown and "no timing of it is known here" in shown


def test_planted_unsteady(timing):
    """One line of 803 columns; one frame of 526 lines; VSYNC three columns behind HSYNC. Columns are counted from the first of
    twelve before the guards of the first row: of line 35, whose pixels begin in column 144."""
    _, said = timing(VGA(wider={600: 3}), status=1)
    at = f"at column {800 * 600 - (800 * 35 + 144 - 2 - 12):,} (line 76 of its field)"
    assert notes(said) == [
        f"not steady: H front porch 16, but 19 in 1 line, {at}", f"not steady: H total 800, but 803 in 1 line, {at}"
    ]
    total = said["rasters"][0]["horizontal"]["total"]
    assert (total["others"], total["other"], total["line"]) == (1, 803, 600 - 525 + 1)
    front = said["rasters"][0]["horizontal"]["front_porch"]
    assert (front["others"], front["other"], front["column"]) == (1, 19, total["column"])
    _, said = timing(VGA(more={1: 1}), fields=4, status=1)
    at = f"at column {800 * 525 - (800 * 35 + 144 - 2 - 12):,}"
    assert notes(said) == [
        f"not steady: V front porch 10, but 11 in 1 frame, {at}", f"not steady: V total 525, but 526 in 1 frame, {at}"
    ]
    _, said = timing(VGA(wider={600: 3, 700: 4, 900: 4}), status=1)
    assert notes(said)[1].startswith("not steady: H total 800, but another in 3 lines, first 803 at column 451,870 ")
    _, said = timing(VGA(late=3), status=1)
    assert notes(said) == ["VSYNC changes 3 columns after HSYNC, wants 0"]


def test_the_place_of_an_unsteady_line():
    """Of a listing, whose columns are counted from its first one."""
    (one,) = measured(VGA(wider={600: 3}))
    assert one.raster.across["total"].place == (600 * 800, 600 - 525 + 1)
    (one,) = measured(VGA(more={1: 1}), 4)
    assert one.raster.down[0]["total"].place == (525 * 800, None)


@pytest.mark.parametrize("sent, name", [(I1080(vic=5), "VIC 5 "), (I480(vic=6, repetition=1), "VIC 6 ")])
def test_interlaced(timing, sent, name):
    """Both fields, of whose porches one has half a line more (CTA-861, section 4)."""
    shown, said = timing(sent, fields=5 if name == "VIC 6 " else 3)
    assert f"  format: {name}" in shown and ", interlaced, " in shown
    first, second = said["rasters"][0]["vertical"]
    _, front, sync, back = sent.down
    values = [{part: one["value"] for part, one in kind.items()} for kind in (first, second)]
    assert [(kind["front_porch"], kind["sync"], kind["back_porch"]) for kind in values] == [
        (front + 0.5, sync, back), (front, sync, back + 0.5)
    ]
    assert values[0]["active"] == values[1]["active"] == sent.down[0]


def test_part_of_an_interlaced_field(timing):
    """Without a change of VSYNC, or with one at the beginning of a line, it is not known whether fields are interlaced. The
    second field begins at bit 262.5 * 17,160, the third at twice that."""
    for offset, bits, interlaced in ((1_300_000, 2_000_000, None), (1_300_000, 4_000_000, True), (8_000_000, 2_000_000, None)):
        _, said = timing(I480(vic=7, repetition=1), fields=4, make=("--offset", offset, "--bits", bits))
        assert "VIC 7" in said["rasters"][0]["equal"] and said["rasters"][0]["interlaced"] is interlaced


def test_interlaced_without_half_lines(timing):
    """Fields of whole lines are no format of CTA-861 but VIC 39."""
    _, said = timing(Sent((1440, 38, 124, 114), (240, 4, 3, 15), (False, False), vic=8, repetition=1))
    assert said["rasters"][0]["equal"] == ["VIC 8", "VIC 9"]
    (note,) = notes(timing(I480(vic=8, repetition=1), status=1)[1])
    assert "VIC 8" in note and "; but scan interlaced, wants progressive" in note


@pytest.mark.parametrize("depth, bits, across", [
    (5, 30, (2400, 110, 55, 185)), (6, 36, (2880, 132, 66, 222)), (7, 48, (3840, 176, 88, 296)),
])
def test_deep_colour(depth, bits, across):
    """VIC 16, of which a line has 5/4, 3/2 or twice as many columns (HDMI 1.4, section 6.5.2)."""
    (one,) = measured(Sent(across, (1080, 4, 5, 36), vic=16, depth=depth), 2, Rate(148.5e6))
    assert (one.matched.wanted.name, one.matched.differences, one.is_faulty) == ("VIC 16", (), False)
    assert one.size == f"1,920 pixels, {bits} bits a pixel, 1,080 rows, progressive, 2 whole frames"
    assert one.rate == "pixel clock 148,500,000 Hz, 60.00 frames a second"
    assert one.table[0] == ("across, pixels", ["1,920", "88", "44", "148", "2,200"], "positive")


def test_deep_colour_whose_parts_are_no_whole_columns():
    """VIC 2 of 30 bits: 62 pixels of sync take 77.5 columns, and 60 of back porch 75."""
    (one,) = measured(Sent((900, 20, 78, 75), (480, 9, 6, 30), (False, False), vic=2, depth=5), 2)
    assert (one.matched.wanted.name, one.is_faulty) == ("VIC 2", False)


def test_two_rasters(timing):
    """A source that changes its format: each is measured, and both are said."""
    lines = [*VGA().lines(3), *HD().lines(2)]
    shown, said = timing(text(lines), status=1)
    assert shown.startswith("not steady: 2 sizes or rasters\n640 pixels, 480 rows")
    assert [one["nearest"] for one in said["rasters"]] == ["VIC 1", "VIC 4"]


def test_rates(timing):
    """The rate parts formats of one raster: 1,920 x 1,080 at 30, 60 and 120 frames a second."""
    def names(*words):
        return [one.code for one in measured(HD(), 3, Rate(*words))[0].matched.equal if one.source == CTA]

    assert names() == [4, 47, 69, 71]
    assert names(None, 60) == names(None, 59.94) == names(74_250_000) == [4, 69]
    assert names(148.5e6) == names(None, 119.88) == [47, 71]
    (one,) = measured(HD(), 3, Rate(None, 50))
    assert str(one.head.text) == "VIC 4 (1280x720p, 60 Hz, 16:9), but pixel clock 61,875,000 Hz, wants 74,250,000 Hz"
    shown, said = timing(HD(vic=4), "--rate", 120, status=1)
    assert notes(said) == [notes(said)[0]] and notes(said)[0].endswith("; but pixel clock 148,500,000 Hz, wants 74,250,000 Hz")
    assert "pixel clock 148,500,000 Hz, 120.00 frames a second" in shown


@pytest.mark.skipif(shutil.which("edid-decode") is None, reason="edid-decode of Debian's package edid-decode is missing")
@pytest.mark.parametrize("option, source, codes", [("--vic", CTA, range(1, 108)), ("--dmt", DMT, range(1, 0x59))])
def test_each_format(option, source, codes):
    """A listing with the numbers that edid-decode has for a code is that code's format; 43h and 4Bh it has wrong (test_formats.py)."""
    for code in codes:
        if (source, code) in ((DMT, 0x43), (DMT, 0x4B)):
            continue
        (width, rows, interlaced), clock, _, across, down, halves = decoded(option, str(code))
        sent = Sent((width, *across[:3]), (rows // (1 + interlaced), *down[:3]), (across[3], down[3]), halves)
        (one,) = measured(sent, 2, Rate(clock))
        assert (source, code) in [(equal.source, equal.code) for equal in one.matched.equal], (code, one.head)
        assert not one.is_faulty and one.raster.interlaced == halves
        assert all(abs(equal.clock / clock - 1) < 0.006 for equal in one.matched.equal)


def images(tmp_path, mode):
    """Two pictures of a mode's size, as files."""
    from PIL import Image

    for name, colour in (("a", (10, 200, 30)), ("b", (220, 40, 90))):
        Image.new("RGB", mode, colour).save(tmp_path / f"{name}.png")
    return tmp_path / "a.png", tmp_path / "b.png"


@pytest.mark.parametrize("vic", MODES)
def test_no_false_alarm_on_the_modes_of_make_content(tool, timing, tmp_path, vic):
    found = of_vic(vic)
    pictures = images(tmp_path, (found.across.active, found.rows))
    content = tool("content", "--vic", vic, *pictures).stdout
    shown, said = timing(content, kind="content")
    (raster,) = said["rasters"]
    assert f"VIC {vic}" in raster["equal"] and f"  AVI InfoFrame: VIC {vic} " in shown and f"  format: VIC {vic} " in shown


def test_no_false_alarm_on_random_taps(tool, timing, tmp_path):
    """Parts of two or three frames, at any offset and skew, also such that hold no whole frame."""
    chance = random.Random(69)
    content = tool("content", "--vic", 1, *images(tmp_path, (640, 480)), tmp_path / "a.png").stdout
    for _ in range(20):
        skew = ",".join(str(chance.randrange(71)) for _ in range(3))
        words = ("--offset", chance.randrange(4_200_000), "--skew", skew, "--bits", chance.randrange(400_000, 9_000_000))
        shown, said = timing(content, kind="content", make=words)
        (raster,) = said["rasters"]
        assert raster["equal"][:1] == ["VIC 1"] and raster["differences"] == []


def test_no_false_alarm_on_damage(timing):
    """Damaged characters of control periods and packets, which are faults of the link, are none of its timing. Of the first
    aligned column on a line has 800 columns; places are those of lane 0 of the whole stream."""
    chance = random.Random(7)
    places = sorted({10 * chance.randrange(40_000, 1_200_000) for _ in range(250)})
    words = [f"0:{place}:{chance.choice(('0f3', '2cc', '171', '11e'))}" for place in places]
    _, said = timing(VGA(vic=1), damage=words)
    assert said["rasters"][0]["equal"] == ["VIC 1", "DMT 04h"]


def test_dvi(timing):
    _, said = timing(VGA(guards=0), kind="dvi")
    assert said["rasters"][0]["equal"] == ["VIC 1", "DMT 04h"]


def test_no_rows(timing, tool, program, tmp_path):
    """No raster, no alignment, and what is no capture or breaks off."""
    null = ("p", "000000", *["0" * 14] * 4, "0" * 32)
    lines = [("c", "00", "24"), ("c", "14", "8"), ("i", "00"), null, ("e", "00"), ("c", "00", "40")]
    shown, said = timing(text(lines), status=1)
    assert shown == "no row of pixels was received, so there is no raster\n" and said["rasters"] == []
    (tmp_path / "zeros.tmc").write_bytes(b"TMC1" + (80).to_bytes(4, "big") + bytes(30))
    assert tool("timing", tmp_path / "zeros.tmc", status=1).stdout.startswith(b"not aligned: `tools/lanes look`")
    (tmp_path / "text.tmc").write_bytes(b"no capture at all")
    assert b"not a capture: it starts with 6e 6f 20, not with TMC" in tool("timing", tmp_path / "text.tmc", status=3).stderr
    assert b"No such file" in tool("timing", tmp_path / "none.tmc", status=3).stderr
    capture = program("make", "link", source=text(VGA().lines(2)))
    (tmp_path / "short.tmc").write_bytes(capture[: len(capture) // 2])
    shown = tool("timing", tmp_path / "short.tmc")
    assert b"640 pixels" in shown.stdout and shown.stdout.startswith(b"the capture is cut off: ")


@pytest.mark.parametrize("words", [("--clock", "0"), ("--rate", "-1"), ("--clock", "nan"), ("--clock", "1", "--rate", "1"), ()])
def test_wrong_words(tool, words):
    shown = tool("timing", *words, *["a.tmc"] * bool(words), status=2)
    assert shown.stderr.startswith(b"usage: timing")


@pytest.mark.parametrize("has_hsync", [True, False])
def test_syncs_that_never_change(has_hsync):
    """Rows of 640 pixels with blank lines between, with one of the syncs or none."""
    pulse = [("c", "01" if has_hsync else "00", "12"), ("c", "00", "12")]
    row = [*pulse, ("c", "04", "8"), ("v", "336699" * 640)]
    lines = [*row * 40, *[*pulse, ("c", "00", "650")] * 20, *row * 40, ("c", "00", "12")]
    (one,) = timings(meter_of(Content(reading_of(lines))), Rate())
    texts = [note.text for note in one.notes if note.is_fault]
    assert "VSYNC never changes" in texts and ("HSYNC never changes" in texts) == (not has_hsync)
    assert one.raster.size == (640, None) and one.is_faulty
