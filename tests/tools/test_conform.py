"""tools/conform: what is planted is found by name and with its place, and a conforming source has no rule that it breaks. The
sources are those of tests/models, whose numbers are written out from the standards."""

import json
import random
from xml.etree import ElementTree

import pytest

from tests.heard import verdict_of
from tests.models.source import Source, text
from tests.models.timed import Sent
from tests.models.timed import text as raster_text
from vabgrot.formats.rules import RULES
from vabgrot.video.matching import Rate

HD = {"across": (1280, 110, 40, 220), "down": (720, 5, 5, 20), "positive": True, "clock": 74_250_000, "vic": 4}
SMALL = {"across": (64, 16, 96, 48), "down": (16, 2, 2, 6), "vic": 0, "clock": 25_200_000}


def judged(lines, rate=Rate()):
    """The verdicts on a listing, without the program, by the names of the rules."""
    return {one.rule.name: one for one in verdict_of(lines, rate).rules}


def failures(found):
    return {name for name, one in found.items() if one.state == "fail"}


def broken(found):
    """The rules that the source or the link breaks."""
    return {name for name, one in found.items() if one.state in ("fail", "damaged")}


def test_a_conforming_source():
    """Of VIC 1 with sound all that can be judged is kept; three fields last less than 50 ms."""
    found = judged(Source().lines())
    assert list(found) == list(RULES) and failures(found) == set()
    open_ones = {name for name, one in found.items() if one.state == "not judged"}
    assert open_ones == {"general control", "mute", "deep colour", "pixel packing phase"}
    assert found["sample rate"].words == "N 6,144, CTS 25,175 and 25,175,000 Hz make 48,000 Hz: 48,000 Hz"
    assert found["format"].words.startswith("VIC 1 (640x480p, 59.94 Hz, 4:3)")


PLANTED = (  # what is wrong with the source, and the rules that it breaks, with a part of the words
    ({"across": (640, 18, 96, 46)}, {"format": "H front porch 18, wants 16", "AVI format": "H front porch 18"}),
    ({"positive": True}, {"format": "HSYNC positive, wants negative", "AVI format": "HSYNC positive"}),
    ({"vic": 4}, {"AVI format": "VIC 4 (1280x720p, 60 Hz, 16:9)"}),
    ({"has_avi": False}, {"AVI InfoFrame": "no AVI InfoFrame came in 1,260,040 columns, the time of 3.0 fields"}),
    ({"has_audio": False}, {"audio InfoFrame": "no audio InfoFrame came in 1,259,201 columns, the time of 3.0 fields"}),
    ({"n": 5000}, {"sample rate": "N 5,000", "samples a line": "N and CTS say"}),
    ({"n": 1024, "cts": 4196}, {"N": "128 fs / N is 6,000 Hz, wants 300 to 1500 Hz, the recommended N is 6,144"}),
    ({"speed": 1.1}, {"samples a line": "N and CTS say 1.525"}),
    ({"block": 190}, {"block start": "a block of 190 samples, wants 192"}),
    ({"status_rate": 44100}, {"channel status": "the left side says 44100 Hz, N and CTS make 48,000 Hz"}),
    ({"parity": 1}, {"sample parity": "odd parity on"}),
    ({"audio": (3, 0, 0, 0x0B, 0)}, {"audio format": "4 channels (CC 3), and samples of two are sent"}),
    ({"audio": (1, 0x0C, 0, 0, 0)}, {"audio format": "rate (SF) 3, wants 0, by the stream"}),
    ({"avi_error": 0x82}, {"checksum": "its bytes sum to 82, and checksum"}),
    ({"reserved": 0x80}, {"reserved bits": "AVI InfoFrame: PB1 90, of which 80 is reserved"}),
    ({"reserved": 0x60}, {"field values": "Y 3: a reserved value"}),
    ({"aspect": 2}, {"picture aspect": "M 2 (16:9), and VIC 1 has 4:3"}),
    ({"aspect": 3}, {"field values": "M 3: a reserved value"}),
    ({"holes": True}, {"sample packets": "sample_present 0101 leaves a body out"}),
    ({"control": [(0, (0x11, 0))]}, {"general control": "mute is both set and cleared"}),
    ({"control": [(9, (0x01, 0))]}, {"mute": "sent 7,214 columns behind VSYNC, wants at most 384"}),
    ({"control": [(0, (0, 0x25))]}, {"pixel packing phase": "phase 2, wants 0", "AVI format": "H active 512"}),
)


@pytest.mark.parametrize("wrong, wanted", PLANTED, ids=[str(sorted(wrong)) for wrong, _ in PLANTED])
def test_planted_faults(wrong, wanted):
    """Each breaks its own rules and no other one."""
    found = judged(Source(**wrong).lines())
    assert failures(found) == set(wanted)
    for name, words in wanted.items():
        assert words in found[name].words
        assert found[name].column is not None and found[name].times > 0


def test_deep_colour_within_groups():
    """800 columns of 30 bits are 640 pixels; without general control in a field, and with a row that ends within a pixel."""
    deep = {"across": (800, 20, 120, 60), "clock": 31_468_750, "control": [(0, (0, 0x05))], "fields": 4}
    assert failures(judged(Source(**deep).lines())) == set()
    ragged = deep | {"across": (801, 20, 120, 59)}
    assert "deep colour" in failures(judged(Source(**ragged).lines()))


def test_extended_control_period():
    """No control period of 32 characters: it fails where more than 50 ms went by, and is not judged before, or without a clock."""
    lines = [line for _ in range(900) for line in (("c", "00", "12"), ("c", "04", "8"), ("v", "336699" * 1500))]
    lines.append(("c", "00", "12"))
    long = judged(lines, Rate(clock=25_200_000))["extended control period"]
    assert long.state == "fail" and "54.4 ms" in long.words
    assert judged(lines, Rate(clock=27_500_000))["extended control period"].state == "not judged"
    assert judged(lines)["extended control period"].state == "not judged"


def test_link_faults_have_their_rules():
    """Each kind of fault line breaks the rule that it is of: one is the damage of the link, as often as each time it is the source's."""
    kinds = {
        "word 0 3": "control characters",
        "short 20": "control period",
        "preamble 20": "preamble",
        "noise 20": "opening",
        "guard 20": "guard band",
        "empty 20": "whole periods",
        "code 1 30": "video coding",
    }
    for fault, name in kinds.items():
        lines = [("c", "00", "12"), ("c", "04", "8"), ("!", *fault.split()), ("v", "336699" * 20), ("c", "00", "40")]
        assert broken(judged(lines)) == {name}
    packet = ("p", "000000", *["00" * 7] * 4, "0" * 32)
    for fault, name in (("symbols 14 1", "TERC4"), ("mended 14 0 3", "packet parity"), ("lost 14 2", "packet parity")):
        lines = [("c", "00", "4"), ("c", "14", "8"), ("i", "00"), packet, ("!", *fault.split()), ("e", "00"), ("c", "00", "40")]
        assert broken(judged(lines)) == {name}


def conforming(number):
    """A source of small frames that breaks no rule: any sizes, rates, polarities and clocks."""
    dice = random.Random(number)
    clock = dice.choice((25_175_000, 25_200_000, 27_000_000, 74_250_000))
    words = {
        "across": (dice.randrange(16, 300), dice.randrange(8, 60), dice.randrange(90, 130), dice.randrange(160, 220)),
        "down": (dice.randrange(6, 40), dice.randrange(1, 6), dice.randrange(2, 6), dice.randrange(4, 12)),
        "positive": dice.random() < 0.5,
        "clock": clock,
        "vic": 0,
        "rate": dice.choice((0, 32000, 44100, 48000, 96000)),
        "fields": dice.randrange(2, 6),
        "avi_every": dice.choice((1, 2)),
        "pixel": f"{dice.randrange(1 << 24):06x}",
    }
    return Source(**words), clock


def test_no_false_alarm(compare):
    """On 200 conforming sources, with and without a clock."""

    def cases():
        for number in range(200):
            source, clock = conforming(number)
            lines = list(source.lines())
            yield f"source {number}", sorted(failures(judged(lines))), []
            yield f"source {number} with its clock", sorted(failures(judged(lines, Rate(clock=clock)))), []

    compare(cases())


@pytest.fixture
def capture(program, tmp_path):
    """The file of the capture of a source's listing."""

    def make(source, damage=()):
        path = tmp_path / "a.tmc"
        sent = program("make", "link", "--offset", 1234, "--skew", "0,30,70", source=text(source.lines()))
        path.write_bytes(program("damage", *damage, source=sent) if damage else sent)
        return path

    return make


def test_what_is_written(tool, capture):
    """A line for each rule, with its clause; the status is 0."""
    lines = tool("conform", capture(Source(**SMALL, fields=4))).stdout.decode().splitlines()
    assert lines[0] == "Link clean (25 of 34 rules judged)"
    assert len(lines) == len(RULES) + 2 and lines[-1].endswith(" 0 fail, 0 damaged by the link, 9 not judged")
    assert "pass        video coding              64 rows  [HDMI 1.4, 5.4.4]" in lines
    assert any(line.startswith("not judged  format ") for line in lines)


def test_json_and_junit(tool, capture, tmp_path):
    """Both say the same as the text."""
    pytest.importorskip("junitparser")
    path = capture(Source(**SMALL, has_avi=False), damage=["1:40005:0ab"])
    came = tool("conform", path, "--json", "--clock", 25_200_000, "--junit", tmp_path / "a.xml", status=1)
    said = json.loads(came.stdout)
    states = {one["rule"]: one["verdict"] for one in said["rules"]}
    assert said["faulty"] and states["AVI InfoFrame"] == "fail" and list(states) == list(RULES)
    cases = {one.get("name"): one for one in ElementTree.parse(tmp_path / "a.xml").iter("testcase")}
    for name, state in states.items():
        kinds = [child.tag for child in cases[name]]
        assert kinds == {"pass": [], "fail": ["failure"], "damaged": ["failure"], "not judged": ["skipped"]}[state]
    assert cases["AVI InfoFrame"].get("classname") == "HDMI 1.4, 8.2.1"


def test_dvi(tool, program, tmp_path):
    """Of VIC 1 without guard bands four rules are kept and the others not judged; a damaged pixel breaks one."""
    sent = Sent((640, 16, 96, 48), (480, 10, 2, 33), (False, False), guards=0)
    plain = [("c", f"{int(one[1], 16) & 3:02x}", one[2]) if one[0] == "c" else one for one in sent.lines(2)]
    made = program("make", "dvi", source=raster_text(plain))
    hurt = program("damage", f"2:{10 * (800 * 100 + 300)}:0ab", source=made)
    for capture, wanted in ((made, {}), (hurt, {"video coding"})):
        (tmp_path / "a.tmc").write_bytes(capture)
        said = json.loads(tool("conform", tmp_path / "a.tmc", "--dvi", "--json", status=int(bool(wanted))).stdout)
        states = {one["rule"]: one["verdict"] for one in said["rules"]}
        judged = {"control characters", "control period", "video coding", "format"}
        assert list(states) == list(RULES) and {name for name, state in states.items() if state != "not judged"} == judged
        assert {name for name, state in states.items() if state in ("fail", "damaged")} == set(wanted)
    assert "[DVI 1.0, 3.2.2]" in tool("conform", tmp_path / "a.tmc", "--dvi", status=1).stdout.decode()
    assert states["format"] == "pass"


def test_refusals(tool, tmp_path, program):
    """What is no capture, and what does not align."""
    (tmp_path / "a.tmc").write_bytes(b"PNG")
    tool("conform", tmp_path / "a.tmc", status=3)
    tool("conform", tmp_path / "none.tmc", status=3)
    (tmp_path / "a.tmc").write_bytes(b"TMC1" + (80).to_bytes(4, "big") + bytes(30))
    assert b"Not aligned" in tool("conform", tmp_path / "a.tmc", status=1).stdout
    tool("conform", tmp_path / "a.tmc", "--clock", "0", status=2)
