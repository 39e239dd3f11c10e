"""Encrypted links (HDCP): they are told by their control characters, whatever damage there is, and nothing is measured of them."""

import json

import pytest

from tests.models.enciphered import Link
from tests.models.source import Source, text
from tests.tools.test_errors import turned

pytest.importorskip("numpy", reason="Debian's package python3-numpy is missing")

SMALL = {"across": (128, 16, 96, 68), "down": (32, 2, 2, 6), "vic": 0, "clock": 25_200_000, "fields": 3}
RATES = (0.0, 1e-5, 1e-4, 1e-3)


def told(path, capture):
    """How a capture says that it is encrypted."""
    from vabgrot.capture import header_of
    from vabgrot.lanes.columns import Columns, alignment_of
    from vabgrot.lanes.encryption import encryption_in

    path.write_bytes(capture)
    return encryption_in(Columns(path, alignment_of(path, 0, by_guards=False), header_of(capture)[0]))


@pytest.mark.parametrize("rate", RATES)
@pytest.mark.parametrize("mark", ("EESS", "OESS"))
def test_both_signallings_are_told(tmp_path, compare, mark, rate):
    """Of HDMI and of DVI, with up to a wrong bit in a thousand."""
    cases = []
    for seed in range(6):
        found = told(tmp_path / "a.tmc", Link(mark, islands=mark == "EESS", seed=seed).capture(rate, seed))
        cases.append((f"{mark}, seed {seed}", (found.kind, found.marked >= 2), (mark, True)))
    compare(cases)


@pytest.mark.parametrize("rate", (*RATES, 1e-2))
def test_a_plain_link_is_not(tmp_path, compare, rate):
    """Neither with damage, nor where CTL3, or CTL0 and CTL3, are tied to 1."""
    cases = []
    for seed in range(4):
        for islands, ctl in ((True, 0), (False, 0), (False, 0b1000), (False, 0b1001), (True, 0b1000)):
            link = Link(None, islands=islands, ctl=ctl, seed=seed)
            cases.append((f"{islands}, {ctl}, seed {seed}", told(tmp_path / "a.tmc", link.capture(rate, seed)), None))
    compare(cases)


def test_a_conforming_source_is_not(program, tmp_path):
    """One with islands, in each of three positions of the sampling."""
    for words in ((), ("--offset", 1237, "--skew", "0,35,70")):
        assert told(tmp_path / "a.tmc", program("make", "link", *words, source=text(Source(**SMALL, pixel="1d9a44").lines()))) is None


def test_what_lanes_look_says(tool, tmp_path):
    """The lanes are right, and the link is encrypted; a field before the encryption begins is not counted."""
    (tmp_path / "a.tmc").write_bytes(Link("EESS").capture())
    said = json.loads(tool("lanes", "look", tmp_path / "a.tmc", "--json").stdout)
    assert said["encrypted"].startswith("EESS in 2 of 2 fields, first at column ")
    lines = tool("lanes", "look", tmp_path / "a.tmc").stdout.decode().splitlines()
    assert lines[3].startswith("right as it is: ") and lines[4].startswith("Encrypted: pixels and packets are not judged (HDCP; EESS in ")
    (tmp_path / "a.tmc").write_bytes(Link("OESS", islands=False).capture())
    lines = tool("lanes", "look", tmp_path / "a.tmc", status=1).stdout.decode().splitlines()
    assert lines[3].startswith("no guards: ") and lines[4].startswith("Encrypted: ")


@pytest.mark.parametrize("mark", ("EESS", "OESS"))
def test_errors_gives_no_rate(tool, program, tmp_path, mark):
    """It is refused, with what to do; the same link without the signalling is measured."""
    words = ["--dvi"] * (mark == "OESS")
    (tmp_path / "a.tmc").write_bytes(Link(mark, islands=not words).capture())
    for more in ((), ("--at-most", "1e-3"), ("--json",)):
        said = tool("errors", tmp_path / "a.tmc", *words, *more, status=3).stderr.decode()
        assert "Encrypted: pixels and packets are not judged" in said and "HDCP" in said
    plain = program("make", "link", source=text(Source(**SMALL, pixel="1d9a44").lines()))
    (tmp_path / "a.tmc").write_bytes(turned(plain, 1, [50_000]))
    tool("errors", tmp_path / "a.tmc", status=1)


@pytest.mark.parametrize("mark", ("EESS", "OESS"))
def test_all_tools_say_one_verdict(tool, tmp_path, mark):
    """Neither rules nor contents are judged, and the first line says why."""
    words = ["--dvi"] * (mark == "OESS")
    (tmp_path / "a.tmc").write_bytes(Link(mark, islands=not words).capture())
    report = json.loads(tool("report", tmp_path / "a.tmc", "--json", *words, status=1).stdout)["verdict"]
    conform = json.loads(tool("conform", tmp_path / "a.tmc", "--json", *words, status=1).stdout)["verdict"]
    assert report == conform and report["word"] == "Encrypted" and report["encrypted"].startswith(mark)
    assert report["headline"].startswith("Encrypted: pixels and packets are not judged (HDCP") and not sum(report["rules"].values())
    tool("survey", tmp_path / "a.tmc", "-o", tmp_path / "survey.csv", *words, status=1)
    assert ",encrypted," in (tmp_path / "survey.csv").read_text()
