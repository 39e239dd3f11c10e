"""vabgrot.formats.modes: its numbers are those that edid-decode has, which others keep, and some of the standards themselves."""

import re
import shutil
import subprocess

import pytest

from vabgrot.formats.modes import CTA, DMT, formats, of_vic

HEAD = re.compile(r"(VIC|DMT|CVT) *(\w*): +(\d+)x(\d+)(i?) +([\d.]+) Hz +(\d+:\d+) +[\d.]+ kHz +([\d.]+) MHz")
HAS_DECODER = pytest.mark.skipif(shutil.which("edid-decode") is None, reason="edid-decode of Debian's package edid-decode is missing")
PART = re.compile(r"([HV])front +(\d+) .sync +(\d+) .back +(\d+) .pol ([PN])(?: .border (\d+))?")


def decoded(*words):
    """What edid-decode says: size and scan, clock in Hz, aspect, parts across and down with polarity, half lines."""
    text = subprocess.run(["edid-decode", *words], capture_output=True, text=True, check=True).stdout
    head, parts = HEAD.search(text), {}
    for name, front, sync, back, sign, border in PART.findall(text):
        edge = int(border or 0)
        parts[name] = (int(front) + edge, int(sync), int(back) + edge, sign == "P")
    size = (int(head[3]), int(head[4]), head[5] == "i")
    return size, round(float(head[8]) * 1e6), head[7], parts["H"], parts["V"], "+0.5" in text


def ours(found):
    size = (found.across.active, found.rows, found.interlaced)
    across, down = ((axis.front, axis.sync, axis.back, axis.positive) for axis in (found.across, found.down))
    return size, found.clock, found.aspect, across, down, found.halves


def test_every_code():
    assert [found.code for found in formats() if found.source == CTA] == list(range(1, 108))
    assert [found.code for found in formats() if found.source == DMT] == list(range(1, 0x59))
    assert of_vic(108) is None and of_vic(0) is None


@HAS_DECODER
def test_the_vics_of_edid_decode():
    for found in formats():
        if found.source == CTA:
            assert ours(found) == decoded("--vic", str(found.code)), found.name


@HAS_DECODER
def test_the_dmts_of_edid_decode():
    """Debian 12's has other vertical numbers for 43h and 4Bh than the formula that DMT names for both (CVT, reduced blanking)
    gives, also by edid-decode itself: these are compared with. It writes some aspect ratios as no reduced fraction."""
    formula = {0x43: "w=1856,h=1392,fps=120,rb=1", 0x4B: "w=1920,h=1440,fps=120,rb=1"}
    for found in formats():
        if found.source != DMT:
            continue
        words = ("--cvt", formula[found.code]) if found.code in formula else ("--dmt", str(found.code))
        theirs, own = decoded(*words), ours(found)
        assert (own[:2], own[3:]) == (theirs[:2], theirs[3:]), found.name


@HAS_DECODER
def test_the_lists_of_edid_decode():
    """It has no code in between that is missing here."""
    for option, most, source in (("--list-vics", 107, CTA), ("--list-dmts", 0xFF, DMT)):
        text = subprocess.run(["edid-decode", option], capture_output=True, text=True, check=True).stdout
        codes = {int(found[2], 0) for found in HEAD.finditer(text)}
        assert {code for code in codes if code <= most} == {found.code for found in formats() if found.source == source}


@pytest.mark.parametrize(
    "vic, rate, total, repetitions",
    [  # CTA-861, section 4, and its pixel repetitions
        (1, 59.940, (800, 525), (0,)),
        (4, 60.0, (1650, 750), (0,)),
        (5, 60.0, (2200, 562), (0,)),
        (6, 59.940, (1716, 262), (1,)),
        (10, 59.940, (3432, 262), tuple(range(10))),
        (14, 59.940, (1716, 525), (0, 1)),
        (21, 50.0, (1728, 312), (1,)),
        (35, 59.940, (3432, 525), (0, 1, 3)),
        (39, 50.0, (2304, 625), (0,)),
        (60, 24.0, (3300, 750), (0,)),
        (98, 24.0, (5500, 2250), (0,)),
        (107, 60.0, (4400, 2250), (0,)),
    ],
)
def test_totals_and_rates(vic, rate, total, repetitions):
    found = of_vic(vic)
    assert (found.across.total, found.down.total) == total
    assert abs(found.rate - rate) < 0.001
    assert found.repetitions == repetitions
