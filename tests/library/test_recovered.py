"""Whole captures in Python: from a path, bytes or a file, as every kind; where their epochs begin; what notebooks and shells show of them;
the verdict on them, also as an assertion; and a DVI source that is read as HDMI."""

import base64
import io
import os
import random
import re
import subprocess
import sys
import warnings

import numpy as np
import pytest
from PIL import Image

import vabgrot
from tests.library.test_python import blocks, listing_of
from tests.models import feeding, hearing, model, relocking
from tests.support import HANGS, LISTING, TOP, run
from vabgrot import reading, verdict
from vabgrot.capture import lanes_of
from vabgrot.events import Kind
from vabgrot.testing import assert_clean

CAPTURES = 24
BARS = TOP / "examples" / "bars.content"
CLEAN = TOP / "examples" / "captures" / "clean.tmc"
KINDS = {
    "link": hearing.link_of,
    "dvi": lambda rows: model.dvi_text(columns) if (columns := model.aligned(rows)) else (7, b""),
    "track": lambda rows: model.tracked(rows, hearing.link_of),
    "relock": lambda rows: relocking.relocked(rows, hearing.link_of),
}
NOTHING = b"TMC1\0\0\0\0"  # a capture without bits
DVI = b"c 00 12\nv ff0000\nc 00 12\nv 00ff00112233\nc 02 20\nv 010203\nc 00 12\nend\n"


@pytest.fixture(autouse=True)
def found(library, monkeypatch):
    """The library that was built for these tests is the one that is found."""
    monkeypatch.setenv("VABGROT_LIBRARY", str(library / "libvabgrot.so.1"))


@pytest.fixture(scope="module")
def bars(executable):
    """A capture of the example's frames, of which the lanes are apart."""
    return run(executable, ["make", "content", "--offset", "7", "--skew", "0,30,35", "--version", "2"], BARS.read_bytes())[1]


@pytest.fixture(scope="module")
def slipped(executable, bars):
    """The same, in which a lane lost bits twice."""
    return run(executable, ["slip", "1:21000:3"], run(executable, ["slip", "2:39000:7"], bars)[1])[1]


def said(capture):
    """All events of a capture, and its end."""
    return [*capture.events], capture.end


@pytest.mark.parametrize("kind", KINDS)
def test_kinds(kind, compare):
    """The listing of what is recovered is the model's, of captures that slip and of those that do not."""

    def cases():
        for at in range(CAPTURES):
            data, rows = feeding.made_capture(random.Random(f"recovered {at}"))
            with warnings.catch_warnings(record=True):
                warnings.simplefilter("always")
                capture = vabgrot.recover(data, kind=kind)
            listing = listing_of([*capture.events, capture.end]) if capture.aligned else b""
            yield f"capture {at}", listing, KINDS[kind](rows)[1]
            yield f"the kind of capture {at}", capture.kind, kind

    compare(cases())


def test_sources(slipped, tmp_path):
    """The same of a path, of bytes in any buffer, and of a file."""
    path = tmp_path / "a.tmc"
    path.write_bytes(slipped)
    wanted = said(vabgrot.recover(path, kind="track"))
    for source in (str(path), slipped, bytearray(slipped), memoryview(slipped), np.frombuffer(slipped, np.uint8)):
        assert said(vabgrot.recover(source, kind="track")) == wanted
    for file in (io.BytesIO(slipped), open(path, "rb")):
        with file:
            assert said(vabgrot.recover(file, kind="track")) == wanted
    with open(path, encoding="latin-1") as file, pytest.raises(TypeError, match='with the mode "rb"'):
        vabgrot.recover(file)
    for wrong in (5, None, ["a.tmc"]):
        with pytest.raises(TypeError):
            vabgrot.recover(wrong)
    with pytest.raises(ValueError, match="no kind 'content' of captures"):
        vabgrot.recover(path, kind="content")
    with pytest.raises(vabgrot.Refused, match="the capture is cut off"):
        vabgrot.recover(slipped[:-1])


def test_places(slipped):
    """Each epoch begins where the model's columns do, and says why it begins there."""
    rows = model.lanes_in(slipped)
    wanted = []
    for start, end, _ in model.epochs(rows):
        columns = model.aligned([bits[start:end] for bits in rows])
        wanted.append((start, columns))
    capture = vabgrot.recover(slipped, kind="track")
    assert len(capture.epochs) == len(wanted) == 3 and [one.cause for one in capture.epochs] == [None, Kind.SLIP, Kind.SLIP]
    assert [one.lane for one in capture.epochs] == [None, 1, 2]
    for epoch, (start, columns) in zip(capture.epochs, wanted):
        assert epoch.searched == start and all(start <= place < start + 5000 for place in epoch.starts)
        for number, (bits, place) in enumerate(zip(rows, epoch.starts)):
            words = [int(bits[at : at + 10][::-1], 2) for at in range(place, place + 3000, 10)]
            assert words == [column[number] for column in columns[:300]]
    assert capture.columns == sum(one.columns for one in capture.epochs) > 4000
    none = vabgrot.recover(NOTHING)
    assert [one.starts for one in none.epochs] == [None] and not none.aligned


def test_packets(bars):
    """Their names, words and fields, by what was sent."""
    text = BARS.read_text()
    capture = vabgrot.recover(bars)
    names = {packet.name for packet in capture.packets}
    assert names == {"Audio clock", "Audio samples", "AVI InfoFrame", "Audio InfoFrame"}
    clock = next(packet for packet in capture.packets if packet.name == "Audio clock")
    n, cycles = map(int, re.search(r"(?m)^acr (\d+) (\d+)", text).groups())
    assert (clock.fields["N"], clock.fields["CTS"]) == (n, cycles) and str(n) in clock.words
    assert str(clock) == f"column {clock.first}: Audio clock: {clock.words}" and isinstance(clock, vabgrot.Event)
    with pytest.raises(ValueError, match="no packet"):
        vabgrot.Packet.of(next(iter(capture.events)))


def test_what_is_shown(bars, executable):
    """A few lines, however much there is; and the first frame."""
    capture = vabgrot.recover(bars)
    events = capture.events
    line = events[int(events.of(Kind.LINE)[0])]
    for one, lines in ((capture, 4), (events, 8), (line, 1), (capture.packets[0], 1), (vabgrot.judge(bars), 1)):
        assert repr(one).count("\n") < lines and len(repr(one)) < 700, repr(one)
    packets = run(executable, ["recover", "link"], bars)[1].count(b"\np ")
    assert (
        repr(capture) == f"Recovered(kind='link', aligned, {capture.columns:,} columns: 24 lines of 32 pixels; {packets} packets; 0 faults)"
    )
    assert repr(events).startswith(f"Events({len(events):,}: ") and "24 LINE" in repr(events)
    assert repr(line).startswith("Event(LINE, epoch=0, column=") and repr(line).endswith(" of 96 bytes)")
    shown = capture._repr_html_()
    data = base64.b64decode(re.search(r"data:image/png;base64,([^\"]+)", shown)[1])
    assert np.array_equal(np.asarray(Image.open(io.BytesIO(data))), capture.frames[0])
    nothing = vabgrot.recover(NOTHING)
    assert "img" not in nothing._repr_html_() and repr(nothing.events) == "Events(0)"


def test_verdicts(bars, slipped, executable, tmp_path):
    """That of the tools, of the same reading, as an object."""
    for number, data in enumerate((bars, slipped, CLEAN.read_bytes(), run(executable, ["make", "dvi"], DVI)[1])):
        path = tmp_path / f"{number}.tmc"
        path.write_bytes(data)
        mine, its = vabgrot.judge(data), verdict.verdict_of(reading.read(path))
        assert mine.plain() == its.plain() and mine.causes() == its.causes()
        assert [rule.line for rule in mine.rules] == [rule.line for rule in its.rules]
    faulty = vabgrot.judge(slipped)
    assert faulty.word == "Link faulty" and str(faulty).startswith(f"{faulty.headline}\nslip: lane 1, before bit ")
    assert {rule.state for rule in faulty.rules} <= {"pass", "fail", "damaged", "not judged"} and faulty.rules[0].name
    assert vabgrot.judge(CLEAN).word == "Clean"


def test_assertions(slipped):
    """A clean capture passes; of another one the message is the verdict."""
    assert_clean(CLEAN)
    with pytest.raises(AssertionError) as failed:
        assert_clean(slipped)
    assert str(failed.value) == str(vabgrot.judge(slipped))


PLUGGED = """
def test_clean(assert_clean):
    assert_clean("my.tmc")


def test_faulty(assert_clean):
    assert_clean("faulty.tmc")
"""


def test_the_plugin(slipped, tmp_path, found):
    """The fixture of pytest, and the guide's test without it, in a folder of its own."""
    (tmp_path / "faulty.tmc").write_bytes(slipped)
    (tmp_path / "my.tmc").write_bytes(CLEAN.read_bytes())
    (tmp_path / "test_core.py").write_text(PLUGGED)
    (guide,) = (it for it in blocks("python") if "assert_clean" in it)
    (tmp_path / "test_guide.py").write_text(guide)
    words = [sys.executable, "-m", "pytest", "-q", "-p", "vabgrot.plugin", "-p", "no:cacheprovider", "--rootdir", tmp_path, tmp_path]
    env = {**os.environ, "PYTHONPATH": str(TOP / "python")}
    came = subprocess.run(words, cwd=tmp_path, capture_output=True, text=True, env=env, timeout=HANGS)
    assert came.returncode == 1 and "1 failed, 2 passed" in came.stdout, came.stdout + came.stderr
    assert f"E       AssertionError: {vabgrot.judge(slipped).headline}\n" in came.stdout and "vabgrot/testing.py" not in came.stdout


def test_dvi(executable, bars):
    """It is said of a DVI source that it was read as HDMI; and of nothing else."""
    dvi = run(executable, ["make", "dvi"], DVI)[1]
    lanes = [bytes(lane) for lane in lanes_of(dvi)[0]]
    assert not vabgrot.recover(dvi, kind="relock").aligned  # which a guard band would confirm
    for kind in ("link", "track"):
        with pytest.warns(vabgrot.KindWarning, match='If this is DVI, read it with kind="dvi"') as warned:
            capture = vabgrot.recover(dvi, kind=kind)
            [*vabgrot.receive(*lanes, kind=kind)]
        assert [it.filename for it in warned] == [__file__] * 2 and not len(capture.frames)
    with warnings.catch_warnings():
        warnings.simplefilter("error")
        assert len(vabgrot.recover(dvi, kind="dvi").events.of(Kind.LINE)) == 3
        for data in (bars, run(executable, ["make", "link"], LISTING)[1], NOTHING):
            vabgrot.recover(data)
