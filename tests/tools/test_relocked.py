"""Captures that report, pictures, sound, timing and survey read anew by `recover relock`, since an alignment of them was wrong."""

import csv
import io
import json
import random

import pytest

from tests.models import model

pytest.importorskip("numpy", reason="Debian's package python3-numpy is missing")
from vabgrot import reading  # noqa: E402

ROWS, ACROSS, FIRST = 12, 80, 48  # rows, columns of each line, and the column of the first guard
ANEW = b"read again by guard bands"


@pytest.fixture
def sent(program):
    """Makes a capture of some rows of unlike pixels, with 48 control columns before each."""
    rows = "".join(f"c 00 40\nc 04 8\nv {f'{row:02x}8011' * (ACROSS - FIRST - 2)}\n" for row in range(ROWS))
    return lambda *words: program("make", "link", *words, source=f"{rows}c 00 40\nend\n".encode())


@pytest.fixture
def astray(program, sent):
    """A capture of which a control character of lane 1 before the first edge is damaged, so many characters before it."""
    return lambda back: program("damage", f"1:{10 * (FIRST - back)}:300", source=sent())


@pytest.fixture
def chosen(tool, tmp_path):
    """The grammar by which a capture is read."""

    def read(capture):
        path = tmp_path / "chosen.tmc"
        path.write_bytes(capture)
        return reading.read(path).grammar

    return read


def with_errors(data, rate, seed):
    """A capture of version 2 in which each bit of a lane is wrong by chance."""
    rng = random.Random(seed)
    lanes = ["".join(str(int(bit) ^ (rng.random() < rate)) for bit in lane) for lane in model.lanes_in(data)]
    return model.capture_of(2, lanes)


def test_when_a_capture_is_read_anew(program, sent, astray, chosen):
    """A damaged character among the eight before the edge, also the last one, after which lines open a character off; not one before."""
    assert chosen(sent()) == "track"
    assert [chosen(astray(back)) for back in range(1, 10)] == ["relock"] * 7 + ["track"] * 2
    assert chosen(sent("--skew", "0,300,35")) == "track"  # nothing aligns, and nothing helps
    guard = program("damage", f"1:{10 * FIRST}:300", source=sent())
    assert chosen(guard) == "track"  # the alignment is right, and lists the line that `recover relock` passes over


@pytest.mark.parametrize("back", [1, 4, 7])
def test_the_report_of_a_wrong_first_alignment(tool, astray, tmp_path, back):
    pytest.importorskip("jinja2", reason="Debian's package python3-jinja2 is missing")
    (tmp_path / "a.tmc").write_bytes(astray(back))
    came = tool("report", tmp_path / "a.tmc", "-o", tmp_path / "a.html", "--json", status=1)
    said = json.loads(came.stdout)
    assert said["relocked"] and said["faulty"] and said["verdict"]["word"] == "Link faulty" and said["advice"] == []
    assert (said["rows"], said["faults"]) == (ROWS - 1, [])
    assert said["says"].startswith("Link faulty: read again by guard bands")
    assert ANEW in came.stderr
    page = (tmp_path / "a.html").read_text()
    assert "read again by guard bands" in page and "recover relock" in page and 'id="advice"' not in page


def test_the_report_where_nothing_helps(tool, sent, tmp_path):
    pytest.importorskip("jinja2", reason="Debian's package python3-jinja2 is missing")
    (tmp_path / "a.tmc").write_bytes(sent("--skew", "0,300,35"))
    said = json.loads(tool("report", tmp_path / "a.tmc", "--json", status=1).stdout)
    assert not said["relocked"] and said["verdict"]["word"] == "Not aligned"
    assert len(said["advice"]) == 1 and f"At the skew 0,300,35, {ROWS} openings" in said["advice"][0]


def test_random_bit_errors(tool, program, sent, chosen, tmp_path):
    """At one wrong bit in a thousand: what the report says is the listing of `recover relock` where that is what was chosen, and the
    characters at its faults are those of its alignment."""
    pytest.importorskip("jinja2", reason="Debian's package python3-jinja2 is missing")
    found = []
    for seed in range(40):
        hurt = with_errors(sent("--skew", "3,40,17"), 1e-3, seed)
        if chosen(hurt) == "relock":
            found.append(hurt)
        if len(found) == 3:
            break
    assert len(found) == 3
    for hurt in found:
        (tmp_path / "a.tmc").write_bytes(hurt)
        said = json.loads(tool("report", tmp_path / "a.tmc", "--json", status=1).stdout)
        lines = program("recover", "relock", source=hurt, status=1).decode().splitlines()
        assert said["relocked"] and said["rows"] == sum(line.startswith("v ") for line in lines) > ROWS / 2
        assert len(said["faults"]) == sum(line.startswith("! ") for line in lines)
        words = [it["characters"] for it in said["faults"] if it["kind"] == "word"]
        assert all("no control character" in it and "wants 354" in it or "wants 0ab" in it or not it for it in words)


def test_pictures_sound_and_timing(tool, program, tmp_path):
    """Frames and samples of a capture that begins within an island, and of which the fourth control character before the first edge is
    damaged."""
    from vabgrot.lanes.columns import alignment_of

    words = ["--mode", "32,8,16,64,24,2,2,2,1", "--sound", "tone:1000"]
    capture = program("make", "content", "--offset", 300, source=tool("content", "pattern:moving*4", *words).stdout)
    (tmp_path / "a.tmc").write_bytes(capture)
    hurt = program("damage", f"1:{alignment_of(tmp_path / 'a.tmc', 0, False)[1] + 80}:300", source=capture)
    assert ANEW not in tool("pictures", tmp_path / "whole", source=capture).stderr
    assert ANEW in tool("pictures", tmp_path / "anew", source=hurt).stderr
    whole, anew = ([path.read_bytes() for path in sorted((tmp_path / name).iterdir())] for name in ("whole", "anew"))
    assert 2 <= len(anew) <= len(whole) and anew == whole[-len(anew) :]
    listing = program("recover", "relock", source=hurt, status=0)
    tool("pictures", tmp_path / "listed", source=listing)
    assert [path.read_bytes() for path in sorted((tmp_path / "listed").iterdir())] == anew
    came = tool("sound", tmp_path / "a.wav", "--rate", 48000, source=hurt)
    assert ANEW in came.stderr and b"no faults" in came.stderr
    (tmp_path / "a.tmc").write_bytes(hurt)
    assert ANEW in tool("timing", tmp_path / "a.tmc", status=1).stdout


def test_the_row_of_a_survey(tool, sent, astray, tmp_path):
    (tmp_path / "astray.tmc").write_bytes(astray(4))
    (tmp_path / "right.tmc").write_bytes(sent())
    (tmp_path / "apart.tmc").write_bytes(sent("--skew", "0,300,35"))
    tool("survey", tmp_path, "-o", tmp_path / "s.csv", status=1)
    rows = {row["path"].rsplit("/", 1)[1]: row for row in csv.DictReader(io.StringIO((tmp_path / "s.csv").read_text()))}
    astray_row = rows["astray.tmc"]
    wanted = {"verdict": "link faulty", "lines": str(ROWS - 1), "faults": "0", "noise": "0", "word": "0", "relocked": "1"}
    assert {name: astray_row[name] for name in wanted} == wanted and ANEW.decode() in astray_row["note"]
    assert (rows["right.tmc"]["verdict"], rows["right.tmc"]["relocked"]) == ("source wrong", "0")  # its rows have no sync
    assert (rows["apart.tmc"]["verdict"], rows["apart.tmc"]["relocked"]) == ("not aligned", "0")
