"""What tools write for machines says the same as what they write for people."""

import csv
import json

import pytest

from tests.support import TOP

EXAMPLES = TOP / "examples"


@pytest.fixture
def captures(program, tmp_path):
    """A clean capture, one with a damaged pixel, and one whose lanes are exchanged."""
    sent = program("make", "content", source=(EXAMPLES / "bars.content").read_bytes())
    folder = tmp_path / "captures"
    folder.mkdir()
    (folder / "clean.tmc").write_bytes(sent)
    (folder / "pixel.tmc").write_bytes(program("damage", "0:28450:3a5", source=sent))
    return folder


def test_report(tool, captures, tmp_path):
    """The numbers are those of the page's last line; no page is written where none is asked for."""
    came = tool("report", captures / "pixel.tmc", "--json", "-o", tmp_path / "a.html", status=1)
    said = json.loads(came.stdout)
    assert b"Link faulty: 1 code" in came.stderr and (tmp_path / "a.html").is_file()
    assert (len(said["frames"]), len(said["packets"]), len(said["faults"])) == (3, 12, 1)
    assert said["faulty"] and said["verdict"]["word"] == "Link faulty" and said["faults"][0]["kind"] == "code"
    assert "not at disparity" in said["faults"][0]["characters"]
    assert {one["verdict"] for one in said["rules"] if one["rule"] == "video coding"} == {"damaged"}
    assert said["timing"][0]["width"] == 32 and said["samples"] == 10
    came = tool("report", captures / "clean.tmc", "--json")
    assert not json.loads(came.stdout)["faulty"] and not (TOP / "report.html").exists()


def test_survey(tool, captures, tmp_path):
    """The rows are those of the table; formats where they are asked for."""
    came = tool("survey", captures, "-o", tmp_path / "a.csv", "--json", "--timing", status=1)
    rows = json.loads(came.stdout)["captures"]
    with open(tmp_path / "a.csv", newline="") as file:
        table = list(csv.DictReader(file))
    assert [{name: str(value) for name, value in row.items() if name != "seconds"} for row in rows] == [
        {name: value for name, value in row.items() if name != "seconds"} for row in table
    ]
    assert [row["verdict"] for row in rows] == ["clean", "link faulty"] and rows[1]["code"] == 1
    assert all(row["slips"] == 0 and row["format"].startswith("no format of CTA-861") and row["timing"] >= 1 for row in rows)


def test_survey_of_dvi(tool, program, tmp_path):
    """Without contents."""
    capture = program("make", "dvi", source=b"c 00 30\nv ff0000\nc 00 30\nend\n")
    (tmp_path / "a.tmc").write_bytes(capture)
    came = tool("survey", tmp_path / "a.tmc", "-o", tmp_path / "a.csv", "--json", "--dvi")
    row = json.loads(came.stdout)["captures"][0]
    assert (row["verdict"], row["lines"], row["pixels"], row["faults"]) == ("clean", 1, 1, 0)


def test_survey_of_slips(tool, program, captures, tmp_path):
    """A lane that lost bits between two frames."""
    sent = (captures / "clean.tmc").read_bytes()
    (tmp_path / "a.tmc").write_bytes(program("slip", "2:26003:3", source=sent))
    came = tool("survey", tmp_path / "a.tmc", "-o", tmp_path / "a.csv", "--json", status=1)
    assert json.loads(came.stdout)["captures"][0]["slips"] == 1


def test_lanes_look(tool, captures):
    """Its lines, and the command that is to be pasted."""
    shown = tool("lanes", "look", captures / "clean.tmc").stdout.decode().splitlines()
    said = json.loads(tool("lanes", "look", captures / "clean.tmc", "--json").stdout)
    assert said["lanes"] + said["says"] == shown and not said["faulty"] and said["paste"] is None


def test_slice(tool):
    """On standard error, since the capture is standard output."""
    came = tool("slice", EXAMPLES / "red.vcd", "--json")
    said = json.loads(came.stderr)
    assert came.stdout.startswith(b"TMC") and not said["faulty"]
    assert [lane["bits"] for lane in said["lanes"]] == [270, 270, 270]
