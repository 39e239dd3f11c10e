"""tools/characters: the bits of a place, their names and what was wanted; and what makes faults alike. Sources are coded here, by
the model of tests/models."""

import json

import pytest

from tests.models.model import CONTROL, capture_of, coded, sent_bits
from tests.models.source import Source, text
from vabgrot.judging.diagnosis import of_lanes

GUARD = ((0x2CC, 0x133, 0x2CC),) * 2
WIDTH, ROWS = 24, 12


def control(value, count):
    """So many control columns of a value."""
    return [tuple(CONTROL[value >> 2 * lane & 3] for lane in range(3))] * count


def row(number, starts=(0, 0, 0)):
    """The columns of a row, coded from these disparities on, and the disparities behind it."""
    lanes, ends = [], []
    for lane, disparity in enumerate(starts):
        words = []
        for pixel in range(WIDTH):
            words.append(coded((37 * number + 11 * pixel + 85 * lane) & 255, disparity))
            disparity += 2 * words[-1].bit_count() - 10
        lanes.append(words)
        ends.append(disparity)
    return list(zip(*lanes)), ends


def capture(tmp_path, columns):
    """The file of the capture of these columns."""
    path = tmp_path / "a.tmc"
    path.write_bytes(capture_of(1, [sent_bits(lane) for lane in zip(*columns)]))
    return path


def sent(preamble=8, guards=2, value=0x04, carries=False):
    """The columns of rows between control periods."""
    columns, ends = control(0, 20), (0, 0, 0)
    for number in range(ROWS):
        pixels, ends = row(number, ends if carries else (0, 0, 0))
        columns += control(0, 30) + control(value, preamble) + [*GUARD][:guards] + pixels
    return columns + control(0, 40)


CAUSES = (
    ({}, []),
    ({"carries": True}, ["the right bytes at another disparity: the coder does not start at 0 after blanking"]),
    ({"guards": 0}, ["no guard band before a row, else right"]),
    ({"guards": 1}, ["one guard column before a row where two are wanted, else right"]),
    ({"preamble": 5}, ["a preamble of 5 columns before a row, wants 8"]),
    ({"value": 0x08}, ["CTL0 to CTL3 are 0100 before a row, want 1000"]),
)


@pytest.mark.parametrize("wrong, wanted", CAUSES, ids=[str(wrong) for wrong, _ in CAUSES])
def test_what_rows_have_alike(tool, program, tmp_path, wrong, wanted):
    """Each mistake of a source is named."""
    came = tool("characters", capture(tmp_path, sent(**wrong)), "--json", status=int(bool(wrong)))
    said = json.loads(came.stdout)["alike"]
    assert len(said) == len(wanted)
    for one, words in zip(said, wanted):
        assert one.startswith(words)


@pytest.mark.parametrize("order, says", (((1, 0, 2), "lanes 0 and 1"), ((0, 2, 1), "lanes 1 and 2")))
def test_lanes_exchanged(program, tmp_path, order, says):
    """By the openings; lanes 0 and 2 open rows alike."""
    columns = [tuple(column[lane] for lane in order) for column in sent()]
    assert of_lanes(capture(tmp_path, columns))[0].startswith(f"{says} exchanged: ")


def test_names(tool, program, tmp_path):
    """Each kind of column of a listing has its name, and the bits that were sent."""
    path = tmp_path / "a.tmc"
    small = {"across": (64, 16, 96, 48), "down": (4, 1, 2, 3), "vic": 0, "fields": 1, "rate": 0}
    path.write_bytes(program("make", "link", source=text(Source(**small, pixel="1d9a44").lines())))
    said = json.loads(tool("characters", path, "--at", 0, "--count", 2000, "--json").stdout)
    columns = {one["column"]: one for one in said["columns"]}
    first = next(one for one in said["columns"] if one["says"] == "pixel 0 of row 0, 0:0:0 as frame:row:pixel")
    assert [it["name"] for it in first["lanes"]] == [f"byte {byte} at disparity +0" for byte in ("44", "9a", "1d")]
    assert [int(it["hex"], 16) for it in first["lanes"]] == [coded(byte, 0) for byte in (0x44, 0x9A, 0x1D)]
    assert all(f"{int(it['hex'], 16):010b}" == it["bits"] for one in said["columns"] for it in one["lanes"])
    guards = columns[first["column"] - 1]
    assert guards["says"] == "guard column 2 before row 0" and [it["hex"] for it in guards["lanes"]] == ["2cc", "133", "2cc"]
    preamble = columns[first["column"] - 3]["lanes"]
    assert [it["name"] for it in preamble] == ["control, HSYNC 1, VSYNC 1", "control, CTL0 1, CTL1 0", "control, CTL2 0, CTL3 0"]
    island = next(one for one in said["columns"] if one["says"] == "column 0 of packet 0")
    assert island["lanes"][0]["name"].endswith("header bit 0 is 0")  # 82 of an AVI InfoFrame, its lowest bit first
    assert columns[island["column"] + 1]["lanes"][0]["name"].endswith("header bit 1 is 1")
    assert not any(it["wanted"] for one in said["columns"] for it in one["lanes"])


def test_what_was_wanted(tool, program, tmp_path):
    """A damaged control and guard character and a damaged pixel. The first aligned column is the 46th: twelve before the first row."""
    columns = sent()
    right = list(columns)
    places = {44: 1, 77: 2, 82: 0}  # columns of control, guard and pixels, and the lane that is hurt
    for column, lane in places.items():
        words = list(columns[46 + column])
        words[lane] ^= 0x0C0
        columns[46 + column] = tuple(words)
    path = capture(tmp_path, columns)
    for column, lane in places.items():
        said = json.loads(tool("characters", path, "--at", column, "--count", 1, "--json", status=1).stdout)
        cell = said["columns"][0]["lanes"][lane]
        assert int(cell["hex"], 16) == right[46 + column][lane] ^ 0x0C0
        assert cell["wanted"].startswith(f"{right[46 + column][lane]:03x}") or column == 82
    assert "not at disparity" in cell["name"] and cell["wanted"]  # of a damaged pixel another byte was received


def test_the_first_fault_is_shown(tool, program, tmp_path):
    columns = sent()
    columns[90] = (0x354, 0x0F0, 0x354)
    shown = tool("characters", capture(tmp_path, columns), "--count", 3, status=1).stdout.decode().splitlines()
    assert shown[8].startswith("column 44: control column ")
    assert shown[10] == "  lane 1 (green)  0f0  0011110000  no control character; byte ee; WANTED 354, control, CTL0 0, CTL1 0"


def test_refusals(tool, program, tmp_path):
    """Words that are wrong, a column that is not there, and what is no capture."""
    path = capture(tmp_path, sent())
    tool("characters", path, "--at", "x", status=2)
    tool("characters", path, "--count", "0", status=2)
    tool("characters", path, "--at", 100_000, status=2)
    path.write_bytes(b"TMC1")
    tool("characters", path, status=3)


@pytest.mark.parametrize("make", ([], ["--offset", 4321, "--skew", "0,35,70"], ["--offset", 77, "--skew", "70,0,3", "--version", 2]))
def test_columns_are_those_of_the_listing(tool, program, tmp_path, make):
    """Wherever the lanes begin, a column that a fault names has the character that was put there. The lane that begins last is
    the one whose damage is told by its place; blocks of 4,096 bytes are passed."""
    source = text(Source(across=(256, 16, 96, 60), down=(60, 2, 2, 6), vic=0, fields=3, rate=48000).lines())
    sent = program("make", "link", *make, source=source)
    path = tmp_path / "a.tmc"
    for place in (20_000, 100_000, 250_000):
        path.write_bytes(program("damage", f"1:{place}:155", source=sent))
        lines = program("recover", "link", source=path.read_bytes(), status=1).decode().splitlines()
        columns = {int(line.split()[3 if line.split()[1] in ("word", "code") else 2]) for line in lines if line.startswith("! ")}
        said = json.loads(tool("characters", path, "--at", min(columns) - 3, "--count", 40, "--json", status=1).stdout)
        bits = "".join(one["lanes"][1]["bits"][::-1] for one in said["columns"])
        assert f"{0x155:010b}"[::-1] in bits


def test_a_place_as_people_say_it(tool, program, tmp_path):
    """Frame, row and pixel: the column that says so; a place that is not there is refused."""
    path = tmp_path / "a.tmc"
    small = {"across": (64, 16, 96, 48), "down": (4, 1, 2, 3), "vic": 0, "fields": 3, "rate": 0}
    path.write_bytes(program("make", "link", source=text(Source(**small, pixel="1d9a44").lines())))
    for frame, row, pixel in ((0, 0, 0), (1, 3, 63), (2, 1, 30)):
        said = json.loads(tool("characters", path, "--at", f"{frame}:{row}:{pixel}", "--count", 1, "--json").stdout)["columns"][0]
        assert said["says"] == f"pixel {pixel} of row {4 * frame + row}, {frame}:{row}:{pixel} as frame:row:pixel"
        line = 10 * frame + 5 + row
        assert said["column"] % (64 + 16 + 96 + 48) == (224 * line + 144 + pixel - aligned(path)) % 224
    for place in ("3:0:0", "0:4:0", "0:0:64"):
        assert b"the capture has no such pixel" in tool("characters", path, "--at", place, status=2).stderr
    for place in ("1:2", "1:2:x", ":1:2"):
        tool("characters", path, "--at", place, status=2)


def aligned(path):
    """The column of the source with which the first aligned one is."""
    from vabgrot.lanes.columns import alignment_of

    return alignment_of(path, 0, by_guards=False)[0] // 10
