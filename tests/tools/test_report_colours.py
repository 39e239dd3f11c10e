"""tools/report: frames in the colours that InfoFrames tell, the places of faults in them, and packets in words with their numbers.
The page's data is read without a browser; expected pixels are those of BT.601 and of the packing of HDMI 1.4, by hand."""

import base64
import io
import json
import re
import zlib

import pytest
from PIL import Image

from tests.tools.columns import place_of

MODE = "8,4,16,64,4,1,2,1,1"
COLOURS = [(255, 255, 255), (255, 0, 0), (0, 255, 0), (0, 0, 255)]


@pytest.fixture
def image(tmp_path):
    picture = Image.new("RGB", (8, 4))
    picture.putdata([COLOURS[at // 2 % 4] for at in range(32)])
    picture.save(tmp_path / "a.png")
    return tmp_path / "a.png"


def page_of(tool, tmp_path, capture, status):
    """The text of a capture's page, and the data of its script."""
    (tmp_path / "a.tmc").write_bytes(capture)
    tool("report", tmp_path / "a.tmc", "-o", tmp_path / "a.html", status=status)
    text = (tmp_path / "a.html").read_text("utf-8")
    packed = re.search(r'id="data">([^<]*)<', text)[1]
    return text, json.loads(zlib.decompress(base64.b64decode(packed)))


@pytest.mark.parametrize(
    "words", [["--encoding", "ycbcr444"], ["--encoding", "ycbcr422"], ["--encoding", "ycbcr444", "--depth", 36]]
)
def test_frames_are_in_their_colours(tool, program, image, tmp_path, words):
    """Colours of two pixels each come back within a step of the limited range."""
    listing = tool("content", image, image, "--mode", MODE, *words).stdout
    capture = program("make", "content", source=listing)
    text, data = page_of(tool, tmp_path, capture, 0)
    assert [(frame["width"], frame["height"]) for frame in data["frames"]] == [(8, 4)] * 2
    shown = [it for it in re.findall(r"data:image/png;base64,([A-Za-z0-9+/=]+)", json.dumps(data["thumbs"]))]
    found = [Image.open(io.BytesIO(base64.b64decode(it))).convert("RGB") for it in shown]
    assert found and found[0].size == (8, 4)
    for pixel, wanted in zip(found[0].getdata(), [COLOURS[at // 2 % 4] for at in range(32)]):
        assert all(abs(one - other) <= 2 for one, other in zip(pixel, wanted))
    assert "<small>Y " in text and "SMPTE 170M (BT.601) <small>C 1</small>" in text


def test_faults_are_at_their_pixels(tool, program, image, tmp_path):
    """Of 36 bits a pixel the fourth column of a row has bits of the third pixel."""
    listing = tool("content", image, image, "--mode", MODE, "--depth", 36).stdout
    capture = program("make", "content", source=listing)
    clean = program("recover", "link", source=capture)
    damaged = program("damage", f"1:{place_of(capture, clean, 5, 3)}:354", source=capture)
    _, data = page_of(tool, tmp_path, damaged, 1)
    faults = data["faults"]
    marks = [(faults["x"][it], faults["y"][it]) for it, kind in enumerate(faults["kind"]) if kind == "code"]
    assert marks == [(2, 1)] and [frame["width"] for frame in data["frames"]] == [8, 8]


def test_packets_have_their_numbers(tool, program, image, tmp_path):
    words = [
        "--packet",
        "dynamic:EOTF=2,max=1000",
        "--packet",
        "hdmi:HDMI_VIC=2",
        "--packet",
        "avi:CN=2,ITC=1",
        "--packet",
        "isrc1:ISRC_Valid=1,text=USRC17607839",
    ]
    listing = tool("content", image, image, "--mode", MODE, *words).stdout
    text, _ = page_of(tool, tmp_path, program("make", "content", source=listing), 0)
    for said in (
        "SMPTE ST 2084 (PQ) <small>EOTF 2</small>",
        "3840 × 2160 at 25 Hz <small>HDMI_VIC 2</small>",
        "cinema <small>CN 2</small>",
        "yes <small>ISRC_Valid 1</small>",
    ):
        assert said in text
