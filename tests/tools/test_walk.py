"""The whole walk: pictures and sound to a capture, damaged, and back, with the real program."""

import math
import random
import struct
import wave

import pytest
from PIL import Image

from tests.support import TOP

EXAMPLES = TOP / "examples"
# A mode of 32 x 24 pixels: a line has 120 columns and a frame 30 lines, so at 25.2 MHz 7,000 frames go by in a second.
ACROSS, DOWN, FIRST_PIXEL, FIRST_ROW = 120, 30, 80, 4
MODE = "32,8,16,64,24,2,2,2,1"
OFFSET, SKEWS = 2345, (0, 70, 35)
FRAMES = 5


def place(frame, row, pixel, lane):
    """The place in its lane of a pixel's character."""
    return 10 * ((frame * DOWN + FIRST_ROW + row) * ACROSS + FIRST_PIXEL + pixel) - OFFSET - SKEWS[lane]


@pytest.fixture
def sent(tmp_path):
    """Images of noise and a tone, and their files."""
    noise = random.Random(1)
    images = [Image.frombytes("RGB", (32, 24), noise.randbytes(3 * 32 * 24)) for _ in range(FRAMES)]
    paths = [tmp_path / f"sent{number}.png" for number in range(FRAMES)]
    for image, path in zip(images, paths):
        image.save(path)
    tone = b"".join(
        struct.pack("<hh", *(round(9000 * wave(k / 7)) for wave in (math.sin, math.cos))) for k in range(30)
    )
    with wave.open(str(tmp_path / "sent.wav"), "wb") as file:
        file.setparams((2, 2, 48000, 0, "NONE", ""))
        file.writeframes(tone)
    return images, paths, tmp_path / "sent.wav", tone


def shown(folder):
    return [Image.open(path).convert("RGB") for path in sorted(folder.glob("frame*.png"))]


def unlike(image, other):
    """The places at which two images differ, and on which of red, green and blue."""
    pairs = zip(image.getdata(), other.getdata())
    return {(at % 32, at // 32): [a != b for a, b in zip(*pair)] for at, pair in enumerate(pairs) if pair[0] != pair[1]}


def test_pictures_and_sound_come_back_but_for_damaged_pixels(tool, program, sent, tmp_path):
    images, paths, sound, tone = sent
    listing = tool("content", *paths, "--mode", MODE, "--sound", sound).stdout
    assert listing.count(b"\ns ") == 30
    capture = program("make", "content", "--offset", OFFSET, "--skew", ",".join(map(str, SKEWS)), source=listing)
    # In each row of frames 2 and 3 a pixel is damaged on one lane, and two characters of the first packet of frame 2.
    rows = [(frame, row, (5 * row + frame) % 32, row % 3) for frame in (2, 3) for row in range(24)]
    hits = [f"{lane}:{place(frame, row, pixel, lane)}:0ab" for frame, row, pixel, lane in rows]
    hits += [f"{lane}:{place(2, -FIRST_ROW, column - FIRST_PIXEL, lane)}:354" for lane, column in ((1, 19), (2, 34))]
    hurt = program("damage", *hits, source=capture)
    found = program("recover", "content", source=hurt, status=1)
    assert found.count(b"\n! symbols ") == 1

    came = tool("pictures", tmp_path / "out", source=found, status=1)
    back = shown(tmp_path / "out")
    assert len(back) == FRAMES - 1  # the capture begins behind the sync lines of the first frame
    for number, image in enumerate(back, 1):
        hit = {(pixel, row): lane for frame, row, pixel, lane in rows if frame == number}
        differ = unlike(images[number], image)
        assert differ.keys() <= hit.keys()
        for at, colours in differ.items():
            assert colours == [lane == hit[at] for lane in (2, 1, 0)]
        assert not hit or len(differ) > 12
    assert came.stderr.startswith(b"frame 1: ") and b"\nframe 2: " in came.stderr

    tool("sound", "--rate", 48000, tmp_path / "back.wav", source=found)
    with wave.open(str(tmp_path / "back.wav")) as file:
        assert file.getparams()[:3] == (2, 2, 48000)
        assert file.readframes(30) == tone[4 * 6 :]  # the first frame has six samples, in its sync lines


def test_marks_lie_on_the_damaged_pixels(tool, program, sent, tmp_path):
    images, paths, _, _ = sent
    capture = program("make", "content", source=tool("content", *paths[:3], "--mode", MODE).stdout)
    at = 10 * ((2 * DOWN + FIRST_ROW + 10) * ACROSS + FIRST_PIXEL + 17)
    hurt = program("damage", f"2:{at}:0ab", source=capture)
    found = program("recover", "content", source=hurt, status=1)
    (tmp_path / "hurt.link").write_bytes(program("recover", "link", source=hurt, status=1))
    tool("pictures", "--mark", "--link", tmp_path / "hurt.link", tmp_path / "out", source=found, status=1)
    differ = unlike(images[2], shown(tmp_path / "out")[-1])
    box = {(x, y) for x in range(15, 20) for y in range(8, 13)} - {(x, y) for x in range(16, 19) for y in range(9, 12)}
    assert box <= differ.keys() <= box | {(17, 10)}


def test_a_link_listing_has_the_frames_of_the_content_listing(tool, program, sent, tmp_path):
    """Both listings of one damaged capture give the same files and the same counts. Two rows lose their guard bands,
    and what is marked behind them has its place by the lines before."""
    _, paths, _, _ = sent
    capture = program("make", "content", "--skew", "0,70,35", source=tool("content", *paths, "--mode", MODE).stdout)
    at = [10 * ((2 * DOWN + FIRST_ROW + row) * ACROSS + FIRST_PIXEL) - 20 for row in (5, 9)]
    hits = [f"{lane}:{place - SKEWS[lane]}:000" for place in at for lane in (1, 2)]
    hits += [f"2:{10 * ((2 * DOWN + FIRST_ROW + row) * ACROSS + FIRST_PIXEL + 3 * row) - 35}:0ab" for row in (3, 7, 10)]
    hurt = program("damage", *hits, source=capture)
    content, link = (program("recover", kind, source=hurt, status=1) for kind in ("content", "link"))
    assert content.count(b"! noise") == 2
    came = tool("pictures", tmp_path / "content", source=content, status=1)
    assert tool("pictures", tmp_path / "link", source=link, status=1).stderr == came.stderr
    found = [image.tobytes() for image in shown(tmp_path / "content")]
    assert len(found) == FRAMES - 1 and found == [image.tobytes() for image in shown(tmp_path / "link")]
    tool("pictures", "--mark", tmp_path / "marked", source=link, status=1)
    whole, marked = shown(tmp_path / "link")[1], shown(tmp_path / "marked")[1]
    # Rows 5 and 9 are missing, so rows 7 and 10 are the 6th and 8th of the picture. No character of theirs is sure to be the damaged
    # one: a bar marks both ends of the row. A box marks the pixel of row 3.
    box = {(9 + dx, 3 + dy) for dx in range(-2, 3) for dy in range(-2, 3) if 2 in (abs(dx), abs(dy))}
    bars = {(x, y) for y in (6, 8) for x in (*range(4), *range(28, 32))}
    assert unlike(whole, marked).keys() == box | bars


@pytest.mark.parametrize("offset, first", [(0, 0), (OFFSET, 192)])
def test_sound_comes_back_by_way_of_a_biphase_stream(tool, program, sent, tmp_path, offset, first):
    """From the first block on that the capture has whole; `content` begins one each 192 samples."""
    _, paths, _, _ = sent
    data = random.Random(3).randbytes(6 * 700)
    with wave.open(str(tmp_path / "a.wav"), "wb") as file:
        file.setparams((2, 3, 48000, 0, "NONE", ""))
        file.writeframes(data)
    # at 1.2 MHz a frame of 3,600 columns has 144 samples
    words = ["--mode", MODE, "--clock", 1_200_000, "--sound", tmp_path / "a.wav"]
    capture = program("make", "content", "--offset", offset, source=tool("content", *paths, *words).stdout)
    stream = program("recover", "biphase", "0", source=capture)
    assert len(stream) == 16 * (700 - first)
    found = program("read", "biphase", source=stream)
    assert found.count(b"\nblock ") == 3 - first // 192
    came = tool("sound", tmp_path / "b.wav", source=found)
    assert came.stderr == b"%d samples of 24 bits at 48000 Hz, no faults\n" % (700 - first)
    with wave.open(str(tmp_path / "b.wav")) as file:
        assert file.readframes(700) == data[6 * first :]
    assert program("recover", "biphase", "1", source=capture) == b""


def test_pictures_come_back_without_guard_bands(tool, program, sent, tmp_path):
    """What `recover dvi` writes has the frames, and a damaged pixel is marked in its place."""
    images, paths, _, _ = sent
    capture = program("make", "content", source=tool("content", *paths, "--mode", MODE).stdout)
    lines = [line.split(b" ") for line in program("recover", "link", source=capture).splitlines()]
    plain = [[b"c", b"%02x" % (int(line[1], 16) & 3), line[2]] if line[0] == b"c" else line for line in lines]
    listing = b"".join(b" ".join(line) + b"\n" for line in plain if line[0] in (b"c", b"v", b"end"))
    made = program("make", "dvi", "--offset", 7, "--skew", "0,70,35", source=listing)
    tool("pictures", tmp_path / "whole", source=program("recover", "dvi", source=made))
    back = shown(tmp_path / "whole")
    # the first edge is that of the first row, behind the first sync lines
    assert [image.tobytes() for image in back] == [image.tobytes() for image in images[1:]]
    before = listing.split(b"\nv ")
    pixels = [len(part.split(b"\n")[0]) // 6 for part in before[1:]]
    runs = [sum(int(line.split(b" ")[2]) for line in part.split(b"\n") if line[:2] == b"c ") for part in before]
    column = sum(runs[: 24 * 2 + 10 + 1]) + sum(pixels[: 24 * 2 + 10]) + 17
    hurt = program("damage", f"2:{10 * column - 7 - 35}:0ab", source=made)
    found = program("recover", "dvi", source=hurt, status=1)
    tool("pictures", "--mark", tmp_path / "hurt", source=found, status=1)
    marked = shown(tmp_path / "hurt")
    box = {(x, y) for x in range(15, 20) for y in range(8, 13)} - {(x, y) for x in range(16, 19) for y in range(9, 12)}
    differ = unlike(images[2], marked[1])
    assert box <= differ.keys() <= box | {(17, 10)}


def test_a_usual_mode(tool, program, tmp_path):
    """640 x 480 pixels and 48 kHz, undamaged: the second frame and all its samples come back as they were sent."""
    image = Image.radial_gradient("L").resize((640, 480)).convert("RGB")
    image.save(tmp_path / "a.png")
    data = random.Random(2).randbytes(4 * 1600)
    with wave.open(str(tmp_path / "a.wav"), "wb") as file:
        file.setparams((2, 2, 48000, 0, "NONE", ""))
        file.writeframes(data)
    listing = tool("content", tmp_path / "a.png", tmp_path / "a.png", "--sound", tmp_path / "a.wav").stdout
    capture = program("make", "content", "--offset", 123457, "--skew", "0,70,35", source=listing)
    found = program("recover", "content", source=capture)
    tool("pictures", tmp_path / "out", source=found)
    assert [other.tobytes() for other in shown(tmp_path / "out")] == [image.tobytes()]
    came = tool("sound", tmp_path / "b.wav", source=found)
    assert b"800 samples of 16 bits at 48000 Hz, no faults" in came.stderr
    with wave.open(str(tmp_path / "b.wav")) as file:
        assert file.readframes(1600) == data[4 * 800 :]


def test_the_example(tool, program, tmp_path):
    listing = (EXAMPLES / "bars.content").read_bytes()
    tool("pictures", tmp_path / "sent", source=listing)
    found = program("recover", "content", source=program("make", "content", source=listing))
    assert found == listing.split(b"\n", 1)[1]
    tool("pictures", tmp_path / "back", source=found)
    assert [image.tobytes() for image in shown(tmp_path / "back")] == [
        image.tobytes() for image in shown(tmp_path / "sent")
    ]
