"""tools/compare: what was planted is found, with numbers that are worked out here."""

import json
import math
import random
import wave
import zlib

import pytest

pytest.importorskip("skimage")
from PIL import Image  # noqa: E402

WIDTH, HEIGHT = 24, 10
MODE = f"{WIDTH},8,16,64,{HEIGHT},2,2,3,1"


def picture(seed):
    """The bytes of a picture of noise over a ramp."""
    dice = random.Random(seed)
    return bytes((9 * place + 40 * seed + dice.randrange(60)) & 255 for place in range(3 * WIDTH * HEIGHT))


@pytest.fixture
def made(tool, program, tmp_path):
    """The file of a capture of pictures, and of a sound, if there is one."""

    def make(name, pictures, sound=None, make=()):
        words = []
        for number, data in enumerate(pictures):
            Image.frombytes("RGB", (WIDTH, HEIGHT), data).save(tmp_path / f"{name}{number}.png")
            words.append(tmp_path / f"{name}{number}.png")
        if sound is not None:
            with wave.open(str(tmp_path / f"{name}.wav"), "wb") as file:
                file.setnchannels(2)
                file.setsampwidth(2)
                file.setframerate(48000)
                file.writeframes(sound)
            words += ["--sound", tmp_path / f"{name}.wav"]
        content = tool("content", *words, "--mode", MODE, "--clock", 1_000_000).stdout
        path = tmp_path / f"{name}.tmc"
        path.write_bytes(program("make", "content", *make, source=content))
        return path

    return make


def said(tool, *words, status=1):
    return json.loads(tool("compare", *words, "--json", status=status).stdout)


def test_alike(tool, made):
    """Also where the one begins within the first frame; the CRC is that of the bytes."""
    pictures = [picture(seed) for seed in range(4)]
    one, other = made("a", pictures), made("b", pictures, make=("--offset", 1234, "--skew", "0,50,70"))
    found = said(tool, one, one, status=0)
    assert [frame["crcs"][0] for frame in found["frames"]] == [f"{zlib.crc32(data):08x}" for data in pictures]
    found = said(tool, one, other, status=0)
    assert not found["differ"] and len(found["frames"]) >= 3
    assert tool("compare", one, one).stdout.endswith(b"no difference\n")


def test_unlike_pixels(tool, made, tmp_path):
    """How many, the first, and PSNR by its formula."""
    pictures = [picture(seed) for seed in range(3)]
    hurt = bytearray(pictures[1])
    changes = {(5, 2): 30, (7, 2): 4, (0, 9): 100}  # pixel and row, and by how much green differs
    for (pixel, row), more in changes.items():
        at = 3 * (WIDTH * row + pixel) + 1
        hurt[at] = hurt[at] + more if hurt[at] + more < 256 else hurt[at] - more
    one, other = made("a", pictures), made("b", [pictures[0], bytes(hurt), pictures[2]])
    found = said(tool, one, other, "--pictures", tmp_path / "out")
    frame = found["frames"][1]
    assert [it["unlike"] for it in found["frames"]] == [0, 3, 0] and frame["first"] == [5, 2]
    at = 3 * (2 * WIDTH + 5)
    assert frame["colours"] == [pictures[1][at : at + 3].hex(), bytes(hurt[at : at + 3]).hex()]
    error = sum(more * more for more in changes.values()) / len(hurt)
    assert frame["psnr"] == pytest.approx(10 * math.log10(255 * 255 / error), abs=1e-9)
    assert 0 < frame["ssim"] < 1
    with Image.open(tmp_path / "out" / "difference0001.png") as image:
        shown = {(x, y) for x in range(WIDTH) for y in range(HEIGHT) if image.getpixel((x, y)) != (0, 0, 0)}
    assert shown == set(changes)


def test_a_frame_that_is_missing(tool, made):
    """Between others it is a difference; at an end it is one capture that is longer."""
    pictures = [picture(7 * seed) for seed in range(5)]
    whole = made("a", pictures)
    found = said(tool, whole, made("b", [pictures[number] for number in (0, 1, 3, 4)]))
    assert found["alone"] == [{"mine": 2, "other": None}] and [it["unlike"] for it in found["frames"]] == [0] * 4
    found = said(tool, whole, made("c", pictures[:4]), status=0)
    assert found["alone"] == [] and "frame 4 of A: no frame of B is like it (A begins earlier or ends later)" in found["says"]


def test_references(tool, made, program, tmp_path):
    """Pictures and sound that were sent; each frame is compared with the picture that is likest."""
    pictures = [picture(11 * seed) for seed in range(3)]
    sound = b"".join((k * 37 % 20000 - 9000).to_bytes(2, "little", signed=True) * 2 for k in range(2000))
    path = made("a", [*pictures, pictures[1]], sound)
    files = [tmp_path / f"a{number}.png" for number in (2, 1, 0)]
    found = said(tool, path, *files, tmp_path / "a.wav", status=0)
    assert [it["other"] for it in found["frames"]] == [2, 1, 0, 1] and found["samples"]["unlike"] == 0
    assert found["samples"]["count"] > 100 and found["packets"] == []
    changed = bytearray(sound)
    changed[4 * 100] ^= 0xFF
    made("b", pictures, bytes(changed))
    found = said(tool, path, *files, tmp_path / "b.wav")
    assert (found["samples"]["unlike"], found["samples"]["first"]) == (1, 100)
    (tmp_path / "words.txt").write_text("no picture")
    tool("compare", path, tmp_path / "words.txt", status=3)
    tool("compare", path, path, files[0], status=3)
    tool("compare", path, tmp_path / "none.png", status=3)


def test_packets_of_one_alone(tool, made, program, tmp_path):
    """An InfoFrame that is another one, by name."""
    pictures = [picture(seed) for seed in range(2)]
    one = made("a", pictures)
    content = program("recover", "content", source=one.read_bytes())
    other = content.replace(b"avi 2 0 1 0 8", b"avi 1 0 1 0 8")
    assert other != content
    head = f"mode {MODE.replace(',', ' ')}\n".encode()
    (tmp_path / "b.tmc").write_bytes(program("make", "content", source=head + other))
    found = said(tool, one, tmp_path / "b.tmc")
    assert [(it["in"], it["name"]) for it in found["packets"]] == [("A", "AVI InfoFrame"), ("B", "AVI InfoFrame")]
    assert all(it["unlike"] == 0 for it in found["frames"])


def test_sizes(tool, made, program, tmp_path):
    """Frames of unlike sizes are not alike, and against a picture that is said."""
    one = made("a", [picture(1)])
    Image.new("RGB", (WIDTH, HEIGHT + 1)).save(tmp_path / "c.png")
    assert f"{WIDTH} x {HEIGHT} and {WIDTH} x {HEIGHT + 1} pixels" in said(tool, one, tmp_path / "c.png")["says"][0]


def test_colours_of_a_capture(tool, program, tmp_path):
    """Of 36 bits a pixel and of full range each picture comes back to the bit; of YCbCr the primaries and white do within a step of the
    limited range, 255 / 219. As bytes neither frame has the picture's size or its colours."""
    colours = [(255, 255, 255), (255, 0, 0), (0, 255, 0), (0, 0, 255)]
    image = Image.new("RGB", (WIDTH, HEIGHT))
    image.putdata([colours[at // 2 % 4] for at in range(WIDTH * HEIGHT)])
    image.save(tmp_path / "a.png")
    for words, is_exact in ((["--depth", 36], True), (["--encoding", "ycbcr444"], False)):
        content = tool("content", tmp_path / "a.png", "--mode", MODE, "--clock", 1_000_000, *words).stdout
        (tmp_path / "a.tmc").write_bytes(program("make", "content", source=content))
        came = said(tool, tmp_path / "a.tmc", tmp_path / "a.png", status=1 - is_exact)
        (one,) = came["frames"]
        assert (one["unlike"] == 0) == is_exact and (is_exact or one["psnr"] > 45)
        assert any(line.endswith("are converted to RGB of full range and 24 bits, as its InfoFrames tell") for line in came["says"])
        assert not any("converted" in line for line in said(tool, tmp_path / "a.tmc", tmp_path / "a.tmc", status=0)["says"])
