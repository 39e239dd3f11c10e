"""tools/content: images and sound as lines of a content listing. Expected values are written out by hand."""

import struct
import wave

import pytest
from PIL import Image

MODE = "2,4,16,64,1,1,2,1,1"
CLOCK = ["--clock", 5_040_000]  # four samples of 48 kHz a frame
HEAD = "mode 2 4 16 64 1 1 2 1 1"
AVI = "avi 2 0 1 0 8 0 0 0 2 0 0 0 0 0 0 0 0"


@pytest.fixture
def image(tmp_path):
    def write(*pixels, size=(2, 1), name="a.png"):
        picture = Image.new("RGB", size)
        picture.putdata(pixels or [(0, 0, 0)] * (size[0] * size[1]))
        picture.save(tmp_path / name)
        return tmp_path / name

    return write


@pytest.fixture
def sound(tmp_path):
    def write(data, width=2, channels=2, rate=48000):
        with wave.open(str(tmp_path / "a.wav"), "wb") as file:
            file.setnchannels(channels)
            file.setsampwidth(width)
            file.setframerate(rate)
            file.writeframes(data)
        return tmp_path / "a.wav"

    return write


def lines(came):
    return came.stdout.decode().splitlines()


def test_a_frame_an_image(tool, image):
    first, second = image((1, 2, 3), (255, 16, 0)), image((0, 0, 0), (9, 8, 7), name="b.png")
    came = lines(tool("content", first, second, "--mode", MODE))
    assert came == [HEAD, AVI, "row 010203ff1000", "frame 2 1", AVI, "row 000000090807", "frame 2 1", "end"]


@pytest.mark.parametrize(
    "width, data, left, right",
    [
        (1, b"\x80\xff", "000000", "7f0000"),
        (2, b"\x34\x12\xff\xff", "123400", "ffff00"),
        (3, b"\x56\x34\x12\x01\x00\x80", "123456", "800001"),
        (4, b"\x78\x56\x34\x12\xff\xff\xff\x7f", "123456", "7fffff"),
    ],
)
def test_samples_have_24_bits(tool, image, sound, width, data, left, right):
    came = lines(tool("content", image(), "--mode", MODE, *CLOCK, "--sound", sound(data, width)))
    assert came[1:5] == [AVI, "acr 6144 5040", "audio 1 0 0 0 0 0 0", f"s {left} {right} 0 0 1 0"]


def test_one_channel_goes_to_both_sides(tool, image, sound):
    came = lines(tool("content", image(), "--mode", MODE, *CLOCK, "--sound", sound(b"\x34\x12", channels=1)))
    assert came[4] == "s 123400 123400 0 0 1 0"


def test_as_many_samples_a_frame_as_the_rate_asks_for(tool, image, sound):
    """A frame has 86 * 5 = 430 columns; at 4,300,000 Hz 10,000 frames a second: 4.41 samples of 44,100 Hz each."""
    path, words = image(), ["--mode", MODE, "--clock", 4_300_000]
    came = tool("content", path, path, path, *words, "--sound", sound(bytes(4 * 20), rate=44100))
    frames = came.stdout.decode().split("frame 2 1\n")
    assert [frame.count("\ns ") for frame in frames] == [4, 4, 5, 0]
    assert "acr 6272 4778" in frames[0]
    assert came.stderr == b"content: 7 of 20 samples are left out, since the frames end before\n"


def test_the_channel_status(tool, image, sound):
    """IEC 60958-3: no copyright is bit 2, channel 1 bit 20, channel 2 bit 21, 48 kHz bit 25, 16 bits bit 33."""
    wide = ["--mode", "2,4,16,640,1,1,20,1,1", "--clock", 1522600]  # 100 frames a second
    came = tool("content", image(), *wide, "--sound", sound(bytes(4 * 384)))
    rows = [line.split() for line in lines(came) if line.startswith("s ")]
    ones = {side: [k for k, row in enumerate(rows) if row[side] == "4"] for side in (3, 4)}
    assert ones == {3: [2, 20, 25, 33, 194, 212, 217, 225], 4: [2, 21, 25, 33, 194, 213, 217, 225]}
    assert [k for k, row in enumerate(rows) if row[5] == "1"] == [0, 192]
    assert len(rows) == 384 and {row[6] for row in rows} == {"0"}


def test_the_code_is_that_of_the_size(tool, image):
    came = lines(tool("content", image(size=(640, 480))))
    assert came[:2] == ["vic 1", "avi 2 0 1 0 8 1 0 0 2 0 0 1 0 0 0 0 0"]
    assert came[-2:] == ["frame 640 480", "end"] and len(came) == 484


def test_fit(tool, image):
    path = image((7, 7, 7), (7, 7, 7))
    came = lines(tool("content", path, "--vic", 18, "--fit", "scale"))
    assert came[:2] == ["vic 18", "avi 2 0 1 0 8 2 0 0 2 0 0 18 0 0 0 0 0"]
    assert came[2:-2] == ["row " + "070707" * 720] * 576
    came = tool("content", path, "--vic", 18, status=3)
    assert b"it has 2 x 1 pixels, but the mode has 720 x 576" in came.stderr and came.stdout == b""


def test_bad_files(tool, image, sound, tmp_path):
    path = image()
    (tmp_path / "no").write_bytes(b"no")
    words = [path, "--mode", MODE]
    assert b"cannot identify image" in tool("content", tmp_path / "no", status=3).stderr
    assert b"missing.png" in tool("content", tmp_path / "missing.png", status=3).stderr
    assert b"no video identification code has 2 x 1 pixels" in tool("content", path, status=3).stderr
    assert b"not a WAV file" in tool("content", *words, "--sound", tmp_path / "no", status=3).stderr
    assert b"its rate is 8000 Hz" in tool("content", *words, "--sound", sound(bytes(4), rate=8000), status=3).stderr
    assert b"it has 9 channels" in tool("content", *words, "--sound", sound(bytes(18), channels=9), status=3).stderr
    whole = image(size=(640, 480), name="whole.png").read_bytes()
    (tmp_path / "cut.png").write_bytes(whole[: len(whole) // 2])
    assert b"cut.png: image file is truncated" in tool("content", tmp_path / "cut.png", status=3).stderr


def test_bad_words(tool, image):
    path = image()
    tool("content", status=2)
    for words in (["--vic", 5], ["--vic", 1, "--mode", MODE], ["--mode", "1,2"], ["--fit", "no"], ["--clock", 0]):
        tool("content", path, *words, status=2)


@pytest.mark.parametrize("numbers", ["0,4,16,64,1,1,2,1,1", "2,4,16,13,1,1,2,1,1", "2,4097,16,64,1,1,2,1,1"])
def test_a_mode_is_judged_before_it_is_written(tool, image, program, numbers):
    """docs/guide/FORMATS.md: 1 to 4,096, the back porch across at least 14; the program refuses what the tool refuses."""
    tool("content", image(), "--mode", numbers, status=2)
    listing = f"mode {numbers.replace(',', ' ')}\nrow 000000000000\nframe 2 1\nend\n".encode()
    program("make", "content", source=listing, status=3)


def test_packets_have_room(tool, image, sound, program):
    """Lines of 86 columns: one packet before the row and two on each of four other lines."""
    path, words = image(), ["--mode", MODE, "--sound", sound(bytes(4 * 100))]
    listing = tool("content", path, *words, "--clock", 860000).stdout  # 24 samples a frame
    assert program("make", "content", source=listing).startswith(b"TMC1")
    came = tool("content", path, *words, "--clock", 825600, status=3)  # 25 samples
    assert b"room for 9 packets, but needs 10" in came.stderr and came.stdout == b""
    assert b"room for 0 packets, but needs 1" in tool("content", path, "--mode", "2,1,2,14,1,1,1,1,0", status=3).stderr


def test_grey_of_16_bits_is_scaled(tool, tmp_path):
    picture = Image.new("I;16", (2, 1))
    picture.putpixel((0, 0), 0x8080)
    picture.putpixel((1, 0), 0xFFFF)
    for name in ("a.png", "a.tif"):
        picture.save(tmp_path / name)
        assert lines(tool("content", tmp_path / name, "--mode", MODE))[2] == "row 808080ffffff"


def extensible(data, channels, rate, bits, kind=1):
    """A WAV file of the extensible format: the tag fffe, and the subformat's number at the head of its identifier."""
    block = channels * bits // 8
    form = struct.pack("<HHIIHHHHI", 0xFFFE, channels, rate, rate * block, block, bits, 22, bits, 3)
    form += struct.pack("<H", kind) + bytes.fromhex("000000001000800000aa00389b71")
    body = b"WAVEfmt " + struct.pack("<I", len(form)) + form + b"data" + struct.pack("<I", len(data)) + data
    return b"RIFF" + struct.pack("<I", len(body)) + body


def test_wav_of_the_extensible_format(tool, image, tmp_path):
    data = b"\x56\x34\x12\x01\x00\x80"
    (tmp_path / "a.wav").write_bytes(extensible(data, 2, 48000, 24))
    words = [image(), "--mode", MODE, *CLOCK, "--sound", tmp_path / "a.wav"]
    assert lines(tool("content", *words))[4] == "s 123456 800001 0 0 1 0"
    (tmp_path / "a.wav").write_bytes(extensible(data, 2, 48000, 32, kind=3))  # floating point
    assert b"not a WAV file of linear PCM" in tool("content", *words, status=3).stderr


def test_as_many_frames_as_a_listing_has_columns_for(tool, image):
    path, words = image(), ["--vic", 16, "--fit", "scale"]
    assert tool("content", *[path] * 8, *words).stdout.endswith(b"\nframe 1920 1080\nend\n")
    assert b"9 frames have 22275032 columns" in tool("content", *[path] * 9, *words, status=3).stderr


def test_help(tool):
    assert tool("content", "--help").stdout.startswith(b"usage: content")
