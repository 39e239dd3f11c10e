"""tools/stream: a link as NUT, YUV4MPEG2 and WAV. Expected pixels and samples are those of the listing that was sent."""

import importlib.util
import io
import itertools
import shutil
import subprocess
import sys

import numpy as np
import pytest
from PIL import Image

from tests.support import HANGS, TOP
from tests.tools.live import after, bits_of, blocks, times
from vabgrot.tools import stream

STREAM = [sys.executable, str(TOP / "tools" / "stream")]
BARS = (TOP / "examples" / "bars.content").read_bytes()
COLUMNS, FRAMES, CLOCK = 1800, 3, 25_200_000  # of a frame of the bars; frames; the clock that N and CTS tell
WHOLE = 10 * COLUMNS * FRAMES
WAYS = (
    ["--encoding", "ycbcr444"],
    ["--encoding", "ycbcr422"],
    ["--encoding", "ycbcr422", "--depth", "36"],
    ["--depth", "30"],
    ["--encoding", "ycbcr444", "--depth", "36"],
)
NEEDS_FFMPEG = pytest.mark.skipif(not shutil.which("ffmpeg"), reason="Debian's package ffmpeg is missing")
pytestmark = pytest.mark.usefixtures("receives")


@pytest.fixture
def av():
    return pytest.importorskip("av", reason="Debian's package python3-av is missing")


@pytest.fixture
def bars(program):
    return program("make", "content", source=BARS)


def pixels(content, frames=1):
    """The pixels of a content listing, frames again and again."""
    rows = [bytes.fromhex(line.split()[1].decode()) for line in content.splitlines() if line.startswith(b"row ")]
    return b"".join(rows) * frames


def samples(content):
    """The samples of a content listing, as signed numbers."""
    its = [line.split()[1:3] for line in content.splitlines() if line.startswith(b"s ")]
    return [tuple(number - (number >> 23 << 24) for number in (int(it, 16) for it in pair)) for pair in its]


def ran(source, *words, status=0):
    """The output and the notes of the tool."""
    came = subprocess.run([*STREAM, *map(str, words)], input=source, capture_output=True, timeout=HANGS)
    assert came.returncode == status and b"Traceback" not in came.stderr, came.stderr.decode()
    return came.stdout, came.stderr.decode()


def packets_of(av, data):
    """The packets of a NUT file: of each stream its time in seconds and its bytes."""
    with av.open(io.BytesIO(data)) as container:
        found = {"video": [], "audio": []}
        for packet in container.demux():
            if packet.size:
                found[packet.stream.type].append((float(packet.pts * packet.time_base), bytes(packet)))
        return found


def values_of(octets):
    """Samples of 24 bits of two channels."""
    data = np.frombuffer(octets, np.uint8).reshape(-1, 2, 3).astype(np.int32)
    found = data[:, :, 0] | data[:, :, 1] << 8 | data[:, :, 2] << 16
    return [tuple(row) for row in np.where(found >> 23, found - (1 << 24), found).tolist()]


def test_a_capture(av, bars, tmp_path):
    """Pictures, samples and times; a file and standard input give the same."""
    (tmp_path / "a.tmc").write_bytes(bars)
    out, says = ran(b"", tmp_path / "a.tmc")
    found = packets_of(av, out)
    assert b"".join(octets for _, octets in found["video"]) == pixels(BARS)
    assert values_of(b"".join(octets for _, octets in found["audio"])) == samples(BARS)
    at = [time for time, _ in found["video"]]
    assert [round((later - first) * CLOCK) for first, later in itertools.pairwise(at)] == [COLUMNS, COLUMNS]
    assert "3 pictures and 10 samples in 1 segment\n" in says and "32 x 8 pixels" in says
    assert ran(bars) == (out, says) and ran(bars, "-o", tmp_path / "a.nut") == (b"", says)
    assert (tmp_path / "a.nut").read_bytes() == out


@NEEDS_FFMPEG
def test_a_live_link_into_ffmpeg(av, bars, tmp_path):
    """A pipe into ffmpeg: 600 frames for 600, with the same pixels and samples. The first rows of one more frame end the last one."""
    lanes, many = bits_of(bars, WHOLE), 600 // FRAMES
    (tmp_path / "link").write_bytes(blocks(after(times(lanes, many), [lane[: 10 * COLUMNS] for lane in lanes])))
    pictures = ["-map", "0:v", "-fps_mode", "passthrough", "-f", "rawvideo", "-pix_fmt", "rgb24", tmp_path / "pictures"]
    sound = ["-map", "0:a", "-f", "s24le", "-c:a", "pcm_s24le", tmp_path / "sound"]
    with open(tmp_path / "link", "rb") as link, subprocess.Popen([*STREAM, "--raw"], stdin=link, stdout=subprocess.PIPE) as process:
        came = subprocess.run(
            ["ffmpeg", "-v", "error", "-i", "-", *pictures, *sound], stdin=process.stdout, capture_output=True, timeout=HANGS
        )
    assert (process.returncode, came.returncode, came.stderr) == (0, 0, b"")
    assert (tmp_path / "pictures").read_bytes() == pixels(BARS, many)
    heard, sent = values_of((tmp_path / "sound").read_bytes()), samples(BARS)
    assert heard[: many * len(sent)] == sent * many and len(heard) <= (many + 1) * len(sent)


def test_plain_files(bars, tmp_path):
    """--y4m and --wav need no PyAV; the WAV file has its own sizes."""
    soundfile = pytest.importorskip("soundfile")
    (tmp_path / "a.tmc").write_bytes(bars)
    ran(b"", tmp_path / "a.tmc", "--y4m", tmp_path / "a.y4m", "--wav", tmp_path / "a.wav")
    values, rate = soundfile.read(tmp_path / "a.wav", dtype="int32")
    assert [tuple(row) for row in (values >> 8).tolist()] == samples(BARS) and rate == 48_000
    head, *frames = (tmp_path / "a.y4m").read_bytes().split(b"FRAME\n")
    assert head == b"YUV4MPEG2 W32 H8 F14000:1 Ip A0:0 C444 XCOLORRANGE=LIMITED\n"
    assert [len(frame) for frame in frames] == [3 * 32 * 8] * 3
    first = [frames[0][plane * 256] for plane in range(3)]
    assert first == [235, 128, 128]  # white, by BT.601
    assert ran(bars, "--y4m", "-")[0] == (tmp_path / "a.y4m").read_bytes()
    assert ran(bars, "--wav", "-")[0][58:] == (tmp_path / "a.wav").read_bytes()[58:]


def test_colours_are_those_of_pictures(av, tool, program, tmp_path):
    """YCbCr of eight bits and deep colour, against the PNG files of tools/pictures."""
    image = Image.effect_noise((32, 8), 90).convert("RGB")
    image.putdata([(x * 8, y * 30, x * y) for y in range(8) for x in range(32)])
    image.save(tmp_path / "a.png")
    for number, words in enumerate(WAYS):
        listing = tool("content", *[tmp_path / "a.png"] * 3, "--mode", "32,8,16,64,8,2,2,3,1", *words).stdout
        made = program("make", "content", source=listing)
        folder = tmp_path / f"p{number}"
        tool("pictures", folder, source=made)
        wanted = b"".join(png_bytes(path) for path in sorted(folder.iterdir()))
        found = packets_of(av, ran(made)[0])["video"]
        assert len(found) == 3 and b"".join(octets for _, octets in found) == wanted, words


def png_bytes(path):
    """The components of a PNG file, those of 16 bits with the low byte first."""
    import png

    width, height, rows, told = png.Reader(str(path)).read()
    array = np.vstack([np.array(row, "<u2" if told["bitdepth"] == 16 else np.uint8) for row in rows])
    assert array.shape == (height, 3 * width)
    return array.tobytes()


def test_another_format_is_another_segment(bars, tool, program, tmp_path):
    """Two links one after another: each is a file, and standard error says so. One damaged frame is none."""
    small = BARS.replace(b"mode 32 8 16 64 8 2 2 3 1", b"mode 32 8 16 64 6 2 2 3 1").replace(b"frame 32 8", b"frame 32 6")
    lines = small.splitlines(keepends=True)
    kept, row = [], 0
    for line in lines:
        row = row + 1 if line.startswith(b"row ") else 0
        kept += [line] if row <= 6 else []
    other = program("make", "content", source=b"".join(kept))
    lanes = after(times(bits_of(bars, WHOLE), 3), times(bits_of(other, 10 * 120 * 13 * FRAMES), 3))
    _, says = ran(blocks(lanes), "--raw", "--y4m", tmp_path / "a.y4m")
    assert "segment 1 from 0.000 s: 32 x 8 pixels" in says and "segment 2 from " in says and ": 32 x 6 pixels" in says, says
    assert (tmp_path / "a.y4m").read_bytes().startswith(b"YUV4MPEG2 W32 H8 ")
    assert (tmp_path / "a.2.y4m").read_bytes().startswith(b"YUV4MPEG2 W32 H6 ")


def test_a_damaged_frame_is_made_to_fit(bars, program, tmp_path):
    """A row that is lost makes no new segment."""
    hurt = program("damage", *[f"{lane}:{place}:3ff" for lane in range(3) for place in range(28200, 28240, 10)], source=bars)
    lanes = after(bits_of(bars, WHOLE), bits_of(hurt, WHOLE), bits_of(bars, WHOLE))
    _, says = ran(blocks(lanes), "--raw", "--y4m", tmp_path / "a.y4m", status=1)
    assert "in 1 segment," in says and not (tmp_path / "a.2.y4m").exists(), says


def test_a_broken_pipe_is_quiet(bars, tmp_path):
    """The reader goes away: nothing is said of it."""
    (tmp_path / "link").write_bytes(blocks(times(bits_of(bars, WHOLE), 40)))
    script = f"{STREAM[0]} {STREAM[1]} --raw --y4m - < {tmp_path / 'link'} | head -c 100"
    came = subprocess.run(["bash", "-c", script], capture_output=True, timeout=HANGS)
    assert came.stdout.startswith(b"YUV4MPEG2 W32 H8 ") and len(came.stdout) == 100
    assert b"Traceback" not in came.stderr and b"roken pipe" not in came.stderr, came.stderr.decode()


def test_what_it_refuses(bars, program, monkeypatch, capsys, tmp_path):
    """A missing package, a full disk in each format, no frame, no capture, no file."""
    (tmp_path / "a.tmc").write_bytes(bars)
    monkeypatch.setitem(sys.modules, "av", None)
    assert stream.main([str(tmp_path / "a.tmc"), "-o", str(tmp_path / "a.nut")]) == 3
    assert "python3-av" in capsys.readouterr().err
    for option in ("--y4m", "--wav", "-o"):
        if option != "-o" or importlib.util.find_spec("av"):
            _, says = ran(bars, option, "/dev/full", status=3)
            assert says.splitlines()[-1] == "stream: /dev/full: No space left on device", option
    row = program("make", "link", source=(TOP / "examples" / "red.link").read_bytes())
    assert "no whole frame came" in ran(row, "--y4m", "-", status=3)[1]
    assert "not a capture" in ran(b"what", "--y4m", "-", status=3)[1]
    assert ran(b"", tmp_path / "none", "--y4m", "-", status=3)[1].startswith("stream: ")
    assert "only one" in ran(bars, "--y4m", "-", "--wav", "-", status=3)[1]
