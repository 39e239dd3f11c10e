"""tools/report: the page plays and saves all channels that were sent, names their speakers by the channel allocation, and draws their
levels. WAV files are written and read here byte by byte; a downmix is that of ITU-R BS.775."""

import base64
import io
import wave

import pytest
from PIL import Image

from tests.tools.columns import bit_of, counted
from tests.tools.test_channels import AVI_1, CLOCKS, LINK_HEAD, infoframe, noise, packet_line, read_wav, wav

webdriver = pytest.importorskip("selenium.webdriver", reason="Debian's package python3-selenium is missing")
from selenium.webdriver.support.ui import Select, WebDriverWait  # noqa: E402

MODE, CLOCK = "2,4,16,640,1,1,20,1,1", 1522600  # 100 frames a second: 480 samples of 48 kHz a frame
FULL = 1 << 23


@pytest.fixture
def sent(tool, program, tmp_path):
    """A capture of some samples of a WAV file of so many channels, with a mask."""

    def make(frames, bits, mask):
        Image.new("RGB", (2, 1)).save(tmp_path / "a.png")
        (tmp_path / "sent.wav").write_bytes(wav(frames, bits, mask))
        words = ["--mode", MODE, "--clock", CLOCK, "--sound", tmp_path / "sent.wav"]
        images = [tmp_path / "a.png"] * (1 + len(frames) // 480)
        return program("make", "content", source=tool("content", *images, *words).stdout)

    return make


def saved(page, folder):
    """What the page's button saves."""
    page.driver.execute_cdp_cmd("Browser.setDownloadBehavior", {"behavior": "allow", "downloadPath": str(folder)})
    page.click("sound-save")
    path = folder / "a.wav"
    WebDriverWait(page.driver, 60).until(lambda _: path.exists() and path.stat().st_size)
    return path


def played(page, choice):
    """The two sides that the page's player has of a choice."""
    text = """const bytes = played(bytesOf(by("sound-file").textContent), arguments[0]);
        return btoa(Array.from(bytes, (one) => String.fromCharCode(one)).join(""))"""
    data = base64.b64decode(page.run(text, choice))
    with wave.open(io.BytesIO(data)) as file:
        assert file.getnchannels() == 2 and file.getframerate() == 48000 and len(data) == 44 + file.getnframes() * 2 * file.getsampwidth()
        size, body = file.getsampwidth(), file.readframes(file.getnframes())
    values = [int.from_bytes(body[at : at + size], "little", signed=True) for at in range(0, len(body), size)]
    return list(zip(values[::2], values[1::2]))


def choices(page):
    return page.run("return [...document.querySelectorAll('#sound-choice option')].map((one) => one.textContent)")


def levels(page):
    return page.run("return [...document.querySelectorAll('#levels tbody tr')].map((row) => [...row.cells].map((one) => one.textContent))")


@pytest.mark.parametrize("bits", [16, 24])
def test_eight_channels(report, program, tool, sent, tmp_path, bits):
    """FL FR FC LFE RLC RRC RL RR of the file; of a link they are channels 1, 2, 4, 3, 7, 8, 5, 6 (CA 13)."""
    frames = noise(8, 400, bits)
    capture = sent(frames, bits, 0x63F)
    page = report(capture, 0, "--clock", CLOCK)
    assert read_wav(saved(page, tmp_path)) == (48000, bits, 0x63F, frames)
    tool("sound", tmp_path / "b.wav", "--clock", CLOCK, source=program("recover", "link", source=capture))
    assert (tmp_path / "a.wav").read_bytes() == (tmp_path / "b.wav").read_bytes()
    said = page.text("sound-says")
    assert said.startswith(f"400 samples of {bits} bits of 8 channels (FL FR LFE FC RL RR RLC RRC) at 48,000 Hz, by the clock packets")
    assert said.endswith("The speakers are those of the audio InfoFrame (CA 13).") and page.count("samples") == 400
    pairs = ["channels 1 and 2: front left, front right", "channels 3 and 4: low frequency effects, front centre"]
    assert choices(page)[:3] == ["all, mixed down to two", *pairs] and len(choices(page)) == 1 + 4 + 8
    for choice, one, other in ((1, 0, 1), (2, 3, 2), (3, 6, 7), (4, 4, 5), (5, 0, 0), (8, 2, 2)):
        assert played(page, choice) == [(frame[one], frame[other]) for frame in frames]
    Select(page.driver.find_element("id", "sound-choice")).select_by_index(2)
    audio = "return document.getElementById('audio')"
    WebDriverWait(page.driver, 60).until(lambda _: page.run(f"{audio}.readyState") > 0)
    assert page.run(f"{audio}.duration") == pytest.approx(400 / 48000, abs=1e-4)
    waves = page.run("return document.querySelectorAll('#wave .left, #wave .right').length")
    status = page.run("return [...document.querySelectorAll('#sound h3')].map((one) => one.textContent)")
    assert waves == 8 and status == [f"Channel status of channels {at} and {at + 1}, 2 blocks of 192 samples" for at in (1, 3, 5, 7)]
    page.check()


def test_the_downmix(report, sent):
    """Of FL and FR all, of the centre and of its own side's rear 0.707, of LFE nothing; 1 + 2 * 0.707 is full scale."""
    frames = [(8_000_001, 0, 0, 0, 0, 0), (0, 8_000_001, 0, 0, 0, 0), (0, 0, 8_000_001, 0, 0, 0), (0, 0, 0, 8_000_001, 0, 0)]
    frames += [(0, 0, 0, 0, 8_000_001, 0), (-8_000_001,) * 6]
    page = report(sent(frames, 24, 0x3F), 0, "--clock", CLOCK)
    one, half = 8_000_001 / (1 + 2**0.5), 8_000_001 / (2 + 2**0.5)
    wanted = [(one, 0), (0, one), (half, half), (0, 0), (half, 0), (-8_000_001, -8_000_001)]
    assert [tuple(pytest.approx(side, abs=1) for side in both) for both in wanted] == played(page, 0)


def test_levels(report, sent):
    """A channel of half of full scale is at -6.0 dB, one of full scale's least value at 0.0, and one may be silent."""
    page = report(sent([(FULL // 2, 0, -FULL, 83886), (-FULL // 2, 0, -FULL, -83886)] * 50, 24, 0x33), 0, "--clock", CLOCK)
    assert [row[:4] for row in levels(page)] == [
        ["1", "front left", "−6.0 dB", "−6.0 dB"],
        ["2", "front right", "silent", "silent"],
        ["5", "rear left", "0.0 dB", "0.0 dB"],
        ["6", "rear right", "−40.0 dB", "−40.0 dB"],
    ]
    bars = page.run("return [...document.querySelectorAll('.level i:first-child')].map((one) => one.style.width)")
    assert bars == ["90%", "0%", "100%", "33%"]


def test_two_channels(report, program, tool, sent, tmp_path):
    frames = noise(2, 300, 16)
    capture = sent(frames, 16, 0)
    page = report(capture, 0, "--clock", CLOCK)
    assert read_wav(saved(page, tmp_path))[3] == frames and choices(page) == []
    tool("sound", tmp_path / "b.wav", "--clock", CLOCK, source=program("recover", "link", source=capture))
    assert (tmp_path / "a.wav").read_bytes() == (tmp_path / "b.wav").read_bytes()
    assert [row[1] for row in levels(page)] == ["front left", "front right"]
    assert page.text("sound-says") == "300 samples of 16 bits at 48,000 Hz, by the clock packets: 0.006 s."


def test_a_lost_packet(report, program, sent, tmp_path):
    """Damaged characters of lane 1: the sample is left out of all channels, and its place is drawn."""
    frames = noise(6, 100, 16)
    capture = sent(frames, 16, 0x3F)
    link = program("recover", "link", source=capture)
    at = bit_of(capture, link, counted(link).packets[3 + 7])
    page = report(program("damage", *(f"1:{at + 10 * column}:354" for column in range(3, 27, 4)), source=capture), 1)
    assert read_wav(saved(page, tmp_path))[3] == frames[:7] + frames[8:]
    assert "1 packets of samples were lost" in page.text("sound-says")
    assert page.run("return document.querySelectorAll('#wave .gap').length") == 1


WIDE = packet_line("021310", "00010000010088", "00010000010088")  # channels 1 to 4, of value 256 each


@pytest.mark.parametrize(
    "allocation, says, names, mask",
    [
        (None, "No audio InfoFrame tells the speakers: those of CA 03 are supposed.", ["FL", "FR", "LFE", "FC"], 0xF),
        (0x32, "CA 32 of the audio InfoFrame is reserved: those of CA 03 are supposed.", ["FL", "FR", "LFE", "FC"], 0xF),
        (0x02, "The speakers are those of the audio InfoFrame (CA 02).", ["FL", "FR", "channel 3", "FC"], 0x7),
    ],
)
def test_speakers_that_are_not_told(report, program, tmp_path, allocation, says, names, mask):
    """A channel that is sent and that CA does not use is played and saved behind all others."""
    audio = "" if allocation is None else infoframe(0x84, 1, f"030000{allocation:02x}00" + "00" * 5)
    lines = LINK_HEAD + AVI_1 + CLOCKS + audio + WIDE + "e 00\nc 00 12\nend\n"
    page = report(program("make", "link", source=lines.encode()), int(allocation == 0x32))
    assert page.text("sound-says").endswith(says)
    assert page.run("return [...document.querySelectorAll('.wave li')].map((one) => one.textContent)") == names
    assert read_wav(saved(page, tmp_path))[2:] == (mask, [(1, 1, 1, 1)])


def test_the_rate(report, program):
    """Without a clock packet the rate is the audio InfoFrame's; without both it is supposed; where they are unlike this is said."""
    one = packet_line("020110", "00010000010088")
    told = infoframe(0x84, 1, "0108" + "00" * 8)
    for status, more, says in (
        (0, "", "48,000 Hz, which is supposed, since nothing that was received tells it"),
        (1, told, "44,100 Hz, by the audio InfoFrame"),
        (1, CLOCKS + told, "These do not agree: the clock packets 48,000 Hz, the audio InfoFrame 44,100 Hz."),
    ):
        lines = LINK_HEAD + AVI_1 + more + one + "e 00\nc 00 12\nend\n"
        page = report(program("make", "link", source=lines.encode()), status)
        assert says in page.text("sound-says")


def test_sound_that_is_no_pcm(report, program):
    lines = LINK_HEAD + AVI_1 + packet_line("090f00") * 3 + "e 00\nc 00 12\nend\n"
    page = report(program("make", "link", source=lines.encode()), 1)
    notes = page.run("return [...document.querySelectorAll('.note')].map((one) => one.textContent)")
    assert "3 packets of high bit rate audio (IEC 61937) came, which are not played." in notes
