"""tools/sound: the samples of a content listing as a WAV file."""

import wave

import pytest

AVI = b"avi 2 0 1 0 8 0 0 0 2 0 0 1 0 0 0 0 0\n"
ACR = b"acr 6144 25200\n"
SAMPLES = b"s 123400 ffff00 0 0 1 0\ns 800000 000100 4 4 0 0\n"
DATA = b"\x34\x12\xff\xff\x00\x80\x01\x00"


def heard(path):
    with wave.open(str(path)) as file:
        assert file.getnchannels() == 2
        return file.getframerate(), file.getsampwidth(), file.readframes(file.getnframes())


@pytest.fixture
def path(tmp_path):
    return tmp_path / "a.wav"


def test_samples_of_16_bits(tool, path):
    came = tool("sound", path, source=AVI + ACR + SAMPLES + b"end\n")
    assert heard(path) == (48000, 2, DATA)
    assert came.stderr == b"2 samples of 16 bits at 48000 Hz, no faults\n" and came.stdout == b""


def test_samples_of_24_bits(tool, path):
    text = AVI + ACR + SAMPLES.replace(b"ffff00", b"ffff01") + b"end\n"
    tool("sound", path, source=text)
    assert heard(path) == (48000, 3, b"\0\x34\x12\x01\xff\xff\0\0\x80\0\x01\0")
    tool("sound", path, "--bits", 16, source=text)
    assert heard(path) == (48000, 2, DATA)


@pytest.mark.parametrize(
    "head, words, rate",
    [
        (AVI + b"acr 6272 28000\n", [], 44100),
        (AVI + b"acr 6864 28125\n", [], 48000),  # 59.94 frames a second
        (AVI + ACR + b"acr 4096 1\n", [], 48000),
        (AVI.replace(b"0 1 0 0 0 0 0\n", b"0 4 0 0 0 0 0\n") + b"acr 6144 74250\n", [], 48000),
        (AVI + b"acr 6144 20000\n", [], 60480),
        (b"vic 4\n" + AVI + b"acr 6144 74250\n", [], 48000),
        (ACR, ["--clock", 27000000], 51429),
        (AVI.replace(b"0 1 0 0 0 0 0\n", b"0 0 0 0 0 0 0\n") + ACR, [], 48000),  # a mode without a code
        (b"mode 32 8 16 64 24 2 2 2 1\n" + ACR, [], 48000),
        (b"", ["--rate", 32000], 32000),
        (AVI + ACR, ["--rate", 96000], 96000),
    ],
)
def test_rates(tool, path, head, words, rate):
    tool("sound", path, *words, source=head + SAMPLES + b"end\n")
    assert heard(path) == (rate, 2, DATA)


BLOCK_48000 = b"0" * 4 + b"1002" + b"0" * 40


def test_biphase_streams(tool, path):
    """A listing of a biphase stream has no clock packet; its channel status names the rate, whatever the sides' numbers."""
    told = b"block " + BLOCK_48000 + b" " + BLOCK_48000.replace(b"1002", b"2002") + b"\n"
    tool("sound", path, source=SAMPLES + told + b"end\n")
    assert heard(path) == (48000, 2, DATA)
    tool("sound", path, "--rate", 32000, source=SAMPLES + told + b"end\n")
    assert heard(path) == (32000, 2, DATA)
    came = tool("sound", path, source=AVI + b"acr 6272 28000\n" + SAMPLES + told + b"end\n", status=1)
    assert heard(path) == (44100, 2, DATA) and came.stderr.splitlines() == [
        b"sound: the clock packets say 44100 Hz, the channel status says 48000 Hz",
        b"2 samples of 16 bits at 44100 Hz, 1 rate",
    ]
    tool("sound", path, source=SAMPLES + told.replace(b"1002", b"1001") + told + b"end\n")  # code 1 names no rate
    assert heard(path) == (48000, 2, DATA)
    own = b"mode 32 8 16 64 24 2 2 2 1\nacr 6272 28000\n"  # the pixel clock of such a mode is not told, so nothing disagrees
    tool("sound", path, source=own + SAMPLES + told + b"end\n")
    assert heard(path) == (48000, 2, DATA)


def test_faults_are_counted(tool, path):
    faults = b"! parity 14 1 l\n! parity 14 1 r\n! lost 14 0\n! code 2 99\n! symbols 14 1\ncut 99\nend\n"
    came = tool("sound", path, source=AVI + ACR + SAMPLES + faults, status=1)
    assert came.stderr == b"2 samples of 16 bits at 48000 Hz, 1 lost, 2 parity\n"
    assert heard(path) == (48000, 2, DATA)


@pytest.mark.parametrize(
    "text, says",
    [
        (b"", b"the input is empty"),
        (AVI + ACR + b"end\n", b"the listing has no samples"),
        (AVI + SAMPLES + b"end\n", b"no clock packet"),
        (AVI + b"acr 6144 0\n" + SAMPLES + b"end\n", b"no clock packet"),
        (ACR + SAMPLES + b"end\n", b"no AVI InfoFrame with a known code"),
        (ACR + b"s 1234 000000 0 0 1 0\nend\n", b"six hexadecimal digits"),
        (ACR + b"s 123400 000000\nend\n", b"line 2: it has 2 fields instead of 6"),
        (AVI + ACR + SAMPLES, b"ends after 4 lines"),
        (SAMPLES + b"end\n", b"no clock packet"),
        (SAMPLES + b"block 00 00\nend\n", b"line 3"),
        (SAMPLES + b"block " + b"0" * 48 + b"\nend\n", b"line 3: it has 1 fields instead of 2"),
        (b"c 00 12\nend\n", b"the listing has no samples"),
        (b"x 00 12\nend\n", b"line 1"),
        (b"c 00 12\ns 123400 000000 0 0 1 0\nend\n", b"line 2"),
    ],
)
def test_bad_listings(tool, path, text, says):
    words = ["--clock", 25200000] if b"s 1234 " in text else []
    assert says in tool("sound", path, *words, source=text, status=3).stderr
    assert not path.exists()


def test_bad_words(tool, path, tmp_path):
    for words in ([], [path, "--rate", 0], [path, "--rate", 1, "--clock", 1], [path, "--bits", 8]):
        tool("sound", *words, status=2)
    tool("sound", tmp_path / "missing" / "a.wav", source=AVI + ACR + SAMPLES + b"end\n", status=3)


def test_help(tool):
    assert tool("sound", "--help").stdout.startswith(b"usage: sound")
