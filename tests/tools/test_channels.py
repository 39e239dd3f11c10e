"""tools/content and tools/sound: sounds of more than two channels, there and back, and the rates that a stream tells. WAV files are
written and read here byte by byte; bodies of packets are those of HDMI 1.4, section 5.3.4."""

import itertools
import random
import struct

import pytest
from PIL import Image

MODE = "2,4,16,640,1,1,20,1,1"  # a frame has 662 * 23 = 15,226 columns
CLOCK = ["--clock", 1522600]  # 100 frames a second: 480 samples of 48 kHz a frame
LINK_HEAD = "c 00 4\nc 14 8\ni 00\n"


def wav(frames, bits, mask, rate=48000):
    """A WAV file of the extensible format: samples of numbers, channel by channel; mask 0 writes the plain format."""
    channels, size = len(frames[0]), bits // 8
    data = b"".join(value.to_bytes(size, "little", signed=True) for frame in frames for value in frame)
    kind = 0xFFFE if mask else 1
    form = struct.pack("<HHIIHH", kind, channels, rate, rate * channels * size, channels * size, bits)
    if mask:
        form += struct.pack("<HHI", 22, bits, mask) + struct.pack("<H", 1) + bytes.fromhex("000000001000800000aa00389b71")
    body = b"WAVEfmt " + struct.pack("<I", len(form)) + form + b"data" + struct.pack("<I", len(data)) + data
    return b"RIFF" + struct.pack("<I", len(body)) + body


def read_wav(path):
    """The rate, the bits, the mask and the samples of a WAV file."""
    data = path.read_bytes()
    at, found = 12, {}
    while at + 8 <= len(data):
        size = struct.unpack("<I", data[at + 4 : at + 8])[0]
        found[data[at : at + 4]] = data[at + 8 : at + 8 + size]
        at += 8 + size + size % 2
    form = found[b"fmt "]
    _, channels, rate, _, _, bits = struct.unpack("<HHIIHH", form[:16])
    mask = struct.unpack("<I", form[20:24])[0] if len(form) >= 40 else 0
    size, body = bits // 8, found[b"data"]
    values = [int.from_bytes(body[at : at + size], "little", signed=True) for at in range(0, len(body), size)]
    return rate, bits, mask, [tuple(values[at : at + channels]) for at in range(0, len(values), channels)]


@pytest.fixture
def image(tmp_path):
    Image.new("RGB", (2, 1)).save(tmp_path / "a.png")
    return tmp_path / "a.png"


def noise(channels, count, bits, seed=1):
    source = random.Random(seed)
    return [tuple(source.randrange(-(2 ** (bits - 1)), 2 ** (bits - 1)) for _ in range(channels)) for _ in range(count)]


# Of each allocation of CTA-861 the places of a WAV file's channels among those of a link, and the mask of its speakers.
SOUNDS = [
    (3, 0x0B, "LFE", [0, 1, 2], 0x01),
    (6, 0x3F, "5.1", [0, 1, 3, 2, 4, 5], 0x0B),
    (8, 0x63F, "7.1", [0, 1, 3, 2, 6, 7, 4, 5], 0x13),
    (4, 0x33, "quad", [0, 1, 4, 5], 0x08),
    (5, 0x37, "5.0", [0, 1, 3, 4, 5], 0x0A),
    (8, 0xFF, "7.1 wide", [0, 1, 3, 2, 4, 5, 6, 7], 0x1F),
]


def body(left, right, bits, c_left, c_right):
    """The body of a pair: values of 24 bits, low byte first, and V, U, C and P of each side."""
    flags, data = 0, b""
    for side, (value, c) in enumerate(((left, c_left), (right, c_right))):
        number = (value << 24 - bits) & 0xFFFFFF
        data += number.to_bytes(3, "little")
        flags |= (c << 2 | (number.bit_count() + c) % 2 << 3) << 4 * side
    return (data + bytes([flags])).hex()


def status_bit(place, channel, bits):
    """IEC 60958-3: no copyright is bit 2, the channel's number bits 20 to 23, 48 kHz bit 25; 16 bits are bit 33, 24 bits 32, 33, 35."""
    number = {it for it in range(20, 24) if channel >> (it - 20) & 1}
    return int(place in {2, 25} | number | ({33} if bits == 16 else {32, 33, 35}))


@pytest.mark.parametrize("bits", [16, 24])
@pytest.mark.parametrize("channels, mask, name, order, allocation", SOUNDS)
def test_layout_1(tool, image, tmp_path, bits, channels, mask, name, order, allocation):
    frames = noise(channels, 5, bits)
    (tmp_path / "a.wav").write_bytes(wav(frames, bits, mask))
    came = tool("content", image, "--mode", MODE, *CLOCK, "--sound", tmp_path / "a.wav").stdout.decode().splitlines()
    assert f"audio {channels - 1} 0 0 0 {allocation} 0 0" in came
    present = sorted({at // 2 for at in order})
    head = f"packet 02{sum(1 << pair for pair in present) | 16:02x}"
    for number, frame in enumerate(frames):
        places = dict(zip(order, frame))
        bodies = []
        for pair in range(4):
            if pair not in present:
                bodies.append("00" * 7)
                continue
            sides = [places.get(2 * pair + side, 0) for side in (0, 1)]
            bodies.append(body(*sides, bits, *(status_bit(number, 2 * pair + side + 1, bits) for side in (0, 1))))
        starts = sum(16 << pair for pair in present) if number == 0 else 0
        assert f"{head}{starts:02x} {' '.join(bodies)}" in came


@pytest.mark.parametrize("bits", [16, 24])
@pytest.mark.parametrize("channels, mask, name, order, allocation", SOUNDS)
def test_there_and_back(tool, program, image, tmp_path, bits, channels, mask, name, order, allocation):
    frames = noise(channels, 400, bits)
    (tmp_path / "a.wav").write_bytes(wav(frames, bits, mask))
    listing = tool("content", image, "--mode", MODE, *CLOCK, "--sound", tmp_path / "a.wav").stdout
    capture = program("make", "content", source=listing)
    link = program("recover", "link", source=capture)
    came = tool("sound", tmp_path / "b.wav", "--clock", 1522600, source=link)
    assert read_wav(tmp_path / "b.wav") == (48000, bits, mask, frames)
    assert came.stderr.decode().startswith(f"400 samples of {bits} bits, of {channels} channels (FL FR")
    tool("sound", tmp_path / "c.wav", "--clock", 1522600, source=listing)
    assert (tmp_path / "c.wav").read_bytes() == (tmp_path / "b.wav").read_bytes()


def test_by_pairs(tool, program, image, tmp_path):
    """What `recover biphase` writes of each pair, read back, is the same sound."""
    frames = noise(6, 400, 24)
    (tmp_path / "a.wav").write_bytes(wav(frames, 24, 0x3F))
    listing = tool("content", image, "--mode", MODE, *CLOCK, "--sound", tmp_path / "a.wav").stdout
    capture = program("make", "content", source=listing)
    for pair in range(3):
        (tmp_path / f"{pair}").write_bytes(
            program("read", "biphase", source=program("recover", "biphase", pair, source=capture))
        )
    came = tool("sound", tmp_path / "b.wav", "--pairs", *(tmp_path / f"{pair}" for pair in range(3)))
    assert read_wav(tmp_path / "b.wav") == (48000, 24, 0x3F, frames)
    assert b"no audio InfoFrame tells the speakers: allocation 11 is taken" in came.stderr
    tool("sound", tmp_path / "c.wav", "--allocation", 11, "--pairs", *(tmp_path / f"{pair}" for pair in range(3)))
    assert (tmp_path / "c.wav").read_bytes() == (tmp_path / "b.wav").read_bytes()
    assert b"missing" in tool("sound", tmp_path / "d.wav", "--pairs", tmp_path / "missing", status=3).stderr
    tool("sound", tmp_path / "d.wav", "--pairs", *["x"] * 5, status=2)


def test_two_pairs(tool, program, image, tmp_path):
    """Channels 1 to 4, which an audio InfoFrame would call FL FR LFE FC (CA 03), are all written where none is there."""
    frames = noise(4, 400, 16)
    (tmp_path / "a.wav").write_bytes(wav(frames, 16, 0))
    words = [image, "--mode", MODE, *CLOCK, "--sound", tmp_path / "a.wav", "--allocation", 3]
    capture = program("make", "content", source=tool("content", *words).stdout)
    for pair in range(2):
        (tmp_path / f"{pair}").write_bytes(
            program("read", "biphase", source=program("recover", "biphase", pair, source=capture))
        )
    came = tool("sound", tmp_path / "b.wav", "--pairs", tmp_path / "0", tmp_path / "1")
    assert read_wav(tmp_path / "b.wav") == (48000, 16, 0xF, frames)
    assert b"no audio InfoFrame tells the speakers: allocation 3 is taken" in came.stderr


def test_a_lost_packet(tool, program, image, tmp_path):
    """Two bits of a packet's body are wrong: its sample is left out of all channels, and counted."""
    frames = noise(8, 40, 16)
    (tmp_path / "a.wav").write_bytes(wav(frames, 16, 0x63F))
    listing = tool("content", image, "--mode", MODE, *CLOCK, "--sound", tmp_path / "a.wav").stdout
    lines = program("recover", "link", source=program("make", "content", source=listing)).decode().splitlines()
    at = [number for number, line in enumerate(lines) if line.startswith("p 02")][7]
    hurt = "\n".join([*lines[: at + 1], "! symbols 100 2", "! lost 100 2", *lines[at + 1 :], ""]).encode()
    came = tool("sound", tmp_path / "b.wav", "--clock", 1522600, source=hurt, status=1)
    assert read_wav(tmp_path / "b.wav")[3] == frames[:7] + frames[8:] and came.stderr.endswith(b", 1 lost\n")


def packet_line(header, *bodies):
    return f"p {header} {' '.join(body.ljust(14, '0') for body in (*bodies, *[''] * (4 - len(bodies))))} {'0' * 32}\n"


def infoframe(kind, version, payload):
    data = bytes.fromhex(payload)
    head = bytes((kind, version, len(data)))
    text = f"{-(sum(head) + sum(data)) % 256:02x}{payload}".ljust(56, "0")
    return packet_line(head.hex(), *(text[at : at + 14] for at in range(0, 56, 14)))


CLOCKS = packet_line("010000", *["00006270001800"] * 4)  # CTS 25200, N 6144: 48 kHz at 25.2 MHz
AVI_1 = infoframe(0x82, 2, "1000080100" + "00" * 8)


def two_channels(code, count=192):
    """Samples of layout 0, four a packet, whose channel status names a rate by its code."""
    text = ""
    for first in range(0, count, 4):
        bits = [int(place == 2 or 24 <= place < 28 and code >> (place - 24) & 1) for place in range(first, first + 4)]
        bodies = [f"000100000100{(bit << 2 | (1 + bit) % 2 << 3) * 17:02x}" for bit in bits]
        text += packet_line(f"020f{'10' if first == 0 else '00'}", *bodies)
    return text


@pytest.mark.parametrize(
    "frequency, code, says",
    [
        (3, 2, None),
        (0, 2, None),
        (2, 2, b"sound: the clock packets say 48000 Hz, the channel status says 48000 Hz, the audio InfoFrame says 44100 Hz"),
        (3, 0, b"sound: the clock packets say 48000 Hz, the channel status says 44100 Hz, the audio InfoFrame says 48000 Hz"),
        (0, 1, None),  # no rate is told by code 1
    ],
)
def test_rates_that_disagree(tool, tmp_path, frequency, code, says):
    audio = infoframe(0x84, 1, f"01{frequency << 2:02x}" + "00" * 8)
    text = LINK_HEAD + AVI_1 + CLOCKS + audio + two_channels(code) + "e 00\nc 00 12\nend\n"
    came = tool("sound", tmp_path / "a.wav", source=text.encode(), status=1 if says else 0)
    assert read_wav(tmp_path / "a.wav")[0] == 48000 and (says is None or came.stderr.splitlines()[0] == says)
    assert came.stderr.splitlines()[-1].endswith(b"1 rate" if says else b"no faults")


@pytest.mark.parametrize("depth, cycles", [(4, 25200), (5, 31500), (6, 37800), (7, 50400)])
def test_the_clock_of_deep_colour(tool, tmp_path, depth, cycles):
    """HDMI 1.4, section 6.5.1: columns come 1.25, 1.5 or 2 times as often as pixels; CTS counts columns."""
    clock = packet_line("010000", *[f"00{cycles:06x}001800"] * 4)
    control = packet_line("030000", *[f"00{depth:02x}"] * 4)
    text = LINK_HEAD + AVI_1 + control + clock + two_channels(2) + "e 00\nc 00 12\nend\n"
    tool("sound", tmp_path / "a.wav", source=text.encode())
    assert read_wav(tmp_path / "a.wav")[0] == 48000


@pytest.mark.parametrize("kind, name", [(7, b"One Bit Audio"), (8, b"DST audio"), (9, b"high bit rate audio (IEC 61937)")])
def test_sound_that_is_no_pcm_is_named(tool, tmp_path, kind, name):
    other = packet_line(f"{kind:02x}0f00") * 3
    text = LINK_HEAD + AVI_1 + CLOCKS + other + "e 00\nc 00 12\nend\n"
    came = tool("sound", tmp_path / "a.wav", source=text.encode(), status=3)
    assert came.stderr == b"sound: the listing has no samples of PCM, but 3 packets of " + name + b"\n"
    text = LINK_HEAD + AVI_1 + CLOCKS + other + two_channels(2) + "e 00\nc 00 12\nend\n"
    came = tool("sound", tmp_path / "a.wav", source=text.encode())
    assert came.stderr.splitlines()[0] == b"sound: 3 packets of " + name + b" are not written"


def test_a_channel_status_of_no_pcm_is_said(tool, tmp_path):
    text = LINK_HEAD + AVI_1 + CLOCKS + two_channels(2) + "e 00\nc 00 12\nend\n"
    lines = text.splitlines(keepends=True)
    first = next(at for at, line in enumerate(lines) if line.startswith("p 020f10"))
    fields = lines[first].split(" ")
    fields[3] = f"000100000100{(4 | 0) * 17:02x}"  # the C bit of sample 1 is set: bit 1 says that it is no PCM
    lines[first] = " ".join(fields)
    came = tool("sound", tmp_path / "a.wav", source="".join(lines).encode())
    assert b"sound: the channel status says that the samples are not linear PCM\n" in came.stderr


def test_files_without_speakers(tool, image, tmp_path):
    """A plain WAV file has its channels in the usual order; one whose speakers no allocation has is refused."""
    frames = noise(6, 3, 16)
    (tmp_path / "a.wav").write_bytes(wav(frames, 16, 0))
    (tmp_path / "b.wav").write_bytes(wav(frames, 16, 0x3F))
    one, other = (
        tool("content", image, "--mode", MODE, *CLOCK, "--sound", tmp_path / name).stdout for name in ("a.wav", "b.wav")
    )
    assert one == other and b"audio 5 0 0 0 11 0 0\n" in one
    (tmp_path / "c.wav").write_bytes(wav(frames, 16, 0x5033))
    assert b"audio 5 0 0 0 36 0 0\n" in tool("content", image, "--mode", MODE, *CLOCK, "--sound", tmp_path / "c.wav").stdout
    (tmp_path / "d.wav").write_bytes(wav(frames, 16, 0x5103))
    said = tool("content", image, "--mode", MODE, *CLOCK, "--sound", tmp_path / "d.wav", status=3).stderr
    assert b"no allocation has the speakers of its channel mask 5103. Give one with --allocation CA" in said
    words = [image, "--mode", MODE, *CLOCK, "--sound", tmp_path / "d.wav", "--allocation"]
    assert b"audio 5 0 0 0 38 0 0\n" in tool("content", *words, 38).stdout
    assert b"allocation 19 has 8 (FL FR LFE FC RL RR RLC RRC)" in tool("content", *words, 19, status=3).stderr


def test_reserved_allocations(tool, tmp_path):
    wide = packet_line("021310", "00010000010088", "00010000010088")
    text = LINK_HEAD + AVI_1 + CLOCKS + infoframe(0x84, 1, "0300003200" + "00" * 5) + wide + "e 00\nc 00 12\nend\n"
    said = tool("sound", tmp_path / "a.wav", source=text.encode(), status=3).stderr
    assert b"the channel allocation 50 of the audio InfoFrame is reserved. Give another one with --allocation CA" in said
    tool("sound", tmp_path / "a.wav", "--allocation", 3, source=text.encode())
    assert read_wav(tmp_path / "a.wav")[2:] == (0xF, [(1, 1, 1, 1)])


def test_packets_have_room(tool, image, tmp_path):
    """Of layout 1 each sample is a packet: 480 a frame, and an InfoFrame for the picture, one for the sound and the clock."""
    (tmp_path / "a.wav").write_bytes(wav(noise(6, 500, 16), 16, 0x3F))
    said = tool(
        "content", image, "--mode", "2,4,16,320,1,1,20,1,1", "--clock", 786600, "--sound", tmp_path / "a.wav", status=3
    ).stderr
    assert b", but needs 483" in said


def test_all_allocations_there_and_back(tool, tmp_path):
    """Each allocation of CTA-861, by the listing that a sender makes; channels that are not used are left out."""
    from vabgrot import channels
    from vabgrot.formats import speakers

    for number, row in enumerate(speakers.ALLOCATIONS):
        used = [at for at, name in enumerate(row) if name != speakers.NONE]
        frames = noise(len(used), 3, 24, number)
        (tmp_path / "a.wav").write_bytes(wav(frames, 24, 0))
        wide = channels.read(tmp_path / "a.wav", number)
        assert wide.allocation == number and wide.used == len(used)
        (tmp_path / "b.wav").write_bytes(channels.write(wide))
        assert read_wav(tmp_path / "b.wav")[3] == frames
        assert set(itertools.chain(*frames)) >= set(wide.values[:, used].flatten())
