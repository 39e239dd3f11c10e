"""tools/lanes: the layout is that of docs/guide/FORMATS.md."""

import random
import re
import subprocess

import pytest

from tests.support import TOP

EXAMPLES = TOP / "examples"
# The capture of examples/red.txt: 270 bits a lane.
CONTROL = "54534d35d5"
RED = [
    bytes.fromhex(CONTROL * 3 + "cc320b10d5" + CONTROL * 2 + "54534d35"),
    bytes.fromhex(CONTROL + "abacb2ca2a" * 2 + "33cd0410d5" + CONTROL * 2 + "54534d35"),
    bytes.fromhex(CONTROL * 3 + "cc320b20d5" + CONTROL * 2 + "54534d35"),
]
CAPTURE = bytes.fromhex("544d43310000010e") + b"".join(RED)
TEXT = b"c 00 4\nc 04 8\nv ff0000\nc 00 12\nend\n"


@pytest.fixture
def files(tmp_path):
    """Writes three files, and answers their paths."""

    def write(lanes):
        paths = [tmp_path / name for name in ("blue", "green", "red")]
        for path, lane in zip(paths, lanes):
            path.write_bytes(lane)
        return paths

    return write


def mirrored(lane):
    return bytes(int(f"{byte:08b}"[::-1], 2) for byte in lane)


def test_packs_and_unpacks_the_worked_example(tool, files):
    paths = files(RED)
    assert tool("lanes", "pack", "--bits", 270, *paths).stdout == CAPTURE
    paths = files([b"", b"", b""])
    assert tool("lanes", "unpack", *paths, source=CAPTURE).stdout == b"270,270,270\n"
    assert [path.read_bytes() for path in paths] == RED


def test_the_first_bit_may_be_the_highest(tool, files):
    paths = files(map(mirrored, RED))
    assert tool("lanes", "pack", "--msb", "--bits", 270, *paths).stdout == CAPTURE
    tool("lanes", "unpack", "--msb", *paths, source=CAPTURE)
    assert [path.read_bytes() for path in paths] == [mirrored(lane) for lane in RED]


def test_bits_past_the_last_are_cut_off(tool, files):
    longer = [lane[:-1] + bytes([lane[-1] | 0xC0]) + b"\xff" for lane in RED]
    assert tool("lanes", "pack", "--bits", "270,270,270", *files(longer)).stdout == CAPTURE


def test_lanes_of_unlike_lengths_make_version_2(tool, files):
    lanes = [bytes([1]) * 5000, bytes([2]) * 100, bytes([3]) * 4097]
    body = lanes[0][:4096] + lanes[1] + lanes[2][:4096] + lanes[0][4096:] + lanes[2][4096:]
    capture = b"TMC2" + b"".join((8 * len(lane)).to_bytes(4, "big") for lane in lanes) + body
    paths = files(lanes)
    assert tool("lanes", "pack", *paths).stdout == capture
    paths = files([b"", b"", b""])
    assert tool("lanes", "unpack", *paths, source=capture).stdout == b"40000,800,32776\n"
    assert [path.read_bytes() for path in paths] == lanes


def test_empty_lanes(tool, files):
    paths = files([b"", b"", b""])
    assert tool("lanes", "pack", *paths).stdout == b"TMC1" + bytes(4)
    assert tool("lanes", "unpack", *paths, source=b"TMC1" + bytes(4)).stdout == b"0,0,0\n"


@pytest.mark.parametrize(
    "source, says",
    [
        (b"", b"ends after 0 bytes"),
        (b"TMX", b"not a capture"),
        (b"TMC9" + bytes(4), b"version"),
        (b"TMC2" + bytes(11), b"ends after 15 bytes"),
        (CAPTURE[:-1], b"109 bytes"),
        (CAPTURE + b"\0", b"111 bytes"),
        (CAPTURE[:-1] + b"\x75", b"lane 2 has ones after its last bit"),
    ],
)
def test_what_is_no_capture_is_refused(tool, files, source, says):
    paths = files([b"a", b"b", b"c"])
    assert says in tool("lanes", "unpack", *paths, source=source, status=3).stderr
    assert [path.read_bytes() for path in paths] == [b"a", b"b", b"c"]


def test_bad_files_and_words(tool, files, tmp_path):
    paths = files(RED)
    assert b"missing" in tool("lanes", "pack", tmp_path / "missing", *paths[1:], status=3).stderr
    assert b"it has 272 bits, but --bits asks for 273. Give at most 272" in tool("lanes", "pack", "--bits", 273, *paths, status=3).stderr
    for words in (
        [],
        ["pack"],
        ["pack", *paths[:2]],
        ["pack", "--bits", "1,2", *paths],
        ["pack", "--bits", "-1", *paths],
    ):
        tool("lanes", *words, status=2)


def test_help(tool):
    for words in (["--help"], *([command, "--help"] for command in ("pack", "unpack", "cut", "look"))):
        assert tool("lanes", *words).stdout.startswith(b"usage: lanes")


def test_the_program_reads_what_was_packed(tool, files, program):
    capture = tool("lanes", "pack", "--bits", 270, *files(RED)).stdout
    assert program("recover", "link", source=capture) == TEXT
    assert program("make", "link", source=TEXT) == CAPTURE


def test_the_program_reads_version_2(tool, files, program):
    """The lanes begin 7, 77 and 42 bits late, and all end together: the whole listing comes back."""
    text = b"c 00 24\nc 04 8\nv ff0000\nc 00 12\nend\n"
    made = program("make", "link", "--version", 2, "--offset", 7, "--skew", "0,70,35", source=text)
    paths = files([b"", b"", b""])
    bits = tool("lanes", "unpack", *paths, source=made).stdout.decode().strip()
    assert bits == "463,393,428"
    assert tool("lanes", "pack", "--bits", bits, *paths).stdout == made
    assert program("recover", "link", source=made) == TEXT


def words_of(lane, count, width, msb=False):
    """The ten bits of each character of a lane, as words of so many bits, low byte first; what is over them is 1."""
    bits = [lane[at // 8] >> at % 8 & 1 for at in range(count)]
    tens = [bits[at : at + 10][:: -1 if msb else 1] for at in range(0, count, 10)]
    whole = [sum(bit << at for at, bit in enumerate(ten)) | (1 << width) - (1 << 10) for ten in tens]
    return b"".join(word.to_bytes(width // 8, "little") for word in whole)


@pytest.mark.parametrize("width", [16, 32])
def test_words_have_ten_bits(tool, files, width):
    paths = files(words_of(lane, 270, width) for lane in RED)
    assert tool("lanes", "pack", "--words", width, *paths).stdout == CAPTURE
    assert tool("lanes", "pack", "--words", width, "--bits", 270, *paths).stdout == CAPTURE
    came = tool("lanes", "pack", "--words", width, "--bits", 271, *paths, status=3)
    assert b"it has 270 bits, but --bits asks for 271" in came.stderr
    paths = files(words_of(lane, 270, width, msb=True) for lane in RED)
    assert tool("lanes", "pack", "--words", width, "--msb", *paths).stdout == CAPTURE
    for words in (["--words", width], ["--words", width, "--msb"]):
        assert tool("lanes", "unpack", *words, *paths, source=CAPTURE).stdout == b"270,270,270\n"
        assert tool("lanes", "pack", *words, *paths).stdout == CAPTURE
    paths[1].write_bytes(b"abc")
    assert b"no whole number of words" in tool("lanes", "pack", "--words", width, *paths, status=3).stderr


@pytest.mark.parametrize("count", [0, 1, 9, 271, 2_621_440, 2_621_447])
def test_words_there_and_back(tool, files, count):
    """Also where the last one is not whole, and where there are many."""
    lane = random.Random(count).randbytes((count + 7) // 8)
    if count % 8:
        lane = lane[:-1] + bytes([lane[-1] & (1 << count % 8) - 1])
    paths = files([lane, b"", b""])
    sent = tool("lanes", "pack", "--bits", f"{count},0,0", *paths).stdout
    for words, size in ((["--words", 16], 2), (["--words", 32, "--msb"], 4), (["--words", 10], 4)):
        bits = tool("lanes", "unpack", *words, *paths, source=sent).stdout.decode().strip()
        assert paths[0].stat().st_size == (count + 9) // 10 * size
        assert tool("lanes", "pack", *words, "--bits", bits, *paths).stdout == sent


def test_words_as_text(tool, files):
    """A word a line, as $readmemh reads it; what $writememh and $fwrite write is read too."""
    paths = files([b"", b"", b""])
    tool("lanes", "unpack", "--words", 10, *paths, source=CAPTURE)
    lines = [path.read_text().splitlines() for path in paths]
    assert [lane[11:16] for lane in lines] == [
        ["354", "2cc", "2cc", "100", "354"],
        ["0ab", "133", "133", "100", "354"],
        ["354", "2cc", "2cc", "200", "354"],
    ]
    assert [len(lane) for lane in lines] == [27] * 3
    paths[0].write_text("// 0x00000000\n" + " ".join(lines[0]).upper() + " // the end")
    assert tool("lanes", "pack", "--words", 10, *paths).stdout == CAPTURE
    tool("lanes", "unpack", "--words", 10, "--msb", *paths, source=CAPTURE)
    assert paths[2].read_text().splitlines()[11:16] == ["0ab", "0cd", "0cd", "001", "0ab"]
    assert tool("lanes", "pack", "--words", 10, "--msb", *paths).stdout == CAPTURE
    for text, says in (("354\n0xx", b"its word 1, `0xx`"), ("400", b"its word 0, `400`"), ("-1", b"its word 0, `-1`")):
        paths[1].write_text(text)
        assert says in tool("lanes", "pack", "--words", 10, *paths, status=3).stderr


def test_a_file_that_is_named_twice(tool, files, tmp_path):
    """It is refused, and nothing is written; what holds nothing may be named for all."""
    paths = files(RED)
    (tmp_path / "link").symlink_to(paths[0])
    for other in (paths[0], tmp_path / ".." / tmp_path.name / "blue", tmp_path / "link"):
        assert b"it is named twice" in tool("lanes", "pack", *paths[:2], other, status=3).stderr
        assert b"it is named twice" in tool("lanes", "unpack", *paths[:2], other, source=CAPTURE, status=3).stderr
    tool("lanes", "unpack", tmp_path / "new", tmp_path / "new", paths[0], source=CAPTURE, status=3)
    assert [path.read_bytes() for path in paths] == RED and not (tmp_path / "new").exists()
    assert tool("lanes", "unpack", "/dev/null", "/dev/null", paths[0], source=CAPTURE).stdout == b"270,270,270\n"
    assert paths[0].read_bytes() == RED[2]


def bits_of(lanes, counts):
    return ["".join(str(lane[at // 8] >> at % 8 & 1) for at in range(count)) for lane, count in zip(lanes, counts)]


@pytest.mark.parametrize("given", ["0", "1", "8", "13", "270", "0,0,70", "3,10,269", "270,0,270"])
def test_cut(tool, files, tmp_path, given):
    """The lanes without their first bits, in a capture of either version."""
    (tmp_path / "a.tmc").write_bytes(CAPTURE)
    starts = [int(word) for word in given.split(",")] * (1 if "," in given else 3)
    came = tool("lanes", "cut", tmp_path / "a.tmc", "--from", given).stdout
    assert came[3:4] == (b"1" if len(set(starts)) == 1 else b"2")
    paths = files([b"", b"", b""])
    counts = [int(word) for word in tool("lanes", "unpack", *paths, source=came).stdout.split(b",")]
    assert counts == [270 - start for start in starts]
    wanted = [lane[start:] for lane, start in zip(bits_of(RED, [270] * 3), starts)]
    assert bits_of([path.read_bytes() for path in paths], counts) == wanted


def test_cut_that_is_refused(tool, tmp_path):
    (tmp_path / "a.tmc").write_bytes(CAPTURE)
    came = tool("lanes", "cut", tmp_path / "a.tmc", "--from", "0,271,0", status=3)
    assert b"lane 1 has 270 bits, so --from cannot cut 271. Cut at most 270" in came.stderr and came.stdout == b""
    tool("lanes", "cut", tmp_path / "missing", "--from", 1, status=3)
    (tmp_path / "b.tmc").write_bytes(CAPTURE[:-1])
    tool("lanes", "cut", tmp_path / "b.tmc", "--from", 1, status=3)
    for words in ([], ["--from", "1,2"], ["--from", "-1"], ["--from", "x"]):
        tool("lanes", "cut", tmp_path / "a.tmc", *words, status=2)


def test_cut_brings_a_late_lane_within_reach(tool, program, tmp_path):
    """Lane 2 is 400 bits late, so nothing aligns; 400 bits of it are cut, and what was sent comes back."""
    text = (EXAMPLES / "bars.content").read_bytes()
    late = program("make", "content", "--skew", "400,400,0", "--version", 2, source=text)
    program("check", source=late, status=7)
    (tmp_path / "a.tmc").write_bytes(late)
    came = tool("lanes", "cut", tmp_path / "a.tmc", "--from", "0,0,400").stdout
    assert program("check", source=came) == b"clean\n"
    sent = program("make", "content", "--offset", 400, "--version", 2, source=text)
    assert program("recover", "content", source=came) == program("recover", "content", source=sent)


def test_order_and_polarity(tool, files):
    over = [bytes(byte ^ 0xFF for byte in RED[2]), RED[0], bytes(byte ^ 0xFF for byte in RED[1])]
    words = ["--order", "2,0,1", "--invert", "1,2", "--bits", 270]
    assert tool("lanes", "pack", *words, *files(over)).stdout == CAPTURE
    for words in (["--order", "0,1"], ["--order", "0,0,1"], ["--invert", "3"], ["--invert", "1,1"], ["--words", 8]):
        tool("lanes", "pack", *words, *files(RED), status=2)


@pytest.fixture
def lane_files(tool, files, program):
    """Three files of the lanes of three small frames with a tone, and their capture."""
    text = (EXAMPLES / "bars.content").read_bytes()
    sent = program("make", "content", "--offset", 2347, "--skew", "0,70,35", "--version", 2, source=text)
    paths = files([b"", b"", b""])
    bits = tool("lanes", "unpack", *paths, source=sent).stdout.decode().strip()
    return paths, bits, sent


@pytest.mark.parametrize("order", ["0,1,2", "1,0,2", "2,0,1"])
@pytest.mark.parametrize("invert", [[], ["--invert", "0"], ["--invert", "1,2"], ["--invert", "0,1,2"]])
def test_look_finds_order_and_polarity(tool, lane_files, tmp_path, order, invert):
    """What it says packs the lanes as they were."""
    paths, bits, sent = lane_files
    mixed = tool("lanes", "pack", "--order", order, *invert, "--bits", bits, *paths).stdout
    (tmp_path / "a.tmc").write_bytes(mixed)
    is_right = mixed == sent
    told = tool("lanes", "look", tmp_path / "a.tmc", status=0 if is_right else 1).stdout.decode().splitlines()
    assert len(told) == (4 if is_right else 5) and all("locks as it is" in line for line in told[:3])
    if is_right:
        assert told[3] == "right as it is: 28 of 28 openings"
        return
    assert told[3].startswith("with `lanes pack --") and told[3].endswith("`: 28 of 28 openings are right")
    assert pasted(told[4], tmp_path / "a.again.tmc") == sent


def pasted(line, path):
    """What a capture holds that the commands of a line make."""
    assert line.startswith(f"to be pasted: {TOP}/tools/lanes ")
    subprocess.run(line.removeprefix("to be pasted: "), shell=True, check=True, stdout=subprocess.DEVNULL)
    return path.read_bytes()


@pytest.mark.parametrize("starts", [(0, 0, 0), (3, 3, 3), (8, 5, 17)])
@pytest.mark.parametrize("words", [[], ["--order", "2,0,1", "--invert", "1"]])
def test_look_finds_a_serialiser_that_sends_the_highest_bit_first(tool, program, tmp_path, files, starts, words):
    """Wherever in a character the lanes begin; their capture is packed anew, and what was sent comes back."""
    text = (EXAMPLES / "bars.content").read_bytes()
    sent = program("make", "content", "--version", 2, source=text)
    paths = files([b"", b"", b""])
    tool("lanes", "unpack", "--words", 16, *paths, source=sent)
    (tmp_path / "first.tmc").write_bytes(tool("lanes", "pack", "--words", 16, "--msb", *words, *paths).stdout)
    came = tool("lanes", "cut", tmp_path / "first.tmc", "--from", ",".join(map(str, starts))).stdout
    (tmp_path / "a b.tmc").write_bytes(came)
    told = tool("lanes", "look", tmp_path / "a b.tmc", status=1).stdout.decode().splitlines()
    for line, start in zip(told, starts):
        begins = f" from bit {-start % 10} on" if start % 10 else ""
        assert f"locks with each ten{begins} turned round at place" in line
    doubt = "" if any(start % 10 for start in starts) else ", or its words were packed without --msb"
    assert told[3] == f"the serialiser sends the highest bit first{doubt}"
    assert told[4].startswith("with `lanes pack ") and "--words 16 --msb`: " in told[4]
    assert re.search(r"`: (29|30) of \1 openings are right$", told[4])
    again = pasted(told[5], tmp_path / "a b.again.tmc")
    (tmp_path / "c.tmc").write_bytes(again)
    assert tool("lanes", "look", tmp_path / "c.tmc").stdout.splitlines()[3].startswith(b"right as it is: ")
    assert program("check", source=again) == b"clean\n"
    shown, wanted = (program("recover", "link", source=source) for source in (again, sent))
    assert shown.count(b"\nv ") == wanted.count(b"\nv ") > 0


def test_look_finds_no_opening(tool, program, tmp_path):
    """A stream without guard bands has none that is right as it is."""
    text = b"c 00 40\n" + b"v 010203040506070809\nc 00 40\n" * 5 + b"end\n"
    (tmp_path / "a.tmc").write_bytes(program("make", "dvi", source=text))
    told = tool("lanes", "look", tmp_path / "a.tmc", status=1).stdout
    assert b"no guards: order and polarity cannot be told" in told


def test_look_finds_the_bit_order(tool, lane_files, tmp_path):
    paths, bits, sent = lane_files
    whole = ",".join(str(int(count) // 8 * 8) for count in bits.split(","))
    right = tool("lanes", "pack", "--bits", whole, *paths).stdout
    tool("lanes", "unpack", "--msb", *paths, source=right)
    (tmp_path / "a.tmc").write_bytes(tool("lanes", "pack", *paths).stdout)
    told = tool("lanes", "look", tmp_path / "a.tmc", status=1).stdout
    assert told.count(b"locks with each byte turned round") == 3 and b"with `lanes pack --msb`: 28 of 28" in told
    assert tool("lanes", "pack", "--msb", *paths).stdout == right
    assert pasted(told.decode().splitlines()[-1], tmp_path / "a.again.tmc") == right


def test_look_says_where_it_is_in_doubt(tool, files, tmp_path):
    """One opening of a line: with all lanes turned over blue and red are as green, and green is as these."""
    mixed = [RED[1], RED[0], bytes(byte ^ 0xFF for byte in RED[2])]
    (tmp_path / "a.tmc").write_bytes(tool("lanes", "pack", "--bits", 270, *files(mixed)).stdout)
    told = tool("lanes", "look", tmp_path / "a.tmc", status=1).stdout
    assert b": 1 of 1 openings are right; so they are with " in told


def test_look_says_which_lane_does_not_lock(tool, files, tmp_path):
    """A recovery of these ends with status 7."""
    noise = random.Random(1).randbytes(5000)
    (tmp_path / "a.tmc").write_bytes(tool("lanes", "pack", *files([RED[0], noise, RED[2]])).stdout)
    told = tool("lanes", "look", tmp_path / "a.tmc", status=1).stdout.decode().splitlines()
    assert told[0].startswith("lane 0: 272 bits, locks as it is at place 0; of 1 control periods 1 in 2cc")
    assert told[1].startswith("lane 1: 40000 bits, no twelve control characters in a row in any bit order: noise or another code: ")
    assert told[3] == "no alignment: not all lanes lock"
    (tmp_path / "a.tmc").write_bytes(tool("lanes", "pack", *files([b"", b"", b""])).stdout)
    assert tool("lanes", "look", tmp_path / "a.tmc", status=1).stdout.count(b"no twelve control") == 3
    late = [RED[0], bytes.fromhex(CONTROL * 4) + RED[1], RED[2]]
    (tmp_path / "a.tmc").write_bytes(tool("lanes", "pack", *files(late)).stdout)
    told = tool("lanes", "look", tmp_path / "a.tmc", status=1).stdout
    assert b"at the skew 160,0,160 1 opening fits, but lanes more than 70 bits apart" in told
    late[1] = bytes.fromhex(CONTROL * 4) + RED[0]
    (tmp_path / "a.tmc").write_bytes(tool("lanes", "pack", *files(late)).stdout)
    assert b"end within 70 bits" in tool("lanes", "look", tmp_path / "a.tmc", status=1).stdout
    tool("lanes", "look", tmp_path / "missing", status=3)
    tool("lanes", "look", tmp_path / "blue", status=3)
