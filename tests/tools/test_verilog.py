"""The cores of examples/verilog under Icarus Verilog and Verilator: the source is judged, with each of its bugs, and the
decoders are compared with the program."""

import re
import shutil
import subprocess

import pytest

from tests.support import HANGS, TOP

VERILOG = TOP / "examples" / "verilog"
NEEDED = {"icarus": ["iverilog", "make"], "verilator": ["verilator", "g++", "make"]}
WIDTH, HEIGHT, FRAMES = 32, 8, 3  # of the small raster: between the porches and syncs of 640 by 480
PORCHES = (16, 96, 48)  # of 640 by 480 across: front porch, sync and back porch (CTA-861, code 1)
ACROSS, DOWN = sum(PORCHES) + WIDTH, HEIGHT + 45
# The status of channels 1 and 2, its first bit lowest: free to copy, 48 kHz, 24 bits (IEC 60958-3).
LEFT, RIGHT = 0x0B02100004, 0x0B02200004


def need(simulator):
    missing = [name for name in NEEDED[simulator] if not shutil.which(name)]
    if missing:
        pytest.skip(f"of {simulator} there is no {' and no '.join(missing)}: Debian's packages iverilog, verilator, g++, make")


def made(folder, *words):
    """Makes a target in a folder by the Makefile's words."""
    words = ["make", "-s", "-C", VERILOG, f"OUT={folder}", *words]
    came = subprocess.run([str(word) for word in words], capture_output=True, text=True, timeout=HANGS)
    assert came.returncode == 0, came.stderr
    return came


@pytest.fixture(scope="module")
def core(tmp_path_factory):
    """Simulates the small source, and answers the file of its capture; each kind is run once."""
    folder, known = tmp_path_factory.mktemp("core"), {}

    def run(bug="", dvi="", simulator="icarus"):
        need(simulator)
        key = bug, dvi, simulator
        if key not in known:
            name = f"{'dvi' if dvi else 'hdmi'}.small{'.' if bug else ''}{bug}.tmc"
            words = ["SMALL=1", f"SIMULATOR={simulator}", f"BUG={bug}", f"DVI={dvi}"]
            made(folder / simulator, *words, folder / simulator / name)
            known[key] = folder / simulator / name
        return known[key]

    return run


def row(frame, down):
    """A row of the test picture, as a listing has it."""
    return "".join(f"{it:02x}{down:02x}{it ^ down ^ frame << 4:02x}" for it in range(WIDTH))


def sample(number):
    """A sample of the ramps, as a content listing has it."""
    level, place = number << 16 & 0xFFFFFF, number % 192
    status = (4 * (it >> place & 1) for it in (LEFT, RIGHT))
    return f"s {level:06x} {level ^ 0xFFFFFF:06x} {' '.join(map(str, status))} {int(place == 0)} 0"


@pytest.mark.parametrize("simulator", NEEDED)
def test_the_source(tool, program, core, tmp_path, simulator):
    """It is clean, and what it shows, says and plays is right."""
    path = core(simulator=simulator)
    assert program("check", source=path.read_bytes()) == b"clean\n"
    lines = program("recover", "content", source=path.read_bytes()).decode().splitlines()
    kinds = {kind: [line for line in lines if line.split()[0] == kind] for kind in ("row", "frame", "s")}
    assert kinds["row"] == [f"row {row(frame, down)}" for frame in range(FRAMES) for down in range(HEIGHT)]
    assert kinds["frame"] == [f"frame {WIDTH} {HEIGHT}"] * FRAMES
    due = (FRAMES * DOWN + 3) * ACROSS // 525  # a sample each 525 columns: 48 kHz of 25.2 MHz
    assert due - 2 <= len(kinds["s"]) <= due
    assert kinds["s"] == [sample(number) for number in range(len(kinds["s"]))]
    others = {line for line in lines if line.split()[0] not in kinds}
    assert others == {"avi 0 0 1 0 8 0 0 0 0 0 0 0 0 0 0 0 0", "acr 6144 25200", "audio 1 0 0 0 0 0 0", "end"}
    assert b"Link clean (" in tool("report", path, "-o", tmp_path / "a.html").stderr


@pytest.mark.parametrize("simulator", NEEDED)
def test_the_source_of_dvi(tool, program, core, tmp_path, simulator):
    """It has pixels alone, and no fault."""
    path = core(dvi="1", simulator=simulator)
    assert b"Link clean (" in tool("report", "--dvi", path, "-o", tmp_path / "a.html").stderr
    lines = program("recover", "dvi", source=path.read_bytes()).decode().splitlines()
    assert {line.split()[0] for line in lines} == {"c", "v", "end"}
    rows = [line for line in lines if line[0] == "v"]
    assert rows == [f"v {row(frame, down)}" for frame in range(FRAMES) for down in range(HEIGHT)]


def faults(program, path):
    """The fault lines of a capture that is not clean."""
    *lines, verdict = program("check", source=path.read_bytes(), status=1).decode().splitlines()
    assert verdict == "faulty" and lines
    return lines


def test_bit_order(tool, program, core, tmp_path):
    """The highest bit is sent first: `lanes look` says so, and with `--msb` the words are right."""
    path = core("BIT_ORDER")
    told = tool("lanes", "look", path, status=1).stdout.decode()
    assert "the serialiser sends the highest bit first" in told and ": 186 of 186 openings are right" in told
    names = ",".join(f"source_bench.q{lane}" for lane in range(3))
    came = tool("slice", path.with_suffix(".vcd"), "--words", names, "--clock", "source_bench.clk", "--msb")
    assert program("check", source=came.stdout) == b"clean\n"


def test_disparity_that_is_not_reset(program, core):
    """Some rows begin with characters that other disparities ask for; nothing else is wrong."""
    assert {line[:6] for line in faults(program, core("DISPARITY"))} == {"! code"}


def test_missing_guard(tool, program, core):
    """Each row opens without the two columns of guard, and what stands there opens nothing."""
    lines = faults(program, core("GUARD"))
    first = sum(PORCHES[1:]) - 2
    wanted = [(frame * DOWN + 35 + down) * ACROSS + first for frame in range(FRAMES) for down in range(HEIGHT)]
    assert all(re.fullmatch(r"! noise \d+", line) for line in lines)
    shown = [int(line.split()[2]) for line in lines]
    assert [at - shown[0] for at in shown] == [at - wanted[0] for at in wanted]
    told = tool("lanes", "look", core("GUARD")).stdout.decode()
    assert "of 186 control periods 0 in 2cc" in told and "162 of 186 openings" in told


def test_short_preamble(program, core):
    """Of every row and island."""
    lines = faults(program, core("PREAMBLE"))
    assert {line[:10] for line in lines} == {"! preamble"} and len(lines) == 186


def test_packet_parity_reversed(program, core):
    """No block with a parity but 0 is whole."""
    assert {line.split()[1] for line in faults(program, core("PARITY"))} <= {"lost", "mended"}
    content = program("recover", "content", source=core("PARITY").read_bytes(), status=1)
    assert b"\navi " not in content and b"\nacr " not in content


def test_lanes_exchanged(tool, program, core):
    """Nothing opens, and `lanes look` says in which order the lanes are right."""
    assert {line.split()[1] for line in faults(program, core("LANES"))} == {"noise", "preamble"}
    told = tool("lanes", "look", core("LANES"), status=1).stdout.decode()
    assert "with `lanes pack --order 2,1,0`: 186 of 186 openings are right" in told


def test_wrong_checksum(tool, program, core, tmp_path):
    """The link is clean; each InfoFrame's sum is wrong by its type, and `report` ends with status 1."""
    capture = core("CHECKSUM")
    assert program("check", source=capture.read_bytes()) == b"clean\n"
    lines = program("recover", "content", source=capture.read_bytes(), status=1).decode().splitlines()
    found = [line.split() for line in lines if line[0] == "!"]
    assert {(name, kind) for _, name, _, kind in found} == {("checksum", "82"), ("checksum", "84")}
    tool("report", capture, "-o", tmp_path / "a.html", status=1)


def porches(listing):
    """The front porches, syncs and back porches of a link listing, in columns, each between two rows of one frame."""
    syncs = []  # of each column: HSYNC, or None for one of pixels
    for line in listing.decode().splitlines():
        name, *fields = line.split(" ")
        if name == "c":
            syncs += [int(fields[0], 16) & 1] * int(fields[1])
        elif name in "ie":
            syncs += [int(digit) & 1 for digit in fields[0]]
        elif name == "p":
            syncs += [int(digit) & 1 for digit in fields[5]]
        elif name == "v":
            syncs += [1, 1, *[None] * (len(fields[0]) // 6)]  # two guard columns of the back porch
    text = "".join("p" if it is None else str(it) for it in syncs)
    return {tuple(map(len, found)) for found in re.findall(r"(?<=p)(1+)(0+)(1+)(?=p)", text)}


def test_wrong_porch(program, core):
    """The link is clean; its front porch is two columns longer than the standard's."""
    assert porches(program("recover", "link", source=core().read_bytes())) == {PORCHES}
    assert program("check", source=core("PORCH").read_bytes()) == b"clean\n"
    assert porches(program("recover", "link", source=core("PORCH").read_bytes())) == {(18, 96, 48)}


def rows_of(listing):
    return [line for line in listing.decode().splitlines() if line.startswith("v ")]


@pytest.fixture(scope="module")
def decoded(tmp_path_factory):
    """What the decoders make of a capture: its rows of pixels."""
    folder = tmp_path_factory.mktemp("sink")

    def run(capture, simulator):
        need(simulator)
        (folder / "a.tmc").write_bytes(capture)
        made(folder / simulator, "sink", f"CAPTURE={folder / 'a.tmc'}", f"SIMULATOR={simulator}")
        return rows_of((folder / simulator / "rows").read_bytes())

    return run


@pytest.mark.parametrize("simulator", NEEDED)
def test_the_decoders(program, decoded, simulator):
    """Of a capture with lanes apart, of a damaged one, and behind a slip, they decode the pixels of `recover`."""
    text = (TOP / "examples" / "bars.content").read_bytes()
    sent = program("make", "content", "--offset", 2347, "--skew", "0,70,35", "--version", 2, source=text)
    wanted = rows_of(program("recover", "link", source=sent))
    assert len(wanted) == 24 and decoded(sent, simulator) == wanted
    hurt = program("damage", "2:5035:0ab", "0:28450:3a5", source=sent)
    came = rows_of(program("recover", "link", source=hurt, status=1))
    assert came != wanted and decoded(hurt, simulator) == came
    slipped = program("slip", "2:26003:3", source=sent)
    epochs = program("recover", "track", source=slipped, status=1).partition(b"! slip ")
    behind = rows_of(epochs[2])
    assert len(behind) > 8 and decoded(slipped, simulator)[-len(behind) :] == behind


def test_the_decoders_of_the_source(program, core, decoded):
    """What one core sends the other one reads."""
    rows = decoded(core().read_bytes(), "icarus")
    assert rows == [f"v {row(frame, down)}" for frame in range(FRAMES) for down in range(HEIGHT)]


NAMED = (  # a bug, the tool that names it, its words, and a part of what it says
    ("BIT_ORDER", "characters", (), "alike: the highest bit of each character is sent first: 186 of 186 openings"),
    ("DISPARITY", "characters", (), "alike: the right bytes at another disparity: the coder does not start at 0 after blanking"),
    ("GUARD", "characters", (), "alike: no guard band before a row, else right (24 of 24 looked at)"),
    ("PREAMBLE", "characters", (), "alike: a preamble of 6 columns before a row, wants 8 (24 of 24 looked at)"),
    ("PARITY", "characters", (), "alike: the parity in reverse: its highest bit is sent first"),
    ("LANES", "characters", (), "alike: lanes 0 and 2 exchanged: 186 of 186 openings are right then"),
    ("CHECKSUM", "conform", (), "AVI InfoFrame: its bytes sum to 82, and checksum d9 wants 57: the type was left out of it"),
    ("PORCH", "conform", (), "H front porch 18, wants 16 (VIC 1)"),
)


@pytest.mark.parametrize("bug, name, words, says", NAMED, ids=[bug for bug, *_ in NAMED])
def test_each_bug_is_named(tool, program, core, bug, name, words, says):
    """In words, whoever's mistake it is."""
    status = 0 if bug == "PORCH" else 1
    assert says in tool(name, core(bug), *words, status=status).stdout.decode()


def test_the_right_source_breaks_no_rule(tool, program, core):
    """Nor does one of DVI have a fault; a clock makes the rules of sound judged."""
    said = tool("conform", core(), "--clock", 25_200_000).stdout.decode()
    assert "FAIL" not in said and "pass        sample rate " in said and said.endswith(" 0 fail, 0 damaged by the link, 7 not judged\n")
    tool("characters", core(dvi="1"), "--dvi")
    tool("errors", core(dvi="1"), "--dvi")
