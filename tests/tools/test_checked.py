"""Links that the C library checks as they are simulated (vabgrot_dpi.c and link_checker.sv of examples/verilog): what a checker says is
what the program says of the dump, and its columns, ticks and times are those at which the words were sent."""

import ctypes
import os
import re
import shutil
import subprocess

import pytest

from tests.models import feeding, hearing
from tests.models.tables import CONTROL, TERC4
from tests.support import HANGS, TOP, ran
from tests.tools.test_verilog import ACROSS, VERILOG, need

FAULT = re.compile(
    r"%Error: link_checker\.sv:\d+: Assertion failed in TOP\.([\w.]+): "
    r"(! .*): column (\d+), tick (\d+)(?:, time ([\d.]+))?(?:, lane (\d) \((\w+)\))?: (.*)"
)
PASS = re.compile(r"TOP\.([\w.]+): pass: (\d+) columns, (\d+) lines, (\d+) packets")
PERIOD = 39_682  # of the source's bench, in ps: its reset ends after four of them, in the midst of a clock
PIECE = 256  # columns are fed in such pieces
TAKES = {"i": 2, "e": 2, "p": 32}


def made(library, folder, *words):
    words = ["make", "-s", "-C", VERILOG, f"OUT={folder}", f"LIBRARY={library}", "CFLAGS=-Werror -Wpedantic -Wshadow", *words]
    return subprocess.run([str(word) for word in words], capture_output=True, text=True, timeout=HANGS)


@pytest.fixture(scope="module")
def checked(library, tmp_path_factory):
    """Simulates the small source, with a bug where one is named: the status of `make checked`, what was said, and the dump."""
    need("verilator")
    folder = tmp_path_factory.mktemp("checked")

    def run(bug):
        came = made(library, folder, "SMALL=1", f"BUG={bug}", "checked")
        return came.returncode, came.stdout, folder / f"hdmi.small{'.' if bug else ''}{bug}.checked.vcd"

    return run


@pytest.fixture
def dumped(tool):
    """The capture of a dump of a bench."""

    def run(dump, bench):
        names = ",".join(f"{bench}.q{lane}" for lane in range(3))
        return tool("slice", dump, "--words", names, "--clock", f"{bench}.clk").stdout

    return run


def first_fault(program, capture):
    return program("check", source=capture, status=1).decode().splitlines()[0]


CODE = "the first character of this line that does not code its own byte"
SYMBOLS = "characters of this packet that are no TERC4 characters"
LOST = "more than one wrong bit in this packet"
WORD = "a character in a control column that is no control character"
FOUND = (  # a bug, the first column that shows it, where that follows from the raster, its lane, and what is said
    ("BIT_ORDER", "! noise", 12, None, "columns that open nothing"),
    ("DISPARITY", "! code", None, "1", CODE),
    ("GUARD", "! noise", 35 * ACROSS + 144, None, "columns that open nothing"),
    ("PREAMBLE", "! preamble", 12, None, "not the eight columns of its preamble before the period that opens here"),
    ("PARITY", "! lost", ACROSS + 14, None, f"{LOST}, in body 0"),
    ("LANES", "! noise", 12, None, "columns that open nothing"),
)


def counted(listing):
    """The columns, lines and packets of a link listing."""
    columns = 0
    for line in listing.decode().splitlines():
        name, *fields = line.split()
        columns += int(fields[1]) if name == "c" else 2 + len(fields[0]) // 6 if name == "v" else TAKES.get(name, 0)
    return columns, listing.count(b"\nv "), listing.count(b"\np ")


def test_the_source(checked, dumped, program, compare):
    """Right, or with a bug of contents or raster alone, it passes, and all that it sent is counted. Each other bug ends the run at its
    first fault, which is the first that `check` lists of the dump of the same run."""

    def cases():
        for bug in ("", "CHECKSUM", "PORCH"):
            status, said, dump = checked(bug)
            yield f"{bug}: the status of make", status, 0
            at, *counts = PASS.search(said).groups()
            listing = program("recover", "link", source=dumped(dump, "source_bench"))
            yield f"{bug}: the instance", at, "source_bench.source.check"
            yield f"{bug}: the counts", tuple(map(int, counts)), counted(listing)
            yield f"{bug}: the lines", counts[1], "24"
        for bug, name, first, lane, words in FOUND:
            status, said, dump = checked(bug)
            at, line, column, tick, time, number, _, rest = FAULT.search(said).groups()
            column, capture = int(column), dumped(dump, "source_bench")
            yield f"{bug}: the status of make", status, 2
            yield f"{bug}: the instance", at, "source_bench.source.check"
            yield f"{bug}: the line", line, first_fault(program, capture)
            yield f"{bug}: the name, the lane and the words", (" ".join(line.split()[:2]), number, rest), (name, lane, words)
            yield f"{bug}: the column", column, int(line.split()[3 if lane else 2]) if first is None else first
            yield f"{bug}: the tick", int(tick), column + 1  # the first is of the word that was sent in the reset
            yield f"{bug}: the time", int(time), (int(tick) + 4) * PERIOD + PERIOD // 2
            yield f"{bug}: it ended soon", (len(capture) - 8) * 8 // 30 < column + 64 + PIECE, True

    compare(cases())


@pytest.fixture(scope="module")
def two_links(library, tmp_path_factory):
    """Runs two links side by side, with words of the second one replaced: the status, what was said, and the dump."""
    need("verilator")
    folder = tmp_path_factory.mktemp("two")
    came = made(library, folder, folder / "vabgrot_dpi.o")
    assert came.returncode == 0, came.stderr
    names = ("hdmi_source.v", "packets.v", "packet_encoder.v", "tmds_encoder.v", "link_checker.sv")
    words = ["verilator", "--binary", "--trace", "-Wno-WIDTH", "--top-module", "two_links", "--Mdir", folder, "-o", folder / "two"]
    words += [TOP / "tests" / "tools" / "two_links.sv", *(VERILOG / name for name in names)]
    came = ran([*words, folder / "vabgrot_dpi.o", library / "libvabgrot.a"], b"")
    assert came.returncode == 0, came.stderr.decode()

    def run(ticks, first=0, count=0, lanes="000", word="000"):
        given = {"ticks": ticks, "from": first, "count": count, "lanes": lanes, "word": word, "dump": folder / "two.vcd"}
        words = [folder / "two", *(f"+{name}={it}" for name, it in given.items())]
        came = subprocess.run(words, cwd=folder, capture_output=True, text=True, timeout=HANGS)
        return came.returncode, came.stdout, folder / "two.vcd"

    return run


WHOLE = 162 * ACROSS  # ticks: three frames of the first link, and three lines
REPLACED = (  # what is replaced, the column, the lane and the words; whether the time is still known
    ((30_000, 7000, 1, "100", "155"), 6999, ("2", "red"), WORD, True),
    ((WHOLE, WHOLE - 4, 1, "001", "155"), WHOLE - 5, ("0", "blue"), WORD, True),
    ((30_000, 7436, 9000, "111", "100"), None, ("0", "blue"), CODE, False),
)


def test_two_links(two_links, dumped, program, compare):
    """Each is counted on its own; rows of 48 pixels in place of 32 make fewer lines of the second one's raster. A fault of the second is
    found in the midst, and so late that the end finds it, and in a line so long that the time of its beginning is forgotten. What never
    aligns does not pass."""

    def cases():
        status, said, _ = two_links(WHOLE)
        counts = [("left", "24", "162"), ("right", "24", "150")]
        yield "the status", status, 0
        yield "the counts", PASS.findall(said), [(f"two_links.{at}", str(WHOLE - 1), *fields) for at, *fields in counts]
        for given, first, lane, words, is_known in REPLACED:
            status, said, dump = two_links(*given)
            at, line, column, tick, time, *found = FAULT.search(said).groups()
            yield f"{given}: the status", status != 0, True
            yield f"{given}: the instance", at, "two_links.right"
            yield f"{given}: the line", line, first_fault(program, dumped(dump, "two_links"))
            yield f"{given}: the column", int(column), int(line.split()[3]) if first is None else first
            yield f"{given}: the lane and the words", found, [*lane, words]
            yield f"{given}: the tick", int(tick), int(column) + 1
            yield f"{given}: the time", time and float(time), (int(tick) + 4) * 3 + 1.5 if is_known else None
        for ticks in (0, 5):
            status, said, _ = two_links(ticks)
            wanted = f"Assertion failed in TOP.two_links.left: no alignment in {ticks} columns"
            yield f"{ticks} ticks", (status != 0, wanted in said), (True, True)

    compare(cases())


@pytest.fixture(scope="module")
def calls(library, tmp_path_factory):
    """The calls that DPI-C makes, by ctypes."""
    if not shutil.which("gcc"):
        pytest.skip("gcc is missing")
    path = tmp_path_factory.mktemp("calls") / "dpi.so"
    words = ["gcc", "-shared", "-fPIC", "-std=c99", "-Wall", "-Wextra", "-Werror", "-Wpedantic", "-I", TOP / "library"]
    came = ran([*words, VERILOG / "vabgrot_dpi.c", library / "libvabgrot.a", "-o", path], b"")
    assert came.returncode == 0, came.stderr.decode()
    made = ctypes.CDLL(str(path))
    made.vabgrot_dpi_open.restype = ctypes.c_void_p
    made.vabgrot_dpi_message.restype = ctypes.c_char_p
    made.vabgrot_dpi_tick.argtypes = (ctypes.c_void_p, *[ctypes.c_uint32] * 3, ctypes.c_double)
    for name in ("finish", "message", "close"):
        getattr(made, f"vabgrot_dpi_{name}").argtypes = (ctypes.c_void_p,)
    return made


QUIET = feeding.control(0, 12)
TO_LINE = feeding.control(0, 4) + feeding.control(4, 8) + [feeding.GUARDS["video"]] * 2
TO_ISLAND = feeding.control(0, 4) + feeding.control(20, 8) + [feeding.GUARDS["island"]] * 2
RED = hearing.pixels_of("ff0000")
BEFORE = TO_LINE + RED  # 15 columns that are right
# Twice the Null packet of an island, as it begins one and as it goes on, and what ends the island.
NULL, FURTHER = (list(hearing.packet_columns(["000000", *["0" * 14] * 4, "0" * 32], is_first)) for is_first in (True, False))
CLOSING = [feeding.GUARDS["island"]] * 2 + QUIET


def damaged(columns, *hits):
    """Columns with the characters of some (column, lane) replaced."""
    columns = [list(it) for it in columns]
    for column, lane, word in hits:
        columns[column][lane] = word
    return [tuple(it) for it in columns]


FAULTS = (  # what follows the first line and is wrong, the line of `check`, and what is said behind the time
    (damaged(QUIET, (3, 1, 0x155)), "word 1 18", f", lane 1 (green): {WORD}"),
    (TO_LINE[1:] + RED, "short 26", ": fewer than twelve control columns before the period that opens here"),
    (QUIET + TO_LINE[-2:] + RED, "preamble 27", ": not the eight columns of its preamble before the period that opens here"),
    (QUIET + RED, "noise 27", ": columns that open nothing"),
    (TO_LINE, "empty 27", ": a video period with no pixel, or an island with no packet, opens here"),
    (TO_LINE + damaged(RED, (0, 2, 0x3FF)), "code 2 29", f", lane 2 (red): {CODE}"),
    (TO_LINE + hearing.pixels_of("00" * 3 * 4097), "longline 27", ": more than 4,096 pixels in the video period that opens here"),
    (TO_ISLAND + damaged(NULL, (5, 2, 0x155)) + CLOSING, "symbols 29 1", f": {SYMBOLS}, 1 of 96"),
    (TO_ISLAND + damaged(NULL, (5, 1, TERC4[4])) + CLOSING, "mended 29 2 10", ": a wrong bit in this packet, bit 10 of body 2"),
    (TO_ISLAND + damaged(NULL, (5, 0, TERC4[12]), (6, 0, TERC4[12])) + CLOSING, "lost 29 4", f": {LOST}, in the header"),
    (TO_ISLAND + NULL + FURTHER * 18 + CLOSING, f"longisland {29 + 18 * 32}", ": the nineteenth packet of its island"),
    (TO_ISLAND + NULL[:5], "broken 29", ": a packet or a closing guard that control columns cut short"),
    (damaged(TO_LINE, (13, 0, CONTROL[0])) + RED, "guard 28", ": no guard column where one is due"),
)


def test_each_fault(calls, compare):
    """Of columns that begin at the fourth tick, each tick at half its number."""

    def cases():
        for columns, line, words in FAULTS:
            link = calls.vabgrot_dpi_open()
            for tick, column in enumerate(RED * 3 + BEFORE + columns + QUIET):
                calls.vabgrot_dpi_tick(link, *column, tick / 2)
            came = calls.vabgrot_dpi_finish(link), calls.vabgrot_dpi_message(link).decode()
            calls.vabgrot_dpi_close(link)
            column = int(line.split()[2 if line[:4] in ("word", "code") else 1])
            yield line, came, (1, f"! {line}: column {column}, tick {column + 3}, time {(column + 3) / 2:g}{words}")

    compare(cases())


@pytest.mark.skipif(not (shutil.which("make") and shutil.which("pkg-config")), reason="make or pkg-config is missing")
def test_installed_library(tmp_path):
    """Beside no checkout, what pkg-config finds is compiled and linked."""
    prefix, cores = tmp_path / "usr", tmp_path / "usr/share/doc/vabgrot/examples/verilog"
    shutil.copytree(VERILOG, cores, ignore=shutil.ignore_patterns("out"))
    (prefix / "lib" / "pkgconfig").mkdir(parents=True)
    shutil.copy(TOP / "library" / "vabgrot.pc", prefix / "lib" / "pkgconfig")
    env = {**os.environ, "PKG_CONFIG_PATH": str(prefix / "lib" / "pkgconfig")}
    came = subprocess.run(["make", "-n", "-C", cores, "checked"], env=env, capture_output=True, text=True, timeout=HANGS)
    assert came.returncode == 0, came.stderr
    shown = re.sub(r"\S*/lib/pkgconfig/\.\./\.\.", str(prefix), came.stdout)
    assert f"-I {prefix}/include" in shown and f"{prefix}/lib/libvabgrot.a" in shown
