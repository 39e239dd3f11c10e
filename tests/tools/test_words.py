"""tools/slice --words: the words of a simulation's dump, at the rises of a clock and without one."""

import shutil
import subprocess

import pytest

from tests.support import TOP

EXAMPLES = TOP / "examples"
# The columns of examples/red.link (docs/guide/FORMATS.md): control, guard and pixel characters of lanes 0, 1 and 2.
CONTROL, ANNOUNCED, GUARD = (0x354, 0x354, 0x354), (0x354, 0x0AB, 0x354), (0x2CC, 0x133, 0x2CC)
RED = [CONTROL] * 4 + [ANNOUNCED] * 8 + [GUARD] * 2 + [(0x100, 0x100, 0x200)] + [CONTROL] * 12
TEXT = (EXAMPLES / "red.link").read_bytes()
HEADER = """$timescale 1 ns $end
$scope module top $end
$var wire 1 c clk $end
$scope module dut $end
$var reg 10 ! q0 [9:0] $end
$var reg 10 " q1 [9:0] $end
$var reg 10 # q2 [9:0] $end
$var wire 1 c clk $end
$var reg 8 d data [7:0] $end
$upscope $end
$scope module other $end
$var reg 10 % q0 [9:0] $end
$upscope $end
$upscope $end
$enddefinitions $end
"""
WORDS = "dut.q0,q1,top.dut.q2"


def changes(rows, period=40, reset=3):
    """The lines of a dump in which the words change as the clock rises; before them they are x for some rises."""
    lines, before = ["#0", "$dumpvars", "0c", "bx !", "bx \"", "bx #", "$end"], (None, None, None)
    for number, row in enumerate([None] * reset + rows + [None]):
        lines += [f"#{number * period + period // 2}", "1c"]
        if row:
            lines += [f"b{word:b} {code}" for word, old, code in zip(row, before, '!"#') if word != old]
            before = row
        lines += [f"#{(number + 1) * period}", "0c"]
    return lines


@pytest.fixture
def dump(tmp_path):
    """Writes a dump of some lines, and answers its path."""

    def write(lines, header=HEADER, name="a.vcd"):
        (tmp_path / name).write_text(header + "\n".join(lines) + "\n")
        return tmp_path / name

    return write


def test_words_at_a_clock(tool, program, dump):
    """A column at each rise; those with x before the first are counted, on standard error."""
    came = tool("slice", dump(changes(RED)), "--words", WORDS, "--clock", "top.clk")
    says = b"words: 27 columns, one each 40 ns (25 MHz), the first at 180 ns; 4 with x or z before it were left out\n"
    assert came.stderr == says
    assert came.stdout[:16] == b"TMC2" + 3 * (270).to_bytes(4, "big")
    assert program("recover", "link", source=came.stdout) == TEXT
    assert tool("slice", dump(changes(RED)), "--words", WORDS, "--clock", "clk", "--piece", 1000).stdout == came.stdout


def test_words_without_a_clock(tool, program, dump):
    """A column each least time between changes; the last one stands until the dump ends."""
    came = tool("slice", dump(changes(RED)), "--words", WORDS)
    assert b"one each 40 ns (25 MHz), the first at 140 ns; 1 with x or z before it" in came.stderr
    assert program("recover", "link", source=came.stdout) == TEXT


def test_a_range_that_is_part_of_the_name(tool, program, dump):
    came = tool("slice", dump(changes(RED), HEADER.replace(" [9:0]", "[9:0]")), "--words", WORDS, "--clock", "top.clk")
    assert program("recover", "link", source=came.stdout) == TEXT


def test_the_highest_bit_first(tool, program, dump):
    """As of tools/lanes: a dump whose bit 9 is sent first."""
    turned = [tuple(int(f"{word:010b}"[::-1], 2) for word in row) for row in RED]
    came = tool("slice", dump(changes(turned)), "--words", WORDS, "--clock", "clk", "--msb").stdout
    assert program("recover", "link", source=came) == TEXT


def test_the_example(tool, program):
    for words in (["--clock", "clk"], []):
        came = tool("slice", EXAMPLES / "words.vcd", "--words", "q0,q1,q2", *words).stdout
        assert program("recover", "link", source=came) == TEXT


@pytest.mark.skipif(shutil.which("vcd2fst") is None, reason="vcd2fst of Debian's package gtkwave is missing")
def test_fst(tool, program, dump, tmp_path):
    """As the dump of which it is made; of the other kinds of channels too."""
    subprocess.run(["vcd2fst", dump(changes(RED)), tmp_path / "a.fst"], check=True, capture_output=True)
    for words in (["--clock", "top.clk"], []):
        came = tool("slice", tmp_path / "a.fst", "--words", WORDS, *words)
        assert program("recover", "link", source=came.stdout) == TEXT
    subprocess.run(["vcd2fst", EXAMPLES / "red.vcd", tmp_path / "b.fst"], check=True, capture_output=True)
    assert tool("slice", tmp_path / "b.fst").stdout == tool("slice", EXAMPLES / "red.vcd").stdout
    (tmp_path / "c.fst").write_bytes((tmp_path / "a.fst").read_bytes()[:100])
    assert b"no FST file, or a broken one" in tool("slice", tmp_path / "c.fst", "--words", WORDS, status=3).stderr
    assert b"missing.fst" in tool("slice", tmp_path / "missing.fst", "--words", WORDS, status=3).stderr


def test_fst_without_its_reader(tool, dump, tmp_path, monkeypatch):
    monkeypatch.setenv("PATH", str(tmp_path))
    told = tool("slice", dump([], name="a.fst"), "--words", WORDS, status=3).stderr
    assert b"`fst2vcd` of Debian's package gtkwave is wanted to read it, and is missing" in told


@pytest.mark.parametrize("words", [["--clock", "clk"], []])
def test_x_behind_the_first_column(tool, program, dump, words):
    """Left out too, and the status is 1, since the stream has another length."""
    lines = changes(RED)
    lines[lines.index("#1180"):lines.index("#1200")] = ["#1180", "1c", "b1010101x !"]
    lines[lines.index("#1220"):lines.index("#1240")] = ["#1220", "1c", "b1101010100 !"]
    came = tool("slice", dump(lines), "--words", WORDS, *words, status=1)
    at, left = (b"1.22 us", b"11") if words else (b"1.18 us", b"12")
    assert came.stderr.endswith(b"words: 1 with x or z behind it were left out, the first at " + at + b"\n")
    assert program("recover", "link", source=came.stdout) == TEXT.replace(b"c 00 12", b"c 00 " + left)


@pytest.mark.parametrize(
    "words, says",
    [
        (["--words", "q0,q1,q2"], b"`q0` names 2 variables: top.dut.q0, top.other.q0"),
        (["--words", "dut.q9,q1,q2"], b"no variable `dut.q9`; near it are top.dut.q2, top.dut.q1, top.dut.q0"),
        (["--words", "dut.q0,q1,q2", "--clock", "zzz"], b"there is no variable `zzz`; there are top.clk, top.dut.q0, "),
        (["--words", "dut.q0,q1,dut.q0"], b"`top.dut.q0` is named twice"),
        (["--words", "dut.q0,q1,data"], b"`top.dut.data` has 8 bits, and a word has 10"),
        (["--words", "dut.q0,q1,q2", "--clock", "data"], b"the clock `top.dut.data` has 8 bits"),
        (["--words", "dut.q0,q1,other.q0", "--clock", "clk"], b"no column of whole words: all have x or z"),
        (["--words", "dut.q0,q1,other.q0"], b"no column of whole words: all have x or z"),
    ],
)
def test_names(tool, dump, words, says):
    assert says in tool("slice", dump(changes(RED)), *words, status=3).stderr


STEADY = [line for number in range(1, 2500) for line in (f"#{40 * number}", f"b{number % 2} !")]


@pytest.mark.parametrize(
    "lines, says",
    [
        (["#0", "b1 !", 'b1 "', "b1 #", "#40", "b0 !", "#70", "b1 !"], b"at no even steps (10 and 30 units of time)"),
        (["#0", "b1 !", 'b1 "', "b1 #", "#40", "b0 !", "b1 !"], b"changes more than once at time 40: give --clock"),
        (["#0", "b1 !", 'b1 "', "b1 #"], b"(fewer than two times): give --clock"),
        (["#0", "b1 !", 'b1 "', "b1 #", *STEADY, "#100021", "b0 !"], b"change at time 100021, at no step of 40 units: give"),
    ],
)
def test_where_a_clock_is_asked_for(tool, dump, lines, says):
    assert says in tool("slice", dump(lines), "--words", WORDS, "--piece", 1000, status=3).stderr


def test_clocks_that_are_refused(tool, dump):
    twice = ["#0", "0c", "#5", "1c", "0c", "1c"]
    assert b"rises twice at time 5" in tool("slice", dump(twice), "--words", WORDS, "--clock", "clk", status=3).stderr
    never = ["#0", "b1 !", 'b1 "', "b1 #", "1c", "#5"]
    assert b"the clock never rises" in tool("slice", dump(never), "--words", WORDS, "--clock", "clk", status=3).stderr


def test_words_that_do_not_fit(tool, dump, tmp_path):
    path = dump(changes(RED))
    for words in (
        ["--words", "a,b"],
        ["--msb"],
        ["--words", WORDS, "--lanes", "0,1,3"],
        ["--words", WORDS, "--eye", tmp_path / "eye.png"],
        ["--words", WORDS, "--rate", 5],
    ):
        tool("slice", path, *words, status=2)
    (tmp_path / "a.csv").write_text("t,a\n0,1\n")
    assert b"ends in .vcd or .fst" in tool("slice", tmp_path / "a.csv", "--words", WORDS, status=3).stderr
