"""tools/waves: what a link carried as a value change dump, alone and beside that of a simulation."""

import re
import shutil
import subprocess
import sys
from pathlib import Path

import pytest

from tests.support import HANGS, TOP
from tests.tools.test_verilog import made, need
from vabgrot.formats.characters import CONTROL

WAVES = [sys.executable, str(TOP / "tools" / "waves")]
NAMES = ("period", "packet", "hsync", "vsync", "ctl", "pixels", "fault", "is_faulty")
PERIOD = 1_000_000  # picoseconds of a column at 1 MHz
BARS = (TOP / "examples" / "bars.content").read_bytes()
WORDS = [f"source_bench.q{lane}" for lane in range(3)]
pytestmark = pytest.mark.usefixtures("receives")


def ran(*words, status=0):
    """The output and the notes of the tool."""
    came = subprocess.run([*WAVES, *map(str, words)], capture_output=True, text=True, timeout=HANGS)
    assert came.returncode == status and "Traceback" not in came.stderr, came.stderr
    return came.stdout, came.stderr


def changes_of(text):
    """The unit of time, and of each variable its changes: times and values."""
    head, _, body = text.partition("$enddefinitions $end")
    scopes, names = [], {}
    for words in (line.split() for line in head.splitlines()):
        if words[:1] == ["$scope"]:
            scopes.append(words[2])
        elif words[:1] == ["$upscope"]:
            scopes.pop()
        elif words[:1] == ["$var"]:
            names[words[3]] = ".".join([*scopes, words[4]])
    now, found = 0, {name: [] for name in names.values()}
    for line in body.split("\n"):
        if line.startswith("#"):
            assert int(line[1:]) >= now
            now = int(line[1:])
        elif line[:1] in ("s", "b"):
            value, code = line[1:].split(" ")
            found[names[code]].append((now, value))
        elif line[:1] in ("0", "1", "x", "z"):
            found[names[line[1:].strip()]].append((now, line[0]))
    return re.search(r"\$timescale\s+(.*?)\s*\$end", head)[1], found


def settled(found):
    """The changes of each variable without those of the first moment."""
    return {name: [it for it in changes if it[0]] for name, changes in found.items()}


def level(changes, time):
    """The value of a variable at a time."""
    return [value for at, value in changes if at <= time][-1]


def columns_of(listing):
    """What each column of a link listing is: its period, and HSYNC where that is told."""
    found = []
    for line in listing.decode().splitlines():
        words = line.split()
        if words[0] == "c":
            value = int(words[1], 16)
            name = {1: "video_preamble", 5: "island_preamble"}.get(value >> 2, "control")
            found += [(name, value & 1)] * int(words[2])
        elif words[0] == "v":
            found += [("video_guard", None)] * 2 + [("pixels", None)] * (len(words[1]) // 6)
        elif words[0] in ("i", "e"):
            found += [("island_guard", int(sync) & 1) for sync in words[1]]
        elif words[0] == "p":
            found += [("packet", int(sync) & 1) for sync in words[6]]
    return found


def test_each_column(program, tmp_path, compare):
    """The period and HSYNC of each column of a capture with an offset, against the listing; strings that GTKWave takes."""
    data = program("make", "content", "--offset", "7", source=BARS)
    path = tmp_path / "a.tmc"
    path.write_bytes(data)
    unit, found = changes_of(ran(path, "--clock", PERIOD)[0])
    assert unit == "1 ps" and list(found) == [f"link.{name}" for name in NAMES]
    whole = program("recover", "link", source=program("make", "content", source=BARS))
    columns = columns_of(program("recover", "link", source=data))
    late = len(columns_of(whole)) - len(columns)  # the columns before the first alignment
    start = (10 * late - 7) * PERIOD // 10

    def cases():
        for column, (name, hsync) in enumerate(columns):
            time = start + column * PERIOD
            yield (column, "period"), level(found["link.period"], time), name
            if hsync is not None:
                yield (column, "hsync"), level(found["link.hsync"], time), str(hsync)

    compare(cases())
    assert "AVI_InfoFrame" in {value for _, value in found["link.packet"]} and {value for _, value in found["link.fault"]} == {"-"}


def test_faults(program, tmp_path):
    """A fault stands for one column at the one that it names; columns of which nothing is known are so called."""
    data = program("make", "content", source=BARS)
    path = tmp_path / "a.tmc"
    path.write_bytes(program("damage", "2:28450:0ab", source=data))
    _, found = changes_of(ran(path, "--clock", PERIOD)[0])
    assert found["link.fault"][1:] == [(2845 * PERIOD, "code"), (2846 * PERIOD, "-")]
    assert found["link.is_faulty"][1:] == [(2845 * PERIOD, "1"), (2846 * PERIOD, "0")]


@pytest.fixture(scope="module")
def guard(tmp_path_factory):
    """The small source without guard bands: its dump and its capture."""
    need("icarus")
    folder = tmp_path_factory.mktemp("guard")
    made(folder, "SMALL=1", "BUG=GUARD", folder / "hdmi.small.GUARD.tmc")
    return folder / "hdmi.small.GUARD.vcd", folder / "hdmi.small.GUARD.tmc"


def test_a_fault_at_the_time_of_a_dump(guard, compare):
    """Each fault of the source begins when its words change to the character that is no guard: they were control characters before."""
    source, path = guard
    out, _ = ran(path, "--dump", source, "--words", ",".join(WORDS), "--clock", "source_bench.clk")
    unit, found = changes_of(out)
    kept = changes_of(source.read_text())
    assert unit.replace(" ", "") == kept[0].replace(" ", "") == "1ps"
    assert {name: its for name, its in found.items() if not name.startswith("link.")} == kept[1]
    at = [time for time, value in found["link.fault"] if value == "noise"]
    assert len(at) == 24  # a row each

    def cases():
        words = [dict(found[name]) for name in WORDS]
        for time in at:
            now = [int(its[time], 2) for its in words if time in its]
            before = [int(level(found[name], time - 1), 2) for name in WORDS]
            yield time, (bool(now) and not set(now) & set(CONTROL), all(word in CONTROL for word in before)), (True, True)

    compare(cases())


def test_without_a_clock_variable(tool, tmp_path):
    """The example dump, by the steps of its words, as tools/slice takes it; without faults."""
    names = "source.q0,source.q1,source.q2"
    made_of = tool("slice", TOP / "examples" / "words.vcd", "--words", names, "--clock", "clk").stdout
    path = tmp_path / "a.tmc"
    path.write_bytes(made_of)
    _, found = changes_of(ran(path, "--dump", TOP / "examples" / "words.vcd", "--words", names, "--clock", "clk")[0])
    assert {value for _, value in found["link.fault"]} == {"-"} and "pixels" in {value for _, value in found["link.period"]}


@pytest.mark.skipif(not shutil.which("vcd2fst"), reason="Debian's package gtkwave is missing")
def test_fst(program, tmp_path):
    """The same as FST."""
    path = tmp_path / "a.tmc"
    path.write_bytes(program("make", "content", source=BARS))
    ran(path, "--clock", PERIOD, "-o", tmp_path / "a.fst")
    back = subprocess.run(["fst2vcd", "-f", tmp_path / "a.fst"], capture_output=True, text=True, timeout=HANGS).stdout
    _, wanted = changes_of(ran(path, "--clock", PERIOD)[0])
    _, found = changes_of(back)
    assert settled(found) == settled(wanted)


def test_what_it_refuses(monkeypatch, program, tmp_path):
    """Words that do not go together, no capture, a pipe, a full disk, and a missing package."""
    path = tmp_path / "a.tmc"
    path.write_bytes(program("make", "content", source=BARS))
    ran(path, "--dump", "x.vcd", status=2)
    ran(path, "--clock", "fast", status=2)
    assert ran("/dev/null", status=3)[1].startswith("waves: ")
    assert ran(Path("/none"), status=3)[1].startswith("waves: ")
    assert ran(path, "--clock", PERIOD, "-o", "/dev/full", status=3)[1] == "waves: /dev/full: No space left on device\n"
    monkeypatch.setenv("PATH", "/none")
    assert "gtkwave" in ran(path, "--clock", PERIOD, "-o", tmp_path / "a.fst", status=3)[1]
