"""tools/watch --raw: raw blocks give what captures give, past 2^32 bits a lane and in a memory that does not grow; without the C library
it is refused."""

import csv
import io
import itertools
import os
import random
import signal
import subprocess
import threading
import time

import pytest

from tests.models import feeding
from tests.support import HANGS, LISTING, TOP, ran
from tests.tools.test_watch import WATCH, WORN, Terminal, free_port, said, scraped
from vabgrot import capture, library
from vabgrot.capture import BLOCK
from vabgrot.formats.faults import ANEW, LANED
from vabgrot.lanes import repeating
from vabgrot.tools import watch

FRAME, FRAMES = 1800, 3  # columns of a frame of examples/bars.content, and frames
WHOLE = 10 * FRAME * FRAMES  # bits of them, which are whole bytes
CAPTURES = 12
SOAKED, EARLY, LATE = 16, slice(3, 7), slice(13, 16)  # seconds, and those whose memory is compared: it rises and falls with a batch
MOST = 16 << 10  # the KiB by which the least of the late ones may be more than the most of the early ones: what the room of a batch takes
pytestmark = pytest.mark.usefixtures("receives")


@pytest.fixture
def bars(program):
    """A capture of three frames and 32 columns, its bytes and its lanes."""
    data = program("make", "content", source=(TOP / "examples" / "bars.content").read_bytes())
    return data, capture.lanes_of(data)[0]


def raw(lanes, bits, times=1):
    """Raw blocks of so many bits of each lane."""
    return b"".join(map(bytes, repeating.pieces(lanes, bits, times)))


def cut(data):
    """A capture whose lanes end with the last whole byte of the shortest, and the same as raw blocks."""
    lanes, counts = capture.lanes_of(data)
    size = min(counts) // 8
    out = io.BytesIO()
    capture.write(out, [io.BytesIO(lane[:size]) for lane in lanes], [8 * size])
    return out.getvalue(), raw(lanes, 8 * size)


def heard(source, tmp_path, *words):
    """The status, what it says at the end but for the times, and its log but for these."""
    log = tmp_path / "faults.csv"
    words = [*WATCH, "--plain", "--log", log, *words]
    came = subprocess.run(words, input=source, capture_output=True, timeout=HANGS)
    assert b"Traceback" not in came.stderr, came.stderr.decode()
    lines = came.stdout.decode().splitlines()
    end = max(at for at, line in enumerate(lines) if line.startswith("watched for "))
    with open(log, newline="") as file:
        rows = [row[1:] for row in csv.reader(file)]
    aligned = lines[end].partition(": ")[2]
    aligned = aligned.partition(":")[0] if aligned.startswith("not aligned") else aligned  # the bits that came are by the bytes
    return came.returncode, [aligned, *lines[end + 2 :]], rows


def faults_in(listing):
    """The rows of a log by the fault lines of a listing: kind, lane, epoch, column, and other numbers."""
    found, epoch = [], 0
    for _, kind, *numbers in (line.split() for line in listing.decode().splitlines() if line.startswith("! ")):
        lane = numbers.pop(0) if kind in LANED else ""
        found.append([kind, lane, str(epoch), numbers[0], " ".join(numbers[1:])])
        epoch += kind in ANEW
    return found


def test_raw_blocks_are_as_captures(program, executable, bars, tmp_path, compare):
    """Counts, faults and their columns, the format and the status: of the examples, of damage, of noise, and of random captures. Raw blocks
    are received as `recover relock` does it; its first alignment of noise may be another one."""
    noise = random.Random("noise")
    noisy = bytearray(bars[0])
    for _ in range(2000):
        noisy[noise.randrange(200, len(noisy))] ^= 1 << noise.randrange(8)
    named = {"bars": bars[0], "noisy": bytes(noisy), "red": program("make", "link", source=LISTING)}
    for name in ("island", "skewed"):
        named[name] = program("make", "link", "--offset", "7", source=(TOP / "examples" / f"{name}.link").read_bytes())
    named["worn"] = program("damage", WORN, source=program("make", "link", source=(TOP / "examples" / "island.link").read_bytes()))
    named |= {f"random {case}": feeding.made_capture(random.Random(f"raw {case}"))[0] for case in range(CAPTURES)}

    def cases():
        for name, data in named.items():
            whole, blocks = cut(data)
            status, lines, rows = heard(blocks, tmp_path, "--raw")
            yield f"{name} by guard bands", rows[1:], faults_in(ran([executable, "recover", "relock"], whole).stdout)
            if name != "noisy" and not name.startswith("random"):
                yield name, (status, lines, rows), heard(whole, tmp_path)

    compare(cases())


def test_a_terminal(bars, tmp_path):
    """Raw blocks through a FIFO, in pieces: the view goes on with each block, and the end of the input ends it. The frames do not
    fit where the link begins anew, which breaks rules."""
    data = raw(bars[1], WHOLE, 20)
    os.mkfifo(tmp_path / "link")
    terminal = Terminal(tmp_path / "link", "--raw")
    with open(tmp_path / "link", "wb", buffering=0) as link:
        link.write(data[: 4 * 3 * BLOCK + 5])
        terminal.until("7 whole frames")
        link.write(data[4 * 3 * BLOCK + 5 :])
    assert terminal.finish() == 1
    numbers = f"aligned for {20 * FRAMES * FRAME:,} columns", "59 whole frames", "32 × 8"
    for text in (*numbers, "verdict: Source wrong", "no fault", "AVI InfoFrame", "FL ", "▀" * 32):
        assert text in terminal.text, terminal.text
    assert " bits a lane" not in terminal.text


def test_the_keyboard_ends_it(bars, tmp_path):
    """Ctrl-C, while nothing more comes: the last run counts."""
    os.mkfifo(tmp_path / "link")
    terminal = Terminal(tmp_path / "link", "--raw", "--follow")
    data = raw(bars[1], WHOLE, 20)[: 10 * 3 * BLOCK]
    with open(tmp_path / "link", "wb", buffering=0) as link:
        link.write(data)
    terminal.until("18 whole frames")
    terminal.child.sendintr()
    assert terminal.finish() == 1
    watched = next(line for line in said(data, "--raw", status=1)[0].splitlines() if line.startswith("watched for "))
    aligned = watched.partition(": ")[2]
    assert aligned.startswith("aligned for 32,") and aligned in terminal.text and "Traceback" not in terminal.text


def test_a_part_of_a_block(bars, tmp_path, compare):
    """Of the last block what all three lanes have of it counts, whole bytes of red: none while blue or green come."""
    lanes, whole = [bytes(lane)[: WHOLE // 8] * 9 for lane in bars[1]], 3 * BLOCK

    def cases():
        for more in (0, 1, BLOCK, 2 * BLOCK, 2 * BLOCK + 1, 2 * BLOCK + 1500, whole - 1, whole):
            size, out = 3 * BLOCK + max(0, more - 2 * BLOCK), io.BytesIO()
            capture.write(out, [io.BytesIO(lane[:size]) for lane in lanes], [8 * size])
            source = raw(lanes, 8 * len(lanes[0]))[: 3 * whole + more]
            yield more, heard(source, tmp_path, "--raw"), heard(out.getvalue(), tmp_path)

    compare(cases())
    assert "not aligned: 0 bits a lane came" in said(b"", "--raw", status=1)[0]


def test_stop_on_fault(program, bars, tmp_path):
    """It ends at the first of two faults, while the link goes on, with its column."""
    hurt = program("damage", "2:28450:0ab", "0:40000:2ab", source=bars[0])
    os.mkfifo(tmp_path / "link")
    words = [*WATCH, tmp_path / "link", "--raw", "--stop-on-fault", "--log", tmp_path / "faults.csv"]
    process = subprocess.Popen(words, stdout=subprocess.PIPE, stderr=subprocess.PIPE)
    with open(tmp_path / "link", "wb", buffering=0) as link:
        link.write(raw(capture.lanes_of(hurt)[0], WHOLE)[: 3 * BLOCK])
        out, why = process.communicate(timeout=HANGS)
    assert (process.returncode, why) == (1, b"") and b"1 code, lane 2 (red)\n" in out
    with open(tmp_path / "faults.csv", newline="") as file:
        assert [(row["kind"], row["lane"], row["column"]) for row in csv.DictReader(file)] == [("code", "2", "2845")]


def test_metrics(program, tmp_path, bars):
    """A scrape while the link goes on."""
    pytest.importorskip("prometheus_client", reason="Debian's package python3-prometheus-client is missing")
    hurt = program("damage", "2:28450:0ab", source=bars[0])
    port = free_port()
    os.mkfifo(tmp_path / "link")
    words = [*WATCH, tmp_path / "link", "--raw", "--metrics", str(port)]
    process = subprocess.Popen(words, stdout=subprocess.PIPE, stderr=subprocess.PIPE)
    with open(tmp_path / "link", "wb", buffering=0) as link:
        link.write(raw(capture.lanes_of(hurt)[0], WHOLE)[: 3 * BLOCK])
        text = scraped(port, 'vabgrot_faults_total{kind="code",lane="red"} 1.0')
    assert all(line in text for line in ("vabgrot_frames_total 1.0", "vabgrot_aligned 1.0", "vabgrot_received_bytes_total 12288.0")), text
    assert process.communicate(timeout=HANGS)[1] == b"" and process.returncode == 1


def test_without_the_library(monkeypatch, capsys, tmp_path):
    """It is refused, and says what makes the library."""
    (tmp_path / "raw").write_bytes(b"")
    monkeypatch.setenv("VABGROT_LIBRARY", "/none")
    assert watch.main(["--raw", str(tmp_path / "raw")]) == 3
    assert "VABGROT_LIBRARY names /none" in capsys.readouterr().err
    monkeypatch.delenv("VABGROT_LIBRARY")
    monkeypatch.setattr(library, "BESIDE", [])
    monkeypatch.setattr(library, "NAME", "libnone.so.1")
    assert watch.main(["--raw", str(tmp_path / "raw")]) == 3
    why = capsys.readouterr().err
    assert why.count("\n") == 1 and "`./vabgrot build library` builds it with the Rattle kit" in why
    assert said(b"", "--raw", "--clock", "1", "--rate", "1", status=2)[1].startswith("usage: ")


def test_what_lanes_writes(bars, tool, tmp_path):
    """`tools/lanes blocks`, once and so many times; what it refuses."""
    (tmp_path / "a.tmc").write_bytes(bars[0])
    assert tool("lanes", "blocks", tmp_path / "a.tmc").stdout == cut(bars[0])[1]
    words = ["lanes", "blocks", tmp_path / "a.tmc", "--bits", WHOLE]
    assert tool(*words, "--repeat", 4).stdout == raw(bars[1], WHOLE, 4)
    said = tool("lanes", "blocks", tmp_path / "a.tmc", "--bits", 54321, status=3).stderr
    assert b"a lane has 54320 bits, but --bits asks for 54321. Give at most 54320" in said
    for wrong in ("0", "1,2", "x"):
        tool(*words, "--repeat", wrong, status=2)


@pytest.mark.slow
def test_past_four_gibibits(program, bars, tmp_path):
    """More than 2^32 bits of each lane, frames again and again, and then one with a fault: it is the only one, at its column."""
    times = BLOCK * ((1 << 32) // WHOLE // BLOCK + 1)  # which makes whole blocks
    hurt = capture.lanes_of(program("damage", "2:28450:0ab", source=bars[0]))[0]
    words = [*WATCH, "--raw", "--stop-on-fault", "--log", tmp_path / "faults.csv"]
    process = subprocess.Popen(words, stdin=subprocess.PIPE, stdout=subprocess.PIPE)

    def pour():
        for piece in itertools.chain(repeating.pieces(bars[1], WHOLE, times), [raw(hurt, WHOLE)]):
            process.stdin.write(piece)
        process.stdin.close()

    thread = threading.Thread(target=pour)
    thread.start()
    out = process.stdout.read().decode()
    thread.join()
    assert process.wait(HANGS) == 1 and "1 code, lane 2 (red)\n" in out and f"{times * FRAMES + 1:,} whole frames" in out
    with open(tmp_path / "faults.csv", newline="") as file:
        assert [(row["kind"], row["column"]) for row in csv.DictReader(file)] == [("code", str(WHOLE // 10 * times + 2845))]
    assert WHOLE * times > 1 << 32


@pytest.mark.slow
def test_a_soak(bars, tmp_path):
    """A link at full speed: the memory of the tool does not grow. Frames that are repeated may break a rule where they begin again."""
    (tmp_path / "a.tmc").write_bytes(bars[0])
    words = [TOP / "tools" / "lanes", "blocks", tmp_path / "a.tmc", "--bits", str(WHOLE), "--repeat"]
    with subprocess.Popen(words, stdout=subprocess.PIPE) as source:
        process = subprocess.Popen([*WATCH, "--raw", "--plain"], stdin=source.stdout, stdout=subprocess.PIPE)
        source.stdout.close()
        sizes = []
        for _ in range(SOAKED):
            time.sleep(1)
            sizes.append(resident(process.pid))
        process.send_signal(signal.SIGINT)
        out = process.communicate(timeout=HANGS)[0].decode()
    assert process.returncode in (0, 1) and out.endswith("no fault\n")
    assert min(sizes[LATE]) - max(sizes[EARLY]) < MOST, sizes


def resident(process):
    """The KiB of memory that a process has."""
    with open(f"/proc/{process}/status") as file:
        return next(int(line.split()[1]) for line in file if line.startswith("VmRSS:"))
