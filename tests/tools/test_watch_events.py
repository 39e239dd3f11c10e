"""tools/watch: what happens on a live link, as tables with the wall clock; what ends the watch; and the last seconds as a capture."""

import csv
import io
import os
import re
import subprocess
import zlib

import numpy as np
import pytest

from tests.support import HANGS, TOP
from tests.tools.live import after, bits_of, blocks, times
from tests.tools.test_stream import BARS, COLUMNS, FRAMES, WHOLE, pixels
from tests.tools.test_watch import WATCH
from vabgrot import capture

SIZE = 32 * 8 * 3  # bytes of a frame of the bars
WALL_CLOCK = re.compile(r"\d{4}-\d\d-\d\dT\d\d:\d\d:\d\d\.\d{3}Z")
ENDS = {"slip", "relock"}


@pytest.fixture
def bars(program, receives):
    return program("make", "content", source=BARS)


def ran(source, *words, status=0):
    """What the tool says."""
    came = subprocess.run([*WATCH, "--plain", *map(str, words)], input=source, capture_output=True, timeout=HANGS)
    assert b"Traceback" not in came.stderr, came.stderr.decode()
    assert status is None or came.returncode == status, came.stdout.decode() + came.stderr.decode()
    return came.stdout.decode() + came.stderr.decode()


def rows_of(path):
    """The rows of a table."""
    return [*csv.DictReader(io.StringIO(path.read_text()))]


def cut(lanes):
    """Lanes as long as the shortest."""
    least = min(map(len, lanes))
    return [lane[:least] for lane in lanes]


def test_each_frame(bars, tmp_path):
    """The CRC-32 of the pixels that were sent, of each whole frame."""
    ran(blocks(times(bits_of(bars, WHOLE), 4)), "--raw", "--frames", tmp_path / "frames.csv", status=None)
    rows = rows_of(tmp_path / "frames.csv")
    sent = pixels(BARS, 4)
    wanted = [f"{zlib.crc32(sent[at : at + SIZE]):08x}" for at in range(0, len(sent), SIZE)]
    assert [row["crc"] for row in rows] == wanted[: len(rows)] and len(rows) == 4 * FRAMES - 1
    assert {(row["width"], row["rows"], row["faults"]) for row in rows} == {("32", "8", "0")}
    assert [row["frame"] for row in rows] == [str(number) for number in range(1, len(rows) + 1)]


def test_each_slip_is_a_row(bars, tmp_path):
    """Each lane loses some bits: a row each at about that bit, of `--log` too, and that the lanes are aligned again."""
    lanes, lost = times(bits_of(bars, WHOLE), 30), [(4, 1, 3), (11, 2, 1), (18, 0, 7), (25, 1, 10)]
    for frames, lane, bits in reversed(lost):
        at = frames * WHOLE + 777
        lanes[lane] = np.delete(lanes[lane], slice(at, at + bits))
    words = ["--raw", "--events", tmp_path / "events.csv", "--log", tmp_path / "faults.csv"]
    says = ran(blocks(cut(lanes)), *words, status=1)
    rows = [row for row in rows_of(tmp_path / "events.csv") if row["kind"] in ENDS | {"aligned", "unaligned"}]
    slips = [row for row in rows if row["kind"] in ENDS]
    assert len(slips) >= len(lost) and all(WALL_CLOCK.fullmatch(row["time"]) for row in rows)
    for frames, _, _ in lost:
        assert any(0 <= int(row["column"]) - frames * WHOLE < WHOLE for row in slips), (frames, slips)
    logged = [(row["kind"], row["lane"], row["column"]) for row in rows_of(tmp_path / "faults.csv") if row["kind"] in ENDS]
    assert logged == [(row["kind"], row["lane"], row["column"]) for row in slips]
    assert rows[0]["kind"] == rows[-1]["kind"] == "aligned" and "aligned for " in says and "behind the " in says


def test_stop_and_keep(bars, tmp_path):
    """A frozen picture ends the watch while the link goes on; what was kept is a capture with the same bits."""
    still = bits_of(bars, WHOLE)
    frozen = times([lane[: 10 * COLUMNS] for lane in still], 100)
    source = blocks(after(times(still, 3), frozen))
    words = ["--raw", "--stop-on", "frozen", "--keep", 1000, "--kept", tmp_path / "kept.tmc", "--events", tmp_path / "events.csv"]
    says = ran(source, *words, status=None)
    assert rows_of(tmp_path / "events.csv")[-1]["kind"] == "frozen" and ": frozen: 60 frames have the CRC " in says
    lanes, counts = capture.lanes_of((tmp_path / "kept.tmc").read_bytes())
    assert counts[0] == len(lanes[0]) * 8 > 70 * 10 * COLUMNS and f"the last 1000 s are in {tmp_path / 'kept.tmc'}" in says
    assert lanes[0][: WHOLE // 8] == capture.lanes_of(bars)[0][0][: WHOLE // 8]
    assert "nothing: no kind of event" in ran(source, "--raw", "--stop-on", "slip,nothing", status=2)


def test_a_source_that_stalls(bars, tmp_path):
    """Nothing comes for a second: a row with the bytes of each lane, a line of the view, and a row when bytes come again."""
    data, stop = blocks(times(bits_of(bars, WHOLE), 4)), 3 * 4096 + 4096 + 100
    os.mkfifo(tmp_path / "link")
    words = [*WATCH, "--plain", "--raw", "--events", tmp_path / "events.csv", "--stop-on", "resumed", tmp_path / "link"]
    with subprocess.Popen([*map(str, words)], stdout=subprocess.PIPE, stderr=subprocess.PIPE) as process:
        with open(tmp_path / "link", "wb", buffering=0) as link:
            link.write(data[:stop])
            shown = next(line for line in process.stdout if b"nothing comes" in line)
            link.write(data[stop:])
            process.communicate(timeout=HANGS)
    where = "8,192 bytes of lane 0 (blue), 4,196 bytes of lane 1 (green), 4,096 bytes of lane 2 (red)"
    rows = rows_of(tmp_path / "events.csv")
    assert [row["kind"] for row in rows][-2:] == ["stalled", "resumed"] and rows[-2]["says"] == f"nothing comes after {where}"
    assert f"s after {where}" in shown.decode()


def test_a_lane_that_dies(bars, tmp_path):
    """It is named with the bit from which on it does not change; and that it lives again."""
    lanes, at = times(bits_of(bars, WHOLE), 40), 10 * WHOLE + 8 * 100
    lanes[2][at : 30 * WHOLE] = 1
    says = ran(blocks(lanes), "--raw", "--events", tmp_path / "events.csv", "--stop-on", "alive", status=1)
    rows = rows_of(tmp_path / "events.csv")
    assert [(row["kind"], row["lane"]) for row in rows if row["kind"] in ("dead", "alive")] == [("dead", "2"), ("alive", "2")]
    bit = int(re.search(r"always 1 from bit ([\d,]+) on", "\n".join(row["says"] for row in rows))[1].replace(",", ""))
    assert at - 8 < bit <= at + 8 and "stopped by " in says and "unaligned" in {row["kind"] for row in rows}


def test_a_lane_that_stays_dead(bars, tmp_path):
    """The summary says it in its first line."""
    lanes = times(bits_of(bars, WHOLE), 20)
    lanes[2][10 * WHOLE :] = 0
    says = ran(blocks(lanes), "--raw", "--events", tmp_path / "events.csv", status=1)
    first = next(line for line in says.splitlines() if line.startswith("watched for "))
    found = re.search(r"nothing comes on lane 2 \(red\): always 0 from bit ([\d,]+) on", first)
    assert "not aligned" in first and found and -16 < int(found[1].replace(",", "")) - 10 * WHOLE < 16
    assert [row["lane"] for row in rows_of(tmp_path / "events.csv") if row["kind"] == "dead"] == ["2"]


def test_a_format_that_changes(bars, program, tmp_path):
    """Two links one after another: the new size and the old one."""
    lines = [line[: 4 + 6 * 16] if line.startswith(b"row ") else line.replace(b" 32 8", b" 16 8") for line in BARS.splitlines()]
    other = program("make", "content", source=b"".join(line + b"\n" for line in lines))
    lanes = after(times(bits_of(bars, WHOLE), 3), times(bits_of(other, min(capture.header_of(other[:16])[0]) // 80 * 80), 3))
    ran(blocks(cut(lanes)), "--raw", "--events", tmp_path / "events.csv", status=None)
    says = [row["says"] for row in rows_of(tmp_path / "events.csv") if row["kind"] == "format"]
    assert says[:1] == ["16 × 8 columns and rows, 32 × 8 before"], says


@pytest.mark.parametrize("option", ("--log", "--events", "--frames"))
def test_a_disk_that_fills(bars, option):
    """One line names the table."""
    came = subprocess.run([*WATCH, "--raw", option, "/dev/full"], input=blocks(bits_of(bars, WHOLE)), capture_output=True, timeout=HANGS)
    assert came.returncode == 3 and came.stderr.decode() == "watch: /dev/full: No space left on device\n"


def test_a_disk_that_is_full_for_what_was_kept(bars):
    """The summary is there all the same."""
    words = [*WATCH, "--raw", "--keep", "9", "--kept", "/dev/full"]
    came = subprocess.run(words, input=blocks(times(bits_of(bars, WHOLE), 3)), capture_output=True, timeout=HANGS)
    assert came.returncode == 3 and came.stderr.decode() == "watch: /dev/full: No space left on device\n"
    assert b"watched for" in came.stdout


def test_dvi(program, bars):
    """Raw blocks of a source of DVI."""
    data = program("make", "dvi", source=(TOP / "examples" / "red.dvi").read_bytes())
    says = ran(blocks(times(bits_of(data, min(capture.header_of(data[:16])[0]) // 10 * 10), 8)), "--raw", "--dvi", status=None)
    assert "aligned for " in says and "no fault" in says


def test_lanes_that_no_longer_fit(bars):
    """Once nothing opens as it should, the lanes are not said to be aligned."""
    good = times(bits_of(bars, WHOLE), 2)
    shifted = bits_of(bars, WHOLE)
    shifted[1] = shifted[1][::-1].copy()
    says = ran(blocks(after(good, times(shifted, 3))), "--raw", status=1)
    assert "not aligned" in next(line for line in says.splitlines() if line.startswith("watched for "))
