"""tools/survey: many captures judged here, and on the workers of a real Dask scheduler."""

import csv
import json
import os
import signal
import subprocess
import sys
import time
from contextlib import contextmanager, suppress
from pathlib import Path

import pytest

from tests.support import HANGS, TOP

EXAMPLES = TOP / "examples"
RED = (EXAMPLES / "red.link").read_bytes()
TOTAL = "12 clean, 2 link faulty, 2 not aligned"  # of the folder
COUNTS = {"columns": "27", "lines": "1", "pixels": "1"}
CONNECT = "DASK_DISTRIBUTED__COMM__TIMEOUTS__CONNECT"  # how long Dask and the survey wait for a connection


@pytest.fixture
def folder(program, tmp_path):
    """Twelve clean captures, one of a damaged pixel, one of no alignment, one that breaks off in its first block, and one of an island."""
    folder = tmp_path / "captures"
    (folder / "more").mkdir(parents=True)
    red = program("make", "link", source=RED)
    for number in range(12):
        (folder / f"red{number:02}.tmc").write_bytes(red)
    island = program("make", "link", source=(EXAMPLES / "island.link").read_bytes())
    (folder / "more" / "island.tmc").write_bytes(program("damage", "2:140:133", source=island))
    (folder / "pixel.tmc").write_bytes(program("damage", "2:140:300", source=red))
    (folder / "none.tmc").write_bytes(b"TMC1\0\0\0\0")
    (folder / "short.tmc").write_bytes(red[:-1])
    (folder / "notes.txt").write_bytes(b"no capture")
    return folder


def rows_of(path):
    with open(path, newline="") as file:
        return {Path(row["path"]).name: row for row in csv.DictReader(file)}


def taken(row, names):
    return {name: row[name] for name in names}


def test_each_capture_is_judged(tool, folder, tmp_path):
    table = tmp_path / "survey.csv"
    came = tool("survey", folder, "-o", table, status=1)
    assert came.stderr == f"16 captures, 16 judged now: {TOTAL}\n".encode()
    rows = rows_of(table)
    assert len(rows) == 16 and "notes.txt" not in rows
    assert all(taken(rows[f"red{number:02}.tmc"], COUNTS) == COUNTS for number in range(12))
    assert taken(rows["pixel.tmc"], ["verdict", "faults", "code"]) == {"verdict": "link faulty", "faults": "1", "code": "1"}
    island = {"verdict": "link faulty", "columns": "75", "islands": "1", "packets": "1", "symbols": "1", "mended": "1"}
    assert taken(rows["island.tmc"], island) == island
    assert rows["none.tmc"]["verdict"] == "not aligned" and rows["none.tmc"]["note"].startswith("Not aligned: the three lanes")
    assert rows["short.tmc"]["verdict"] == "not aligned" and "the capture is cut off" in rows["short.tmc"]["note"]
    page = (tmp_path / "survey.html").read_text()
    assert f"<h1>16 captures: {TOTAL}</h1>" in page and page.count("<tr class=") == 16


def test_a_clean_link_with_wrong_contents(tool, program, folder, tmp_path):
    """Each AVI InfoFrame and one sample are wrong, which the link carried as it was given."""
    sums = "p 82020d 67000800010000 00000000000000 00000000000000 00000000000000 " + "0" * 32
    odd = "p 020110 56341200000088 00000000000000 00000000000000 00000000000000 " + "0" * 32
    lines = ["c 00 4", "c 14 8", "i 00", sums, sums, odd, "e 00", "c 00 12", "end"]
    capture = folder / "contents.tmc"
    capture.write_bytes(program("make", "link", source="".join(f"{line}\n" for line in lines).encode()))
    table = tmp_path / "survey.csv"
    words = [capture, folder / "red00.tmc", "-o", table]
    came = tool("survey", *words, status=1)
    assert came.stderr == b"2 captures, 2 judged now: 1 clean, 1 source wrong\n"
    wanted = {"verdict": "source wrong", "faults": "0", "contents": "3", "checksum": "2", "parity": "1", "vic": "0"}
    assert taken(rows_of(table)["contents.tmc"], wanted) == wanted
    assert rows_of(table)["red00.tmc"]["contents"] == "0"
    assert b"2 captures, 0 judged now: 1 clean, 1 source wrong" in tool("survey", *words, status=1).stderr
    assert '<tr class="source-wrong">' in (tmp_path / "survey.html").read_text()


def test_what_is_done_and_unchanged_is_kept(tool, folder, program, tmp_path):
    table = tmp_path / "survey.csv"
    tool("survey", folder / "red00.tmc", folder / "red01.tmc", "-o", table)
    (folder / "red01.tmc").write_bytes((folder / "pixel.tmc").read_bytes())
    came = tool(
        "survey", folder / "red00.tmc", folder / "red01.tmc", folder / "red02.tmc", "-o", table, status=1
    )
    assert came.stderr == b"3 captures, 2 judged now: 2 clean, 1 link faulty\n"
    came = tool("survey", folder / "red02.tmc", "-o", table)
    assert came.stderr == b"1 captures, 0 judged now: 1 clean\n" and len(rows_of(table)) == 3
    with open(table, "r+b") as file:  # the last line breaks off
        file.truncate(table.stat().st_size - 5)
    came = tool("survey", folder / "red02.tmc", folder / "red00.tmc", "-o", table)
    assert came.stderr == b"2 captures, 0 judged now: 2 clean\n" and len(rows_of(table)) == 2
    came = tool("survey", folder / "red02.tmc", "-o", table, "--anew")
    assert came.stderr == b"1 captures, 1 judged now: 1 clean\n" and len(rows_of(table)) == 1


def test_kept_rows_gain_the_timing(tool, folder, tmp_path):
    """A row of a survey without it is judged again where it is asked, but for what has none."""
    table = tmp_path / "survey.csv"
    places = [folder / name for name in ("red00.tmc", "pixel.tmc", "none.tmc", "short.tmc")]
    assert b"4 captures, 4 judged now" in tool("survey", *places, "-o", table, status=1).stderr
    assert {row["format"] for row in rows_of(table).values()} == {""}
    for judged, more in ((2, ["--timing"]), (0, ["--timing"]), (0, [])):
        assert b"4 captures, %d judged now" % judged in tool("survey", *places, "-o", table, *more, status=1).stderr
        formats = {name: row["format"] != "" for name, row in rows_of(table).items()}
        assert formats == {"red00.tmc": True, "pixel.tmc": True, "none.tmc": False, "short.tmc": False}


def waited(until):
    """What `until` answers as soon as it is something."""
    end = time.monotonic() + HANGS
    while time.monotonic() < end:
        if found := until():
            return found
        time.sleep(0.05)
    raise AssertionError("it took too long")


@contextmanager
def begun(words):
    """A survey in a process group of its own, of which nothing is left in the end."""
    pipes = {"stderr": subprocess.PIPE, "stdout": subprocess.DEVNULL}
    with subprocess.Popen([str(word) for word in words], start_new_session=True, **pipes) as survey:
        try:
            yield survey
        finally:
            with suppress(ProcessLookupError):
                os.killpg(survey.pid, signal.SIGKILL)


def test_a_stopped_survey_goes_on(tool, folder, tmp_path):
    """It is stopped once a capture is judged; what is in the table is kept."""
    table = tmp_path / "survey.csv"
    with begun([TOP / "tools" / "survey", folder, "-o", table]) as survey:
        waited(lambda: table.exists() and table.read_bytes().count(b"\n") > 1)
        os.killpg(survey.pid, signal.SIGKILL)
        survey.communicate(timeout=HANGS)
    kept = table.read_bytes().count(b"\n") - 1
    came = tool("survey", folder, "-o", table, status=1)
    assert came.stderr == f"16 captures, {16 - kept} judged now: {TOTAL}\n".encode() and len(rows_of(table)) == 16


def address_in(path):
    """The address in a scheduler's file; nothing as long as it is not written."""
    try:
        return json.loads(path.read_text())["address"]
    except (FileNotFoundError, ValueError):
        return None


@pytest.fixture
def cluster(tmp_path, monkeypatch):
    """A Dask scheduler on the loopback and two workers, which have the package: its address, and the workers."""
    pytest.importorskip("distributed", reason="Debian's package python3-distributed is missing")
    monkeypatch.setenv(CONNECT, "300s")
    monkeypatch.setenv("PYTHONPATH", str(TOP / "python"))
    address = tmp_path / "scheduler.json"
    dask = [sys.executable, "-m", "distributed.cli."]
    running = []

    def run(name, *words):
        command = [*dask[:2], dask[2] + name, *map(str, words), "--no-dashboard"]
        running.append(subprocess.Popen(command, stdout=subprocess.DEVNULL, stderr=subprocess.DEVNULL, cwd=tmp_path))
        return running[-1]

    run("dask_scheduler", "--host", "127.0.0.1", "--port", 0, "--scheduler-file", address)
    place = waited(lambda: address_in(address))
    words = ["--scheduler-file", address, "--host", "127.0.0.1", "--nthreads", 1, "--no-nanny"]
    workers = [run("dask_worker", *words, "--local-directory", tmp_path) for _ in range(2)]
    yield place.removeprefix("tcp://"), workers
    for process in running:
        process.kill()
        process.wait()


def test_a_worker_that_dies_loses_no_capture(tool, folder, cluster, tmp_path):
    """One of two workers dies while the survey is on its way."""
    address, workers = cluster
    table = tmp_path / "survey.csv"
    words = [folder, "-o", table, "--scheduler", address]
    with begun([TOP / "tools" / "survey", *words]) as survey:
        waited(lambda: table.exists())
        workers[0].kill()
        workers[0].wait()
        _, told = survey.communicate(timeout=HANGS)
    assert survey.returncode == 1, told
    # if the machine is busy the scheduler's own words on the worker that died may come after it
    assert f"16 captures, 16 judged now: {TOTAL}\n".encode() in told
    assert tool("survey", *words, status=1).stderr.startswith(b"16 captures, 0 judged now")


def test_what_is_refused(tool, folder, tmp_path):
    table = tmp_path / "survey.csv"
    for places, says in (
        ([tmp_path / "missing"], b"there is no such file"),
        ([folder / "more", tmp_path / "missing"], b"there is no such file"),
        ([tmp_path / "empty"], b"it has no files *.tmc"),
    ):
        (tmp_path / "empty").mkdir(exist_ok=True)
        assert says in tool("survey", *places, "-o", table, status=3).stderr
    table.write_text("a,b\n1,2\n")
    assert b"no table of a survey" in tool("survey", folder, "-o", table, status=3).stderr
    assert table.read_text() == "a,b\n1,2\n"
    for bad in ([folder], ["-o", table], [folder, "-o", tmp_path / "survey.txt"]):
        tool("survey", *bad, status=2)


def test_no_scheduler(tool, folder, tmp_path):
    pytest.importorskip("distributed", reason="Debian's package python3-distributed is missing")
    words = [folder, "-o", tmp_path / "survey.csv", "--scheduler"]
    assert b"127.0.0.1:1: no scheduler answers" in tool("survey", *words, "127.0.0.1:1", status=3).stderr


def test_help(tool):
    assert tool("survey", "--help").stdout.startswith(b"usage: survey")
