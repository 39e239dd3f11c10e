"""tools/watch: what it says of captures that come in, in a terminal and without one."""

import csv
import os
import socket
import subprocess
import threading
import time
import urllib.request

import pytest

from tests.support import TOP

WATCH = [TOP / "tools" / "watch"]
ROWS, COLUMNS = 60, 140
HANGS = 120
WORN = "2:140:133"  # of examples/island.link: one character of its packet, which is mended


@pytest.fixture
def captures(program, hearing):
    """A clean, a damaged, a slipped and an empty capture, one that ends within a block, and one of DVI."""
    bars = program("make", "content", source=(TOP / "examples" / "bars.content").read_bytes())
    island = program("make", "link", source=(TOP / "examples" / "island.link").read_bytes())
    lines = [b"c 00 12\nc 04 8\nv " + b"00" * 90 + b"\n"] * 12 + [b"c 00 24\n"]
    slipped = program("slip", "2:2600:3", source=program("make", "link", source=b"".join([*lines, b"end\n"])))
    dvi = program("make", "dvi", source=b"c 00 12\nv ff0000\nc 00 12\nend\n")
    worn = program("damage", WORN, source=island)
    return {"bars": bars, "worn": worn, "slipped": slipped, "empty": b"", "cut": bars[:-3], "dvi": dvi}


class Terminal:
    """A tool in a pseudo-terminal; `text` is what its screen shows in the end."""

    def __init__(self, *words):
        pexpect = pytest.importorskip("pexpect", reason="Debian's package python3-pexpect is missing")
        pyte = pytest.importorskip("pyte", reason="Debian's package python3-pyte is missing")
        pytest.importorskip("rich", reason="Debian's package python3-rich is missing")
        self.screen = pyte.Screen(COLUMNS, ROWS)
        self.stream = pyte.ByteStream(self.screen)
        self.ended, self.silent = pexpect.EOF, pexpect.TIMEOUT
        environment = {**os.environ, "TERM": "xterm-256color", "COLORTERM": "truecolor"}
        words = map(str, ["--default-signal=INT", *WATCH, *words])  # a shell that starts the tests may ignore it
        self.child = pexpect.spawn("env", [*words], dimensions=(ROWS, COLUMNS), env=environment, timeout=HANGS)

    def until(self, text):
        """Reads until the screen shows a text."""
        end = time.monotonic() + HANGS
        while text not in self.text and time.monotonic() < end:
            try:
                self.stream.feed(self.child.read_nonblocking(1 << 16, 0.2))
            except self.silent:
                pass
            except self.ended:
                break
        assert text in self.text, self.text

    def finish(self):
        """Reads to the end; answers the status."""
        while True:
            try:
                self.stream.feed(self.child.read_nonblocking(1 << 16, HANGS))
            except self.ended:
                break
        self.child.close()
        return self.child.exitstatus

    @property
    def text(self):
        return "\n".join(line.rstrip() for line in self.screen.display)


SHOWN = {
    "bars": (0, ["aligned for 5,432 columns", "100% of 54,320 bits a lane", "32 × 8: no format", "3 whole frames", "0 faults", "no fault"]),
    "worn": (1, ["aligned for 75 columns", "mended", "symbols", "2 faults", "symbols: column 14, 1", "mended: column 14, 0 1"]),
    "empty": (3, ["not aligned: 0 bits a lane", "the capture breaks off after 0 bytes"]),
}


@pytest.mark.parametrize("name", SHOWN)
def test_a_terminal(captures, tmp_path, name):
    """The screen of a clean, a damaged and an empty capture: packets in words, levels of sound, the picture in half blocks."""
    (tmp_path / "a.tmc").write_bytes(captures[name])
    terminal = Terminal(tmp_path / "a.tmc")
    status, wanted = SHOWN[name]
    assert terminal.finish() == status
    for text in wanted:
        assert text in terminal.text, terminal.text
    if name == "bars":
        for text in ("AVI InfoFrame", "Audio InfoFrame", "Audio clock", "FL ", "FR ", " dB"):
            assert text in terminal.text
        assert "▀" * 32 in terminal.text


def test_the_colours_of_the_picture(captures, tmp_path, program):
    """Its cells have the colours of the frame, which is as small as the picture."""
    (tmp_path / "a.tmc").write_bytes(captures["bars"])
    listed = program("recover", "content", source=captures["bars"]).decode().splitlines()
    rows = [line.split()[1] for line in listed if line.startswith("row ")][-8:]
    terminal = Terminal(tmp_path / "a.tmc")
    assert terminal.finish() == 0
    top = next(at for at, line in enumerate(terminal.screen.display) if "▀" in line)
    left = terminal.screen.display[top].index("▀")
    cells = [[terminal.screen.buffer[top + y][left + x] for x in range(32)] for y in range(4)]
    found = [[[getattr(cell, side) for cell in line] for side in ("fg", "bg")] for line in cells]
    wanted = [[row[at : at + 6] for at in range(0, len(row), 6)] for row in rows]
    assert [row for pair in found for row in pair] == wanted


def test_pieces_through_a_fifo(captures, tmp_path):
    """The view goes on while a capture comes in pieces, and ends with it."""
    os.mkfifo(tmp_path / "taps")
    terminal = Terminal(tmp_path / "taps")
    data = captures["bars"]
    with open(tmp_path / "taps", "wb", buffering=0) as taps:
        taps.write(data[:5])
        taps.write(data[5:13000])
        terminal.until("64% of 54,320 bits a lane")
        taps.write(data[13000:])
    assert terminal.finish() == 0
    assert "aligned for 5,432 columns" in terminal.text and "3 whole frames" in terminal.text


def test_the_keyboard_ends_it(captures, tmp_path):
    """Ctrl-C: a summary, and the status of what came until then."""
    os.mkfifo(tmp_path / "taps")
    terminal = Terminal(tmp_path / "taps")
    with open(tmp_path / "taps", "wb", buffering=0) as taps:
        taps.write(captures["bars"][:-1])
        terminal.until("bits a lane")
        time.sleep(0.5)
        terminal.child.sendintr()
        assert terminal.finish() == 0
    assert "watched for" in terminal.text and "Traceback" not in terminal.text and "not a whole capture" not in terminal.text


def said(source, *words, status=0):
    """What it says to a pipe."""
    ran = subprocess.run([*WATCH, *map(str, words)], input=source, capture_output=True, timeout=HANGS)
    assert ran.returncode == status and b"Traceback" not in ran.stderr, ran.stderr.decode()
    return ran.stdout.decode(), ran.stderr.decode()


def test_without_a_terminal(captures, tmp_path):
    """The summary, the log and the statuses, by standard input."""
    assert said(captures["bars"], "--plain")[0].splitlines()[-1] == "no fault"
    assert "1 mended\n1 symbols\n" in said(captures["worn"], "--log", tmp_path / "faults.csv", status=1)[0]
    with open(tmp_path / "faults.csv", newline="") as file:
        rows = list(csv.DictReader(file))
    assert [(row["kind"], row["lane"], row["column"], row["numbers"]) for row in rows] == [
        ("symbols", "", "14", "1"),
        ("mended", "", "14", "0 1"),
    ]
    assert "1 symbols\n" in (stopped := said(captures["worn"], "--stop-on-fault", status=1)[0]) and "mended" not in stopped
    assert "verdict: Clean" in (out := said(captures["cut"])[0]) and "the capture is cut off" in out
    assert "tools/lanes look" in said(b"TMC1" + (80_000).to_bytes(4, "big") + bytes(30_000), status=1)[0]
    assert "not a capture: it starts with 6e 6f 20" in said(b"no capture", status=3)[1]


def test_other_links(captures):
    """DVI, and lanes that slip."""
    assert "aligned for 25 columns\n" in said(captures["dvi"], "--dvi")[0]
    out, _ = said(captures["slipped"], status=1)
    assert "behind the slip at bit " in out and "1 slip, lane 2 (red)\n" in out and "verdict: Link faulty" in out
    assert said(b"", "--clock", "1", "--rate", "1", status=2)[1].startswith("usage: ")


def test_a_file_that_grows(captures, tmp_path):
    """--follow waits for the rest, and ends where the capture is whole."""
    data = captures["bars"]
    (tmp_path / "a.tmc").write_bytes(data[:9000])

    def grow():
        time.sleep(1)
        with open(tmp_path / "a.tmc", "ab") as file:
            file.write(data[9000:])

    thread = threading.Thread(target=grow)
    thread.start()
    assert said(b"", "--follow", tmp_path / "a.tmc")[0].splitlines()[-1] == "no fault"
    thread.join()


def test_metrics(captures, tmp_path):
    """A scrape while more is waited for, which the last row and the twelve columns behind it need; the port is one of the loopback."""
    pytest.importorskip("prometheus_client", reason="Debian's package python3-prometheus-client is missing")
    port = free_port()
    os.mkfifo(tmp_path / "taps")
    words = [*WATCH, tmp_path / "taps", "--metrics", str(port)]
    watch = subprocess.Popen(words, stdout=subprocess.PIPE, stderr=subprocess.PIPE)
    with open(tmp_path / "taps", "wb", buffering=0) as taps:
        taps.write(captures["worn"])
        wanted = ['vabgrot_faults_total{kind="mended",lane=""} 1.0', "vabgrot_columns_total 60.0"]
        text = scraped(port, wanted[0])
    assert all(line in text for line in [*wanted, 'vabgrot_faults_total{kind="word",lane="blue"} 0.0', "vabgrot_aligned 1.0"]), text
    assert watch.communicate(timeout=HANGS)[1] == b"" and watch.returncode == 1


def free_port():
    """A port of the loopback that nothing uses."""
    with socket.socket() as free:
        free.bind(("127.0.0.1", 0))
        return free.getsockname()[1]


def scraped(port, wanted):
    """The counters of a port, once a text is in them."""
    text, end = "", time.monotonic() + HANGS
    while time.monotonic() < end and wanted not in text:
        try:
            with urllib.request.urlopen(f"http://127.0.0.1:{port}/metrics", timeout=HANGS) as page:
                text = page.read().decode()
        except OSError:
            time.sleep(0.1)
    return text
