"""tools/page --raw: a page that follows a live link shows what `tools/watch --raw` counts of it, stays as small as it was, and ends."""

import http.client
import json
import random
import signal
import subprocess
import threading
from contextlib import contextmanager

import pytest

from tests.support import HANGS, TOP
from tests.tools import live
from tests.tools.test_page import frames_of
from vabgrot.watching.live import ROW_OF_TIMES, ROWS, rows_of_times

FRAMES, TIMES = 20, 180  # a minute of 60 frames a second
MOST_GROWTH = 1_000_000  # bytes by which the page may be larger at the end of a minute than at its first seconds
MOST_PAUSE = 300  # milliseconds on a machine that has no other work
PAUSES = """window.pauses = [0]; new PerformanceObserver((list) => { for (const one of list.getEntries()) pauses.push(one.duration); })
    .observe({type: 'longtask'});"""


@pytest.fixture
def lanes(program):
    """The bits of the lanes of some frames."""
    return live.bits_of(program("make", "content", source=frames_of(random.Random(7), FRAMES)))


@contextmanager
def following(*words):
    """The tool, which follows what is written to it, and its URL."""
    pipes = {"stdin": subprocess.PIPE, "stdout": subprocess.PIPE, "stderr": subprocess.PIPE}
    with subprocess.Popen([TOP / "tools/page", "--raw", *words], **pipes) as process:
        try:
            yield process, process.stdout.readline().decode().strip()
        finally:
            process.kill()


def asked(url, path, host=None):
    """The status, the type and the body of an answer."""
    place = url.removeprefix("http://").rstrip("/")
    asks = http.client.HTTPConnection(place, timeout=HANGS)
    asks.request("GET", path, headers={"Host": host} if host else {})
    answer = asks.getresponse()
    kind = answer.headers["Content-Type"]
    found = answer.status, kind, b"" if kind.startswith("text/event-stream") else answer.read()
    asks.close()
    return found


def messages(url):
    """The messages of the link, as they come."""
    asks = http.client.HTTPConnection(url.removeprefix("http://").rstrip("/"), timeout=HANGS)
    asks.request("GET", "/events")
    answer = asks.getresponse()
    while line := answer.readline():
        if line.startswith(b"data: "):
            yield json.loads(line.removeprefix(b"data: "))


def last_of(url):
    """The last message of a link that ends, and all steps before."""
    steps = []
    for message in messages(url):
        steps += message["steps"]
        if message["ended"]:
            return message, steps
    raise AssertionError("the stream ended before the link did")


def ended(process, number=signal.SIGINT):
    """What the tool says when a signal ends it, and its status."""
    process.send_signal(number)
    out, notes = process.stdout.read(), process.stderr.read()
    return out.decode(), notes.decode(), process.wait(HANGS)


def test_what_is_sent(lanes):
    """All frames and faults are counted, and the faults stand on their rows."""
    damaged = [lane.copy() for lane in lanes]
    for at in range(3000, 3600, 40):
        damaged[1][at : at + 10] = [1, 1, 1, 1, 1, 0, 0, 0, 0, 0]
    data = live.blocks(live.times(damaged, 3))
    with following() as (process, url):
        process.stdin.write(data)
        process.stdin.close()
        message, steps = last_of(url)
        out, notes, status = ended(process)
    assert message["word"] == "Link faulty" and status == 1 and "the link has ended" in notes
    by_row = [sum(step[4][row] for step in steps) for row in range(len(ROWS))]
    assert sum(by_row) == sum(times for *_, times in message["faults"]) > 0 and by_row[1] > 0
    frames = next(words for name, words in message["lines"] if name == "frames")
    assert frames.startswith(f"{3 * FRAMES} whole frames") and sum(step[2] for step in steps) == 3 * FRAMES
    assert "verdict: Link faulty" in out and "AVI InfoFrame" in dict(message["packets"])


def test_rows_of_the_timeline():
    """Each fault of a lane stands on the row of its lane."""
    assert set(rows_of_times().tolist()) == set(range(len(ROWS))) and len(ROW_OF_TIMES) % 4 == 0


def test_who_is_answered(lanes):
    """The loopback under its own names alone, and nothing but the page and the link."""
    with following() as (process, url):
        port = url.rstrip("/").rpartition(":")[2]
        for path, host, status in (
            ("/", None, 200),
            ("/live.js", f"localhost:{port}", 200),
            ("/events", f"127.0.0.1:{port}", 200),
            ("/events", f"example.com:{port}", 404),
            ("/picture.png", f"example.com:{port}", 404),
            ("/", "example.com", 404),
            ("/picture.png", None, 404),  # no frame came
            ("/../README.md", None, 404),
            ("/words.py", None, 404),
        ):
            assert asked(url, path, host)[0] == status, (path, host)
        kind, body = asked(url, "/")[1:]
        assert kind.startswith("text/html") and b"live.js" in body
        out, notes, status = ended(process)
    assert status == 1 and "Not aligned" in out and "Traceback" not in notes


def test_wrong_words(tool, tmp_path):
    assert b"not allowed with" in tool("page", "--raw", "-o", tmp_path / "a.html", status=2).stderr
    assert b"--dvi goes with --raw" in tool("page", "--dvi", status=2).stderr


def sizes(page):
    """The bytes of the page's objects, without what is garbage, and how many nodes it has."""
    page.driver.execute_cdp_cmd("HeapProfiler.collectGarbage", {})
    metrics = page.driver.execute_cdp_cmd("Performance.getMetrics", {})["metrics"]
    found = {one["name"]: one["value"] for one in metrics}
    return found["JSHeapUsedSize"], found["Nodes"]


class Follower:
    """The page of a live link."""

    def __init__(self, driver, url):
        from tests.tools.pages import Page

        class Shown(Page):
            loads = Page.loads | {url[:5]}

            def __init__(self):
                self.driver = driver
                driver.get_log("browser")
                driver.get(url)

        self.page = Shown()
        driver.execute_cdp_cmd("Performance.enable", {})

    def wait(self, script):
        """Waits until a script answers yes."""
        from selenium.webdriver.support.ui import WebDriverWait

        WebDriverWait(self.page.driver, HANGS, poll_frequency=0.05).until(lambda _: self.page.run(f"return {script}"))


def minute(driver, data):
    """What a page shows at the end of a link, how much larger it became, and its longest pause in milliseconds of work."""
    from tests.tools.pages import Watched

    with following() as (process, url):
        shown = Follower(driver, url)
        page = shown.page
        page.run(PAUSES)
        begin, rest = data[: len(data) // 4], data[len(data) // 4 :]

        def write():
            process.stdin.write(rest)
            process.stdin.close()

        process.stdin.write(begin)
        process.stdin.flush()
        shown.wait("document.getElementById('picture').width > 30 && document.querySelectorAll('#lines div').length > 4")
        before = sizes(page)
        writer = threading.Thread(target=write)
        writer.start()
        with Watched(driver) as watched:
            shown.wait("document.getElementById('name').textContent === 'The link has ended'")
        writer.join()
        after, pause = sizes(page), max(page.run("return pauses")) / watched.slowness
        lines = page.run("return [...document.querySelectorAll('#lines div')].map((one) => one.lastChild.textContent)")
        word = page.text("word")
        page.check()
        out, _, _ = ended(process)
    return lines, word, out, [new - old for old, new in zip(before, after)], pause


def test_a_minute(driver, lanes):
    """A minute of a link at full speed: all frames are counted, and the page is as small as before."""
    pytest.importorskip("tests.tools.pages")
    data = live.blocks(live.times(lanes, TIMES))
    lines, word, out, (grown, nodes), pause = minute(driver, data)
    assert lines[3].startswith(f"{TIMES * FRAMES:,} whole frames") and lines[4].startswith("0 faults")
    assert f"verdict: {word}" in out
    assert grown < MOST_GROWTH and nodes < 200, (grown, nodes)
    assert pause < MOST_PAUSE
