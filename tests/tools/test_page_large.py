"""What the page does with many faults and with large frames: it lists no more than it can, answers soon, and stays small."""

import io

import numpy as np
import pytest

from tests.models import timed
from tests.support import run
from tests.tools.test_page import WIDTH, counts
from vabgrot import capture

pages = pytest.importorskip("tests.tools.pages")

LARGE = timed.Sent((1920, 88, 44, 148), (1080, 4, 5, 36), vic=16)  # 1,920 by 1,080 at 60 Hz, of CTA-861
FRAMES = 3
WRONG_BITS = 0.01  # of a noisy link
MOST_MEMORY = 300  # MB of the page, with its worker and the receiver
MOST_PAUSE, MOST_ANSWER = 500, 200  # milliseconds on a machine that has no other work
PAUSES = """window.pauses = [0]; new PerformanceObserver((list) => { for (const one of list.getEntries()) pauses.push(one.duration); })
    .observe({type: 'longtask'});"""
ANSWER = """const [text, done] = arguments; const table = document.querySelector('#fault-table');
    const [field, says] = [table.querySelector('input[type=search]'), table.querySelector('.bar > span')];
    const began = performance.now(); field.value = text; field.dispatchEvent(new Event('input'));
    const look = () => (says.textContent.endsWith('looking on') ? setTimeout(look) : done([performance.now() - began, says.textContent]));
    setTimeout(look);"""


@pytest.fixture
def page(driver, served):
    return pages.Reader(driver, served)


def bits_of(made):
    """The bits of each lane of a capture of version 1."""
    lanes, count = capture.lanes_of(made)
    return [np.unpackbits(np.frombuffer(lane, np.uint8), bitorder="little")[: count[0]] for lane in lanes]


def capture_of(lanes):
    """A capture of lanes of bits."""
    out = io.BytesIO()
    capture.write(out, [io.BytesIO(np.packbits(lane, bitorder="little").tobytes()) for lane in lanes], [len(lanes[0])])
    return out.getvalue()


def many_faults(program, counts):
    """A capture of frames, each with so many control columns that have one wrong character, on lanes 0, 1 and 2 in turn."""
    rows = ["c 00 20", "c 04 8", "v " + "336699" * WIDTH] * 4
    frames = [["c 02 60", "c 00 60", *rows, f"c 00 {count + 60}"] for count in counts]
    listing = ["c 00 60", *(line for frame in frames for line in frame), "c 02 60", "c 00 60", "end", ""]
    words = [lane.reshape(-1, 10) for lane in bits_of(program("make", "link", source="\n".join(listing).encode()))]
    at = 60
    for count in counts:
        at += 60 + 60 + 4 * (28 + 2 + WIDTH) + 30
        for lane in range(3):
            words[lane][at + lane : at + count : 3] = [1, 1, 1, 1, 1, 0, 0, 0, 0, 0]  # no control character, and no guard band
        at += count + 30
    return capture_of([lane.reshape(-1) for lane in words])


def test_many_faults(page, program, tmp_path):
    """Of each kind a frame has 10,000 faults listed, and the others are counted; a text is soon found among those that are listed."""
    wrong = [10_000] * 7 + [300_000]
    made = many_faults(program, wrong)
    wanted = program("recover", "link", source=made, status=1)
    (tmp_path / "a.tmc").write_bytes(made)
    page.read(tmp_path / "a.tmc")
    assert wanted.count(b"\n! word") == sum(wrong) == page.count("faults") and page.saved(tmp_path) == wanted
    assert page.run("return [data.faults.kind.length, data.rest.length]") == [80_000, 1]
    assert sum(int(times.replace(",", "")) for _, _, times in counts(page)) == sum(wrong)
    assert "Of each kind the first 10,000 faults of a frame are listed; the others are counted (290,000 word)" in page.text("notes")
    answers, seconds = [], []
    for number in range(6):
        with pages.Watched(page.driver) as watched:
            answers += [page.driver.execute_async_script(ANSWER, f"lane {number % 3}")]
        seconds.append(watched.worked)
    print(f"answers in {seconds} s of work, {[milliseconds for milliseconds, _ in answers]} ms")
    assert [says.rpartition(" ")[2] for _, says in answers] == ["26,672", "26,664", "26,664"] * 2  # of 10,000 lane 0 has one more
    assert max(seconds) < MOST_ANSWER / 1000
    page.check()


@pytest.fixture(scope="module")
def clean(executable):
    """The bits of each lane of some large frames."""
    return bits_of(run(executable, ["make", "link"], timed.text(LARGE.lines(FRAMES)))[1])


def noisy(lanes):
    """A capture in which each bit may be wrong."""
    rng = np.random.default_rng(1)
    return capture_of([lane ^ (rng.random(len(lane), np.float32) < WRONG_BITS) for lane in lanes])


def slipped(lanes):
    """A capture in which the green lane loses three bits after its first frame."""
    at = len(lanes[1]) // FRAMES + 5
    return capture_of([lanes[0][3:], np.delete(lanes[1], slice(at, at + 3)), lanes[2][3:]])


@pytest.mark.parametrize("damaged", (noisy, slipped))
def test_large_frames(driver, served, clean, program, tmp_path, damaged):
    """The page reads large frames with faults in each row, in little memory and without long pauses."""
    made = damaged(clean)
    (tmp_path / "a.tmc").write_bytes(made)
    wanted = program("recover", "link", source=made, status=1)
    page = pages.Reader(driver, served)
    page.run(PAUSES)
    with pages.Watched(driver) as watched:
        page.read(tmp_path / "a.tmc")
    pauses = sorted(page.run("return pauses"))
    print(f"pauses up to {pauses[-3:]} ms at a slowness of {watched.slowness:.1f}, {watched.most:.0f} MB")
    assert page.count("faults") == wanted.count(b"\n! ") > 100_000
    assert page.run("return data.lines.length") == wanted.count(b"\n")
    assert pauses[-1] < MOST_PAUSE * watched.slowness and watched.most < MOST_MEMORY
    page.check()


def test_a_text_of_the_listing(page, program, tmp_path):
    """A text is found in each line that has it, though no line is kept as a string."""
    made = many_faults(program, [1_000])
    wanted = program("recover", "link", source=made, status=1).decode().splitlines()
    (tmp_path / "a.tmc").write_bytes(made)
    page.read(tmp_path / "a.tmc")
    found = page.driver.execute_async_script("const [text, done] = arguments; linesWith(text).then(done)", "! word 2")
    assert found == [number for number, line in enumerate(wanted, 1) if "! word 2" in line] and len(found) > 300
