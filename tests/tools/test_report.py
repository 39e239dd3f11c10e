"""tools/report: what the page shows in a browser is what the program's listings say."""

import csv
import os
import random
import re
import wave
from collections import Counter

import pytest
from PIL import Image

from tests.models.timed import Sent, text
from vabgrot.formats.rules import RULES
from tests.support import HANGS, built, ran

webdriver = pytest.importorskip("selenium.webdriver", reason="Debian's package python3-selenium is missing")
from selenium.webdriver.common.by import By  # noqa: E402
from selenium.webdriver.common.keys import Keys  # noqa: E402
from selenium.webdriver.support.ui import Select, WebDriverWait  # noqa: E402

MODE = "32,8,16,64,24,2,2,2,1"
ACROSS, DOWN, FIRST_PIXEL, FIRST_ROW = 120, 30, 80, 4
STATUS = [(4 if bit == 2 else 0) for bit in range(192)]  # of both sides: consumer, linear PCM, no copyright asserted
NULL = "000000 " + " ".join(["0" * 14] * 4)


def has_track():
    path = built()
    return ran([path, "recover", "track"], b"").returncode != 2


def test_timing(report, program):
    """What tools/timing says, in amber where it is a fault: a raster of VIC 1 with a back porch of 40 and the InfoFrame of VIC 4."""
    right = dict(across=(640, 16, 96, 48), down=(480, 10, 2, 33), positive=(False, False))
    wrong = right | {"across": (640, 16, 96, 40)}
    for raster, vic, amber in ((right, 1, 0), (wrong, 4, 2)):
        shown = report(program("make", "link", source=text(Sent(**raster, vic=vic).lines(2))), int(amber > 0))
        block = shown.text("timing")
        assert "640 pixels, 480 rows, progressive, 2 whole frames" in block
        assert ("VIC 1 (640x480p, 59.94 Hz, 4:3), but H back porch 40, wants 48" in block) == (amber > 0)
        rows = "[...document.querySelectorAll('#timing tbody tr')]"
        cells = shown.run(f"return {rows}.map((row) => [...row.cells].map((one) => one.textContent))")
        back = str(raster["across"][3])
        assert cells[0] == ["across, columns", "640", "16", "96", back, str(752 + int(back)), "negative"]
        assert cells[1] == ["down, lines", "480", "10", "2", "33", "525", "negative"]
        assert shown.run("return document.querySelectorAll('#timing .amber').length") == amber
        assert shown.run("return document.querySelector('main section').id") == "timing"


def texts(data):
    return data.decode().splitlines()


@pytest.fixture
def sent(tool, tmp_path):
    """Five frames of noise with 190 and some samples that have a channel status."""
    paths = []
    for number in range(5):
        paths.append(tmp_path / f"{number}.png")
        Image.effect_noise((32, 24), 90).convert("RGB").save(paths[-1])
    with wave.open(str(tmp_path / "a.wav"), "wb") as file:
        file.setparams((2, 2, 48000, 0, "NONE", ""))
        file.writeframes(bytes(range(256)) * 4)
    words = ["--mode", MODE, "--clock", 3_600_000, "--sound", tmp_path / "a.wav"]
    return tool("content", *paths, *words).stdout


def same_frames(page, tool, content, folder):
    """Whether the page shows the frames of a content listing."""
    tool("pictures", folder, source=content, status=1 if b"\n! code" in content or b"\n! noise" in content else 0)
    wanted = [Image.open(path).convert("RGB") for path in sorted(folder.glob("*.png"))]
    assert len(wanted) > 1 and [one.tobytes() for one in page.frames()] == [one.tobytes() for one in wanted]


def same_counts(page, link, content):
    """The counts at the top, and those by kind and lane, are those of the listings."""
    lines = texts(link)
    faults = [line.split(" ") for line in lines if line.startswith("! ")]
    names = Counter(line.split(" ")[0] for line in texts(content))
    assert page.count("faults") == len(faults)
    assert (page.count("packets"), page.count("rows")) == tuple(
        sum(line.startswith(name) for line in lines) for name in ("p ", "v ")
    )
    assert (page.count("frames"), page.count("samples")) == (names["frame"], names["s"])
    wanted = Counter((kind, lane if kind in ("word", "code") else "-1") for _, kind, lane, *_ in faults)
    cells = page.run(
        "return [...document.querySelectorAll('.count[data-kind]')].map((one) => [one.dataset.kind, one.dataset.lane, one.textContent])"
    )
    assert {(kind, lane): int(count) for kind, lane, count in cells} == wanted
    if faults:
        told = [(int(row[3].split(" ")[1]), row[0]) for row in page.rows("fault-table")]
        assert [number for number, _ in told] == [
            number for number, line in enumerate(lines, 1) if line.startswith("! ")
        ]
        assert all(text.startswith(fault[1]) for (_, text), fault in zip(told, faults))


def test_a_clean_capture(report, tool, program, sent, tmp_path):
    capture = program("make", "content", "--skew", "0,70,35", source=sent)
    link, content = (program("recover", kind, source=capture) for kind in ("link", "content"))
    page = report(capture)
    assert "Clean" in page.text("verdict") and page.text("no-faults") == "No fault was found."
    same_counts(page, link, content)
    assert page.lines() == texts(link)
    same_frames(page, tool, content, tmp_path / "out")
    rows = page.rows("packet-table")
    assert len(rows) == link.count(b"\np ") and {row[4] for row in rows} == {"all clean"}
    sent_bytes = [line.split(" ")[1:6] for line in texts(link) if line.startswith("p ")]
    assert [row[3].replace(" ", "").split("|") for row in rows] == sent_bytes
    words = {row[0]: row[2] for row in rows}
    assert words["AVI InfoFrame"] == "RGB, no video identification code, no aspect told, full range"
    assert words["Audio clock"] == "N 6144, CTS 3600" and words["Audio InfoFrame"] == "2 channels, coding by the stream"
    assert words["Audio samples"].endswith("of two channels")
    status = page.run(
        "return [...document.querySelectorAll('#sound tbody tr')].map((row) => [...row.cells].map((cell) => cell.textContent))"
    )
    assert (
        ["rate", "48000 Hz", "48000 Hz"] in status
        and ["channel", "1, left", "2, right"] in status
        and ["word", "16 bits", "16 bits"] in status
    )
    assert "at 48,000 Hz, by the channel status" in page.text("sound-says")  # a mode of one's own has no known pixel clock
    WebDriverWait(page.driver, HANGS).until(lambda _: page.run("return document.getElementById('audio').readyState") > 0)
    assert page.run("return document.getElementById('audio').duration") == pytest.approx(
        content.count(b"\ns ") / 48000, abs=1e-4
    )


def hits():
    """Pixels of frame 2 (a row each), a character of one packet, three of the next, and two of a guard band of frame
    3."""
    place = (
        lambda frame, line, column, lane: f"{lane}:{10 * ((frame * DOWN + line) * ACROSS + column) - (0, 70, 35)[lane]}"
    )  # noqa: E731
    found = [f"{place(2, FIRST_ROW + row, FIRST_PIXEL + 3 * row % 32, row % 3)}:0ab" for row in range(0, 24, 5)]
    found += [f"{place(2, 0, 14 + 5, 1)}:354", *(f"{place(2, 0, 14 + 32 + column, 1)}:354" for column in (3, 9, 20))]
    return found + [f"{place(3, FIRST_ROW + 7, FIRST_PIXEL - 2, lane)}:000" for lane in (0, 1)]


def test_a_damaged_capture(report, tool, program, sent, tmp_path):
    made = program("make", "content", "--skew", "0,70,35", source=sent)
    capture = program("damage", *hits(), source=made)
    link, content = (program("recover", kind, source=capture, status=1) for kind in ("link", "content"))
    page = report(capture, 1)
    assert "Link faulty" in page.text("verdict")
    same_counts(page, link, content)
    lines = page.lines()
    assert lines == texts(link)
    same_frames(page, tool, content, tmp_path / "out")
    # what opens nothing is as long as the rows that it was, so all else stands where it stood
    hurt_at = page.run("return data.periods.at")
    clean_at = report(made).run("return data.periods.at")
    assert set(hurt_at) <= set(clean_at) and hurt_at == sorted(hurt_at)
    page = report(capture, 1)
    # the blocks of each packet, by the fault lines behind it
    for row in page.rows("packet-table"):
        number = int(row[5].split(" ")[1])
        told = []
        for line in lines[number:]:
            kind, *rest = line[2:].split(" ")
            if not line.startswith("! ") or kind not in ("symbols", "mended", "lost"):
                break
            if kind != "symbols":
                block = "header" if rest[1] == "4" else f"body {rest[1]}"
                told.append(f"{block}: {'lost' if kind == 'lost' else 'mended, bit ' + rest[2]}")
        assert [part for part in row[4].split(" | ") if ":" in part] == told
    # each damaged pixel has its place
    pixels = [re.findall(r"Frame (\d+), row (\d+), pixel (\d+)", row[2]) for row in page.rows("fault-table")]
    pixels = [tuple(map(int, one[0])) for one in pixels if one]
    assert [(y, x) for _, y, x in pixels] == [(row, 3 * row % 32) for row in range(0, 24, 5)]
    page.click("pixel-on")
    assert "damaged here" in page.text("pixel-says")


def test_the_keys(report, program, sent):
    """The timeline goes from fault to fault, zooms, and a link goes to its line of the listing."""
    capture = program("damage", *hits(), source=program("make", "content", "--skew", "0,70,35", source=sent))
    lines = texts(program("recover", "link", source=capture, status=1))
    first = next(number for number, line in enumerate(lines, 1) if line.startswith("! "))
    page = report(capture, 1)
    time = page.driver.find_element(By.ID, "time")
    said = lambda: time.get_attribute("aria-valuetext")  # noqa: E731
    time.send_keys("n")
    assert lines[first - 1].split(" ")[1] in said()
    time.send_keys("+", Keys.ARROW_RIGHT)
    moved = int(time.get_attribute("aria-valuenow"))
    time.send_keys("p")
    assert int(time.get_attribute("aria-valuenow")) < moved
    page.run("document.querySelector(`a[href='#L${arguments[0]}']`).click()", first)
    WebDriverWait(page.driver, HANGS).until(
        lambda _: page.run("return document.activeElement.parentNode.id") == f"L{first}"
    )
    assert page.run("return document.activeElement.parentNode.lastChild.textContent") == lines[first - 1]
    picture = page.driver.find_element(By.ID, "picture")
    before = page.text("pixel-says")
    picture.send_keys(Keys.ARROW_DOWN)
    assert page.text("pixel-says") != before
    kind = Select(page.driver.find_element(By.CSS_SELECTOR, "#packet-table select:last-of-type"))
    kind.select_by_value("Audio clock")
    assert {row[0] for row in page.rows("packet-table")} == {"Audio clock"}


def test_a_cut_capture(report, tool, program, sent, tmp_path):
    capture = program("make", "content", "--bits", 10 * (3 * DOWN + 10) * ACROSS + 1000, source=sent)
    link, content = (program("recover", kind, source=capture) for kind in ("link", "content"))
    cut = texts(link)[-2]
    assert cut.startswith("cut ")
    page = report(capture)
    same_counts(page, link, content)
    assert page.lines() == texts(link)
    assert f"at column {int(cut[4:]):,} " in page.run("return document.querySelector('main').textContent")
    short = report(capture[:-5000])
    assert "Clean" in short.text("verdict") and "the capture is cut off" in short.run("return document.querySelector('.says').textContent")
    lines = [line for line in short.lines() if not line.startswith(("cut ", "end"))]
    assert len(lines) > 100 and lines[:-1] == texts(link)[: len(lines) - 1]


def slipped(tool, capture, folder):
    """The capture without three bits of lane 2, in the midst of a row of frame 2."""
    paths = [folder / name for name in "bgr"]
    bits = tool("lanes", "unpack", *paths, source=capture).stdout.decode().strip().split(",")
    lane = "".join(f"{byte:08b}"[::-1] for byte in paths[2].read_bytes())[: int(bits[2])]
    at = 10 * ((2 * DOWN + FIRST_ROW + 9) * ACROSS + FIRST_PIXEL + 11)
    lane = lane[:at] + lane[at + 3 :]
    padded = lane + "0" * (-len(lane) % 8)
    paths[2].write_bytes(bytes(int(padded[place : place + 8][::-1], 2) for place in range(0, len(padded), 8)))
    return tool("lanes", "pack", "--bits", f"{bits[0]},{bits[1]},{len(lane)}", *paths).stdout


def test_a_slipped_capture(report, tool, program, sent, tmp_path):
    capture = slipped(tool, program("make", "content", source=sent), tmp_path)
    page = report(capture, 1)
    if not has_track():
        assert page.lines() == texts(program("recover", "link", source=capture, status=1))
        pytest.skip("the program has no `recover track`: the page says so, and shows what `recover link` tells")
    track = texts(program("recover", "track", source=capture, status=1))
    assert page.lines() == track
    slips = [line for line in track if line.startswith("! slip ")]
    assert page.count("slips") == len(slips) == 1 and page.count("frames") == 4
    assert [row[0].split(",")[0] for row in page.rows("fault-table") if row[0].startswith("slip")] == [
        "slip of lane 2 (red)"
    ]
    assert page.text("slips-say") == "1 slip, 1 aligned again."
    assert "broken off by a slip" in "".join(page.run("return data.frames.map((one) => one.says)"))


def without_guards(program, sent):
    """The link listing of a content as a stream without guard bands and islands."""
    lines = texts(program("recover", "link", source=program("make", "content", source=sent)))
    fields = [line.split(" ") for line in lines if line[:2] in ("c ", "v ") or line == "end"]
    plain = [["c", f"{int(one[1], 16) & 3:02x}", one[2]] if one[0] == "c" else one for one in fields]
    return "".join(" ".join(one) + "\n" for one in plain).encode()


def test_a_capture_without_guard_bands(report, tool, program, sent, tmp_path):
    capture = program("make", "dvi", "--offset", 7, source=without_guards(program, sent))
    listing = program("recover", "dvi", source=capture)
    page = report(capture, 1, "--dvi")
    assert page.lines() == texts(listing)
    assert page.count("rows") == sum(line.startswith("v ") for line in texts(listing)) and page.count("faults") == 0
    tool("pictures", tmp_path / "frames", source=listing)
    wanted = [Image.open(path).convert("RGB") for path in sorted((tmp_path / "frames").glob("*.png"))]
    assert len(wanted) > 1 and [one.tobytes() for one in page.frames()] == [one.tobytes() for one in wanted]
    assert "DVI" in page.run("return document.body.textContent")
    noise = report(capture, 1)
    assert "--dvi" in noise.run("return document.querySelector('#advice').textContent")


def test_no_alignment(report, program):
    page = report(b"TMC1" + (800).to_bytes(4, "big") + bytes(300), 1)
    assert "Not aligned" in page.text("verdict") and page.count("columns") == 0
    assert page.run("return document.querySelectorAll('#advice li').length") > 4


CONTENT = [
    "c 00 4\nc 14 8\ni 00",
    "p 82020d 67000800010000 00000000000000 00000000000000 00000000000000 " + "0" * 32,  # its bytes sum to 1
    "p 82020c 67000800010000 00000000000000 00000000000000 00000000000000 " + "0" * 32,
    "p 010000 00006270001800 00006270001800 00006270001800 00006270001801 " + "0" * 32,
    "p 020110 56341200000088 00000000000000 00000000000000 00000000000000 " + "0" * 32,
    "p 021f00 00000000000000 00000000000000 00000000000000 00000000000000 " + "0" * 32,
    "p 030000 01050000000000 01050000000000 01050000000000 01050000000000 " + "0" * 32,
    f"p {NULL} " + "0" * 32,
    "e 00\nc 00 12\nend\n",
]


def test_contents_that_are_wrong(report, program):
    """What is wrong with contents is told by the listing of contents in the same number, and no fault of the link."""
    capture = program("make", "link", source="\n".join(CONTENT).encode())
    told = Counter(
        line.split(" ")[1] for line in texts(program("recover", "content", source=capture, status=1)) if line[0] == "!"
    )
    page = report(capture, 1)
    cells = page.run(
        "return [...document.querySelectorAll('#faults .matrix tbody tr')]"
        ".map((row) => [row.cells[0].textContent, Number(row.cells[1].textContent)])"
    )
    assert dict(cells) == told and set(told) == {"checksum", "length", "parity", "uneven", "layout", "depth"}
    assert "Source wrong" in page.text("verdict") and page.text("no-faults") == "No fault was found."
    says = page.run("return document.querySelector('header .says').textContent")
    assert says.startswith("Link clean; contents wrong: 1 length, 1 checksum, 1 parity, 1 uneven")
    assert page.run("return document.querySelector('header').className") == "contents" and page.count("contents") == 6


def test_a_frame_of_another_size_than_its_infoframe_says(report, tool, program, sent):
    """VIC 16 over 32 by 24 pixels, in each frame: the link is clean."""
    listing = re.sub(rb"\navi [^\n]*", b"\navi 2 0 1 0 8 0 0 0 0 0 0 16 0 0 0 0 0", sent)
    content = program("recover", "content", source=(capture := program("make", "content", source=listing)), status=1)
    page = report(capture, 1)
    says = page.run("return document.querySelector('header .says').textContent")
    assert says.startswith("Link clean; 1 rule broken: AVI format: AVI InfoFrame: VIC 16 ") and b"! vic 16" in content


def test_pictures_have_room():
    """Noise that is no file without loss in its room becomes a photograph that fits; frames that are alike are one."""
    from vabgrot.content import Frame
    from vabgrot.report.album import Album

    album = Album(room=400_000)
    more = {"change": None, "firsts": [], "places": [], "marks": None, "end": 0, "ended": "vsync", "is_begun": True}
    plain = Frame(rows=[bytes(960)] * 240, **more)
    noise = [Frame(rows=[os.urandom(960) for _ in range(240)], **more) for _ in range(8)]
    places = [album.add(frame, 9 - number) for number, frame in enumerate([plain, *noise, plain])]
    assert places[0] == places[-1] and len(album.pictures) == 9
    assert [picture.kind for picture in album.pictures] == ["image/png", *["image/jpeg"] * 8]
    assert sum(len(picture.data) for picture in album.pictures) <= 400_000


def test_refused(tool, program, tmp_path):
    path, page = tmp_path / "a.tmc", tmp_path / "a.html"
    tool("report", path, "-o", page, status=3)
    for data in (b"", b"no capture", b"TMC1\0\0"):
        path.write_bytes(data)
        assert b"capture" in tool("report", path, "-o", page, status=3).stderr
    assert not page.exists()
    tool("report", status=2)
    tool("report", path, "--clock", 0, status=2)
    assert tool("report", "--help").stdout.startswith(b"usage: report")


def at(lane, row, pixel, frame=2):
    """The place in a lane, without skew, of a pixel's character."""
    return f"{lane}:{10 * ((frame * DOWN + FIRST_ROW + row) * ACROSS + FIRST_PIXEL + pixel)}"


def test_slips_past_which_nothing_aligns(report, tool, program, sent):
    """Lane 1 loses nine bits in each of nine rows: 70 bits is the greatest skew, so after the eighth nothing aligns."""
    capture = program("make", "content", source=sent)
    for row in range(9, 0, -1):
        capture = program("slip", at(1, row, 10) + ":9", source=capture)
    track = texts(program("recover", "track", source=capture, status=1))
    places = [int(line.split(" ")[3]) for line in track if line.startswith("! slip ")]
    bits = [10 * ACROSS * DOWN * 5 + 320 - place for place in (places[7], places[7] + 81, places[7])]
    page = report(capture, 1)
    told = f"9 slips, 7 aligned again, none from place {places[7]:,} on: {bits[0]:,}, {bits[1]:,} and {bits[2]:,} bits of the lanes"
    assert len(places) == 9 and page.text("slips-say") == f"{told} are not shown."
    assert "slip: lane 1, before bit " in page.run("return document.querySelector('header .says').textContent")
    card = page.run("return document.querySelector('#count-slips').nextElementSibling.textContent")
    assert card == f"7 aligned again, none from place {places[7]:,} on"
    rows = [row for row in page.rows("fault-table") if row[0].startswith("slip")]
    assert ["not aligned again" in row[0] for row in rows] == [False] * 7 + [True] * 2
    # the timeline has the bits that are not shown, and says so
    columns = page.run("return data.columns")
    assert columns == page.count("columns") + sum(-(-one // 10) for one in (places[8] - places[7], max(bits) - places[8] + places[7]))
    time = page.driver.find_element(By.ID, "time")
    page.run("pointTo(data.columns - 5)")
    assert "not aligned" in time.get_attribute("aria-valuetext") and "nothing is shown" in time.get_attribute("aria-valuetext")


def test_bits_between_slips_that_are_not_shown(report, program, sent):
    """Lane 0 loses what lane 1 had lost, so that the lanes align anew."""
    capture = program("make", "content", "--skew", "0,68,68", source=sent)
    for word in (at(0, 15, 10) + ":5", at(1, 5, 10) + ":5"):
        capture = program("slip", word, source=capture)
    track = texts(program("recover", "track", source=capture, status=1))
    first, last = (int(line.split(" ")[3]) for line in track if line.startswith("! slip "))
    page = report(capture, 1)
    assert page.text("slips-say") == f"2 slips, 1 aligned again: {last - first:,} bits a lane between slips are not shown."
    assert page.count("columns") == page.run("return data.columns") - -(-(last - first) // 10)
    assert "alignment 2" in page.run("pointTo(data.columns - 5); return document.getElementById('time').ariaValueText")
    assert page.count("frames") == sum(line["whole"] for line in page.run("return data.frames"))


def test_the_timeline_is_zoomed_about_what_is_seen(report, program, sent):
    """About the cursor where it is in view, else about the middle; the wheel zooms with Ctrl or where it was zoomed."""
    page = report(program("make", "content", source=sent))
    view = lambda: page.run("return [time.first, time.last]")  # noqa: E731
    wheel = """const event = new WheelEvent("wheel", { deltaY: arguments[0], ctrlKey: arguments[1], cancelable: true, clientX: 640 });
        return [document.getElementById("time").dispatchEvent(event), time.last - time.first]"""
    columns = page.run("return data.columns")
    assert page.run(wheel, -100, False) == [True, columns]  # the page scrolls
    assert page.run(wheel, -100, True) == [False, pytest.approx(0.8 * columns)]
    assert page.run(wheel, -100, False) == [False, pytest.approx(0.64 * columns)]
    for _ in range(9):
        page.run(wheel, 100, False)
    assert page.run(wheel, 100, False) == [True, columns]
    page.run("pointTo(1000)")
    page.click("zoom-in")
    assert view()[0] == pytest.approx(500) and view()[1] - view()[0] == pytest.approx(columns / 2)
    page.run("look(data.columns / 2, data.columns / 4)")
    first, last = view()
    page.click("zoom-in")
    assert view() == [pytest.approx(first + columns / 16), pytest.approx(last - columns / 16)]
    page.click("zoom-out")
    assert view() == [pytest.approx(first), pytest.approx(last)]


def typed(page, css, text):
    """Writes into a field that searches."""
    field = page.driver.find_element(By.CSS_SELECTOR, f"{css} input[type=search]")
    page.run("arguments[0].value = arguments[1]; arguments[0].dispatchEvent(new Event('input'))", field, text)
    return field


def test_text_is_found(report, program, sent):
    capture = program("damage", *hits(), source=program("make", "content", "--skew", "0,70,35", source=sent))
    lines = texts(program("recover", "link", source=capture, status=1))
    page = report(capture, 1)
    every = len(page.rows("packet-table"))
    typed(page, "#packet-table", "N 6144")
    assert {row[0] for row in page.rows("packet-table")} == {"Audio clock"}
    header = next(line.split(" ")[1] for line in lines if line.startswith("p 84"))
    for digits in (header, f"{header[:2]} {header[2:4]} {header[4:]}"):
        typed(page, "#packet-table", digits)
        assert {row[0] for row in page.rows("packet-table")} == {"Audio InfoFrame"}
    typed(page, "#packet-table", "")
    assert len(page.rows("packet-table")) == every
    typed(page, "#fault-table", "MENDED")
    assert {row[0].split(":")[0] for row in page.rows("fault-table")} == {"mended"}
    typed(page, "#fault-table", "no such text")
    assert page.rows("fault-table") == []
    field = typed(page, "#lines", "! code")
    here = "return Number(document.querySelector('.is-here').id.slice(1))"
    wanted = [number for number, line in enumerate(lines, 1) if "! code" in line]
    field.send_keys(Keys.ENTER)
    assert page.run(here) == wanted[0]
    field.send_keys(Keys.ENTER, Keys.ENTER)
    assert page.run(here) == wanted[2]
    assert f"3 of {len(wanted)}" in page.text("lines")


def saved(page, folder, name):
    """The rows of a table's CSV file."""
    page.driver.execute_cdp_cmd("Browser.setDownloadBehavior", {"behavior": "allow", "downloadPath": str(folder)})
    path = folder / f"a-{name}.csv"
    page.run("document.querySelector(arguments[0]).click()", f"#{name[:-1]}-table .save")
    WebDriverWait(page.driver, HANGS).until(lambda _: path.exists() and path.stat().st_size)
    with open(path, newline="") as file:
        rows = list(csv.DictReader(file))
    path.unlink()
    return rows


def test_a_burst(report, program, sent, tmp_path):
    """A hundred columns of control characters and noise are one row, with their faults folded; a damaged pixel is another."""
    rng, first = random.Random(5), (2 * DOWN + 10) * ACROSS + 30
    draw = lambda: rng.choice((0x354, 0x0AB, 0x154, 0x2AB)) if rng.random() < 0.5 else rng.randrange(1024)  # noqa: E731
    words = [f"{lane}:{10 * (first + at)}:{draw():03x}" for at in range(100) for lane in range(3)]
    words.append(f"1:{10 * ((3 * DOWN + FIRST_ROW) * ACROSS + FIRST_PIXEL + 4)}:0ab")
    capture = program("damage", *words, source=program("make", "content", source=sent))
    link = program("recover", "link", source=capture, status=1)
    faults = [(number, line.split(" ")) for number, line in enumerate(texts(link), 1) if line.startswith("! ")]
    *folded, (last, pixel) = [(line, int(words[-1])) for line, words in faults]
    columns = [column for _, column in folded]
    assert pixel - max(columns) > ACROSS and len(columns) > 20

    page = report(capture, 1)
    said = f"a burst of {max(columns) - min(columns) + 1:,} columns at column {min(columns):,}: {len(columns):,} faults"
    rows = page.rows("fault-table")
    assert [(row[0], row[1], row[3]) for row in rows] == [
        (said, f"column {min(columns):,}", f"line {folded[0][0]}"),
        ("code on lane 1 (green)", f"column {pixel:,}", f"line {last}"),
    ]
    assert page.count("faults") == len(faults) and page.count("rows") == link.count(b"\nv ")
    page.run("document.querySelector('#fault-table summary').click()")
    inside = "return [...document.querySelectorAll('#fault-table details tbody tr')].map((row) => row.cells[3].textContent)"
    WebDriverWait(page.driver, HANGS).until(lambda _: page.run(inside))
    assert page.run(inside) == [f"line {line}" for line, _ in folded[:20]]
    assert f"1 to 20 of {len(folded)}" in page.run("return document.querySelector('#fault-table details').textContent")
    assert [int(row["line"]) for row in saved(page, tmp_path, "faults")] == [line for line, _ in faults]
    Select(page.driver.find_element(By.CSS_SELECTOR, "#fault-table select")).select_by_value("noise")
    noise = [line for line, words in faults if words[1] == "noise"]
    assert [row[3] for row in page.rows("fault-table")] == [f"line {line}" for line in noise]
    page.check()


def test_faults_and_packets_are_saved(report, program, sent, tmp_path):
    """As they are chosen, a line each, with what the listing says."""
    capture = program("damage", *hits(), source=program("make", "content", "--skew", "0,70,35", source=sent))
    lines = texts(program("recover", "link", source=capture, status=1))
    page = report(capture, 1)
    faults = saved(page, tmp_path, "faults")
    assert [(int(row["line"]), row["fault"]) for row in faults] == [
        (number, line.split(" ")[1]) for number, line in enumerate(lines, 1) if line.startswith("! ")
    ]
    for row in faults:
        kind, *numbers = lines[int(row["line"]) - 1].split(" ")[1:]
        assert row["column"] == numbers[kind in ("word", "code")] and row["lane"] == (numbers[0] if kind in ("word", "code") else "")
    assert [(row["row"], row["pixel"]) for row in faults if row["pixel"]] == [
        (str(row), str(3 * row % 32)) for row in range(0, 24, 5)
    ]
    packets = saved(page, tmp_path, "packets")
    assert [[row[name] for name in ("header", "body 0", "body 1", "body 2", "body 3")] for row in packets] == [
        line.split(" ")[1:6] for line in lines if line.startswith("p ")
    ]
    assert sum(row["body 0 is"] == "lost" for row in packets) == sum(
        line.startswith("! lost") and line.endswith(" 0") for line in lines
    )
    typed(page, "#packet-table", "N 6144")
    assert {row["text"] for row in saved(page, tmp_path, "packets")} == {"N 6144, CTS 3600"}


def test_narrow_and_wide(report, program, sent):
    """Nothing is wider than a window of 390 pixels, and no number of the cards is broken or cut."""
    capture = program("damage", *hits(), source=program("make", "content", "--skew", "0,70,35", source=sent))
    page = report(capture, 1)
    try:
        for width in (390, 1280):
            page.driver.execute_cdp_cmd(
                "Emulation.setDeviceMetricsOverride", {"width": width, "height": 844, "deviceScaleFactor": 1, "mobile": False}
            )
            page.run(
                "const one = document.getElementById('count-columns'); one.textContent = '429,496,729'; one.style.setProperty('--size', 11)"
            )
            assert page.run("return innerWidth") == width
            assert page.run("return document.documentElement.scrollWidth - document.documentElement.clientWidth") == 0
            is_tall = "one.scrollWidth > one.clientWidth || one.clientHeight > 40"
            tall = f"return [...document.querySelectorAll('.cards b')].filter((one) => {is_tall}).length"
            assert page.run(tall) == 0
    finally:
        page.driver.execute_cdp_cmd("Emulation.clearDeviceMetricsOverride", {})


def test_rules(report, program, sent, tmp_path):
    """They are those of tools/conform; one chooses those of a verdict, and a column is a place of the timeline."""
    capture = program("make", "content", source=sent)
    hurt = program("damage", f"1:{10 * (ACROSS * (FIRST_ROW + 3) + FIRST_PIXEL + 7)}:0ab", source=capture)
    page = report(hurt, 1)
    rows = "[...document.querySelectorAll('#rule-table tbody tr')].filter((row) => !row.hidden)"
    count = f"return {rows}.map((row) => row.cells[0].textContent)"
    every = page.run(count)
    assert len(every) == len(RULES) and sorted(every) == sorted(RULES) and every[0] == "video coding"
    Select(page.driver.find_element(By.CSS_SELECTOR, "#rule-table select")).select_by_value("damaged")
    assert page.run(count) == ["video coding"]
    page.run("document.querySelector('#rule-table tr:not([hidden]) button').click()")
    column = int(page.run("return document.querySelector('#rule-table tr:not([hidden]) button').dataset.column"))
    assert page.run("return time.cursor") == column
    fault = page.rows("fault-table")[0]
    assert f"{column:,}" in fault[1] and re.match(r"lane 1: [0-9a-f]{3}, byte [0-9a-f]{2}, not at disparity", fault[4])
    page.check()
