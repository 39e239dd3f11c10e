"""tools/report: the fields of interlaced video are woven on its page as tools/pictures weaves them, and can be seen apart. Rasters are
made here (CTA-861: of the second field VSYNC begins half a line later, so that its rows lie below those of the first)."""

import csv

import pytest
from PIL import Image

from tests.models.timed import Sent, text
from tests.tools.columns import place_of

webdriver = pytest.importorskip("selenium.webdriver", reason="Debian's package python3-selenium is missing")
from selenium.webdriver.support.ui import WebDriverWait  # noqa: E402

WIDE, ROWS = 40, 6


def pixel(x, y):
    """The colour of a pixel of the frame."""
    return f"{5 * x:02x}{9 * y:02x}{x * y % 256:02x}"


def fields(count, vic=None, halves=True):
    """A link listing of so many fields, the first one the upper."""
    sent, row = Sent((WIDE, 16, 16, 64), (ROWS, 2, 3, 4), halves=halves, vic=vic), 0
    lines = []
    for line in sent.lines(count):
        if line[0] == "v":
            y = 2 * (row % ROWS) + row // ROWS % 2
            line = ("v", "".join(pixel(x, y) for x in range(WIDE)))
            row += 1
        lines.append(line)
    return text(lines)


def frame(first, step=1):
    """The rows of a frame from the first on, each so many further."""
    rows = range(first, 2 * ROWS, step)
    return b"".join(bytes.fromhex(pixel(x, y)) for y in rows for x in range(WIDE))


def said(page):
    return page.run("return [...document.querySelectorAll('.note')].map((one) => one.textContent)")


def test_fields_are_woven(report, program, tool, tmp_path):
    """Before the first change of VSYNC stands an upper field that is not whole; then come a lower one alone and two frames."""
    capture = program("make", "link", source=fields(6))
    page = report(capture, 1)
    assert page.run("return viewer.pictures.map((one) => one.name)") == ["Part of a frame", "Frame 0, one field", "Frame 1", "Frame 2"]
    assert [one.tobytes() for one in page.frames()] == [frame(1, 2), frame(0), frame(0)]
    tool("pictures", tmp_path / "woven", source=program("recover", "link", source=capture))
    wanted = [Image.open(path).convert("RGB") for path in sorted((tmp_path / "woven").glob("*.png"))]
    assert [one.tobytes() for one in page.frames()] == [one.tobytes() for one in wanted]
    (note,) = [one for one in said(page) if "interlaced" in one]
    assert "4 fields are woven into 2 frames" in note and "1 field whose other one is missing is shown by itself." in note
    assert "5" in page.text("count-frames") and "4 fields in 2 pictures" in page.run(
        "return document.getElementById('count-frames').nextElementSibling.textContent"
    )
    page.click("show-fields")
    WebDriverWait(page.driver, 60).until(lambda _: page.run("return document.querySelectorAll('#strip button').length") == 6)
    assert [one.tobytes() for one in page.frames("Field")] == [frame(1, 2), *[frame(0, 2), frame(1, 2)] * 2]
    page.check()


def test_a_damaged_pixel_of_a_field(report, program, tmp_path):
    """Pixel 7 of row 2 of the lower field is in row 5 of the frame; with fields apart it is in row 2."""
    made = program("make", "link", source=fields(5))
    rows = 3 * ROWS + 2  # behind three fields
    capture = program("damage", f"1:{place_of(made, program('recover', 'link', source=made), rows, 7)}:0ab", source=made)
    page = report(capture, 1)
    place = "return [...document.querySelectorAll('#fault-table tbody tr')].map((row) => row.cells[2].textContent)"
    assert page.run(place) == ["Frame 1, row 5, pixel 7"]
    says = page.text("pixel-says")
    assert says.startswith("Pixel 7, row 5: ") and "row 2 of the lower field in line" in says and "lane 1 (green) damaged here" in says
    assert "upper field whole" in page.text("frame-says") and "lower field whole" in page.text("frame-says")
    page.driver.execute_cdp_cmd("Browser.setDownloadBehavior", {"behavior": "allow", "downloadPath": str(tmp_path)})
    page.run("document.querySelector('#fault-table .save').click()")
    path = tmp_path / "a-faults.csv"
    WebDriverWait(page.driver, 60).until(lambda _: path.exists() and path.stat().st_size)
    with open(path, newline="") as file:
        (row,) = csv.DictReader(file)
    assert (row["frame"], row["row"], row["pixel"], row["field"]) == ("1", "5", "7", "lower")
    page.click("show-fields")
    assert page.run(place) == ["Field 2, row 2, pixel 7"]
    page.click("pixel-on")
    assert page.text("pixel-says").startswith("Pixel 7, row 2: ")


def test_fields_that_are_not_told_apart(report, program):
    """VIC 5 says interlaced, and VSYNC of each field begins with a line; without it nothing says that there are fields."""
    page = report(program("make", "link", source=fields(4, vic=5, halves=False)), 1)
    assert "The AVI InfoFrame says (VIC 5) that the video is interlaced, and which field is the upper is not known" in "".join(said(page))
    names = page.run("return viewer.pictures.map((one) => one.name)")
    assert names == [f"Frame {number}" for number in range(4)] and page.run("return by('fields-switch').hidden")
    page = report(program("make", "link", source=fields(4, halves=False)), 1)
    assert "interlaced" not in "".join(said(page))
