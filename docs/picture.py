#!/usr/bin/python3
"""Makes the README's picture of a report. It runs the commands of the README that write this report in a folder of their own,
opens the page in headless Chromium, and writes docs/guide/report.png and docs/guide/report.txt.

    docs/picture.py             writes the two files
    docs/picture.py --text      prints the text of the page and writes no file

The text file contains the words of the page above the end of the picture: verdict, counts, notes, names. The picture's file
contains the same text as its Description. tests/tools/test_picture.py compares it with the page, so it notices when the page
has changed. VABGROT_PROGRAM names the program; without it, it is the one that ./vabgrot builds. This needs Debian's packages
chromium, chromium-driver and python3-selenium, and those of the tools."""

import argparse
import io
import os
import re
import subprocess
import sys
import tempfile
from contextlib import contextmanager
from pathlib import Path

from PIL import Image, PngImagePlugin
from selenium import webdriver
from selenium.common.exceptions import WebDriverException
from selenium.webdriver.chrome.service import Service
from selenium.webdriver.common.by import By
from selenium.webdriver.support.ui import WebDriverWait

TOP = Path(__file__).resolve().parents[1]
sys.path.insert(0, str(TOP / "python"))
from vabgrot.errors import Refused  # noqa: E402
from vabgrot.program import find  # noqa: E402

PICTURE, TEXT = TOP / "docs" / "guide" / "report.png", TOP / "docs" / "guide" / "report.txt"
PAGE = "damaged.html"
WIDTH, HEIGHT = 1280, 2110
WAITS = 300  # seconds to wait for the page; enough for a slow machine
COLOURS = 256
FAULT, ZOOMS = 197, 4  # the fault to select, and how often to zoom into the timeline there
PARTS = ("header", "#timing", "section[aria-labelledby=h-counts]", "#pictures", "#timeline")
WORDS = ("headless=new", "no-sandbox", "disable-gpu", "disable-dev-shm-usage", "hide-scrollbars", "force-device-scale-factor=1")


def commands():
    """The commands of the README's block that writes the page, without the one that installs packages."""
    blocks = re.findall(r"(?ms)^```\w*\n(.*?)^```$", (TOP / "README.md").read_text("utf-8"))
    lines = [line[2:] for block in blocks if f"-o {PAGE}\n" in block for line in block.splitlines() if line.startswith("$ ")]
    if not lines:
        sys.exit(f"picture.py: README.md: no block of commands writes {PAGE}. Name it there, or here in PAGE.")
    return "\n".join(line for line in lines if not line.startswith("apt-get "))


def walked(folder):
    """Runs the commands in a folder that has links to the files that they name. Returns the page that they write."""
    try:
        program = find().resolve()
    except Refused as why:
        sys.exit(f"picture.py: {why}")
    for name in ("tools", "docs", "examples"):
        (folder / name).symlink_to(TOP / name)
    (folder / "vabgrot").symlink_to(program)
    env = os.environ | {"VABGROT_PROGRAM": str(program)}
    ran = subprocess.run(["bash", "-c", commands()], cwd=folder, env=env, capture_output=True, text=True)
    page = folder / PAGE
    if not page.is_file():
        sys.exit(f"picture.py: the commands of README.md wrote no {PAGE}. They printed:\n{ran.stderr}")
    return page


@contextmanager
def browser():
    options = webdriver.ChromeOptions()
    for word in (*WORDS, f"window-size={WIDTH},{HEIGHT}"):
        options.add_argument(f"--{word}")
    options.binary_location = "/usr/bin/chromium"
    driver = webdriver.Chrome(options=options, service=Service("/usr/bin/chromedriver"))
    try:
        yield driver
    finally:
        driver.quit()


def show(driver, page):
    """Opens the page in its light colours, and selects one of its faults."""
    scheme = [{"name": "prefers-color-scheme", "value": "light"}, {"name": "prefers-reduced-motion", "value": "reduce"}]
    size = {"width": WIDTH, "height": HEIGHT, "deviceScaleFactor": 1, "mobile": False}
    driver.execute_cdp_cmd("Emulation.setEmulatedMedia", {"features": scheme})
    driver.execute_cdp_cmd("Emulation.setDeviceMetricsOverride", size)
    driver.get(page.as_uri())
    WebDriverWait(driver, WAITS).until(lambda it: it.execute_script("return document.documentElement.dataset.ready") == "yes")
    press = "for (let left = arguments[1]; left > 0; left--) document.getElementById(arguments[0]).click()"
    for button, times in (("pixel-on", FAULT), ("fault-on", FAULT), ("zoom-in", ZOOMS)):
        driver.find_element(By.ID, button)
        driver.execute_script(press, button, times)
    settled = "const done = arguments[0]; scrollTo(0, 0); document.activeElement.blur(); setTimeout(() => requestAnimationFrame(done), 300)"
    driver.execute_async_script(settled)


def text_of(driver):
    """Returns the words of the parts of the page that the picture shows."""
    texts = (driver.find_element(By.CSS_SELECTOR, part).get_property("innerText") for part in PARTS)
    lines = (" ".join(line.split()) for text in texts for line in text.splitlines())
    return "".join(f"{line}\n" for line in lines if line)


def picture_of(driver, text):
    """Returns the picture of the page as the bytes of a PNG file that contains the text."""
    image = Image.open(io.BytesIO(driver.get_screenshot_as_png())).convert("RGB")
    image = image.crop((0, 0, WIDTH, HEIGHT)).quantize(COLOURS, dither=Image.Dither.NONE)
    info = PngImagePlugin.PngInfo()
    info.add_itxt("Description", text, zip=True)
    out = io.BytesIO()
    image.save(out, "PNG", optimize=True, pnginfo=info)
    return out.getvalue()


def main():
    parser = argparse.ArgumentParser(description=__doc__, formatter_class=argparse.RawDescriptionHelpFormatter)
    parser.add_argument("--text", action="store_true", help="print the text of the page and write no file")
    args = parser.parse_args()
    try:
        with tempfile.TemporaryDirectory() as folder, browser() as driver:
            show(driver, walked(Path(folder)))
            text = text_of(driver)
            picture = picture_of(driver, text)
    except WebDriverException as why:
        sys.exit(f"picture.py: {str(why.msg).splitlines()[0]}")
    if args.text:
        sys.stdout.write(text)
        return
    PICTURE.write_bytes(picture)
    TEXT.write_text(text, "utf-8")


if __name__ == "__main__":
    main()
