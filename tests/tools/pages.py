"""Pages of tools/report and of page/ in headless Chromium, and what they show. Without Selenium or the browser the tests are skipped."""

import os
import re
import threading
from base64 import b64encode
from pathlib import Path

import pytest
from PIL import Image

from tests.support import HANGS

webdriver = pytest.importorskip("selenium.webdriver", reason="Debian's package python3-selenium is missing")
from selenium.webdriver.chrome.service import Service  # noqa: E402
from selenium.webdriver.common.by import By  # noqa: E402
from selenium.webdriver.support.ui import WebDriverWait  # noqa: E402

CHROMIUM, DRIVER = "/usr/bin/chromium", "/usr/bin/chromedriver"


def opened():
    """The browser."""
    if not (os.path.exists(CHROMIUM) and os.path.exists(DRIVER)):
        pytest.skip("Debian's packages chromium and chromium-driver are missing")
    options = webdriver.ChromeOptions()
    for word in ("headless=new", "no-sandbox", "disable-gpu", "disable-dev-shm-usage", "window-size=1280,1000"):
        options.add_argument(f"--{word}")
    options.binary_location = CHROMIUM
    options.set_capability("goog:loggingPrefs", {"browser": "ALL"})
    found = webdriver.Chrome(options=options, service=Service(DRIVER))
    found.set_page_load_timeout(HANGS)
    found.set_script_timeout(HANGS)
    return found


def children(process):
    """The numbers of all processes below one."""
    found = []
    for path in Path("/proc").glob("[0-9]*/stat"):
        try:
            parent = int(path.read_text().rpartition(")")[2].split()[1])
        except OSError:  # it has ended
            continue
        if parent == process:
            found += [int(path.parent.name), *children(int(path.parent.name))]
    return found


def memory(driver):
    """How many MB each process of the browser that shows a page has by itself, with its threads; 0 if none does."""
    found = [0.0]
    for process in children(driver.service.process.pid):
        try:
            is_page = "--type=renderer" in Path(f"/proc/{process}/cmdline").read_text()
            status = Path(f"/proc/{process}/status").read_text()
        except OSError:
            continue
        if is_page:
            found.append(int(re.search(r"RssAnon:\s*(\d+)", status)[1]) * 1024 / 1e6)
    return found


class Watched:
    """Watches the page of a browser: the greatest memory that it has in MB (`most`), the seconds for which its main thread works
    (`worked`), and how many times as long as that its tasks take (`slowness`), since the machine has other work."""

    def __init__(self, driver):
        self.driver, self.most, self.is_over = driver, 0.0, threading.Event()
        self.thread = threading.Thread(target=self.look)
        driver.execute_cdp_cmd("Performance.enable", {})

    def look(self):
        while not self.is_over.wait(0.05):
            self.most = max(self.most, *memory(self.driver))

    def times(self):
        found = {one["name"]: one["value"] for one in self.driver.execute_cdp_cmd("Performance.getMetrics", {})["metrics"]}
        return found["ThreadTime"], found["TaskDuration"]

    def __enter__(self):
        self.begun = self.times()
        self.thread.start()
        return self

    def __exit__(self, *_):
        self.is_over.set()
        self.thread.join()
        self.worked, took = (after - before for before, after in zip(self.begun, self.times()))
        self.slowness = max(1.0, took / max(self.worked, 0.001))


class Page:
    """A page in the browser."""

    loads = {"data:", "blob:"}  # from where it may

    def __init__(self, driver, path):
        self.driver = driver
        driver.get_log("browser")
        driver.get(f"file://{path}")
        WebDriverWait(driver, HANGS).until(lambda _: self.run("return document.documentElement.dataset.ready") == "yes")

    def run(self, text, *words):
        return self.driver.execute_script(text, *words)

    def text(self, id):
        return self.run("return document.getElementById(arguments[0])?.textContent", id)

    def count(self, name):
        return int((self.text(f"count-{name}") or "0").replace(",", ""))

    def click(self, id):
        self.run("document.getElementById(arguments[0]).click()", id)

    def rows(self, id):
        """The cells of a table, of all its pages, each cell the texts in it."""
        self.run(
            "const bar = document.querySelector(`#${arguments[0]} .bar`);"
            "while (!bar.querySelectorAll('button')[0].disabled) bar.querySelectorAll('button')[0].click()",
            id,
        )
        found = []
        while True:
            found += self.run(
                "return [...document.querySelectorAll(`#${arguments[0]} tbody tr`)].map((row) => [...row.cells].map((cell) =>"
                " [...cell.childNodes].map((one) => one.textContent).join(' | ')))",
                id,
            )
            if self.run(
                "const on = document.querySelectorAll(`#${arguments[0]} .bar button`)[1]; if (on.disabled) return true; on.click()",
                id,
            ):
                return found

    def lines(self):
        """The listing, page after page."""
        found = []
        while True:
            found += self.run(
                "return [...document.querySelectorAll('#lines li')].map((line) => line.lastChild.textContent)"
            )
            if self.run(
                "const on = [...document.querySelectorAll('#lines .bar button')].at(-1); if (on.disabled) return true; on.click()"
            ):
                return found

    def frames(self, name="Frame"):
        """The pictures of the whole frames, as they are shown, or of what else has such a name."""
        found = []
        for button in self.driver.find_elements(By.CSS_SELECTOR, "#strip button"):
            if not button.text.startswith(name):
                continue
            self.run("arguments[0].click()", button)
            WebDriverWait(self.driver, HANGS).until(lambda _: button.get_attribute("aria-current"))
            width, height, data = self.run(
                "const one = document.getElementById('picture'); return [one.width, one.height,"
                " [...one.getContext('2d').getImageData(0, 0, one.width, one.height).data].filter((_, at) => at % 4 < 3)]"
            )
            found.append(Image.frombytes("RGB", (width, height), bytes(data)))
        return found

    def check(self):
        """Nothing went wrong in the page, nothing was loaded, and what is shown has a name."""
        assert [entry for entry in self.driver.get_log("browser") if entry["level"] == "SEVERE"] == []
        loaded = self.run("return performance.getEntriesByType('resource').map((one) => one.name.slice(0, 5))")
        assert set(loaded) <= self.loads
        nameless = """return [...document.querySelectorAll('button, a, select, input, canvas, img, svg, table, audio')].filter((one) =>
            one.getAttribute('aria-hidden') !== 'true' && !(one.textContent.trim() || one.getAttribute('aria-label') || one.labels?.length
            || one.tagName === 'AUDIO' || one.getAttribute('alt') === '')).map((one) => one.outerHTML.slice(0, 80))"""
        assert self.run(nameless) == []


class Reader(Page):
    """The page that reads a capture by itself, at a URL."""

    def __init__(self, driver, url):
        self.driver, self.url = driver, url
        self.loads = Page.loads | {url[:5]}
        driver.get_log("browser")
        driver.get(url)
        self.wait("waiting")

    def wait(self, *states):
        """Waits until it waits for a capture, has read one, or stopped."""
        WebDriverWait(self.driver, HANGS, poll_frequency=0.05).until(lambda _: self.state() in states or self.text("trouble"))
        assert not self.text("trouble"), self.text("trouble")

    def state(self):
        return self.run("return document.documentElement.dataset.ready && document.documentElement.dataset.state"
                        " || (document.documentElement.dataset.state === 'waiting' ? 'waiting' : '')")

    def choose(self, *paths):
        """Gives it files by its button."""
        self.driver.find_element(By.ID, "files").send_keys("\n".join(map(str, paths)))

    def read(self, *paths):
        """Gives it files, and waits until they are read."""
        self.choose(*paths)
        self.wait("done")

    def drop(self, name, data):
        """Drops a file of some bytes on it, and waits until it is read."""
        self.run(
            "const files = new DataTransfer(); const bytes = Uint8Array.from(atob(arguments[1]), (one) => one.charCodeAt(0));"
            "files.items.add(new File([bytes], arguments[0])); document.documentElement.dataset.ready = '';"
            "for (const kind of ['dragover', 'drop']) document.getElementById('drop').dispatchEvent("
            "new DragEvent(kind, {dataTransfer: files, bubbles: true, cancelable: true}))",
            name,
            b64encode(data).decode(),
        )
        self.wait("done")

    def saved(self, folder):
        """The listing, as its button saves it."""
        self.driver.execute_cdp_cmd("Browser.setDownloadBehavior", {"behavior": "allow", "downloadPath": str(folder)})
        size = int(re.search(r"([\d,]+) bytes", self.text("listing-says"))[1].replace(",", ""))
        self.click("listing-save")
        WebDriverWait(self.driver, HANGS).until(lambda _: [it for it in folder.glob("*.link") if it.stat().st_size >= size])
        (path,) = folder.glob("*.link")
        data = path.read_bytes()
        path.unlink()
        return data
