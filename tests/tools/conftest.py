"""What the tests of the tools share as fixtures: a browser, the page of a capture in it, and the page that reads by itself."""

import subprocess

import pytest

from tests.support import TOP
from vabgrot.report import whole


@pytest.fixture(scope="session")
def receiver():
    """Without the module that page/build makes the tests are skipped."""
    if not (whole.FOLDER / whole.MODULE).is_file():
        pytest.skip(f"there is no page/{whole.MODULE}: page/build makes it")


@pytest.fixture(scope="module")
def served(receiver):
    """The URL of the page as tools/page serves it."""
    with subprocess.Popen([TOP / "tools" / "page"], stdout=subprocess.PIPE, text=True) as process:
        yield process.stdout.readline().strip()
        process.terminate()


@pytest.fixture
def receives(hearing):
    """Skips a test of a tool that has no C library."""
    if hearing:
        pytest.skip(hearing)


@pytest.fixture(scope="module")
def driver():
    from tests.tools.pages import opened

    found = opened()
    yield found
    found.quit()


@pytest.fixture
def report(tool, program, driver, tmp_path):
    """The page of a capture: of the status that is wanted, and made with these words more."""
    from tests.tools.pages import Page

    def show(capture, status=0, *words):
        (tmp_path / "a.tmc").write_bytes(capture)
        page = tmp_path / "a.html"
        tool("report", tmp_path / "a.tmc", "-o", page, *words, status=status)
        shown = Page(driver, page)
        shown.check()
        return shown

    return show
