"""docs/picture.py: the README's picture shows the page that the tools write today."""

import os
import shutil
import subprocess

import pytest
from PIL import Image

from tests.support import HANGS, TOP, built

TEXT = (TOP / "docs" / "guide" / "report.txt").read_text("utf-8")


def test_the_picture_is_of_this_page(program):
    """The page that the README's commands write says what stands beside the picture; where it does not, docs/picture.py
    makes both anew."""
    pytest.importorskip("selenium.webdriver", reason="Debian's package python3-selenium is missing")
    if not (shutil.which("chromium") and shutil.which("chromedriver")):
        pytest.skip("Debian's packages chromium and chromium-driver are missing")
    env = os.environ | {"VABGROT_PROGRAM": str(built())}
    came = subprocess.run([TOP / "docs" / "picture.py", "--text"], env=env, capture_output=True, text=True, timeout=HANGS)
    assert came.returncode == 0, came.stderr
    assert came.stdout == TEXT, "the page has changed: docs/picture.py makes the README's picture anew"


def test_the_picture_is_of_this_text():
    with Image.open(TOP / "docs" / "guide" / "report.png") as image:
        assert image.info["Description"] == TEXT


def test_the_text_names_what_the_readme_shows():
    """The verdict and the file of the README's commands."""
    assert "damaged.tmc" in TEXT.splitlines() and "480" in TEXT and "hurt.tmc" not in TEXT
