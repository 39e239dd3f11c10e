"""Builds what a checkout needs at its first use: the program, the C library, and the page's receiver."""

import os
import shutil
import subprocess
import sys
from pathlib import Path
from typing import Literal

from vabgrot import place

Part = Literal["program", "library", "page"]
NEVER = "VABGROT_NO_BUILD"  # set this variable to forbid building, for example in tests


def how(part: Part) -> str:
    """Says how to get a missing part."""
    if place.IS_INSTALLED:
        return "Install the Debian packages or the wheel of Vabgrot again"
    return f"`./vabgrot build {part}` builds it with the Rattle kit"


def made(part: Part, path: Path) -> bool:
    """Returns whether the file of a part exists. In a checkout with the Rattle kit, `./vabgrot build` builds a missing file. That takes
    minutes; standard error says how many."""
    if not path.is_file() and not place.IS_INSTALLED and NEVER not in os.environ and shutil.which("rt"):
        subprocess.run([place.FRONT, "build", part], stdin=subprocess.DEVNULL, stdout=sys.stderr, check=False)
    return path.is_file()
