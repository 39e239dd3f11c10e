"""Finds where the package is installed, how commands and files are called there, and its version.

The package can be in a checkout, below the prefix of `./vabgrot install`, with Debian's Python packages, or in a wheel. A wheel contains
a complete prefix inside the package."""

import argparse
import re
import subprocess
from collections.abc import Sequence
from pathlib import Path
from typing import Any

from vabgrot import __version__, tools

PACKAGE = Path(__file__).resolve().parent
PLACES = (PACKAGE.parents[1], PACKAGE / "prefix/lib/vabgrot", PACKAGE.parents[2] / "vabgrot")  # the last one is Debian's


def top_of(places: Sequence[Path]) -> Path:
    """Returns the top of a checkout, or PREFIX/lib/vabgrot: the first place with their files."""
    return next((it for it in places if (it / "build.py").is_file() or (it / "version").is_file()), places[0])


TOP = top_of(PLACES)
PREFIX = TOP.parent.parent  # where it is installed
IS_INSTALLED = not (TOP / "build.py").is_file()
PROGRAM = TOP / "vabgrot" if IS_INSTALLED else TOP / "crates" / "hdmi_cli" / "out" / "hdmi_cli"
FRONT = PREFIX / "bin" / "vabgrot" if IS_INSTALLED else TOP / "vabgrot"  # the front script
VERSION = TOP / "version"  # where it is installed
DOCUMENTS = PREFIX / "share" / "doc" / "vabgrot"
FILE = re.compile(r"(?<![\w./])(docs|examples)/(?=\w)")
TOOL = re.compile(rf"(?<![\w./])tools/(?=({'|'.join(tools.NAMES)})\b)")


def named(text: str, has_files: bool = False) -> str:
    """Replaces the names of commands in a checkout (`./vabgrot`, `tools/NAME`) by the installed ones. With `has_files` it does the same
    for files in docs/ and examples/. Set this only if the text has no other files with such names."""
    if not IS_INSTALLED:
        return text
    if has_files:
        text = FILE.sub(lambda found: f"{DOCUMENTS / found[1]}/", text)
    return TOOL.sub("vabgrot-", text.replace("./vabgrot", "vabgrot"))


def version() -> str:
    """Returns a line with the version and the kit that built the program. Raises OSError or subprocess.CalledProcessError."""
    if not IS_INSTALLED:
        return subprocess.run([FRONT, "--version"], capture_output=True, text=True, check=True).stdout
    if VERSION.is_file():
        return VERSION.read_text("utf-8")
    return f"vabgrot {__version__}\n"  # installed by a Python installer, without the program


class Version(argparse._VersionAction):
    """The option `--version` of each tool."""

    def __init__(self, option_strings: Sequence[str], dest: str) -> None:
        text = "print the version of Vabgrot and the kit that built its program, then exit"
        super().__init__(option_strings, "", help=text)

    def __call__(self, parser: argparse.ArgumentParser, *_: Any) -> None:
        try:
            print(version(), end="")
        except (OSError, subprocess.CalledProcessError) as why:
            parser.exit(1, f"{parser.prog}: {why}\n")
        parser.exit()
