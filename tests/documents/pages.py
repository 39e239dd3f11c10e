"""The documents, help texts and headers that people read, and the sentences in them."""

import re
import subprocess
from pathlib import Path

from tests.support import TOP

PAGES = [TOP / "README.md", TOP / "CONTRIBUTING.md", TOP / "CHANGELOG.md", *sorted((TOP / "docs").rglob("*.md"))]
FEWEST = 4  # words of a sentence; fewer are a label
CODE = re.compile(r"(?ms)^ *```.*?^ *```\s*$")
NOT_PROSE = re.compile(r"(?m)^\s*(\||#|<!--|!\[).*$")  # tables, headings, comments, pictures
ITEM = re.compile(r"(?m)^\s*([-*]|\d+\.) ")
END = re.compile(r"(?<=[.!?:;])\s+(?=[A-Z0-9`x*\"'(])")


def name_of(page: Path) -> str:
    return str(page.relative_to(TOP))


def words_of(text: str) -> int:
    """The words of a whole page, as `wc -w` counts them."""
    return len(text.split())


def prose(text: str) -> str:
    """A Markdown text without code, tables and headings. Each item of a list is a paragraph."""
    return ITEM.sub("\n\n", NOT_PROSE.sub("\n", CODE.sub("\n\n", text)))


def comments(text: str) -> str:
    """The comments of a C header without lines of code and rows of tables, which have columns or end like C."""
    found = re.findall(r"(?s)/\*(.*?)\*/", text)
    plain = (re.sub(r"(?m)^\s*\*+ ?", "", it) for it in found)
    return "\n\n".join(re.sub(r"(?m)^.*(\S {2,}\S.*|[;{}])$", "\n", it) for it in plain)


def help_of(tool: str) -> str:
    """The texts of a tool's help: what it does and its statuses, without usage, options and examples."""
    ran = subprocess.run([TOP / "tools" / tool, "--help"], capture_output=True, text=True, check=True)
    text = ran.stdout.partition("\nExamples")[0].partition("\n\n")[2]
    text = re.sub(r"(?ms)^(positional arguments|options):\n.*?\n\n(?=\S)", "", text)
    return re.sub(r"(?m)^  (?=\S)", "\n", text)


def help_of_the_front() -> str:
    """The help of ./vabgrot, each command and status as a paragraph."""
    ran = subprocess.run([TOP / "vabgrot", "help"], capture_output=True, text=True, check=True)
    return re.sub(r"(?m)^  (?=\S)", "\n", ran.stdout.partition("--version\n")[2])


def sentences(text: str) -> list[list[str]]:
    """The words of each sentence of a text. Code within a sentence is one word."""
    found = []
    for part in re.split(r"\n\s*\n", text):
        part = re.sub(r"`[^`]*`", "x", part)
        part = re.sub(r"\[([^]]*)\]\([^)]*\)", r"\1", " ".join(part.split()))
        found += [it.split() for it in END.split(part)]
    return [it for it in found if len(it) >= FEWEST]
