"""The documents: links, the length of lines, the table of crates, and the lists that docs/commands.py writes."""

import re
import subprocess

import pytest
from tests.documents.pages import PAGES, name_of
from tests.support import HANGS, TOP, built

WIDTH = 140
MOVED = {  # links to headings that are no longer there
    ("docs/proof/PROVED.md", "../../README.md#the-theorem"),
    ("docs/proof/PROVED.md", "../../README.md#commands"),
    ("docs/dev/DEVELOPING.md", "../guide/TOOLS.md#what-toolsconform-judges"),
}
WORDS = {"K": "0", "L": "0", "P": "0", "V": "0ab", "D": "1", "N": "2", "O": "1", "A": "0", "B": "0", "C": "0", "..": ""}


def anchors(page):
    """The names of links to the headings of a page."""
    heads = re.findall(r"(?m)^#+ (.*)$", page.read_text("utf-8"))
    return {re.sub(r"[^\w\- ]", "", head.lower()).replace(" ", "-") for head in heads}


@pytest.mark.parametrize("page", PAGES, ids=name_of)
def test_links(page):
    for target in re.findall(r"\]\(([^)\s]+)\)", page.read_text("utf-8")):
        file, _, anchor = target.partition("#")
        where = (page.parent / file).resolve() if file else page
        assert where.is_file() and where.is_relative_to(TOP), target
        assert not anchor or anchor in anchors(where) or (name_of(page), target) in MOVED, target


@pytest.mark.parametrize("page", PAGES, ids=name_of)
def test_no_line_is_longer_than_a_screen(page):
    """Except those of tables."""
    lines = enumerate(page.read_text("utf-8").splitlines(), 1)
    assert [at for at, line in lines if len(line) > WIDTH and not line.startswith("|")] == []


def test_the_readme_names_each_document():
    text = (TOP / "README.md").read_text("utf-8")
    assert [name_of(page) for page in PAGES[1:] if f"]({name_of(page)})" not in text] == []


def test_the_table_of_crates():
    """`tests/map.py --crates` prints a row for each crate, in the order of crates.txt, from the head of its root file."""
    crates = re.findall(r"(?m)^(\w+)[^:\n#]*:", (TOP / "crates.txt").read_text("utf-8"))
    came = subprocess.run([TOP / "tests" / "map.py", "--crates"], capture_output=True, text=True, check=True)
    rows = re.findall(r"(?m)^\| `(\w+)` \| (.*) \|$", came.stdout)
    assert [name for name, _ in rows] == [crate for crate in crates if not crate.endswith("_tests")]
    assert [name for name, words in rows if len(words.split()) < 30] == []


def test_the_lists_are_current():
    came = subprocess.run([TOP / "docs" / "commands.py", "--check"], capture_output=True, text=True)
    assert (came.returncode, came.stdout) == (0, "")


def test_the_lists_are_the_programs():
    """The program knows each command and option in the lists, and refuses one operand more."""
    if not built().is_file():
        pytest.skip(f"there is no program {built()}: `./vabgrot` builds it, or VABGROT_PROGRAM names one")
    shown = subprocess.run([TOP / "docs" / "commands.py", "--words"], capture_output=True, text=True, check=True).stdout
    shown = shown.replace("--version V", "--version 1")
    forms = [re.sub(r"(?<!\w)[A-Z](?!\w)|\.\.", lambda found: WORDS[found[0]], form).split() for form in shown.splitlines()]
    assert len(forms) > 14
    for words in forms:
        ran = [subprocess.run([built(), *it], input=b"", capture_output=True, timeout=HANGS).returncode for it in (words, [*words, "more"])]
        assert ran[0] != 2 and ran[1] == 2, words
