"""Documents, help texts and the C header are short, and so are their sentences."""

from collections.abc import Callable, Iterator

import pytest
from tests.documents.pages import PAGES, comments, help_of, help_of_the_front, name_of, prose, sentences, words_of
from tests.support import TOP

LONGEST, MEAN = 45, 20  # words of a sentence
LIMITS = {  # words of a document
    "README.md": 1_100,
    "docs/proof/PROVED.md": 4_200,
    "docs/guide/FORMATS.md": 5_500,
    "docs/guide/TOOLS.md": 3_900,
    "docs/guide/LIBRARY.md": 2_400,
    "docs/dev/DECISIONS.md": 1_900,
    "docs/measured/BENCH.md": 1_200,
    "docs/measured/HOSTILE.md": 1_200,
    "docs/dev/ARCHITECTURE.md": 2_400,
    "docs/dev/DEVELOPING.md": 2_400,
}
TOOLS = sorted(path.name for path in (TOP / "tools").iterdir() if path.is_file() and not path.suffix)


def texts() -> Iterator[tuple[str, Callable[[], str]]]:
    """The name and the prose of each text."""
    for page in PAGES:
        yield name_of(page), lambda page=page: prose(page.read_text("utf-8"))
    for tool in TOOLS:
        yield f"tools/{tool} --help", lambda tool=tool: help_of(tool)
    yield "./vabgrot help", help_of_the_front
    yield "library/vabgrot.h", lambda: comments((TOP / "library" / "vabgrot.h").read_text("utf-8"))


TEXTS = dict(texts())


@pytest.mark.parametrize("name", TEXTS)
def test_no_sentence_is_long(name: str) -> None:
    found = [" ".join(words) for words in sentences(TEXTS[name]()) if len(words) > LONGEST]
    assert not found, "\n".join(found)


@pytest.mark.parametrize("name", TEXTS)
def test_sentences_are_short_on_the_average(name: str) -> None:
    counts = [len(words) for words in sentences(TEXTS[name]())]
    assert counts and sum(counts) <= MEAN * len(counts), f"{sum(counts) / len(counts):.1f} words a sentence"


@pytest.mark.parametrize("name", LIMITS)
def test_documents_are_short(name: str) -> None:
    assert words_of((TOP / name).read_text("utf-8")) <= LIMITS[name]
