"""The page and tools/report have one verdict: the same word, by one table. The page judges no rules, so it says `Link clean` where only
rules could be broken, and `Link faulty` where a broken rule explains all faults."""

import json
import lzma
import random
import re

import pytest

from tests.models import timed
from tests.models.enciphered import Link
from tests.support import TOP, ran
from tests.tools.test_page import FRAME, frames_of, hits
from vabgrot.verdict import CUT_OFF, LINK_CLEAN, Word

pages = pytest.importorskip("tests.tools.pages")

CAPTURES = TOP / "examples/captures"
SMALL = timed.Sent((64, 16, 24, 40), (20, 2, 3, 5), vic=0)


def listed(**words):
    """A link listing of fields of a small raster, with an AVI InfoFrame each."""
    return timed.text(timed.Sent(SMALL.across, SMALL.down, **words).lines(4))


def captures(program):
    """Each capture with its name and the word that is meant; None where the report alone judges it."""
    content = program("make", "content", source=frames_of(random.Random(1), 4))
    yield "content", content, None
    yield "damaged", program("damage", *hits(), source=content), Word.LINK
    yield "slipped", program("slip", f"1:{8 * FRAME}:3", source=content), Word.LINK
    yield "cut off", content[: len(content) * 7 // 10], None
    wrong = re.sub(rb"(?m)^p 82020d ..", b"p 82020d 00", listed(vic=0))
    yield "a wrong checksum", program("make", "link", source=wrong), Word.SOURCE
    yield "another size", program("make", "link", source=listed(vic=16)), Word.SOURCE
    yield "a small raster", program("make", "link", source=listed(vic=0)), None
    yield "EESS", Link("EESS").capture(), Word.ENCRYPTED
    yield "OESS", Link("OESS", islands=False).capture(), Word.ENCRYPTED
    yield "EESS, damaged", Link("EESS", seed=3).capture(1e-4, 3), Word.ENCRYPTED
    yield "no bits", b"TMC1\0\0\0\0", Word.UNALIGNED
    yield "zeros", b"TMC1\0\0\x80\0" + bytes(3 * 4096), Word.UNALIGNED
    for path in sorted(CAPTURES.glob("*.tmc")):
        yield path.name, path.read_bytes(), None
    for path in sorted(CAPTURES.glob("*.tmc.xz")):
        yield path.name, lzma.decompress(path.read_bytes()), None


def test_one_verdict(driver, served, hearing, program, tmp_path, compare):
    """The words are the same, and that a capture is cut off is said by both."""
    if hearing:
        pytest.skip(hearing)
    path = tmp_path / "a.tmc"

    def cases():
        for name, made, meant in captures(program):
            path.write_bytes(made)
            verdict = json.loads(ran([TOP / "tools/report", path, "--json"], b"").stdout)["verdict"]
            page = pages.Reader(driver, served)
            page.read(path)
            word, says = page.text("word"), page.text("says")
            by_rules = verdict["word"] == Word.SOURCE and verdict["broken"]
            allowed = {verdict["word"]}
            if verdict["word"] == Word.CLEAN or by_rules:
                allowed = {Word.LINK if verdict["link"]["faults"] else LINK_CLEAN} | (
                    {Word.SOURCE} if by_rules and verdict["contents"] else set()
                )
            yield f"{name}: {says}, {verdict['headline']}", word if word not in allowed else verdict["word"], verdict["word"]
            if meant:
                yield f"{name} as it is meant", word, meant
            yield f"{name} is cut off", CUT_OFF in says, verdict["coverage"]["cut_off"]
            page.check()

    compare(cases())
