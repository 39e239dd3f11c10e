"""What the library reports of a capture is what the program's listing says: the parser's events are the library's."""

import io
import json
import random

import pytest

from tests.library.test_python import captures
from tests.support import TOP, run
from vabgrot import listing, reading, verdict
from vabgrot.events import UNTOLD, joined
from vabgrot.tools import conform, report, survey

DVI = b"c 00 12\nv ff0000\nc 00 12\nv 00ff00112233\nc 02 20\nv 010203\nc 00 12\nend\n"
BARS = TOP / "examples" / "bars.content"


def further(executable):
    """The name and the bytes of captures that slip, are cut, are skewed, or carry nothing."""
    bars = run(executable, ["make", "content"], BARS.read_bytes())[1]
    slipped = run(executable, ["slip", "1:20000:3"], bars)[1]
    yield "slipped", slipped
    yield "slipped again", run(executable, ["slip", "0:31000:7"], run(executable, ["slip", "2:9000:1"], slipped)[1])[1]
    yield "cut", run(executable, ["make", "content", "--bits", "29999"], BARS.read_bytes())[1]
    yield "skewed bars", run(executable, ["make", "content", "--offset", "9", "--skew", "70,0,35", "--version", "2"], BARS.read_bytes())[1]
    yield "noise", b"TMC1" + (240_000).to_bytes(4, "big") + random.Random(3).randbytes(90_000)
    yield "empty", b"TMC1\0\0\0\0"


@pytest.fixture(autouse=True)
def found(library, monkeypatch):
    """The library that was built for these tests is the one that is found."""
    monkeypatch.setenv("VABGROT_LIBRARY", str(library / "libvabgrot.so.1"))


class Keeping:
    """Keeps all events with their pixels."""

    def __init__(self):
        self.parts = []

    def take(self, events):
        self.parts.append(events)


def differences(executable, path, is_dvi):
    """The names of the arrays in which the library's events and those of the listing differ; of columns where the listing says them."""
    kept = []

    def taking(_):
        kept[:] = [Keeping()]
        return kept[0]

    read = reading.read(path, is_dvi, taking)
    mine = joined([part for part in kept[0].parts if len(part)])
    text = run(executable, read.command, path.read_bytes())[1]
    its = listing.parsed(listing.lines(io.BytesIO(text), listing.LINK) if text else [], is_dvi)
    if len(mine) != len(its):
        return ["count"]
    told = its.first != UNTOLD
    pairs = [(name, getattr(mine, name), getattr(its, name)) for name in ("kind", "epoch", "width", "value", "second", "size")]
    pairs += [("first", mine.first[told], its.first[told]), ("data", [it.data for it in mine], [it.data for it in its])]
    return [name for name, one, other in pairs if [*one] != [*other]]


def test_the_parser_gives_the_events_of_the_library(executable, tmp_path, compare):
    def cases():
        path = tmp_path / "a.tmc"
        for name, data in (*captures(executable), *further(executable)):
            path.write_bytes(data)
            yield name, differences(executable, path, False), []
        path.write_bytes(run(executable, ["make", "dvi"], DVI)[1])
        yield "DVI", differences(executable, path, True), []

    compare(cases())


def hurt(executable, number):
    """A capture of the example or of a source that breaks a rule, damaged in a manner of its own."""
    rng = random.Random(f"verdict {number}")
    mode, _, frames = BARS.read_text().partition("\n")
    text = f"{mode}\n" + frames.removesuffix("end\n") * 4 + "end\n"
    if rng.random() < 0.4:
        left_out = rng.choice(("audio", "acr"))
        text = "".join(f"{line}\n" for line in text.splitlines() if not line.startswith(left_out))
    capture = run(executable, ["make", "content", "--skew", "3,0,17", "--version", "2"], text.encode())[1]
    bits = len(capture) * 8 // 3 - 400
    if rng.random() < 0.3:
        capture = run(executable, ["slip", f"{rng.randrange(3)}:{rng.randrange(bits)}:{rng.randrange(1, 10)}"], capture)[1]
    hits = [f"{rng.randrange(3)}:{10 * rng.randrange(bits // 10)}:{rng.randrange(1024):03x}" for _ in range(rng.choice((0, 0, 1, 5, 60)))]
    capture = run(executable, ["damage", *hits], capture)[1] if hits else capture
    assert len(capture) > 60_000, number
    return capture[: rng.randrange(20_000, len(capture))] if rng.random() < 0.2 else capture


def verdicts_of(path, capsys):
    """What conform, report and survey say of a capture: word, headline and status."""
    capsys.readouterr()
    for tool, words in ((conform, [path, "--json"]), (report, [path, "--json"])):
        status = tool.main([*map(str, words)])
        said = json.loads(capsys.readouterr().out)
        yield said["verdict"]["word"].lower(), said["verdict"]["headline"], status, said["verdict"]
    row = survey.row_of(str(path), survey.Asked())
    yield row["verdict"], row["note"], int(row["verdict"] != "clean"), verdict.judge(path).plain()


@pytest.mark.parametrize("first, count", [(0, 40), pytest.param(40, 160, marks=pytest.mark.slow)])
def test_no_two_tools_disagree(executable, tmp_path, compare, capsys, first, count):
    """Over generated captures, damaged, slipped and cut ones too."""

    def cases():
        path = tmp_path / "a.tmc"
        for number in range(first, first + count):
            path.write_bytes(hurt(executable, number))
            one, other, third = verdicts_of(path, capsys)
            yield f"capture {number}: report", other, one
            yield f"capture {number}: survey", third, one

    compare(cases())
