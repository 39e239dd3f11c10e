"""tools/errors: captures whose bits were turned at a known rate, by the tests themselves, are counted within their limits."""

import json
import math
import random

import pytest

from tests.models.source import Source, text

pytest.importorskip("scipy")
SMALL = {"across": (128, 16, 96, 68), "down": (32, 2, 2, 6), "vic": 0, "clock": 25_200_000, "fields": 3}
HEADER = 8  # bytes of a capture of version 1
BLOCK = 4096


def varied(lines, seed=1):
    """The lines of a source, with pixels like those of a photograph."""
    dice = random.Random(seed)
    for name, *fields in lines:
        if name == "v":
            shade = dice.randrange(40, 200)
            octets = [(shade + at // 6 + dice.randrange(6) + 20 * (at % 3)) % 256 for at in range(len(fields[0]) // 2)]
            fields = [bytes(octets).hex()]
        yield name, *fields


@pytest.fixture
def sent(program):
    """A capture of a small source, none of whose rows is flat."""
    return program("make", "link", "--offset", 1237, "--skew", "0,35,70", source=text(varied(Source(**SMALL).lines())))


def turned(capture, lane, bits):
    """A capture with these bits of a lane turned over (docs/guide/FORMATS.md: blocks of 4,096 bytes of each lane)."""
    count = int.from_bytes(capture[4:8], "big")
    length = (count + 7) // 8
    data = bytearray(capture)
    for bit in bits:
        block, place = divmod(bit // 8, BLOCK)
        size = min(BLOCK, length - block * BLOCK)
        data[HEADER + 3 * block * BLOCK + lane * size + place] ^= 1 << bit % 8
    return bytes(data)


def said(tool, path, *words, status=1):
    return json.loads(tool("errors", path, "--json", *words, status=status).stdout)


def test_right(tool, sent, tmp_path):
    """No bit of a right capture is wrong; the upper limit is 1 - 0.025^(1/n), and without a reference a little higher."""
    (tmp_path / "a.tmc").write_bytes(sent)
    for words, most in (((), 1.1), (("--reference", tmp_path / "a.tmc"), 1 + 1e-6)):
        found = said(tool, tmp_path / "a.tmc", *words, status=0)
        assert (found["damaged"], found["wrong_bits"], found["rate"], found["lower"]) == (0, 0, 0, 0)
        assert 1 - 1e-6 < found["upper"] / (1 - 0.025 ** (1 / found["bits"])) < most
        assert found["unread_columns"] == 0 and found["clusters"] == []
    assert "at most 1e-09: not shown by" in tool("errors", tmp_path / "a.tmc", "--at-most", "1e-9", status=1).stdout.decode()
    assert "at most 0.0001: shown" in tool("errors", tmp_path / "a.tmc", "--at-most", "1e-4").stdout.decode()


@pytest.mark.parametrize("seed", range(6))
def test_a_known_rate(tool, sent, tmp_path, seed):
    """With a reference each turned bit is counted, and without one their rate lies within the limits."""
    dice = random.Random(seed)
    count = int.from_bytes(sent[4:8], "big")
    rate = 10 ** dice.uniform(-4.5, -3.7)
    hurt, times = sent, 0
    for lane in range(3):
        bits = [bit for bit in range(3000, count - 300) if dice.random() < rate]
        hurt, times = turned(hurt, lane, bits), times + len(bits)
    (tmp_path / "a.tmc").write_bytes(sent)
    (tmp_path / "b.tmc").write_bytes(hurt)
    found = said(tool, tmp_path / "b.tmc", "--reference", tmp_path / "a.tmc")
    assert found["wrong_bits"] == times
    assert found["lower"] <= times / found["bits"] <= found["upper"]
    found = said(tool, tmp_path / "b.tmc")
    assert found["lower"] <= times / (3 * (count - 3300)) <= found["upper"]
    assert tool("errors", tmp_path / "b.tmc", "--at-most", "1e-9", status=1).stdout.endswith(b"at most 1e-09: the rate is higher\n")


@pytest.mark.parametrize("rate", [1e-3, 3e-3])
@pytest.mark.parametrize("seed", range(4))
def test_a_high_rate(tool, sent, tmp_path, seed, rate):
    """Where damage makes alignments wrong, the rate is nearly that of the bits that were turned: by itself, and with a reference."""
    dice, count = random.Random(seed), int.from_bytes(sent[4:8], "big")
    hurt, times = sent, 0
    for lane in range(3):
        bits = [bit for bit in range(count) if dice.random() < rate]
        hurt, times = turned(hurt, lane, bits), times + len(bits)
    (tmp_path / "sent.tmc").write_bytes(sent)
    (tmp_path / "hurt.tmc").write_bytes(hurt)
    found = [said(tool, tmp_path / "hurt.tmc"), said(tool, tmp_path / "hurt.tmc", "--reference", tmp_path / "sent.tmc")]
    assert [it["rate"] for it in found] == [pytest.approx(times / (3 * count), rel=0.15)] * 2
    assert min(it["bits"] for it in found) > count


def test_where_it_lies(tool, sent, tmp_path):
    """One bit of each kind of column is found in it, on its lane, by what is known alone."""
    (tmp_path / "a.tmc").write_bytes(sent)
    columns = said(tool, tmp_path / "a.tmc", status=0)["table"]
    assert {row["kind"]: row["characters"] for row in columns if row["lane"] == 0}["video"] == 3 * 32 * 128


def test_a_bad_lane(tool, sent, tmp_path):
    """Where all damage is on one lane it is said."""
    dice = random.Random(7)
    count = int.from_bytes(sent[4:8], "big")
    (tmp_path / "a.tmc").write_bytes(turned(sent, 2, dice.sample(range(3000, count - 300), 40)))
    found = said(tool, tmp_path / "a.tmc")
    assert any(line.startswith("closer than chance: lane 2 has") for line in found["clusters"])
    assert {row["lane"] for row in found["table"] if row["damaged"]} == {2}


def test_a_burst(tool, sent, tmp_path):
    """Ten bits of each lane within a hundred columns, and nothing else."""
    hurt = sent
    for lane in range(3):
        hurt = turned(hurt, lane, [100_000 + 97 * step for step in range(10)])
    (tmp_path / "a.tmc").write_bytes(sent)
    (tmp_path / "b.tmc").write_bytes(hurt)
    found = said(tool, tmp_path / "b.tmc", "--reference", tmp_path / "a.tmc")
    assert found["wrong_bits"] == 30 and any("lie within 64 columns" in line for line in found["clusters"])


def test_a_slip_is_no_bit_error(tool, program, sent, tmp_path):
    """Three lost bits of a lane: each epoch is counted by its own alignment, and what was read before the slip was noticed is not."""
    (tmp_path / "a.tmc").write_bytes(program("slip", "1:200000:3", source=sent))
    found = said(tool, tmp_path / "a.tmc")
    assert (found["wrong_bits"], found["rate"]) == (0, 0) and found["notes"][0].startswith("slip: lane 1, before bit 200,")
    assert found["bits"] > 2.9 * int.from_bytes(sent[4:8], "big")


def test_limits():
    """Those of Clopper and Pearson, by their definition: at each of them the tail of the binomial distribution has a half."""
    from vabgrot.judging.statistics import limits_of

    def below(times, of, share):
        return sum(math.comb(of, k) * share**k * (1 - share) ** (of - k) for k in range(times + 1))

    for wrong, of in ((1, 50), (7, 200), (60, 200)):
        limits = limits_of(wrong, of, 0.9)
        assert below(wrong, of, limits.upper) == pytest.approx(0.05, rel=1e-6)
        assert 1 - below(wrong - 1, of, limits.lower) == pytest.approx(0.05, rel=1e-6)


def test_refusals(tool, sent, tmp_path):
    """Another stream as a reference, and words that are wrong."""
    (tmp_path / "a.tmc").write_bytes(sent)
    (tmp_path / "b.tmc").write_bytes(b"TMC1")
    tool("errors", tmp_path / "a.tmc", "--at-most", "2", status=2)
    tool("errors", tmp_path / "b.tmc", status=3)
    tool("errors", tmp_path / "a.tmc", "--reference", tmp_path / "b.tmc", status=3)


@pytest.fixture
def whole(program):
    """The same source from its first bit on."""
    return program("make", "link", source=text(varied(Source(**SMALL).lines())))


def pixels():
    """The first bit of each pixel."""
    (active, front, sync, back), (rows, below, vertical, above) = SMALL["across"], SMALL["down"]
    for line in range(SMALL["fields"] * (rows + below + vertical + above)):
        if vertical + above <= line % (rows + below + vertical + above) < vertical + above + rows:
            first = line * (active + front + sync + back) + sync + back
            yield from range(10 * first, 10 * (first + active), 10)


def test_a_flat_picture(tool, program, tmp_path):
    """Of limited-range black most damage does not show: there is no upper limit, and no rate is shown to be low."""
    flat = program("make", "link", source=text(Source(**SMALL, pixel="101010").lines()))
    (tmp_path / "a.tmc").write_bytes(flat)
    found = said(tool, tmp_path / "a.tmc", status=0)
    assert found["upper"] is None and found["rate"] == 0 and found["why"].startswith("only 0% of the pixels stand in rows")
    shown = tool("errors", tmp_path / "a.tmc", "--at-most", "0.1", status=1).stdout.decode()
    assert "at least 0.00e+00, without an upper limit: only 0% of the pixels" in shown
    assert shown.endswith("at most 0.1: not shown: only 0% of the pixels stand in rows in which most damage shows\n")


def test_at_most_is_answered_by_the_corrected_limit(tool, whole, tmp_path):
    """A rate below the truth is never shown, one that is well above it is."""
    dice, hurt, times = random.Random(3), whole, 0
    for lane in range(3):
        bits = [first + bit for first in pixels() for bit in range(10) if dice.random() < 8e-3]
        hurt, times = turned(hurt, lane, bits), times + len(bits)
    found = said(tool, write(tmp_path / "a.tmc", hurt))
    true = times / found["bits"]
    assert found["wrong_bits"] < 0.95 * times and found["lower"] <= true <= found["upper"] and not found["why"]
    shown = tool("errors", tmp_path / "a.tmc", "--at-most", f"{0.99 * true:g}", status=1).stdout.decode()
    assert "are seen to be wrong: about" in shown and ": shown" not in shown
    assert tool("errors", tmp_path / "a.tmc", "--at-most", f"{1.2 * true:g}").stdout.endswith(b": shown\n")


def test_characters_that_are_replaced(tool, whole, tmp_path):
    """They are counted as characters, not as twice as many."""
    dice, hurt, times = random.Random(4), whole, 0
    for lane in range(3):
        for first in dice.sample([*pixels()], 160):
            hurt = turned(hurt, lane, [first + bit for bit in range(10) if dice.random() < 0.5])
            times += 1
    path = write(tmp_path / "a.tmc", hurt)
    found = said(tool, path)
    counts = [row["damaged"] for row in found["table"] if row["kind"] == "video"]
    assert 0.8 * times < sum(counts) < 1.02 * times and found["damaged"] == sum(counts)
    assert [it["kind"] for it in found["video"]] == ["whole characters"] * 3
    assert tool("errors", path, status=1).stdout.decode().count(", video: whole characters, about ") == 3


def write(path, data):
    path.write_bytes(data)
    return path
