"""The least damage of rows and the rate that is estimated by it: by a search of the tests' own, and against damage that is known."""

import numpy as np
import pytest

from tests.models.model import coded

from vabgrot.judging import places
from vabgrot.lanes import search, visible

pytest.importorskip("scipy", reason="Debian's package python3-scipy is missing")
estimate = pytest.importorskip("vabgrot.lanes.estimate")
WIDTH, ROWS = 320, 400
ACROSS, DOWN = np.arange(WIDTH)[:, None], np.arange(ROWS)[None]


def pictures(random):
    """Bytes of one lane of pictures, a pixel the first axis."""
    waves = 128 + 60 * np.sin(ACROSS / 37 + DOWN / 23) + 40 * np.sin(ACROSS / 11) * np.cos(DOWN / 17)
    return {
        "noise": random.integers(0, 256, (WIDTH, ROWS)),
        "a ramp": np.broadcast_to(ACROSS * 255 // WIDTH, (WIDTH, ROWS)),
        "a photograph": np.clip(waves + random.normal(0, 3, (WIDTH, ROWS)), 0, 255).astype(int),
        "bars": np.broadcast_to(np.array([235, 180, 132, 100, 66, 40, 20, 16])[ACROSS * 8 // WIDTH], (WIDTH, ROWS)),
    }


def test_characters_are_those_of_the_model():
    octets = np.random.default_rng(1).integers(0, 256, (200, 5))
    wanted = np.zeros_like(octets)
    for row in range(5):
        disparity = 0
        for pixel in range(200):
            wanted[pixel, row] = coded(int(octets[pixel, row]), disparity)
            disparity += 2 * int(wanted[pixel, row]).bit_count() - 10
    assert (search.encoded(octets) == wanted).all()


def least(words, is_counted_by_bits):
    """The least damage of a row, by trying each byte at each disparity."""
    costs = {0: 0}
    for word in words:
        new = {}
        for disparity, cost in costs.items():
            for byte in range(256):
                sent = coded(byte, disparity)
                unlike = (sent ^ word).bit_count()
                total = cost + (unlike if is_counted_by_bits else unlike > 0)
                behind = disparity + 2 * sent.bit_count() - 10
                new[behind] = min(new.get(behind, total), total)
        costs = new
    return min(costs.values())


def test_the_automaton_finds_the_least_damage(compare):
    """Of rows with a few wrong bits and of random characters, in both units; the path has as much."""
    random = np.random.default_rng(2)
    sent = search.encoded(random.integers(0, 256, (40, 12)))
    columns = np.hstack([visible.flipped(sent, 0.01, random), visible.flipped(sent, 0.1, random), random.integers(0, 1024, (40, 6))])
    found, cases = search.seen(columns), []
    for row, words in enumerate(columns.T.tolist()):
        cases.append((f"bits of row {row}", int(found.bits[row]), least(words, True)))
        cases.append((f"characters of row {row}", int(found.characters[row]), least(words, False)))
    compare(cases)
    steps = search.steps_of(columns, search.machine("bits").path(columns))
    assert (steps.wrong.sum(axis=0) == found.bits).all()
    assert ((search.BITS[steps.sent ^ columns] == steps.wrong)).all()


@pytest.mark.parametrize("rate", [1e-4, 1e-3, 1e-2])
def test_the_estimate_is_near_the_truth(rate, compare):
    """Its limits hold for nearly all pictures, and the mean of their estimates is within 2 percent."""
    cases, ratios = [], []
    for seed in range(6):
        random = np.random.default_rng(seed)
        for name, octets in pictures(random).items():
            sent = search.encoded(octets)
            came = visible.flipped(sent, rate, random)
            shows = visible.shares_of(visible.likely(came)) >= estimate.LEAST_VISIBLE
            found = estimate.estimate(came)
            limits = estimate.limits_of([found.part], 0.99)
            true = int(search.BITS[(came ^ sent)[:, shows]].sum())
            cases.append((f"{name}, seed {seed}", limits.lower <= true / (10 * found.part.characters) <= limits.upper, True))
            assert found.kind == estimate.Kind.SINGLE and not found.why
            ratios.append(found.part.bits / max(true, 1))
    assert np.mean(ratios) == pytest.approx(1, abs=0.02)
    assert sum(came != wanted for _, came, wanted in cases) <= 1
    compare([("limits that hold", sum(came for _, came, _ in cases) >= len(cases) - 1, True)])


def test_nothing_is_wrong():
    """The upper limit of no wrong bit is that of so many bits, a little higher for what would not be seen."""
    found = estimate.estimate(search.encoded(pictures(np.random.default_rng(1))["a photograph"]))
    limits = estimate.limits_of([found.part], 0.95)
    exact = 1 - 0.025 ** (1 / (10 * WIDTH * ROWS))
    assert (limits.rate, limits.lower) == (0, 0) and exact <= limits.upper < 1.1 * exact


def test_flat_rows_are_not_measured():
    """Of 0x10, black of limited range, most damage does not show."""
    random = np.random.default_rng(3)
    sent = search.encoded(np.full((WIDTH, ROWS), 0x10))
    assert estimate.estimate(visible.flipped(sent, 1e-4, random)).kind == estimate.Kind.NOTHING
    both = search.encoded(np.hstack([np.full((WIDTH, ROWS // 2), 0x10), random.integers(0, 256, (WIDTH, ROWS // 2))]))
    found = estimate.estimate(visible.flipped(both, 1e-4, random))
    assert found.part.characters == pytest.approx(WIDTH * ROWS / 2, rel=0.02)


def test_whole_characters_and_bursts_are_told_apart():
    """Replaced characters are counted as such; those that lie together have no upper limit, nor has a very high rate."""
    random = np.random.default_rng(4)
    sent = search.encoded(pictures(random)["a photograph"])
    came = visible.replaced(sent, 4e-3, random)
    true = int((came != sent).sum())
    found = estimate.estimate(came)
    assert found.kind == estimate.Kind.WHOLE and found.damaged == pytest.approx(true, rel=0.08) and not found.why
    assert sum(search.damage_of(came.T.astype(np.uint16)).bits > 0) == found.seen[1] < 1.2 * true
    burst = sent.copy()
    for row in range(0, ROWS, 5):
        at = int(random.integers(0, WIDTH - 12))
        burst[at : at + 12, row] = random.integers(0, 1024, 12)
    found = estimate.estimate(burst)
    assert found.kind == estimate.Kind.BURSTS and "bursts" in found.why
    assert "hide each other" in estimate.estimate(visible.flipped(sent, 4e-2, random)).why


def test_rows_that_stand_for_others():
    """Clean rows by a weight give what the rows themselves give."""
    random = np.random.default_rng(5)
    sent = search.encoded(random.integers(0, 256, (WIDTH, ROWS)))
    came = sent.copy()
    came[:, :100] = visible.flipped(sent[:, :100], 1e-3, random)
    whole = estimate.estimate(came)
    part = estimate.estimate(came[:, :200], np.append(np.ones(100), np.full(100, 3.0)))
    assert part.part.characters == whole.part.characters and part.seen == whole.seen
    assert part.part.bits == pytest.approx(whole.part.bits, rel=0.03)


def test_numbers_of_rows():
    """A lost row or two leave a gap, and are no new frame."""
    lines = [*range(35, 50), *range(52, 60), *range(61, 70), *range(80, 90)]
    rows = places.rows_of(800 * np.array(lines))
    assert rows.numbers.tolist() == [line - 35 for line in lines[:-10]] + [*range(10)]
    assert rows.frames.tolist() == [0] * (len(lines) - 10) + [1] * 10


def test_what_could_have_been_sent(compare):
    """Of rows with one wrong bit: the character that was sent is among those that fit; if it alone does it is right, and so is the
    disparity behind it. The pixels after a damaged one are right."""
    random, cases, sure = np.random.default_rng(6), [], 0
    sent = search.encoded(random.integers(0, 256, (60, 120)))
    for row in range(120):
        pixel, bit = int(random.integers(0, 50)), int(random.integers(0, 10))
        came = sent[:, row].copy()
        came[pixel] ^= 1 << bit
        found = search.Explained(came.astype(np.uint16))
        if not found.is_damaged:
            continue
        fitting = [found.fitting(at) for at in range(60)]
        cases.append((f"row {row}", int(sent[pixel, row]) in fitting[pixel], True))
        hurt = [at for at in range(60) if int(came[at]) not in fitting[at]]
        cases.append((f"row {row}, pixels that are surely damaged", hurt, [pixel] if hurt else []))
        if len(fitting[pixel]) == 1:
            sure += 1
            behind = 2 * sum(int(word).bit_count() for word in sent[: pixel + 1, row]) - 10 * (pixel + 1)
            cases.append((f"row {row}, behind", (fitting[pixel + 1], found.disparity(pixel + 1)), ([int(came[pixel + 1])], behind)))
    assert sure > 5
    compare(cases)
