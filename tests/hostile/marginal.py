"""Captures of marginal cables for `recover relock`: random wrong bits, bursts, lanes that lose whole characters, sources that change and
lanes that are dead for a while, each compared with the model; and how many of the rows that came undamaged are listed."""

import collections
import itertools
import random
from collections.abc import Iterator

from tests.hostile.bursts import Case, Stream, Tap, control, line, random_stream
from tests.models import hearing, model, relocking
from tests.support import FURTHER, READERS, built, run

RATES = (3e-3, 1e-3, 3e-4, 1e-4)
TURNED = str.maketrans("01", "10")
WIDTH, ROWS = 640, 60


def with_errors(rng: random.Random, bits: str, rate: float) -> str:
    """Bits of which each is wrong with a probability."""
    parts, at = [], 0
    while True:
        wrong = at + int(rng.expovariate(rate))
        if wrong >= len(bits):
            return "".join([*parts, bits[at:]])
        parts += [bits[at:wrong], bits[wrong].translate(TURNED)]
        at = wrong + 1


def sent(rng: random.Random, many: int = 1) -> list[str]:
    """The bits of the lanes of random streams one after another, each with skews of its own."""
    lanes = ["", "", ""]
    for _ in range(many):
        stream = random_stream(rng)
        tap = Tap(2, 0, tuple(rng.choice((0, 35, 70, rng.randrange(71))) for _ in range(3)), (0, 0, 0))
        lanes = [bits + more for bits, more in zip(lanes, tap.lanes(stream.received))]
    return lanes


def errors(rng: random.Random) -> list[str]:
    rate = rng.choice(RATES)
    return [with_errors(rng, bits, rate) for bits in sent(rng, 3)]


def noise(rng: random.Random) -> list[str]:
    """All lanes are random for a while."""
    lanes = sent(rng, 3)
    for _ in range(rng.randrange(1, 4)):
        place, length = rng.randrange(len(lanes[0])), rng.choice((10, 100, 1000))
        lanes = [bits[:place] + "".join(rng.choices("01", k=length)) + bits[place + length :] for bits in lanes]
    return lanes


def characters(rng: random.Random) -> list[str]:
    """Lanes lose some bits, or whole characters."""
    lanes = sent(rng, 3)
    for _ in range(rng.randrange(1, 4)):
        lane = rng.randrange(3)
        place, drop = rng.randrange(len(lanes[lane])), rng.choice((1, 3, 9, 10, 10, 20, 70))
        lanes = model.slipped(lanes, lane, place, drop)
    return [with_errors(rng, bits, 3e-4) for bits in lanes]


def one_character(rng: random.Random) -> list[str]:
    """A lane loses one whole character or has one twice, so that by the old skew something mostly opens too."""
    lanes = sent(rng, 3)
    for _ in range(rng.randrange(1, 4)):
        lane = rng.randrange(3)
        lanes = model.slipped(lanes, lane, rng.randrange(10, len(lanes[lane])), rng.choice((10, -10)))
    return [with_errors(rng, bits, 1e-4) for bits in lanes]


def modes(rng: random.Random) -> list[str]:
    """Sources one after another, in other phases or in the same."""
    return sent(rng, rng.randrange(2, 6))


def dead(rng: random.Random) -> list[str]:
    """A lane is low, high or random for a while, and the lanes may end apart."""
    lanes = sent(rng, 4)
    lane = rng.randrange(3)
    place, length = rng.randrange(len(lanes[lane])), rng.randrange(3000)
    gap = rng.choice(("0" * length, "1" * length, "".join(rng.choices("01", k=length))))
    lanes[lane] = lanes[lane][:place] + gap + lanes[lane][place + length :]
    return [bits[: len(bits) - rng.choice((0, 0, rng.randrange(200)))] for bits in lanes]


def marginal(program: str, seed: int, count: int) -> Iterator[Case]:
    """What is listed of each kind is what the model lists."""
    counted: collections.Counter[tuple[str, str]] = collections.Counter()
    for kind, case in itertools.product((errors, noise, characters, one_character, modes, dead), range(count)):
        name = f"{kind.__name__} {case} of seed {seed}"
        lanes = kind(random.Random(name))
        epochs = [*relocking.epochs(lanes)]
        counted.update((kind.__name__, line.split()[1].decode() if line else "unconfirmed") for _, _, line in epochs[:-1])
        came = run(program, FURTHER[4], model.capture_of(2, lanes))[:2]
        yield f"recover relock of {name}", came, relocking.relocked(lanes, hearing.link_of)
        came = run(program, FURTHER[5], model.capture_of(2, lanes))[:2]
        yield f"recover content relock of {name}", came, relocking.relocked_content(lanes)
    print(f"how epochs end: {dict(counted)}")


COMMANDS = READERS[0], FURTHER[0], FURTHER[4]


def rows_listed(program: str, name: str, rate: float, lost: int = 0) -> tuple[int, list[int]]:
    """Of a capture with wrong bits at a rate, a lane of which loses some bits once (below 0: has as many twice), how many of its rows came
    undamaged, and how many of these each command lists as they were sent. A row is undamaged where its characters, its guards and the
    twenty control characters before it are."""
    rng = random.Random(name)
    stream = Stream()
    for _ in range(ROWS):
        stream.add(control(0, 160, "video"), line(rng, rng.choice((16, 40, WIDTH))))
    stream.add(control(0, 60))
    tap = Tap(2, rng.randrange(10), tuple(rng.randrange(71 - abs(lost)) for _ in range(3)), (0, 0, 0))
    lanes = tap.lanes(stream.received)
    hurt = [with_errors(rng, bits, rate) for bits in lanes] if rate else lanes
    lane, place = (rng.randrange(3), max(-lost, rng.randrange(len(lanes[0])))) if lost else (0, 0)
    clean: collections.Counter[bytes] = collections.Counter()
    for it, first in zip(stream.periods[1::2], stream.firsts[1::2]):
        begins = [10 * (first - 20) - tap.offset - skew for skew in tap.skews]
        ends = [10 * (first + len(it.columns) + 1) - tap.offset - skew for skew in tap.skews]
        is_torn = lost and begins[lane] < place + lost and place < ends[lane]
        if not is_torn and all(old[a:b] == new[a:b] for old, new, a, b in zip(lanes, hurt, begins, ends)):
            clean[it.lines[0]] += 1
    data = model.capture_of(2, model.slipped(hurt, lane, place, lost) if lost else hurt)
    listed = [collections.Counter(run(program, words, data)[1].splitlines()) for words in COMMANDS]
    return clean.total(), [sum(min(many, lines[text]) for text, many in clean.items()) for lines in listed]


def rows_kept(program: str, seed: int, _: int) -> Iterator[Case]:
    """At one wrong bit in a thousand at least 99 in 100 of the rows that came undamaged are listed, as they were sent."""
    found = [rows_listed(program, f"rows {seed} {case}", 1e-3) for case in range(40)]
    whole, kept = sum(clean for clean, _ in found), sum(listed[2] for _, listed in found)
    yield "rows that came undamaged", whole > 300, True
    yield "those that are listed", kept >= 0.99 * whole, True


def rows_found(program: str, seed: int, _: int) -> Iterator[Case]:
    """Where a lane lost a whole character, or has one twice, something opens by the old alignment too: of the rows that came undamaged one
    a capture at most is not listed, that of the first control period behind it; `recover track` misses most behind it."""
    for lost in (10, -10):
        found = [rows_listed(program, f"characters {seed} {lost} {case}", 0, lost) for case in range(10)]
        whole, old = sum(clean for clean, _ in found), sum(listed[1] for _, listed in found)
        yield f"rows after {lost} lost bits", [listed[2] for clean, listed in found if listed[2] < clean - 1], []
        yield "those that are listed by the old alignment", old < 0.8 * whole, True


def main() -> None:
    """Prints how many rows in a hundred that came undamaged each command lists, at some rates of wrong bits, and where a lane loses some
    bits once, or has some twice."""
    program = built()
    for rate, lost in ((3e-3, 0), (1e-3, 0), (3e-4, 0), (1e-4, 0), (1e-5, 0), (0, 3), (0, 10), (0, -10), (0, 20), (0, 30), (0, 70)):
        found = [rows_listed(program, f"rates {rate} {case}", rate, lost) for case in range(60)]
        whole, sums = sum(clean for clean, _ in found), [sum(counts) for counts in zip(*(listed for _, listed in found))]
        nothing = [sum(clean > 0 and listed[at] == 0 for clean, listed in found) for at in range(len(COMMANDS))]
        said = (
            f"{' '.join(words)}: {100 * kept / whole:.2f} ({none} of 60 captures without any)"
            for words, kept, none in zip(COMMANDS, sums, nothing)
        )
        print(rate, lost, whole, *said, sep="; ")


TABLES = (marginal, rows_kept, rows_found)


if __name__ == "__main__":
    main()
