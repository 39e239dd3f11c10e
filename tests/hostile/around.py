"""A table of what `recover relock` promises after one control period that came whole, by random captures with any characters around it.

    around      any bits come first on each lane, and any columns of the stream are damaged, but for the control period that came
                whole. Each line and island that stands alone after it has its row

The premises on what is received after it are made true: no character near the end of a control period is received as a control or guard
character that it was not, and captures one lane of which has a stray are passed over."""

import collections
import itertools
import random
from collections.abc import Iterator

from tests.hostile.bursts import KINDS, Case, Column, Found, Stream, alone, amount, burst, other_column, row_of
from tests.hostile.whole import EARLY, LANES, LATE, captured, moved, stream_of
from tests.models import feeding, hearing, model, relocking
from tests.models.model import is_control
from tests.models.tables import CONTROL, ISLAND_GUARD, TERC4, VIDEO_GUARD
from tests.support import FURTHER, run

GUARDS = {*VIDEO_GUARD, ISLAND_GUARD, *TERC4[12:]}
BEFORE, BEHIND = 14, 3  # columns around the last one of a control period in which no character may be mistaken


def hurt(rng: random.Random, stream: Stream) -> None:
    """Damaged characters and bursts anywhere."""
    size, rate = len(stream.received), rng.choice((0, 0.02, 0.1, 0.4))
    for at in range(size):
        if rng.random() < rate:
            stream.replace(at, [other_column(rng)], (rng.choice(LANES),))
    for _ in range(rng.choice((0, 1, 2, 4, 8))):
        place, length = rng.randrange(size), rng.choice((1, 2, 3, 12, 40, 200, rng.randrange(1, 60)))
        columns = burst(rng, rng.choice(KINDS), length)
        if rng.random() < 0.5:
            columns = [*itertools.chain(*(feeding.piece(rng) for _ in range(rng.randrange(1, 5))))]
        stream.replace(place, columns, rng.choice(((0,), (1,), (2,), (0, 1), (0, 2), (1, 2), *[LANES] * 4)))


def is_mistaken(sent: int, received: int) -> bool:
    """Whether a character was received as a control character that it was not, or a control character as a guard character."""
    return (received in CONTROL and sent not in CONTROL) or (sent in CONTROL and received in GUARDS)


def mistaken(sent: list[Column], received: list[Column], start: int) -> list[int]:
    """The columns with such a character near the end of a control period, as it was received, from a column on."""
    ends = (at for at in range(start, len(received) - 1) if is_control(received[at]) and not is_control(received[at + 1]))
    near = {at for end in ends for at in range(end - BEFORE, min(len(received), end + BEHIND + 1))}
    return [at for at in sorted(near) if any(map(is_mistaken, sent[at], received[at]))]


def has_stray(bits: str, place: int) -> bool:
    """Whether twelve control characters in a row lie at another phase than a place, from nineteen characters before it on."""
    return any(at > place - 190 and (at - place) % 10 for at in model.strays(bits)[0])


def received_around(rng: random.Random) -> tuple[Stream, int, int]:
    """A stream as received, and the first column of the control period that came whole and of what follows it."""
    stream, start, end = stream_of(rng)
    sent = list(stream.received)
    hurt(rng, stream)
    for at in range(start - EARLY, end + LATE):
        stream.received[at] = sent[at]
    while places := mistaken(sent, stream.received, end):
        for at in places:
            stream.received[at] = sent[at]
    return stream, start, end


def counted_from(lanes: list[str], place: int) -> int | None:
    """How many columns the last epoch's alignment has before a place of lane 0; none where it has none."""
    first = [*relocking.epochs(lanes)][-1][0]
    rows = [[*relocking.edges(bits, model.strays(bits)[0], first)] for bits in lanes]
    own = next(relocking.triples(rows), None)
    return (place - own[0]) // 10 if own else None


def around(program: str, seed: int, count: int) -> Iterator[Case]:
    """One control period comes whole among any characters: what stands alone after it is listed."""
    counted: collections.Counter[str] = collections.Counter()
    for case in range(count):
        rng = random.Random(f"around {seed} {case}")
        name = f"capture {case} of seed {seed}"
        stream, start, end = received_around(rng)
        tap, lanes, places, left = captured(rng, stream, start, end)
        if left <= LATE or any(map(has_stray, lanes, places)):
            counted["passed over"] += 1
            continue
        output = run(program, FURTHER[4], model.capture_of(tap.version, lanes))[1]
        yield f"recover relock of {name}", output, relocking.relocked(lanes, hearing.link_of)[1]
        columns, found = counted_from(lanes, places[0]), Found(output)
        yield f"the last alignment of {name}", columns is not None, True
        for first, it in alone(stream, end - 12, end + left):
            received = tuple(stream.received[first : first + len(it.columns)])
            row = row_of(it, stream.received[first - 12 : first], received, first - end + 12)
            wanted = [moved(text, columns or 0) for text in row]
            counted[amount(it, received)] += 1
            yield f"the {it.kind} at column {first} of {name}", found.has(wanted) or wanted, True
        counted["captures"] += 1
        counted["after another alignment"] += b"! relock " in output or b"! slip " in output
    print(f"around: {dict(counted)}")


TABLES = (around,)
