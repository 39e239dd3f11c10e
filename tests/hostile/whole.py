"""Tables of what two newer promises say, by random captures: what must follow comes from what was sent, and from the models.

    whole       any bits come first on each lane. From one control period on that came whole, `recover relock` lists all that follows
    fields      the lines of `recover content` that say the fields of a packet, for packets that came whole with few damaged characters

A test of the program alone; tests/hostile/bursts.py has the parts that both use."""

import collections
import random
from collections.abc import Iterator

from tests.hostile.bursts import Case, Column, Found, Stream, Tap
from tests.hostile.bursts import alone, amount, control, is_as_sent, island, line, other_column, preface, row_of, unlike
from tests.models import hearing, model, rasters, relocking
from tests.models.model import is_control
from tests.models.tables import CONTROL, VIDEO_GUARD
from tests.support import FURTHER, READERS, run

NEAR = 70  # bits between the ends of one control period on two lanes
LEAST = 19  # columns of a control period that comes whole
EARLY, LATE = 3, 15  # columns before and after it that come whole too
LANES = (0, 1, 2)


# ---- damage


def is_let(stream: Stream, at: int, lane: int) -> bool:
    """Whether another damaged character leaves the damage of a stream sparse: one a column and in each two guard columns, and two of any
    eleven in a row on a lane."""
    sent = [column for it in stream.periods for column in it.columns]
    if unlike(sent[at], stream.received[at]):
        return False
    near = range(max(0, at - 10), min(len(sent), at + 11))
    hurt = [place for place in near if sent[place][lane] != stream.received[place][lane]]
    if any(sum(first <= place < first + 11 for place in (*hurt, at)) > 2 for first in range(at - 10, at + 1)):
        return False
    return all(at not in pair or not any(unlike(sent[it], stream.received[it]) for it in pair) for pair in guards(stream))


def guards(stream: Stream) -> Iterator[tuple[int, int]]:
    """The two columns of each guard band."""
    for it, first in zip(stream.periods, stream.firsts):
        if it.kind != "control":
            yield first, first + 1
        if it.kind == "island":
            yield first + len(it.columns) - 2, first + len(it.columns) - 1


def spared(rng: random.Random, stream: Stream, start: int, end: int) -> set[int]:
    """Columns that no damage may hurt: those around the control period that comes whole, and of each later control period what the search
    for another skew looks at, at its beginning or at its end."""
    kept = set(range(start - EARLY, end + LATE))
    for it, first in zip(stream.periods, stream.firsts):
        last = first + len(it.columns) - 1
        if it.kind == "control" and first >= end:
            kept |= {*range(first - 3, first + 1), last} if rng.random() < 0.5 else set(range(last - 14, last + 4))
    return kept


def hurt(rng: random.Random, stream: Stream, start: int, end: int) -> None:
    """Sparse damage of every kind of column, but for those that are spared."""
    kept, rate = spared(rng, stream, start, end), rng.choice((0, 0.01, 0.05, 0.2))
    for at in range(len(stream.received)):
        lane = rng.choice(LANES)
        if rng.random() < rate and at not in kept and is_let(stream, at, lane):
            stream.replace(at, [other_column(rng)], (lane,))


# ---- a control period that comes whole


def stream_of(rng: random.Random) -> tuple[Stream, int, int]:
    """A stream, and the first column of a control period of it and of what follows that one."""
    stream, whole = Stream(), rng.randrange(1, 5)
    stream.add(*preface(rng, rng.choice((12, 40, 150))))
    for number in range(rng.randrange(whole + 1, 9)):
        opened = rng.choice(("video", "island"))
        count = rng.choice((19, 20, 21, 30, 60)) if number == whole else rng.choice((12, 12, 13, 20, 30))
        start = len(stream.received)
        stream.add(control(rng.randrange(64), count, opened))
        if number == whole:
            found = start, len(stream.received)
        stream.add(line(rng, rng.choice((13, 20, 90))) if opened == "video" else island(rng, rng.choice((1, 1, 2, 3))))
    stream.add(control(rng.randrange(64), rng.choice((12, 24, 40))))
    return stream, *found


def earlier(rng: random.Random, count: int) -> str:
    """So many bits of one lane, before the stream: noise, control characters of another place, or a lane of another stream."""
    kind = rng.choice(("noise", "control", "stream", "stream"))
    if kind == "noise" or not count:
        return "".join(rng.choices("01", k=count))
    if kind == "control":
        words = rng.choices(CONTROL, k=count // 10 + 2)
    else:
        words = []
        while len(words) < count // 10 + 2:
            words += [column[rng.choice(LANES)] for column in stream_of(rng)[0].received]
    bits = model.sent_bits(words)
    first = rng.randrange(min(10, len(bits) - count) + 1)
    return bits[first : first + count]


def together(rng: random.Random, count: int) -> list[str]:
    """As many bits of three lanes, which carry another stream at another skew."""
    other = stream_of(rng)[0].received
    while 10 * len(other) < count + 200:
        other += stream_of(rng)[0].received
    skews = [rng.randrange(NEAR + 1) for _ in LANES]
    return [model.sent_bits([column[lane] for column in other])[skew : skew + count] for lane, skew in zip(LANES, skews)]


def bits_before(rng: random.Random, tap: Tap) -> list[str]:
    """Other bits for each lane, after which a control period still ends within 70 bits on all lanes."""
    while True:
        most = rng.choice((0, 40, 400, 4000))
        counts = [max(0, most + rng.randrange(-NEAR, NEAR + 1)) for _ in LANES]
        places = [count - skew for count, skew in zip(counts, tap.skews)]
        if max(places) - min(places) <= NEAR:
            break
    if rng.random() < 0.5:
        return [bits[len(bits) - count :] for bits, count in zip(together(rng, max(counts)), counts)]
    return [earlier(rng, count) for count in counts]


def skews_of(rng: random.Random) -> tuple[int, int, int]:
    return (*(rng.choice((0, 1, 35, NEAR, rng.randrange(NEAR + 1))) for _ in LANES),)


def tap_of(rng: random.Random, start: int) -> Tap:
    """A tap that begins before the control period, by three columns at least."""
    skews = skews_of(rng)
    last = 10 * (start - EARLY) - max(skews)
    return Tap(
        rng.choice((1, 2)),
        rng.choice((0, 3, last, rng.randrange(last + 1))),
        skews,
        tuple(rng.choice((0, rng.randrange(60))) for _ in LANES),
    )


def captured(rng: random.Random, stream: Stream, start: int, end: int) -> tuple[Tap, list[str], list[int], int]:
    """The lanes of a tap of a stream after other bits, where column `end` begins on each, and how many columns all have from there on."""
    tap = tap_of(rng, start)
    before = bits_before(rng, tap)
    lanes = [early + lane for early, lane in zip(before, tap.lanes(stream.received))]
    if tap.version == 1:
        lanes = [lane[: min(map(len, lanes))] for lane in lanes]
    places = [len(early) + 10 * end - tap.offset - skew for early, skew in zip(before, tap.skews)]
    return tap, lanes, places, min((len(lane) - place) // 10 for lane, place in zip(lanes, places))


def later_lines(columns: list[Column]) -> list[bytes]:
    """The lines of what follows a control period, of columns that begin with its last twelve."""
    listed = hearing.link_text(columns)[1].splitlines()
    first = next((at for at, text in enumerate(listed) if not text.startswith(b"c ")), len(listed))
    return listed[first:]


def column_in(text: bytes) -> int | None:
    """The index of the word of a line that is a column; none where the line has none."""
    if not text.startswith((b"! ", b"cut ")) or text.startswith((b"! slip ", b"! relock ")):
        return None
    return 1 if text.startswith(b"cut ") else 3 if text.startswith((b"! word ", b"! code ")) else 2


def moved(text: bytes, by: int) -> bytes:
    """A line with its column moved."""
    at, words = column_in(text), text.split(b" ")
    return text if at is None else b" ".join((*words[:at], b"%d" % (int(words[at]) + by), *words[at + 1 :]))


def ends_with(output: bytes, lines: list[bytes]) -> bool:
    """Whether an output ends with lines, with all their columns moved by the same number."""
    found = output.splitlines()[-len(lines) :]
    pairs = [(one, other) for one, other in zip(found, lines) if column_in(other) is not None and column_in(one) == column_in(other)]
    by = next((int(one.split(b" ")[at]) - int(other.split(b" ")[at]) for one, other in pairs if (at := column_in(one)) is not None), 0)
    return found == [moved(text, by) for text in lines]


def whole(program: str, seed: int, count: int) -> Iterator[Case]:
    """Any bits, and then a stream of which one control period comes whole: all lines after it are those of what was received."""
    counted: collections.Counter[str] = collections.Counter()
    for case in range(count):
        rng = random.Random(f"whole {seed} {case}")
        name = f"capture {case} of seed {seed}"
        stream, start, end = stream_of(rng)
        hurt(rng, stream, start, end)
        tap, lanes, _, left = captured(rng, stream, start, end)
        if left <= LATE:
            continue
        output = run(program, FURTHER[4], model.capture_of(tap.version, lanes))[1]
        yield f"recover relock of {name}", output, relocking.relocked(lanes, hearing.link_of)[1]
        lines = later_lines(stream.received[end - 12 : end + left])
        yield f"the lines after the whole control period of {name}", ends_with(output, lines) or lines, True
        found = Found(b"\n".join(lines))
        for first, it in alone(stream, end - 12, end + left):
            received = tuple(stream.received[first : first + len(it.columns)])
            row = row_of(it, stream.received[first - 12 : first], received, first - end + 12)
            counted[amount(it, received)] += 1
            yield f"the {it.kind} at column {first} of {name}", found.has(row) or row, True
        counted["captures"] += 1
        counted["after another alignment"] += b"! relock " in output or b"! slip " in output
    print(f"whole: {dict(counted)}")


# ---- the fields of packets


def numbers(rng: random.Random, *mosts: int) -> str:
    return " ".join(str(rng.randrange(most + 1)) for most in mosts)


def samples(rng: random.Random) -> list[str]:
    """The lines of a packet's samples."""
    return [f"s {rng.randrange(1 << 24):06x} {rng.randrange(1 << 24):06x} {numbers(rng, 7, 7, 1, 0)}" for _ in range(4)]


def content_of(rng: random.Random) -> bytes:
    """A content listing of two or three small frames, each with some of every packet that has a line of fields."""
    sizes = [rng.randrange(13, 40), rng.randrange(1, 12), rng.randrange(2, 60), 62 + rng.randrange(40), 3, 2, 2, 3, rng.randrange(2)]
    lines = [f"mode {' '.join(map(str, sizes))}"]
    for _ in range(rng.choice((2, 3))):
        lines += [
            f"avi {numbers(rng, 3, 3, 1, 3, 15, 3, 3, 3, 3, 7, 1, 127, 15, *[65535] * 4)}",
            f"audio {numbers(rng, 7, 15, 3, 7, 255, 15, 1)}",
        ]
        for _ in range(rng.randrange(1, 5)):
            lines += [f"acr {numbers(rng, (1 << 20) - 1, (1 << 20) - 1)}", *samples(rng)]
        lines += [f"row {rng.randbytes(3 * sizes[0]).hex()}" for _ in range(sizes[4])] + [f"frame {sizes[0]} {sizes[4]}"]
    return "\n".join([*lines, "end", ""]).encode()


def packets_in(columns: list[Column]) -> Iterator[int]:
    """The first column of each packet of columns as they were sent."""
    at = 0
    while at < len(columns):
        if hearing.is_island_guard(columns[at]) and is_control(columns[at - 1]):
            at += 2
            while not hearing.is_island_guard(columns[at]):
                yield at
                at += 32
            at += 2
        at += 1


def aligned_by(columns: list[Column], tap: Tap) -> int:
    """The first column that comes after twelve control columns of which each lane has the bits; one past the last where there is none."""
    quiet = 0
    for at, column in enumerate(columns):
        if quiet >= 12 and not is_control(column) and tap.offset + max(tap.skews) + 120 <= 10 * at:
            return at
        quiet = quiet + 1 if is_control(column) else 0
    return len(columns)


def payload_hurt(rng: random.Random, sent: list[Column]) -> list[Column]:
    """Sparse damage of pixels and packets: one character a column at most, and two of eleven in a row on a lane."""
    received, last = list(sent), {lane: [-11, -11] for lane in LANES}
    rate = rng.choice((0.02, 0.05, 0.1))
    is_payload = [False] * len(sent)
    for first in packets_in(sent):
        is_payload[first : first + 32] = [True] * 32
    for at in range(2, len(sent)):
        if sent[at - 2 : at] == [VIDEO_GUARD] * 2 or (is_payload[at - 1] and not hearing.is_island_guard(sent[at])):
            is_payload[at] = not is_control(sent[at])
        lane = rng.choice(LANES)
        if is_payload[at] and rng.random() < rate and last[lane][0] + 11 <= at:
            last[lane] = [last[lane][1], at]
            received[at] = tuple(rng.randrange(1024) if it == lane else word for it, word in enumerate(sent[at]))
    return received


def fields(program: str, seed: int, count: int) -> Iterator[Case]:
    """What a packet's line says is what was sent, for each packet that came whole with at most one damaged character, or with few and no
    fault."""
    counted: collections.Counter[str] = collections.Counter()
    for case in range(count):
        rng = random.Random(f"fields {seed} {case}")
        text = content_of(rng)
        sent = rasters.raster_of(text)
        made = run(program, ["make", "content"], text)
        yield f"make content, capture {case} of seed {seed}", made[:2], (0, hearing.capture_of_columns(sent))
        received = payload_hurt(rng, sent)
        tap = Tap(rng.choice((1, 2)), rng.randrange(900), skews_of(rng), tuple(rng.choice((0, rng.randrange(900))) for _ in LANES))
        output = run(program, rng.choice((READERS[1], FURTHER[5])), model.capture_of(tap.version, tap.lanes(received)))[1]
        found, start, end = Found(output), aligned_by(sent, tap), tap.end(len(received))
        for first in packets_in(sent):
            part, was = tuple(received[first : first + 32]), tuple(sent[first : first + 32])
            faults = [*model.faults_of_packet([*hearing.packet_of(part, first)][1:])]
            if start <= first <= end - 32 and is_as_sent(was, part, faults):
                counted["damaged" if was != part else "as sent"] += 1
                rows = [*hearing.contents_of(next(hearing.packet_of(was, first)), first)]
                yield f"the packet at column {first} of capture {case}, seed {seed}", found.has(rows) or rows, True
        said = {row.split(b" ")[0] for row in found.lines}
        counted.update(name.decode() for name in said & {b"avi", b"audio", b"acr", b"s"})
    print(f"fields: {dict(counted)}")


TABLES = (whole, fields)
