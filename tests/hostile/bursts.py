"""Tables of captures with bursts, for what stands alone in them: a line or an island that was received with few damaged characters of
its own, after twelve control columns and before one, has its lines whatever was received around it.

    places      a small stream with a burst of each length up to forty columns, at each of its places, of each kind, on one to three lanes
    captures    random captures with bursts
    packets     2,000 packets of which up to three characters of lane 0 and three of lanes 1 and 2 are other TERC4 characters
    unguarded   random captures with bursts of lines without guard bands

Expected lines are those of the stream that was made, by the rule above; where a character of the period itself was damaged, what the models
of docs/guide/FORMATS.md say of it."""
import collections
import itertools
import random
from collections.abc import Iterator
from dataclasses import dataclass, field

from tests.models import feeding, hearing, model, relocking
from tests.models.hearing import nibble, value_of
from tests.models.model import is_control
from tests.models.tables import CONTROL, ISLAND_GUARD, TERC4, VIDEO_GUARD
from tests.support import FURTHER, READERS, run

Column = tuple[int, int, int]
Case = tuple[str, object, object]  # its name, what came, and what is wanted
LONGEST = 40  # columns of a burst at each place
KINDS = ("random", "control", "guards", "pixels")
SENT = [model.sent_bits([word]) for word in range(1024)]


# ---- what is sent

@dataclass(frozen=True)
class Period:
    """A period as it was sent: its lines of a link listing, and its columns."""

    lines: tuple[bytes, ...]
    columns: tuple[Column, ...]

    @property
    def kind(self) -> str:
        return {b"c": "control", b"v": "video", b"i": "island"}[self.lines[0][:1]]


def period(*lines: bytes) -> Period:
    return Period(lines, tuple(hearing.sent_columns(b"\n".join(lines))))


def control(first: int, count: int, opened: str = "") -> Period:
    """Control columns of one value; the last eight are the preamble of a line or an island."""
    if not opened:
        return period(b"c %02x %d" % (first, count))
    preamble = b"c %02x 8" % (first & 3 | {"video": 4, "island": 20}[opened])
    return period(*[b"c %02x %d" % (first, count - 8)] * (count > 8), preamble)


def line(rng: random.Random, count: int) -> Period:
    """A line of so many pixels."""
    return period(b"v " + rng.randbytes(3 * count).hex().encode())


def island(rng: random.Random, count: int) -> Period:
    """An island of so many packets."""
    guards = ["".join(rng.choices("0123", k=2)) for _ in range(2)]
    packets = ([*(it.hex() for it in feeding.packet(rng)), "".join(rng.choices("0123", k=32))] for _ in range(count))
    return period(*(text.encode() for text in (f"i {guards[0]}", *(f"p {' '.join(it)}" for it in packets), f"e {guards[1]}")))


@dataclass
class Stream:
    """Periods, with the first column of each, and the columns as they were received."""

    periods: list[Period] = field(default_factory=list)
    firsts: list[int] = field(default_factory=list)
    received: list[Column] = field(default_factory=list)

    def add(self, *periods: Period) -> None:
        for it in periods:
            self.periods.append(it)
            self.firsts.append(len(self.received))
            self.received += it.columns

    def replace(self, first: int, columns: list[Column], lanes: tuple[int, ...] = (0, 1, 2)) -> None:
        """Columns from one on become others, on some lanes."""
        for at, (old, new) in enumerate(zip(self.received[first : first + len(columns)], columns), first):
            self.received[at] = tuple(new[lane] if lane in lanes else old[lane] for lane in range(3))


# ---- what is captured

@dataclass(frozen=True)
class Tap:
    """What is captured of columns: each lane from a bit on that is later by its skew, without some of its last bits."""

    version: int
    offset: int
    skews: tuple[int, int, int]
    missing: tuple[int, int, int]

    def sizes(self, count: int) -> list[int]:
        """The bits of each lane of so many columns; in version 1 all have as many."""
        sizes = [10 * count - self.offset - skew - missing for skew, missing in zip(self.skews, self.missing)]
        return [min(sizes)] * 3 if self.version == 1 else sizes

    def lanes(self, columns: list[Column]) -> list[str]:
        """The bits of the three lanes."""
        rows = ("".join([SENT[column[lane]] for column in columns])[self.offset + skew :] for lane, skew in enumerate(self.skews))
        return [row[:size] for row, size in zip(rows, self.sizes(len(columns)))]

    def end(self, count: int) -> int:
        """The column before which a lane of so many columns ends, with a whole character or with some bits more."""
        return min((self.offset + skew + size) // 10 for skew, size in zip(self.skews, self.sizes(count)))

    def aligned_by(self, stream: Stream) -> int:
        """The first column after a control period of which each lane has twelve characters; one past the last where there is none."""
        ends = (first for it, first in zip(stream.periods, stream.firsts) if it.kind != "control")
        return next((first for first in ends if self.offset + max(self.skews) + 120 <= 10 * first), len(stream.received))


def random_tap(rng: random.Random, stream: Stream, most: int) -> Tap:
    """A tap, from a bit below so many on, that has a first full alignment."""
    while True:
        skews = tuple(rng.choice((0, 1, 35, 70, rng.randrange(71))) for _ in range(3))
        missing = tuple(rng.choice((0, 0, rng.randrange(most))) for _ in range(3))
        tap = Tap(rng.choice((1, 2)), rng.choice((0, 3, 7, rng.randrange(most))), skews, missing)
        if tap.aligned_by(stream) < tap.end(len(stream.received)):
            return tap


# ---- the rule

def unlike(sent: Column, received: Column) -> int:
    return sum(one != other for one, other in zip(sent, received))


def is_sparse(it: Period, received: tuple[Column, ...]) -> bool:
    """Whether at most one character of each column and of each two guard columns was damaged. The theorem asks besides for
    at most two of any eleven in a row on a lane, which alignment needs and hearing does not."""
    if received == it.columns:
        return True
    counts = [unlike(*pair) for pair in zip(it.columns, received)]
    pairs = [0] if it.kind == "video" else [0, len(counts) - 2]
    return max(counts) <= 1 and all(counts[at] + counts[at + 1] <= 1 for at in pairs)


def amount(it: Period, received: tuple[Column, ...]) -> str:
    """How much of a period that stands alone was damaged, in a word."""
    if received == it.columns:
        return "undamaged"
    hurt = [[one != other for one, other in zip(*pair)] for pair in zip(it.columns, received)]
    most = max(sum(column[lane] for column in hurt[at : at + 11]) for at in range(len(hurt)) for lane in range(3))
    return "dense" if most > 2 else "sparse"


def alone(stream: Stream, start: int, end: int) -> Iterator[tuple[int, Period]]:
    """The periods that stand alone within columns `start` to `end`, each with its first column."""
    columns = stream.received
    for it, first in zip(stream.periods, stream.firsts):
        after = first + len(it.columns)
        if it.kind == "control" or first - 12 < start or after >= end:
            continue
        around = [*columns[first - 12 : first], columns[after]]
        if all(map(is_control, around)) and is_sparse(it, tuple(columns[first:after])):
            yield first, it


def row_of(it: Period, before: list[Column], received: tuple[Column, ...], first: int) -> list[bytes]:
    """The lines of a period that stands alone, counted so that its first column has this number."""
    lines = [*hearing.judged(before, it.kind, first)]
    if received == it.columns:
        return [*lines, *it.lines]
    heard = hearing.line_of if it.kind == "video" else hearing.island_of
    damaged = [*heard(received, first, False)]
    packets = iter(enumerate(it.lines[1:-1]))
    for at, text in enumerate(damaged):
        if text.startswith(b"v "):
            text = line_as_received(it, received)
        elif text.startswith(b"p "):
            number, sent = next(packets)
            part = slice(2 + 32 * number, 34 + 32 * number)
            faults = [*model.faults_of_packet(damaged[at + 1 :])]
            if is_as_sent(it.columns[part], received[part], faults):
                text = packet_as_sent(sent, it.columns[part], received[part])
        lines.append(text)
    return lines


def line_as_received(it: Period, received: tuple[Column, ...], guards: int = 2) -> bytes:
    """Each byte as it was sent, but where its own character was damaged."""
    sent = bytes.fromhex(it.lines[0][2:].decode())
    pairs = zip(sent, *([word for column in row[guards:] for word in reversed(column)] for row in (it.columns, received)))
    return b"v " + bytes(byte if one == other else model.decoded(other) for byte, one, other in pairs).hex().encode()


def is_as_sent(sent: tuple[Column, ...], received: tuple[Column, ...], faults: list[bytes]) -> bool:
    """Whether one character of a packet was damaged, or few were and no fault is found."""
    counts = [sum(column[lane] != other[lane] for column, other in zip(sent, received)) for lane in range(3)]
    return sum(counts) <= 1 or (counts[0] <= 3 and counts[1] + counts[2] <= 3 and not faults)


def packet_as_sent(text: bytes, sent: tuple[Column, ...], received: tuple[Column, ...]) -> bytes:
    """A packet's line with the sync values of damaged characters as they were received."""
    payload, _, sync = text.rpartition(b" ")
    pairs = zip(sync, sent, received)
    return payload + b" " + bytes(digit if one[0] == other[0] else b"0123"[nibble(other[0]) & 3] for digit, one, other in pairs)


def content_of(row: list[bytes], first: int, counts: bool) -> list[bytes]:
    """The lines of a period's row in a content listing, where its line counts or does not."""
    lines, column = [], first - 30
    for at, text in enumerate(row):
        if text.startswith(b"v "):
            lines += [text.replace(b"v ", b"row ", 1)] * counts
        elif text.startswith(b"p "):
            column += 32
            if not any(it.startswith(b"! lost ") for it in model.faults_of_packet(row[at + 1 :])):
                lines += hearing.contents_of(text, column)
        elif text.startswith(b"! "):
            lines.append(text)
    return lines


def relayed(row: list[bytes]) -> list[bytes]:
    """What a relay sends again of a period's row: no fault, and Null packets for lost ones."""
    return [text for _, *texts in model.kept(b"\n".join(row)) for text in texts]


def heard_change(columns: list[Column], start: int) -> int:
    """The column before which a change of VSYNC was heard: of two that differ the later has three control columns there."""
    level, count, known = None, 0, set()
    for at in range(start, len(columns)):
        now = value_of(columns[at]) >> 1 & 1 if is_control(columns[at]) else None
        level, count = now, count + 1 if now == level else 1
        if now is not None and count == 3:
            known.add(now)
        if len(known) == 2:
            return at + 1
    return len(columns)


# ---- what came

class Found:
    """Lines of an output, in which rows are found one after another."""

    def __init__(self, output: bytes):
        self.lines, self.at = [it for it in output.split(b"\n") if not it.startswith(b"! ragged ")], 0

    def has(self, row: list[bytes]) -> bool:
        """Whether these lines stand behind those that were found before, with none between them."""
        at = self.at
        while row:
            try:
                at = self.lines.index(row[0], at)
            except ValueError:
                return False
            if self.lines[at : at + len(row)] == row:
                self.at = at + len(row)
                return True
            at += 1
        return True

    def around(self, count: int) -> tuple[bytes, bytes]:
        """The lines before and after the last that were found, which had so many."""
        before = self.at - count - 1
        return self.lines[before] if before >= 0 else b"", self.lines[self.at]


def is_run(text: bytes, before: list[Column]) -> bool:
    """Whether this is the line of the run that the last of twelve control columns or more belong to."""
    alike = [*itertools.takewhile(lambda column: value_of(column) == value_of(before[-1]), reversed(before))]
    name, _, count = text.rpartition(b" ")
    wanted = len(alike) == int(count) if len(alike) < 12 else int(count) >= 12
    return name == b"c %02x" % value_of(before[-1]) and wanted


def compared(program: str, name: str, stream: Stream, tap: Tap, counted: collections.Counter) -> Iterator[Case]:
    """Each period that stands alone, in what each command writes of the capture."""
    start, lanes = tap.aligned_by(stream) - 12, tap.lanes(stream.received)
    data = model.capture_of(tap.version, lanes)
    outputs = [run(program, words, data)[1] for words in (READERS[0], READERS[1], READERS[2], FURTHER[3])]
    link, content, check, relay = map(Found, [*outputs[:3], run(program, READERS[0], outputs[3])[1]])
    change = heard_change(stream.received, start)
    for first, it in alone(stream, start, tap.end(len(stream.received))):
        received = tuple(stream.received[first : first + len(it.columns)])
        before = stream.received[first - 12 : first]
        row = row_of(it, before, received, first - start)
        place = f"{it.kind} at column {first} of {name}"
        counted[amount(it, received)] += 1
        is_there = link.has(row)
        yield f"recover link, {place}", is_there or row, True
        if is_there:
            run_before, after = link.around(len(row))
            yield f"the lines around it, {place}", (is_run(run_before, before), after[:2] == b"c " or after[:7] == b"! word "), (True, True)
        rows = content_of(row, first - start, first >= change)
        yield f"recover content, {place}", content.has(rows) or rows, True
        faults = [text for text in row if text.startswith(b"! ")]
        yield f"check, {place}", check.has(faults) or faults, True
        rows = relayed(row)
        yield f"recover link of a relay, {place}", relay.has(rows) or rows, True


# ---- the tables

def burst(rng: random.Random, kind: str, count: int) -> list[Column]:
    """Columns of random characters, of control characters, of guards or of pixels."""
    if kind == "pixels":
        return feeding.pixels(rng, count)
    if kind == "guards":
        opened = rng.choice((VIDEO_GUARD, (rng.choice(TERC4[12:]), ISLAND_GUARD, ISLAND_GUARD)))
        return [opened] * count
    words = range(1024) if kind == "random" else CONTROL
    return [tuple(rng.choices(words, k=3)) for _ in range(count)]


def preface(rng: random.Random, quiet: int = 40) -> list[Period]:
    """Two lines between which VSYNC changes."""
    return [control(0, quiet, "video"), line(rng, 2), control(2, 24, "video"), line(rng, 2)]


def places(program: str, seed: int, _: int) -> Iterator[Case]:
    """A burst of each length at each place of a small stream, many in one capture: each stream of it begins with twelve control columns."""
    rng, counted = random.Random(f"places {seed}"), collections.Counter()
    pool = []
    for _ in range(31):
        parts = [("video", line(rng, 3)), ("island", island(rng, 2)), ("video", line(rng, 1))]
        periods = [it for opened, part in parts for it in (control(rng.randrange(4), 12, opened), part)]
        pool.append([*periods, control(rng.randrange(64), 2)])
    size = sum(len(it.columns) for it in pool[0])
    for length in range(1, LONGEST + 1):
        stream = Stream()
        stream.add(*preface(rng))
        for at, (place, kind, lanes) in enumerate(itertools.product(range(size - length + 1), KINDS, (1, 2, 3))):
            first = len(stream.received)
            stream.add(*pool[at % len(pool)])
            hit = tuple((place + length + at + it) % 3 for it in range(lanes))
            stream.replace(first + place, burst(rng, kind, length), hit)
            counted["bursts"] += 1
        stream.add(control(0, 24))
        yield from compared(program, f"the bursts of {length} columns, seed {seed}", stream, random_tap(rng, stream, 200), counted)
    print(f"places: {dict(counted)}")


def captures(program: str, seed: int, count: int) -> Iterator[Case]:
    """Random captures with bursts after the first alignment, and sparse damage; the models say what is written of the whole."""
    counted = collections.Counter()
    for case in range(count):
        rng = random.Random(f"bursts {seed} {case}")
        name, stream = f"capture {case} of seed {seed}", random_stream(rng)
        tap = random_tap(rng, stream, 900)
        damage(rng, stream, tap.aligned_by(stream))
        lanes = tap.lanes(stream.received)
        columns, start = model.aligned(lanes), tap.aligned_by(stream) - 12
        yield f"the first alignment of {name}", columns == stream.received[start : tap.end(len(stream.received))], True
        data = model.capture_of(tap.version, lanes)
        listing = hearing.link_text(columns)
        again = hearing.capture_of_columns(hearing.sent_columns(model.relayed(listing[1])))
        wanted = [listing, hearing.content_text(columns), hearing.check_text(listing[1]), (listing[0], again)]
        for words, answer in zip((*READERS[:3], FURTHER[3]), wanted):
            yield f"{words} of {name}", run(program, words, data)[:2], answer
        yield f"recover relock of {name}", run(program, FURTHER[4], data)[:2], relocking.relocked(lanes, hearing.link_of)
        yield f"recover content relock of {name}", run(program, FURTHER[5], data)[:2], relocking.relocked_content(lanes)
        if not any(end for _, end, _ in model.epochs(lanes)):  # no lane has a stray
            counted["one epoch"] += 1
            yield f"recover track of {name}", run(program, FURTHER[0], data)[:2], listing
        yield from compared(program, name, stream, tap, counted)
    print(f"captures: {dict(counted)}")


def random_stream(rng: random.Random) -> Stream:
    """A few periods, and the control columns behind them."""
    stream = Stream()
    stream.add(*preface(rng, rng.choice((12, 40, 150))))
    for _ in range(rng.randrange(2, 9)):
        opened = rng.choice(("video", "island"))
        stream.add(control(rng.randrange(64), rng.choice((12, 12, 13, 20, 30)), opened))
        stream.add(line(rng, rng.choice((1, 2, 20, 90))) if opened == "video" else island(rng, rng.choice((1, 1, 2, 3))))
    stream.add(control(rng.randrange(64), rng.choice((12, 24))))
    return stream


def damage(rng: random.Random, stream: Stream, until: int) -> None:
    """Few damaged pixels and packet characters before a column; after it single damaged characters and bursts, also of whole periods."""
    rate = rng.choice((0, 0.02, 0.1, 0.4))
    for it, first in zip(stream.periods, stream.firsts):
        payload = range(first + 2, first + len(it.columns) - 2 * (it.kind == "island"))
        early = [at for at in payload if at < until] if it.kind != "control" else []
        late = [at for at in range(first, first + len(it.columns)) if at > until]
        for at in early[rng.randrange(6) :: 6] if rate else []:
            stream.replace(at, [other_column(rng)], (rng.randrange(3),))
        for at in late:
            if rng.random() < rate:
                stream.replace(at, [other_column(rng)], (rng.randrange(3),))
    size = len(stream.received)
    for _ in range(rng.choice((1, 1, 2, 4))):
        place, length = rng.randrange(until + 1, size), rng.choice((1, 2, 12, 40, 200, rng.randrange(1, 60)))
        columns = burst(rng, rng.choice(KINDS), length)
        if rng.random() < 0.5:
            columns = [*itertools.chain(*(feeding.piece(rng) for _ in range(rng.randrange(1, 5))))]
        stream.replace(place, columns, rng.choice(((0,), (1,), (2,), (0, 1), (0, 2), (1, 2), *[(0, 1, 2)] * 4)))


def other_column(rng: random.Random) -> Column:
    return tuple(rng.choice((*CONTROL, *TERC4[12:], ISLAND_GUARD, rng.randrange(1024))) for _ in range(3))


def packets(program: str, seed: int, _: int) -> Iterator[Case]:
    """Packets with few other TERC4 characters: header and bodies as sent, or a fault with the packet's column."""
    counted = collections.Counter()
    for part in range(4):
        rng = random.Random(f"packets {seed} {part}")
        stream, firsts, sent = Stream(), [], []
        stream.add(*preface(rng))
        while len(firsts) < 500:
            stream.add(control(rng.randrange(4), 12, "island"), island(rng, rng.choice((1, 1, 2, 4))))
            for at, text in enumerate(stream.periods[-1].lines[1:-1]):
                firsts.append(stream.firsts[-1] + 2 + 32 * at)
                sent.append(text.split(b" ")[1:6])
                counted["characters"] += change_few(rng, stream, firsts[-1])
        stream.add(control(0, 40))
        tap = random_tap(rng, stream, 200)
        start = tap.aligned_by(stream) - 12
        status, output, _ = run(program, READERS[0], model.capture_of(tap.version, tap.lanes(stream.received)))
        lines = output.split(b"\n")
        found = [at for at, text in enumerate(lines) if text.startswith(b"p ")]
        yield f"packets of part {part}", (status, len(found)), (1, len(sent))
        for at, first, fields in zip(found, firsts, sent):
            faults = [*model.faults_of_packet(lines[at + 1 :])]
            are_there = bool(faults) and all(text.split(b" ")[2] == b"%d" % (first - start) for text in faults)
            counted["with a fault" if faults else "without"] += 1
            came = lines[at].split(b" ")
            yield f"the packet at column {first} of part {part}, seed {seed}", came[1:6] == fields and not faults or are_there, True
            sync = bytes(b"0123"[nibble(column[0]) & 3] for column in stream.received[first : first + 32])
            yield f"its sync values, at column {first} of part {part}", came[6], sync
    print(f"packets: {dict(counted)}")


def change_few(rng: random.Random, stream: Stream, first: int) -> int:
    """Up to three characters of lane 0, and up to three of lanes 1 and 2, become other TERC4 characters, mostly by one bit."""
    plane, hits = rng.randrange(4), [(at, 0) for at in rng.sample(range(32), rng.randrange(4))]
    hits += [(at // 2, 1 + at % 2) for at in rng.sample(range(64), rng.randrange(4))]
    for at, lane in hits:
        bit = 1 << (2 if lane == 0 and rng.random() < 0.8 else plane)
        old = nibble(stream.received[first + at][lane])
        new = old ^ bit if rng.random() < 0.7 else rng.choice([it for it in range(16) if it != old])
        stream.replace(first + at, [(TERC4[new],) * 3], (lane,))
    return len(hits)


def unguarded_stream(rng: random.Random) -> Stream:
    """A few lines without guard bands, and the control columns around them."""
    stream = Stream()
    for _ in range(rng.randrange(3, 9)):
        text = b"v " + rng.randbytes(3 * rng.choice((3, 4, 20, 90))).hex().encode()
        stream.add(control(rng.randrange(64), rng.choice((12, 12, 13, 30, 150))))
        stream.add(Period((text,), tuple(hearing.sent_columns(text, guards=False))))
    stream.add(control(rng.randrange(64), rng.choice((12, 24))))
    return stream


def unguarded(program: str, seed: int, count: int) -> Iterator[Case]:
    """Of lines without guard bands those with at most one damaged character a column, after twelve control columns and before one,
    have their lines; the models say what is written of the whole."""
    counted = collections.Counter()
    for case in range(count):
        rng = random.Random(f"unguarded {seed} {case}")
        name, stream = f"unguarded capture {case} of seed {seed}", unguarded_stream(rng)
        tap = random_tap(rng, stream, 900)
        start = tap.aligned_by(stream) - 12
        damage(rng, stream, start + 12)
        lanes, sent = tap.lanes(stream.received), stream.received
        columns = model.aligned(lanes)
        yield f"the first alignment of {name}", columns == sent[start : tap.end(len(sent))], True
        answer = run(program, ["recover", "dvi"], model.capture_of(tap.version, lanes))[:2]
        yield f"recover dvi of {name}", answer, model.dvi_text(columns)
        found = Found(answer[1])
        for it, first in zip(stream.periods, stream.firsts):
            after = first + len(it.columns)
            if it.kind == "control" or first - 12 < start or after >= start + len(columns):
                continue
            received = tuple(sent[first:after])
            if all(map(is_control, [*sent[first - 12 : first], sent[after]])) and max(map(unlike, it.columns, received)) <= 1:
                counted["damaged" if received != it.columns else "as sent"] += 1
                row = [line_as_received(it, received, 0), *[*model.line_of(list(received), first - start)][1:]]
                yield f"recover dvi, the line at column {first} of {name}", found.has(row) or row, True
    print(f"unguarded: {dict(counted)}")


TABLES = (places, captures, packets, unguarded)
