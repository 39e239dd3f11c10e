"""The tool `errors`: how many characters and bits of a capture are wrong, how often, and where."""

from __future__ import annotations

import argparse
import json
import math
from collections import Counter
from collections.abc import Sequence
from dataclasses import dataclass, field
from pathlib import Path
from typing import Any

from vabgrot import command
from vabgrot.errors import Refused
from vabgrot.formats.characters import LANES, TEN
from vabgrot.judging.damage import KINDS, Compared, Hit, compared, exposed, hits_of, offset_of
from vabgrot.judging.estimates import Rate, Video, rate_of, video_of, words_of_video
from vabgrot.judging.estimates import plain_of as video_plain
from vabgrot.judging.spans import Spans, epoch_spans, spans_of
from vabgrot.judging.statistics import clusters_of, limits_of
from vabgrot.lanes.columns import Columns
from vabgrot.lanes.encryption import Runs, encryption_of
from vabgrot.reading import Reading, read

TEXT = """Counts the damaged characters and wrong bits of a capture, lane by lane, and prints the bit error rate with its
limits of confidence. It also says where damage is denser than chance allows: on a lane, in a kind of period, in a row of
the picture, or in bursts. Each epoch is counted by its own alignment.

With --reference, the tool compares the capture with one that is right. Otherwise it uses what is known about control
periods, guard bands, packets and the video coding. Then some damage is not seen, because wrong bits can make other valid
characters. The table has the least damage that explains what was received. The rate is an estimate of all damage: the tool
plants damage into rows of this capture and counts how much of it is seen. It says `at least` if that is not possible: in
flat pictures, in bursts, and over two wrong bits in a hundred."""
FAULTY = "done, and a character is damaged; with --at-most: the rate is not shown to be that low"
EXAMPLES = """./vabgrot make content < examples/bars.content > bars.tmc
./vabgrot damage 2:5035:0ab 0:28450:3a5 < bars.tmc > hurt.tmc
tools/errors hurt.tmc --reference bars.tmc --at-most 1e-3"""
SHOWN = 8  # damaged characters that are listed


def share(text: str) -> float:
    """Reads a number between 0 and 1."""
    try:
        value = float(text)
    except ValueError:
        value = 0.0
    if not 0 < value < 1:
        raise argparse.ArgumentTypeError(f"{text}: write a number between 0 and 1, such as 1e-9")
    return value


@dataclass(frozen=True)
class Counted:
    """The counts: damaged characters, the number of characters of each kind on a lane, and the columns that were not read."""

    hits: list[Hit]
    exposed: dict[str, int]
    unread: int
    spans: Spans
    reading: Reading
    videos: list[Video] = field(default_factory=list)  # the rows of each lane, if there is no reference

    @property
    def bits(self) -> int:
        """The bits of all lanes."""
        return 3 * TEN * sum(self.exposed.values())

    @property
    def wrong(self) -> int:
        """The wrong bits of all lanes."""
        return sum(hit.bits for hit in self.hits)

    def table(self) -> list[dict[str, Any]]:
        """Returns the characters, damaged characters and wrong bits for each lane and kind."""
        times = Counter((hit.lane, hit.kind) for hit in self.hits)
        bits: Counter[tuple[int, str]] = Counter()
        for hit in self.hits:
            bits[hit.lane, hit.kind] += hit.bits
        for lane, video in enumerate(self.videos):
            times[lane, "video"] = video.seen[1]
        return [
            {"lane": lane, "kind": kind, "characters": self.exposed[kind], "damaged": times[lane, kind], "bits": bits[lane, kind]}
            for lane in range(3)
            for kind in KINDS
        ]

    def rate(self, confidence: float) -> Rate:
        """Returns the rate of wrong bits: counted if there is a reference, otherwise estimated."""
        if not self.videos:
            return Rate(self.wrong / max(self.bits, 1), *limits_of(self.wrong, max(self.bits, 1), confidence)[:2])
        outside = sum(hit.bits for hit in self.hits if hit.kind != "video")
        characters = 3 * sum(count for kind, count in self.exposed.items() if kind != "video")
        return rate_of((self.wrong, self.bits // TEN), (outside, characters), self.videos, confidence)


def counted_of(path: Path, reference: Path | None, is_dvi: bool) -> Counted:
    """Counts the damage of a capture, with a reference if there is one. Each epoch is counted with its own alignment. Columns between a
    loss of bits and the slip that reports it are left out."""
    it = read(path, is_dvi)
    it.refuse_unaligned()
    whole = spans_of(it.events, it.at, it.columns, it.is_dvi)
    if encryption := encryption_of(Runs(*whole.runs)):
        raise Refused(f"{path}: {encryption}, so there is no rate of errors. Turn HDCP off at the source")
    sent = read(reference, is_dvi) if reference else None
    if sent:
        sent.refuse_unaligned()
    hits, every, missing, parts = list[Hit](), Counter[str](dict.fromkeys(KINDS, 0)), 0, list[tuple[Spans, Columns]]()
    for epoch in it.epochs:
        spans, mine = epoch_spans(it, epoch), it.characters(epoch)
        if mine is None:
            continue
        found = against(sent, mine, spans) if sent else Compared(hits_of(spans, mine), exposed(spans))
        if found is None:
            continue
        parts.append((spans, mine))
        hits += [hit._replace(column=hit.column + epoch.before) for hit in found.hits]
        every.update(found.exposed)
        missing += max(0, (mine.count if sent else min(mine.count, epoch.columns)) - sum(found.exposed.values()))
    if sent and not every.total():
        raise Refused(f"{path}: nothing of it is in {reference}. Give a reference that carries the same")
    videos = [] if sent else [video_of(parts, lane) for lane in range(3)]
    return Counted(hits, dict(every), missing, whole, it, videos)


def against(sent: Reading, mine: Columns, spans: Spans) -> Compared | None:
    """Returns the characters of an epoch that differ from the reference, or None if the reference contains nothing of it."""
    other = sent.characters(sent.epochs[0])
    offset = offset_of(mine, other) if other else None
    if other is None or offset is None:
        return None
    return compared(mine, other, epoch_spans(sent, sent.epochs[0]), offset, min(mine.count, spans.columns))


def lines_of(counted: Counted, rate: Rate, confidence: float, at_most: float | None) -> list[str]:
    """Returns the counts as lines of text."""
    lines = [f"{'':<16}{'characters':>14}{'damaged':>12}{'wrong bits':>12}"]
    for row in counted.table():
        if row["characters"]:
            name = f"{LANES[row['lane']]}, {row['kind']}"
            lines.append(f"{name:<24}{row['characters']:>14,}{row['damaged']:>12,}{row['bits']:>12,}")
    lines[0] = f"{'':<24}{'characters':>14}{'damaged':>12}{'wrong bits':>12}"
    lines[:0] = counted.reading.notes
    if counted.unread:
        lines.append(f"{counted.unread:,} columns could not be read, and are not counted")
    lines.append(words_of_rate(counted, rate, confidence))
    lines += [words for name, video in zip(LANES, counted.videos) if (words := words_of_video(name, video))]
    lines += clusters_of(counted.hits, counted.exposed, counted.spans)
    lines += [f"damaged: column {hit.column:,}, {LANES[hit.lane]}, {hit.kind}, {hit.bits} bits" for hit in counted.hits[:SHOWN]]
    if len(counted.hits) > SHOWN:
        lines.append(f"and {len(counted.hits) - SHOWN:,} more")
    return lines + ([asked(counted, rate, confidence, at_most)] if at_most else [])


def words_of_rate(counted: Counted, rate: Rate, confidence: float) -> str:
    """Describes the rate in words."""
    of, sure = f"{counted.wrong:,} of {counted.bits:,} bits", f"({confidence:.0%} confidence)"
    if rate.upper is None:
        return f"bit error rate: {of} are seen to be wrong: at least {rate.rate:.2e}, without an upper limit: {rate.why}"
    if not counted.wrong:
        return f"bit error rate: {of}: at most {rate.upper:.2e} {sure}"
    between = f"{rate.lower:.2e} to {rate.upper:.2e} {sure}"
    if counted.videos:
        return f"bit error rate: {of} are seen to be wrong: about {rate.rate:.2e} with those that are not, {between}"
    return f"bit error rate: {of}: {rate.rate:.2e}, {between}"


def asked(counted: Counted, rate: Rate, confidence: float, at_most: float) -> str:
    """Says whether the rate is shown to be as low as required."""
    if rate.upper is not None and rate.upper <= at_most:
        return f"at most {at_most:g}: shown"
    if rate.lower > at_most:
        return f"at most {at_most:g}: the rate is higher"
    if rate.upper is None:
        return f"at most {at_most:g}: not shown: {rate.why}"
    wanted = math.ceil(-math.log((1 - confidence) / 2) / at_most)
    more = f", {wanted:,} bits without a wrong one would" if wanted > counted.bits else ""
    return f"at most {at_most:g}: not shown by {counted.bits:,} bits{more}"


def plain_of(path: Path, counted: Counted, rate: Rate, confidence: float, status: int) -> dict[str, Any]:
    """Returns the same as a value for JSON."""
    table = counted.table()
    return {
        "capture": str(path),
        "faulty": bool(status),
        "bits": counted.bits,
        "wrong_bits": counted.wrong,
        "damaged": sum(row["damaged"] for row in table),
        "relocked": bool(counted.reading.why),
        "notes": counted.reading.notes,
        "unread_columns": counted.unread,
        "rate": rate.rate if counted.bits else None,
        "lower": rate.lower,
        "upper": rate.upper,
        "why": rate.why,
        "confidence": confidence,
        "video": [video_plain(video) for video in counted.videos],
        "table": table,
        "clusters": clusters_of(counted.hits, counted.exposed, counted.spans),
        "hits": [hit._asdict() for hit in counted.hits[:10_000]],
    }


def parser() -> argparse.ArgumentParser:
    """Returns the tool's argument parser."""
    found = command.parser("errors", TEXT, FAULTY, EXAMPLES)
    command.add_capture(found)
    found.add_argument("--reference", metavar="CAPTURE", type=Path, help="a capture of the same content without damage")
    text = "a bit error rate: the status is 0 if the upper limit of the measured rate is at most that, otherwise 1"
    found.add_argument("--at-most", type=share, metavar="RATE", help=text)
    found.add_argument("--confidence", type=share, default=0.95, metavar="SHARE", help="of the limits (default: %(default)s)")
    command.add_dvi(found)
    command.add_json(found)
    return found


def work(argv: Sequence[str] | None) -> int:
    args = parser().parse_args(argv)
    counted = counted_of(args.capture, args.reference, args.dvi)
    rate = counted.rate(args.confidence)
    is_hurt = bool(counted.hits or counted.reading.slips or counted.unread and not args.reference)
    faulty = rate.upper is None or rate.upper > args.at_most if args.at_most else is_hurt
    status = command.FAULTY if faulty else command.DONE
    if args.json:
        print(json.dumps(plain_of(args.capture, counted, rate, args.confidence, status), indent=1))
    else:
        print("\n".join(lines_of(counted, rate, args.confidence, args.at_most)))
    return status


def main(argv: Sequence[str] | None = None) -> int:
    """Runs the tool with `argv`, or with the arguments of the command line. Returns the exit status."""
    return command.run("errors", lambda: work(argv))
