"""The one verdict on a capture: its link, its contents, its timing, the rules, and how much of it was judged.

Every tool takes its word, its headline, its status and its JSON from here.

| word           | when                                                            | faulty |
|----------------|-----------------------------------------------------------------|--------|
| Not aligned    | no place has a control period's end on all three lanes          | yes    |
| Encrypted      | the control periods say HDCP: pixels and packets are not judged | yes    |
| Link faulty    | the link lost or damaged something, or was aligned again        | yes    |
| Nothing judged | the lanes are aligned, and neither a row nor a packet came      | yes    |
| Source wrong   | the link is clean; a rule is broken, or a content is wrong      | yes    |
| Clean          | everything that was judged passed                               | no     |

The browser page has its words, its signs and its headline from here, too. It judges no rules, so it says `Link clean` and never `Clean`."""

from __future__ import annotations

import enum
from collections import Counter
from dataclasses import dataclass
from functools import cached_property
from typing import Any

import numpy as np

from vabgrot import reading as reader
from vabgrot.capture import Given, source_of
from vabgrot.content import Content, Packets, Vsync, samples_of
from vabgrot.events import ENDS, IS_LANED, WORDS, Events, Ints, Kind
from vabgrot.formats.faults import ANEW, CONTENT
from vabgrot.formats.layouts import LAYOUTS, Type
from vabgrot.judging.diagnosis import causes_of
from vabgrot.judging.judge import judged
from vabgrot.judging.record import record_of
from vabgrot.judging.spans import epoch_spans
from vabgrot.judging.verdicts import DAMAGED, FAIL, OPEN, ORDER, Case, counted, total_of
from vabgrot.judging.verdicts import Verdict as Ruling
from vabgrot.lanes.encryption import Encryption, Runs, encryption_of
from vabgrot.library import Grammar
from vabgrot.packets import content_of, is_other_size
from vabgrot.reading import Reading
from vabgrot.video.matching import Rate, Timing, change_note, timings
from vabgrot.video.raster import depths_of, meter_of
from vabgrot.video.timings import DEPTH

READ_AVI = LAYOUTS["avi"].header[1]  # the version of AVI InfoFrames that `recover content` reads
FEW = 5  # faults that are shown
MOST_WORDS = 100  # the most letters of a cause in the headline
FIRST = ("format", "AVI InfoFrame", "AVI format")  # broken rules that say most about a source come first
NO_PLACE = "the three lanes have no place at which a control period ends on all of them"
NOTHING_CAME = "neither a row nor a packet came"
LINK_CLEAN = "Link clean"
CONTENTS_WRONG = "contents wrong"
CUT_OFF = "the capture is cut off"
STRUCTURE = frozenset(("opening", "preamble", "guard band", "whole periods", "video coding", "control characters", "packet parity"))


class Word(enum.StrEnum):
    """The word of a verdict, worst first."""

    UNALIGNED = "Not aligned"
    ENCRYPTED = "Encrypted"
    LINK = "Link faulty"
    NOTHING = "Nothing judged"
    SOURCE = "Source wrong"
    CLEAN = "Clean"

    @property
    def sign(self) -> str:
        """The sign beside it on a page."""
        return {Word.CLEAN: "✓", Word.SOURCE: "!"}.get(self, "✗")

    @property
    def style(self) -> str:
        """The style of the head of a page."""
        return {Word.CLEAN: "clean", Word.SOURCE: "contents"}.get(self, "faulty")


@dataclass(frozen=True)
class Link:
    """The state of the link: faults by kind and lane (None if a kind has none), the first lines of every tool's output (`notes`), and
    whether the source explains all faults (`is_source`; the rules then say what it does wrong)."""

    is_aligned: bool
    counts: Counter[tuple[str, int | None]]
    notes: tuple[str, ...]  # slips, relocks, and a second reading
    is_source: bool

    @property
    def faults(self) -> int:
        """The number of faults."""
        return self.counts.total()

    @property
    def is_clean(self) -> bool:
        """Whether the link is right, whatever the source does."""
        return self.is_aligned and not self.notes and (not self.faults or self.is_source)

    @property
    def kinds(self) -> Counter[str]:
        """The number of faults of each kind."""
        kinds: Counter[str] = Counter()
        for (kind, _), times in self.counts.items():
            kinds[kind] += times
        return kinds

    @property
    def words(self) -> str:
        """The faults in words, slips first."""
        if not self.is_aligned:
            return NO_PLACE
        more = f" (and {len(self.notes) - 1:,} more)" if len(self.notes) > 1 else ""
        found = ", ".join(f"{times:,} {kind}" for kind, times in self.kinds.most_common() if kind not in ANEW)
        return "; ".join([f"{one}{more}" for one in self.notes[:1]] + ([found] if found else [])) or "no fault"


@dataclass(frozen=True)
class Coverage:
    """How much was judged: the number of columns, of unknown columns, and of rules by state; whether the file was cut off; and the bit of
    each lane after which nothing aligns (None if the last epoch is aligned)."""

    columns: int
    unread: int
    rules: Counter[str]
    is_cut_off: bool
    ends_at: int | None

    @property
    def words(self) -> str:
        """In words."""
        asked = self.rules.total()
        parts = [f"{asked - self.rules[OPEN]} of {asked} rules judged"] if asked else []
        if self.unread:
            parts.append(f"{self.unread:,} of {self.columns:,} columns not read")
        if self.ends_at is not None:
            parts.append(f"nothing aligns from bit {self.ends_at:,} on")
        if self.is_cut_off:
            parts.append(CUT_OFF)
        return ", ".join(parts)


@dataclass(frozen=True, eq=False, repr=False)
class Verdict:
    """All that is said of a capture: its `word` and `headline`, its `rules`, and what was read."""

    content: Content
    link: Link
    contents: Counter[str]
    rules: list[Ruling]
    case: Case
    encryption: Encryption | None = None

    @property
    def reading(self) -> Reading:
        """What was read."""
        return self.content.reading

    @property
    def timings(self) -> list[Timing]:
        """The result for each raster."""
        return self.case.timings

    @cached_property
    def broken(self) -> list[Ruling]:
        """The rules that the source breaks. Those that say most come first."""
        found = [one for one in self.rules if one.state == FAIL]
        return sorted(found, key=lambda one: (one.rule.name not in STRUCTURE, one.rule.name not in FIRST))

    @property
    def sorted_rules(self) -> list[Ruling]:
        """All rules, failures first."""
        return sorted(self.rules, key=lambda one: ORDER.index(one.state))

    @property
    def wrong_contents(self) -> dict[str, int]:
        """The number of wrong contents by kind, without those that only `recover content` cannot read."""
        return {kind: times for kind, times in self.contents.items() if times and not CONTENT[kind].is_limit}

    @property
    def timing_faults(self) -> list[str]:
        """The errors of the timing in words."""
        change = change_note(self.timings)
        notes = [change] if change else []
        return [note.text for note in notes + [note for one in self.timings for note in (one.head, *one.notes)] if note.is_fault]

    @property
    def word(self) -> Word:
        """The worst word that applies."""
        if not self.link.is_aligned:
            return Word.UNALIGNED
        if self.encryption:
            return Word.ENCRYPTED
        if not self.link.is_clean:
            return Word.LINK
        if not self.has_contents:
            return Word.NOTHING
        return Word.SOURCE if self.broken or self.wrong_contents else Word.CLEAN

    @property
    def has_contents(self) -> bool:
        """Whether there is a row or a packet."""
        return bool(len(self.reading.events.of(Kind.LINE, Kind.PACKET)))

    @property
    def is_faulty(self) -> bool:
        """Whether a tool exits with status 1."""
        return self.word != Word.CLEAN

    @cached_property
    def headline(self) -> str:
        """One line: the worst class, its first causes, and how much was judged."""
        link = self.link.words
        judged = f" ({self.coverage.words})" if self.coverage.words else ""
        if self.word == Word.UNALIGNED:
            return f"{self.word}: {link}{judged}"
        if self.encryption:
            return str(self.encryption)
        says = [LINK_CLEAN if self.link.is_clean else f"{Word.LINK}: {link}"]
        if self.broken:
            causes = list(dict.fromkeys(self.cause(one) for one in self.broken))
            more = [f"and {len(causes) - 2} more"] if len(causes) > 2 else []
            says += [f"{counted(len(self.broken), 'rule')} broken: {causes[0]}", *causes[1:2], *more]
        elif self.wrong_contents:
            says.append(f"{CONTENTS_WRONG}: {', '.join(f'{times:,} {kind}' for kind, times in self.wrong_contents.items())}")
        elif self.word == Word.NOTHING:
            says.append(NOTHING_CAME)
        return "; ".join(says) + judged

    def cause(self, one: Ruling) -> str:
        """Describes a broken rule in a few words."""
        if one.rule.name in ("format", "AVI format") and self.timings and self.timings[0].matched.wanted:
            matched = self.timings[0].matched
            first = next((it for it in matched.differences if one.rule.name == "format" or str(it) in one.words), None)
            if first and matched.wanted:
                return f"{first.name} {first.found} instead of {first.wanted} ({matched.wanted.name})"
        head, _, but = one.words.partition("; but ")
        says = f"{head.partition('), ')[0]})" if "), " in head else head
        words = (f"{says}, but {but}" if but else head).partition(";")[0]
        words = words if len(words) <= MOST_WORDS else f"{words[:MOST_WORDS].rsplit(' ', 1)[0]} .."
        return f"{one.rule.name}: {words}"

    @cached_property
    def coverage(self) -> Coverage:
        """How much was judged."""
        unread = int(sum((spans[:, 1] - spans[:, 0]).sum() for spans in (self.reading.gaps, self.reading.tails)))
        states = Counter(one.state for one in self.rules)
        return Coverage(self.reading.columns, unread, states, self.reading.bits.is_cut_off, self.reading.ends_at)

    @property
    def total(self) -> str:
        """The number of rules in each state, in words."""
        return total_of(self.rules)

    def __repr__(self) -> str:
        return f"Verdict({self.headline!r})"

    def __str__(self) -> str:
        """The headline, what every tool says first, the broken rules, and the first faults, a line each."""
        its = self.reading.events
        faults = its.faults[~np.isin(its.kind[its.faults], ENDS)]  # the notes have those
        return "\n".join([self.headline, *self.reading.notes, *(one.line for one in self.broken), *map(str, its.views(faults[:FEW]))])

    def causes(self) -> list[str]:
        """The common causes of faults in words. They come from the first epoch, because all epochs have the same source."""
        spans = epoch_spans(self.reading, self.reading.epochs[0])
        columns = self.reading.characters(self.reading.epochs[0]) if spans.faults else None
        return causes_of(self.reading.source, spans, columns) if columns and self.reading.source else []

    def plain(self) -> dict[str, Any]:
        """Returns the verdict as a value for JSON. Every tool's JSON contains it with the name `verdict`."""
        counts = [{"kind": kind, "lane": lane, "times": times} for (kind, lane), times in sorted(self.link.counts.items(), key=str)]
        epochs = [
            {"cause": one.cause.word if one.cause else "start", "lane": one.lane, "place": one.searched, "columns": one.columns}
            for one in self.reading.epochs
        ]
        link = {"aligned": self.link.is_aligned, "clean": self.link.is_clean, "read_as": self.reading.grammar}
        coverage = self.coverage
        return {
            "word": str(self.word),
            "faulty": self.is_faulty,
            "headline": self.headline,
            "link": link | {"read_anew": self.reading.why or None, "epochs": epochs, "faults": counts},
            "encrypted": self.encryption.how if self.encryption else None,
            "contents": dict(self.contents),
            "timing": {"faults": self.timing_faults, "rasters": len(self.timings)},
            "rules": {state: coverage.rules[state] for state in ORDER},
            "broken": [one.rule.name for one in self.broken],
            "coverage": {
                "columns": coverage.columns,
                "unread": coverage.unread,
                "cut_off": coverage.is_cut_off,
                "nothing_aligns_from": coverage.ends_at,
            },
        }


def counts_of(events: Events) -> Counter[tuple[str, int | None]]:
    """Counts the faults by kind and lane (None if a kind has none)."""
    faults = events.faults
    kinds = events.kind[faults].astype(np.int64)
    lanes = np.where(IS_LANED[kinds], events.value[faults], -1)
    keys, times = np.unique(np.column_stack([kinds, lanes]), axis=0, return_counts=True)
    both = zip(keys.tolist(), times.tolist())
    return Counter({(WORDS[kind], None if lane < 0 else lane): many for (kind, lane), many in both})


def said_by(places: Ints, numbers: list[int], at: Ints, first: int) -> Ints:
    """Returns the number that was last reported before each column. `places` are the columns of the reports. Before the first one the
    result is `first`."""
    found: Ints = np.append(first, np.array(numbers, np.int64))[np.searchsorted(places, at)]
    return found


def sizes_of(content: Content) -> Counter[str]:
    """Counts the rows of whole frames with a different width than the first row, and the frames with a different size than their
    InfoFrame gives. Frames in which something may be missing are left out."""
    reading, found = content.reading, Counter[str]()
    events, at = reading.events, reading.at
    avis, depths = content.packets.of(Type.AVI), depths_of(content.packets)
    right = [place for place, one in enumerate(avis) if one.version == READ_AVI and not content_of(one).faults]
    codes = [avis.packet(place).number("VIC") for place in right]
    for epoch in reading.epochs:
        its = np.flatnonzero(events.epoch == epoch.number)
        changes = its[np.array([place for place, _ in Vsync().changes(events[its])], np.int64)]
        rows = its[events.kind[its] == Kind.LINE]
        begins = np.searchsorted(rows, changes)
        ends = at[changes]
        vics = said_by(avis.at[right], codes, ends, 0)
        bits = said_by(np.array([place for place, _ in depths], np.int64), [depth for _, depth in depths], ends, DEPTH)
        for first, behind, begin, end, vic, depth in zip(begins, begins[1:], ends, ends[1:], vics[1:].tolist(), bits[1:].tolist()):
            widths = events.value[rows[first:behind]]
            if len(widths) and not content.losses.between(int(begin), int(end)):
                found["ragged"] += int((widths != widths[0]).sum())
                found["vic"] += is_other_size(vic, round(int(widths[0]) * DEPTH / depth), len(widths))
    return found


def contents_of(content: Content) -> Counter[str]:
    """Counts the wrong contents by kind (`formats.faults.CONTENT`), in undamaged packets and whole frames."""
    packets: Packets = content.packets[content.packets.intact]
    samples, found = samples_of(packets), sizes_of(content)
    found.update(parity=int(samples.odd.sum()), layout=int(samples.layouts.sum()))
    for packet in packets[(packets.kind != Type.NULL) & (packets.kind != Type.SAMPLES)]:
        found.update(fault.split()[0] for fault in content_of(packet).faults)
    return Counter({kind: found[kind] for kind in CONTENT if found[kind]})


def verdict_of(reading: Reading, rate: Rate = Rate()) -> Verdict:
    """Judges a capture that was read."""
    content = Content(reading)
    meter = meter_of(content)
    case = Case(content, record_of(content, meter), timings(meter, rate), rate)
    runs = reading.events.of(Kind.RUN)
    encryption = encryption_of(Runs(reading.at[runs], reading.events.width[runs], reading.events.value[runs]))
    rules = judged(case) if reading.is_aligned and not encryption else []
    notes = (*(one.words for one in reading.slips), *([reading.why] if reading.why else []))
    states = {one.state for one in rules}
    link = Link(reading.is_aligned, counts_of(reading.events), notes, bool(rules) and DAMAGED not in states)
    return Verdict(content, link, Counter() if encryption else contents_of(content), rules, case, encryption)


def judge(source: Given, *, kind: Grammar | None = None, rate: Rate = Rate(), is_shown: bool = False) -> Verdict:
    """Reads a capture (a file, its bytes, or an open binary file) and judges it. HDMI needs no `kind`: the lanes may lose bits, and are
    read anew if their alignment was wrong. Raises as `recover` does; but a capture that is cut off is read to its last whole block."""
    its = source_of(source)
    if kind is None:
        return verdict_of(reader.read(its, is_shown=is_shown), rate)
    reading, _ = reader.read_as(its, kind, is_shown=is_shown)
    return verdict_of(reading, rate)
