"""Applies all rules to a capture, and decides whether the source or the damage of the link causes a failure.

The damage is measured in control periods, where every wrong character shows. A kind of fault is the source's if it appears at least LEAST
times, and TIMES as often as this damage explains."""

from __future__ import annotations

from dataclasses import dataclass, replace
from functools import cached_property

import numpy as np

from vabgrot.content import Content
from vabgrot.formats.characters import PACKET
from vabgrot.formats.rules import OF_DVI, RULES
from vabgrot.judging import of_link, of_packets, of_sound
from vabgrot.judging.damage import in_rows
from vabgrot.judging.diagnosis import Physician
from vabgrot.judging.record import record_of
from vabgrot.judging.spans import epoch_spans
from vabgrot.judging.verdicts import DAMAGED, FAIL, Case, Verdict, unjudged
from vabgrot.reading import openings_of

LEAST, TIMES = 3, 4  # a fault is the source's from this number on, and if it is this many times as frequent as damage makes it
UNSEEN = 3  # events: if none was seen, there were at most this many, with 95 % confidence
LOOKED, SINGLE = 64, 2  # rows that are examined, and the most damaged characters of a row, on average
OF_OPENING = 60  # characters of an opening: preamble and guard bands, on both sides
OFTEN = 1e-3  # the share of damaged characters at which some damaged blocks of packets pass as correct
OF_CONTENTS = frozenset(("InfoFrame length", "checksum", "reserved bits", "general control", "clock regeneration", "sample parity"))
OF_RASTER = frozenset(("format", "AVI format"))
OF_PRESENCE = frozenset(("AVI InfoFrame", "audio InfoFrame", "samples a line"))  # a repaired packet counts as present, whatever it contains


@dataclass(frozen=True, eq=False)
class Damage:
    """How much of a capture the link damaged."""

    case: Case

    @cached_property
    def rate(self) -> float:
        """An upper limit of the share of damaged characters, measured in control periods."""
        control = 3 * int(self.case.record.periods[1].sum())
        return min(1.0, (len(self.case.record.flaws.get("word", [])) + UNSEEN) / control) if control else 1.0

    @cached_property
    def is_astray(self) -> bool:
        """Whether openings fit at first and none fits after some place: a lane lost whole characters, and the alignment was not renewed."""
        _, whole = openings_of(self.case.content.reading.events)
        right = np.flatnonzero(whole)
        return bool(len(right)) and len(whole) - 1 - int(right[-1]) >= 10 * LEAST

    @cached_property
    def makes_rasters(self) -> bool:
        """Whether damage explains a raster without a format: something was lost, and each number that fits no format was seen only once."""
        if not self.case.timings or not len(self.case.lost):
            return False
        raster = self.case.timings[0].raster
        figures = {f"H {name}": one for name, one in raster.across.items()}
        figures |= {f"V {name}": one for part in raster.down for name, one in part.items()}
        wrong = [figures[one.name] for one in self.case.timings[0].matched.differences if one.name in figures]
        return bool(wrong) and all(one.times == 1 for one in wrong)

    @cached_property
    def has_single_characters(self) -> bool:
        """Whether rows with wrong coding have only single wrong characters, so that damage explains them and an encoder's mistake does
        not."""
        reading = self.case.content.reading
        epoch = reading.epochs[0]
        columns = reading.characters(epoch)
        if columns is None:
            return False
        spans = epoch_spans(reading, epoch)
        spans = replace(spans, faults=[(kind, *more) for kind, *more in spans.faults if kind == "code"][:LOOKED])
        if not spans.faults or any(Physician(spans, columns).of_rows()):
            return False
        return sum(1 for _ in in_rows(spans, columns)) <= SINGLE * len(spans.faults)

    def is_source(self, name: str, kinds: tuple[str, ...], of: str) -> bool:
        """Whether there are more fault lines than the damage makes."""
        if self.is_astray or name == "video coding" and self.has_single_characters:
            return False
        flaws = [flaw for kind in kinds for flaw in self.case.record.flaws.get(kind, [])]
        items, characters = self.exposed(name, of)
        places = len({(flaw.at, flaw.lane) for flaw in flaws})
        by_link = 1 - (1 - self.rate) ** characters
        return places >= LEAST and places > TIMES * by_link * max(items, 1)

    def exposed(self, name: str, of: str) -> tuple[int, float]:
        """Returns how many things a rule checks, and how many characters each of them has."""
        record = self.case.record
        if name == "video coding":
            widths = record.spans.rows[1]
            return 3 * len(widths), float(widths.mean()) if len(widths) else 0.0
        if name == "control characters":
            return 3 * int(record.periods[1].sum()), 1.0
        return of_link.counts_of(self.case)[of], 3.0 * PACKET if of == "packets" else OF_OPENING

    def blamed(self, one: Verdict, intact: dict[str, Verdict]) -> Verdict:
        """Returns the verdict with the cause of a failure. `intact` are the verdicts that use undamaged packets only."""
        name, why = one.rule.name, ""
        if one.state != FAIL:
            return one
        if name in intact and intact[name].state != FAIL:
            why = "by packets with damage alone"
        elif name in OF_CONTENTS and one.times < LEAST and self.rate > OFTEN:
            why = "too few to be told from the damage of the link"
        elif name in OF_RASTER and self.makes_rasters:
            why = "seen once, beside the damage of the link"
        for rule, kinds, of in of_link.OF_FAULTS:
            if rule == name and not self.is_source(name, kinds, of):
                why = self.link_of(name)
        return replace(one, state=DAMAGED, words=f"{one.words}; {why}") if why else one

    def link_of(self, name: str) -> str:
        """Says why the link causes this kind of fault."""
        if self.is_astray:
            return "the lanes are aligned wrongly from some place on"
        is_single = name == "video coding" and self.has_single_characters
        return "single characters are damaged" if is_single else "no more than the damage of the link makes"


def of_contents(case: Case) -> dict[str, Verdict]:
    """Returns the verdicts on packets and sound."""
    return {one.rule.name: one for judge in (of_packets, of_sound) for one in judge.judged(case)}


def intact_of(case: Case) -> dict[str, Verdict]:
    """Returns the verdicts on packets and sound that use undamaged packets only. Returns nothing if all packets are undamaged."""
    packets = case.content.packets
    if packets.intact[~packets.lost].all():
        return {}
    content = Content(case.content.reading, is_intact=True)
    only = Case(content, record_of(content, case.record.meter), case.timings, case.rate)
    only.fields = case.fields
    return {name: one for name, one in of_contents(only).items() if name not in OF_PRESENCE}


def judged(case: Case) -> list[Verdict]:
    """Returns the verdict on each rule, in the order of the rules."""
    is_dvi, intact = case.record.spans.is_dvi, dict[str, Verdict]()
    found = {one.rule.name: one for one in of_link.judged(case)}
    if not is_dvi:
        contents = of_contents(case)
        intact = intact_of(case) if any(one.state == FAIL for one in contents.values()) else {}
        found |= contents
    damage = Damage(case)
    found = {name: damage.blamed(one, intact) for name, one in found.items()}
    if is_dvi:
        found = {name: replace(found[name], rule=replace(found[name].rule, clause=clause)) for name, clause in OF_DVI.items()}
    return [found.get(name) or unjudged(name, "a stream of DVI has none of it") for name in RULES]
