"""Describes the characters at the faults of a page."""

from __future__ import annotations

from vabgrot.judging.naming import Column, Namer
from vabgrot.judging.spans import epoch_spans
from vabgrot.reading import Reading
from vabgrot.report.findings import Faults

MOST = 1000  # faults for which the characters are shown
OF_LANE = frozenset(("word", "code"))
OF_COLUMN = frozenset(("guard", "noise", "symbols", "mended"))


def characters_at(reading: Reading, faults: Faults) -> list[str]:
    """Returns for each fault what was received and what was expected, in the alignment of its epoch. Returns "" if that is not known, and
    after the first MOST faults."""
    says, namers = [""] * len(faults["kind"]), dict[int, Namer | None]()
    for number in range(min(MOST, len(says))):
        kind, epoch, column = faults["kind"][number], faults["epoch"][number], faults["column"][number]
        if kind not in OF_LANE | OF_COLUMN:
            continue
        if epoch not in namers:
            namers[epoch] = namer_of(reading, epoch)
        namer = namers[epoch]
        if namer is not None and column < namer.columns.count:
            says[number] = said_of(named(namer, kind, column, faults["more"][number]), faults["lane"][number])
    return says


def namer_of(reading: Reading, epoch: int) -> Namer | None:
    """Returns the namer for the characters of an epoch, or None if it was not aligned."""
    columns = reading.characters(reading.epochs[epoch])
    return Namer(epoch_spans(reading, reading.epochs[epoch], is_trusted=False), columns) if columns else None


def named(namer: Namer, kind: str, at: int, more: list[int]) -> Column:
    """Returns the column of a fault. For a block of a packet it is the one with the wrong bit."""
    if kind == "mended":
        block, bit = more
        at += bit if block == 4 else bit // 2
    return namer.at(at, 1)[0]


def said_of(column: Column, lane: int) -> str:
    """Describes the characters of a column, or of one lane, that are not as expected."""
    cells = [cell for cell in column.cells if cell.lane == lane or lane < 0 and cell.wanted]
    return "; ".join(f"lane {it.lane}: {it.word:03x}, {it.name}{', wants ' if it.wanted else ''}{it.wanted}" for it in cells)
