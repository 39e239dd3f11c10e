"""Rules on characters, periods, islands and the raster."""

from __future__ import annotations

from collections.abc import Iterator

import numpy as np

from vabgrot.formats.characters import LANES, LEAST_CONTROL
from vabgrot.judging.verdicts import Case, Verdict, counted, every_two, failed, is_near, is_seen, passed, unjudged

LEAST_EXTENDED = 32  # characters (HDMI 1.4, section 5.2.1.2)
MOST_APART = 0.05  # seconds
LEAST_CLOCK = 25e6  # Hz (HDMI 1.4, section 6.1)
OF_FAULTS = (  # a rule, the kinds of fault lines that break it, and what the capture must contain so that it can be judged
    ("control characters", ("word",), "control columns"),
    ("control period", ("short",), "openings"),
    ("preamble", ("preamble",), "openings"),
    ("opening", ("noise",), "control columns"),
    ("guard band", ("guard",), "openings"),
    ("whole periods", ("empty", "broken", "longline"), "openings"),
    ("island length", ("longisland",), "islands"),
    ("video coding", ("code",), "rows"),
    ("TERC4", ("symbols",), "packets"),
    ("packet parity", ("mended", "lost"), "packets"),
)


def counts_of(case: Case) -> dict[str, int]:
    """Counts the things that rules check."""
    record = case.record
    return {
        "control columns": int(record.periods[1].sum()),
        "openings": record.rows + len(record.islands),
        "islands": len(record.islands),
        "rows": record.rows,
        "packets": len(record.packets),
    }


def of_faults(case: Case, name: str, kinds: tuple[str, ...], of: str) -> Verdict:
    """Fails if the capture has fault lines of these kinds."""
    flaws = sorted(flaw for kind in kinds for flaw in case.record.flaws.get(kind, []))
    if flaws:
        lanes = sorted({flaw.lane for flaw in flaws if flaw.lane >= 0})
        where = f", on {' and '.join(LANES[lane] for lane in lanes)}" if lanes else ""
        told = ", ".join(counted(len(case.record.flaws[kind]), f"`! {kind}` line") for kind in kinds if kind in case.record.flaws)
        return failed(name, f"{told}{where}", flaws[0].at, len(flaws))
    count = counts_of(case)[of]
    return passed(name, f"{count:,} {of}") if count else unjudged(name, f"there are no {of}")


def control_period(case: Case) -> Verdict:
    """Judges the length of control periods. The words give the shortest one."""
    verdict = of_faults(case, "control period", ("short",), "openings")
    lengths = case.record.periods[1][1:-1]  # the capture may cut the first and the last one
    if verdict.state == "pass" and len(lengths):
        return passed("control period", f"{verdict.words}, the shortest control period has {max(int(lengths.min()), LEAST_CONTROL):,}")
    return verdict


def extended(case: Case) -> Verdict:
    """Fails if there is no extended control period every 50 ms."""
    name, record = "extended control period", case.record
    begins, lengths = record.periods
    long = lengths >= LEAST_EXTENDED
    if not record.columns:
        return unjudged(name, "nothing was received")
    firsts, ends = np.append(begins[long], record.columns), np.append(0, (begins + lengths)[long])
    gaps = firsts - ends
    at, widest = int(ends[gaps.argmax()]), int(gaps.max())
    came = counted(int(long.sum()), "extended control period")
    clock = case.clock
    if clock and widest > MOST_APART * clock:
        words = f"{came}; none in {widest:,} columns, {1000 * widest / clock:.1f} ms"
        return failed(name, words, at, int((gaps > MOST_APART * clock).sum()))
    if not long.any():
        length = f"{1000 * record.columns / clock:.1f} ms" if clock else "no known pixel clock (--clock)"
        return unjudged(name, f"none in {record.columns:,} columns, and the capture has {length}")
    if clock:
        return passed(name, f"{came}, at most {1000 * widest / clock:.2f} ms apart")
    if widest <= MOST_APART * LEAST_CLOCK:
        return passed(name, f"{came}, at most {widest:,} columns apart: less than 50 ms at any pixel clock from 25 MHz on")
    return unjudged(name, f"{came}, at most {widest:,} columns apart, and no pixel clock is known (--clock)")


def raster(case: Case) -> Verdict:
    """Fails if the raster is that of no format, or not steady."""
    if not case.timings:
        return unjudged("format", "no row of pixels was received")
    avis = [one for timing in case.timings for one in timing.notes if one.text.startswith("AVI InfoFrame")]
    first = case.timings[0]
    notes = [note.text for timing in case.timings for note in timing.notes if note.is_fault and note not in avis]
    heads = [one.head.text for one in case.timings if one.head.is_fault and is_near(one)]
    if heads or notes:
        return failed("format", "; ".join([*heads, *notes]), first.raster.spans[0][0], len(heads) + len(notes))
    if first.head.is_fault:
        near, wanted = [str(one) for one in first.matched.differences if " active" not in one.name], first.matched.wanted
        words = f"no format of CTA-861 or VESA DMT has this raster: {first.size}"
        return unjudged("format", f"{words}; {'; '.join(near)} ({wanted.name})" if wanted and near else words)
    return passed("format", first.head.text) if is_seen(first) else unjudged("format", "no whole line and frame were seen")


def avi_format(case: Case) -> Verdict:
    """Fails if the AVI InfoFrame does not name the format that is sent."""
    notes = [note for timing in case.timings for note in timing.notes if note.text.startswith("AVI InfoFrame")]
    wrong = [note.text for note in notes if note.is_fault]
    if wrong:
        return failed("AVI format", "; ".join(wrong), case.record.meter.avis[0][0], len(wrong))
    if not notes:
        return unjudged("AVI format", "no AVI InfoFrame that can be read came in a raster")
    if any("no timing of it is known" in note.text for note in notes):
        return unjudged("AVI format", notes[0].text)
    return passed("AVI format", notes[0].text)


def judged(case: Case) -> Iterator[Verdict]:
    """Yields the verdicts of these rules."""
    for name, kinds, of in OF_FAULTS:
        yield control_period(case) if name == "control period" else of_faults(case, name, kinds, of)
    yield extended(case)
    yield every_two(case, "island rate", "island", case.record.islands.tolist())
    yield raster(case)
    yield avi_format(case)
