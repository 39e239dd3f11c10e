"""The text that `lanes look` prints about the lanes of a capture, with the commands that repair it."""

import shlex
from collections.abc import Sequence
from pathlib import Path
from typing import NamedTuple

import numpy as np
from tqdm import tqdm

from vabgrot.formats.characters import ISLAND_GUARDS_0, MOST_SKEW, TEN
from vabgrot.lanes import openings
from vabgrot.lanes.columns import Columns, alignment_of
from vabgrot.lanes.encryption import Encryption, encryption_in
from vabgrot.lanes.kinds import LaneKind, kind_of
from vabgrot.lanes.looking import AS_IT_IS, BYTES, GUARD, OTHER, Bits, Ends, Fit, Turn, fit_of, looked
from vabgrot.lanes.looking import openings as paired

NO_LOCK = "no twelve control characters in a row in any bit order"
NOT_TOLD = "no guards: order and polarity cannot be told (DVI has none), or a wire of another lane is here"
FAR = "lanes more than 70 bits apart are not aligned"


class Looked(NamedTuple):
    """The result for the lanes of a capture: a line for each lane, lines about all three, whether they are right, the kind of each lane
    that does not lock, and how the link shows encryption."""

    lanes: list[str]
    says: list[str]
    is_right: bool
    kinds: list[LaneKind | None]
    encryption: Encryption | None = None


def lane_line(number: int, count: int, found: tuple[Turn, Ends] | None, kind: LaneKind | None) -> str:
    """Describes a lane of `count` bits."""
    if not found:
        return f"lane {number}: {count} bits, {NO_LOCK}: {kind}"
    turn, ends = found
    kinds = {"2cc": GUARD, "133": OTHER}
    counts = ", ".join(f"{int((ends.guards == kind).sum())} in {text}" for text, kind in kinds.items())
    islands = int(np.isin(ends.guards, ISLAND_GUARDS_0).sum())
    return (
        f"lane {number}: {count} bits, locks {turn} at place {ends.lock}; of {len(ends.places)} control periods "
        f"{counts} and {islands} in an island's guard of lane 0"
    )


def changes(fit: Fit, turns: Sequence[Turn]) -> str:
    """Returns the options of `lanes pack` that repair the lanes. Each lane has one bit order."""
    order = [fit.order.index(lane) for lane in range(3)]
    words = ["--order " + ",".join(map(str, order))] if order != [0, 1, 2] else []
    if fit.inverts:
        words.append("--invert " + ",".join(map(str, sorted(order[lane] for lane in fit.inverts))))
    units = {turn.unit for turn in turns}
    if units == {TEN}:
        words.append("--words 16")
    if units in ({TEN}, {BYTES.unit}):
        words.append("--msb")
    return " ".join(words)


def commands(tool: str, path: str, words: str, turns: Sequence[Turn], counts: Sequence[int]) -> str:
    """Returns the commands that repair a capture, ready to paste. They call the tool as the user did."""
    tool = shlex.quote(tool)
    stem = Path(path).with_suffix("")
    files = " ".join(shlex.quote(f"{stem}.lane{lane}") for lane in range(3))
    unit = turns[0].unit
    bits = ",".join(str((count - turn.start) // unit * unit) for count, turn in zip(counts, turns))
    kind, source = " --words 16" if unit == TEN else "", f" < {shlex.quote(path)}"
    unpack = f"{tool} unpack{kind} {files}"
    if any(turn.start for turn in turns):
        starts = ",".join(str(turn.start) for turn in turns)
        unpack, source = f"{tool} cut {shlex.quote(path)} --from {starts} | {unpack}", ""
    again = shlex.quote(f"{stem}.again.tmc")
    return f"{unpack}{source} && {tool} pack {words} --bits {bits} {files} > {again}"


def judged(tool: str, path: str, lanes: Sequence[bytes | bytearray], counts: Sequence[int]) -> Looked:
    """Examines the lanes of a capture. `tool` is how the user called `lanes`."""
    each, kinds, every = [], [], []
    for lane, count in zip(tqdm(lanes, unit="lane", disable=None), counts):
        bits = np.unpackbits(np.frombuffer(lane, np.uint8), bitorder="little")[:count]
        every.append(bits)
        each.append(looked(bits))
        kinds.append(None if each[-1] else kind_of(bits))
    lines = [lane_line(number, *found) for number, found in enumerate(zip(counts, each, kinds))]
    locked = [it for it in each if it is not None]
    if len(locked) < len(each):
        return Looked(lines, ["no alignment: not all lanes lock"], False, kinds)
    says, is_right = together(tool, path, every, counts, locked)
    encryption = encrypted(path, counts) if is_right or says == [NOT_TOLD] else None
    return Looked(lines, says + ([str(encryption)] if encryption else []), is_right, kinds, encryption)


def encrypted(path: str, counts: Sequence[int]) -> Encryption | None:
    """Returns how a capture shows encryption, if its lanes align."""
    starts = alignment_of(Path(path), 0, by_guards=False)
    return encryption_in(Columns(Path(path), starts, counts)) if starts else None


def far_of(tool: str, path: str, lanes: Sequence[Bits]) -> list[str]:
    """Returns a message if openings fit at a skew that is too large to align."""
    fits = openings.fits([bits[: openings.MOST_BITS] for bits in lanes])
    best = fits.best if fits else None
    if best is None or not best.openings or best.spread <= MOST_SKEW:
        return []
    starts, again = ",".join(map(str, best.cut)), shlex.quote(f"{Path(path).with_suffix('')}.again.tmc")
    fit = f"{best.openings} openings fit" if best.openings > 1 else "1 opening fits"
    return [
        f"no alignment: at the skew {best.made_words} {fit}, but {FAR}",
        f"to be pasted: {shlex.quote(tool)} cut {shlex.quote(path)} --from {starts} > {again}",
    ]


def together(
    tool: str, path: str, lanes: Sequence[Bits], counts: Sequence[int], locked: Sequence[tuple[Turn, Ends]]
) -> tuple[list[str], bool]:
    """Describes three lanes that lock, and says whether they are right."""
    turns = [turn for turn, _ in locked]
    is_turned = any(turn != AS_IT_IS for turn in turns)
    rows = paired([ends for _, ends in locked])
    fit, others = fit_of(rows) if rows.shape[1] else (Fit(0, (), ()), 0)
    if not fit.right:
        near = f"no alignment: no control periods of the three lanes end within {MOST_SKEW} bits"
        return (not is_turned and far_of(tool, path, lanes)) or [NOT_TOLD if rows.shape[1] else near], False
    words, share, units = changes(fit, turns), f"{fit.right} of {rows.shape[1]} openings", {turn.unit for turn in turns}
    if not words and units == {AS_IT_IS.unit}:
        return [f"right as it is: {share}"], True
    lines = []
    if units == {TEN}:
        doubt = "" if any(turn.start for turn in turns) else ", or its words were packed without --msb"
        lines.append(f"the serialiser sends the highest bit first{doubt}")
    turned = [f"lane {number} {turn}" for number, turn in enumerate(turns) if turn != AS_IT_IS]
    besides = f" and {', '.join(turned)}" if len(units) > 1 else ""
    doubt = f"; so they are with {others} other orders and polarities" if others else ""
    lines.append(f"with `{' '.join(['lanes pack', words]).strip()}`{besides}: {share} are right{doubt}")
    if not besides:
        lines.append(f"to be pasted: {commands(tool, path, words, turns, counts)}")
    return lines, False
