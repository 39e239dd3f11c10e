"""Rules on single packets (InfoFrames, General Control and clock regeneration), and on reserved bits."""

from __future__ import annotations

from collections.abc import Callable, Iterator

import numpy as np

from vabgrot.events import Ints
from vabgrot.formats.layouts import LAYOUTS, LENGTHS, MOST_LENGTH, OTHER, Layout, Reserved, Type
from vabgrot.formats.modes import of_vic
from vabgrot.formats.names import DEPTHS
from vabgrot.infoframes import form_of, layout_of, numbers_of
from vabgrot.judging.record import Placed
from vabgrot.judging.verdicts import Case, Verdict, counted, every_two, failed, passed, unjudged
from vabgrot.packets import Packet

MUTE_WINDOW = 384  # columns
GROUPS = {5: 5, 6: 3, 7: 2}  # columns of a group of pixels, by CD of General Control
ASPECTS = {1: "4:3", 2: "16:9"}  # by M of an AVI InfoFrame
PHASES = {5: {0: 0, 2: 1, 3: 2, 4: 3}, 6: {0: 2, 2: 1}, 7: {0: 1}}  # the phase of the last pixel, by the columns after the last whole group


def first_of(name: str, found: list[tuple[Placed, str]], count: int, unit: str) -> Verdict:
    """Fails with the first of these packets and what is wrong with it. Without such packets it passes."""
    if found:
        one, words = found[0]
        more = f"; {counted(len(found), 'packet')} in all" if len(found) > 1 else ""
        return failed(name, f"{one.packet.name}: {words}{more}", one.at, len(found))
    return passed(name, counted(count, unit)) if count else unjudged(name, f"there is no {unit}")


def wrong_of(packets: list[Placed], wrong: Callable[[Packet], str]) -> list[tuple[Placed, str]]:
    """Returns the packets that are wrong, each with the error in words. Equal packets are checked once."""
    known: dict[tuple[bytes, bytes], str] = {}
    found = []
    for one in packets:
        key = bytes(one.packet.header), one.packet.bytes
        if key not in known:
            known[key] = wrong(one.packet)
        if known[key]:
            found.append((one, known[key]))
    return found


def length_of(packet: Packet) -> str:
    """Says what is wrong with an InfoFrame's length."""
    length, known = packet.length, LENGTHS.get((packet.kind, packet.version))
    if known is not None and length != known:
        return f"a length of {length}, wants {known}"
    return f"a length of {length}, wants at most {MOST_LENGTH}" if length > MOST_LENGTH else ""


def checksum_of(packet: Packet) -> str:
    """Says what is wrong with an InfoFrame's checksum, and what would explain it."""
    checksum, header, total = packet.bytes[0], packet.header, packet.total
    if not total or packet.length > MOST_LENGTH:
        return ""
    causes = {
        header[0]: "the type was left out of it",
        sum(header) % 256: "the header was left out of it",
        (sum(header) - header[0]) % 256: "of the header it has the type alone",
        2 * checksum % 256: "it is the sum, and not what makes the sum 0",
        1: "it is the complement of one, and not of two",
    }
    because = f": {causes[total]}" if total in causes else ""
    return f"its bytes sum to {total:02x}, and checksum {checksum:02x} wants {(checksum - total) % 256:02x}{because}"


def known_of(packet: Packet) -> Layout | None:
    """Returns the layout of a packet, or None if its type is not known or its version is newer than the known ones."""
    layout = layout_of(packet.header, packet.bytes) or form_of(packet.header)
    is_newer = packet.is_infoframe and layout is not None and layout.least is None and packet.version > layout.header[1]
    return None if is_newer else layout


def reserved_in(packet: Packet) -> tuple[Reserved, ...]:
    """Returns the reserved bits of a packet: those of its layout. For an InfoFrame without a known layout it returns those that all
    InfoFrames have."""
    layout = known_of(packet)
    if layout is None:
        return OTHER if packet.is_infoframe else ()
    return layout.reserved


def reserved_of(packet: Packet) -> str:
    """Says which reserved bits of a packet are not 0."""
    found = []
    for one in reserved_in(packet):
        byte, wrong = one.of(packet.header, packet.bytes)
        if wrong:
            found.append(f"{one.name} {byte:02x}, of which {one.mask:02x} is reserved")
    return "; ".join(found[:3])


def reserved(case: Case) -> list[tuple[Placed, str]]:
    """Returns the packets with reserved bits that are not 0. Packets with samples have reserved bits only in the header."""
    its = LAYOUTS["samples"].reserved
    wrong = [one for one in case.whole if one.packet.kind != Type.SAMPLES or any(it.of(one.packet.header, b"")[1] for it in its)]
    return wrong_of(wrong, reserved_of)


def values_of(packet: Packet) -> str:
    """Says which fields of an InfoFrame have a reserved value. The extended colorimetry counts only if it is used."""
    layout = known_of(packet)
    if layout is None or not packet.is_infoframe:
        return ""
    numbers, fields = numbers_of(layout, packet.header, packet.bytes), layout.all_fields
    is_unused = {"EC": numbers.get("C") != 3}
    judged = {name: fields[name].allowed for name in numbers if not is_unused.get(name)}
    wrong = [f"{name} {numbers[name]}" for name, allowed in judged.items() if allowed is not None and numbers[name] not in allowed]
    return f"{', '.join(wrong)}: {'a reserved value' if len(wrong) == 1 else 'reserved values'}" if wrong else ""


def aspect_of(packet: Packet) -> str:
    """Says whether an AVI InfoFrame gives another aspect ratio than its video code has."""
    its = packet.numbers
    vic, wanted = its.get("VIC", 0), of_vic(its.get("VIC", 0))
    says = ASPECTS.get(its.get("M", 0))
    if wanted is None or says is None or wanted.aspect not in ASPECTS.values() or wanted.aspect == says:
        return ""
    return f"M {its['M']} ({says}), and VIC {vic} has {wanted.aspect}"


def control_of(packet: Packet) -> str:
    """Says what is wrong with a General Control packet."""
    if any(body != packet.bodies[0] for body in packet.bodies):
        return "its four bodies are not alike"
    if packet.number("Set_AVMUTE") and packet.number("Clear_AVMUTE"):
        return "mute is both set and cleared"
    depth = packet.number("CD")
    return "" if depth in (LAYOUTS["control"].fields["CD"].allowed or ()) else f"the colour depth {depth} is reserved"


def mutes(case: Case) -> Verdict:
    """Fails if mute is set or cleared later than 384 columns after the edge of VSYNC."""
    name = "mute"
    which = [one for one in case.controls if (one.packet.number("Set_AVMUTE") or one.packet.number("Clear_AVMUTE"))]
    if not which:
        return unjudged(name, "no packet sets or clears mute")
    leads = np.array(sorted({edge for span in case.fields for edge in (span.begin, span.end)}), np.int64)
    late, open_ones = [], 0
    for one in which:
        place = int(np.searchsorted(leads, one.at, "right")) - 1
        if place < 0:
            open_ones += 1
        elif one.at - int(leads[place]) > MUTE_WINDOW:
            late.append((one, f"sent {one.at - int(leads[place]):,} columns behind VSYNC, wants at most {MUTE_WINDOW}"))
    if not late and open_ones == len(which):
        return unjudged(name, "no leading edge of VSYNC was seen before it")
    return first_of(name, late, len(which), "packet")


def depths(case: Case) -> Iterator[Verdict]:
    """Yields the rules of deep colour: General Control in each field, whole groups of pixels, and the phase."""
    deep = [one for one in case.controls if one.packet.number("CD") in GROUPS]
    if not deep:
        yield unjudged("deep colour", "no packet says more than 24 bits a pixel")
        yield unjudged("pixel packing phase", "no packet says more than 24 bits a pixel")
        return
    first, widths = case.record.spans.rows
    depth = deep[0].packet.number("CD")
    where = [span for span in case.fields if span.begin >= deep[0].at - MUTE_WINDOW]
    missing, doubtful = case.without([one.at for one in deep], where)
    behind = first > deep[0].at
    ragged = np.flatnonzero(behind & ~np.isin(widths % GROUPS[depth], list(PHASES[depth])))
    if len(ragged):
        at = int(ragged[0])
        words = f"a row of {int(widths[at]):,} columns has no whole pixels of {DEPTHS[depth]} bits, {counted(len(ragged), 'row')} in all"
        yield failed("deep colour", words, int(first[at]), len(ragged))
    elif missing:
        words = f"no general control packet with a depth in {counted(len(missing), 'field')}"
        yield failed("deep colour", words, missing[0].begin, len(missing))
    elif doubtful or not where:
        yield unjudged("deep colour", "no whole field was seen, or the link may have lost a packet in one")
    else:
        yield passed("deep colour", f"{DEPTHS[depth]} bits a pixel, {counted(len(where), 'field')}")
    yield phases(deep, first, widths)


def phases(deep: list[Placed], first: Ints, widths: Ints) -> Verdict:
    """Fails if a General Control packet does not give the phase of the last pixel before it."""
    wrong, judged = [], 0
    for one in deep:
        row = int(np.searchsorted(first, one.at)) - 1
        depth = one.packet.number("CD")
        wanted = PHASES[depth].get(int(widths[row]) % GROUPS[depth]) if row >= 0 else None
        if wanted is None:
            continue
        judged += 1
        phase = one.packet.number("PP")
        if phase != wanted:
            wrong.append((one, f"phase {phase}, wants {wanted}"))
    if not judged:
        return unjudged("pixel packing phase", "no row of whole pixels came before such a packet")
    return first_of("pixel packing phase", wrong, judged, "packet")


def judged(case: Case) -> Iterator[Verdict]:
    """Yields the verdicts of these rules."""
    frames = [one for one in case.whole if one.packet.is_infoframe]
    yield every_two(case, "AVI InfoFrame", "AVI InfoFrame", [one.at for one in frames if one.packet.kind == Type.AVI])
    yield first_of("InfoFrame length", wrong_of(frames, length_of), len(frames), "InfoFrame")
    yield first_of("checksum", wrong_of(frames, checksum_of), len(frames), "InfoFrame")
    yield first_of("reserved bits", reserved(case), len(case.whole), "packet")
    yield first_of("field values", wrong_of(frames, values_of), len(frames), "InfoFrame")
    avis = [one for one in frames if one.packet.kind == Type.AVI]
    yield first_of("picture aspect", wrong_of(avis, aspect_of), len(avis), "AVI InfoFrame")
    control = case.of_kind(Type.CONTROL)
    yield first_of("general control", wrong_of(control, control_of), len(control), "general control packet")
    yield mutes(case)
    yield from depths(case)
