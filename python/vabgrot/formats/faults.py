"""The kinds of fault lines (docs/guide/FORMATS.md) and their properties. Each kind is declared once."""

from collections.abc import Callable
from dataclasses import dataclass

ROWS = ("lane", "structure", "packet", "slip")  # the rows of a timeline


@dataclass(frozen=True)
class Fault:
    """A kind of fault of a link: its row in a timeline, and its text.

    - `has_lane`: its first number is a lane.
    - `is_next`: it belongs to the next column.
    - `is_of_packet`: it follows the packet that begins at its column.
    - `is_uncounted`: it covers columns without giving their number.
    - `is_dense`: many of these faults in a few columns are a burst.
    - `is_of_skew`: lanes that are aligned at a wrong skew have it.
    - `hurts_picture`: it touches a frame."""

    kind: str
    row: str
    says: str
    has_lane: bool = False
    is_next: bool = False
    is_of_packet: bool = False
    is_uncounted: bool = False
    is_dense: bool = False
    is_of_skew: bool = False
    hurts_picture: bool = False


@dataclass(frozen=True)
class ContentFault:
    """A kind of fault of the contents, and its text. `is_limit`: it is not a fault of the source. The program does not read this, and the
    tools do."""

    kind: str
    says: str
    is_limit: bool = False
    hurts_picture: bool = False
    hurts_sound: bool = False


def _by_kind(*faults: Fault) -> dict[str, Fault]:
    return {fault.kind: fault for fault in faults}


LINK = _by_kind(
    Fault("word", "lane", "a character of a control column is no control character", has_lane=True, is_of_skew=True),
    Fault("short", "structure", "fewer than twelve control columns before what opens here", is_next=True, is_of_skew=True),
    Fault("preamble", "structure", "not the preamble of what opens here", is_next=True, is_of_skew=True),
    Fault("guard", "structure", "one of two guard columns is not a guard column", is_of_skew=True),
    Fault(
        "noise",
        "structure",
        "columns that open neither a row nor an island",
        is_next=True,
        is_uncounted=True,
        is_dense=True,
        is_of_skew=True,
        hurts_picture=True,
    ),
    Fault("empty", "structure", "a row without pixels, or an island without packets", hurts_picture=True),
    Fault(
        "code",
        "lane",
        "the first character of a row on its lane that does not code its own byte",
        has_lane=True,
        is_dense=True,
        hurts_picture=True,
    ),
    Fault("longline", "structure", "more than 4,096 pixels in a row", is_uncounted=True, hurts_picture=True),
    Fault("longisland", "packet", "the nineteenth packet of an island", is_of_packet=True),
    Fault("symbols", "packet", "characters of a packet that are not TERC4 characters", is_of_packet=True),
    Fault("mended", "packet", "a block of a packet with one wrong bit, which was mended", is_of_packet=True),
    Fault("lost", "packet", "a block of a packet with more wrong bits", is_of_packet=True),
    Fault(
        "broken",
        "structure",
        "a control column before a packet or an island's end was whole",
        is_next=True,
        is_uncounted=True,
        is_dense=True,
        hurts_picture=True,
    ),
    Fault("slip", "slip", "a lane lost bits; from here on the lanes are searched again", has_lane=True),
    Fault(
        "relock",
        "slip",
        "the alignment was dropped, because later guard bands are at another skew; from here on the lanes are searched again",
    ),
)
CONTENT = {
    fault.kind: fault
    for fault in (
        ContentFault("length", "an InfoFrame with another length than its kind has"),
        ContentFault("checksum", "an InfoFrame with a wrong checksum: its bytes do not sum to 0"),
        ContentFault("parity", "a side of a sample with odd parity", hurts_sound=True),
        ContentFault("layout", "samples of more than two channels, which are not read", is_limit=True, hurts_sound=True),
        ContentFault("uneven", "a clock regeneration packet with different copies", hurts_sound=True),
        ContentFault("depth", "a depth of colour other than 24 bits", is_limit=True),
        ContentFault("ragged", "a row that is not as wide as the first of its frame", hurts_picture=True),
        ContentFault("vic", "a frame of another size than its AVI InfoFrame says"),
    )
}


def kinds(has: Callable[[Fault], bool]) -> frozenset[str]:
    """Returns the kinds of faults of a link that have a property."""
    return frozenset(fault.kind for fault in LINK.values() if has(fault))


LANED = kinds(lambda fault: fault.has_lane)
NEXT = kinds(lambda fault: fault.is_next)
OF_PACKET = kinds(lambda fault: fault.is_of_packet)
UNCOUNTED = kinds(lambda fault: fault.is_uncounted)
DENSE = kinds(lambda fault: fault.is_dense)
ANEW = kinds(lambda fault: fault.row == "slip")  # they name a place in the capture; columns count from 0 again after them
OF_SKEW = kinds(lambda fault: fault.is_of_skew)
OF_PICTURE = kinds(lambda fault: fault.hurts_picture) | {it.kind for it in CONTENT.values() if it.hurts_picture}
OF_SOUND = {it.kind for it in CONTENT.values() if it.hurts_sound} | {"lost"}  # a lost packet may have carried samples
BY_ROW = tuple(sorted(LINK.values(), key=lambda fault: ROWS.index(fault.row)))  # in the order of a page
