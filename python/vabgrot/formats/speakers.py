"""Speakers for up to eight channels: the channel allocations of an audio InfoFrame (CTA-861, section 6.6), and the order of speakers and
the channel mask of a WAV file."""

from collections.abc import Sequence

# The channel allocations CA of an audio InfoFrame, 00 to 31 (hexadecimal): the speakers of channels 3 to 8; - means that a channel is not
# used. Channels 1 and 2 are always front left and right.
ALLOCATIONS = tuple(
    ("FL", "FR", *row.split())
    for row in """
-   -  -   -   -   -
LFE -  -   -   -   -
-   FC -   -   -   -
LFE FC -   -   -   -
-   -  RC  -   -   -
LFE -  RC  -   -   -
-   FC RC  -   -   -
LFE FC RC  -   -   -
-   -  RL  RR  -   -
LFE -  RL  RR  -   -
-   FC RL  RR  -   -
LFE FC RL  RR  -   -
-   -  RL  RR  RC  -
LFE -  RL  RR  RC  -
-   FC RL  RR  RC  -
LFE FC RL  RR  RC  -
-   -  RL  RR  RLC RRC
LFE -  RL  RR  RLC RRC
-   FC RL  RR  RLC RRC
LFE FC RL  RR  RLC RRC
-   -  -   -   FLC FRC
LFE -  -   -   FLC FRC
-   FC -   -   FLC FRC
LFE FC -   -   FLC FRC
-   -  RC  -   FLC FRC
LFE -  RC  -   FLC FRC
-   FC RC  -   FLC FRC
LFE FC RC  -   FLC FRC
-   -  RL  RR  FLC FRC
LFE -  RL  RR  FLC FRC
-   FC RL  RR  FLC FRC
LFE FC RL  RR  FLC FRC
-   FC RL  RR  FCH -
LFE FC RL  RR  FCH -
-   FC RL  RR  -   TC
LFE FC RL  RR  -   TC
-   -  RL  RR  FLH FRH
LFE -  RL  RR  FLH FRH
-   -  RL  RR  FLW FRW
LFE -  RL  RR  FLW FRW
-   FC RL  RR  RC  TC
LFE FC RL  RR  RC  TC
-   FC RL  RR  RC  FCH
LFE FC RL  RR  RC  FCH
-   FC RL  RR  FCH TC
LFE FC RL  RR  FCH TC
-   FC RL  RR  FLH FRH
LFE FC RL  RR  FLH FRH
-   FC RL  RR  FLW FRW
LFE FC RL  RR  FLW FRW
""".strip().splitlines()
)
NONE = "-"
WORDS = {
    "FL": "front left",
    "FR": "front right",
    "LFE": "low frequency effects",
    "FC": "front centre",
    "RC": "rear centre",
    "RL": "rear left",
    "RR": "rear right",
    "RLC": "rear left centre",
    "RRC": "rear right centre",
    "FLC": "front left centre",
    "FRC": "front right centre",
    "FCH": "front centre high",
    "TC": "top centre",
    "FLH": "front left high",
    "FRH": "front right high",
    "FLW": "front left wide",
    "FRW": "front right wide",
}
# The bits of a WAV file's channel mask, in the order of its channels. FLW and FRW have none.
MASK = {
    "FL": 0,
    "FR": 1,
    "FC": 2,
    "LFE": 3,
    "RL": 4,
    "RR": 5,
    "FLC": 6,
    "FRC": 7,
    "RC": 8,
    "TC": 11,
    "FLH": 12,
    "FCH": 13,
    "FRH": 14,
}
BESIDE = {"RL": 9, "RR": 10, "RLC": 4, "RRC": 5}  # with four rear speakers, the outer ones become the sides of a WAV file
USUAL = {
    1: 0x00,
    2: 0x00,
    3: 0x01,
    4: 0x08,
    5: 0x0A,
    6: 0x0B,
    7: 0x0F,
    8: 0x13,
}  # the usual allocation for this number of channels
SENT = {2: 0x00, 4: 0x03, 6: 0x0B, 8: 0x13}  # the lowest allocation that uses all of this many channels of a link


def speakers(allocation: int) -> tuple[str, ...]:
    """Returns the speakers of channels 1 to 8, `NONE` for a channel that is not used. An undefined allocation has none."""
    return ALLOCATIONS[allocation] if allocation < len(ALLOCATIONS) else ()


def words(allocation: int) -> str:
    """Describes the speakers of an allocation, channel by channel."""
    found = [speaker for speaker in speakers(allocation) if speaker != NONE]
    return " ".join(found) if found else "an allocation that is reserved"


def places(names: Sequence[str]) -> tuple[list[int], int]:
    """Returns the order of these speakers in a WAV file, and the channel mask. Speakers without a bit come last."""
    bits = MASK | (BESIDE if "RLC" in names else {})
    order = sorted(range(len(names)), key=lambda at: (bits.get(names[at], 32), at))
    return order, sum(1 << bits[name] for name in names if name in bits)


def of_mask(mask: int) -> int | None:
    """Returns the lowest allocation with exactly the speakers of a WAV file's channel mask, or None. Two rear speakers may use either
    pair of bits."""
    for allocation, row in enumerate(ALLOCATIONS):
        names = [name for name in row if name != NONE]
        masks = {places(names)[1], sum(1 << (MASK | {"RL": 9, "RR": 10}).get(name, 32) for name in names)}
        if mask in masks:
            return allocation
    return 0 if mask == 1 << MASK["FC"] else None
