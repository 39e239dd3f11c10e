"""The sampling rates of a link and the codes of a channel status (IEC 60958-3)."""

from typing import NamedTuple

BLOCK = 192  # the samples of a channel status block (IEC 60958-1)


class Rate(NamedTuple):
    """A sampling rate, its N in clock regeneration packets (HDMI 1.4, section 7.2), and its code in the channel status."""

    hertz: int
    n: int
    code: int


RATES = {
    rate.hertz: rate
    for rate in (
        Rate(32000, 4096, 3),
        Rate(44100, 6272, 0),
        Rate(48000, 6144, 2),
        Rate(88200, 12544, 8),
        Rate(96000, 12288, 10),
        Rate(176400, 25088, 12),
        Rate(192000, 24576, 14),
    )
}
# The channel status says 24 bits by 1011 (at most 24, all used), 16 bits by 0010 (at most 20, 16 used).
WORD_LENGTHS = {16: 2, 24: 11}
CODED = {rate.code: rate.hertz for rate in RATES.values()} | {4: 22050, 6: 24000, 9: 768000}  # each code of a rate, in Hz
# The bits of a sample by bit 32 of the channel status and by its bits 33 to 35 as a number.
WORDS = {
    (0, 1): 16,
    (0, 2): 18,
    (0, 4): 19,
    (0, 5): 20,
    (0, 6): 17,
    (1, 1): 20,
    (1, 2): 22,
    (1, 4): 23,
    (1, 5): 24,
    (1, 6): 21,
}
ACCURACY = ("normal accuracy", "high accuracy", "variable pitch", "reserved accuracy")
