"""Texts that both the report and the page share."""

ADVICE = (
    "Are the three files the three data lanes, and none of them the clock? A lane without control characters has no lock.",
    "Is a lane inverted (its pair swapped), or in the other bit order within bytes? “tools/lanes look” tries them.",
    "Are the lanes in the order blue, green, red? Lanes that are swapped lock, but what they carry is noise.",
    "Are the lanes more than 70 bits (seven characters) apart? “tools/lanes cut” cuts those that are late at their beginning.",
    "Is it long enough? Each lane must have twelve control characters in a row, which come once a row of pixels.",
    "Is the link scrambled (HDMI 2.0 above 340 MHz), or encrypted? The first is not read, of the other pixels are noise.",
)
NOT_EXACT = "So that the page stays small some pictures are not exact; where they are enlarged, damaged pixels are."
