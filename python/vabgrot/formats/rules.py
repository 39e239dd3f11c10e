"""The rules for captures, each with the clause of the public standard that requires it."""

from __future__ import annotations

from dataclasses import dataclass


@dataclass(frozen=True)
class Rule:
    """A rule: its name, its text, and the clause."""

    name: str
    asks: str
    clause: str


def _by_name(*rules: Rule) -> dict[str, Rule]:
    return {rule.name: rule for rule in rules}


# The rules that also apply to DVI, with the clauses for DVI.
OF_DVI = {
    "control characters": "DVI 1.0, 3.2.2",
    "control period": "own, as of HDMI 1.4, 5.2.1.2",
    "video coding": "DVI 1.0, 3.2.2",
    "format": "CTA-861, 4",
}
RULES = _by_name(
    Rule("control characters", "each character of a control period is one of the four control characters", "HDMI 1.4, 5.4.2"),
    Rule("control period", "at least 12 characters before each row and island", "HDMI 1.4, 5.2.1.2"),
    Rule("extended control period", "one of at least 32 characters at least every 50 ms", "HDMI 1.4, 5.2.1.2"),
    Rule("preamble", "eight characters that announce what follows", "HDMI 1.4, 5.2.1.1"),
    Rule("opening", "a control period ends in the guard band of a row or of an island", "HDMI 1.4, 5.2.1.1"),
    Rule("guard band", "two columns before a row, two before an island and two behind it", "HDMI 1.4, 5.2.2.1 and 5.2.3.3"),
    Rule("whole periods", "a row has pixels, and an island whole packets and at least one", "HDMI 1.4, 5.2.2 and 5.2.3.1"),
    Rule("island length", "at most 18 packets", "HDMI 1.4, 5.2.3.1"),
    Rule("island rate", "at least one island in every two fields", "HDMI 1.4, 5.2.3.1"),
    Rule("video coding", "each character codes its byte at the disparity, which starts at 0 with each row", "HDMI 1.4, 5.4.4"),
    Rule("TERC4", "each character of a packet is one of the sixteen of TERC4", "HDMI 1.4, 5.4.3"),
    Rule("packet parity", "each block of a packet is a multiple of its generator", "HDMI 1.4, 5.2.3.5"),
    Rule("format", "the raster is that of its video format, and steady", "CTA-861, 4"),
    Rule("AVI InfoFrame", "at least one in every two fields", "HDMI 1.4, 8.2.1"),
    Rule("AVI format", "the InfoFrame names the format and the pixel repetition that are sent", "CTA-861, 6.4"),
    Rule("InfoFrame length", "the length is that of the type and version", "CTA-861, 6.2"),
    Rule("checksum", "the bytes of an InfoFrame sum to 0 modulo 256", "HDMI 1.4, 5.3.5"),
    Rule("reserved bits", "those of packets are 0", "HDMI 1.4, 5.3 and 8.2; CTA-861, 6"),
    Rule("field values", "fields of packets have no reserved values", "HDMI 1.4, 8.2; CTA-861, 6"),
    Rule("picture aspect", "the AVI InfoFrame says the aspect ratio of its video code, or none", "CTA-861, 6.4"),
    Rule("general control", "four like bodies; mute is not both set and cleared", "HDMI 1.4, 5.3.6"),
    Rule("mute", "is set or cleared within 384 columns from the leading edge of VSYNC on", "HDMI 1.4, 5.3.6"),
    Rule("deep colour", "general control in each field; a row has whole groups of pixels", "HDMI 1.4, 6.5.3"),
    Rule("pixel packing phase", "is that of the last pixel sent", "HDMI 1.4, 6.5.3"),
    Rule("clock regeneration", "is sent where samples are, four like bodies", "HDMI 1.4, 5.3.3 and 7.2"),
    Rule("N", "lies between 128 fs / 1500 and 128 fs / 300", "HDMI 1.4, 7.2.1"),
    Rule("sample rate", "N, CTS and the pixel clock make one of the seven rates", "HDMI 1.4, 7.2 and 7.3"),
    Rule("samples a line", "are on the average as many as N and CTS say", "HDMI 1.4, 7.8.1"),
    Rule("sample packets", "the samples of a packet follow one another from its first body on", "HDMI 1.4, 5.3.4"),
    Rule("sample parity", "the ones of each side, with V, U, C and P, are even", "IEC 60958-1, 4.1"),
    Rule("block start", "is marked every 192 samples", "IEC 60958-1, 4.1; HDMI 1.4, 5.3.4"),
    Rule("channel status", "is that of its channel, and names the rate that is sent", "IEC 60958-3, 5"),
    Rule("audio InfoFrame", "at least one in every two fields with samples", "HDMI 1.4, 8.2.2"),
    Rule("audio format", "the InfoFrame says the channels that are sent, and leaves the rest to the stream", "HDMI 1.4, 8.2.2"),
)
