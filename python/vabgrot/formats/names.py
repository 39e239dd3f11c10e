"""Words for the values of packet fields (CTA-861, section 6; HDMI 1.4, sections 5.3 and 8.2)."""

from __future__ import annotations

from collections.abc import Mapping
from functools import cache
from typing import NamedTuple

from vabgrot.formats import modes, speakers
from vabgrot.formats.audio import RATES


class Words(NamedTuple):
    """The words for the values of a field. `other` is for values without a word; `{}` there is the value."""

    known: Mapping[int, str]
    other: str = "code {}"

    def of(self, number: int) -> str:
        """Returns the words for a value."""
        return self.known.get(number) or self.other.format(number)


def _listed(*words: str, first: int = 0, other: str = "code {}") -> Words:
    """Makes the words for successive values."""
    return Words(dict(enumerate(words, first)), other)


# AVI InfoFrames (CTA-861, section 6.4).
FORMATS = _listed(
    *("RGB", "YCbCr 4:2:2", "YCbCr 4:4:4", "YCbCr 4:2:0", "reserved", "reserved", "reserved", "defined by IDO"),
)
ASPECTS = _listed("no aspect told", "4:3", "16:9", "reserved aspect")
COLORIMETRY = _listed("no colorimetry told", "SMPTE 170M (BT.601)", "BT.709", "extended colorimetry")
EXTENDED = _listed(
    *("xvYCC601", "xvYCC709", "sYCC601", "AdobeYCC601", "AdobeRGB", "BT.2020 of constant luminance", "BT.2020"),
    "additional colorimetry",
)
ADDITIONAL = _listed("DCI-P3 of D65", "DCI-P3 of a theatre", "BT.2100 ICtCp", "sRGB", "default RGB")
RANGES = _listed("default range", "limited range", "full range", "reserved range")
YCC_RANGES = _listed("limited range", "full range", "reserved range", "reserved range")
SCANS = _listed("no scan told", "overscanned", "underscanned", "reserved scan")
SCALINGS = _listed("none told", "scaled across", "scaled down", "scaled both ways")
IT_CONTENT = _listed("not told as IT content", "IT content")
CONTENTS = _listed("graphics", "photo", "cinema", "game")
REPETITIONS = _listed("once each", *(f"{times} times each" for times in range(2, 17)))
ACTIVE = Words(
    {
        **{2: "box 16:9, at the top", 3: "box 14:9, at the top", 4: "box over 16:9", 8: "as the picture"},
        **{9: "4:3", 10: "16:9", 11: "14:9", 13: "4:3, made for 14:9", 14: "16:9, made for 14:9", 15: "16:9, made for 4:3"},
    }
)

# Audio InfoFrames (CTA-861, section 6.6).
CHANNELS = _listed("channels by the stream", *(f"{count} channels" for count in range(2, 9)))
CODINGS = _listed(
    *("by the stream", "PCM", "AC-3", "MPEG-1", "MP3", "MPEG-2", "AAC", "DTS", "ATRAC", "One Bit Audio", "E-AC-3"),
    *("DTS-HD", "MAT", "DST", "WMA Pro", "extended"),
)
FURTHER = Words(
    {
        **{4: "HE AAC", 5: "HE AAC v2", 6: "AAC LC", 7: "DRA", 8: "HE AAC with MPEG Surround", 10: "AAC LC with MPEG Surround"},
        **{11: "MPEG-H 3D Audio", 12: "AC-4", 13: "3D Audio of PCM"},
    }
)
FREQUENCIES = (0, *RATES)  # by SF, in Hz; 0 means "as the stream says"
FREQUENCY_WORDS = _listed("by the stream", *(f"{hertz / 1000:g} kHz" for hertz in RATES))
SIZES = _listed("by the stream", "16 bits", "20 bits", "24 bits")
LFE_LEVELS = _listed("none told", "0 dB", "10 dB", "reserved")
DOWN_MIXES = _listed("allowed", "not allowed")
SPEAKERS = _listed(*map(speakers.words, range(len(speakers.ALLOCATIONS))), other="an allocation that is reserved")

# Other InfoFrames (CTA-861, sections 6.1, 6.5, 6.7 and 6.9; HDMI 1.4, section 8.2.3).
HDMI, FORUM = 0x000C03, 0xC45DD8  # the identifiers of vendor InfoFrames
DOLBY, HDR10_PLUS = 0x00D046, 0x90848B
SOURCES = _listed(
    *("unknown", "digital set-top box", "DVD player", "D-VHS", "hard disk recorder", "DVC", "digital still camera", "Video CD"),
    *("game console", "PC", "Blu-ray player", "Super Audio CD", "HD DVD", "PMP"),
    other="kind {}",
)
MPEG_FRAMES = _listed("no kind told", "I picture", "B picture", "P picture")
REPEATED = _listed("new", "repeated")
VIDEO_FORMATS = _listed(
    *("none beside the AVI InfoFrame's", "extended resolution", "3D"), other="format {}, which is reserved"
)
FOUR_K = _listed(
    *("3840 × 2160 at 30 Hz", "3840 × 2160 at 25 Hz", "3840 × 2160 at 24 Hz", "4096 × 2160 at 24 Hz"),
    first=1,
)
STRUCTURES = Words(
    {
        **{0: "frame packing", 1: "field alternative", 2: "line alternative", 3: "side by side, full", 4: "L and depth"},
        **{5: "L, depth, graphics and graphics depth", 6: "top and bottom", 8: "side by side, half"},
    }
)
SAMPLINGS = _listed(
    *(
        f"{kind}, {left} of the left and {right} of the right"
        for kind in ("across", "quincunx")
        for left in ("odd", "even")
        for right in ("odd", "even")
    )
)
METADATA = _listed("parallax", other="kind {}, which is reserved")
TOLD = _listed("none told", "told")
LOW_LATENCY = _listed("not asked for", "asked for")
CURVES = _listed("traditional gamma, SDR", "traditional gamma, HDR", "SMPTE ST 2084 (PQ)", "hybrid log-gamma")
DESCRIPTORS = _listed(*(f"type {number}" for number in range(1, 9)))

# Other packets (HDMI 1.4, section 5.3).
DEPTHS = {4: 24, 5: 30, 6: 36, 7: 48}  # the bits of a pixel, by CD
DEPTH_WORDS = Words({0: "no depth told"} | {code: f"{bits} bits" for code, bits in DEPTHS.items()}, "depth {}, which is reserved")
PHASES = _listed("at any phase", "at phase 0")
PROTECTIONS = _listed("generic audio", "audio identified by IEC 60958", "DVD-Audio", "Super Audio CD")
ISRC_STATES = Words({1: "starting", 2: "in the midst", 4: "ending"})
ISRC_ENDS = _listed("no", "in a second packet")
YES = _listed("no", "yes")
OWNERS = _listed("a vendor", "HDMI", "CTA-861", "VESA")  # owners of the data sets of extended metadata
DATA_SETS = _listed("periodic pseudo-static", "periodic dynamic", "unique", "reserved")
SEQUENCES = _listed("in the midst", "first", "last", "the only one")
PRECISIONS = _listed("8 bits", "10 bits", "12 bits", "reserved")
GAMUT_SPACES = _listed("BT.709", "xvYCC601", "xvYCC709", "XYZ")
GAMUT_FORMS = _listed("vertices", "a range")

# The formats of CTA-861 after those of `modes`: the first code, the size, and the rates of this code and the following ones.
LATER = """
108 1280x720 48;109 1280x720 48;110 1680x720 48;111 1920x1080 48;112 1920x1080 48;113 2560x1080 48;114 3840x2160 48
115 4096x2160 48;116 3840x2160 48;117 3840x2160 100,120,100,120;121 5120x2160 24,25,30,48,50,60,100;193 5120x2160 120
194 7680x4320 24,25,30,48,50,60,100,120,24,25,30,48,50,60,100,120;210 10240x4320 24,25,30,48,50,60,100,120
218 4096x2160 100,120
"""


def _later() -> dict[int, str]:
    """Returns the formats of LATER in words, by code."""
    found = {}
    for entry in LATER.strip().replace("\n", ";").split(";"):
        code, size, rates = entry.split()
        across, down = size.split("x")
        for more, rate in enumerate(rates.split(",")):
            found[int(code) + more] = f"{across} × {down} at {rate} Hz"
    return found


LATER_NAMES = _later()


@cache
def mode_name(vic: int) -> str:
    """Returns a video identification code in words."""
    if vic == 0:
        return "no video identification code"
    known = modes.of_vic(vic)
    if vic in modes.VICS:
        mode, rate, _ = modes.VICS[vic]
        return f"{mode.size[0]} × {mode.size[1]} at {rate} Hz (code {vic})"
    if known:
        width = known.across.active // (known.repetitions[0] + 1)
        times = f"{known.rate:.4g} fields a second, interlaced" if known.interlaced else f"{known.rate:.4g} Hz"
        return f"{width} × {known.rows} at {times} (code {vic})"
    return f"{LATER_NAMES[vic]} (code {vic})" if vic in LATER_NAMES else NO_MODE.format(vic)


NO_MODE = "video identification code {}"
CODED = sorted({0, *LATER_NAMES, *(code for code in range(256) if modes.of_vic(code))})
MODES = Words({code: mode_name(code) for code in CODED}, NO_MODE)
