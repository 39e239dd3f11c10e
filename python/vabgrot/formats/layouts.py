"""The packets of data islands: for each kind its fields, its reserved bits and the rows that show it, with the clause of the standard.
All code that reads, makes or judges packets uses this table, also the page.

The text of a row has fields in braces. After a colon follows the format of the number: a table in `names`, a format of Python (`,` or
`06x`), or `/` with the divisor and the number of decimals. If several rows have the same name, the first one that applies is shown. A row
applies if its fields are within the packet's length and have the numbers in `when`."""

from __future__ import annotations

from collections.abc import Collection, Mapping
from dataclasses import dataclass, field
from enum import IntEnum
from functools import cached_property
from typing import Literal, NamedTuple

import numpy as np
import numpy.typing as npt

from vabgrot.formats.names import DEPTHS, DOLBY, FORUM, HDMI, HDR10_PLUS

HEADER, BODIES, BODY = 3, 4, 7  # bytes of a header, the bodies of a packet, and bytes of each
SIZE = BODIES * BODY
CARRIED = HEADER + SIZE
MOST_LENGTH = 27  # the greatest length of an InfoFrame
Bytes = npt.NDArray[np.uint8]


class Type(IntEnum):
    """The types of packets (HDMI 1.4, section 5.3.1) and of InfoFrames (CTA-861, section 6; HDMI adds 0x80)."""

    NULL = 0x00
    CLOCK = 0x01
    SAMPLES = 0x02
    CONTROL = 0x03
    PROTECTION = 0x04
    ISRC1 = 0x05
    ISRC2 = 0x06
    ONE_BIT = 0x07
    DST = 0x08
    HIGH_RATE = 0x09
    GAMUT = 0x0A
    EXTENDED = 0x7F  # HDMI 2.1, section 8.8
    INFOFRAMES = 0x80  # the types from here on are InfoFrames
    VENDOR = 0x81
    AVI = 0x82
    PRODUCT = 0x83
    AUDIO = 0x84
    MPEG = 0x85
    VBI = 0x86
    DYNAMIC = 0x87


NAMES: dict[int, str] = {
    Type.NULL: "Null",
    Type.CLOCK: "Audio clock",
    Type.SAMPLES: "Audio samples",
    Type.CONTROL: "General control",
    Type.PROTECTION: "Audio content protection",
    Type.ISRC1: "ISRC, first half",
    Type.ISRC2: "ISRC, second half",
    Type.ONE_BIT: "One Bit Audio samples",
    Type.DST: "DST audio",
    Type.HIGH_RATE: "High bit rate audio",
    Type.GAMUT: "Gamut metadata",
    Type.EXTENDED: "Extended metadata",
    Type.VENDOR: "Vendor InfoFrame",
    Type.AVI: "AVI InfoFrame",
    Type.PRODUCT: "Source product InfoFrame",
    Type.AUDIO: "Audio InfoFrame",
    Type.MPEG: "MPEG source InfoFrame",
    Type.VBI: "NTSC VBI InfoFrame",
    Type.DYNAMIC: "Dynamic range InfoFrame",
}


class Field(NamedTuple):
    """Some bits of a packet: the first byte (PB0 and on, with `in_header` HB0 and on), the lowest bit there, the number of bits, and the
    values that the standard allows (None: all). The low byte is first, unless `is_big` is set. In a packet with several copies the byte
    counts within each copy."""

    byte: int
    low: int
    bits: int
    in_header: bool = False
    is_big: bool = False
    allowed: Collection[int] | None = None

    @property
    def size(self) -> int:
        """The number of bytes it touches."""
        return (self.low + self.bits + 7) // 8

    @property
    def end(self) -> int:
        """The byte after it."""
        return self.byte + self.size

    @property
    def most(self) -> int:
        """The greatest value."""
        return (1 << self.bits) - 1

    @property
    def order(self) -> Literal["big", "little"]:
        """The order of its bytes."""
        return "big" if self.is_big else "little"

    def of(self, data: bytes) -> int:
        """Returns its value in a header, or in the bytes from PB0 on."""
        return int.from_bytes(data[self.byte : self.end], self.order) >> self.low & self.most

    def put(self, data: bytearray, number: int) -> None:
        """Writes a value."""
        old = int.from_bytes(data[self.byte : self.end], self.order)
        new = old & ~(self.most << self.low) | number << self.low
        data[self.byte : self.end] = new.to_bytes(self.size, self.order)

    def octets(self, rows: Bytes) -> Bytes:
        """Returns its bytes in each of many headers or bodies (the last axis)."""
        return rows[..., self.byte : self.end]

    def numbers(self, rows: Bytes) -> npt.NDArray[np.int64]:
        """Returns its value in each of many headers or bodies."""
        places = range(self.end - 1, self.byte - 1, -1) if self.is_big else range(self.byte, self.end)
        found = np.zeros(rows.shape[:-1], np.int64)
        for place, byte in enumerate(places):
            found |= rows[..., byte].astype(np.int64) << 8 * place
        return found >> self.low & self.most

    def flags(self, rows: Bytes) -> npt.NDArray[np.bool_]:
        """Returns its bits in each of many headers or bodies, lowest first, along a last axis."""
        found: npt.NDArray[np.bool_] = (self.numbers(rows)[..., None] >> np.arange(self.bits) & 1).astype(bool)
        return found


class Octets(NamedTuple):
    """Bytes that are shown unchanged: the first byte, how many (a number, a field's name, or None for all up to the length), and the text
    if there is none."""

    first: int
    most: int | str | None = None
    empty: str = ""


class Line(NamedTuple):
    """A row of a packet: its name, its text, its name in the standard, and the values with which it applies."""

    name: str
    says: str
    number: str = ""
    when: Mapping[str, Collection[int]] = {}


class Reserved(NamedTuple):
    """Bits that must be 0: their byte, a mask, and the byte's name in the standard."""

    in_header: bool
    byte: int
    mask: int
    name: str

    def of(self, header: bytes, data: bytes) -> tuple[int, int]:
        """Returns their byte in a packet, and those of the bits that are not 0."""
        byte = (header if self.in_header else data)[self.byte]
        return byte, byte & self.mask


def _header(byte: int, low: int, bits: int) -> Field:
    return Field(byte, low, bits, in_header=True)


VERSION, LENGTH = _header(1, 0, 8), _header(2, 0, 5)  # fields of each InfoFrame
IEEE = Field(1, 0, 24)  # the identifier of the vendor
COMMON = {"IEEE": IEEE}


@dataclass(frozen=True)
class Layout:
    """A kind of packet, chosen by its type, and for an InfoFrame by its version and length.

    - `where`: values that distinguish it from others of its type.
    - `least`: the length from which on it is read, if the length may vary.
    - `further`: fields that are read and judged, but not part of a packet that is made.
    - `preset`: values in a packet that is made.
    - `text`: where the characters begin in a packet that is made, and how many there are.
    - `judged`: the range of bytes in which bits without a field are reserved.
    - `is_strict`: `recover content` refuses another length.
    - `is_offered`: a source can be told to send it."""

    header: tuple[int, int, int]
    clause: str
    fields: Mapping[str, Field] = field(default_factory=dict)
    lines: tuple[Line, ...] = ()
    octets: Mapping[str, Octets] = field(default_factory=dict)
    where: Mapping[str, int] = field(default_factory=dict)
    least: int | None = None
    further: Mapping[str, Field] = field(default_factory=dict)
    preset: Mapping[str, int] = field(default_factory=dict)
    text: tuple[int, int] | None = None
    copies: int = 1
    judged: tuple[int, int] | None = None
    is_strict: bool = False
    is_offered: bool = False

    @property
    def is_infoframe(self) -> bool:
        """Whether it has a length and a checksum."""
        return self.header[0] >= Type.INFOFRAMES

    @cached_property
    def all_fields(self) -> dict[str, Field]:
        """All fields that can be read."""
        return {**COMMON, **self.fields, **self.further} if self.header[0] == Type.VENDOR else {**self.fields, **self.further}

    @cached_property
    def reserved(self) -> tuple[Reserved, ...]:
        """The bits that must be 0: those of the header and of the judged bytes that belong to no field."""
        used = {in_header: bytearray(SIZE) for in_header in (True, False)}
        for one in (*self.all_fields.values(), *([VERSION, LENGTH] if self.is_infoframe else [])):
            one.put(used[one.in_header], one.most)
        if self.text:
            first, count = self.text
            used[False][first : first + count] = b"\xff" * count
        found = [Reserved(True, byte, ~used[True][byte] & 0xFF, f"HB{byte}") for byte in (1, 2)]
        size = SIZE // self.copies
        first, stop = self.judged or ((1, self.header[2] + 1) if self.is_infoframe else (0, size))
        for copy in range(self.copies):
            of_copy = ((size * copy + byte, ~used[False][byte] & 0xFF) for byte in range(first, stop))
            found += [Reserved(False, byte, mask, f"PB{byte}") for byte, mask in of_copy]
        return tuple(one for one in found if one.mask)


def _alike(lines: str) -> tuple[Line, ...]:
    """Returns rows that show the word for a value. Each line has the name of the row, a field and a table."""
    parts = (line.split("|") for line in lines.strip().splitlines())
    return tuple(
        Line(name.strip(), f"{{{label.strip()}:{table.strip()}}}", f"{label.strip()} {{{label.strip()}}}") for name, label, table in parts
    )


AVI_2 = {
    **{"Y": Field(1, 5, 2, allowed=range(3)), "A": Field(1, 4, 1), "B": Field(1, 2, 2), "S": Field(1, 0, 2, allowed=range(3))},
    **{"C": Field(2, 6, 2), "M": Field(2, 4, 2, allowed=range(3)), "R": Field(2, 0, 4)},
    **{"ITC": Field(3, 7, 1), "EC": Field(3, 4, 3, allowed=range(5)), "Q": Field(3, 2, 2, allowed=range(3)), "SC": Field(3, 0, 2)},
    **{"VIC": Field(4, 0, 7), "YQ": Field(5, 6, 2, allowed=range(2)), "CN": Field(5, 4, 2), "PR": Field(5, 0, 4, allowed=range(10))},
    **{"top": Field(6, 0, 16), "bottom": Field(8, 0, 16), "left": Field(10, 0, 16), "right": Field(12, 0, 16)},
}
AVI_3 = {**AVI_2, "Y": Field(1, 5, 3, allowed=(0, 1, 2, 3, 7)), "EC": Field(3, 4, 3, allowed=range(7)), "VIC": Field(4, 0, 8)}
AVI_4 = {**AVI_3, "EC": Field(3, 4, 3), "ACE": Field(14, 4, 4)}
AVI_4_LINES = (
    *_alike("format|Y|FORMATS\npicture|VIC|MODES\naspect|M|ASPECTS"),
    Line("colour", "extended: {ACE:ADDITIONAL}", "C 3, EC 7, ACE {ACE}", {"C": (3,), "EC": (7,)}),
    Line("colour", "extended: {EC:EXTENDED}", "C 3, EC {EC}", {"C": (3,)}),
    *_alike("colour|C|COLORIMETRY\nrange|Q|RANGES\nYCbCr range|YQ|YCC_RANGES\nscan|S|SCANS"),
    Line("active aspect", "{R:ACTIVE}", "A 1, R {R}", {"A": (1,)}),
    Line("active aspect", "none told", "A 0, R {R}"),
    Line("bars", "top {top}, bottom {bottom}, left {left}, right {right}", "B {B}", {"B": (1, 2, 3)}),
    Line("bars", "none told", "B 0"),
    *_alike("content|ITC|IT_CONTENT"),
    Line("content type", "{CN:CONTENTS}", "CN {CN}", {"ITC": (1,)}),
    Line("content type", "none told", "CN {CN}"),
    *_alike("scaling|SC|SCALINGS\npixels sent|PR|REPETITIONS"),
)
AVI_LINES = tuple(line for line in AVI_4_LINES if "{ACE}" not in line.number)
AUDIO_FIELDS = {
    **{"CC": Field(1, 0, 3), "CT": Field(1, 4, 4), "SS": Field(2, 0, 2), "SF": Field(2, 2, 3), "CXT": Field(3, 0, 5)},
    **{"CA": Field(4, 0, 8, allowed=range(0x32)), "LFEPBL": Field(5, 0, 2, allowed=range(3)), "LSV": Field(5, 3, 4)},
    "DM_INH": Field(5, 7, 1),
}
AUDIO_LINES = (
    *_alike("channels|CC|CHANNELS"),
    Line("coding", "coding {CT:CODINGS}", "CT {CT}"),
    Line("extended coding", "{CXT:FURTHER}", "CXT {CXT}", {"CT": (15,)}),
    *_alike("rate|SF|FREQUENCY_WORDS\nsample|SS|SIZES\nspeakers|CA|SPEAKERS"),
    Line("level shift", "{LSV} dB", "LSV {LSV}"),
    *_alike("level of LFE|LFEPBL|LFE_LEVELS\ndown-mix|DM_INH|DOWN_MIXES"),
)
PRODUCT_LINES = (
    Line("vendor", "{vendor:text}"),
    Line("product", "{product:text}"),
    Line("kind of source", "{kind:SOURCES}", "{kind}"),
)
MPEG_LINES = (
    Line("bit rate", "none told", "MB 0", {"MB": (0,)}),
    Line("bit rate", "{MB:,} Hz", "MB {MB}"),
    *_alike("picture|MF|MPEG_FRAMES\nfield|FR|REPEATED"),
)
POINTS = {"primary 0": ("x0", "y0"), "primary 1": ("x1", "y1"), "primary 2": ("x2", "y2"), "white point": ("white_x", "white_y")}
DYNAMIC_FIELDS = {
    **{"EOTF": Field(1, 0, 3, allowed=range(4)), "Static_Metadata_Descriptor_ID": Field(2, 0, 3, allowed=(0,))},
    **{name: Field(3 + 2 * place, 0, 16) for place, name in enumerate(name for pair in POINTS.values() for name in pair)},
    **{name: Field(19 + 2 * place, 0, 16) for place, name in enumerate(("max", "min", "MaxCLL", "MaxFALL"))},
}
STATIC = {"Static_Metadata_Descriptor_ID": (0,)}
DYNAMIC_LINES = (
    *_alike("curve|EOTF|CURVES\nmetadata|Static_Metadata_Descriptor_ID|DESCRIPTORS"),
    *(Line(name, f"x {{{x}:/50000.5}}, y {{{y}:/50000.5}}", f"{{{x}}}, {{{y}}}", STATIC) for name, (x, y) in POINTS.items()),
    Line("greatest luminance", "{max} cd/m²", "{max}", STATIC),
    Line("least luminance", "{min:/10000.4} cd/m²", "{min}", STATIC),
    Line("content light level", "none told", "MaxCLL 0", STATIC | {"MaxCLL": (0,)}),
    Line("content light level", "at most {MaxCLL} cd/m²", "MaxCLL {MaxCLL}", STATIC),
    Line("frame's average", "none told", "MaxFALL 0", STATIC | {"MaxFALL": (0,)}),
    Line("frame's average", "at most {MaxFALL} cd/m²", "MaxFALL {MaxFALL}", STATIC),
    Line("payload", "{payload:hex}", "", {"Static_Metadata_Descriptor_ID": range(1, 8)}),
)
VENDOR_LINES = (
    Line("registered to", "HDMI Licensing", "IEEE {IEEE:06x}", {"IEEE": (HDMI,)}),
    Line("registered to", "HDMI Forum", "IEEE {IEEE:06x}", {"IEEE": (FORUM,)}),
    Line("registered to", "Dolby Laboratories", "IEEE {IEEE:06x}", {"IEEE": (DOLBY,)}),
    Line("registered to", "HDR10+ Technologies", "IEEE {IEEE:06x}", {"IEEE": (HDR10_PLUS,)}),
    Line("registered to", "IEEE {IEEE:06x}", "IEEE {IEEE:06x}"),
)
FORMAT = {"HDMI_Video_Format": Field(4, 5, 3, allowed=range(3))}
FORMAT_LINES = (*VENDOR_LINES, *_alike("video format|HDMI_Video_Format|VIDEO_FORMATS"))
FEW, MORE = range(8), range(8, 16)  # the numbers of 3D structures without and with 3D_Ext_Data
STEREO_FURTHER = {
    "3D_Meta_present": Field(5, 3, 1),
    **{"type in PB6": Field(6, 5, 3), "length in PB6": Field(6, 0, 5), "type in PB7": Field(7, 5, 3), "length in PB7": Field(7, 0, 5)},
}
STEREO_LINES = (
    *FORMAT_LINES,
    *_alike("structure|3D_Structure|STRUCTURES"),
    Line("samples", "{3D_Ext_Data:SAMPLINGS}", "3D_Ext_Data {3D_Ext_Data}", {"3D_Structure": MORE}),
    *(
        Line(
            "metadata",
            f"{{type in PB{byte}:METADATA}}: {{behind PB{byte}:hex}}",
            f"3D_Metadata_type {{type in PB{byte}}}",
            {"3D_Meta_present": (1,), "3D_Structure": structures},
        )
        for byte, structures in ((6, FEW), (7, MORE))
    ),
)
CONTROL_FIELDS = {
    **{"Set_AVMUTE": Field(0, 0, 1), "Clear_AVMUTE": Field(0, 4, 1), "CD": Field(1, 0, 4, allowed=(0, *DEPTHS))},
    **{"PP": Field(1, 4, 4), "Default_Phase": Field(2, 0, 1)},
}
MUTE = "Set_AVMUTE {Set_AVMUTE}, Clear_AVMUTE {Clear_AVMUTE}"
DEEP = {"CD": (5, 6, 7)}
LAST = "of the last column of pixels"
CONTROL_LINES = (
    Line("mute", "sets mute and clears mute", MUTE, {"Set_AVMUTE": (1,), "Clear_AVMUTE": (1,)}),
    Line("mute", "sets mute", MUTE, {"Set_AVMUTE": (1,)}),
    Line("mute", "clears mute", MUTE, {"Clear_AVMUTE": (1,)}),
    Line("mute", "as it is", MUTE),
    *_alike("depth of colour|CD|DEPTH_WORDS"),
    Line("packing phase", f"{LAST} 4", "PP 0", {"CD": (5,), "PP": (0,)}),
    Line("packing phase", f"{LAST} {{PP}}", "PP {PP}", DEEP),
    Line("rows begin", "{Default_Phase:PHASES}", "Default_Phase {Default_Phase}", DEEP),
)
ACP_FIELDS = {
    "DVD-Audio_Type_Dependent_Generation": Field(0, 0, 8),
    **{"Copy_Permission": Field(1, 6, 2), "Copy_Number": Field(1, 3, 3), "Quality": Field(1, 1, 2), "Transaction": Field(1, 0, 1)},
    "ACP_Type": _header(1, 0, 8),
}
GENERATION = "DVD-Audio_Type_Dependent_Generation"
DVD = {"ACP_Type": (2,)}
ACP_LINES = (
    *_alike("kind|ACP_Type|PROTECTIONS"),
    Line("generation", f"{{{GENERATION}}}", f"{GENERATION} {{{GENERATION}}}", DVD),
    Line(
        "copying",
        "permission {Copy_Permission}, number {Copy_Number}",
        "Copy_Permission {Copy_Permission}, Copy_Number {Copy_Number}",
        DVD,
    ),
    Line("quality", "{Quality}", "Quality {Quality}, Transaction {Transaction}", DVD),
    Line("copy control", "{CCI_1:hex}", "CCI_1", {"ACP_Type": (3,)}),
)
ISRC_FIELDS = {"ISRC_Status": _header(1, 0, 3), "ISRC_Valid": _header(1, 6, 1), "ISRC_Cont": _header(1, 7, 1)}
ISRC_LINES = (
    *_alike("status|ISRC_Status|ISRC_STATES\nvalid|ISRC_Valid|YES\ngoes on|ISRC_Cont|ISRC_ENDS"),
    Line("code", "{text:text}", "{text:hex}"),
)
GAMUT_FIELDS = {
    **{"Format_Flag": Field(0, 7, 1), "GBD_Color_Precision": Field(0, 3, 2), "GBD_Color_Space": Field(0, 0, 3)},
    **{"Affected_Gamut_Seq_Num": _header(1, 0, 4), "GBD_profile": _header(1, 4, 3), "Next_Field": _header(1, 7, 1)},
    **{"Current_Gamut_Seq_Num": _header(2, 0, 4), "Packet_Seq": _header(2, 4, 2), "No_Crnt_GBD": _header(2, 7, 1)},
}
BEGINS = "Next_Field {Next_Field}, Affected_Gamut_Seq_Num {Affected_Gamut_Seq_Num}"
NOW = "No_Crnt_GBD {No_Crnt_GBD}, Current_Gamut_Seq_Num {Current_Gamut_Seq_Num}"
P0 = {"GBD_profile": (0,), "Packet_Seq": (1, 3)}  # the first packet of profile P0
GAMUT_LINES = (
    Line("profile", "P{GBD_profile}", "GBD_profile {GBD_profile}"),
    *_alike("packet|Packet_Seq|SEQUENCES"),
    Line("begins", "with gamut {Affected_Gamut_Seq_Num}, at the next field", BEGINS, {"Next_Field": (1,)}),
    Line("begins", "with gamut {Affected_Gamut_Seq_Num}", BEGINS),
    Line("now", "no gamut", NOW, {"No_Crnt_GBD": (1,)}),
    Line("now", "gamut {Current_Gamut_Seq_Num}", NOW),
    Line("described by", "{Format_Flag:GAMUT_FORMS}", "Format_Flag {Format_Flag}", P0),
    Line("numbers", "{GBD_Color_Precision:PRECISIONS}", "GBD_Color_Precision {GBD_Color_Precision}", P0),
    Line("space", "{GBD_Color_Space:GAMUT_SPACES}", "GBD_Color_Space {GBD_Color_Space}", P0),
    Line("payload", "{payload:hex}"),
)
DOLBY_FIELDS = {"Low_Latency": Field(4, 0, 1), "Dolby_Vision_Signal": Field(4, 1, 1)}
HDR10_PLUS_FIELDS = {
    **{"Application_Version": Field(4, 6, 2), "Targeted_System_Display_Maximum_Luminance": Field(4, 1, 5)},
    "Average_Maxrgb": Field(5, 0, 8),
}
LUMINANCE = "Targeted_System_Display_Maximum_Luminance"
EXTENDED_FIELDS = {
    **{"First": _header(1, 7, 1), "Last": _header(1, 6, 1), "Sequence_Index": _header(2, 0, 8)},
    **{"New": Field(0, 7, 1), "End": Field(0, 6, 1), "DS_Type": Field(0, 4, 2), "AFR": Field(0, 3, 1), "VFR": Field(0, 2, 1)},
    **{"Sync": Field(0, 1, 1), "Organization_ID": Field(2, 0, 8), "Data_Set_Tag": Field(3, 0, 16, is_big=True)},
    "Data_Set_Length": Field(5, 0, 16, is_big=True),
}
FIRST = {"First": (1,)}
ORDER = "First {First}, Last {Last}, Sequence_Index {Sequence_Index}"
EXTENDED_LINES = (
    Line("packet", "the only one", ORDER, {"First": (1,), "Last": (1,)}),
    Line("packet", "first", ORDER, FIRST),
    Line("packet", "last, number {Sequence_Index}", ORDER, {"Last": (1,)}),
    Line("packet", "number {Sequence_Index}", ORDER),
    Line("organization", "{Organization_ID:OWNERS}", "Organization_ID {Organization_ID}", FIRST),
    Line("data set", "tag {Data_Set_Tag}", "Data_Set_Tag {Data_Set_Tag}", FIRST),
    Line("bytes", "{Data_Set_Length}", "Data_Set_Length {Data_Set_Length}", FIRST),
    Line("kind", "{DS_Type:DATA_SETS}", "DS_Type {DS_Type}", FIRST),
    Line("new", "{New:YES}", "New {New}, End {End}, AFR {AFR}, VFR {VFR}, Sync {Sync}", FIRST),
)
REFRESH_FIELDS = {  # video timing extended metadata
    **{"VRR_EN": Field(7, 0, 1), "M_CONST": Field(7, 1, 1), "FVA_Factor_M1": Field(7, 4, 4), "Base_Vfront": Field(8, 0, 8)},
    **{"RB": Field(9, 2, 1), "Base_Refresh_Rate": Field(9, 0, 10, is_big=True)},
}
REFRESH_LINES = (
    *_alike("variable refresh rate|VRR_EN|YES"),
    *_alike("constant M|M_CONST|YES"),
    Line("fast vertical active", "no", "FVA_Factor_M1 0", {"FVA_Factor_M1": (0,)}),
    Line("fast vertical active", "M1 {FVA_Factor_M1}", "FVA_Factor_M1 {FVA_Factor_M1}", {"FVA_Factor_M1": range(1, 16)}),
    Line("base front porch", "{Base_Vfront} lines", "Base_Vfront {Base_Vfront}"),
    Line("base rate", "{Base_Refresh_Rate} Hz", "Base_Refresh_Rate {Base_Refresh_Rate}"),
    *_alike("reduced blanking|RB|YES"),
    *EXTENDED_LINES,
)
NOTHING = (0, 0)  # no byte is judged: these bytes are sound, or follow from other fields
LAYOUTS = {
    "null": Layout((Type.NULL, 0, 0), "HDMI 1.4, 5.3.2"),
    "clock": Layout(
        (Type.CLOCK, 0, 0),
        "HDMI 1.4, 5.3.3",
        {"N": Field(4, 0, 20, is_big=True), "CTS": Field(1, 0, 20, is_big=True)},
        (Line("N", "{N}"), Line("CTS", "{CTS}")),
        copies=4,
    ),
    "samples": Layout(
        (Type.SAMPLES, 0, 0),
        "HDMI 1.4, 5.3.4",
        {
            **{"sample_present": _header(1, 0, 4), "layout": _header(1, 4, 1)},
            **{"sample_flat": _header(2, 0, 4), "B": _header(2, 4, 4)},
            **{"left": Field(0, 0, 24), "right": Field(3, 0, 24), "left VUCP": Field(6, 0, 4), "right VUCP": Field(6, 4, 4)},
            **{"left C": Field(6, 2, 1), "right C": Field(6, 6, 1)},
        },
        copies=4,
    ),
    "control": Layout((Type.CONTROL, 0, 0), "HDMI 1.4, 5.3.6", CONTROL_FIELDS, CONTROL_LINES, copies=4),
    "avi": Layout((Type.AVI, 2, 13), "CTA-861, 6.4", AVI_2, AVI_LINES, is_strict=True, is_offered=True),
    "avi3": Layout((Type.AVI, 3, 13), "CTA-861, 6.4", AVI_3, AVI_LINES, is_offered=True),
    "avi4": Layout((Type.AVI, 4, 14), "CTA-861, 6.4", AVI_4, AVI_4_LINES, is_offered=True),
    "product": Layout(
        (Type.PRODUCT, 1, 25),
        "CTA-861, 6.5",
        {"kind": Field(25, 0, 8, allowed=range(14))},
        PRODUCT_LINES,
        {"vendor": Octets(1, 8), "product": Octets(9, 16)},
        text=(1, 24),
        is_strict=True,
    ),
    "audio": Layout((Type.AUDIO, 1, 10), "CTA-861, 6.6", AUDIO_FIELDS, AUDIO_LINES, is_strict=True, is_offered=True),
    "hdmi": Layout(
        (Type.VENDOR, 1, 5),
        "HDMI 1.4, 8.2.3",
        FORMAT | {"HDMI_VIC": Field(5, 0, 8, allowed=range(1, 5))},
        (*FORMAT_LINES, Line("picture", "{HDMI_VIC:FOUR_K}", "HDMI_VIC {HDMI_VIC}", {"HDMI_Video_Format": (1,)})),
        where={"IEEE": HDMI},
        least=4,
        judged=(4, 5),
        is_offered=True,
    ),
    "3d": Layout(
        (Type.VENDOR, 1, 6),
        "HDMI 1.4, 8.2.3",
        FORMAT | {"3D_Structure": Field(5, 4, 4, allowed=(*range(7), 8)), "3D_Ext_Data": Field(6, 4, 4)},
        STEREO_LINES,
        {"behind PB6": Octets(7, "length in PB6"), "behind PB7": Octets(8, "length in PB7")},
        where={"IEEE": HDMI, "HDMI_Video_Format": 2},
        least=4,
        further=STEREO_FURTHER,
        judged=(4, 6),
        is_offered=True,
    ),
    "forum": Layout(
        (Type.VENDOR, 1, 7),
        "HDMI 2.0",
        {"3D_Valid": Field(5, 0, 1), "ALLM_Mode": Field(5, 1, 1)},
        (
            *VENDOR_LINES,
            Line("version", "{Version}"),
            *_alike("3D|3D_Valid|TOLD\nlow latency|ALLM_Mode|LOW_LATENCY"),
            Line("payload", "{payload:hex}"),
        ),
        {"payload": Octets(6, None, "no more payload")},
        where={"IEEE": FORUM},
        least=5,
        further={"Version": Field(4, 0, 8)},
        preset={"Version": 1},
        judged=NOTHING,
        is_offered=True,
    ),
    "dolby": Layout(
        (Type.VENDOR, 1, 27),
        "Dolby Vision",
        DOLBY_FIELDS,
        (*VENDOR_LINES, *_alike("Dolby Vision|Dolby_Vision_Signal|YES\nlow latency|Low_Latency|YES"), Line("payload", "{payload:hex}")),
        {"payload": Octets(5)},
        where={"IEEE": DOLBY},
        least=4,
        judged=NOTHING,
        is_offered=True,
    ),
    "hdr10+": Layout(
        (Type.VENDOR, 1, 27),
        "HDR10+",
        HDR10_PLUS_FIELDS,
        (
            *VENDOR_LINES,
            Line("HDR10+ version", "{Application_Version}", "Application_Version {Application_Version}"),
            Line("display luminance", f"code {{{LUMINANCE}}}", f"{LUMINANCE} {{{LUMINANCE}}}"),
            Line("average", "code {Average_Maxrgb}", "Average_Maxrgb {Average_Maxrgb}"),
            Line("payload", "{payload:hex}"),
        ),
        {"payload": Octets(6)},
        where={"IEEE": HDR10_PLUS},
        least=5,
        judged=NOTHING,
        is_offered=True,
    ),
    "vendor": Layout(
        (Type.VENDOR, 1, 3),
        "CTA-861, 6.1",
        {},
        (*VENDOR_LINES, Line("payload", "{payload:hex}")),
        {"payload": Octets(4, None, "no payload")},
        least=3,
        judged=NOTHING,
    ),
    "mpeg": Layout(
        (Type.MPEG, 1, 10),
        "CTA-861, 6.7",
        {"MB": Field(1, 0, 32), "MF": Field(5, 0, 2), "FR": Field(5, 4, 1)},
        MPEG_LINES,
        is_offered=True,
    ),
    "dynamic": Layout(
        (Type.DYNAMIC, 1, 26), "CTA-861, 6.9", DYNAMIC_FIELDS, DYNAMIC_LINES, {"payload": Octets(3, 24)}, is_offered=True
    ),
    "acp": Layout(
        (Type.PROTECTION, 0, 0),
        "HDMI 1.4, 5.3.7 and 9.3",
        ACP_FIELDS,
        ACP_LINES,
        {"CCI_1": Octets(0, 16)},
        judged=NOTHING,
        is_offered=True,
    ),
    "isrc1": Layout(
        (Type.ISRC1, 0, 0), "HDMI 1.4, 5.3.8", ISRC_FIELDS, ISRC_LINES, {"text": Octets(0, 16)}, text=(0, 16), is_offered=True
    ),
    "isrc2": Layout(
        (Type.ISRC2, 0, 0),
        "HDMI 1.4, 5.3.8",
        {},
        (Line("second half", "{text:text}", "{text:hex}"),),
        {"text": Octets(0, 16)},
        text=(0, 16),
        is_offered=True,
    ),
    "one bit": Layout(
        (Type.ONE_BIT, 0, 0),
        "HDMI 1.4, 5.3.9",
        {"samples_present": _header(1, 0, 4), "layout": _header(1, 4, 1), "samples_invalid": _header(2, 0, 4)},
        judged=NOTHING,
    ),
    "DST": Layout(
        (Type.DST, 0, 0),
        "HDMI 1.4, 5.3.10",
        {"frame_start": _header(1, 7, 1), "samples_invalid": _header(1, 6, 1)},
        judged=NOTHING,
    ),
    "high rate": Layout((Type.HIGH_RATE, 0, 0), "HDMI 1.4, 5.3.11", {"B": _header(2, 4, 4)}, judged=NOTHING),
    "gamut": Layout(
        (Type.GAMUT, 0, 0x30),
        "HDMI 1.4, 5.3.12",
        GAMUT_FIELDS,
        GAMUT_LINES,
        {"payload": Octets(0, 28)},
        judged=NOTHING,
        is_offered=True,
    ),
    "refresh": Layout(
        (Type.EXTENDED, 0, 0),
        "HDMI 2.1, 8.8 and 10.10",
        REFRESH_FIELDS,
        REFRESH_LINES,
        where={"Organization_ID": 1, "Data_Set_Tag": 1},
        further=EXTENDED_FIELDS,
        preset={"First": 1, "Last": 1, "New": 1, "End": 1, "Sync": 1, "Data_Set_Length": 4},
        judged=NOTHING,
        is_offered=True,
    ),
    "extended": Layout((Type.EXTENDED, 0, 0), "HDMI 2.1, 8.8", EXTENDED_FIELDS, EXTENDED_LINES, judged=NOTHING, is_offered=True),
}
OFFERED = {name: layout for name, layout in LAYOUTS.items() if layout.is_offered}
LENGTHS = {layout.header[:2]: layout.header[2] for layout in LAYOUTS.values() if layout.is_infoframe and layout.least is None}
OTHER = (Reserved(True, 2, 0xE0, "HB2"),)  # the reserved bits of an InfoFrame without a layout


def layouts_of(kind: int) -> list[Layout]:
    """Returns the layouts of a type. The one with the most conditions comes first."""
    return BY_TYPE.get(kind, [])


BY_TYPE: dict[int, list[Layout]] = {}
for _layout in sorted(LAYOUTS.values(), key=lambda one: -len(one.where)):
    BY_TYPE.setdefault(_layout.header[0], []).append(_layout)
