"""The table of the packets: its reserved bits are those that CTA-861 (section 6) and HDMI 1.4 (section 5.3) mark so, and nothing else in
the package or in the page takes a packet to pieces."""

import ast
import re

import pytest

from tests.support import TOP
from vabgrot import infoframes, making
from vabgrot.formats.layouts import LAYOUTS, Type
from vabgrot.judging.of_packets import reserved_of

ALL = dict.fromkeys((f"PB{byte}" for byte in range(28)), 0xFF)
HEADER = {"HB1": 0xFF, "HB2": 0xFF}
LENGTH = {"HB2": 0xE0}  # of all InfoFrames: the length has five bits (HDMI 1.4, table 5-15)


def each(first, last, mask=0xFF):
    """The masks of some bytes."""
    return {f"PB{byte}": mask for byte in range(first, last + 1)}


def bodies(*masks):
    """The masks of four like bodies."""
    return {f"PB{7 * body + byte}": mask for body in range(4) for byte, mask in masks}


RESERVED = {
    "null": HEADER | ALL,
    "clock": HEADER | bodies((0, 0xFF), (1, 0xF0), (4, 0xF0)),
    "samples": {"HB1": 0xE0},
    "control": HEADER | bodies((0, 0xEE), (2, 0xFE), *((byte, 0xFF) for byte in (3, 4, 5, 6))),
    "avi": LENGTH | {"PB1": 0x80, "PB4": 0x80},  # F17 and F47 of version 2
    "avi3": LENGTH,  # Y2 and VIC7
    "avi4": LENGTH | {"PB14": 0x0F},  # F143 to F140 behind ACE
    "product": LENGTH,
    "audio": LENGTH | {"PB1": 0x08, "PB2": 0xE0, "PB3": 0xE0, "PB5": 0x04} | each(6, 10),
    "hdmi": LENGTH | {"PB4": 0x1F},
    "3d": LENGTH | {"PB4": 0x1F, "PB5": 0x07},
    "forum": LENGTH,
    "dolby": LENGTH,
    "hdr10+": LENGTH,
    "vendor": LENGTH,
    "mpeg": LENGTH | {"PB5": 0xEC} | each(6, 10),
    "dynamic": LENGTH | {"PB1": 0xF8, "PB2": 0xF8},
    "acp": {"HB2": 0xFF},
    "isrc1": {"HB1": 0x38, "HB2": 0xFF} | each(16, 27),
    "isrc2": HEADER | each(16, 27),
    "one bit": {"HB1": 0xE0, "HB2": 0xF0},
    "DST": {"HB1": 0x3F, "HB2": 0xFF},
    "high rate": {"HB1": 0xFF, "HB2": 0x0F},
    "gamut": {"HB2": 0x40},
    "refresh": {"HB1": 0x3F},
    "extended": {"HB1": 0x3F},
}


@pytest.mark.parametrize("name", LAYOUTS)
def test_reserved_bits(name):
    assert {it.name: it.mask for it in LAYOUTS[name].reserved} == RESERVED[name]


@pytest.mark.parametrize(
    "kind, version, payload, wanted",
    [
        (0x82, 2, "10 00 00 81 00", "PB4 81, of which 80 is reserved"),
        (0x82, 2, "90 00 00 01 00", "PB1 90, of which 80 is reserved"),
        (0x82, 3, "90 00 00 81 00", ""),  # Y 4 and VIC 129
        (0x82, 4, "90 00 00 81 00 0000 0000 0000 0000 11", "PB14 11, of which 0f is reserved"),
        (0x82, 5, "90 00 00 81 00", ""),  # of a version that is not known the header alone is judged
        (0x84, 1, "11 00 e0 00 00", "PB3 e0, of which e0 is reserved"),
        (0x84, 2, "19 00 00 00 00", ""),
        (0x81, 1, "030c00 21 01", "PB4 21, of which 1f is reserved"),
        (0x81, 1, "030c00 40 07", "PB5 07, of which 07 is reserved"),
        (0x81, 1, "46d000 ff ff", ""),
        (0x90, 1, "ff", ""),
    ],
)
def test_which_infoframes_break_the_rule(kind, version, payload, wanted):
    assert reserved_of(making.infoframe(kind, version, bytes.fromhex(payload).ljust(13, b"\0"))) == wanted


@pytest.mark.parametrize("name", LAYOUTS)
def test_a_layout_is_whole(name):
    """Fields lie within the packet, rows name known fields and tables, and conditions have numbers that their fields take."""
    layout = LAYOUTS[name]
    fields, octets = layout.all_fields, layout.octets
    for it in fields.values():
        assert it.end <= (3 if it.in_header else 28 // layout.copies)
    for line in layout.lines:
        for label, how in infoframes.HOLE.findall(line.says + line.number):
            assert label in octets or (label in fields and re.fullmatch(r"|,|06x|/\d+\.\d", how) or how in infoframes.TABLES), line
        assert all(0 <= number <= fields[label].most for label, numbers in line.when.items() for number in numbers)
    assert layout.clause and all(label in fields for label in (*layout.where, *layout.preset))


# What a packet's bytes are called in the package and in the page.
BYTES = {"header", "headers", "bytes", "body", "bodies", "data", "octets", "payload", "packet"}
SHIFTED = re.compile(rf"\b(?:{'|'.join(BYTES)})\[[^\]]*\] *(?:>>|<<|&(?!&))|\bheader\[0\] *[!=]== *\d|\b0x8[1-7]\b")
READERS = {"formats/layouts.py", "page/infoframes.js", "page/words.js"}
NO_PACKETS = {  # lines that shift other bytes
    "hearing.py": "parts.append(data",  # samples that are packed
    "report/text.py": "octets[:, CARRIED:]",  # the sync values behind a packet
    "judging/diagnosis.py": "GENERATOR",  # of blocks
    "video/colours.py": "",  # pixels
    "page/colours.js": "",
    "lanes/words.py": "",  # words of lanes
    "page/strays.js": "",
}


def named(node):
    """The names in an expression that is indexed."""
    return {getattr(it, "id", getattr(it, "attr", "")) for it in ast.walk(node) if isinstance(it, (ast.Name, ast.Attribute))}


def takes_apart(node, text):
    """Whether an expression shifts or masks the bytes of a packet, compares its type with a number, or is the type of an InfoFrame."""
    if isinstance(node, ast.BinOp) and isinstance(node.op, (ast.RShift, ast.LShift, ast.BitAnd)):
        return isinstance(node.left, ast.Subscript) and bool(named(node.left.value) & BYTES)
    if isinstance(node, ast.Compare):
        is_kind = isinstance(node.left, ast.Attribute) and node.left.attr == "kind"
        return is_kind and any(isinstance(it, ast.Constant) and isinstance(it.value, int) for it in node.comparators)
    is_type = isinstance(node, ast.Constant) and type(node.value) is int and Type.VENDOR <= node.value <= Type.DYNAMIC
    return is_type and (ast.get_source_segment(text, node) or "").lower().startswith("0x")


def lines_of(path):
    """The lines of a module that take a packet to pieces."""
    text = path.read_text("utf-8")
    lines = text.splitlines()
    if path.suffix == ".js":
        return [line for line in lines if SHIFTED.search(line.partition(" // ")[0])]
    return [lines[node.lineno - 1] for node in ast.walk(ast.parse(text)) if takes_apart(node, text)]


def test_only_the_table_takes_packets_apart():
    package, page = TOP / "python" / "vabgrot", TOP / "page"
    paths = {str(path.relative_to(package)): path for path in (*package.rglob("*.py"), *package.rglob("*.js"))}
    paths |= {f"page/{path.name}": path for path in page.glob("*.js")}
    found = {name: lines_of(path) for name, path in paths.items() if name not in READERS}
    assert [(name, line) for name, lines in found.items() for line in lines if NO_PACKETS.get(name, "\0") not in line] == []
