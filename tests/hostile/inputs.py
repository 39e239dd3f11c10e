"""Inputs that the tables of the built program share: a small one of each kind, and large ones."""

from tests.models import model
from tests.support import READERS, run

SILENT = ("make", "slip", "relay")  # they read all before they write
ISLAND = b"""c 00 4
c 14 8
i 00
p 82020d 66000800010000 00000000000000 00000000000000 00000000000000 00000000000000000000000000000000
e 00
c 00 4
c 04 8
v ff0000
c 00 12
end
"""
CONTENT = b"mode 2 4 30 14 1 1 1 1 0\nacr 6144 27000\ns 000001 fffffe 1 2 1 0\nrow 0102030405ff\nframe 2 1\nend\n"
SOUND = ISLAND.replace(b"82020d 66000800010000 00000000000000", b"020310 56341200000000 00000001000000")
DVI = b"c 00 12\nv ff0000\nc 00 12\nend\n"
SLIPPED = b"c 00 4\nc 04 8\nv " + b"000000" * 30 + b"\nc 00 24\nc 04 8\nv ff0000\nc 00 12\nend\n"


def sources(program):
    """Each command with its input."""
    capture = run(program, ["make", "link"], ISLAND)[1]
    yield ["make", "link"], ISLAND
    yield ["make", "content"], CONTENT
    yield ["make", "dvi"], DVI
    for words in READERS:
        yield words, capture
    worn = run(program, ["make", "link"], SLIPPED)[1]
    yield ["slip", "2:300:3"], worn
    yield ["recover", "track"], run(program, ["slip", "2:300:3"], worn)[1]
    yield ["recover", "dvi"], run(program, ["make", "dvi"], DVI)[1]
    yield ["recover", "biphase", "0"], run(program, ["make", "link"], SOUND)[1]
    yield ["read", "biphase"], model.frame((0x123456, 0, 0, 0, 1)) + model.frame((0, 1, 2, 3, 0))
    yield ["relay"], capture


def busy(program):
    """A capture with a fault in each of many lines, so that what each reader writes of it is long."""
    lines = b"c 00 12\nc 04 8\nv " + b"10fe33" * 4 + b"\n"
    capture = run(program, ["make", "link"], lines * 6000 + b"c 00 12\nend\n")[1]
    return run(program, ["damage", *(f"2:{10 * (22 + 26 * line)}:2aa" for line in range(5900))], capture)[1]


def frames(rows, count):
    """A content of frames of 400 pixels across."""
    frame = b"acr 6144 27000\n" + (b"row " + b"0a141e" * 400 + b"\n") * rows + b"frame 400 %d\n" % rows
    return b"mode 400 4 30 14 %d 1 1 1 0\n" % rows + frame * count + b"end\n"


def noisy(program):
    """A capture of 7,200 samples."""
    island = b"c 00 4\nc 14 8\n" + b"".join(SOUND.split(b"c 14 8\n")[1].partition(b"e 00\n")[:2])
    island = island.replace(b"020310 56341200000000 00000001000000", b"020f10" + b" 56341200000000" * 2)
    return run(program, ["make", "link"], island * 1800 + b"c 00 12\nend\n")[1]
