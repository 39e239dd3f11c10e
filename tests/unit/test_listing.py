"""vabgrot.listing: the lines of listings, and the events of a link listing. Columns are counted by hand from docs/guide/FORMATS.md: a line
has two guard columns before its pixels, an island two before its packets and two behind them, and a packet 32 columns."""

import io

import pytest

from tests.heard import lines_of
from vabgrot import listing
from vabgrot.errors import Refused
from vabgrot.events import UNTOLD, Kind

PACKET = ["82020d", *["00" * 7] * 4, "0" * 32]


def parsed(text, is_dvi=None):
    return listing.parsed(lines_of(text), is_dvi)


@pytest.mark.parametrize("is_raw", [True, False])
def test_rows_of_a_link_listing(is_raw):
    """A row is one field, unless it has spaces and is not raw; of a content listing no line begins with v."""
    text = b"c 00 12\nv 0102\nv 01 02\n" + "v \u00e9\n".encode("latin-1")
    found = [fields for _, name, fields in listing.lines(io.BytesIO(text), listing.LINK, False, is_raw) if name == "v"]
    assert found == ([["0102"], ["01 02"], ["\u00e9"]] if is_raw else [["0102"], ["01", "02"], ["\ufffd"]])
    with pytest.raises(Refused, match="line 1: `v 00` does not begin a line of a content listing"):
        list(listing.lines(io.BytesIO(b"v 00\n")))


def test_columns_of_a_line_and_of_an_island():
    found = parsed(
        f"""
c 00 4
c 04 8
v ff0000
c 00 12
c 14 8
i 00
p {' '.join(PACKET)}
e 00
c 00 12"""
    )
    assert [it.kind.word for it in found] == ["run", "run", "line", "run", "run", "open", "packet", "close", "run"]
    assert found.first.tolist() == [0, 4, 12, 15, 27, 35, 37, 69, 71] and found.width.tolist() == [4, 8, 3, 12, 8, 2, 32, 2, 12]
    assert found.column.tolist() == [4, 12, 15, 27, 35, 36, 68, 70, 83]
    assert (found[2].value, found[2].data, found[1].value, found[6].value) == (1, b"\xff\0\0", 4, 0x82)
    assert (found[6].header, found[6].bodies, found[6].syncs) == (bytes.fromhex("82020d"), (bytes(7),) * 4, bytes(32))


@pytest.mark.parametrize("is_dvi, before, width", [(None, "c 04 8", 3), (None, "c 00 8", 1), (True, "c 04 8", 1), (False, "c 00 8", 3)])
def test_guard_bands_are_known_by_the_preamble(is_dvi, before, width):
    """If it is not given, the value before the first line says whether the link is one of HDMI or of DVI."""
    assert parsed(f"{before}\nv 000000", is_dvi)[1].width == width


def test_a_wrong_preamble_is_one_of_hdmi():
    assert parsed("c 00 12\n! preamble 12\nv 000000")[2].width == 3


def test_columns_after_noise_are_untold_until_a_line_names_one():
    found = parsed("c 00 12\n! noise 12\nc 00 4\n! short 40\nc 00 1\ncut 41")
    assert [(it.kind.word, it.first) for it in found] == [
        ("run", 0),
        ("noise", 12),
        ("run", UNTOLD),
        ("short", 40),
        ("run", 40),
        ("cut", 41),
    ]


def test_a_fault_of_a_packet_is_behind_it():
    found = parsed(f"c 14 8\ni 00\np {' '.join(PACKET)}\n! symbols 10 3\n! mended 10 0 7\ne 00")
    assert (found[3].numbers, found[4].numbers, found[5].first, found[2].second) == ((10, 3), (10, 0, 7), 42, 3)


@pytest.mark.parametrize("line, kind, numbers", [("! slip 2 437", Kind.SLIP, (2, 437)), ("! relock 620", Kind.RELOCKED, (620,))])
def test_an_epoch_begins_anew(line, kind, numbers):
    found = parsed(f"c 00 20\n{line}\nc 00 5")
    assert [(it.kind, it.epoch, it.first) for it in found] == [(Kind.RUN, 0, 0), (kind, 0, numbers[-1]), (Kind.RUN, 1, 0)]
    assert (found[1].numbers, found[1].line) == (numbers, line)


@pytest.mark.parametrize(
    "line, says",
    [
        ("c 00 x", "line 1: `x` is not a decimal number. FORMATS.md lists the lines"),
        ("c zz 1", "line 1: `zz` is not a hexadecimal number. FORMATS.md lists the lines"),
        ("c 00", "line 1: it has 1 fields instead of 2. FORMATS.md lists the lines"),
        ("! code 1", "line 1: the fault has no place. FORMATS.md lists the lines"),
        ("! noise", "line 1: the fault has no place. FORMATS.md lists the lines"),
        ("! none 1", "line 1: `none` is not a kind of fault. FORMATS.md lists the faults"),
        ("p 00", "line 1: it has 1 fields instead of 6. FORMATS.md lists the lines"),
        ("i 0", "line 1: `0` is not the two digits of guards. FORMATS.md lists the lines"),
    ],
)
def test_refused(line, says):
    with pytest.raises(Refused) as why:
        parsed(line)
    assert str(why.value) == says
