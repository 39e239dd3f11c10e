"""Where rows and packets of a link listing begin, for tests that damage a character of them: columns are counted as docs/guide/FORMATS.md
says."""

from typing import NamedTuple

TAKES = {"i": 2, "e": 2, "p": 32}


class Counted(NamedTuple):
    """The columns of first pixels and of packets, and how many columns there are."""

    rows: list
    packets: list
    columns: int


def counted(listing):
    """Counts the columns of a link listing of HDMI without faults."""
    at, rows, packets = 0, [], []
    for line in listing.decode().splitlines():
        name, *fields = line.split(" ")
        if name == "c":
            at += int(fields[1])
        elif name == "v":
            rows.append(at + 2)
            at += 2 + len(fields[0]) // 6
        else:
            packets += [at] if name == "p" else []
            at += TAKES.get(name, 0)
    return Counted(rows, packets, at)


def bit_of(capture, listing, column):
    """The place of a column's characters among the bits of each lane of a capture without skew, by its link listing."""
    before = (len(capture) - 8) * 8 // 30 - counted(listing).columns  # what stands before the first aligned column
    return 10 * (column + before)


def place_of(capture, listing, row, column):
    """The same of a pixel of a row, by its number."""
    return bit_of(capture, listing, counted(listing).rows[row] + column)
