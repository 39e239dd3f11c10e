"""The tool `packets`: the packets of a link: each with its time and what it says, as text, as a table, and as a pcap file for Wireshark."""

from __future__ import annotations

import argparse
import contextlib
import csv
import sys
from collections.abc import Callable, Iterator, Sequence
from fractions import Fraction
from typing import IO, Any, cast

import numpy as np

from vabgrot import command
from vabgrot.errors import Refused
from vabgrot.events import Ints
from vabgrot.flow.dissector import lua
from vabgrot.flow.islands import Islands, Kinds, Paced, pcap_head, pcap_records, said
from vabgrot.flow.pace import Pace
from vabgrot.flow.parts import opened
from vabgrot.replacing import naming
from vabgrot.tools.timing import positive

TEXT = """Lists the packets of a capture, or of a live link, one per line: time, column, name, what it says, and the time since the last
packet of its type. `lost` marks a packet with a block that could not be mended; its contents are not shown. `mended` marks a packet with a
mended block. At the end comes a table of all types with their intervals.

With --csv or --pcap, packets go into a file, and only the table is printed. A pcap file opens in Wireshark and tshark with the dissector
that `./vabgrot install` installs. Times are seconds from the first aligned column.

With --raw the input is raw blocks without a header and without an end. To watch a live link in Wireshark, pipe `--pcap -` into
`wireshark -k -i -`."""
FAULTY = "done, and a packet was lost or mended"
EXAMPLES = """./vabgrot make content < examples/bars.content > bars.tmc
tools/packets bars.tmc
tools/packets bars.tmc --csv packets.csv --pcap packets.pcap"""
HEADS = "seconds epoch column frame type name lost mended damaged interval says fields bytes".split()
TABLE = ("type", "name", "packets", "lost", "mended", "least ms", "mean ms", "most ms")
LEFT = 2  # columns of the table that are aligned at the left
Taker = Callable[[Islands, Ints, Fraction], None]


def parser() -> argparse.ArgumentParser:
    """Returns the tool's argument parser."""
    found = command.parser("packets", TEXT, FAULTY, EXAMPLES)
    found.add_argument("capture", metavar="CAPTURE", nargs="?", default="-", help="a file or a FIFO (default: standard input)")
    found.add_argument("--follow", action="store_true", help="at the end of the file, wait for more until the capture is whole")
    text = "read raw blocks without a header and without an end: 4,096 bytes of each lane in turn"
    found.add_argument("--raw", action="store_true", help=text)
    found.add_argument("--csv", metavar="FILE.csv", help="write a table of all packets; - is standard output")
    found.add_argument("--pcap", metavar="FILE.pcap", help="write all packets for Wireshark; - is standard output")
    found.add_argument("--clock", type=positive, metavar="HZ", help="the pixel clock of the link")
    text = "write Wireshark's dissector of these packets (Lua) to standard output, and end"
    found.add_argument("--dissector", action="store_true", help=text)
    return found


def seconds(column: int, clock: Fraction) -> str:
    """Returns the time of a column in seconds."""
    return f"{float(column / clock):.9f}"


def rows_of(its: Islands, behind: Ints, clock: Fraction) -> Iterator[tuple[Any, ...]]:
    """Yields the rows of packets, with the columns in HEADS."""
    found = its.packets
    numbers = np.stack([found.at, its.epoch, its.first, its.frame, its.lost, found.mended, found.wrong, behind], axis=1).tolist()
    for (at, epoch, column, frame, lost, mended, damaged, apart), row in zip(numbers, its.octets):
        octets = row.tobytes()
        name, says, fields = said(octets, bool(lost))
        since = seconds(apart, clock) if apart >= 0 else ""
        yield (
            *(seconds(at, clock), epoch, column, frame, f"{octets[0]:02x}", name, blocks(lost), blocks(mended), damaged, since),
            *(says, fields, octets.hex()),
        )


def blocks(bits: int) -> str:
    """Returns the numbers of blocks; 4 is the header."""
    return " ".join(str(block) for block in range(5) if bits >> block & 1)


def print_rows(its: Islands, behind: Ints, clock: Fraction) -> None:
    """Prints a line for each packet."""
    lines = []
    for at, epoch, column, _, _, name, lost, mended, damaged, since, says, _, _ in rows_of(its, behind, clock):
        flags = " [lost]" * bool(lost) + " [mended]" * bool(mended) + f" [{damaged} damaged characters]" * bool(damaged)
        where = f"epoch {epoch}, column {column:,}" if epoch else f"column {column:,}"
        apart = f" (+{1000 * float(since):.3f} ms)" if since else ""
        lines.append(f"{at} s, {where}: {name}{f': {says}' if says else ''}{flags}{apart}\n")
    sys.stdout.write("".join(lines))
    sys.stdout.flush()


@contextlib.contextmanager
def written_to(path: str, mode: str) -> Iterator[IO[Any]]:
    """Opens a file, or standard output."""
    if path == "-":
        yield cast(IO[Any], sys.stdout.buffer if "b" in mode else sys.stdout)
        return
    how: dict[str, Any] = {} if "b" in mode else {"encoding": "utf-8", "newline": ""}
    with naming(path), open(path, mode, **how) as file:
        yield file


@contextlib.contextmanager
def takers(args: argparse.Namespace) -> Iterator[list[Taker]]:
    """Yields the functions that write packets."""
    found: list[Taker] = []
    with contextlib.ExitStack() as stack:
        if args.csv:
            found.append(table(stack.enter_context(written_to(args.csv, "w"))))
        if args.pcap:
            found.append(pcap(stack.enter_context(written_to(args.pcap, "wb"))))
        yield found or [print_rows]


def table(file: IO[str]) -> Taker:
    """Returns a function that writes a table."""
    rows = csv.writer(file, lineterminator="\n")
    rows.writerow(HEADS)

    def take(its: Islands, behind: Ints, clock: Fraction) -> None:
        rows.writerows(rows_of(its, behind, clock))
        file.flush()

    return take


def pcap(file: IO[bytes]) -> Taker:
    """Returns a function that writes a pcap file."""
    file.write(pcap_head())

    def take(its: Islands, behind: Ints, clock: Fraction) -> None:
        file.write(pcap_records(its, clock))
        file.flush()

    return take


def table_of(kinds: Kinds, clock: Fraction) -> Iterator[str]:
    """Yields the lines of the table of types."""
    rows = [TABLE, *kinds.rows(clock)]
    widths = [max(map(len, column)) for column in zip(*rows)]
    for row in rows:
        cells = (cell.ljust(width) if at < LEFT else cell.rjust(width) for at, (cell, width) in enumerate(zip(row, widths)))
        yield "  ".join(cells).rstrip()


def work(argv: Sequence[str] | None) -> int:
    """Does the work of the tool. Returns the exit status."""
    args = parser().parse_args(argv)
    if args.dissector:
        print(lua(), end="")
        return command.DONE
    if args.csv == args.pcap == "-":
        raise Refused("only one of --csv and --pcap can be standard output")
    kinds, paced = Kinds(), Paced(Pace(args.clock))
    with opened(args.capture, False, args.raw, args.follow) as link, takers(args) as found:
        from vabgrot.tools.watch import stop_on_signals

        stop_on_signals(link.feed)

        def give(each: Iterator[Islands]) -> None:
            for its in each:
                behind = kinds.take(its)
                for take in found:
                    take(its, behind, paced.clock or Fraction(1))

        for part in link.parts():
            give(paced.take(part))
        give(paced.end())
        link.check()
    out = sys.stderr if "-" in (args.csv, args.pcap) else sys.stdout
    print("\n".join(table_of(kinds, paced.clock or Fraction(1))), file=out)
    if paced.note:
        print(f"packets: {paced.note}", file=sys.stderr)
    return command.FAULTY if kinds.lost.total() or kinds.mended.total() else command.DONE


def main(argv: Sequence[str] | None = None) -> int:
    """Runs the tool with `argv`, or with the arguments of the command line. Returns the exit status."""
    return command.run("packets", lambda: work(argv))
