"""Reads the lines of listings (docs/guide/FORMATS.md): names and fields, and a link listing as the same `Events` that a receiver reports.

A link listing does not give the number of columns of a `noise`, `broken` or `longline`. After one of these, columns are UNTOLD until a
line names one. Nothing is guessed: rows, packets and samples do not need columns, and a caller that needs them has the capture."""

from collections.abc import Iterable, Iterator
from dataclasses import dataclass, field
from itertools import chain
from typing import IO

import numpy as np

from vabgrot.errors import Refused
from vabgrot.events import ENDS, GUARDS, LANED, OF_PACKET, OF_WORD, UNTOLD, WHOLE, Events, Kind
from vabgrot.formats import faults
from vabgrot.formats.characters import PACKET
from vabgrot.formats.layouts import BODIES, BODY, HEADER

Line = tuple[int, str, list[str]]  # number (from 1), name, fields
MOST_COLUMNS = 20_000_000
ROW = b"v "  # the beginning of a row of a link listing; rows are long, so they are copied as rarely as possible
CONTENT = frozenset("vic mode row frame avi audio spd info acr gcp s packet ! cut".split())
SOUND = CONTENT | {"block"}
LINK = frozenset("c v i p e ! cut".split())
EITHER = CONTENT | LINK
ANY = SOUND | LINK
KINDS = {CONTENT: "content listing", SOUND: "content listing", LINK: "link listing", EITHER: "listing", ANY: "listing"}


def lines(source: IO[bytes], names: frozenset[str] = CONTENT, is_whole: bool = True, raw_rows: bool = False) -> Iterator[Line]:
    """Yields the lines of a listing up to the line `end`. If `is_whole` is False, the listing may stop after any line.

    With `raw_rows` a row of a link listing (line `v`) has one field with any content. That is faster if only the length matters. Raises
    Refused if a line does not belong to a listing with these names."""
    number = 0
    for number, line in enumerate(source, 1):
        if not line.endswith(b"\n"):
            raise Refused(f"line {number}: the listing ends within this line. Write the listing again")
        if line.startswith(ROW) and "v" in names:
            text = str(memoryview(line)[len(ROW) : -1], "latin-1" if raw_rows else "ascii", "replace")
            yield number, "v", [text] if raw_rows or " " not in text else text.split(" ")
            continue
        text = line[:-1].decode("ascii", "replace")
        name, *fields = text.split(" ")
        if name == "end":
            if source.read(1):
                raise Refused(f"line {number + 1}: it comes after the line `end`. Remove it, or the line `end` before it")
            return
        if name not in names or not fields:
            raise Refused(f"line {number}: `{text[:20].strip()}` does not begin a line of a {KINDS[names]}. FORMATS.md lists the lines")
        yield number, name, fields
    if not is_whole:
        return
    if number == 0:
        raise Refused("the input is empty. Send a capture or a listing to standard input")
    raise Refused(f"the {KINDS[names]} ends after {number} lines, without the line `end`. Write it again")


def either(source: IO[bytes], names: frozenset[str], other: frozenset[str]) -> tuple[bool, Iterator[Line]]:
    """Returns whether this is a link listing or a listing with the names `other`, and its lines. The first line that is not a fault
    decides."""
    every, first = lines(source, names), list[Line]()
    for line in every:
        first.append(line)
        if line[1] not in ("!", "cut"):
            break
    is_link = bool(first) and first[-1][1] in LINK
    return is_link, of_kind(chain(first, every), LINK if is_link else other)


def of_kind(lines: Iterable[Line], names: frozenset[str]) -> Iterator[Line]:
    """Yields lines. Raises Refused at the first one that belongs to another kind of listing."""
    for number, name, fields in lines:
        if name not in names:
            text = " ".join((name, *fields))[:20]
            raise Refused(f"line {number}: `{text}` does not begin a line of a {KINDS[names]}. FORMATS.md lists the lines")
        yield number, name, fields


def number(text: str, line: int) -> int:
    """Reads a decimal number. Errors name line `line`."""
    if not text.isdecimal():
        raise Refused(f"line {line}: `{text[:20]}` is not a decimal number. FORMATS.md lists the lines")
    return int(text)


def fields_of(fields: list[str], count: int, line: int) -> list[str]:
    """Returns the fields of a line. Raises Refused unless there are `count`."""
    if len(fields) != count:
        raise Refused(f"line {line}: it has {len(fields)} fields instead of {count}. FORMATS.md lists the lines")
    return fields


def digits(text: str, unit: int, line: int) -> bytes:
    """Reads hexadecimal digits as bytes. They form at least one unit of `unit` bytes. Raises Refused otherwise."""
    try:
        found = bytes.fromhex(text)
    except ValueError:
        found = b""
    if 2 * len(found) != len(text) or not found or len(found) % unit:
        raise Refused(f"line {line}: `{text[:20]}` is not a row of {2 * unit} hexadecimal digits each. FORMATS.md lists the lines")
    return found


PREAMBLE, CONTROLS = 0x3C, 0x04  # bits of a control column's value: those on lanes 1 and 2, and those before a line
FIELDS = 9
Row = tuple[int, int, int, int, int, int, int, int, int]  # the fields of Events, from kind to size


@dataclass
class Parser:
    """Makes events from the lines of a link listing. `guards` is the number of columns before the pixels of a line. If it is None, the
    preamble before the first line decides between HDMI and DVI."""

    guards: int | None
    rows: list[Row] = field(default_factory=list)
    data: bytearray = field(default_factory=bytearray)
    epoch: int = 0
    next: int = 0  # the next column, or UNTOLD
    value: int = 0  # the value of the last control columns
    last: str = ""  # the last line's name, or a fault's kind
    is_closing: bool = False  # whether the last line that is no fault closes an island

    def take(self, line: int, name: str, fields: list[str]) -> None:
        """Takes the next line."""
        match name:
            case "c":
                self.run(line, fields)
            case "v":
                self.row(line, fields)
            case "p":
                self.packet(line, fields)
            case "i" | "e":
                self.guard(Kind.OPEN if name == "i" else Kind.CLOSE, line, fields)
            case "cut":
                self.next = number(fields_of(fields, 1, line)[0], line)
                self.cover(Kind.CUT, 0, 0)
            case _:
                self.fault(line, fields)
        self.last = fields[0] if name == "!" else name
        self.is_closing = self.is_closing if name == "!" else name == "e"

    def cover(self, kind: Kind, width: int, value: int, second: int = 0, size: int = 0) -> None:
        """Adds an event for the next columns. The receiver reports a run and a line at the column after them, all others at their last
        column."""
        first = self.next
        if first != UNTOLD:
            self.next += width
        column = self.next if kind in (Kind.RUN, Kind.LINE) or first == UNTOLD else self.next - 1
        self.rows.append((kind, self.epoch, column, first, width, value, second, len(self.data) - size, size))

    def run(self, line: int, fields: list[str]) -> None:
        """Takes control columns."""
        digits, count = fields_of(fields, 2, line)
        self.value = hexadecimal(digits, line)
        self.cover(Kind.RUN, number(count, line), self.value)

    def row(self, line: int, fields: list[str]) -> None:
        """Takes pixels."""
        pixels = digits(fields_of(fields, 1, line)[0], 3, line)
        if self.guards is None:
            self.guards = GUARDS * (self.value & PREAMBLE == CONTROLS or self.last in ("preamble", "guard"))
        self.data += pixels
        self.cover(Kind.LINE, len(pixels) // 3 + self.guards, len(pixels) // 3, size=len(pixels))

    def packet(self, line: int, fields: list[str]) -> None:
        """Takes a packet."""
        head, *bodies, syncs = fields_of(fields, 6, line)
        parts = [digits(part, size, line) for part, size in zip((head, *bodies), (HEADER, *(BODY,) * BODIES))]
        if len(syncs) != PACKET or set(syncs) - set("0123"):
            raise Refused(f"line {line}: the last field is not {PACKET} sync values of 0 to 3. FORMATS.md lists the lines")
        self.data += b"".join(parts) + bytes(map(int, syncs))
        self.cover(Kind.PACKET, PACKET, parts[0][0], size=WHOLE)

    def guard(self, kind: Kind, line: int, fields: list[str]) -> None:
        """Takes the guards of an island."""
        text = fields_of(fields, 1, line)[0]
        if len(text) != GUARDS:
            raise Refused(f"line {line}: `{text[:20]}` is not the two digits of guards. FORMATS.md lists the lines")
        self.cover(kind, GUARDS, *(hexadecimal(digit, line) for digit in text))

    def fault(self, line: int, fields: list[str]) -> None:
        """Takes a fault, or the end of an epoch."""
        word, *texts = fields
        kind, numbers = OF_WORD.get(word), [number(text, line) for text in texts]
        if kind is None:
            raise Refused(f"line {line}: `{word[:20]}` is not a kind of fault. FORMATS.md lists the faults")
        if len(numbers) < 1 + (kind in LANED):
            raise Refused(f"line {line}: the fault has no place. FORMATS.md lists the lines")
        lane = numbers.pop(0) if kind in LANED else 0
        named, more = numbers[0], [*numbers[1:], 0, 0]
        is_empty = kind == Kind.EMPTY and not self.is_closing
        if word in faults.NEXT or is_empty:
            self.next = named
        elif kind in OF_PACKET:
            self.next = named + PACKET
        if kind == Kind.SYMBOLS:
            self.say_symbols(more[0])
        column = 0 if kind in ENDS else self.next
        self.rows.append((kind, self.epoch, column, named, 0, lane if kind in LANED else more[0], more[1], 0, 0))
        if kind in ENDS:
            self.epoch, self.next = self.epoch + 1, 0
        elif is_empty:
            self.next += GUARDS
        elif word in faults.UNCOUNTED:
            self.next = UNTOLD

    def say_symbols(self, count: int) -> None:
        """Sets the number of wrong characters of the last packet."""
        place = next((at for at in reversed(range(len(self.rows))) if self.rows[at][0] == Kind.PACKET), None)
        if place is not None:
            kind, epoch, column, first, width, value, _, offset, size = self.rows[place]
            self.rows[place] = (kind, epoch, column, first, width, value, count, offset, size)

    def events(self) -> Events:
        """Returns all events."""
        table = np.ascontiguousarray(np.array(self.rows, np.int64).reshape(-1, FIELDS).T)
        kind, epoch, column, first, width, value, second, offset, size = table
        data = np.frombuffer(bytes(self.data), np.uint8)
        return Events(kind.astype(np.uint8), epoch, column, first, width, value, second, offset, size, data)


def hexadecimal(text: str, line: int) -> int:
    """Reads a hexadecimal number."""
    try:
        return int(text, 16)
    except ValueError:
        raise Refused(f"line {line}: `{text[:20]}` is not a hexadecimal number. FORMATS.md lists the lines") from None


def parsed(source: Iterable[Line], is_dvi: bool | None = None) -> Events:
    """Returns the events of a link listing. Raises Refused if a line is wrong."""
    parser = Parser(None if is_dvi is None else GUARDS * (not is_dvi))
    for line in source:
        parser.take(*line)
    return parser.events()
