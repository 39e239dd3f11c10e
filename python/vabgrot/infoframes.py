"""Reads the fields of packets as numbers and as rows of text, with the table in `formats.layouts`."""

from __future__ import annotations

import re
from collections.abc import Mapping
from typing import NamedTuple

from vabgrot.formats import names
from vabgrot.formats.layouts import HEADER, LENGTH, Field, Layout, Line, Octets, Type, layouts_of
from vabgrot.formats.names import Words

TABLES = {name: value for name, value in vars(names).items() if isinstance(value, Words)}
HOLE = re.compile(r"\{([^:}]+):?([^}]*)\}")


class Row(NamedTuple):
    """A field of a packet: its name, its value in words, and its name and number in the standard."""

    name: str
    value: str
    number: str = ""


def text_of(data: bytes) -> str:
    """Returns a text of 7-bit characters."""
    return "".join(chr(byte & 127) if 32 <= byte & 127 < 127 else " " for byte in data).strip() or "(blank)"


def size_of(header: bytes) -> int:
    """Returns how many bytes from PB0 on belong to a packet. For an InfoFrame these are the checksum and the bytes within the length."""
    return LENGTH.of(header) + 1 if header[0] >= Type.INFOFRAMES else 28


def number_in(field: Field, header: bytes, data: bytes) -> int:
    """Returns the value of a field."""
    return field.of(header if field.in_header else data)


def numbers_of(layout: Layout, header: bytes, data: bytes) -> dict[str, int]:
    """Returns the values of the fields that are within the packet's length."""
    size = size_of(header)
    fields = layout.all_fields.items()
    return {name: number_in(it, header, data) for name, it in fields if it.end <= (HEADER if it.in_header else size)}


def form_of(header: bytes) -> Layout | None:
    """Returns the layout for a packet's type. For an InfoFrame it is the one of its version, or of the next lower known version."""
    known = sorted((it for it in layouts_of(header[0]) if not it.where), key=lambda it: it.header[1])
    lower = [it for it in known if it.header[1] <= header[1]]
    found = lower[-1:] or known[:1]
    return found[0] if found else None


def layout_of(header: bytes, data: bytes) -> Layout | None:
    """Returns the layout with which to read a packet, or None if its type, its version or its length is not known."""
    for it in layouts_of(header[0]):
        length, is_infoframe = LENGTH.of(header), it.is_infoframe
        if not is_infoframe or (length >= it.least if it.least else (header[1], length) == it.header[1:]):
            if all(it.all_fields[name].of(data) == number for name, number in it.where.items()):
                return it
    return None


def rows_of(layout: Layout, header: bytes, data: bytes) -> list[Row]:
    """Returns the rows of a packet."""
    numbers, within = numbers_of(layout, header, data), data[: size_of(header)]
    found: dict[str, Row] = {}
    for line in layout.lines:
        if line.name not in found and applies(line, layout, numbers):
            says, number = (written(text, layout.octets, numbers, within) for text in (line.says, line.number))
            found[line.name] = Row(line.name, says, number)
    return list(found.values())


def applies(line: Line, layout: Layout, numbers: Mapping[str, int]) -> bool:
    """Returns whether a row applies to a packet with these values."""
    named = {name for text in (line.says, line.number) for name, _ in HOLE.findall(text)} - layout.octets.keys()
    return named <= numbers.keys() and all(numbers.get(name) in values for name, values in line.when.items())


def written(text: str, octets: Mapping[str, Octets], numbers: Mapping[str, int], data: bytes) -> str:
    """Returns a row's text, filled with the values and bytes of a packet."""

    def filled(hole: re.Match[str]) -> str:
        name, how = hole.groups()
        if name not in octets:
            return in_form(numbers[name], how)
        first, most, empty = octets[name]
        most = numbers[most] if isinstance(most, str) else most
        part = data[first:] if most is None else data[first : first + most]
        return (text_of(part) if how == "text" else part.hex()) or empty

    return HOLE.sub(filled, text)


def in_form(number: int, how: str) -> str:
    """Formats a number as a row's text says."""
    if how in TABLES:
        return TABLES[how].of(number)
    if how.startswith("/"):
        by, digits = how[1:].split(".")
        return f"{number / int(by):.{digits}f}"
    return format(number, how)


def mode_name(vic: int) -> str:
    """Returns a video identification code in words."""
    return names.MODES.of(vic)


__all__ = ["Row", "form_of", "layout_of", "mode_name", "number_in", "numbers_of", "rows_of"]
