"""Makes packets from the values of their fields, with the names that CTA-861 and HDMI 1.4 use. `infoframes` reads them back."""

from collections.abc import Mapping

from vabgrot.errors import Refused
from vabgrot.formats.layouts import BODIES, BODY, LAYOUTS, SIZE
from vabgrot.formats.layouts import OFFERED as OFFERED
from vabgrot.packets import STRICT, Packet


def packet(kind: str, numbers: Mapping[str, int], text: str = "") -> Packet:
    """Returns a packet of a kind in LAYOUTS with these values. All other fields are 0. `text` is ASCII, for kinds that have a text."""
    layout = LAYOUTS[kind]
    header, data = bytearray(layout.header), bytearray(SIZE)
    for name, number in {**layout.where, **layout.preset}.items():
        field = layout.all_fields[name]
        field.put(header if field.in_header else data, number)
    for name, number in numbers.items():
        if name not in layout.fields:
            raise Refused(f"{kind} has no field {name}. Choose one of: {', '.join(layout.fields) or 'none'}")
        field = layout.fields[name]
        if not 0 <= number <= field.most:
            raise Refused(f"{kind}: the field {name} cannot be {number}. Give a number from 0 to {field.most}")
        field.put(header if field.in_header else data, number)
    if layout.text:
        first, most = layout.text
        data[first : first + most] = text.encode("ascii", "replace")[:most].ljust(most, b"\0")
    size = SIZE // layout.copies
    data[:] = data[:size] * layout.copies
    if layout.is_infoframe:
        data[0] = -(sum(header) + sum(data[1 : header[2] + 1])) % 256
    return Packet(bytes(header), bodies_of(data))


def infoframe(kind: int, version: int, payload: bytes) -> Packet:
    """Returns the InfoFrame with this type, version, and bytes from PB1 on."""
    header = bytes((kind, version, len(payload)))
    data = bytes([-(sum(header) + sum(payload)) % 256]) + payload
    return Packet(header, bodies_of(data.ljust(SIZE, b"\0")))


def bodies_of(data: bytes) -> list[bytes]:
    """Returns the bytes from PB0 on as the four bodies of a packet."""
    return [bytes(data[at : at + BODY]) for at in range(0, BODY * BODIES, BODY)]


def line(made: Packet) -> str:
    """Returns the line of a content listing for a packet. It is the one that `recover content` writes if that line has all the
    information, otherwise `packet`."""
    if made.is_infoframe and (made.kind, made.version) not in STRICT:
        payload = made.bytes[1 : made.length + 1].hex()
        return f"info {made.kind:02x} {made.version:02x} {payload}".rstrip() + "\n"
    return f"packet {made.header.hex()} {' '.join(body.hex() for body in made.bodies)}\n"


def parts(word: str) -> tuple[str, dict[str, int], str]:
    """Splits KIND:FIELD=NUMBER,.. into kind, values and text. The field `text` gives the text."""
    kind, _, rest = word.partition(":")
    if kind not in OFFERED:
        raise Refused(f"there is no packet `{kind}`. Choose one of: {', '.join(OFFERED)}")
    numbers, text = {}, ""
    for part in filter(None, rest.split(",")):
        name, is_given, value = part.partition("=")
        if name == "text" and OFFERED[kind].text:
            text = value
        elif is_given and value.isdecimal():
            numbers[name] = int(value)
        else:
            raise Refused(f"{kind}: `{part}` is not FIELD=NUMBER. Write for example avi:VIC=1")
    if kind == "hdmi" and "HDMI_VIC" in numbers:
        numbers.setdefault("HDMI_Video_Format", 1)
    return kind, numbers, text
