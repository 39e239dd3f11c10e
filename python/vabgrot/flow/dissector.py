"""Makes the Wireshark dissector of packets, in Lua, from the table in `formats.layouts`. The function `lua` returns the text of
share/wireshark/vabgrot.lua."""

from __future__ import annotations

import re
from collections.abc import Iterator

from vabgrot.formats.layouts import BODIES, BODY, BY_TYPE, CARRIED, HEADER, LAYOUTS, NAMES, SIZE, Field, Layout
from vabgrot.infoframes import HOLE, TABLES

HEAD_BYTES = 20  # bytes of a record before its packet
WORD = re.compile(r"[^A-Za-z0-9]+")
BEGIN = f"""-- Wireshark's dissector of the packets that `tools/packets --pcap` writes. Made by `tools/packets --dissector`: do not edit it.
-- A record has {HEAD_BYTES} bytes, then the {CARRIED} bytes of the packet: column (8), epoch (4), frame (4), lost blocks, mended blocks
-- (a bit each, bit 4 is the header), damaged characters, and a byte without a meaning. Numbers are big-endian.
local hdmi = Proto("vabgrot", "HDMI data island packet")
local AT, HB, PB = {HEAD_BYTES}, {HEAD_BYTES}, {HEAD_BYTES + HEADER}
local BODY, BODIES, SIZE = {BODY}, {BODIES}, {SIZE}
local fields = {{}}

local function field(make, key, name, ...)
  local made = make("vabgrot." .. key, name, ...)
  fields[#fields + 1] = made
  return made
end
"""
MIDDLE = """
local column = field(ProtoField.uint64, "column", "Column")
local epoch = field(ProtoField.uint32, "epoch", "Epoch")
local frame = field(ProtoField.uint32, "frame", "Frame")
local lost = field(ProtoField.uint8, "lost", "Lost blocks", base.HEX)
local mended = field(ProtoField.uint8, "mended", "Mended blocks", base.HEX)
local damaged = field(ProtoField.uint8, "damaged", "Damaged characters")
local kind = field(ProtoField.uint8, "type", "Type", base.HEX, names)
local header = field(ProtoField.bytes, "header", "Header")
local bodies = field(ProtoField.bytes, "bodies", "Bodies")
"""
END = """
hdmi.fields = fields

local function number(buffer, it, from)
  local at = (it.header and HB or PB) + it.byte + (it.header and 0 or from)
  local range = buffer(at, it.size)
  local whole = it.big and range:uint() or range:le_uint()
  return math.floor(whole / 2 ^ it.low) % 2 ^ it.bits, range
end

local function layout_of(buffer)
  local length = buffer(HB + 2, 1):uint() % 32
  for _, it in ipairs(layouts[buffer(HB, 1):uint()] or {}) do
    local fits = not it.infoframe or (it.least and length >= it.least)
      or (not it.least and length == it.length and buffer(HB + 1, 1):uint() == it.version)
    for _, one in ipairs(it.where) do
      fits = fits and number(buffer, one, 0) == one.number
    end
    if fits then
      return it, it.infoframe and length + 1 or SIZE
    end
  end
end

local function add(buffer, tree, it, size, from)
  for _, one in ipairs(it.fields) do
    if one.header and from == 0 or not one.header and one.byte + one.size <= size then
      local value, range = number(buffer, one, from)
      tree:add(one.field, range, value)
    end
  end
  for _, one in ipairs(from == 0 and it.octets or {}) do
    local most = math.min(one.most or SIZE, size - one.first)
    if most > 0 then
      tree:add(one.field, buffer(PB + one.first, most))
    end
  end
end

function hdmi.dissector(buffer, packet, tree)
  local value = buffer(HB, 1):uint()
  local name = names[value] or string.format(value >= 0x80 and "InfoFrame %02x" or "Packet %02x", value)
  local is_lost, is_mended = buffer(16, 1):uint() > 0, buffer(17, 1):uint() > 0
  packet.cols.protocol = "HDMI"
  packet.cols.info = name .. (is_lost and " [lost]" or "") .. (is_mended and " [mended]" or "")
  local sub = tree:add(hdmi, buffer(), "HDMI data island packet: " .. name)
  sub:add(column, buffer(0, 8))
  sub:add(epoch, buffer(8, 4))
  sub:add(frame, buffer(12, 4))
  sub:add(lost, buffer(16, 1))
  sub:add(mended, buffer(17, 1))
  sub:add(damaged, buffer(18, 1))
  sub:add(kind, buffer(HB, 1))
  sub:add(header, buffer(HB, 3))
  sub:add(bodies, buffer(PB, SIZE))
  local it, size = layout_of(buffer)
  if not it or is_lost then
    return
  end
  add(buffer, sub, it, size, 0)
  local present = value == 2 and buffer(HB + 1, 1):uint() % 16 or 1
  for body = 1, value == 2 and BODIES - 1 or 0 do
    if math.floor(present / 2 ^ body) % 2 == 1 then
      add(buffer, sub, it, size, BODY * body)
    end
  end
end

DissectorTable.get("wtap_encap"):add((wtap_encaps or wtap).USER0, hdmi)
"""


def key_of(*names: str) -> str:
    """Returns the name of a field in Wireshark's filters."""
    return ".".join(WORD.sub("_", name).strip("_") for name in names)


def quoted(text: str) -> str:
    """Returns a text as a Lua string."""
    return '"' + text.replace("\\", "\\\\").replace('"', '\\"') + '"'


def table_of(layout: Layout, name: str) -> str:
    """Returns the table of words for a field, or nothing if the field is shown as a number."""
    for line in layout.lines:
        for label, how in HOLE.findall(line.says):
            if label == name and how in TABLES:
                return str(how)
    return ""


def place_of(it: Field) -> str:
    """Returns the place of a field as Lua code."""
    flags = ", header = true" * it.in_header + ", big = true" * it.is_big
    return f"byte = {it.byte}, size = {it.size}, low = {it.low}, bits = {it.bits}{flags}"


def field_of(key: str, layout: Layout, name: str, it: Field) -> str:
    """Returns the line of a field."""
    table = table_of(layout, name)
    words = f", base.DEC, words.{table}" if table else ""
    made = f"field(ProtoField.uint32, {quoted(key_of(key, name))}, {quoted(name)}{words})"
    return f"      {{ field = {made}, {place_of(it)} }},"


def octets_of(key: str, layout: Layout, name: str) -> str:
    """Returns the line for bytes that are shown unchanged. If a field gives their number, they extend to the packet's length."""
    its = layout.octets[name]
    is_text = any((label, how) == (name, "text") for line in layout.lines for label, how in HOLE.findall(line.says))
    most = f", most = {its.most}" if isinstance(its.most, int) else ""
    kind = "string" if is_text else "bytes"
    made = f"field(ProtoField.{kind}, {quoted(key_of(key, name))}, {quoted(name)})"
    return f"      {{ field = {made}, first = {its.first}{most} }},"


def layout_lines(key: str, layout: Layout) -> Iterator[str]:
    """Yields the lines of a layout."""
    _, version, length = layout.header
    least = f", least = {layout.least}" if layout.least else ""
    yield f"    {{ version = {version}, length = {length}{least}, infoframe = {str(layout.is_infoframe).lower()},"
    where = (f"{{ {place_of(layout.all_fields[name])}, number = {number} }}" for name, number in layout.where.items())
    yield f"      where = {{ {', '.join(where)} }},".replace("{  }", "{}")
    yield "      fields = {"
    yield from ("  " + field_of(key, layout, name, it) for name, it in layout.all_fields.items())
    yield "      },"
    yield "      octets = {"
    yield from ("  " + octets_of(key, layout, name) for name in layout.octets)
    yield "      },"
    yield "    },"


def lua() -> str:
    """Returns the whole dissector."""
    keys = {id(layout): key for key, layout in LAYOUTS.items()}
    used = sorted({table for layout in LAYOUTS.values() for name in layout.all_fields if (table := table_of(layout, name))})
    lines = ["local names = {", *(f"  [{int(kind)}] = {quoted(name)}," for kind, name in NAMES.items()), "}", "local words = {"]
    for table in used:
        known = ", ".join(f"[{number}] = {quoted(text)}" for number, text in TABLES[table].known.items())
        lines.append(f"  {table} = {{ {known} }},")
    lines += ["}"]
    tables = ["local layouts = {"]
    for kind, layouts in BY_TYPE.items():
        tables.append(f"  [{int(kind)}] = {{")
        for layout in layouts:
            tables += layout_lines(keys[id(layout)], layout)
        tables.append("  },")
    return BEGIN + "\n".join(lines) + "\n" + MIDDLE + "\n" + "\n".join([*tables, "}"]) + "\n" + END
