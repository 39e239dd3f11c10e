"""The tables of this package that the page's JavaScript reads too, as the module `words.js`, so that each stands once. `tools/page` makes
it when it is asked for it; `page/build` writes it beside the receiver for other servers."""

from __future__ import annotations

import json
from typing import Any

from vabgrot import infoframes, packets, program, verdict
from vabgrot.formats import audio, layouts, modes, names, speakers
from vabgrot.formats.faults import ANEW, BY_ROW, CONTENT
from vabgrot.hearing import NAMED
from vabgrot.lanes import encryption
from vabgrot.report import fields, said, sound
from vabgrot.video.colours import BT601, BT709, BT2020, DEPTHS
from vabgrot.video.signals import BY_EXTENDED

HEAD = """// What Python has of the fields of packets, of formats and of faults. Made by `page/build`: do not edit.

"""
CODES = range(256)
TYPED = {  # the types of tables whose values are unlike; "" where each name is to be known
    "LAYOUTS": 'import("./infoframes.js").Layout[]',
    "TABLES": "Record<string, {known: Record<string, string>, other: string}>",
    "TYPES": "",
}


def _layout(name: str, it: layouts.Layout) -> dict[str, Any]:
    """A layout as the page reads it."""
    fields = {
        label: {"byte": one.byte, "low": one.low, "bits": one.bits, "inHeader": one.in_header, "isBig": one.is_big}
        for label, one in it.all_fields.items()
    }
    lines = [line._asdict() | {"when": {label: [*values] for label, values in line.when.items()}} for line in it.lines]
    octets = {label: one._asdict() for label, one in it.octets.items()}
    head = {"name": name, "header": it.header, "isStrict": it.is_strict, "least": it.least, "where": it.where}
    return head | {"fields": fields, "octets": octets, "lines": lines}


def _layouts() -> list[dict[str, Any]]:
    """The layouts, in the order in which a packet is held against them."""
    known = {id(it): name for name, it in layouts.LAYOUTS.items()}
    return [_layout(known[id(it)], it) for its in layouts.BY_TYPE.values() for it in its]


def _widths() -> dict[int, int]:
    """The pixels of a row of each format that has a code, those that are sent again counted once."""
    known = ((code, modes.of_vic(code)) for code in CODES)
    return {code: found.across.active // (found.repetitions[0] + 1) for code, found in known if found}


def _interlaced() -> dict[int, str]:
    """The names of the interlaced formats."""
    known = ((code, modes.of_vic(code)) for code in CODES)
    return {code: found.name for code, found in known if found and found.interlaced}


def tables() -> dict[str, Any]:
    """Each table by its name in JavaScript."""
    matrices = {matrix.name: [matrix.red, matrix.blue] for matrix in (BT601, BT709, BT2020)}
    return {
        "TYPES": {it.name: int(it) for it in layouts.Type},
        "NAMES": layouts.NAMES,
        "LAYOUTS": _layouts(),
        "TABLES": {name: it._asdict() for name, it in infoframes.TABLES.items()},
        "SHORT": sorted(packets.SHORT),
        "READ_AVI": verdict.READ_AVI,
        "FREQUENCIES": names.FREQUENCIES,
        "MODE_SIZES": {code: timing.mode.size for code, timing in modes.VICS.items()},
        "MODE_WIDTHS": _widths(),
        "INTERLACED": _interlaced(),
        "ALLOCATIONS": speakers.ALLOCATIONS,
        "SPEAKER_WORDS": speakers.WORDS,
        "MASK": speakers.MASK,
        "BESIDE": speakers.BESIDE,
        "SENT": speakers.SENT,
        "RATES": list(audio.RATES),
        "CODED_RATES": audio.CODED,
        "SAMPLE_SIZES": {f"{most} {code}": bits for (most, code), bits in audio.WORDS.items()},
        "ACCURACY": audio.ACCURACY,
        "LEFT_SPEAKERS": sorted(sound.LEFT),
        "RIGHT_SPEAKERS": sorted(sound.RIGHT),
        "MODE_CLOCKS": {0: modes.CUSTOM_CLOCK} | {code: timing.clock for code, timing in modes.VICS.items()},
        "UNHEARD": NAMED,
        "FAULTS": {it.kind: {"row": it.row, "says": it.says, "isDense": it.is_dense, "isOfSkew": it.is_of_skew} for it in BY_ROW},
        "CONTENT_FAULTS": {it.kind: {"says": it.says, "isLimit": it.is_limit} for it in CONTENT.values()},
        "PIXEL_BITS": DEPTHS,
        "MATRICES": matrices,
        "MATRIX_OF": {code: matrix.name for code, matrix in BY_EXTENDED.items()},
        "NO_CAPTURES": program.NO_CAPTURES,
        "VERDICTS": {it.name: {"word": str(it), "sign": it.sign, "kind": it.style} for it in verdict.Word},
        **{name: getattr(verdict, name) for name in ("NO_PLACE", "NOTHING_CAME", "LINK_CLEAN", "CONTENTS_WRONG", "CUT_OFF")},
        "ANEW": sorted(ANEW),
        "MARKS": {kind: [mark, encryption.LEAST[kind]] for kind, mark in encryption.MARKS.items()},
        "ENCRYPTED": encryption.SAYS,
        **{name: getattr(encryption, name) for name in ("WITHIN", "TORN", "MOST_OUTSIDE")},
        **{name: " ".join(getattr(fields, name).split()) for name in ("WOVEN", "ALONE", "UNKNOWN")},
        "NOT_EXACT": said.NOT_EXACT,
        "ADVICE": said.ADVICE,
    }


def _type_of(value: Any) -> str:
    """The type of a value of a table, as JSDoc has it."""
    if isinstance(value, dict):
        return f"{{{', '.join(f'{name}: {_type_of(it)}' for name, it in value.items())}}}"
    if isinstance(value, (list, tuple)):
        return f"{_type_of(value[0])}[]"
    return {str: "string", bool: "boolean"}.get(type(value), "number")


def _declared(name: str, value: Any) -> str:
    """A table as JavaScript; one by keys with its type."""
    line = f"export const {name} = {json.dumps(value, ensure_ascii=False)};"
    if name in TYPED:
        return f"/** @type {{{TYPED[name]}}} */\n{line}" if TYPED[name] else line
    if not isinstance(value, dict):
        return line
    return f"/** @type {{Record<string, {_type_of(next(iter(value.values())))}>}} */\n{line}"


def text() -> str:
    """The text of `words.js`."""
    return HEAD + "\n".join(_declared(name, value) for name, value in tables().items()) + "\n"


if __name__ == "__main__":
    print(text(), end="")
