"""The tool `report`: what a capture carried, and what is wrong with it, on one page."""

from __future__ import annotations

import argparse
import gc
import json
import shlex
import zlib
from base64 import b64encode
from collections.abc import Iterator, Sequence
from contextlib import contextmanager
from dataclasses import dataclass
from functools import cached_property
from itertools import accumulate
from pathlib import Path
from typing import Any, NamedTuple, TypedDict

import jinja2
import numpy as np
from markupsafe import Markup

from vabgrot import command, place
from vabgrot import reading as reader
from vabgrot.content import Frame
from vabgrot.events import Kind
from vabgrot.formats.characters import MOST_SKEW, TEN
from vabgrot.formats.faults import BY_ROW, CONTENT, OF_SKEW
from vabgrot.formats.layouts import NAMES, Type
from vabgrot.formats.modes import of_vic
from vabgrot.hearing import Heard, heard_of
from vabgrot.infoframes import Row, mode_name
from vabgrot.lanes import openings
from vabgrot.library import Grammar
from vabgrot.reading import Reading, bits_of
from vabgrot.replacing import replacing
from vabgrot.report import bursts, judged, packing
from vabgrot.report.album import Album
from vabgrot.report.findings import Faults, Findings, Page
from vabgrot.report.said import ADVICE, NOT_EXACT
from vabgrot.report.sound import Told
from vabgrot.verdict import Verdict, verdict_of
from vabgrot.video.colours import Signal
from vabgrot.video.matching import SIZES, Rate, Timing, change_note
from vabgrot.video.timings import PARTS

TEXT = """Writes a page that shows what a capture carried. The page is one file and needs no network.

It shows the verdict, the video timing as `tools/timing` measures it, each frame with its damaged pixels marked, a timeline,
the packets in words, the sound, each fault and the listing. The verdict can be that the link is clean but its contents are
not: a checksum or a parity is wrong, or a frame does not have the size that its InfoFrame names.

The tool follows bit slips (`recover track`). If an alignment was wrong, it reads the capture again with `recover relock`."""
PAGE = Path(bursts.__file__).resolve().parent / "page"
SCRIPTS = ("tables.js", "sound.js", "report.js", "start.js")
PLACES = ("on lane 0 (blue)", "on lane 1 (green)", "on lane 2 (red)", "of no lane")
BLOCKS = ("body 0", "body 1", "body 2", "body 3", "header")
ENDS = {"vsync": "whole", "slip": "broken off by a slip", "relock": "broken off where the alignment was dropped"}
ENDS |= {"end": "broken off by the end of the capture"}
EXAMPLES = """./vabgrot make content < examples/bars.content > bars.tmc
tools/report bars.tmc -o bars.html"""
DVI_ADVICE = (
    "No control period ends in the guard bands of HDMI, at any skew of the lanes. A DVI source has no guard bands. "
    "“tools/report --dvi” reads it, if the program has “recover dvi”."
)
WRONG = (
    "The first alignment is probably wrong: a damaged control character before it sets a wrong skew for everything that follows. "
    "At the skew that was found ({found}), no opening has its preamble and its guard bands. At {best}, {openings} openings have them."
)
FAR = (
    "{begin} the skew {best}, {openings} openings have their preamble and their guard bands, but lanes more than 70 bits apart are "
    "not aligned."
)
LATER = (
    "A lane probably lost or repeated whole characters between the places {last} and {first} of lane 0. “recover track” cannot see this. "
    "Openings fit at the skew {found} before, and at {later} after it. A program with “recover relock” lists what follows, too."
)
LEFT_OUT = (
    "The listing is that of “recover relock”. It begins at the first alignment that a guard band confirms. "
    "Nothing before it has lines or is shown."
)
CUT = "“tools/lanes cut {name} --from {cut} > cut.tmc” begins where they fit. Make the report of that file."


# A frame as the page shows it.
Shown = TypedDict(
    "Shown",
    {
        "picture": int,
        "width": int,
        "height": int,
        "whole": bool,
        "number": int,
        "faults": dict[str, int],
        "says": str,
        "line": int,
        "lines": list[int],
        "from": int,
        "to": int,
        "kind": str,
    },
)
Found = Findings[Shown]


class Info(TypedDict):
    """An InfoFrame, clock regeneration or General Control packet as the page shows it, with the number of times it was sent."""

    name: str
    rows: tuple[Row, ...]
    line: int
    times: int


class Show:
    """Turns each complete frame into what the page shows of it."""

    def __init__(self) -> None:
        self.album, self.whole, self.frames = Album(), 0, list[Frame]()

    def __call__(self, frame: Frame, part: float, vic: int | None, signal: Signal) -> Shown:
        self.frames.append(frame)
        self.whole += frame.is_whole
        left = max(0, round(len(self.frames) * (1 - part) / max(part, 1e-3)))
        picture = self.album.add(frame, left, signal)
        says = ENDS[frame.ended] if frame.is_whole or frame.ended != "vsync" else "begun before the capture"
        if frame.ragged:
            says += f", {frame.ragged} rows of another width"
        if vic:
            says += f", though its AVI InfoFrame says {mode_name(vic)}"
        lines = [place + 1 for place in frame.places]
        return {
            "picture": picture,
            "width": signal.pixels(frame.width),
            "height": len(frame.rows),
            "whole": frame.is_whole,
            "number": self.whole - 1,
            "faults": dict(sorted(frame.marks.counts.items())),
            "says": says,
            "line": lines[0],
            "lines": lines,
            "from": frame.places[0],
            "to": frame.end,
            "kind": self.album.pictures[picture].kind.split("/")[1],
        }


@dataclass(frozen=True, eq=False)
class Report:
    """Everything that a page says."""

    path: Path
    found: Found
    album: Album
    page: Page
    verdict: Verdict
    clock: int | None

    @property
    def reading(self) -> Reading:
        """What was read."""
        return self.verdict.reading

    @cached_property
    def faults(self) -> Faults:
        """The faults."""
        return self.page.faults(self.found)

    @cached_property
    def characters(self) -> list[str]:
        """The characters at each fault, in words."""
        return judged.characters_at(self.reading, self.faults)

    @cached_property
    def measured(self) -> list[Timing]:
        """The first rasters."""
        return self.verdict.timings[:SIZES]

    @cached_property
    def told(self) -> Told | None:
        """The sound with its properties, or None if there are no samples."""
        content = self.page.content
        lost = int((content.packets.lost & (content.packets.kind == Type.SAMPLES)).sum())
        samples = content.samples
        return Told.of(self.heard, samples, self.clock, lost) if samples.total else None

    @cached_property
    def heard(self) -> Heard:
        """The sound."""
        return heard_of(self.page.content.packets, self.page.content.samples)

    @cached_property
    def slips(self) -> Slips | None:
        """The slips and dropped alignments in words."""
        return slips_of(self)


def gather(path: Path, is_dvi: bool, clock: int | None) -> Report:
    """Reads a capture."""
    taken: list[tuple[Found, Show]] = []
    bits = max(bits_of(path).read)

    def taking(grammar: Grammar) -> Found:
        show = Show()
        taken[:] = [(Findings(show, grammar == "dvi", bits // TEN), show)]
        return taken[0][0]

    with keeping():
        it = reader.read(path, is_dvi, taking)
        found, show = taken[0]
        found.finish()
    verdict = verdict_of(it, Rate(clock))
    page = Page(it, verdict.content)
    at = np.append(page.at, page.columns)
    for frame in found.frames:
        frame["from"], frame["to"] = int(at[frame["from"]]), int(at[frame["to"]])
    return Report(path, found, show.album, page, verdict, clock)


@contextmanager
def keeping() -> Iterator[None]:
    """Turns the garbage collector off: everything gathered is kept, and searching it again and again as it grows would take time."""
    was_on = gc.isenabled()
    gc.disable()
    try:
        yield
    finally:
        if was_on:
            gc.enable()


def bits_in_words(bits: Sequence[int]) -> str:
    """Formats the number of bits of the lanes."""
    return f"{bits[0]:,} bits a lane" if len(set(bits)) == 1 else "{:,}, {:,} and {:,} bits of the lanes".format(*bits)


class Slips(NamedTuple):
    """The slips and dropped alignments in words: how often the lanes were aligned again, from which place on they were not, and what is
    not shown."""

    number: int
    let_go: int
    aligned: str
    hidden: str

    def __str__(self) -> str:
        both = (self.number, "slip", ""), (self.let_go, "alignment", " dropped")
        told = " and ".join(f"{many:,} {name}{'s' * (many > 1)}{more}" for many, name, more in both if many)
        says = f"{told}, {self.aligned}"
        return f"{says}: {self.hidden} not shown" if self.hidden else says


def slips_of(it: Report) -> Slips | None:
    """Returns the slips and dropped alignments, or None if there are none."""
    epochs, bits = it.page.stretches[1:], it.reading.bits.read
    if not epochs:
        return None
    aligned, hidden = [f"{sum(epoch.is_aligned for epoch in epochs):,} aligned again"], []
    last = len(epochs)
    while last and not epochs[last - 1].is_aligned:
        last -= 1
    between = sum(epoch.hidden for epoch in epochs[:last])
    if between:
        hidden.append(f"{between:,} bits a lane between slips")
    if last < len(epochs):
        start = epochs[last].place
        aligned.append(f"none from place {start:,} on")
        hidden.append(bits_in_words([max(0, count - start) for count in bits]))
    let_go = it.verdict.link.counts["relock", None]
    return Slips(len(epochs) - let_go, let_go, ", ".join(aligned), f"{' and '.join(hidden)} are" if hidden else "")


def headline_of(verdict: Verdict) -> dict[str, str]:
    """The word at the top, and a sentence on it."""
    word = verdict.word
    return {"word": str(word), "sign": word.sign, "kind": word.style, "says": verdict.headline}


def matrix_of(verdict: Verdict) -> list[dict[str, object]]:
    """Returns the fault counts, by kind and lane."""
    rows: list[dict[str, object]] = []
    for fault in BY_ROW:
        kind = fault.kind
        counts = [(lane, verdict.link.counts[kind, None if lane < 0 else lane]) for lane in (0, 1, 2, -1)]
        if any(count for _, count in counts):
            rows.append({"kind": kind, "counts": counts, "says": fault.says})
    return rows


def infos_of(page: Page) -> list[Info]:
    """Returns the different InfoFrames, clock regeneration and General Control packets, with the number and the first place of each."""
    infos: dict[tuple[str, tuple[Row, ...]], Info] = {}
    for one in page.packets:
        if one.content and one.content.rows:
            key = one.packet.name, tuple(one.content.rows)
            infos.setdefault(key, {"name": key[0], "rows": key[1], "line": one.line, "times": 0})["times"] += 1

    def order(info: Info) -> int:
        return -info["times"]

    return sorted(infos.values(), key=order)[:24]


def data_of(it: Report, sound: dict[str, Any] | None) -> str:
    """Returns the data for the page's script: lists by column, packed."""
    words: dict[str, int] = {}
    page, found, packed = it.page, it.found, it.page.packets
    table = {
        "names": [one.packet.name for one in packed],
        "at": [one.at for one in packed],
        "words": [words.setdefault(one.words, len(words)) for one in packed],
        "faults": [one.content.faults if one.content else [] for one in packed],
        "verdicts": [one.verdicts for one in packed],
        "symbols": [one.symbols for one in packed],
        "line": [one.line for one in packed],
    }
    alignments = accumulate(epoch.is_aligned for epoch in page.stretches)
    data: dict[str, object] = {
        "name": it.path.stem,
        "columns": page.columns,
        "epochs": [epoch.at for epoch in page.stretches],
        "places": [epoch.place for epoch in page.stretches],
        "hidden": [epoch.hidden for epoch in page.stretches],
        "alignments": [number * epoch.is_aligned for number, epoch in zip(alignments, page.stretches)],
        "periods": packing.packed(page.periods),
        "doubts": [[], []],
        "faults": dict(it.faults, characters=it.characters),
        "bursts": [burst._asdict() for burst in bursts.bursts_of(it.faults, page.periods)],
        "kinds": {fault.kind: (fault.row, fault.says) for fault in BY_ROW},
        "limits": [kind for kind, fault in CONTENT.items() if fault.is_limit],
        "frames": found.frames,
        "shown": found.fields.shown(),
        "thumbs": it.album.small,
        "packets": table,
        "packetNames": NAMES,
        "words": list(words),
        "blocks": BLOCKS,
        "lines": found.text.packed(),
        "sound": {"choices": sound["choices"], "order": sound["order"]} if sound else None,
    }
    return b64encode(zlib.compress(json.dumps(data, separators=(",", ":")).encode(), 6)).decode()


def counts_of(it: Report, channels: int) -> list[tuple[str, str, str]]:
    """Returns the numbers at the top. The sound has `channels` channels."""
    found, page, reading = it.found, it.page, it.reading
    whole = sum(frame["whole"] for frame in found.frames)
    parts, size = len(found.frames) - whole, it.path.stat().st_size
    hurt = sum(one.symbols > 0 or one.verdicts.count("clean") < len(BLOCKS) for one in page.packets)
    counts = [
        ("faults", f"{it.verdict.link.faults:,}", "lines of the listing"),
        ("columns", f"{reading.columns:,}", it.reading.bits.words),
        ("frames", f"{whole:,}", frames_in_words(found, parts)),
        ("rows", f"{len(reading.events.of(Kind.LINE)):,}", "of pixels"),
        ("packets", f"{len(page.packets):,}", f"{hurt:,} damaged" if hurt else "none damaged"),
        ("samples", f"{page.content.samples.total:,}", f"of {channels} channels" if channels > 2 else "of two channels"),
        ("capture", f"{size / 1e6:,.1f} MB" if size >= 1e6 else f"{size:,} bytes", bits_in_words(reading.bits.told)),
    ]
    if it.slips:
        both = ("slips", it.slips.number), ("alignments dropped", it.slips.let_go)
        counts[1:1] = [(name, f"{many:,}", it.slips.aligned) for name, many in both if many]
    if it.verdict.contents.total():
        counts.insert(1, ("contents", f"{it.verdict.contents.total():,}", "faults of what was carried"))
    return counts


def frames_in_words(found: Found, parts: int) -> str:
    """Describes the frames. `parts` of them are incomplete."""
    woven = found.fields.woven
    is_whole = f"and {parts} not whole" if parts else "whole"
    return f"{is_whole}: {2 * woven:,} fields in {woven:,} pictures" if woven else is_whole


def interlaced_by(found: Found, measured: list[Timing]) -> str:
    """Names the source that says "interlaced"; "" if none does."""
    known = found.signals.avi and of_vic(found.signals.avi["VIC"])
    if known and known.interlaced:
        return f"The AVI InfoFrame says ({known.name})"
    return "VSYNC says" if any(one.raster.interlaced for one in measured) else ""


def notes_of(it: Report) -> list[str]:
    """Returns notes about the page: what is not shown, or shown differently."""
    notes, cut, others = [], it.page.cut, it.heard.others
    if cut:
        notes.append(f"The capture ends within a row, an island or an opening, at column {cut.first:,} (“cut”).")
    if it.reading.grammar == "relock":
        notes.append(LEFT_OUT)
    if any(picture.kind != "image/png" for picture in it.album.pictures):
        notes.append(NOT_EXACT)
    notes.extend(it.found.fields.notes(interlaced_by(it.found, it.verdict.timings)))
    if it.told is None:
        notes.extend(f"{count:,} packets of {name} came, which are not played." for name, count in sorted(others.items()))
    notes.extend(f"Of the pictures: {note}." for note in it.found.notes)
    return notes


def fits_of(it: Report) -> openings.Fits | None:
    """Returns the skews at which openings of HDMI fit, after the last slip. Returns None if nothing contradicts the alignment, or if a
    lane has no control period in the searched bits."""
    last, read = it.page.stretches[-1], it.reading
    is_right = read.grammar == "relock" or not any(kind in OF_SKEW for kind in it.verdict.link.kinds)
    if read.is_dvi or last.is_aligned and is_right:
        return None
    return openings.fits(openings.beginnings(it.path, place=last.place), last.place)


def opening_advice(it: Report, fits: openings.Fits) -> str | None:
    """Returns advice if openings fit at another skew than that of the first alignment, otherwise None."""
    best, fit, epoch = fits.best, fits.best if fits.is_wrong else fits.later, it.page.stretches[-1]
    if fit is None:
        return None
    if not epoch.is_aligned and fits.is_wrong and best.spread > MOST_SKEW:
        begin = f"After the place {epoch.place:,}, at" if epoch.place else "At"
        says = FAR.format(begin=begin, best=best.made_words, openings=f"{best.openings:,}")
    elif len(it.page.stretches) > 1:
        return None
    elif fits.is_wrong and fits.found:
        says = WRONG.format(found=fits.found.made_words, best=best.made_words, openings=f"{best.openings:,}")
    elif fits.far:
        says = fits.far
    elif fit.first and fits.found and fits.found.last:
        last, first = f"{fits.found.last[0]:,}", f"{fit.first[0]:,}"
        says = LATER.format(last=last, first=first, found=fits.found.made_words, later=fit.made_words)
    else:
        return None
    return f"{says} {CUT.format(name=shlex.quote(it.path.name), cut=','.join(map(str, fit.cut)))}"


def advice_of(it: Report) -> tuple[str, ...]:
    """Returns advice. If the lanes were probably aligned at a wrong skew and not read again, there is only one item. Otherwise it says
    whether the source is DVI, and gives the common causes of faults."""
    fits = fits_of(it)
    wrong = opening_advice(it, fits) if fits else None
    if wrong:
        return (wrong,)
    causes = tuple(it.verdict.causes())
    if it.reading.is_aligned and (it.verdict.has_contents or not it.verdict.link.kinds["noise"]):
        return causes
    is_dvi = it.reading.is_aligned and fits and not fits.best.guards
    return (*((DVI_ADVICE,) if is_dvi else ()), *ADVICE, *causes)


def page_of(it: Report) -> str:
    """Returns the page."""
    template = jinja2.Environment(loader=jinja2.FileSystemLoader(PAGE), autoescape=True).get_template("report.html")
    sound = it.told.page() if it.told else None
    return template.render(
        name=it.path.name,
        link="DVI" if it.reading.is_dvi else "HDMI",
        verdict=headline_of(it.verdict),
        counts=counts_of(it, len(sound["channels"]) if sound else 0),
        parts=PARTS,
        timings=it.measured,
        change=change_note(it.verdict.timings),
        notes=notes_of(it) if it.page.columns else [],
        slips=it.slips,
        made=f"{place.named('tools/report')} {it.path.name}",
        style=Markup((PAGE / "report.css").read_text("utf-8")),
        script=Markup("".join((PAGE / name).read_text("utf-8") for name in SCRIPTS)),
        data=data_of(it, sound),
        pictures=it.album.pictures,
        rules=it.verdict.sorted_rules,
        column_of=it.page.place,
        rules_say=it.verdict.total,
        **sections_of(it, sound),
    )


def plain_of(it: Report) -> dict[str, Any]:
    """Returns the content of the page as a value for JSON, without pictures, sound and listing."""
    faults, verdict, read = it.faults, it.verdict, it.reading
    return {
        "capture": str(it.path),
        "faulty": verdict.is_faulty,
        "relocked": read.grammar == "relock",
        "verdict": verdict.plain(),
        "says": verdict.headline,
        "notes": read.notes,
        "columns": read.columns,
        "rows": len(read.events.of(Kind.LINE)),
        "samples": it.page.content.samples.total,
        "sound": it.told.plain() if it.told else None,
        "bits": [*read.bits.told],
        "slips": str(it.slips) if it.slips else None,
        "advice": [place.named(line) for line in advice_of(it)],
        "timing": [one.plain() for one in it.measured],
        "rules": [one.plain() for one in verdict.sorted_rules],
        "frames": [
            {"width": one["width"], "height": one["height"], "whole": one["whole"], "faults": one["faults"], "says": one["says"]}
            for one in it.found.frames
        ],
        "pictures": [one["frames"] for one in it.found.fields.shown()],
        "faults": [
            {"kind": kind, "lane": lane, "column": at, "line": line, "numbers": more, "characters": words}
            for kind, lane, at, line, more, words in zip(
                faults["kind"], faults["lane"], faults["at"], faults["line"], faults["more"], it.characters
            )
        ],
        "contents": dict(verdict.contents),
        "packets": [{"name": one.packet.name, "column": one.at, "says": one.words, "blocks": one.verdicts} for one in it.page.packets],
    }


def sections_of(it: Report, sound: dict[str, Any] | None) -> dict[str, Any]:
    """Returns the sections for the template, with their names and titles."""
    advice, text, has_rows = advice_of(it), it.found.text, bool(len(it.reading.events.of(Kind.LINE)))
    sections = [("timing", "Timing")] * has_rows
    sections += [("pictures", "Pictures"), ("timeline", "Timeline"), ("faults", "Faults")]
    sections += [("rules", "Rules")] * bool(it.verdict.rules) + [("packets", "Packets")]
    sections += [("sound", "Sound")] * bool(sound) + [("listing", "Listing")]
    contents = [(kind, it.verdict.contents[kind], fault.says) for kind, fault in CONTENT.items()]
    whole = "whole" if text.is_whole else "with the first pixels of each row"
    return {
        "sections": ([("advice", "What to look at")] if advice else []) + (sections if it.page.columns else []),
        "advice": [place.named(line) for line in advice],
        "columns": it.page.columns,
        "frames": it.found.frames,
        "matrix": matrix_of(it.verdict),
        "content_faults": [one for one in contents if one[1]],
        "packets": it.page.packets,
        "infos": infos_of(it.page),
        "sound": sound,
        "listing_says": f"What “{' '.join(it.reading.command)}” wrote, {whole}: {len(text.of):,} lines, {text.size:,} bytes.",
    }


def parser() -> argparse.ArgumentParser:
    """Returns the tool's argument parser."""
    found = command.parser("report", TEXT, "done, and the page shows a fault", EXAMPLES)
    command.add_capture(found)
    text = "the page (default: report.html; none with --json)"
    found.add_argument("-o", "--output", metavar="FILE.html", type=Path, help=text)
    found.add_argument("--json", action="store_true", help="also print what the page says as JSON, to standard output")
    command.add_dvi(found)
    text = "the pixel clock, for the frame rate, and for the rate of the sound if the AVI InfoFrame does not name the video format"
    found.add_argument("--clock", type=int, metavar="HZ", help=text)
    return found


def work(argv: Sequence[str] | None) -> int:
    options = parser()
    args = options.parse_args(argv)
    if args.clock is not None and args.clock < 1:
        options.error(f"--clock {args.clock}: give a pixel clock of at least 1 Hz")
    it = gather(args.capture, args.dvi, args.clock)
    if args.json:
        print(json.dumps(plain_of(it), indent=1))
    output = args.output or (None if args.json else Path("report.html"))
    if output:
        with replacing(output, "w", encoding="utf-8", errors="surrogateescape") as page:
            page.write(page_of(it))
    command.say(f"{output or args.capture}: {it.verdict.headline}")
    return command.FAULTY if it.verdict.is_faulty else command.DONE


def main(argv: Sequence[str] | None = None) -> int:
    """Runs the tool with `argv`, or with the arguments of the command line. Returns the exit status."""
    return command.run("report", lambda: work(argv))
