"""The tool `compare`: whether two captures carry the same, or a capture and the pictures and sound that were sent."""

from __future__ import annotations

import argparse
import json
import math
from collections.abc import Iterator, Sequence
from dataclasses import asdict, dataclass
from pathlib import Path
from typing import Any

import numpy as np
from PIL import Image
from skimage import metrics

from vabgrot import command, packets
from vabgrot.compared.carried import CAPTURE, Carried, Picture, carried, kind_of
from vabgrot.compared.matching import Pair, alone, offset_of, pairs_of
from vabgrot.errors import Refused
from vabgrot.replacing import replacing

TEXT = """Compares what two captures carry, or what a capture carries with pictures and a WAV file that were sent.

Frames are matched by their content. For each pair of frames the tool says that they are equal, or it prints the first pixel
that differs, the number of such pixels, PSNR and SSIM. It also prints the CRC-32 of both frames, over red, green and blue
of each pixel, row by row. Then it lists the packets that only one side has, and the samples that differ.

Against pictures, the pixels of a capture are converted to the colours that its InfoFrames name, as `tools/pictures` does.
Two captures are compared byte by byte. Only whole frames of a capture are compared. If one capture begins earlier or ends
later, its extra frames are named but are no difference. Lost packets are not compared."""
FAULTY = "done, and there is a difference"
EXAMPLES = """tools/content examples/sent.png examples/sent.png > sent.content
./vabgrot make content < sent.content > sent.tmc
tools/compare sent.tmc examples/sent.png"""
SHOWN = 8
WINDOW = 7  # pixels of SSIM's windows; in a smaller frame as many as it has


@dataclass(frozen=True)
class Compared:
    """The comparison of two frames: the number of different pixels, the first of them (pixel and row) with both colours, PSNR in dB (None
    if the frames are equal), SSIM (None if they are too small), and both CRC-32."""

    mine: int
    other: int
    pixels: int
    unlike: int
    first: tuple[int, int] | None
    colours: tuple[str, str] | None
    psnr: float | None
    ssim: float | None
    crcs: tuple[str, str]


@dataclass(frozen=True)
class Together:
    """The comparison of samples: their number, where they begin on each side, how many differ, and the first of those in the first
    capture. None is used for what is not known."""

    count: int
    mine: int
    other: int
    unlike: int
    first: int | None


def compared(pair: Pair, mine: Carried, other: Carried) -> Compared | None:
    """Compares two frames. Returns None if their sizes differ."""
    number, its = int(pair.mine or 0), int(pair.other or 0)
    one, two = mine.frames[number], other.frames[its]
    if (one.width, one.height) != (two.width, two.height):
        return None
    crcs, pixels = (f"{one.crc:08x}", f"{two.crc:08x}"), one.width * one.height
    first, second = mine.picture(number), other.picture(its)
    unlike = (first != second).any(axis=2)
    places = np.argwhere(unlike)
    if not len(places):
        return Compared(number, its, pixels, 0, None, None, None, 1.0, crcs)
    row, pixel = places[0].tolist()
    colours = first[row, pixel].tobytes().hex(), second[row, pixel].tobytes().hex()
    psnr = float(metrics.peak_signal_noise_ratio(second, first, data_range=255))
    return Compared(number, its, pixels, len(places), (pixel, row), colours, psnr, ssim_of(first, second), crcs)


def ssim_of(first: Picture, second: Picture) -> float | None:
    """Returns the mean structural similarity, or None if the frames are too small for it."""
    window = min(WINDOW, *first.shape[:2])
    window -= 1 - window % 2
    if window < 3:
        return None
    return float(metrics.structural_similarity(first, second, win_size=window, channel_axis=2, data_range=255))


def write_difference(folder: Path, number: int, first: Picture, second: Picture) -> None:
    """Writes a picture of the difference: black where the frames are equal, and brighter the more they differ."""
    difference = np.abs(first.astype(np.int16) - second).astype(np.uint16)
    shown = np.where((difference > 0).any(axis=2, keepdims=True), 64 + difference * 191 // 255, 0).astype(np.uint8)
    with replacing(folder / f"difference{number:04}.png") as file:
        Image.fromarray(shown).save(file, "PNG")


def samples_of(mine: Carried, other: Carried) -> Together | None:
    """Compares the samples at their common offset. Returns None if they have nothing in common."""
    offset = offset_of(mine.samples, other.samples)
    if offset is None:
        return None
    begin, end = max(0, -offset), min(len(mine.samples), len(other.samples) - offset)
    unlike = np.flatnonzero(mine.samples[begin:end] != other.samples[begin + offset : end + offset])
    return Together(end - begin, begin, begin + offset, len(unlike), begin + int(unlike[0]) if len(unlike) else None)


@dataclass
class Outcome:
    """The complete comparison: frames, frames without a partner, packets of one side only, and samples. `says` are lines of text.
    `differs` says whether there is a difference."""

    frames: list[Compared]
    lonely: list[Pair]
    packets: list[dict[str, Any]]
    samples: Together | None
    says: list[str]
    differs: bool


def frame_lines(pair: Pair, one: Compared | None, mine: Carried, other: Carried, is_difference: bool) -> Iterator[str]:
    """Yields the lines about a pair of frames."""
    if None in pair:
        side, number, another = ("A", pair.mine, "B") if pair.other is None else ("B", pair.other, "A")
        why = "" if is_difference else f" ({side} begins earlier or ends later)"
        yield f"frame {number} of {side}: no frame of {another} is like it{why}"
        return
    head = f"frame {pair.mine} of A, frame {pair.other} of B: "
    if one is None:
        still, its = mine.frames[int(pair.mine or 0)], other.frames[int(pair.other or 0)]
        yield f"{head}{still.width} x {still.height} and {its.width} x {its.height} pixels"
    elif one.first is None or one.colours is None:
        yield f"{head}equal, CRC {one.crcs[0]}"
    else:
        ssim = f", SSIM {one.ssim:.5f}" if one.ssim is not None else ""
        first = f"the first at pixel {one.first[0]:,} of row {one.first[1]:,}: {one.colours[0]}, {one.colours[1]}"
        psnr = f"PSNR {one.psnr:.2f} dB" if one.psnr is not None and math.isfinite(one.psnr) else "PSNR not known"
        yield f"{head}{one.unlike:,} of {one.pixels:,} pixels differ, {first}; {psnr}{ssim}; CRC {one.crcs[0]}, {one.crcs[1]}"


def packets_of(mine: Carried, other: Carried) -> list[dict[str, Any]]:
    """Returns the packets that only one side has, with their numbers. Returns nothing if the other side is pictures and sound."""
    if other.is_reference or mine.is_reference:
        return []
    found = []
    for side, one, two in (("A", mine, other), ("B", other, mine)):
        for header, data in [it for it in one.packets if it not in two.packets]:
            packet = packets.Packet(header, [data[at : at + 7] for at in range(0, 28, 7)])
            says = packets.content_of(packet).words
            times, digits = one.packets[header, data], (header + data).hex()
            found.append({"in": side, "name": packet.name, "times": times, "says": says, "bytes": digits})
    return found


def sample_lines(mine: Carried, other: Carried, samples: Together | None) -> Iterator[str]:
    """Yields the lines about the samples."""
    if samples is None:
        yield f"samples: nothing of the {len(mine.samples):,} of A is found among the {len(other.samples):,} of B"
    elif samples.first is None:
        yield f"samples: {samples.count:,} are equal, from sample {samples.mine:,} of A and {samples.other:,} of B on"
    else:
        yield f"samples: {samples.unlike:,} of {samples.count:,} differ, the first is sample {samples.first:,} of A"


def outcome_of(mine: Carried, other: Carried, folder: Path | None) -> Outcome:
    """Compares everything."""
    found = Outcome([], [], packets_of(mine, other), None, [*mine.first, *other.first], False)
    pairs = pairs_of(mine, other) if mine.frames or other.frames else []
    if other.is_reference and not other.frames:
        pairs = []
    found.lonely = alone(pairs)
    found.differs = bool(found.lonely or found.packets)
    for pair in pairs:
        one = compared(pair, mine, other) if None not in pair else None
        if one:
            found.frames.append(one)
        found.differs |= None not in pair and (one is None or one.unlike > 0)
        found.says += frame_lines(pair, one, mine, other, pair in found.lonely)
        if folder and one and one.unlike:
            write_difference(folder, one.mine, mine.picture(one.mine), other.picture(one.other))
    for packet in found.packets[:SHOWN]:
        found.says.append(f"only in {packet['in']}: {packet['name']}, {packet['times']:,} times: {packet['says']}")
    if len(found.packets) > SHOWN:
        found.says.append(f"and {len(found.packets) - SHOWN:,} more packets in one alone")
    if mine.has_sound and other.has_sound and (len(mine.samples) or len(other.samples)):
        found.samples = samples_of(mine, other)
        found.differs |= found.samples is None or found.samples.unlike > 0
        found.says += sample_lines(mine, other, found.samples)
    found.says += [*mine.notes]
    lost = [f"{one.lost:,} packets of {side}" for side, one in (("A", mine), ("B", other)) if one.lost]
    found.says += [f"lost, and not compared: {' and '.join(lost)}"] * bool(lost)
    return found


def parser() -> argparse.ArgumentParser:
    """Returns the tool's argument parser."""
    found = command.parser("compare", TEXT, FAULTY, EXAMPLES, "done, and there is no difference")
    found.add_argument("mine", metavar="A", type=Path, help="a capture, as `make`, `damage` or `lanes pack` writes it")
    text = "another capture; or the pictures that the frames should show, and a WAV file"
    found.add_argument("other", metavar="B", type=Path, nargs="+", help=text)
    text = "draw the difference of each unequal pair of frames into this folder, as difference0000.png and so on"
    found.add_argument("--pictures", metavar="DIR", type=Path, help=text)
    command.add_json(found)
    return found


def work(argv: Sequence[str] | None) -> int:
    args = parser().parse_args(argv)
    if args.pictures:
        args.pictures.mkdir(parents=True, exist_ok=True)
    is_picture = not any(kind_of(path) == CAPTURE for path in args.other)
    with carried([args.mine], converts=is_picture) as mine, carried(args.other) as other:
        if not mine.frames and other.frames and other.is_reference:
            raise Refused(f"{args.mine}: it has no whole frame to compare. Record two frames or more")
        found = outcome_of(mine, other, args.pictures)
    if args.json:
        said = {"a": mine.name, "b": other.name, "differ": found.differs, "frames": [asdict(one) for one in found.frames]}
        said |= {"alone": [pair._asdict() for pair in found.lonely], "packets": found.packets}
        print(json.dumps(said | {"samples": asdict(found.samples) if found.samples else None, "says": found.says}, indent=1))
    else:
        print("\n".join([*found.says, "they differ" if found.differs else "no difference"]))
    return command.FAULTY if found.differs else command.DONE


def main(argv: Sequence[str] | None = None) -> int:
    """Runs the tool with `argv`, or with the arguments of the command line. Returns the exit status."""
    return command.run("compare", lambda: work(argv))
