"""The tool `sound`: the sound of a capture or a listing as a WAV file."""

import argparse
import sys
from dataclasses import replace
from pathlib import Path
from typing import BinaryIO

from tqdm import tqdm

from vabgrot import capture, channels, command, listing, pcm, reading
from vabgrot.channels import Wide
from vabgrot.errors import Refused
from vabgrot.formats import speakers
from vabgrot.formats.modes import CUSTOM_CLOCK
from vabgrot.content import Content, packets_of, samples_of
from vabgrot.hearing import Heard, heard_of, joined
from vabgrot.packets import PAIRS
from vabgrot.replacing import replacing

TEXT = f"""Writes the sound of a capture or a listing as a WAV file. The input is a capture, a content listing, a link
listing, or what `./vabgrot read biphase` writes, on standard input.

A capture and a link listing can have up to eight channels (layout 1); the channel allocation of the audio InfoFrame names
their speakers. --pairs makes such a sound from up to four files of `read biphase`. Standard error counts the faults that
touch the sound. If an alignment was wrong, the tool reads the capture again with `recover relock` and says so.

The sampling rate comes from the first clock packet and the pixel clock of the video mode. A rate within 0.2 percent of a
usual one is taken as that one, because a listing cannot tell 59.94 from 60 frames per second. Without a clock packet, or if
the mode has no code, the rate comes from the channel status or the audio InfoFrame. If two of these disagree, that is a
fault. If nothing else names the rate, the tool assumes a pixel clock of {CUSTOM_CLOCK} Hz."""
EXAMPLES = """tools/sound tone.wav < examples/bars.content
./vabgrot make content < examples/bars.content > bars.tmc
tools/sound same.wav < bars.tmc"""


def heard_in(source: BinaryIO) -> Heard:
    """Reads the sound of a capture or of a listing."""
    with capture.path_in(source) as path:
        return heard_by(path) if path else heard_by_lines(source)


def heard_by(path: Path) -> Heard:
    """Reads the sound of a capture. Slips, a second reading and a capture that is cut off are reported first."""
    it = reading.read(path)
    it.refuse_unaligned()
    for note in it.notes:
        command.say(f"sound: {note}")
    content = Content(it)
    return heard_of(content.packets, content.samples)


def heard_by_lines(source: BinaryIO) -> Heard:
    """Reads the sound of a listing. The first line that is not a fault decides which kind of listing it is."""
    is_link, lines = listing.either(source, listing.ANY, listing.SOUND)
    whole = tqdm(lines, unit="line", disable=None)
    if is_link:
        its = packets_of(listing.parsed(whole))
        its = replace(its, at=its.place)  # a listing does not give all columns
        return heard_of(its, samples_of(its, its.at[its.lost]))
    heard = Heard()
    for number, name, fields in whole:
        heard.take(number, name, fields)
    heard.end()
    return heard


def heard_by_words(args: argparse.Namespace) -> Heard:
    """Reads the sound of standard input, or of the files of pairs."""
    if not args.pairs:
        return heard_in(sys.stdin.buffer)
    found = []
    for path in args.pairs:
        with open(path, "rb") as source:
            try:
                found.append(heard_in(source))
            except Refused as why:
                raise Refused(f"{path}: {why}") from None
        if not found[-1].samples:
            raise Refused(f"{path}: the listing has no samples")
    short = min(heard.samples for heard in found)
    if any(heard.samples != short for heard in found):
        command.say(f"sound: the pairs have {', '.join(str(heard.samples) for heard in found)} samples: {short} of each are taken")
    return joined(found)


def judge(heard: Heard, clock: int | None) -> None:
    """Describes the sound. It counts as a fault if the sampling rates disagree."""
    found = heard.rates(clock)
    if len(set(found.values())) > 1:
        heard.faults["rate"] += 1
        said = ", ".join(f"{who} say{'s' * (who != 'the clock packets')} {rate} Hz" for who, rate in found.items())
        command.say(f"sound: {said}")
    if not heard.status.is_pcm:
        command.say("sound: the channel status says that the samples are not linear PCM")
    for name, count in sorted(heard.others.items()):
        command.say(f"sound: {count} packets of {name} are not written")


def refuse_nothing(heard: Heard) -> None:
    """Refuses a listing without samples."""
    if heard.samples:
        return
    if heard.others:
        said = ", ".join(f"{count} packets of {name}" for name, count in sorted(heard.others.items()))
        raise Refused(f"the listing has no samples of PCM, but {said}")
    raise Refused("the listing has no samples")


def narrow(heard: Heard, rate: int, bits: int | None) -> pcm.Sound:
    """Returns a sound with two channels. It has 16 bits if all lower bits are 0."""
    left, right = map(bytes, heard.sides[:2])
    if bits is None:
        bits = 24 if any(left[2::3]) or any(right[2::3]) else 16
    return pcm.Sound(rate, bits, left, right)


def write(args: argparse.Namespace, heard: Heard) -> str:
    """Writes the file. Returns a description of its content."""
    rate = args.rate or heard.rate(args.clock)
    sound: pcm.Sound | Wide
    if heard.is_wide or args.allocation is not None:
        sound = heard.wide(rate, args.bits, args.allocation)
        data = channels.write(sound)
        names = " ".join(name for name in sound.names if name != speakers.NONE)
        of = f"{sound.samples} samples of {sound.bits} bits, of {sound.used} channels ({names}),"
        if heard.allocation is None and args.allocation is None:
            command.say(f"sound: no audio InfoFrame tells the speakers: allocation {sound.allocation} is taken")
    else:
        sound = narrow(heard, rate, args.bits)
        data = pcm.wav(sound)
        of = f"{sound.samples} samples of {sound.bits} bits"
    with replacing(args.file) as file:
        file.write(data)
    return f"{of} at {rate} Hz"


def parser() -> argparse.ArgumentParser:
    """Returns the tool's argument parser."""
    found = command.parser("sound", TEXT, "done, and a fault touched the sound", EXAMPLES)
    found.add_argument("file", metavar="FILE.wav", help="the file to write")
    rate = found.add_mutually_exclusive_group()
    rate.add_argument("--rate", type=int, metavar="HZ", help="the sampling rate, whatever the clock packets say")
    text = "the pixel clock, if the AVI InfoFrame does not name the video format"
    rate.add_argument("--clock", type=int, metavar="HZ", help=text)
    text = "the bits of a sample (default: 16 if the lower bits of all samples are 0, otherwise 24)"
    found.add_argument("--bits", type=int, choices=[16, 24], help=text)
    text = "read these files instead of standard input: what `read biphase` wrote for each pair of channels, pair 0 first"
    found.add_argument("--pairs", nargs="+", metavar="FILE", help=text)
    text = "the channel allocation, a number of CTA-861, whatever the audio InfoFrame says"
    found.add_argument("--allocation", type=int, choices=range(len(speakers.ALLOCATIONS)), metavar="CA", help=text)
    return found


def work(argv: list[str] | None) -> int:
    """Does the work of the tool. Returns the exit status."""
    words = parser()
    args = words.parse_args(argv)
    if any(value is not None and value < 1 for value in (args.rate, args.clock)):
        words.error("--rate, --clock: give at least 1 Hz")
    if args.pairs and len(args.pairs) > PAIRS:
        words.error(f"--pairs: there are {len(args.pairs)} files. Give at most {PAIRS}")
    heard = heard_by_words(args)
    refuse_nothing(heard)
    said = write(args, heard)
    judge(heard, args.clock)
    told = ", ".join(f"{count} {kind}" for kind, count in sorted(heard.faults.items())) or "no faults"
    command.say(f"{said}, {told}")
    return command.FAULTY if heard.faults else command.DONE


def main(argv: list[str] | None = None) -> int:
    """Runs the tool with `argv`, or with the arguments of the command line. Returns the exit status."""
    return command.run("sound", lambda: work(argv))
