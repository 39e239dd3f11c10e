"""The tool `content`: makes a content listing from images and a WAV file."""

import sys
from argparse import ArgumentParser, ArgumentTypeError, Namespace
from collections.abc import Iterator
from dataclasses import dataclass

from tqdm import tqdm

from vabgrot import channels, command, listing, making, pcm
from vabgrot.channels import Wide
from vabgrot.errors import Refused
from vabgrot.formats import speakers
from vabgrot.formats.audio import BLOCK, RATES
from vabgrot.formats.modes import CUSTOM_CLOCK, VICS, Mode, Timing
from vabgrot.pcm import Sound
from vabgrot.video import patterns
from vabgrot.video.colours import BT601, BT709, MATRICES, Encoding, Signal
from vabgrot.video.signals import HD
from vabgrot.video.sources import CODES, ENCODINGS, RANGES, Sender, size_of

TEXT = """Writes a content listing to standard output, for `./vabgrot make content`: one frame for each image.

Each frame has its AVI InfoFrame. With a sound, it also has the audio InfoFrame, a clock packet and as many samples as the
rate needs, with their channel status. Test patterns and a tone can take the place of files. A capture that begins within a
frame shows the pictures from the next frame on, so give an image twice if you want to see it.

Pixels are 24-bit RGB of full range. --encoding, --matrix, --range, --depth and --repeat change this, and the AVI InfoFrame
and a General Control packet say so. A PNG file with 16 bits per component keeps as many of them as are sent.

A sound of more than two channels is sent in layout 1, and the channel allocation of the audio InfoFrame names its speakers.
--packet adds InfoFrames and other packets to each frame. Their fields have the names of CTA-861 and HDMI 1.4."""
EXAMPLES = """tools/content examples/sent.png examples/sent.png > sent.content
./vabgrot make content < sent.content > sent.tmc
tools/content pattern:bars pattern:moving*2 --vic 1 --sound tone:1000 | ./vabgrot make content > bars.tmc
tools/content examples/sent.png --encoding ycbcr422 --depth 30 --packet dynamic:EOTF=2,max=1000 > deep.content"""
ASPECTS = {"4:3": 1, "16:9": 2, "": 0}
LEAST, MOST_LENGTH = {3: 14}, 4096  # the least and the greatest numbers of a mode; the horizontal back porch contains a data island
AVI_LINE = "S B A Y R M C SC Q EC ITC VIC PR top bottom left right".split()  # the fields of an `avi` line


def mode_of(text: str) -> Mode:
    """Reads the value of --mode."""
    numbers = command.numbers(text, 65_535)
    if len(numbers) != 9 or numbers[8] > 1:
        raise ArgumentTypeError(f"{text}: write nine numbers with commas between them, the last one 0 or 1")
    for at, number in enumerate(numbers[:8]):
        if not LEAST.get(at, 1) <= number <= MOST_LENGTH:
            raise ArgumentTypeError(f"number {at + 1} is {number}; write one from {LEAST.get(at, 1)} to {MOST_LENGTH}")
    return Mode(*numbers)


def timing_of(args: Namespace, size: tuple[int, int]) -> tuple[int, Timing, int]:
    """Returns the identification code (0 for a custom mode), the mode with its rate and aspect ratio, and the pixel clock."""
    if args.mode:
        return 0, Timing(args.mode, 0, ""), args.clock or CUSTOM_CLOCK
    vic = args.vic or next((vic for vic in sorted(VICS) if VICS[vic].mode.size == size), None)
    if vic is None:
        raise Refused(f"no video identification code has {size[0]} x {size[1]} pixels. Give --vic V and --fit scale")
    return vic, VICS[vic], args.clock or VICS[vic].clock


def signal_of(args: Namespace, vic: int, mode: Mode) -> tuple[Signal, int]:
    """Returns how pixels are sent, and the source's number of bits of a component."""
    encoding = ENCODINGS[args.encoding]
    size = args.depth // 3
    if encoding == Encoding.YCC422 and args.depth > 36:
        raise Refused(f"--depth {args.depth}: YCbCr 4:2:2 cannot have so many bits. Give 24, 30 or 36")
    bits = 24 if encoding == Encoding.YCC422 else args.depth
    if encoding == Encoding.RGB:
        return Signal(encoding, None, args.range != "limited", bits, args.repeat), size
    width = mode.active_across // args.repeat
    matrix = MATRICES[args.matrix] if args.matrix else BT709 if width >= HD else BT601
    return Signal(encoding, matrix, args.range == "full", bits, args.repeat), size


def refuse_unfit(paths: list[str], size: tuple[int, int]) -> None:
    """Refuses images with a different size than the mode. It runs before anything is written."""
    for path in paths:
        width, height = size_of(path)
        if (width, height) != size:
            wanted = f"the mode has {size[0]} x {size[1]}. Add --fit scale"
            raise Refused(f"{path}: it has {width} x {height} pixels, but {wanted}")


def refuse_crowded(mode: Mode, clock: int, sound: Sound | Wide | None, others: int) -> None:
    """Refuses a mode whose frames are too small for their packets: InfoFrames, clock regeneration and sound. A packet carries four
    samples, or one if there are more than two channels."""
    wanted = others
    if sound:
        samples = min(sound.samples, -(-sound.rate * mode.columns // clock))
        wanted += 2 + (samples if isinstance(sound, Wide) else -(-samples // 4))
    if wanted > mode.room:
        raise Refused(f"a frame of the mode has room for {mode.room} packets, but needs {wanted}. Choose a mode with longer blanking")


def avi_line(vic: int, aspect: str, sender: Sender, told: tuple[str, dict[str, int]]) -> str:
    """Returns the AVI InfoFrame. It says that the picture fills the frame, and that the display should show all of it.

    `told` are the kind and the values that --packet gives; these have priority. If an `avi` line cannot express them, another line is
    used."""
    numbers = sender.avi({"S": 2, "A": 1, "R": 8, "M": ASPECTS[aspect], "VIC": vic}) | told[1]
    made = making.packet(told[0], numbers)
    if told[0] != "avi" or numbers.get("YQ") or numbers.get("CN"):
        return making.line(made)
    return f"avi {' '.join(str(numbers.get(name, 0)) for name in AVI_LINE)}\n"


def sound_lines(sound: Sound | Wide, clock: int) -> list[str]:
    """Returns the clock regeneration packet and the audio InfoFrame of each frame."""
    rate = RATES[sound.rate]
    cycles = round(clock * rate.n / (128 * rate.hertz))
    if not 1 <= cycles < 1 << 20:
        raise Refused(f"a pixel clock of {clock} Hz and a rate of {rate.hertz} Hz have no clock packet. Choose another --clock")
    told = (sound.used - 1, sound.allocation) if isinstance(sound, Wide) else (1, 0)
    return [f"acr {rate.n} {cycles}\n", f"audio {told[0]} 0 0 0 {told[1]} 0 0\n"]


def read_sound(path: str, allocation: int | None) -> Sound | Wide:
    """Reads a WAV file. One or two channels use layout 0, more use layout 1."""
    if allocation is None and channels.channels_in(path) <= 2:
        return pcm.read(path)
    wide = channels.read(path, allocation)
    if wide.used < 3:
        return pcm.read(path)
    return wide


class Samples:
    """The lines for the samples of a sound, frame by frame."""

    def __init__(self, sound: Sound) -> None:
        self.sound = sound
        self.left, self.right = sound.left.hex(), sound.right.hex()
        status = zip(pcm.channel_status(sound, 1), pcm.channel_status(sound, 2))
        self.flags = [f"{4 * left} {4 * right} {int(place == 0)} 0\n" for place, (left, right) in enumerate(status)]

    def line(self, k: int) -> str:
        """Returns the line of one sample."""
        at = slice(6 * k, 6 * k + 6)
        return f"s {self.left[at]} {self.right[at]} {self.flags[k % BLOCK]}"

    def lines(self, first: int, behind: int) -> Iterator[str]:
        """Yields the lines of some samples."""
        return map(self.line, range(first, min(behind, self.sound.samples)))


@dataclass
class Sent:
    """What is sent in addition to the pictures: the packets of each frame, and the sound with the rate of columns."""

    packets: list[str]
    sound: Sound | Wide | None
    clock: int

    def samples(self, first: int, behind: int) -> Iterator[str]:
        """Yields the lines of some samples."""
        if isinstance(self.sound, Wide):
            return channels.packet_lines(self.sound, first, behind)
        return Samples(self.sound).lines(first, behind) if self.sound else iter(())


def write_frames(paths: list[str], sender: Sender, sent: Sent) -> int:
    """Writes the frames. Returns how many samples fit their time."""
    behind, mode, rate = 0, sender.columns, sent.sound.rate if sent.sound else 0
    for number, path in enumerate(tqdm(paths, unit="frame", disable=None)):
        rows = sender.rows(path)
        sys.stdout.writelines(sent.packets)
        first, behind = behind, (number + 1) * rate * mode.columns // sent.clock
        sys.stdout.writelines(sent.samples(first, behind))
        sys.stdout.writelines(rows)
        print("frame", *mode.size)
    return behind


def frame_packets(args: Namespace, vic: int, aspect: str, sender: Sender) -> list[str]:
    """Returns the lines of the packets of each frame, without those of the sound."""
    avi: tuple[str, dict[str, int]] = ("avi", {})
    others = []
    for word in args.packet:
        kind, numbers, text = making.parts(word)
        if kind.startswith("avi"):
            avi = kind, numbers
        else:
            others.append(making.line(making.packet(kind, numbers, text)))
    control = sender.control()
    first = [making.line(control)] if control else []
    return [*first, avi_line(vic, aspect, sender, avi), *others]


def signal_words(parser: ArgumentParser) -> None:
    """Adds the options for pixels and packets."""
    text = "the encoding of pixels: %(choices)s (default: rgb)"
    parser.add_argument("--encoding", choices=list(ENCODINGS), default="rgb", help=text)
    text = "the matrix of YCbCr: BT.%(choices)s (default: 709 for rows of 1,280 pixels or more, otherwise 601)"
    parser.add_argument("--matrix", choices=list(MATRICES), help=text)
    text = "the range of pixels: %(choices)s (default: full for RGB, limited for YCbCr)"
    parser.add_argument("--range", choices=RANGES, help=text)
    text = "the bits of a pixel, a third of them for each component: %(choices)s (default: %(default)s)"
    parser.add_argument("--depth", type=int, choices=sorted(CODES), default=24, help=text)
    text = "send each pixel N times (1 to 10); a row of the image has 1/N of the pixels of the mode"
    parser.add_argument("--repeat", type=int, choices=range(1, 11), default=1, metavar="N", help=text)
    text = f"add a packet to each frame. KIND is {', '.join(making.OFFERED)}. The field `text` is the text of ISRC packets"
    parser.add_argument("--packet", action="append", default=[], metavar="KIND:FIELD=N,..", help=text)


def parser() -> ArgumentParser:
    """Returns the tool's argument parser."""
    found = command.parser("content", TEXT, examples=EXAMPLES)
    text = f"an image file for each frame; or pattern:NAME[*N], N frames of a test pattern: {', '.join(patterns.PATTERNS)}"
    found.add_argument("images", nargs="+", metavar="IMAGE", help=text)
    mode = found.add_mutually_exclusive_group()
    text = "the video identification code: %(choices)s (default: the first one with the size of the first image)"
    mode.add_argument("--vic", type=int, choices=sorted(VICS), metavar="V", help=text)
    text = "a mode of your own: active pixels, front porch, sync and back porch, first across, then down; P is 1 for positive sync pulses"
    mode.add_argument("--mode", type=mode_of, metavar="HA,HF,HS,HB,VA,VF,VS,VB,P", help=text)
    text = f"the pixel clock (default: that of the code at 60 or 50 frames per second; {CUSTOM_CLOCK} with --mode)"
    found.add_argument("--clock", type=int, metavar="HZ", help=text)
    text = "what to do with an image that does not have the size of the mode (default: %(default)s)"
    found.add_argument("--fit", choices=["refuse", "scale"], default="refuse", help=text)
    text = "the sound: a file with one to eight channels of linear PCM, or tone:HZ[@RATE] for a sine"
    found.add_argument("--sound", metavar="FILE.wav", help=text)
    text = "the channel allocation of the sound, a number of CTA-861 (default: the one with the speakers of the file)"
    found.add_argument("--allocation", type=int, choices=range(len(speakers.ALLOCATIONS)), metavar="CA", help=text)
    signal_words(found)
    return found


def work(argv: list[str] | None) -> int:
    """Does the work of the tool. Returns the exit status."""
    words = parser()
    args = words.parse_args(argv)
    if args.clock is not None and args.clock < 1:
        words.error(f"--clock {args.clock}: give a pixel clock of at least 1 Hz")
    if args.allocation is not None and not args.sound:
        words.error("--allocation: there is no sound. Add --sound, or leave it out")
    with patterns.as_files(args.images, pattern_size(args)) as args.images:
        return write(args)


def pattern_size(args: Namespace) -> tuple[int, int]:
    """Returns the width and height of patterns: those of the mode, or of the first image file."""
    if args.mode or args.vic:
        mode = args.mode or VICS[args.vic].mode
        return max(1, mode.active_across // args.repeat), mode.active_down
    files = [word for word in args.images if not patterns.wanted_of(word)]
    if not files:
        raise Refused(f"{args.images[0]}: the size of the pattern is not known. Give --vic or --mode")
    return size_of(files[0])


def sound_of(args: Namespace, seconds: float) -> Sound | Wide | None:
    """Returns the sound of a file, a tone with this length, or None if there is no sound."""
    with patterns.sound_file(args.sound, seconds) as path:
        return read_sound(path, args.allocation) if path else None


def write(args: Namespace) -> int:
    """Writes the listing for images and sound."""
    width, height = size_of(args.images[0])
    vic, timing, clock = timing_of(args, (width * args.repeat, height))
    sender = Sender(*signal_of(args, vic, timing.mode), timing.mode)
    refuse_long(args, sender)
    sound = sound_of(args, len(args.images) * timing.mode.columns / clock)
    sent = Sent(frame_packets(args, vic, timing.aspect, sender), sound, sender.clock(clock))
    refuse_crowded(sender.columns, sent.clock, sound, len(sent.packets))
    if sound:
        sent.packets += sound_lines(sound, sent.clock)
    print(f"vic {vic}" if vic and sender.columns == timing.mode else f"mode {' '.join(map(str, sender.columns))}")
    room = write_frames(args.images, sender, sent)
    print("end")
    if sound and sound.samples > room and not args.sound.startswith(patterns.TONE):
        left = f"{sound.samples - room} of {sound.samples} samples are left out"
        command.say(f"content: {left}, since the frames end before")
    if not sender.is_exact:
        wanted = float(sender.mode.across * sender.signal.packed / 8)
        command.say(f"content: lines have {sender.columns.across} columns, since {wanted} are no whole number")
    return command.DONE


def refuse_long(args: Namespace, sender: Sender) -> None:
    """Refuses images that do not fit the mode, and rows or listings with too many columns."""
    if sender.mode.active_across % args.repeat:
        raise Refused(
            f"--repeat {args.repeat}: a row has {sender.mode.active_across} pixels, which it does not divide. Give another number"
        )
    if args.fit == "refuse":
        refuse_unfit(args.images, sender.picture)
    if sender.columns.active_across > MOST_LENGTH:
        raise Refused(f"a row has {sender.columns.active_across} columns, but a listing has at most {MOST_LENGTH}. Choose a smaller mode")
    columns = len(args.images) * sender.columns.columns + 32
    if columns > listing.MOST_COLUMNS:
        most = f"a listing has at most {listing.MOST_COLUMNS}. Give fewer images"
        raise Refused(f"{len(args.images)} frames have {columns} columns, but {most}")


def main(argv: list[str] | None = None) -> int:
    """Runs the tool with `argv`, or with the arguments of the command line. Returns the exit status."""
    return command.run("content", lambda: work(argv))
