"""The tool `slice`: makes a capture from a waveform of three lanes, or from the words of a simulation."""

import json
import sys
from argparse import ArgumentParser, ArgumentTypeError, Namespace
from collections.abc import Iterator, Sequence
from pathlib import Path

import numpy as np
from tqdm import tqdm

from vabgrot import capture, command
from vabgrot.errors import Refused
from vabgrot.lanes import words as tens
from vabgrot.replacing import naming, replacing
from vabgrot.waves import dump, loops, recovery, sampling, waveform
from vabgrot.waves.mask import CORNERS, Mask
from vabgrot.waves.recovery import Lane
from vabgrot.waves.waveform import Wave

TEXT = """Finds the bits of three lanes in a waveform and writes a capture of version 2 to standard output.

The name of FILE says what it contains:

  .npy, .npz  samples by channels, as a NumPy array; .npz may have an array for each channel
  .csv        a header (time, channels), then a line for each sample
  .vcd, .fst  a value change dump; .fst needs fst2vcd of gtkwave
  .sr         a session of sigrok
  .h5, .mat   an HDF5 file; a file of MATLAB
  other       raw samples, described by --raw and --channels

The threshold of a lane is the middle between its two levels. The tool finds bits with a clock channel, ten in each cycle,
or with the edges of each lane. With fewer than 2.6 samples per bit it needs the clock channel (status 3). For each lane it
prints one line on standard error: the bit rate, samples per bit, jitter, levels, and the opening of the eye in the middle
of the bits as a part of the swing.

Debian's python3-numba makes the tool several times as fast; the bits are the same. What it compiles at the first run is
kept in the folder vabgrot of $XDG_CACHE_HOME or ~/.cache. Without it, a line on standard error says so."""
WORDS = """With --words, FILE is the dump of a simulation (.vcd, .fst). Three of its variables, of ten bits each, are the
characters of lanes 0, 1 and 2. The tool takes a column at each rise of --clock, with the values just before it, as a
register does. Name a variable with its scopes (top.dut.q0), or by the end of this name if no other variable has it (dut.q0,
q0).

Without --clock, a column lasts as long as the shortest time between changes of the words. If a change does not fit this, or
a word changes more than once at a time, the tool needs the clock (status 3). Columns with x or z, as before a reset, are
left out and counted on standard error."""
CHANNELS = """A channel is a number from 0, a name of the file's header, P-N for the two wires of a pair (4-5, D0P-D0N; N-P
inverts it), or -N for one inverted wire (written --lanes=-0,1,2). Name each channel once."""
FAULTY = """done, and bits may be wrong: an eye is open by less than 0.1, a jitter is over 0.9 UI, or the bit rates of lanes
differ by over 0.1 percent. With --mask: a level enters the mask. With --words: a column with x or z follows a whole one"""
SECONDS = tuple(zip(("s", "ms", "us", "ns", "ps", "fs"), range(0, 16, 3)))  # units of time, by their power of ten
MOST_APART = 1e-3  # the greatest relative difference of the lanes' bit rates

EXAMPLES = """tools/slice examples/red.vcd > red.tmc
tools/slice examples/red.vcd --lanes blue,green,red --eye eye.png | ./vabgrot recover link
tools/slice examples/words.vcd --words source.q0,source.q1,source.q2 --clock clk > words.tmc"""


def volts(text: str) -> float:
    """Reads the value of --mask."""
    try:
        value = float(text)
    except ValueError:
        value = 0.0
    if not 0 < value < float("inf"):
        raise ArgumentTypeError(f"{text}: write a number of volts over 0")
    return value


def parser() -> ArgumentParser:
    """Returns the tool's argument parser."""
    found = command.parser("slice", f"{TEXT}\n\n{CHANNELS}\n\n{WORDS}", FAULTY, EXAMPLES)
    found.add_argument("file", metavar="FILE", help="the waveform")
    text = "the channels of lane 0 (blue), lane 1 (green) and lane 2 (red) (default: %(default)s)"
    found.add_argument("--lanes", metavar="B,G,R", default="0,1,2", help=text)
    text = "the variables of lanes 0, 1 and 2 in the dump of a simulation, of ten bits each; bit 0 is sent first"
    found.add_argument("--words", metavar="Q0,Q1,Q2", help=text)
    found.add_argument("--msb", action="store_true", help="bit 9 of --words is sent first, as with `tools/lanes pack --msb`")
    text = "the channel or variable of the clock (default: the tool follows the edges of each lane, or the steps of --words)"
    found.add_argument("--clock", metavar="C", help=text)
    text = "the sampling rate if the file does not name it; it only changes the bit rate on standard error"
    found.add_argument("--rate", type=float, metavar="HZ", help=text)
    text = "FILE has raw samples of this kind, one of each channel in turn, low byte first; needs --channels"
    found.add_argument("--raw", choices=waveform.RAW, help=text)
    found.add_argument("--channels", type=int, metavar="N", help="the number of channels of raw samples")
    text = "the samples are bits already, one per bit, as a state analyser takes them"
    found.add_argument("--bits", action="store_true", help=text)
    text = "check the eye mask of a source (HDMI 1.4); VOLTS is the voltage of the pair for one unit of the file (default: 1)"
    found.add_argument("--mask", type=volts, metavar="VOLTS", nargs="?", const=1.0, help=text)
    found.add_argument("--json", action="store_true", help="print JSON instead of text, on standard error")
    found.add_argument("--eye", metavar="FILE.png", help="draw the three eye diagrams")
    text = "the number of samples that are read at once (default: %(default)s)"
    found.add_argument("--piece", type=int, metavar="N", default=waveform.PIECE, help=text)
    return found


def words(argv: Sequence[str] | None) -> Namespace:
    """Reads the arguments of the command line."""
    found = parser()
    args = found.parse_args(argv)
    check_words(found, args)
    return args


def check_words(parser: ArgumentParser, args: Namespace) -> None:
    """Exits with status 2 if options do not fit each other."""
    if args.lanes.count(",") != 2:
        parser.error(f"--lanes {args.lanes}: name three channels with commas between them")
    if args.words is not None and args.words.count(",") != 2:
        parser.error(f"--words {args.words}: name three variables with commas between them")
    lanes = None if args.lanes == parser.get_default("lanes") else args.lanes
    others = [args.raw, args.rate, args.eye, args.mask, args.bits or None, lanes]
    if args.words is None and args.msb:
        parser.error("--msb: it only works with --words. Add --words, or leave --msb out")
    if args.words is not None and any(it is not None for it in others):
        parser.error("--words: it does not work with --lanes, --rate, --raw, --eye, --mask or --bits. Leave those out")
    if args.bits and (args.clock or args.eye or args.mask):
        parser.error("--bits: it does not work with --clock, --eye or --mask. Leave those out")
    if (args.raw is None) != (args.channels is None):
        parser.error("--raw: it needs --channels, and --channels needs --raw. Give both")
    if args.channels is not None and args.channels < 1:
        parser.error(f"--channels {args.channels}: give at least 1")
    if args.piece < 1000:
        parser.error(f"--piece {args.piece}: give at least 1000")
    if args.rate is not None and not args.rate > 0:
        parser.error(f"--rate {args.rate}: give a rate above 0")


def sliced(args: Namespace, wave: Wave) -> list[Lane]:
    """Returns the lanes with all their bits."""
    words = args.lanes.split(",") + ([args.clock] if args.clock else [])
    *channels, last = waveform.channels_of(words, wave.names)
    base: recovery.Base = recovery.Freely()
    if args.clock:
        base = recovery.Clock(last)
    else:
        channels.append(last)
    lanes = [
        Lane(f"lane {number}", channel, bool(args.eye), Mask(args.mask) if args.mask else None)
        for number, channel in enumerate(channels)
    ]
    with tqdm(total=wave.total, unit="sample", unit_scale=True, disable=None) as bar:
        for number, piece in enumerate(waveform.pieces(wave, args.file, args.piece)):
            if args.bits:
                take_bits(args, lanes, piece)
            else:
                base.feed(piece)
                for lane in lanes:
                    lane.feed(piece, base)
            if number == 0 and not args.bits and not loops.numba():
                tqdm.write(f"slice: {loops.WITHOUT}", file=sys.stderr)
            bar.update(len(piece.values))
    if not all(lane.written.count for lane in lanes):
        raise Refused(f"{args.file}: it has no samples. Record the three lanes again")
    return lanes


def take_bits(args: Namespace, lanes: list[Lane], piece: waveform.Piece) -> None:
    """Takes samples, one for each bit. Raises Refused for a dump, which has changes and no samples."""
    if piece.times is not None:
        raise Refused(f"{args.file}: it has changes and no samples, so --bits does not go with it")
    for lane in lanes:
        lane.take(piece)


def unit_of(units: float, scale: float | None) -> str:
    """Formats a time: in seconds, or in the dump's units if their length is not known."""
    if not scale:
        return f"{units:.9g} units of time"
    unit, power = next((it for it in SECONDS if units * scale * 10 ** it[1] >= 1), SECONDS[0])
    return f"{units * scale * 10**power:.9g} {unit}"


def told_words(columns: sampling.Columns, scale: float | None) -> Iterator[str]:
    """Yields the lines about the columns of words."""
    step, text = columns.step, f"words: {columns.count} columns"
    if step:
        rate = f" ({1 / (step * scale) / 1e6:.6g} MHz)" if scale else ""
        text += f", one each {unit_of(step, scale)}{rate}"
    yield f"{text}, the first at {unit_of(columns.first or 0, scale)}; {columns.early} with x or z before it were left out"
    if columns.torn is not None:
        yield f"words: {columns.late} with x or z behind it were left out, the first at {unit_of(columns.torn, scale)}"


def take_words(args: Namespace) -> int:
    """Writes the capture from the words of a dump. Returns the exit status."""
    if Path(args.file).suffix.lower() not in (".vcd", ".fst"):
        raise Refused(f"{args.file}: --words needs the dump of a simulation. Give a file whose name ends in .vcd or .fst")
    source = dump.Dump(args.file)
    lanes, clock = sampling.variables_of(source, args.words.split(","), args.clock)
    stretches = sampling.by_clock(source, lanes, clock) if clock else sampling.by_step(source, lanes, args.piece)
    columns, written = sampling.Columns(stretches, args.piece), [recovery.Bits() for _ in lanes]
    with tqdm(unit="column", unit_scale=True, disable=None) as bar:
        for piece in columns.pieces():
            for lane, words in zip(written, piece.T):
                lane.write(tens.bits_of(words, args.msb))
            bar.update(len(piece))
    if not columns.count:
        why = "all have x or z" if columns.early else "the clock never rises" if clock else "they do not change"
        raise Refused(f"{args.file}: it has no column of whole words: {why}")
    capture.write(sys.stdout.buffer, [lane.ended() for lane in written], [lane.count for lane in written])
    if args.json:
        step = columns.step * source.scale if columns.step and source.scale else None
        left: dict[str, object] = {"left_out": columns.early, "left_out_behind": columns.late}
        say_json(args.file, bool(columns.late), {"columns": columns.count, "seconds_a_column": step} | left)
    else:
        print("\n".join(told_words(columns, source.scale)), file=sys.stderr)
    return command.FAULTY if columns.late else command.DONE


def say_json(path: str, faulty: bool, says: dict[str, object]) -> None:
    """Prints what was found in a file as JSON, to standard error."""
    print(json.dumps({"file": path, "faulty": faulty} | says, indent=1), file=sys.stderr)


def plain_of(lane: Lane, rate: float | None) -> dict[str, object]:
    """Returns the result for a lane as a value for JSON."""
    found = lane.measure
    root, peak = found.jitter
    return {
        "name": lane.name,
        "bits": found.bits,
        "bits_a_second": rate / found.period if rate and found.period else None,
        "samples_a_bit": float(found.period),
        "jitter_rms": float(root),
        "jitter_peak": float(peak),
        "low": float(found.levels.low),
        "high": float(found.levels.high),
        "opening": float(found.opening),
        "shut": bool(found.is_shut),
        **({"mask": lane.mask.plain()} if lane.mask else {}),
    }


def apart(lanes: list[Lane]) -> float:
    """Returns the relative difference of the lanes' bit rates, or 0 if it is less than a bit in total."""
    def period(measure: recovery.Measure) -> float:
        return measure.period

    fast, *_, slow = sorted((lane.measure for lane in lanes), key=period)
    part = slow.period / fast.period - 1 if fast.period else 0.0
    return part if part * slow.bits > 1 else 0.0


def told(lane: Lane, rate: float | None, has_bits: bool) -> str:
    """Returns the line about a lane."""
    found = lane.measure
    if has_bits:
        return f"{lane.name}: {found.bits} bits, one sample each, levels {found.levels.low:.4g} and {found.levels.high:.4g}"
    speed = f"{rate / found.period / 1e6:.6g} Mbit/s, " if rate and found.period else ""
    root, peak = found.jitter
    return (
        f"{lane.name}: {found.bits} bits, {speed}{found.period:.6g} samples a bit, jitter {root:.3f} UI RMS and "
        f"{peak:.3f} UI peak to peak, levels {found.levels.low:.4g} and {found.levels.high:.4g}, "
        f"eye opening {found.opening:.2f}{f', {lane.mask}' if lane.mask else ''}"
    )


def draw(path: str, lanes: list[Lane]) -> None:
    """Draws the eye diagrams of the lanes, one below the other."""
    import matplotlib

    matplotlib.use("Agg")
    with naming(matplotlib.get_cachedir()):  # matplotlib stores a list of fonts there
        from matplotlib import pyplot
    figure, parts = pyplot.subplots(3, 1, figsize=(7, 11), constrained_layout=True)
    for part, lane in zip(parts, lanes):
        assert lane.eye is not None and lane.eye_levels is not None
        counts = lane.eye.reshape(recovery.EYE_HEIGHT, recovery.EYE_WIDTH)
        extent = (-1, 1, lane.eye_levels.low, lane.eye_levels.high)
        part.imshow(np.log1p(counts), origin="lower", aspect="auto", extent=extent, cmap="inferno")
        part.axhline(lane.levels.middle, color="white", linewidth=0.5)
        if lane.mask:
            corners = [(at, lane.levels.middle + level / lane.mask.volts) for at, level in CORNERS]
            part.add_patch(pyplot.Polygon(corners, fill=False, color="cyan"))
        root, peak = lane.measure.jitter
        part.set_title(
            f"{lane.name}: opening {lane.measure.opening:.2f}, jitter {root:.3f} UI RMS, {peak:.3f} peak to peak"
        )
        part.set_ylabel("level")
    parts[-1].set_xlabel("unit intervals from the middle of a bit")
    try:
        with replacing(path) as file:
            figure.savefig(file, dpi=100, format=Path(path).suffix[1:] or None)
    except ValueError as why:
        raise Refused(f"{path}: {why}") from None


def work(argv: Sequence[str] | None) -> int:
    args = words(argv)
    if args.words is not None:
        return take_words(args)
    wave = waveform.opened(args.file, args.piece, args.raw, args.channels)
    lanes = sliced(args, wave)
    if args.eye:
        draw(args.eye, lanes)
    counts = [lane.written.count for lane in lanes]
    capture.write(sys.stdout.buffer, [lane.written.ended() for lane in lanes], counts)
    part = apart(lanes)
    is_shut = any(lane.measure.is_shut or lane.mask and not lane.mask.is_kept for lane in lanes)
    if args.json:
        faulty = part > MOST_APART or is_shut
        said = {"lanes": [plain_of(lane, args.rate or wave.rate) for lane in lanes], "rates_apart": part}
        say_json(args.file, faulty, said)
        return command.FAULTY if faulty else command.DONE
    for lane in lanes:
        print(told(lane, args.rate or wave.rate, args.bits), file=sys.stderr)
    if part > MOST_APART:
        text = "bits are wrong, or a channel is no data lane (the clock's?)"
        print(f"slice: the bit rates of the lanes differ by {100 * part:.3g} percent: {text}", file=sys.stderr)
    elif not is_shut:
        return command.DONE
    return command.FAULTY


def main(argv: Sequence[str] | None = None) -> int:
    """Runs the tool with `argv`, or with the arguments of the command line. Returns the exit status."""
    return command.run("slice", lambda: work(argv))
