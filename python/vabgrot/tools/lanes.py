"""The tool `lanes`: converts between captures and the raw bits of three lanes."""

import importlib
import io
import json
import sys
from argparse import ArgumentParser, ArgumentTypeError, Namespace
from collections.abc import Callable, Iterable, Sequence
from pathlib import Path
from types import ModuleType

from vabgrot import capture, command
from vabgrot.capture import MOST_BITS
from vabgrot.errors import Refused
from vabgrot.formats.characters import TEN
from vabgrot.replacing import replacing

MIRROR = bytes(int(f"{byte:08b}"[::-1], 2) for byte in range(256))
TEXT = """Converts between captures and the raw bits of three lanes, as a logic analyser or an FPGA writes them. It also
says why a capture has no alignment."""
PACK = """Makes a capture from three files of raw bits, on standard output. The first bit of a lane is bit 0 of its first
byte, or bit 7 with --msb. Lanes of one length give a capture of version 1, other lanes one of version 2. The tool refuses a
file that is named twice."""
UNPACK = """Writes the lanes of a capture to three files of raw bits, and prints the number of bits of each lane in one
line. The capture comes from standard input. The tool refuses a file that is named twice."""
CUT = """Writes a capture without the first bits of its lanes to standard output. Cut a late lane by the number of bits by
which it is late. The tool refuses to cut more bits than a lane has."""
BLOCKS = """Writes the lanes of a capture as raw blocks, as `tools/watch --raw` reads them: 4,096 bytes of each lane in
turn, without a header. All lanes end with the last whole byte of the shortest one. With --repeat, the bits of each lane
follow one another again and again, with no byte between. If they are whole characters, such as those of some frames that
--bits selects, the link continues there. It ends when nobody reads it."""
LOOK = """Says for each lane where twelve control characters first follow one another, and what control periods end in. It
tries the bits as they are, and with the bits of each byte, or of each ten from any bit on, in reverse order. Then it says
which order and polarity of the lanes make the beginnings of lines and islands right. If that is not the present one, it
prints the commands that pack the capture correctly."""

EXAMPLES = """./vabgrot make content < examples/bars.content > bars.tmc
tools/lanes unpack blue.bin green.bin red.bin < bars.tmc
tools/lanes pack --bits 54320 blue.bin green.bin red.bin > again.tmc
tools/lanes pack --order 1,0,2 --invert 2 blue.bin green.bin red.bin > mixed.tmc
tools/lanes unpack --words 10 blue.hex green.hex red.hex < bars.tmc
tools/lanes pack --words 10 --bits 54320 blue.hex green.hex red.hex > again.tmc
tools/lanes cut bars.tmc --from 3,0,0 > early.tmc
tools/lanes blocks bars.tmc --bits 54000 --repeat 5 > bars.raw
tools/lanes look mixed.tmc || echo it has to be packed anew"""


def bit_counts(text: str) -> list[int]:
    """Reads the value of --bits or --from: one number for all lanes, or three."""
    counts = command.numbers(text, MOST_BITS)
    if len(counts) not in (1, 3):
        raise ArgumentTypeError(f"{text}: write one number, or three with commas between them")
    return counts * (3 // len(counts))


def one_number(text: str) -> int:
    """Reads a number of bits or repetitions, at least 1."""
    (number, *others) = command.numbers(text, MOST_BITS)
    if others or not number:
        raise ArgumentTypeError(f"{text}: write a number from 1 to {MOST_BITS}")
    return number


def lane_numbers(text: str) -> list[int]:
    """Reads the value of --invert: some lanes, each once."""
    numbers = command.numbers(text, 2)
    if len(set(numbers)) != len(numbers):
        raise ArgumentTypeError(f"{text}: it names a lane twice. Name each lane once")
    return numbers


def order(text: str) -> list[int]:
    """Reads the value of --order: all three lanes."""
    numbers = lane_numbers(text)
    if len(numbers) != 3:
        raise ArgumentTypeError(f"{text}: name all three lanes, such as 2,1,0")
    return numbers


def with_numpy(name: str) -> ModuleType:
    """Imports a module that needs packages which the rest of this tool does not need."""
    return importlib.import_module(f"vabgrot.lanes.{name}")


def lane_of(path: str, wanted: int | None, args: Namespace) -> tuple[bytes, int]:
    """Returns the bytes of a lane and the number of its bits: all bits of the file, or the first `wanted`."""
    with open(path, "rb") as file:
        data = file.read()
    words = with_numpy("words").words_of(data, args.words, path) if args.words else None
    most = TEN * len(words) if args.words else 8 * len(data)
    bits = most if wanted is None else wanted
    if bits > most:
        raise Refused(f"{path}: it has {most} bits, but --bits asks for {bits}. Give at most {most}")
    if bits > MOST_BITS:
        raise Refused(f"{path}: it has {bits} bits, but a lane has at most {MOST_BITS}. Take the first ones with --bits")
    whole: bytes = with_numpy("words").joined(words, args.msb) if args.words else data.translate(MIRROR if args.msb else None)
    return whole[: (bits + 7) // 8], bits


def inverted(lane: bytes) -> bytes:
    """Returns a lane with all bits inverted."""
    return bytes(byte ^ 0xFF for byte in lane)


def each_once(paths: Iterable[str]) -> None:
    """Refuses a file that is named twice. Devices and pipes, which keep nothing that is written, may be named again."""
    known = set()
    for path in (Path(path) for path in paths):
        place = path.resolve()
        if place in known and (path.is_file() or not path.exists()):
            raise Refused(f"{path}: it is named twice. Name three different files")
        known.add(place)


def written(lanes: Sequence[bytes], counts: Sequence[int]) -> None:
    """Writes a capture to standard output."""
    capture.write(sys.stdout.buffer, [io.BytesIO(lane) for lane in lanes], counts if len(set(counts)) > 1 else counts[:1])


def pack(args: Namespace) -> int:
    """Makes a capture from three files."""
    each_once(args.lanes)
    lanes, counts = [b""] * 3, [0] * 3
    for number, path, bits in zip(args.order, args.lanes, args.bits or [None] * 3):
        lane, counts[number] = lane_of(path, bits, args)
        bits_of = bytearray(inverted(lane) if number in args.invert else lane)
        if counts[number] % 8:
            bits_of[-1] &= (1 << counts[number] % 8) - 1
        lanes[number] = bytes(bits_of)
    written(lanes, counts)
    return command.DONE


def unpacked(lane: bytes, count: int, args: Namespace) -> bytes:
    """Returns the bytes for the file of a lane."""
    if not args.words:
        return lane.translate(MIRROR if args.msb else None)
    data: bytes = with_numpy("words").parted(lane, count, args.words, args.msb)
    return data


def unpack(args: Namespace) -> int:
    """Writes the lanes of a capture to three files."""
    each_once(args.lanes)
    lanes, counts = capture.lanes_of(sys.stdin.buffer.read())
    for path, lane, count in zip(args.lanes, lanes, counts):
        data = unpacked(lane, count, args)
        with replacing(path) as file:
            file.write(data)
    print(",".join(map(str, counts)))
    return command.DONE


def cut(args: Namespace) -> int:
    """Writes a capture without the first bits of its lanes."""
    with open(args.capture, "rb") as file:
        lanes, counts = capture.lanes_of(file.read())
    for number, (count, start) in enumerate(zip(counts, args.starts)):
        if start > count:
            raise Refused(f"{args.capture}: lane {number} has {count} bits, so --from cannot cut {start}. Cut at most {count}")
        whole = int.from_bytes(lanes[number][start // 8 :], "little") >> start % 8
        counts[number] -= start
        lanes[number] = bytearray(whole.to_bytes((counts[number] + 7) // 8, "little"))
    written(lanes, counts)
    return command.DONE


def blocks(args: Namespace) -> int:
    """Writes the lanes of a capture as raw blocks."""
    with open(args.capture, "rb") as file:
        lanes, counts = capture.lanes_of(file.read())
    bits = min(counts) if args.bits is None else args.bits
    if bits > min(counts):
        raise Refused(f"{args.capture}: a lane has {min(counts)} bits, but --bits asks for {bits}. Give at most {min(counts)}")
    for piece in with_numpy("repeating").pieces(lanes, bits, args.repeat):
        sys.stdout.buffer.write(piece)
    return command.DONE


def look(args: Namespace) -> int:
    """Describes the lanes of a capture."""
    told = with_numpy("told")
    with open(args.capture, "rb") as file:
        lanes, counts = capture.lanes_of(file.read())
    found = told.judged(sys.argv[0], args.capture, lanes, counts)
    if found.is_right:
        openings = with_numpy("openings")
        fits = openings.fits(openings.beginnings(args.capture))
        found.says.extend([f"{fits.far[0].lower()}{fits.far[1:-1]}"] if fits and fits.far else [])
    if args.json:
        paste = next((line.removeprefix("to be pasted: ") for line in found.says if line.startswith("to be pasted: ")), None)
        kinds = [kind and {"kind": kind.kind, "says": kind.says, "remedy": kind.remedy} for kind in found.kinds]
        said = {"capture": args.capture, "faulty": not found.is_right, "bits": counts, "lanes": found.lanes, "says": found.says}
        encrypted = found.encryption.how if found.encryption else None
        print(json.dumps(said | {"paste": paste, "kinds": kinds, "encrypted": encrypted}, indent=1))
    else:
        print("\n".join(found.lanes + found.says))
    return command.DONE if found.is_right else command.FAULTY


def add_words(words: ArgumentParser) -> None:
    """Adds the options of pack and unpack."""
    words.add_argument("lanes", nargs=3, metavar="FILE", help="lane 0 (blue), lane 1 (green), lane 2 (red)")
    words.add_argument("--msb", action="store_true", help="the first bit of a lane is the highest one of a byte, or of a word's ten")
    text = """each file has words of 16 or 32 bits, low byte first, whose lowest ten bits are ten bits of the lane; 10 means text
    with a word of three hexadecimal digits on each line, as Verilog's $readmemh reads it"""
    words.add_argument("--words", type=int, choices=[10, 16, 32], help=text)


def add_pack_words(words: ArgumentParser) -> None:
    """Adds the options of pack only."""
    text = "take only the first bits of each file, for example if the last byte or word is not whole"
    words.add_argument("--bits", type=bit_counts, metavar="B[,B,B]", help=text)
    text = "invert all bits of these lanes of the capture, for example 1 or 0,2"
    words.add_argument("--invert", type=lane_numbers, default=[], metavar="LANES", help=text)
    text = "the lanes of the capture that the three files are, in turn (default: 0,1,2)"
    words.add_argument("--order", type=order, default=[0, 1, 2], metavar="L,L,L", help=text)


def add_blocks_words(words: ArgumentParser) -> None:
    """Adds the options of blocks only."""
    words.add_argument("--bits", type=one_number, metavar="B", help="only the first bits of each lane")
    text = "write each lane N times; without N, again and again until nobody reads"
    words.add_argument("--repeat", type=one_number, nargs="?", const=None, default=1, metavar="N", help=text)


def parser() -> ArgumentParser:
    """Returns the tool's argument parser, with a parser for each command."""
    found = command.parser("lanes", TEXT, "look: the lanes have to be packed in another way", EXAMPLES)
    parsers = found.add_subparsers(required=True, metavar="pack|unpack|blocks|cut|look")

    def add(name: str, work: Callable[[Namespace], int], says: str, text: str) -> ArgumentParser:
        words = parsers.add_parser(name, help=says, description=text, formatter_class=command.Help)
        words.set_defaults(work=work)
        return words

    for name, its_work, text in (("pack", pack, PACK), ("unpack", unpack, UNPACK)):
        words = add(name, its_work, text[0].lower() + text.split(". ")[0].replace("\n", " ")[1:], text)
        add_words(words)
        if its_work is pack:
            add_pack_words(words)
    for name, its_work, says, text in (
        ("blocks", blocks, "writes the lanes of a capture as raw blocks", BLOCKS),
        ("cut", cut, "cuts the beginning of lanes", CUT),
        ("look", look, "says why a capture has no alignment", LOOK),
    ):
        words = add(name, its_work, says, text)
        words.add_argument("capture", metavar="CAPTURE", help="the capture")
        if its_work is look:
            command.add_json(words)
        if its_work is blocks:
            add_blocks_words(words)
        if its_work is cut:
            text = "the bit with which each lane is to begin, one number for all lanes or three"
            words.add_argument("--from", type=bit_counts, required=True, dest="starts", metavar="P[,P,P]", help=text)
    return found


def work(argv: Sequence[str] | None) -> int:
    args = parser().parse_args(argv)
    status: int = args.work(args)
    return status


def main(argv: Sequence[str] | None = None) -> int:
    """Runs the tool with `argv`, or with the arguments of the command line. Returns the exit status."""
    return command.run("lanes", lambda: work(argv))
