"""Reads waveforms piece by piece: NumPy arrays, CSV, raw samples, VCD, FST, sigrok sessions, HDF5 and MATLAB files."""

import configparser
import re
import tokenize
import zipfile
import zlib
from collections.abc import Callable, Iterable, Iterator
from contextlib import contextmanager
from itertools import chain, islice
from pathlib import Path
from typing import Any, NamedTuple, Protocol, TypeVar

import numpy as np
import numpy.typing as npt

from vabgrot.errors import Refused
from vabgrot.waves import stores
from vabgrot.waves.dump import PREFIXES as UNITS
from vabgrot.waves.dump import Dump

Samples = npt.NDArray[Any]  # samples by channels, of any type of number

PIECE = 1 << 20  # samples
RAW = {"int8": "i1", "int16": "<i2", "float32": "<f4"}
PREFIXES = {**UNITS, "µ": 1e-6}
LARGER = {"": 1, "k": 1e3, "m": 1e6, "g": 1e9}
MOST_HEADER_LINES = 64


class Piece(NamedTuple):
    """Successive samples, one in each row. If `times` is None they are one unit apart and the first is at `first`. Otherwise row i is
    valid from times[i] to the next time, the last one to `behind`."""

    first: float
    values: Samples
    times: npt.NDArray[np.float64] | None = None
    behind: float = 0.0

    @property
    def last(self) -> float:
        """The last moment of the piece."""
        return self.first + len(self.values) - 1 if self.times is None else self.behind


class Wave(NamedTuple):
    """The channels of a file by name, the units of time a second (None if not given), the pieces as arrays of samples by channels (for
    VCD as pieces), and the total for a progress bar."""

    names: list[str]
    rate: float | None
    arrays: Iterator[Samples | Piece]
    total: int | None


class Numbers(Protocol):
    """Anything with a type of number."""

    @property
    def dtype(self) -> np.dtype[Any]: ...


A = TypeVar("A", bound=Numbers)


def numeric(array: A, path: str | Path) -> A:
    """Returns an array of numbers. Raises Refused if it contains something else."""
    if array.dtype.kind not in "biuf":
        raise Refused(f"{path}: it holds {array.dtype}, and numbers are wanted")
    return array


def numbered(count: int) -> list[str]:
    """Returns names for unnamed channels: numbers from 0."""
    return [str(number) for number in range(count)]


def of_npy(path: str, piece: int) -> Wave:
    """Reads an array of samples by channels. Only the part in use is read."""
    array = numeric(np.load(path, mmap_mode="r"), path)
    if array.ndim != 2:
        raise Refused(f"{path}: an array of {array.ndim} dimensions, and samples by channels are wanted")
    parts = (array[at : at + piece] for at in range(0, len(array), piece))
    return Wave(numbered(array.shape[1]), None, parts, len(array))


class Member:
    """One array of an .npz file, read as a stream."""

    def __init__(self, archive: zipfile.ZipFile, name: str) -> None:
        self.file = archive.open(name)
        header: Any = np.lib.format  # numpy gives no types for it
        read = header.read_array_header_1_0 if header.read_magic(self.file) == (1, 0) else header.read_array_header_2_0
        self.shape: tuple[int, ...]
        self.dtype: np.dtype[Any]
        self.shape, by_columns, self.dtype = read(self.file)
        if by_columns and len(self.shape) > 1:
            raise ValueError(f"the array {name} lies channel by channel, and sample by sample is wanted")

    def rows(self, count: int) -> Samples:
        """Returns up to `count` further rows."""
        width = int(np.prod(self.shape[1:]))
        data = self.file.read(count * width * self.dtype.itemsize)
        return np.frombuffer(data, self.dtype).reshape(-1, *self.shape[1:])


def of_npz(path: str, piece: int) -> Wave:
    """Reads one array of samples by channels, or one named array for each channel. A number `rate` is in Hz."""
    archive = zipfile.ZipFile(path)
    members = {name.removesuffix(".npy"): Member(archive, name) for name in archive.namelist()}
    rate = members.pop("rate", None)
    shapes = {member.shape for member in members.values()}
    for member in members.values():
        numeric(member, path)
    if len(shapes) != 1 or len(shape := shapes.pop()) not in (1, 2) or (len(shape) == 2 and len(members) > 1):
        raise Refused(f"{path}: one array of samples by channels is wanted, or arrays of one length, one a channel")
    names = list(members) if len(shape) == 1 else numbered(shape[1])
    rows = (min(piece, shape[0] - at) for at in range(0, shape[0], piece))
    parts = (np.column_stack([member.rows(count) for member in members.values()]) for count in rows)
    return Wave(names, float(rate.rows(1).flat[0]) if rate else None, parts, shape[0])


def of_raw(path: str, piece: int, form: str, channels: int) -> Wave:
    """Reads successive samples, with all channels interleaved."""
    size = np.dtype(RAW[form]).itemsize * channels
    length = Path(path).stat().st_size
    if length % size:
        raise Refused(f"{path}: its {length} bytes are no whole number of samples of {channels} channels of {form}")

    def parts() -> Iterator[Samples]:
        with open(path, "rb") as file:
            while data := file.read(piece * size):
                yield np.frombuffer(data, RAW[form]).reshape(-1, channels)

    return Wave(numbered(channels), None, parts(), length // size)


def is_row(line: str) -> bool:
    """Returns whether a line of a CSV file contains only numbers."""
    try:
        return bool([float(field) for field in line.split(",")])
    except ValueError:
        return False


def rate_of(times: npt.NDArray[np.float64], unit: float, path: str) -> float:
    """Returns the samples a second, from the first and the last of some times."""
    steps = len(times) - 1
    step = float(times[-1] - times[0]) / steps if steps else 0.0
    if not step > 0:
        raise Refused(f"{path}: the times of its first column do not rise")
    if np.abs(times - times[0] - step * np.arange(len(times))).max() > 2 + steps / 100 * step:
        raise Refused(f"{path}: the times of its first column are not evenly spaced")
    return 1 / (step * unit)


def of_csv(path: str, piece: int) -> Wave:
    """Reads a CSV file: a line of names (more lines without numbers may follow), then lines with a time and a value for each channel."""
    file = open(path, encoding="utf-8-sig", errors="replace")
    head: list[list[str]] = []
    for line in islice(file, MOST_HEADER_LINES):
        if is_row(line):
            break
        head.append([name.strip().strip('"') for name in line.split(",")])
    else:
        raise Refused(f"{path}: no line of numbers with commas between them is among its first ones")
    width = len(line.split(","))
    names = next((names for names in head if len(names) == width), None)
    if names is None or width < 2:
        raise Refused(f"{path}: a header is wanted that names the time and the channels")

    def parts() -> Iterator[Samples]:
        rows, done = chain([line], file), len(head)
        while lines := list(islice(rows, piece)):
            try:
                array = np.loadtxt(lines, delimiter=",", ndmin=2, comments=None)
            except ValueError as why:
                raise Refused(f"{path}: behind line {done}: {why}") from None
            if array.size and array.shape[1] != width:
                raise Refused(f"{path}: behind line {done}: lines of {array.shape[1]} fields, and {width} are wanted")
            done += len(lines)
            yield array

    arrays = parts()
    first = next(arrays)
    unit = re.search(r"[(\[]\s*([munpfµ]?)s\s*[)\]]", names[0])
    rate = rate_of(first[:, 0], PREFIXES[unit[1]] if unit else 1, path)
    return Wave(names[1:], rate, (array[:, 1:] for array in chain([first], arrays)), None)


def of_sigrok(path: str, piece: int) -> Wave:
    """Reads a sigrok session: its logic channels, then its analog ones."""
    archive = zipfile.ZipFile(path)
    settings = configparser.ConfigParser(interpolation=None)
    settings.read_string(archive.read("metadata").decode("utf-8", "replace"))
    device = settings["device 1"]
    logic = {int(key[5:]) - 1: name for key, name in device.items() if re.fullmatch(r"probe\d+", key)}
    analog = {int(key[6:]): name for key, name in device.items() if re.fullmatch(r"analog\d+", key)}
    unit = device.getint("unitsize", 1)
    rate = re.fullmatch(r"([\d.]+)\s*([kmg]?)(hz)?", device.get("samplerate", "").strip().lower())

    def chunks(prefix: str) -> Iterator[bytes]:
        """Yields the bytes of the members `prefix`, or `prefix-1`, `prefix-2` and so on."""
        found = [name for name in archive.namelist() if re.fullmatch(rf"{re.escape(prefix)}(-\d+)?", name)]
        for name in sorted(found, key=lambda name: int(name[len(prefix) + 1 :] or 0)):
            with archive.open(name) as file:
                while data := file.read(piece * unit * 4):
                    yield data

    def columns_of_logic() -> Iterator[Samples]:
        for data in chunks(device.get("capturefile", "logic-1")):
            bits = np.unpackbits(np.frombuffer(data, np.uint8).reshape(-1, unit), axis=1, bitorder="little")
            yield bits[:, sorted(logic)]

    def columns_of_analog(number: int) -> Iterator[Samples]:
        return (np.frombuffer(data, "<f4")[:, None] for data in chunks(f"analog-1-{number}"))

    streams = ([columns_of_logic()] if logic else []) + [columns_of_analog(number) for number in sorted(analog)]
    names = [logic[at] for at in sorted(logic)] + [analog[at] for at in sorted(analog)]
    if not streams:
        raise Refused(f"{path}: the session names no channels")
    parts = map(np.hstack, zip(*(pieces_of(stream, piece) for stream in streams)))
    return Wave(names, float(rate[1]) * LARGER[rate[2]] if rate else None, parts, None)


def pieces_of(arrays: Iterable[Samples], size: int) -> Iterator[Samples]:
    """Joins the rows of some arrays into arrays of `size` rows. The last one may have fewer."""
    held: list[Samples] = []
    rows = 0
    for array in arrays:
        held.append(array)
        rows += len(array)
        while rows >= size:
            whole = np.concatenate(held)
            yield whole[:size]
            held, rows = [whole[size:]], rows - size
    if rows:
        yield np.concatenate(held)


class Vcd:
    """The wires of a value change dump. A bus NAME is split into NAME[0] and so on."""

    def __init__(self, path: str, piece: int) -> None:
        self.dump, self.piece = Dump(path), piece
        self.names: list[str] = []
        self.places: dict[str, range] = {}
        for it in self.dump.variables:
            if it.code not in self.places:
                self.places[it.code] = range(len(self.names), len(self.names) + it.width)
                self.names += [it.name] if it.width == 1 else [f"{it.name}[{bit}]" for bit in range(it.width)]

    def changes(self) -> Iterator[tuple[int, int | None, int]]:
        """Yields the time, the channel and the new level of each change. A new time is yielded first, with None as the channel."""
        for time, code, digits in self.dump.changes(self.places):
            if code is None:
                yield time, None, 0
            elif len(self.places[code]) > 1 or digits in "01":
                for place, level in zip(self.places[code], reversed(digits.rjust(64, "0"))):
                    yield time, place, int(level == "1")

    def pieces(self) -> Iterator[Piece]:
        """Yields pieces with at most `piece` times at which something changes."""
        levels = np.zeros(len(self.names), np.uint8)
        times: list[int] = []
        rows: list[npt.NDArray[np.uint8]] = []
        now = 0
        for now, place, level in self.changes():
            if place is None:
                if len(rows) >= self.piece:
                    yield Piece(times[0], np.array(rows, np.uint8), np.array(times, float), now)
                    times, rows = [], []
            elif levels[place] != level or not times:
                levels[place] = level
                if times and times[-1] == now:
                    rows[-1] = levels.copy()
                else:
                    times.append(now)
                    rows.append(levels.copy())
        if rows:
            yield Piece(times[0], np.array(rows, np.uint8), np.array(times, float), now)


def of_vcd(path: str, piece: int) -> Wave:
    """Reads a value change dump or an FST file. A piece has at most `piece` times at which something changes."""
    wires = Vcd(path, piece)
    return Wave(wires.names, 1 / wires.dump.scale if wires.dump.scale else None, wires.pieces(), None)


def of_store(path: str, piece: int) -> Wave:
    """Reads the arrays of an HDF5 or MATLAB file."""
    return Wave(*stores.read(path, piece))


READERS: dict[str, Callable[[str, int], Wave]]
READERS = {".npy": of_npy, ".npz": of_npz, ".csv": of_csv, ".vcd": of_vcd, ".fst": of_vcd, ".sr": of_sigrok}
READERS |= dict.fromkeys(stores.READERS, of_store)
# Errors that reading a broken file can raise. NumPy's headers are Python text, which explains SyntaxError; the other formats have their
# own errors.
BROKEN: tuple[type[Exception], ...]
BROKEN = (ValueError, KeyError, EOFError, RuntimeError, OverflowError, MemoryError, SyntaxError, tokenize.TokenError)
BROKEN += (zlib.error, zipfile.BadZipFile, configparser.Error)


@contextmanager
def told(path: str) -> Iterator[None]:
    """Turns errors of a broken file into Refused, with the file's name."""
    try:
        yield
    except BROKEN as why:
        raise Refused(f"{path}: {str(why).splitlines()[0] if str(why) else 'it breaks off'}") from None


def opened(path: str, piece: int = PIECE, raw: str | None = None, channels: int | None = None) -> Wave:
    """Opens a wave: by the suffix of the file, or as raw samples of `channels` channels. A piece has `piece` samples. Raises Refused,
    which names the path, if the file does not have its format."""
    if raw and channels:
        return of_raw(path, piece, raw, channels)
    reader = READERS.get(Path(path).suffix.lower())
    if reader is None:
        raise Refused(f"{path}: its name ends in none of {', '.join(READERS)}; give --raw and --channels")
    with told(path):
        return reader(path, piece)


class Channel(NamedTuple):
    """The wire of a lane, or the two wires of its pair. The level is `plus` minus `minus`."""

    plus: int | None
    minus: int | None

    def write(self, values: Samples, levels: npt.NDArray[np.float32]) -> None:
        """Writes the levels of the wire or of the pair to `levels`, one for each row of values."""
        with np.errstate(all="ignore"):  # an overflow gives an infinite number, which is refused
            levels[:] = values[:, self.plus] if self.plus is not None else 0
            if self.minus is not None:
                levels -= values[:, self.minus].astype(np.float32)


def channel_of(word: str, names: list[str]) -> Channel:
    """Returns the channel that a word names: a name, a number, P-N for a pair, or -N for an inverted wire."""

    def place(name: str) -> int:
        if name in names:
            return names.index(name)
        if name.isdecimal() and int(name) < len(names):
            return int(name)
        raise Refused(f"there is no channel `{name}`; there are {', '.join(names[:16])}, by name or by number from 0")

    if word in names or "-" not in word:
        return Channel(place(word), None)
    cuts = [at for at, letter in enumerate(word) if letter == "-"]
    whole = [at for at in cuts if {word[:at], word[at + 1 :]} <= {"", *names}]
    at = (whole or cuts)[0]
    return Channel(place(word[:at]) if at else None, place(word[at + 1 :]))


def channels_of(words: Iterable[str], names: list[str]) -> list[Channel]:
    """Returns the channels that some words name. Many lanes may share their second wire.

    Raises Refused if a channel is named twice: as two lanes, as the first wire of two lanes, or as the same pair with exchanged wires."""
    channels: list[Channel] = []
    known: set[int | frozenset[int]] = set()
    for channel in (channel_of(word, names) for word in words):
        wires = [wire for wire in channel if wire is not None]
        keys: set[int | frozenset[int]] = {wires[0], frozenset(wires)}
        for key in keys:
            if key in known:
                raise Refused(f"the channel `{names[wires[0]]}` is named twice")
            known.add(key)
        channels.append(channel)
    return channels


def arrays_of(wave: Wave, path: str) -> Iterator[Samples | Piece]:
    """Yields the arrays of a wave. Errors name the file."""
    with told(path):
        yield from wave.arrays


def pieces(wave: Wave, path: str, size: int) -> Iterator[Piece]:
    """Yields the pieces of a wave with all channels. No piece is shorter than `size`, unless there is only one."""
    held: Samples | None = None
    first = 0
    for part in arrays_of(wave, path):
        if isinstance(part, Piece):
            yield part
            continue
        if held is not None and len(held) >= size:
            yield Piece(first, held)
            first, held = first + len(held), None
        held = part if held is None else np.concatenate([held, part])
        if len(held) >= 2 * size:
            yield Piece(first, held[:-size])
            first, held = first + len(held) - size, held[-size:]
    if held is not None and len(held):
        yield Piece(first, held)
