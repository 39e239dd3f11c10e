"""Reads samples from HDF5 files (.h5) and MATLAB files (.mat), as oscilloscopes and scripts write them."""

from __future__ import annotations

import importlib
from collections.abc import Callable, Iterator, Mapping
from pathlib import Path
from typing import Any

import numpy as np
import numpy.typing as npt

from vabgrot.errors import Refused

Array = Any  # an array of NumPy or h5py: it has a shape and a type, and can be sliced
RATES = ("rate", "samplerate", "fs")  # samples a second
STEPS = ("tinterval", "xinc", "ts", "dt")  # seconds a sample, as PicoScope, Keysight and MATLAB scripts name it
TIMES = ("time", "times", "t")
HDF5 = ".h5", ".hdf5"


def plain(name: str) -> str:
    """Returns a name in the spelling of RATES and STEPS."""
    return name.rpartition("/")[2].replace("_", "").replace(" ", "").lower()


def rate_in(numbers: Mapping[str, float]) -> float | None:
    """Returns the samples a second, if one of the named numbers gives it."""
    found = {plain(name): number for name, number in numbers.items() if number > 0}
    for name in RATES:
        if name in found:
            return found[name]
    return next((1 / found[name] for name in STEPS if name in found), None)


def long_sides(shape: tuple[int, ...]) -> list[int]:
    """Returns the dimensions of an array that are longer than one."""
    return [side for side, size in enumerate(shape) if size > 1]


def rows_of(array: Array, first: int, behind: int) -> npt.NDArray[Any]:
    """Returns some samples of an array, one in each row. The longest dimension counts samples."""
    side = int(np.argmax(array.shape))
    part = array[tuple(slice(first, behind) if it == side else slice(None) for it in range(len(array.shape)))]
    found: npt.NDArray[Any] = np.moveaxis(np.asarray(part), side, 0)
    return found.reshape(len(found), -1)


def columns_of(arrays: Mapping[str, Array], path: str) -> dict[str, Array]:
    """Returns the arrays with samples: one array of samples by channels, or the longest ones, one for each channel."""
    wide = {name: it for name, it in arrays.items() if len(long_sides(it.shape)) > 1}
    if any(len(long_sides(it.shape)) > 2 for it in wide.values()) or len(wide) > 1:
        raise Refused(f"{path}: one array of samples by channels is wanted; it has {', '.join(wide)}")
    if wide:
        return wide
    most = max((max(it.shape) for it in arrays.values() if it.shape), default=0)
    found = {name: it for name, it in arrays.items() if it.shape and max(it.shape) == most > 1 and plain(name) not in TIMES}
    if not found:
        raise Refused(f"{path}: it has no array of samples")
    return found


def short_names(names: list[str]) -> list[str]:
    """Returns the last parts of paths if they are all different, otherwise the paths."""
    short = [name.rpartition("/")[2] for name in names]
    return short if len(set(short)) == len(short) else names


Parts = tuple[list[str], float | None, Iterator[npt.NDArray[Any]], int]  # names, rate, arrays of samples by channels, samples


def parts_of(arrays: Mapping[str, Array], numbers: Mapping[str, float], path: str, piece: int) -> Parts:
    """Returns the parts of a wave."""
    found = columns_of(arrays, path)
    for it in found.values():
        if it.dtype.kind not in "biuf":
            raise Refused(f"{path}: it holds {it.dtype}, and numbers are wanted")
    first = next(iter(found.values()))
    total = max(first.shape)
    if len(long_sides(first.shape)) > 1:
        names = [str(number) for number in range(int(np.prod(first.shape)) // total)]
    else:
        names = short_names(list(found))

    def parts() -> Iterator[npt.NDArray[Any]]:
        for at in range(0, total, piece):
            yield np.hstack([rows_of(it, at, at + piece) for it in found.values()])

    return names, rate_in(numbers), parts(), total


def of_h5(path: str, piece: int) -> Parts:
    """Reads the datasets of an HDF5 file. Numbers and attributes with one of the known names give the rate."""
    h5py = importlib.import_module("h5py")
    try:
        file = h5py.File(path, "r")
    except OSError as why:
        raise Refused(f"{path}: no HDF5 file ({why})") from None
    arrays: dict[str, Array] = {}
    numbers: dict[str, float] = {}

    def take(name: str, item: Any) -> None:
        numbers.update({key: float(value) for key, value in item.attrs.items() if is_number(value)})
        if isinstance(item, h5py.Dataset):
            if item.dtype.kind in "biuf" and item.size == 1:
                numbers[name] = float(np.asarray(item[()]).reshape(-1)[0])
            elif item.dtype.kind in "biuf" and item.size:
                arrays[name] = item

    take("", file)
    file.visititems(take)
    return parts_of(arrays, numbers, path, piece)


def is_number(value: Any) -> bool:
    """Returns whether an attribute is a single number."""
    return bool(np.size(value) == 1 and np.asarray(value).dtype.kind in "biuf")


def of_mat(path: str, piece: int) -> Parts:
    """Reads the variables of a MATLAB file. From version 7.3 on it is an HDF5 file."""
    io = importlib.import_module("scipy.io")
    try:
        held: dict[str, Any] = io.loadmat(path)
    except NotImplementedError:
        return of_h5(path, piece)
    except OSError:
        raise
    except Exception as why:  # a broken file raises many kinds of errors
        raise Refused(f"{path}: no file of MATLAB ({why})") from None
    arrays = {name: it for name, it in held.items() if isinstance(it, np.ndarray) and it.dtype.kind in "biuf" and it.size > 1}
    numbers = {name: float(it.reshape(-1)[0]) for name, it in held.items() if isinstance(it, np.ndarray) and is_number(it)}
    return parts_of(arrays, numbers, path, piece)


READERS: dict[str, Callable[[str, int], Parts]] = {**dict.fromkeys(HDF5, of_h5), ".mat": of_mat}


def read(path: str, piece: int) -> Parts:
    """Reads the parts of the wave in a file, chosen by its suffix."""
    return READERS[Path(path).suffix.lower()](path, piece)
