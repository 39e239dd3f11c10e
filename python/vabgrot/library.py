"""Finds the C library (library/vabgrot.h) and declares the types of its calls for ctypes."""

import ctypes
import functools
import os
import sysconfig
from ctypes import POINTER, Structure, c_int, c_size_t, c_uint32, c_uint64, c_void_p
from pathlib import Path
from typing import Literal

from vabgrot import building, place
from vabgrot.errors import NoLibrary

NAME = "libvabgrot.so.1"
FOLDERS = ("", sysconfig.get_config_var("MULTIARCH") or "")  # folders in PREFIX/lib; Debian has one for each architecture
BUILT = place.TOP / "library" / "out" / NAME  # in a checkout
BESIDE = [place.TOP.parent / folder / NAME for folder in FOLDERS] if place.IS_INSTALLED else [BUILT]
NEWER = Path("glibc-hwcaps/x86-64-v3", NAME)  # beside the library: the same one for processors with these features
FEATURES = frozenset("abm avx avx2 bmi1 bmi2 f16c fma movbe xsave".split())  # of x86-64-v3, as /proc/cpuinfo names them
OK, FULL, MISUSE, TOOBIG, NOMEM = range(5)  # the statuses of the calls
Grammar = Literal["link", "dvi", "track", "relock"]  # the kinds of receivers, as the program's `recover` names them
KINDS: dict[Grammar, int] = {"link": 0, "dvi": 1, "track": 2, "relock": 3}
OF_EPOCHS: frozenset[Grammar] = frozenset(("track", "relock"))  # the kinds for lanes that may lose bits
LEAST_EVENTS, LEAST_BYTES = 104, 12327  # the least room for a feed to take bits
LEAST_TRACK_EVENTS, LEAST_TRACK_BYTES = 400, 12622  # the same for lanes that may lose bits
QUICK_EVENTS, QUICK_BYTES = 26312, 22155  # the least room for full speed
QUICK_TRACK_EVENTS, QUICK_TRACK_BYTES = 33160, 45382


class Handle(Structure):
    """A receiver."""

    _fields_ = (("receiver", c_void_p), ("held", c_uint64))


class Bits(Structure):
    """The number of bits of each lane."""

    _fields_ = (("blue", c_uint64), ("green", c_uint64), ("red", c_uint64))


class Answer(Structure):
    """What a call returns in addition to its status."""

    _fields_ = (("events", c_uint64), ("bytes", c_uint64), ("taken", Bits), ("columns", c_uint64), ("aligned", c_uint64))


def least_room(kind: Grammar) -> tuple[int, int]:
    """Returns how many events and bytes a receiver of this kind needs room for."""
    return (LEAST_TRACK_EVENTS, LEAST_TRACK_BYTES) if kind in OF_EPOCHS else (LEAST_EVENTS, LEAST_BYTES)


def find() -> str:
    """Returns the path of the shared library: the one in VABGROT_LIBRARY, the one that was built or installed with the package, or the
    one that the system's loader finds. Raises NoLibrary if the file in VABGROT_LIBRARY is missing."""
    named = os.environ.get("VABGROT_LIBRARY")
    if named and not Path(named).is_file():
        raise NoLibrary(f"VABGROT_LIBRARY names {named}, and there is no such file. Correct it, or leave the variable out")
    beside = [it.parent / NEWER for it in BESIDE if is_newer()] + BESIDE
    return named or str(next((it for it in beside if it.is_file()), NAME))


@functools.cache
def is_newer() -> bool:
    """Whether the processor has the features of x86-64-v3. (The system's loader asks this too, but not for a library that is named by its
    path.)"""
    try:
        features = next((line for line in Path("/proc/cpuinfo").read_text().splitlines() if line.startswith("flags")), "")
    except OSError:
        return False
    return FEATURES <= set(features.split())


@functools.cache
def loaded(path: str) -> ctypes.CDLL:
    """Loads a library and declares the types of its calls. Raises NoLibrary."""
    room = (c_void_p, c_size_t, c_void_p, c_size_t, POINTER(Answer))
    types = {
        "open": (c_uint32,),
        "feed": (*(c_void_p, c_size_t) * 3, POINTER(Bits), *room),
        "finish": room,
        "restart": (),
        "close": (),
    }
    try:
        calls = ctypes.CDLL(path)
        for name, words in types.items():
            call = getattr(calls, f"vabgrot_{name}")
            call.argtypes, call.restype = (POINTER(Handle), *words), c_int
    except (OSError, AttributeError) as why:
        how = f"{building.how('library')}, or VABGROT_LIBRARY names one"
        raise NoLibrary(f"there is no C library {path} ({why}). {how}") from None
    return calls


def needed() -> ctypes.CDLL:
    """Returns the library, and builds it if it is missing in a checkout. Raises NoLibrary."""
    try:
        return loaded(find())
    except NoLibrary:
        if os.environ.get("VABGROT_LIBRARY") or not BESIDE or not building.made("library", BUILT):
            raise
        return loaded(find())
