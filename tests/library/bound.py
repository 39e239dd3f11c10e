"""The shared library by ctypes, as vabgrot.h declares it."""

import ctypes
from ctypes import POINTER, Structure, byref, c_bool, c_int, c_size_t, c_uint8, c_uint16, c_uint32, c_uint64, c_void_p

OK, FULL, MISUSE, TOOBIG, NOMEM, FAULTY, NOCAPTURE, UNALIGNED, NOLISTING = range(9)
LEAST_EVENTS, LEAST_BYTES = LEAST = 104, 12327
LEAST_TRACK = 400, 12622
SLIP, RELOCKED = 19, 20
LINK, DVI, TRACK, RELOCK = range(4)
MAKERS = "link", "dvi", "content"  # by their numbers
OCTETS = POINTER(c_uint8), c_size_t
PARTS = {"run": (c_uint32, c_uint32), "video_guard": (), "pixels": OCTETS, "island_guard": (c_uint32,), "packet": (*OCTETS, c_bool)}


class Handle(Structure):
    _fields_ = (("receiver", c_void_p), ("held", c_uint64))


class Bits(Structure):
    _fields_ = (("blue", c_uint64), ("green", c_uint64), ("red", c_uint64))


class Event(Structure):
    _fields_ = (*((name, c_uint64) for name in ("column", "named", "count", "offset")),
                *((name, c_uint32) for name in ("size", "kind", "value", "second")))


class Answer(Structure):
    _fields_ = (("events", c_uint64), ("bytes", c_uint64), ("taken", Bits), ("columns", c_uint64), ("aligned", c_uint64))


class Tap(Structure):
    _fields_ = tuple((name, c_uint32) for name in ("version", "offset", "blue", "green", "red", "limited", "bits"))


def loaded(path):
    """The library with the types of its calls."""
    calls = ctypes.CDLL(str(path))
    lane = (POINTER(c_uint8), c_size_t)
    room = (POINTER(Event), c_size_t, POINTER(c_uint8), c_size_t, POINTER(Answer))
    feed = (*lane * 3, POINTER(Bits), *room)
    for name, types in (("open", (c_uint32,)), ("feed", feed), ("finish", room), ("restart", ()), ("close", ())):
        call = getattr(calls, f"vabgrot_{name}")
        call.argtypes, call.restype = (POINTER(Handle), *types), c_int
    listed = (POINTER(c_uint8), c_size_t) * 2 + (POINTER(c_size_t),)
    calls.vabgrot_recover.argtypes, calls.vabgrot_recover.restype = (c_uint32, *listed), c_int
    calls.vabgrot_check.argtypes, calls.vabgrot_check.restype = listed, c_int
    calls.vabgrot_make.argtypes, calls.vabgrot_make.restype = (c_uint32, POINTER(Tap), *listed), c_int
    for name, types in PARTS.items():
        call = getattr(calls, f"vabgrot_encode_{name}")
        call.argtypes, call.restype = (*types, *(POINTER(c_uint16), c_size_t) * 3, POINTER(c_size_t)), c_int
    return calls


def listed(calls, kind, capture, room):
    """The status, the size and the buffer of a call that lists a capture: of vabgrot_check where the kind is None."""
    call, words = (calls.vabgrot_check, ()) if kind is None else (calls.vabgrot_recover, (kind,))
    given, buffer, size = (c_uint8 * max(1, len(capture)))(*capture), (c_uint8 * max(1, room))(), c_size_t()
    status = call(*words, given, len(capture), buffer, room, byref(size))
    return status, size.value, bytes(buffer[:room])


def made(calls, kind, text, room, tap=(1, 0, 0, 0, 0, 0, 0)):
    """The status, the size and the buffer of a call that makes a capture, by a tap of these numbers."""
    given, buffer, size = (c_uint8 * max(1, len(text)))(*text), (c_uint8 * max(1, room))(), c_size_t()
    status = calls.vabgrot_make(kind, byref(Tap(*tap)), given, len(text), buffer, room, byref(size))
    return status, size.value, bytes(buffer[:room])


def encoded(calls, name, given, rooms, old=0x5A5A):
    """The status, the columns and the rows of a call that lays a part, in rows of so many places that held something else."""
    words = [word for it in given for word in (((c_uint8 * max(1, len(it)))(*it), len(it)) if isinstance(it, bytes) else (it,))]
    rows, columns = [(c_uint16 * max(1, room))(*[old] * room) for room in rooms], c_size_t(12345)
    lent = [word for row, room in zip(rows, rooms) for word in (row, room)]
    status = getattr(calls, f"vabgrot_encode_{name}")(*words, *lent, byref(columns))
    return status, columns.value, tuple(row[:room] for row, room in zip(rows, rooms))


class Receiver:
    """A handle, with room for so many events and bytes."""

    def __init__(self, calls, events=1000, size=1 << 16):
        self.calls, self.handle, self.answer = calls, Handle(), Answer()
        self.events, self.bytes = (Event * max(1, events))(), (c_uint8 * max(1, size))()
        self.room = self.events, events, self.bytes, size, byref(self.answer)

    def open(self, kind=LINK):
        return self.calls.vabgrot_open(byref(self.handle), kind)

    def feed(self, lanes, bits=None, sizes=None):
        """Feeds bytes of each lane, all their bits or so many."""
        bits = bits or [8 * len(it) for it in lanes]
        sizes = sizes or [len(it) for it in lanes]
        words = [word for it, size in zip(lanes, sizes) for word in ((c_uint8 * max(1, len(it)))(*it), size)]
        return self.calls.vabgrot_feed(byref(self.handle), *words, byref(Bits(*bits)), *self.room)

    def finish(self):
        return self.calls.vabgrot_finish(byref(self.handle), *self.room)

    def restart(self):
        return self.calls.vabgrot_restart(byref(self.handle))

    def close(self):
        return self.calls.vabgrot_close(byref(self.handle))

    def written(self):
        """The events that the last call wrote, each its column, its kind, its numbers and its bytes."""
        for at in range(self.answer.events):
            it = self.events[at]
            yield it.column, it.kind, it.named, it.count, it.value, it.second, bytes(self.bytes[it.offset : it.offset + it.size])

    def taken(self):
        return self.answer.taken.blue, self.answer.taken.green, self.answer.taken.red
