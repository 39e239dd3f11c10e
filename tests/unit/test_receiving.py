"""The receiver's binding without the C library: the numbers of vabgrot.h, events of records, and calls that something else answers."""

import ctypes
import re

import numpy as np
import pytest

import vabgrot
from tests.support import TOP
from vabgrot import library
from vabgrot.events import RECORD, UNTOLD, End, Event, Kind, of_records
from vabgrot.reading import part_of
from vabgrot.recovered import Recovered

ENUMS = "vabgrot_kind", "vabgrot_event_kind"
HEADER = (TOP / "library" / "vabgrot.h").read_text("utf-8")
LEFT = [(4, 0, 4, 0, 0, Kind.RUN, 0, 0), (43, 14, 0, 0, 0, Kind.CUT, 0, 0), (0, 437, 0, 0, 0, Kind.SLIP, 2, 0)]
LEFT += [(0, 620, 0, 0, 0, Kind.RELOCKED, 0, 0)]
EVENTS = [Event(Kind.RUN, 0, 4, 0, 4, 0, 0), Event(Kind.CUT, 0, 43, 14, 0, 0, 0), Event(Kind.SLIP, 0, 0, 437, 0, 2, 0)]
EVENTS += [Event(Kind.RELOCKED, 1, 0, 620, 0, 0, 0)]
ROOM = {"link": (104, 12327), "dvi": (104, 12327), "track": (400, 12622), "relock": (400, 12622)}


class Calls:
    """Stands for the C library: a feed takes a byte of each lane at a time and writes the first of the records, and the end the others.
    `kinds` are the receivers that it has."""

    def __init__(self, kinds=4):
        self.kinds, self.opened, self.closed = kinds, [], 0

    def vabgrot_open(self, _, kind):
        self.opened.append(kind)
        return library.OK if kind < self.kinds else library.MISUSE

    def vabgrot_feed(self, _, *words):
        bits, answer = words[6]._obj, words[-1]._obj
        counts = [min(8, count) for count in (bits.blue, bits.green, bits.red)]
        answer.taken = library.Bits(*counts)
        self.write(LEFT[:1], *words[7:])
        return library.FULL if any(count > 8 for count in (bits.blue, bits.green, bits.red)) else library.OK

    def vabgrot_finish(self, _, *room):
        self.write(LEFT[1:], *room)
        room[-1]._obj.columns, room[-1]._obj.aligned = 7, 1
        return library.OK

    def vabgrot_close(self, _):
        self.closed += 1

    @staticmethod
    def write(rows, place, room, _, size, answer):
        records = np.array(rows, RECORD)
        assert len(records) <= room and size > 0
        ctypes.memmove(place, records.ctypes.data, records.nbytes)
        answer._obj.events, answer._obj.bytes = len(records), 0


@pytest.fixture
def calls(monkeypatch):
    """What answers in place of the library."""
    found = Calls()
    monkeypatch.setattr(library, "find", lambda: "none")
    monkeypatch.setattr(library, "loaded", lambda _: found)
    return found


def test_numbers():
    """They are those of the header, as far as it has them."""
    numbers = re.findall(r"(?m)^#define VABGROT_((?:LEAST|QUICK)\w+) (\d+)$", HEADER)
    assert len(numbers) >= 4 and [(name, getattr(library, name)) for name, _ in numbers] == [(name, int(it)) for name, it in numbers]
    kinds, events = (re.findall(r"VABGROT_(\w+) = (\d+)", re.search(rf"(?s)enum {name} {{.*?\n}};", HEADER)[0]) for name in ENUMS)
    assert [(name.lower(), int(it)) for name, it in kinds] == [*library.KINDS.items()]
    assert len(events) >= 19 and [(name, int(it)) for name, it in events] == [(it.name, it.value) for it in Kind][: len(events)]


def of(rows):
    return of_records(np.array(rows, RECORD), np.zeros(0, np.uint8))


def test_slips():
    found = of(LEFT)
    assert [*found] == EVENTS and (found[2].line, found[3].line) == ("! slip 2 437", "! relock 620")
    assert str(found[2]) == "bit 437 on lane 2 (red): slip, a lane lost bits; from here on the lanes are searched again"
    said = "relock, the alignment was dropped, because later guard bands are at another skew; from here on the lanes are searched again"
    assert str(found[3]) == f"bit 620: {said}"


def test_faults_are_no_slips():
    """Among events those between WORD and GUARD, each by its name."""
    events = of([(5, 5, 0, 0, 0, kind, 0, 0) for kind in (Kind.WORD, *range(Kind.SHORT, Kind.SLIP))])
    found = Recovered(part_of(events, "link"), End(9, 1, 1))
    names = found.faults["kind"].tolist()
    assert len(names) == 13 and (names[0], names[-1]) == ("word", "guard")


@pytest.mark.parametrize("kind", ROOM)
def test_kinds(calls, kind):
    """The End of lanes that may lose bits counts epochs."""
    end = End(UNTOLD, 7, 1) if kind in ("track", "relock") else End(7, 1, 1)
    with vabgrot.Receiver(kind=kind) as receiver:
        assert [*receiver.feed(b"abc", b"abc", b"ab")] == EVENTS[:1] * 3
        rest, last = receiver.finish()
    assert [*rest] == EVENTS[1:] and last == end and last.aligned
    assert [*vabgrot.receive(b"", b"", b"", kind=kind)] == [*EVENTS[1:], end]
    assert calls.opened == [library.KINDS[kind]] * 2 and calls.closed == 2


def test_no_such_kind(calls):
    with pytest.raises(ValueError, match="'content', but of link, dvi, track, relock"):
        vabgrot.Receiver(kind="content")
    calls.kinds = 2
    vabgrot.Receiver(kind="dvi").close()
    with pytest.raises(vabgrot.NoLibrary, match="no receiver of the kind 'track'"):
        vabgrot.Receiver(kind="track")


@pytest.mark.parametrize("kind, room", ROOM.items())
def test_too_little_room(calls, kind, room):
    """With which no feed would ever take anything."""
    events, size = room
    for fewer, smaller in ((events - 1, size), (events, size - 1)):
        with pytest.raises(ValueError, match=f"wants room for {events} events and {size} bytes"):
            vabgrot.Receiver(kind=kind, events=fewer, size=smaller)
    assert not calls.opened
    vabgrot.Receiver(kind=kind, events=events, size=size).close()
