"""vabgrot.content: frames, packets and samples of events, in pieces of any size. Listings are written by hand from
docs/guide/FORMATS.md."""

import random
from collections import Counter

import numpy as np
import pytest

from tests.heard import events_of, lines_of, reading_of
from vabgrot.content import Content, Flow, Frame
from vabgrot.events import IS_OF_PACKET, Kind

ROW = "c 04 8\nv {}\nc 00 12\n"
CHANGE = "c 02 3\nc 00 20\n"
ISLAND = "c 14 8\ni 00\n{}\ne 00\nc 00 12\n"
GCP = "p 030000 {} {} {} {} " + "0" * 32


def parts(text):
    """The fields of the lines of a listing."""
    return [(name, *fields) for _, name, fields in lines_of(text)]


def frames(text, sizes=None):
    """The frames of a listing whose events come in pieces of such sizes."""
    events, flow, found, at = events_of(parts(text)), Flow(), [], 0
    while at < len(events):
        stop = at + (next(sizes) if sizes else len(events))
        while stop < len(events) and IS_OF_PACKET[events.kind[stop]]:
            stop += 1
        found += flow.take(events[at:stop])
        at = stop
    return [it for it in (*found, *flow.finish()) if isinstance(it, Frame)]


def test_frames_stand_between_changes_of_vsync():
    """What comes before the first change and after the last is no whole frame."""
    text = "c 00 12\n" + ROW.format("111111") + CHANGE + ROW.format("222222333333") * 2 + CHANGE + ROW.format("444444")
    found = frames(text)
    assert [(it.is_whole, it.ended, it.width, len(it.rows)) for it in found] == [
        (False, "vsync", 1, 1),
        (True, "vsync", 2, 2),
        (False, "end", 1, 1),
    ]
    assert found[1].rows == [bytes.fromhex("222222333333")] * 2 and not found[1].ragged
    assert found[1].change == 12 + 8 + 3 + 12 + 3 and found[1].firsts == [68, 92] and found[1].places == [7, 10]


def test_vsync_of_two_columns_is_no_change():
    """A change is one of three neighbouring columns."""
    assert len(frames("c 00 12\n" + ROW.format("111111") + "c 02 2\nc 00 20\n" + ROW.format("222222"))) == 1


def test_faults_of_a_frame_and_their_pixels():
    """The first pixel of the row is column 22 of 12 + 8 + 2."""
    (found,) = frames("c 00 12\nc 04 8\nv 111111222222333333\n! code 1 23\nc 00 12\n! noise 37\nc 00 12")
    assert found.marks.counts == {"code": 1, "noise": 1} and [*found.marks.of(Kind.CODE)] == [(3, 1, 0, 1)]


@pytest.mark.parametrize("fault, ended", [("! slip 0 900", "slip"), ("! relock 900", "relock")])
def test_the_end_of_an_epoch_ends_a_frame(fault, ended):
    (found,) = frames("c 00 12\n" + ROW.format("111111") + f"{fault}\nc 00 12")
    assert (found.is_whole, found.ended) == (False, ended)


def random_listing(rng):
    """Rows, changes of VSYNC, faults and slips."""
    text = "c 00 12\n"
    for _ in range(60):
        row = ROW.format(rng.randbytes(3 * rng.randrange(1, 4)).hex())
        text += rng.choice((row, row, CHANGE, "! word 1 9999\n", "c 02 1\nc 00 2\n", "! guard 5000\n", "! slip 1 900\nc 00 12\n"))
    return text


def test_pieces_of_any_size(compare):
    """Frames are the same however their events come."""

    def plain(frame):
        marks = [one.tolist() for one in (frame.marks.place, frame.marks.kind, frame.marks.row, frame.marks.pixel)]
        return frame.change, frame.rows, frame.firsts, frame.places, frame.end, frame.ended, frame.is_whole, marks

    def cases():
        for number in range(30):
            rng = random.Random(number)
            text = random_listing(rng)
            yield number, [*map(plain, frames(text, iter(lambda: rng.choice((1, 2, 5, 40)), None)))], [*map(plain, frames(text))]

    compare(cases())


def test_packets_that_are_known():
    """A lost block, and four bodies of general control that are not alike, are no evidence. What was read before a slip is not either."""
    same, other = "01" + "00" * 6, "10" + "00" * 6
    whole, uneven = GCP.format(*[same] * 4), GCP.format(same, same, other, same)
    first = "c 00 12\n" + ISLAND.format(f"{whole}\n{uneven}\n{whole}\n! lost 86 2")
    content = Content(reading_of(parts(first)))
    assert len(content.packets) == 3 and content.packets.lost.tolist() == [False, False, True]
    assert content.packets.of(3).place.tolist() == [3] and content.losses.between(0, 87) == "a packet was lost"
    slipped = Content(reading_of(parts(f"{first}! slip 1 700\n{first}")))
    assert slipped.packets.lost.tolist() == [True] * 3 + [False, False, True]


def test_samples_of_eight_channels():
    """A packet of layout 1 has one sample of each of four pairs of channels."""
    bodies = [bytes([0, number, 0, 0, 16 * number, 0, 0]).hex() for number in range(1, 5)]
    wide = f"p 021ff0 {' '.join(bodies)} {'0' * 32}"
    samples = Content(reading_of(parts(f"c 00 12\n{ISLAND.format(wide)}"))).samples
    assert (samples.total, samples.layout, samples.is_wide, len(samples.bodies)) == (1, 1, True, 4)
    assert [int(body[0, 1]) for body in samples.bodies] == [1, 2, 3, 4] and all(len(it) == 1 for it in samples.starts)
    assert np.array_equal(samples.numbers, [[0]] * 4) and Counter(samples.odd.tolist()).total() == 1
