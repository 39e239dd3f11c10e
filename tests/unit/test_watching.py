"""What tools/watch counts: the same of a listing's text and of records; the blocks that it reads, and those that tools/lanes writes."""

import io
import os
import random
import threading

import pytest

from tests.heard import events_of
from tests.models import feeding, hearing, model
from vabgrot import capture, listing
from vabgrot.events import IS_OF_PACKET
from vabgrot.lanes import repeating
from vabgrot.watching.blocks import LONGEST, Blocks
from vabgrot.watching.counting import Count
from vabgrot.watching.looking import Look


def poured(pieces):
    """A pipe into which a thread writes some bytes, one after another."""
    reads, writes = os.pipe()

    def pour():
        for piece in pieces:
            os.write(writes, piece)
        os.close(writes)

    threading.Thread(target=pour).start()
    return reads


def counted(parts):
    """What is counted of some events, what the ear heard, and what a look saw."""
    count, look, heard = Count(), Look(), []
    for part in parts:
        count.take(part, heard.extend)
        look.take(part)
    return count, look, heard


def pieces_of(events, size):
    """Some events at a time, each with the faults of its packet."""
    at = 0
    while at < len(events):
        stop = at + size
        while stop < len(events) and IS_OF_PACKET[events.kind[stop]]:
            stop += 1
        yield events[at:stop]
        at = stop


def test_pieces_of_any_size(compare):
    """Faults, columns, frames, packets as they stand, and what is looked at, are the same however the events come."""

    def cases():
        for case in range(12):
            rng = random.Random(f"watching {case}")
            _, text = model.tracked(feeding.made_capture(rng)[1], hearing.link_of)
            if not text:
                continue
            events = listing.parsed(listing.lines(io.BytesIO(text), listing.LINK), is_dvi=False)
            lines = [line for line in text.decode().splitlines() if line.startswith("! ")]
            (one, seen, told), (other, shown, heard) = (counted(pieces_of(events, size)) for size in (len(events), rng.choice((1, 7, 100))))
            yield case, [fault.line for fault in heard], lines
            yield case, (other.faults, other.last, other.standing, other.frames), (one.faults, one.last, one.standing, one.frames)
            yield case, (other.total, other.columns, shown.rows, shown.whole), (len(lines), one.columns, seen.rows, seen.whole)

    compare(cases())


def test_the_last_of_each_type_stands():
    """Of two packets of a type the last that no block is lost of; those of sound do not stand."""
    packets = [("p", f"{kind:02x}0000", f"{at:014x}", *["00" * 7] * 3, "0" * 32) for at, kind in enumerate((0x82, 2, 0x82, 0x84))]
    packets.insert(3, ("!", "lost", "64", "0"))
    count = Count()
    count.take(events_of(packets))
    assert {kind: data[9] for kind, data in count.standing.items()} == {0x82: 0, 0x84: 3}
    assert count.last[0].line == "! lost 64 0"


@pytest.mark.parametrize("sizes", ((0, 0, 0), (1, 1, 1), (4096, 4096, 4096), (9000, 100, 4097), (LONGEST + 5000, LONGEST, 3 * LONGEST)))
def test_blocks(sizes):
    """The lanes of a capture that comes in pieces, taken out as some blocks of them are there; and the place of each lane's last byte."""
    rng = random.Random(str(sizes))
    lanes = [rng.randbytes(size) for size in sizes]
    out = io.BytesIO()
    capture.write(out, [io.BytesIO(lane) for lane in lanes], [8 * size for size in sizes])
    data = out.getvalue()[16:]
    cuts = sorted(rng.randrange(len(data) + 1) for _ in range(20)) if data else []
    file = poured(data[at:behind] for at, behind in zip([0, *cuts], [*cuts, len(data)]))
    blocks, found, begin, ends = Blocks(sizes), [b""] * 3, 0, {}
    while not blocks.is_done:
        assert blocks.read(file)
        count = blocks.whole()
        for number, lane in enumerate(blocks.lanes(count)):
            found[number] += lane.tobytes()
            if sizes[number] and 0 < len(lane) == blocks.left[number]:
                ends[number] = begin + blocks.place(number, len(lane) - 1)
        begin += blocks.stops[count - 1] if count else 0
        blocks.take(count)
    assert found == lanes and os.read(file, 1) == b""
    for number, at in ends.items():
        whole = (sizes[number] - 1) // 4096 * 4096
        before = sum(min(size, whole) for size in sizes) + sum(min(4096, max(0, size - whole)) for size in sizes[:number])
        assert at == before + sizes[number] - 1 - whole, number
    os.close(file)


def raw_of(lanes, bits, times):
    """Raw blocks of so many bits of each lane, so many times, as FORMATS has them."""
    rows = ["".join(f"{byte:08b}"[::-1] for byte in lane)[:bits] * times for lane in lanes]
    size = bits * times // 8
    whole = [bytes(int(row[at : at + 8][::-1], 2) for at in range(0, 8 * size, 8)) for row in rows]
    return b"".join(
        lane[at : at + 4096].ljust(0 if number == 2 else 4096, b"\0") for at in range(0, size, 4096) for number, lane in enumerate(whole)
    )


def test_raw_blocks(compare):
    """Of lanes of some sizes and bits, once and again and again."""

    def cases():
        for case in range(40):
            rng = random.Random(f"raw {case}")
            size = rng.choice((1, 5, 100, 4096, 5000, 20000))
            lanes = [rng.randbytes(size) for _ in range(3)]
            bits, times = rng.choice((8 * size, rng.randint(1, 8 * size))), rng.choice((1, 2, 3, 9))
            yield f"{bits} bits, {times} times", b"".join(map(bytes, repeating.pieces(lanes, bits, times))), raw_of(lanes, bits, times)

    compare(cases())
    endless = repeating.pieces([b"abc", b"def", b"ghi"], 24, None)
    first = b"".join(bytes(next(endless)) for _ in range(3))
    lanes = [lane * (len(first) // 9 + 1) for lane in (b"abc", b"def", b"ghi")]
    assert first == b"".join(lane[at : at + 4096] for at in range(0, len(lanes[0]), 4096) for lane in lanes)[: len(first)]
