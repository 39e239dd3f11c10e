"""A program over the package, for `mypy --strict`: what it asks for has the types that are said here."""

import subprocess
from collections.abc import Iterator
from pathlib import Path

import numpy as np
import numpy.typing as npt

import vabgrot
from vabgrot.testing import assert_clean


def lines_of(path: Path) -> Iterator[npt.NDArray[np.uint8]]:
    """The pixels of each line that a program sends by three pipes, files or sockets."""
    with subprocess.Popen(["cat", path], stdout=subprocess.PIPE) as sender, open(path, "rb") as green:
        assert sender.stdout
        for event in vabgrot.receive(sender.stdout, green, bytearray(b"red"), bits=(8, 8, 8), kind="relock"):
            if isinstance(event, vabgrot.End):
                print(event.columns + event.epochs)
            elif event.kind is vabgrot.Kind.LINE:
                yield event.pixels


def pieces(lanes: tuple[bytes, memoryview, npt.NDArray[np.uint8]]) -> int:
    """How many faults the lanes have."""
    with vabgrot.Receiver(kind="dvi", events=1000) as receiver:
        events: vabgrot.Events = receiver.feed(*lanes, bits=[8, 16, 24])
        first: vabgrot.Event = events[0]
        for view in receiver.feed_views(*lanes):
            print(view.kind.sum())
        rest, end = receiver.finish()
        return len(events.faults) + len(rest[rest.faults]) + end.columns + first.width


def whole(path: str) -> float:
    """Something of all that a capture carries."""
    with open(path, "rb") as file:
        capture: vabgrot.Recovered = vabgrot.recover(file, kind="track")
    places = [epoch.starts[0] + epoch.columns for epoch in capture.epochs if epoch.starts and epoch.cause is vabgrot.Kind.SLIP]
    codes = [packet.fields["VIC"] for packet in capture.packets if packet.name == "AVI InfoFrame" and packet.words]
    return sum(places) + sum(codes) + float(np.mean(capture.frames[0])) + len(capture.faults["lane"])


def verdict(data: bytes) -> str:
    """What is said of a capture."""
    assert_clean(data, kind="dvi")
    found: vabgrot.Verdict = vabgrot.judge(data)
    rules = [f"{rule.name} {rule.state} {rule.words}" for rule in found.rules]
    return found.word.value + found.headline + "".join(rules)


def sent(row: npt.NDArray[np.uint8]) -> npt.NDArray[np.uint16]:
    """The characters of a line."""
    island = vabgrot.Island([bytes(63)], opening=(0, 1))
    return vabgrot.encode([vabgrot.Control(0, 12), island, vabgrot.Video(row), vabgrot.Video(b"abc", guard=False)])


def listed(path: Path) -> bytes:
    """A capture of a listing, and its listing again."""
    try:
        made = vabgrot.make(path.read_text(), offset=7, skew=(0, 1, 2), kind="content")
    except vabgrot.BadListing as why:
        return f"{why.line or 0} {why.cause}".encode()
    except vabgrot.Error as why:
        raise SystemExit(str(why)) from None
    text: vabgrot.Text = vabgrot.text_of(made, kind="check")
    return text.text + vabgrot.__version__.encode()
