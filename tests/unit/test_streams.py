"""Lanes that are read: from files, pipes and sockets, in whatever pieces and order their bytes come."""

import gzip
import io
import os
import random
import socket
import threading

import pytest

import vabgrot
from vabgrot.streams import pieces_of

SIZES = (100_003, 100_003, 99_001)
WAITS = 60  # seconds after which a thread hangs


@pytest.fixture
def lanes():
    rng = random.Random("lanes")
    return [rng.randbytes(size) for size in SIZES]


def taken(streams, bits=None):
    """The lanes that the pieces make up, and the counts of each piece."""
    found, counts = [b"", b"", b""], []
    for data, numbers in pieces_of(streams, bits):
        assert [(number + 7) // 8 for number in numbers] == [*map(len, data)]
        found = [lane + part for lane, part in zip(found, data)]
        counts.append(numbers)
    return found, counts


def written(lanes, write, size):
    """Writes the lanes in a thread, some bytes of each in turn, or the whole of each after another."""

    def work():
        for at in range(0, max(map(len, lanes)), size):
            for number, lane in enumerate(lanes):
                write(number, lane[at : at + size])
        for number in range(3):
            write(number, None)

    thread = threading.Thread(target=work, daemon=True)
    thread.start()
    return thread


@pytest.mark.parametrize("size", (1000, 70_001, 1 << 20))
def test_pipes(lanes, size):
    """No lane waits for another one: a pipe has room for fewer bytes than are written at a time."""
    pipes = [os.pipe() for _ in range(3)]

    def write(number, data):
        end = pipes[number][1]
        os.close(end) if data is None else [os.write(end, data[at : at + 5000]) for at in range(0, len(data), 5000)]

    thread = written(lanes, write, size)
    files = [open(pipe[0], "rb", buffering=number * 100) for number, pipe in enumerate(pipes)]  # raw, and with buffers
    found, counts = taken(files)
    thread.join(WAITS)
    assert found == lanes and not thread.is_alive()
    assert all(len({*numbers}) == 1 and numbers[0] % 8 == 0 for numbers in counts[:-2])


def test_sockets(lanes):
    pairs = [socket.socketpair() for _ in range(3)]

    def write(number, data):
        pairs[number][1].close() if data is None else pairs[number][1].sendall(data)

    thread = written(lanes, write, 40_000)
    assert taken([mine for mine, _ in pairs])[0] == lanes
    thread.join(WAITS)
    for mine, _ in pairs:
        mine.close()


def test_files(lanes, tmp_path):
    """A file, one that is packed, and one in memory; each from where it stands."""
    (tmp_path / "blue").write_bytes(b"head" + lanes[0])
    (tmp_path / "green").write_bytes(gzip.compress(lanes[1]))
    with open(tmp_path / "blue", "rb") as blue, gzip.open(tmp_path / "green") as green:
        blue.read(4)
        assert taken([blue, green, io.BytesIO(lanes[2])])[0] == lanes


def test_bits(lanes):
    """As many as are asked for, and no more are read."""
    bits = (8 * 70_000 + 3, 17, 0)
    files = [io.BytesIO(lane) for lane in lanes]
    found, counts = taken(files, bits)
    assert [sum(numbers) for numbers in zip(*counts)] == [*bits]
    assert found == [lane[: (count + 7) // 8] for lane, count in zip(lanes, bits)]
    assert files[2].tell() == 0 and files[1].tell() == 3
    with pytest.raises(vabgrot.Misuse, match="lane 1 ends 8 bits before"):
        taken([io.BytesIO(b"ab"), io.BytesIO(b"a"), io.BytesIO(b"ab")], (16, 16, 16))


def test_text_is_no_lane(tmp_path):
    (tmp_path / "blue").write_text("ab")
    with open(tmp_path / "blue") as blue, pytest.raises(TypeError, match='open its file with the mode "rb"'):
        taken([blue, io.BytesIO(b""), io.BytesIO(b"")])
