"""Inputs that are made while they are read, through pipes, and the tables of tests/hostile that are run only where they are
named, since each takes a minute or more."""
import itertools
import resource
import subprocess
import threading

from tests.models import model
from tests.models.model import BLOCK, lanes_of, packed
from tests.support import HANGS, READERS, run

MOST_FRAMES = 268_435_455  # that `read biphase` reads
MOST_TEXT = 4_294_967_295  # bytes of a listing

# A line of one pixel behind one control column, and what stands before the first.
PIXEL = [0x354, 0x2CC, 0x2CC, 0x100], [0x354, 0x133, 0x133, 0x100], [0x354, 0x2CC, 0x2CC, 0x200]
OPENING = [[0x354] * 5 + [row] * 8 for row in (0x354, 0x0AB, 0x354)]


def endless(program, size):
    """The pieces of a capture of so many bytes: whole blocks of one capture over and over."""
    lines = b"c 00 12\nc 04 8\nv " + b"10fe33" * 500 + b"\n"
    part = run(program, ["make", "link"], lines * 40 + b"c 00 12\nend\n")[1]
    blocks = part[8 : 8 + (len(part) - 8) // (3 * BLOCK) * 3 * BLOCK]
    copies = size // len(blocks)
    yield b"TMC1" + (copies * len(blocks) // 3 * 8).to_bytes(4, "big")
    for _ in range(copies):
        yield blocks


def loud(frames):
    """The pieces of a biphase stream of so many frames: 192 over and over."""
    block = b"".join(model.frame((65_536 - at, 16_777_215 - at, at % 8, at // 8 % 8, int(at == 0))) for at in range(192))
    piece = block * 64
    for _ in range(frames // (192 * 64)):
        yield piece
    yield piece[: frames % (192 * 64) * 16]


def growing(size):
    """The pieces of a capture of so many bytes at least: lines of one pixel behind one control column each, whose relay has
    eleven columns more for each. The header tells of 1 GB."""
    yield b"TMC1" + (8 * 333_000_000).to_bytes(4, "big")
    yield lanes_of([packed(first + row[1:]) + packed(row) * (BLOCK - 4) for first, row in zip(OPENING, PIXEL)])[8:]
    body = lanes_of([packed(row) * BLOCK for row in PIXEL])[8:]
    yield from itertools.repeat(body, size // len(body))


# Contents that have no raster, or more columns than one may have: the mode, a part of which there are as many as asked for, how many
# lines that has, and the note. What a text of 4 GB of these is refused for is known after some MB of it at most.
ENDLESS = {
    "frames of one pixel": (b"mode 1 4 30 14 1 1 1 1 0\n", b"row 000000\nframe 1 1\n", 2, b"long"),
    "frames of one pixel and one packet": (b"mode 1 4 30 14 1 1 1 1 0\n", b"acr 6144 27000\nrow 000000\nframe 1 1\n", 3, b"long"),
    "packets that have no room": (b"mode 1 1 1 14 1 1 1 1 0\n", b"gcp 1 0 4\nrow 000000\nframe 1 1\n", 3, b"noroom 0 0"),
    "rows that have no mode": (b"mode 5000 4 30 14 1 1 1 1 0\n", b"row " + b"0a141e" * 5000 + b"\nframe 5000 1\n", 2, b"mode 0"),
    "pictures": (b"mode 400 4 30 14 60 1 1 1 0\n", (b"row " + b"0a141e" * 400 + b"\n") * 60 + b"frame 400 60\n", 61, b"long"),
}
END = b"end\n"


def repeated(mode, part, count):
    """The pieces of a content with so many parts."""
    yield mode
    most = max(1, 200_000 // len(part))
    for _ in range(count // most):
        yield part * most
    yield part * (count % most)
    yield END


class Poured:
    """A run that is fed by a pipe: its status and notes, how many bytes went in and came out, and the greatest memory that was
    seen, in KiB."""

    def __init__(self, program, words, pieces, taken=None, held=False, room=None):
        """Its reader goes away after so many bytes, if at all; the pipe may be held open behind the last piece until the program
        has ended, which is killed where it hangs; the program has so many KiB of addresses, if that is given."""
        bound = None if room is None else lambda: resource.setrlimit(resource.RLIMIT_AS, (room * 1024, room * 1024))
        pipes = {name: subprocess.PIPE for name in ("stdin", "stdout", "stderr")}
        self.process = subprocess.Popen([program, *words], preexec_fn=bound, **pipes)
        self.gone, self.came, self.peak = 0, 0, 0
        self.held = threading.Event()
        if not held:
            self.held.set()
        feeder = threading.Thread(target=self.feed, args=(pieces,))
        feeder.start()
        self.take(taken)
        self.process.stdout.close()
        self.notes = self.process.stderr.read()
        self.status = self.process.wait(HANGS)
        self.held.set()
        feeder.join()

    def feed(self, pieces):
        """Writes pieces until the program is gone."""
        try:
            for piece in pieces:
                self.process.stdin.write(piece)
                self.gone += len(piece)
                self.look()
            self.process.stdin.flush()
            if not self.held.wait(HANGS):
                self.process.kill()
            self.process.stdin.close()
        except BrokenPipeError:
            pass

    def take(self, taken):
        while taken is None or self.came < taken:
            piece = self.process.stdout.read(1 << 20 if taken is None else taken - self.came)
            if not piece:
                break
            self.came += len(piece)
            self.look()

    def look(self):
        try:
            with open(f"/proc/{self.process.pid}/status") as status:
                self.peak = max([self.peak] + [int(line.split()[1]) for line in status if line.startswith("VmHWM")])
        except OSError:
            pass


def refused(program, name, count, cause, room):
    """A content of so many parts, which is refused in so many MiB of addresses, and of which nothing is written."""
    mode, part, _, _ = ENDLESS[name]
    ran = Poured(program, ["make", "content"], repeated(mode, part, count), room=room * 1024)
    came = ran.status, ran.notes, ran.came
    return f"make content of {count} {name} in {room} MiB: after {ran.gone} bytes, {ran.peak} KiB", came, (3, b"input: " + cause + b"\n", 0)


def contents(program):
    """Contents of 120 MB that have no raster, or more columns than one may have."""
    for name, (_, part, _, cause) in ENDLESS.items():
        yield refused(program, name, 120_000_000 // len(part), cause, 200)


# ---- the tables that are run only where they are named

def long(program):
    """A capture of 1 GB to its end, and the memory that it takes."""
    for words in READERS:
        ran = Poured(program, words, endless(program, 1_000_000_000))
        yield f"{words} of 1 GB", (ran.status in (0, 1), ran.notes, ran.gone > 990_000_000), (True, b"", True)
        yield f"memory of {words}: {ran.peak} KiB", ran.peak < 4000, True
        if words[0] == "damage":
            yield "what is written of 1 GB", ran.came, ran.gone


def most(program):
    """As many frames as `read biphase` reads, and one byte more: 4.3 GB each."""
    lines = 24 * MOST_FRAMES + 104 * (MOST_FRAMES // 192)
    for more, status, note in ((b"", 0, b""), (b"\x47", 3, b"input: long\n")):
        ran = Poured(program, ["read", "biphase"], itertools.chain(loud(MOST_FRAMES), [more]))
        came = lines + (0 if more else 4)
        yield f"{MOST_FRAMES} frames and {len(more)} byte", (ran.status, ran.notes, ran.came), (status, note, came)
        yield f"memory of it: {ran.peak} KiB", ran.peak < 4000, True


def texts(program):
    """Contents of as many bytes as a text may have, and of one part more."""
    for name, (mode, part, lines, cause) in ENDLESS.items():
        most = (MOST_TEXT - len(mode) - len(END)) // len(part)
        passed = 1 + lines * most + passing(part, MOST_TEXT - len(mode) - most * len(part))
        yield refused(program, name, most, cause, 400)
        yield refused(program, name, most + 1, b"line %d long" % passed, 400)


def passing(part, room):
    """Which line of a part has the byte that is one more than there is room for."""
    return part[:room].count(b"\n") + 1
