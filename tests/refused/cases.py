"""Each command of the built program while one request of it is refused: each request of memory in turn, each thread, each read and
each write, the last two also where a call moves one byte or seven at most; and over inputs of some blocks, where each call
moves a random number of bytes.

refuse.c, which is built by `cc` and preloaded, refuses them. Wanted are status 6 with nothing written, or the answer of an
undisturbed run, where memory is refused; that answer where no thread can be made; and status 4 or 5 with its note and a part of
that answer where a read or a write fails. A command that reads all before it writes has written nothing on 4; one that writes
while it reads has taken its memory before the first read, so it has read nothing on 6. Where a read fails within a header,
the fault that the bytes before it show is answered instead."""
import collections
import itertools
import os
import random
import subprocess

from tests.hostile.inputs import SILENT, frames, sources
from tests.models import feeding, model
from tests.support import FURTHER, HANGS, READERS, SLIP, TOP

KINDS = ("memory", "read", "write", "thread")
HEADERS = (b"XMC10000", b"TXC10000", b"TMX10000", b"TMC90000", b"TMC10000", b"TMC2000000000000")


class Refusing:
    """Runs of the program with the library that refuses."""

    def __init__(self, program, folder):
        self.program, self.told, self.library = program, os.path.join(folder, "told"), os.path.join(folder, "refuse.so")
        words = ["cc", "-O1", "-shared", "-fPIC", "-o", self.library, f"{TOP}/tests/refused/refuse.c", "-ldl"]
        subprocess.run(words, check=True)

    def run(self, words, source, kind="", at=0, on=False, piece=0, seed=0):
        """The status, the output and the notes where request `at` of a kind is refused (`on`: and each later one)."""
        asked = {"KIND": kind, "AT": at, "ON": int(on), "PIECE": piece, "SEED": seed, "TOLD": self.told}
        given = {**os.environ, "LD_PRELOAD": self.library, **{f"REFUSE_{name}": str(it) for name, it in asked.items()}}
        ran = subprocess.run([self.program, *words], input=source, capture_output=True, timeout=HANGS, env=given)
        return ran.returncode, ran.stdout, ran.stderr

    def counts(self):
        """How many requests of each kind the last run made."""
        with open(self.told) as told:
            return dict(zip(KINDS, map(int, told.read().split())))


def is_part(came, whole, status, note):
    """Whether a run ended with a status and its note, and wrote a part of the output."""
    return (came[0], came[2]) == (status, note) and whole[1].startswith(came[1])


def is_early(it, words, kind):
    """Whether a run that was refused memory asked for it when it may: before the first read, or where all is read first."""
    return kind != "memory" or words[0] in SILENT or it.counts()["read"] == 0


def of_command(it, words, source, counted):
    """Each case of a command: its name, whether it went well, and what came."""
    whole = it.run(words, source)
    yield f"{words}", whole[0] in (0, 1) and whole[2] == b"", whole
    counts = it.counts()
    for on in (False, True):
        for kind in ("memory", "thread"):
            for at in range(1, counts[kind] + 1):
                came = it.run(words, source, kind, at, on)
                spared = kind == "memory" and came in ((6, b"", b"out of memory\n"), (6, b"", b"")) and is_early(it, words, kind)
                counted[kind, came[0], came[2]] += 1
                yield f"{words}, {kind} {at}{' and on' * on}", came == whole or spared, came
    for piece in (1, 7, 0):
        yield f"{words} in pieces of {piece}", it.run(words, source, piece=piece) == whole, None
        counts = it.counts()
        for kind, status, note in (("read", 4, b"read failed\n"), ("write", 5, b"write failed\n")):
            for at in range(1, counts[kind] + 1):
                came = it.run(words, source, kind, at, False, piece)
                counted[kind, came[0], came[2]] += 1
                silent = kind == "read" and words[0] in SILENT
                yield f"{words} in pieces of {piece}, {kind} {at}", is_part(came, whole, status, note) and not (silent and came[1]), came


def in_pieces(it):
    """Each command over inputs of some blocks, whole and in reads and writes of random sizes."""
    for case in range(8):
        rng = random.Random(f"pieces {case}")
        data, _ = feeding.made_capture(rng)
        inputs = [(words, data) for words in (*READERS, *FURTHER, SLIP)]
        inputs += [(["make", name], feeding.listing_of(rng, name == "link")) for name in ("link", "dvi")]
        inputs += [(["make", "content"], frames(20, 1 + case)), (["read", "biphase"], model.frame((case, 5, 0, 7, 1)) * 700)]
        for words, source in inputs:
            whole = it.run(words, source)
            for seed, piece in enumerate((3, 50, 5000), 1 + case):
                came = it.run(words, source, piece=piece, seed=seed)
                yield f"{words} in random pieces of at most {piece}, case {case}", came == whole and whole[0] in (0, 1, 7), came


def shown(part):
    """The fault line of the first bytes of a capture, whatever follows them; empty where they are the beginning of one."""
    for place, byte in enumerate(part[:3]):
        if byte != b"TMC"[place]:
            return b"input: magic %d\n" % place
    return b"" if part[3:4] in (b"", b"1", b"2") else b"input: version %d\n" % part[3]


def cut_headers(it):
    """Each command that reads a capture, and each beginning of a header, right or wrong, after which a read fails: the bytes
    before it are read one by one, or at once."""
    for header, words in itertools.product(HEADERS, (*READERS, *FURTHER, SLIP)):
        for size in range(len(header)):
            note = shown(header[:size])
            wanted = (3, b"", note) if note else (4, b"", b"read failed\n")
            for piece, at in {(1, size + 1), (max(size, 1), 1 + (size > 0))}:
                came = it.run(words, header, "read", at, False, piece)
                yield f"{words} of {header[:size]} in pieces of {piece}, read {at}", came == wanted, came


def of_each(it, number):
    """The cases of one command, by its number among `sources`; what was refused is printed."""
    words, source = [*sources(it.program)][number]
    counted = collections.Counter()
    yield from of_command(it, words, source, counted)
    for (kind, status, note), count in sorted(counted.items()):
        print(f"{' '.join(words)}, {kind}: {count} with status {status} {note.decode().strip()}", flush=True)
