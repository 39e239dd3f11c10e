"""Captures of listings by one call: what the program makes of the same text, in buffers of many sizes, and how both refuse one; by C, and
by Python with the library and without it."""

import random

import pytest

import vabgrot
from tests.library import bound
from tests.library.bound import FULL, MAKERS, MISUSE, NOLISTING, OK, made
from tests.library.conftest import SANITIZERS
from tests.models import feeding
from tests.support import LISTING, TOP, ran, run
from vabgrot import sending

LISTINGS = 24
ALL = 1, 0, 0, 0, 0, 0, 0  # of each lane all bits
WRONG = b"c 00 3\n", b"v 12\n", b"p\n", b"c 04 8\n", b"! word 1 0\n", b"frame 1 1\n", b"end\n"
NO_ROOM = b"mode 1 1 1 14 1 1 1 2 0\nrow 000000\npacket 000000" + b" 00000000000000" * 4 + b"\nframe 1 1\nend\n"
# The stream of examples/skewed.link, from bit 7 on with skews of 0, 70 and 35, computed apart from this program.
SKEWED = bytes.fromhex(
    "544d433100000189a69a6aaaa9a69a6aaaa9a69a6aaaa9a69a6aaaa9a69a6aaaa9a69a6aaaa9a69a6aaaa9a69a6aaa99651620aaa9a69a6aaa01a69a6aaaa9"
    "a69a6aaaa9a69a6aaaa9a69a6aaaa95e65955556596595555699692680a8a69a6aaaa9a69a6aaaa9a69a6aaa01d554534d35d554534d35d554534d35d554534d"
    "35d554534d35d554534d35d554534d35b3cc024835d554534d35d554534d01"
)


@pytest.fixture(scope="module")
def calls(library):
    return bound.loaded(library / "libvabgrot.so.1")


def listings():
    """The name, the kind and the text of listings: stored ones, generated ones, and each of these with a wrong line or cut short."""
    for name in ("red", "island", "skewed"):
        yield name, "link", (TOP / "examples" / f"{name}.link").read_bytes()
    yield "bars", "content", (TOP / "examples" / "bars.content").read_bytes()
    for at in range(LISTINGS):
        rng = random.Random(f"a listing {at}")
        for kind in MAKERS:
            text = feeding.content_of(rng) if kind == "content" else feeding.listing_of(rng, guards=kind == "link")
            yield f"{kind} {at}", kind, text
            lines = text.splitlines(keepends=True)
            lines[rng.randrange(len(lines))] = rng.choice(WRONG)
            yield f"{kind} {at}, another line", kind, b"".join(lines)
            yield f"{kind} {at}, cut", kind, text[: rng.randrange(len(text))]
            yield f"{kind} {at}, of another kind", rng.choice(MAKERS), text
    yield "no text", "link", b""
    yield "a packet too many", "content", NO_ROOM


def taps():
    """Numbers of taps, and the options that say the same."""
    yield ALL, []
    yield (2, 7, 0, 70, 35, 0, 5), ["--version", "2", "--offset", "7", "--skew", "0,70,35"]
    yield (1, 12345, 4095, 0, 4095, 1, 1000), ["--offset", "12345", "--skew", "4095,0,4095", "--bits", "1000"]
    yield (2, 2**32 - 1, 1, 2, 3, 1, 0), ["--version", "2", "--offset", str(2**32 - 1), "--skew", "1,2,3", "--bits", "0"]


def wanted_of(status, output, note):
    """The status, the size and the bytes of a call, by what the program does."""
    return (OK, len(output), output) if status == 0 else (NOLISTING, len(note), note) if status == 3 else None


def test_the_program_makes_the_same(calls, executable, compare):
    def cases():
        found, every = set(), [*taps()]
        for at, (name, kind, text) in enumerate(listings()):
            tap, words = every[at % len(every)]
            status, size, data = wanted_of(*run(executable, ["make", kind, *words], text))
            found.add((status, data.split()[-1] if status == NOLISTING else b""))
            yield name, made(calls, MAKERS.index(kind), text, size + 1, tap), (status, size, data + b"\0")
        yield "kinds of refusals", len(found) > 5, True

    compare(cases())


def test_room(calls, compare):
    """The capture, or the note, has as many bytes as are said, and the buffer the first of them, and none past them."""
    text, tap = (TOP / "examples" / "skewed.link").read_bytes(), (1, 7, 0, 70, 35, 0, 0)
    refused = b"input: line 2 unended\n"

    def cases():
        for room in range(len(SKEWED) + 3):
            status = OK if room >= len(SKEWED) else FULL
            wanted = status, len(SKEWED), SKEWED[:room] + bytes(max(0, room - len(SKEWED)))
            yield f"{room} bytes", made(calls, 0, text, room, tap), wanted
        for room in range(len(refused) + 3):
            wanted = NOLISTING, len(refused), refused[:room] + bytes(max(0, room - len(refused)))
            yield f"a note in {room} bytes", made(calls, 1, b"c 00 12\n", room), wanted

    compare(cases())


def test_misuse(calls, executable, compare):
    """What is no kind and no tap, and what the command line does not take either."""

    def cases():
        for kind in (3, 4, 1 << 31, (1 << 32) - 1):
            yield f"kind {kind}", made(calls, kind, LISTING, 4), (MISUSE, 0, bytes(4))
        for at, number in ((0, 0), (0, 3), (0, 257), (2, 4096), (3, 4096), (4, 2**32 - 1), (5, 2), (5, 2**32 - 1)):
            tap = (*ALL[:at], number, *ALL[at + 1 :])
            yield f"tap {tap}", made(calls, 0, LISTING, 4, tap), (MISUSE, 0, bytes(4))
            skew = ",".join(map(str, tap[2:5]))
            status = run(executable, ["make", "link", "--version", str(tap[0]), "--skew", skew], LISTING)[0]
            yield f"options of {tap}", status, 2 if at < 5 else 0

    compare(cases())


def test_the_example(compiled, executable, compare, tmp_path):
    """The example, under the sanitizers: in a buffer that is large, none, or too small by a byte, and with a listing that is refused."""
    program = compiled(TOP / "examples" / "c" / "make.c", *SANITIZERS)
    to = tmp_path / "made.tmc"

    def cases():
        for name, kind, text in (*listings(),)[:20]:
            path = tmp_path / "text"
            path.write_bytes(text)
            status, output, note = run(executable, ["make", kind], text)
            for words in ((), ("0",), (str(max(0, len(output) - 1)),), ("1",)):
                came = ran([program, *([] if kind == "link" else [f"--{kind}"]), path, to, *words], b"")
                data = to.read_bytes() if came.returncode == 0 else b""
                cut = note[: int(words[0])] if words and status else note
                yield f"{name}, {words}", (came.returncode, data, came.stderr), (status, output, cut)

    compare(cases())


# ---- Python


@pytest.fixture
def found(library, monkeypatch, executable):
    monkeypatch.setenv("VABGROT_LIBRARY", str(library / "libvabgrot.so.1"))
    monkeypatch.setenv("VABGROT_PROGRAM", executable)


def said(call, *words, **options):
    """What a call answers, or the line and the cause with which it refuses."""
    try:
        return call(*words, **options)
    except vabgrot.BadListing as why:
        return why.line, why.cause


def test_python(found, compare):
    def cases():
        for name, kind, text in listings():
            tap = sending.Tap(2, 5, (1, 70, 0), 100_000)
            made = said(vabgrot.make, text, kind=kind, version=2, offset=5, skew=(1, 70, 0), bits=100_000)
            yield name, made, said(sending.by_program, text, kind, tap)
        text = (TOP / "examples" / "skewed.link").read_text()
        yield "by hand", vabgrot.make(text, offset=7, skew=(0, 70, 35)), SKEWED
        large = b"c 00 200000\nend\n"
        yield "more than its first room", vabgrot.make(large), sending.by_program(large, "link", sending.Tap())

    compare(cases())


def test_python_refuses(found, compare):
    def cases():
        yield "a wrong line", said(vabgrot.make, "c 00 12\nv ff0000\nend\n"), (2, "preamble")
        yield "a wrong line, without guard bands", said(vabgrot.make, "c 00 3\nend\n", kind="dvi"), (2, "control")
        yield "no room", said(vabgrot.make, NO_ROOM, kind="content"), (None, "noroom 0 0")

    compare(cases())
    with pytest.raises(ValueError, match="line 1 form"):
        vabgrot.make("x\n")
    for options in ({"version": 3}, {"offset": -1}, {"skew": (0, 0, 4096)}, {"skew": (0, 0)}, {"bits": 1 << 32}, {"kind": "track"}):
        with pytest.raises(ValueError) as why:
            vabgrot.make(LISTING, **options)
        assert why.type is ValueError
