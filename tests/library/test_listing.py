"""Captures through C: the example's listing of each, fed in pieces of many sizes and with room of many, is that of the models and of
the program."""

import random
import shutil

import pytest

from tests.library import bound
from tests.models import feeding, hearing, model
from tests.support import LISTING, READERS, TOP, ran, run

SPLITS = ((), (1,), (3, 104, 12327), (7,), (4095, 1000, 20000), (4096, 300, 13000), (100000, 100, 1 << 20), (100000,))
ROOMY = [it for it in SPLITS if it and (len(it) < 3 or it[1] >= 104)]
TRACKED = ((1, 400, 12622), (7,), (4095, 1000, 20000), (100000,))
CAPTURES = 24


def listed(program, path, *words):
    came = ran([program, path, *words], b"")
    assert b"ERROR" not in came.stderr and b"runtime error" not in came.stderr, came.stderr.decode()
    return came.returncode, came.stdout


def captures(executable):
    """The name, the capture, and what the models say of it."""
    for at in range(CAPTURES):
        data, lanes = feeding.made_capture(random.Random(f"library {at}"))
        yield f"capture {at}", data, hearing.link_of(lanes)
    words = ["make", "link", "--offset", "7", "--skew", "0,70,35"]
    data = run(executable, words, (TOP / "examples" / "skewed.link").read_bytes())[1]
    yield "the README's", data, (0, LISTING.replace(b"12\nend", b"5\nend"))


@pytest.mark.slow
def test_listings(executable, listing, compare, tmp_path):
    def cases():
        path = tmp_path / "capture.tmc"
        for name, data, wanted in captures(executable):
            path.write_bytes(data)
            status, text = wanted
            yield f"the program, {name}", run(executable, READERS[0], data)[:2], wanted
            for words in SPLITS:
                few = len(words) == 3 and int(words[1]) < 104
                came = listed(listing, path, *words)
                yield f"{name}, {words}", came, (3, came[1]) if few else (status, text)

    compare(cases())


def dvi_captures(executable):
    """The name and the capture: those of a link too, whose guard bands are pixels here."""
    for at in range(CAPTURES):
        rng = random.Random(f"library without guard bands {at}")
        yield f"capture {at}", feeding.made_capture(rng)[0]
        words = ["make", "dvi", "--offset", str(rng.randrange(1000)), "--skew", f"{rng.randrange(71)},0,{rng.randrange(71)}"]
        made = run(executable, words, feeding.listing_of(rng, guards=False))[1]
        yield f"listing {at}", made
        hits = [f"{rng.randrange(3)}:{rng.randrange(len(made) * 8 // 3 - 80)}:{rng.randrange(1024):03x}" for _ in range(20)]
        yield f"damaged listing {at}", run(executable, ["damage", *hits], made)[1]


@pytest.mark.slow
def test_listings_without_guard_bands(executable, listing, compare, tmp_path):
    def cases():
        path = tmp_path / "capture.tmc"
        for at, (name, data) in enumerate(dvi_captures(executable)):
            path.write_bytes(data)
            aligned = model.aligned(model.lanes_in(data))
            wanted = model.dvi_text(aligned) if aligned else (7, b"")
            yield f"the program, {name}", run(executable, ["recover", "dvi"], data)[:2], wanted
            yield name, listed(listing, "--dvi", path), wanted
            words = ROOMY[at % len(ROOMY)]
            yield f"{name}, {words}", listed(listing, "--dvi", path, *words), wanted

    compare(cases())


def slipping_captures():
    """The name and the capture: of some a lane loses bits, or a whole character."""
    for at in range(CAPTURES):
        rng = random.Random(f"library of lanes that lose bits {at}")
        data = feeding.made_capture(rng)[0]
        yield f"capture {at}", data
        lanes = model.lanes_in(data)
        for lost in (rng.randrange(1, 10), 10):
            lane = rng.randrange(3)
            slipped = model.slipped(lanes, lane, rng.randrange(len(lanes[lane]) + 1), lost)
            yield f"capture {at} without {lost} bits of lane {lane}", model.capture_of(2, slipped)


@pytest.mark.slow
@pytest.mark.parametrize("kind", ("track", "relock"))
def test_listings_of_lanes_that_lose_bits(executable, listing, compare, tmp_path, kind):
    def cases():
        path = tmp_path / "capture.tmc"
        for at, (name, data) in enumerate(slipping_captures()):
            path.write_bytes(data)
            wanted = run(executable, ["recover", kind], data)[:2]
            yield name, listed(listing, f"--{kind}", path), wanted
            words = TRACKED[at % len(TRACKED)]
            yield f"{name}, {words}", listed(listing, f"--{kind}", path, *words), wanted

    compare(cases())


def test_refusals(listing, tmp_path):
    path = tmp_path / "no.tmc"
    path.write_bytes(b"TMC3")
    assert listed(listing, path)[0] == 3
    assert ran([listing, tmp_path / "none"], b"").returncode == 2


@pytest.mark.parametrize("compiler, words", (("gcc", ()), ("clang", ("-Wpedantic",)), ("gcc", ("-O2", "-Wpedantic", "-Wshadow"))))
def test_examples(compiled, compiler, words):
    for name in ("listing.c", "make.c", "pattern.c"):
        compiled(TOP / "examples" / "c" / name, *words, compiler=compiler)


@pytest.mark.parametrize("compiler", ("g++", "clang++"))
def test_cpp_example(compiled, executable, compiler, tmp_path):
    program = compiled(TOP / "examples" / "c" / "counts.cpp", "-Wpedantic", compiler=compiler)
    path = tmp_path / "capture.tmc"
    path.write_bytes(run(executable, ["make", "link"], LISTING)[1])
    came = ran([program, path], b"")
    assert (came.returncode, came.stdout) == (0, b"3 runs, 1 line of 1 pixel, 0 packets, 0 faults in 26 columns\n")


def test_valgrind(compiled, executable, tmp_path):
    """No leak, and no read of what was not written."""
    if not shutil.which("valgrind"):
        pytest.skip("valgrind is missing")
    program = compiled(TOP / "examples" / "c" / "listing.c")
    path = tmp_path / "capture.tmc"
    path.write_bytes(run(executable, ["make", "link"], LISTING)[1])
    words = ["valgrind", "-q", "--leak-check=full", "--error-exitcode=99", program, path, "5", "104", "12327"]
    assert ran(words, b"").returncode == 0


def test_symbols(library):
    """The shared library exports the header's calls and nothing else, and needs the C library alone."""
    if not shutil.which("nm") or not shutil.which("readelf"):
        pytest.skip("binutils are missing")
    names = {f"vabgrot_{it}" for it in ("open", "feed", "finish", "restart", "close", "recover", "check", "make")}
    names |= {f"vabgrot_encode_{it}" for it in bound.PARTS}
    path = library / "libvabgrot.so.1"
    lines = ran(["nm", "-D", "--defined-only", path], b"").stdout.decode().split("\n")
    assert {line.split()[2].partition("@")[0] for line in lines if " T " in line} == names
    lines = ran(["nm", "--defined-only", "--extern-only", library / "libvabgrot.a"], b"").stdout.decode().split("\n")
    assert {line.split()[2] for line in lines if len(line.split()) == 3} == names
    dynamic = ran(["readelf", "-d", path], b"").stdout.decode()
    assert "[libvabgrot.so.1]" in dynamic and dynamic.count("(NEEDED)") == 1 and "TEXTREL" not in dynamic
