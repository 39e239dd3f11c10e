"""The captures of examples/captures: their script makes the same ones again, and each has the fault that its row of README.md names."""

import lzma
import re
import subprocess

import pytest

from tests.support import TOP, built

FOLDER = TOP / "examples" / "captures"
SLIP_AT = 140_000  # the place of lane 1 at which three bits are lost (examples/captures/make.py)


def capture(name):
    path = FOLDER / name
    return lzma.decompress(path.read_bytes()) if path.suffix == ".xz" else path.read_bytes()


def test_they_are_made_again(executable, tmp_path):
    subprocess.run([FOLDER / "make.py", tmp_path], env={"VABGROT_PROGRAM": str(built()), "PATH": "/usr/bin:/bin"}, check=True)
    names = {path.name for path in tmp_path.iterdir()}
    assert names == {path.name for path in FOLDER.iterdir() if ".tmc" in path.name}
    for name in names:
        made = (tmp_path / name).read_bytes()
        assert (lzma.decompress(made) if name.endswith(".xz") else made) == capture(name), name
        assert (FOLDER / name).stat().st_size < 100_000
    rows = re.findall(r"(?m)^\| `(\S+)` \|", (FOLDER / "README.md").read_text("utf-8"))
    assert set(rows) == names


def test_a_clean_one(program):
    assert program("check", source=capture("clean.tmc")) == b"clean\n"
    lines = program("recover", "content", source=capture("clean.tmc")).splitlines()
    assert any(line.startswith(b"s ") for line in lines) and sum(line.startswith(b"row ") for line in lines) == 80


@pytest.mark.parametrize("name", ["marginal.tmc", "slip.tmc", "swapped.tmc", "encrypted.tmc"])
def test_faulty_ones(program, name):
    assert program("check", source=capture(name), status=1).endswith(b"faulty\n")


def test_a_slip(program):
    listing = program("recover", "track", source=capture("slip.tmc"), status=1).decode()
    ((lane, place),) = re.findall(r"(?m)^! slip (\d) (\d+)", listing)
    assert lane == "1" and SLIP_AT <= int(place) < SLIP_AT + 1000


def test_lanes_that_are_exchanged(tool):
    assert b"with `lanes pack --order 1,0,2`" in tool("lanes", "look", FOLDER / "swapped.tmc", status=1).stdout


def test_wrong_porches(tool, program, tmp_path):
    (tmp_path / "porches.tmc").write_bytes(capture("porches.tmc.xz"))
    said = tool("timing", tmp_path / "porches.tmc", status=1).stdout
    assert b"H front porch 8, wants 16; H back porch 56, wants 48" in said and b"AVI InfoFrame: VIC 1" in said


def test_one_that_looks_encrypted(program):
    """No packet can be read, but lines and islands are where they were; no row has the colours of the bars."""
    lines = program("recover", "link", source=capture("encrypted.tmc"), status=1).splitlines()
    clean = program("recover", "link", source=capture("clean.tmc")).splitlines()

    def rows(listing):
        return [line for line in listing if line.startswith(b"v ")]

    assert len(rows(lines)) == len(rows(clean)) == 80 and not set(rows(lines)) & set(rows(clean))
    assert sum(line.startswith(b"! lost") for line in lines) > 50 and not any(line.startswith(b"! noise") for line in lines)
