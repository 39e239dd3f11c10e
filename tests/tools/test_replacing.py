"""What the tools do where a file cannot be written whole: nothing of it is left, what was there stays, and one line names it. The
limit of a file's size stands for a full disk."""

import functools
import resource
import subprocess

import pytest
from PIL import Image

from tests.support import HANGS, TOP
from vabgrot import replacing

MODE = "64,8,16,64,48,2,2,2,1"
EARLIER = b"an earlier file\n"


@pytest.fixture
def limited(tmp_path):
    """Runs a tool in a folder, where no file can have more bytes than `most`: it is refused with a line on `path`, which
    stays as it was, or missing, and nothing is added."""

    def run(most, path, name, *words, source=b"", is_there=True):
        if is_there:
            (tmp_path / path).write_bytes(EARLIER)
        before = {it: it.read_bytes() for it in tmp_path.rglob("*") if it.is_file()}
        limit = functools.partial(resource.setrlimit, resource.RLIMIT_FSIZE, (most, most))
        command = [TOP / "tools" / name, *map(str, words)]
        came = subprocess.run(command, input=source, capture_output=True, cwd=tmp_path, preexec_fn=limit, timeout=HANGS)
        assert (came.returncode, came.stderr.decode().splitlines()[-1]) == (3, f"{name}: {path}: File too large")
        assert {it: it.read_bytes() for it in tmp_path.rglob("*") if it.is_file()} == before

    return run


@pytest.fixture
def noise(tool, tmp_path):
    """A content listing of two frames of noise."""
    Image.effect_noise((64, 48), 90).convert("RGB").save(tmp_path / "noise.png")
    return tool("content", tmp_path / "noise.png", tmp_path / "noise.png", "--mode", MODE).stdout


@pytest.mark.parametrize("is_there", [False, True])
def test_page_and_table(limited, program, noise, tmp_path, is_there):
    (tmp_path / "a.tmc").write_bytes(program("make", "content", source=noise))
    limited(4096, "a.html", "report", "a.tmc", "-o", "a.html", is_there=is_there)
    limited(100, "a.csv", "survey", "a.tmc", "-o", "a.csv", "--anew", is_there=is_there)


def test_the_table_as_a_page(limited, tool, program, tmp_path):
    """The table is kept where the page that goes beside it cannot be written."""
    (tmp_path / "red.tmc").write_bytes(program("make", "link", source=(TOP / "examples" / "red.link").read_bytes()))
    tool("survey", tmp_path / "red.tmc", "-o", tmp_path / "a.csv")
    limited((tmp_path / "a.csv").stat().st_size, "a.html", "survey", "red.tmc", "-o", "a.csv")


def test_rows_of_the_table(limited, tool, program, tmp_path):
    """The table has whole rows alone, and the survey goes on from them where there is room again."""
    red = program("make", "link", source=(TOP / "examples" / "red.link").read_bytes())
    (tmp_path / "captures").mkdir()
    for number in range(4):
        (tmp_path / "captures" / f"{number}.tmc").write_bytes(red)
    words = [tmp_path / "captures", "-o", tmp_path / "a.csv"]
    tool("survey", tmp_path / "captures" / "0.tmc", *words[1:])
    before = (tmp_path / "a.csv").read_bytes()
    row = len(before.splitlines(True)[1])
    limited(len(before) + row // 2, "a.csv", "survey", *words[:-1], "a.csv", is_there=False)
    assert tool("survey", *words).stderr == b"4 captures, 3 judged now: 4 clean\n"


@pytest.mark.parametrize("is_there", [False, True])
def test_sound_and_lanes(limited, is_there):
    samples = b"mode 64 8 16 64 48 2 2 2 1\nacr 6144 25200\n" + b"s 123456 654321 0 0 0 0\n" * 500 + b"end\n"
    limited(1000, "a.wav", "sound", "a.wav", source=samples, is_there=is_there)
    lane = bytes(range(256)) * 16
    capture = b"TMC1" + (8 * len(lane)).to_bytes(4, "big") + 3 * lane
    limited(4000, "b.bin", "lanes", "unpack", "b.bin", "g.bin", "r.bin", source=capture, is_there=is_there)


def test_pictures(limited, noise, tmp_path):
    (tmp_path / "out").mkdir()
    limited(2000, "out/frame0000.png", "pictures", "out", source=noise, is_there=False)


def test_eye(limited, tool, tmp_path):
    pytest.importorskip("matplotlib", reason="Debian's package python3-matplotlib is missing")
    words = [TOP / "examples" / "red.vcd", "--lanes", "blue,green,red", "--eye"]
    tool("slice", *words, tmp_path / "first.png")  # matplotlib writes its list of fonts
    limited(5000, "eye.png", "slice", *words, "eye.png", is_there=False)


def test_devices(tool, program, tmp_path):
    """A device is written as it is; an error names it."""
    (tmp_path / "red.tmc").write_bytes(program("make", "link", source=(TOP / "examples" / "red.link").read_bytes()))
    came = tool("report", tmp_path / "red.tmc", "-o", "/dev/full", status=3)
    assert came.stderr == b"report: /dev/full: No space left on device\n"
    assert tool("report", tmp_path / "red.tmc", "-o", "/dev/stdout").stdout.startswith(b"<!DOCTYPE html>")
    assert tool("report", tmp_path / "red.tmc", "-o", tmp_path / "none" / "page", status=3).stderr.endswith(
        b"none/page: No such file or directory\n"
    )
    assert tool("report", tmp_path / "red.tmc", "-o", tmp_path, status=3).stderr.endswith(b": Is a directory\n")


def test_standard_output():
    lanes = [TOP / name for name in ("examples/sent.png", "docs/guide/report.png", "docs/guide/FORMATS.md")]
    for words in (["content", lanes[0]], ["lanes", "pack", *lanes]):
        with open("/dev/full", "wb") as full:
            came = subprocess.run([TOP / "tools" / words[0], *words[1:]], stdout=full, stderr=subprocess.PIPE)
        assert came.returncode == 3
        assert came.stderr == f"{words[0]}: standard output: No space left on device\n".encode()


def test_replaced(tmp_path):
    """A link is kept, and what it names is written; the rights of the file that was there are kept; an end by the keyboard
    leaves nothing."""
    file, link = tmp_path / "file", tmp_path / "link"
    file.write_bytes(EARLIER)
    file.chmod(0o640)
    link.symlink_to("file")
    with replacing.replacing(link) as out:
        out.write(b"new\n")
        assert file.read_bytes() == EARLIER
    assert link.is_symlink() and file.read_bytes() == b"new\n" and file.stat().st_mode & 0o777 == 0o640
    with pytest.raises(KeyboardInterrupt), replacing.replacing(file) as out:
        out.write(b"newer\n")
        raise KeyboardInterrupt
    assert file.read_bytes() == b"new\n" and len([*tmp_path.iterdir()]) == 2
