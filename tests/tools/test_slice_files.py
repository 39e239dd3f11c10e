"""tools/slice: dumps whose words stand on lines in any way, HDF5 and MATLAB's files, samples at one a bit, and the eye mask. Lanes
have random bits, and a model of a channel makes waves of them."""

import json

import numpy as np
import pytest

from tests.models.channel import Channel
from tests.tools.test_slice import SKEW, assert_like, random_lanes, saved

HEAD = """$date today $end
$timescale 1 ns $end
$scope module top $end
$var wire 1 ! blue $end
$var wire 1 " green $end
$var wire 1 # red $end
$var real 64 $ level $end
$upscope $end
$enddefinitions $end
"""


@pytest.fixture(scope="module")
def waves():
    """Waves of 5.3 samples a bit, the first bits that are found, and the bits that were sent."""
    sent = random_lanes(4000)
    made, first = Channel(5.3, swing=1.0, skew=SKEW).waves(sent)
    return made, first, sent


def changes(levels):
    """The changes of samples of 0 and 1, a nanosecond each: the times, and the words of each."""
    before = [None] * 3
    for at, row in enumerate(levels.tolist()):
        words = [f"{level}{code}" for level, old, code in zip(row, before, '!"#') if level != old]
        if words:
            yield f"#{at}", words
        before = row


def in_lines(found):
    return "".join(f"{time}\n" + "".join(f"{word}\n" for word in words) for time, words in found)


LAYOUTS = {
    "indented": lambda found: "".join(f"  {time}\n" + "".join(f"\t{word}\n" for word in words) for time, words in found),
    "two on a line": lambda found: "".join(f"{time}\n{' '.join(words)}\n" for time, words in found),
    "as sigrok writes it": lambda found: "".join(f"{time} {' '.join(words)}\n" for time, words in found),
    "all on one line": lambda found: " ".join(f"{time} {' '.join(words)}" for time, words in found),
    "a vector over two lines": lambda found: in_lines(found).replace("0!", "b0\n!").replace("1!", "b1\n  !"),
    "a real between, whose code is like a keyword": lambda found: in_lines(found).replace("\n0", "\nr0.5 $\n0"),
    "comments between": lambda found: in_lines(found).replace("\n#9", "\n$comment 1! 0!\n#3 1# $end\n#9"),
    "a dump of all values": lambda found: in_lines(found).replace("#0\n", "#0\n$dumpvars\n", 1).replace("\n#2", "\n$end\n#2", 1),
}


@pytest.mark.parametrize("layout", LAYOUTS)
def test_dumps_are_read_by_words(tool, waves, tmp_path, layout):
    """The bits are those of the dump with one change a line."""
    levels = (waves[0][:6000] > 0).astype(int)
    (tmp_path / "a.vcd").write_text(HEAD + in_lines(changes(levels)) + "#6000\n")
    (tmp_path / "b.vcd").write_text(HEAD + LAYOUTS[layout]([*changes(levels)]) + " #6000\n")
    wanted = tool("slice", tmp_path / "a.vcd")
    assert len(wanted.stdout) > 400 and tool("slice", tmp_path / "b.vcd").stdout == wanted.stdout


def test_a_header_that_goes_on_in_its_line(tool, waves, tmp_path):
    """The first time stands behind $enddefinitions."""
    levels = (waves[0][:6000] > 0).astype(int)
    (tmp_path / "a.vcd").write_text(HEAD + in_lines(changes(levels)) + "#6000\n")
    (tmp_path / "b.vcd").write_text(HEAD.replace("\n", " ") + in_lines(changes(levels)) + "#6000\n")
    assert tool("slice", tmp_path / "b.vcd").stdout == tool("slice", tmp_path / "a.vcd").stdout
    (tmp_path / "c.vcd").write_text(HEAD + "#0\n1! 0# what\n")
    assert b"`what` is no change of a variable" in tool("slice", tmp_path / "c.vcd", status=3).stderr


def test_hdf5(tool, waves, tmp_path):
    """One dataset of samples by channels, either way round; a dataset a channel, as Keysight's oscilloscopes store them."""
    h5py = pytest.importorskip("h5py", reason="Debian's package python3-h5py is missing")
    made, first, sent = waves
    with h5py.File(tmp_path / "a.h5", "w") as file:
        file["samples"], file["rate"] = made, 2e9
    with h5py.File(tmp_path / "b.h5", "w") as file:
        file.create_dataset("samples", data=made.T.astype(np.float32)).attrs["sample_rate"] = 2e9
    with h5py.File(tmp_path / "c.hdf5", "w") as file:
        for lane in range(3):
            group = file.create_group(f"Waveforms/Channel {lane + 1}")
            group.attrs["XInc"] = 5e-10
            group[f"Channel {lane + 1} Data"] = (1000 * made[:, lane]).astype(np.int16)
    for name, words in (("a.h5", []), ("b.h5", ["--piece", 3000]), ("c.hdf5", ["--lanes", "0,1,Channel 3 Data"])):
        came = tool("slice", tmp_path / name, *words)
        assert_like(sent, first, came.stdout)
        assert b"377.35" in came.stderr
    (tmp_path / "no.h5").write_bytes(b"no")
    assert b"no HDF5 file" in tool("slice", tmp_path / "no.h5", status=3).stderr
    with h5py.File(tmp_path / "empty.h5", "w") as file:
        file["rate"] = 1.0
    assert b"it has no array of samples" in tool("slice", tmp_path / "empty.h5", status=3).stderr


def test_matlab(tool, waves, tmp_path):
    """One array, or a vector a channel with the time a sample, as PicoScope stores them; and version 7.3, which is HDF5."""
    io = pytest.importorskip("scipy.io", reason="Debian's package python3-scipy is missing")
    made, first, sent = waves
    io.savemat(tmp_path / "a.mat", {"samples": made, "fs": 2e9})
    steps = {"Tinterval": 5e-10, "Tstart": -1.0, "t": np.arange(len(made))}
    io.savemat(tmp_path / "b.mat", {**steps, **{name: made[:, lane] for lane, name in enumerate("ABC")}}, do_compression=True)
    for name, words in (("a.mat", []), ("b.mat", ["--lanes", "A,B,C", "--piece", 3000])):
        came = tool("slice", tmp_path / name, *words)
        assert_like(sent, first, came.stdout)
        assert b"377.35" in came.stderr
    (tmp_path / "no.mat").write_bytes(b"no")
    assert b"no.mat: " in tool("slice", tmp_path / "no.mat", status=3).stderr
    io.savemat(tmp_path / "two.mat", {"a": made, "b": made})
    assert b"one array of samples by channels is wanted; it has a, b" in tool("slice", tmp_path / "two.mat", status=3).stderr
    h5py = pytest.importorskip("h5py", reason="Debian's package python3-h5py is missing")
    with h5py.File(tmp_path / "c.mat", "w", userblock_size=512) as file:
        file["samples"], file["Fs"] = made.T, np.array([[2e9]])
    head = b"MATLAB 7.3 MAT-file".ljust(116) + bytes(8) + b"\0\2IM"
    with open(tmp_path / "c.mat", "r+b") as file:
        file.write(head)
    assert_like(sent, first, tool("slice", tmp_path / "c.mat").stdout)


def test_a_package_is_missing(tool, waves, tmp_path, monkeypatch):
    for module in ("h5py", "scipy"):
        (tmp_path / f"{module}.py").write_text(f'raise ModuleNotFoundError("No module named {module!r}", name={module!r})\n')
    monkeypatch.setenv("PYTHONPATH", str(tmp_path))
    for name, package in (("a.h5", b"python3-h5py"), ("a.mat", b"python3-scipy")):
        (tmp_path / name).write_bytes(b"")
        assert b"Install it: apt-get install -y " + package in tool("slice", tmp_path / name, status=3).stderr


def test_samples_that_are_bits(tool, tmp_path):
    """One sample a bit: all bits come back, also of pairs, of raw samples and piece by piece; a dump has no samples."""
    sent = np.array(random_lanes(10_007))
    levels = np.where(sent.T, 0.25, -0.25).astype(np.float32)
    paths = [saved(tmp_path / "a.npy", levels), saved(tmp_path / "b.npy", np.hstack([levels, -levels])), tmp_path / "c.bin"]
    sent.T.astype(np.int8).tofile(paths[2])
    for path, words in zip(paths, ([], ["--lanes", "0-3,1-4,2-5"], ["--raw", "int8", "--channels", 3, "--piece", 1000])):
        came = tool("slice", path, "--bits", *words)
        got = assert_like(sent, (0, 0, 0), came.stdout)
        assert [len(lane) for lane in got] == [10_007] * 3
    assert came.stderr.splitlines()[0] == b"lane 0: 10007 bits, one sample each, levels 0 and 1"
    turned = tool("slice", paths[0], "--bits", "--lanes=-0,1,2").stdout
    assert_like([~sent[0], sent[1], sent[2]], (0, 0, 0), turned)
    (tmp_path / "a.vcd").write_text(HEAD + '#0\n1! 1" 1#\n#1\n0! 0" 0#\n')
    assert b"--bits does not go with it" in tool("slice", tmp_path / "a.vcd", "--bits", status=3).stderr
    for words in (["--clock", 0], ["--eye", "a.png"], ["--mask"]):
        tool("slice", paths[0], "--bits", *words, status=2)


MASKED = (
    (dict(swing=1.0, bandwidth=2.0), 1.0, True),
    (dict(swing=1000.0, bandwidth=2.0), 1e-3, True),  # in millivolts
    (dict(swing=0.3, bandwidth=2.0), 1.0, False),  # 0.15 V from the middle is within the mask
    (dict(swing=1.7, bandwidth=2.0), 1.0, False),  # 0.85 V is beyond it
    (dict(swing=1.0, bandwidth=2.0, noise=0.12), 1.0, False),
    (dict(swing=1.0, bandwidth=0.25), 1.0, False),  # a cable that is too long
)


@pytest.mark.parametrize("words, unit, is_kept", MASKED)
def test_the_eye_mask(tool, tmp_path, words, unit, is_kept):
    """Pass or fail for each lane, in text and as JSON, and drawn into the eye."""
    made, _ = Channel(16.3, **words).waves(random_lanes(3000))
    path, status = saved(tmp_path / "a.npy", made.astype(np.float32)), int(not is_kept)
    said = tool("slice", path, "--mask", unit, "--eye", tmp_path / "a.png", status=status).stderr.decode()
    assert said.count("mask: pass") == 3 * is_kept and said.count("mask: FAIL") == 3 * (not is_kept)
    said = tool("slice", path, "--mask", unit, "--json", status=status).stderr.decode()
    assert [lane["mask"]["pass"] for lane in json.loads(said[said.index("{") :])["lanes"]] == [is_kept] * 3
    assert (tmp_path / "a.png").stat().st_size > 1000


def test_a_mask_of_no_volts(tool, tmp_path):
    path = saved(tmp_path / "a.npy", np.zeros((9, 3)))
    for volts in ("0", "-1", "x", "inf"):
        tool("slice", path, f"--mask={volts}", status=2)
