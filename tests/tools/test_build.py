"""build.py: in which order crates are proved, what is proved again, and what becomes of a check that fails or is killed; over a
repository of five crates and a kit that is shell scripts."""

import os
import re
import shutil
import signal
import subprocess
import time
from pathlib import Path

import pytest

from tests.support import HANGS, TOP

CRATES = """# a comment
low:
left: low hex
right tests_may=Threads: low
apart: low
hdmi_cli: low left right
"""


@pytest.fixture
def building(tmp_path, kit):
    """Runs a copy of build.py, and gives its status, what it said, and what the prover wrote down."""
    top = tmp_path / "top"
    for name in ("low", "left", "right", "apart", "hdmi_cli"):
        (top / "crates" / name / "src").mkdir(parents=True)
        (top / "crates" / name / "src" / ("main.rt" if name == "hdmi_cli" else "lib.rt")).write_text(f"//! {name}\n")
    (top / "crates" / "right" / "src" / "more.rt").write_text("//! more\n" * 9)
    (top / "crates.txt").write_text(CRATES)
    shutil.copy(TOP / "build.py", top)

    def run(*words):
        (tmp_path / "log").write_text("")
        env = {"PATH": f"{tmp_path / 'path'}:/usr/bin:/bin"}
        came = subprocess.run([top / "build.py", *words], env=env, capture_output=True, text=True, stdin=subprocess.DEVNULL)
        assert came.stdout == ""
        return came.returncode, came.stderr, (tmp_path / "log").read_text().splitlines()

    return run


def names(log, word):
    return [line.split()[1] for line in log if line.startswith(word)]


def test_each_after_those_below_it(building, tmp_path):
    """A crate begins once those that it stands on have ended; what the program does not stand on is not proved."""
    (tmp_path / "slow").write_text("")
    status, said, log = building()
    assert (status, said) == (0, "") and (tmp_path / "top/crates/hdmi_cli/out/hdmi_cli").read_text() == "made\n"
    assert log[:2] == ["begin low", "end low"] and log[-2:] == ["begin hdmi_cli", "end hdmi_cli"]
    assert sorted(names(log, "begin")) == ["hdmi_cli", "left", "low", "right"] and "without" not in " ".join(log)
    words = (tmp_path / "top/crates/left/out/built/left.rlib").read_text()
    assert f"--extern hex={tmp_path}/kit/rlibs/hex.rlib" in words and "--crate-name left src/lib.rt" in words


def test_the_longest_first(building):
    """Of those that could begin the one with the most code goes first; on one processor the others wait until it has ended."""
    may = os.sched_getaffinity(0)
    os.sched_setaffinity(0, {min(may)})
    try:
        status, _, log = building()
    finally:
        os.sched_setaffinity(0, may)
    assert status == 0 and log == [f"{word} {name}" for name in ("low", "right", "left", "hdmi_cli") for word in ("begin", "end")]


def test_only_what_changed(building, tmp_path):
    """What is as it was is not proved again; a change is proved with all that stands on it, and so is what another kit made."""
    assert building()[0] == 0 and building() == (0, "", [])
    left = tmp_path / "top/crates/left"
    (left / "specs").mkdir()
    (left / "specs" / "Lib.antt").write_text("pub mod More\n")
    assert names(building()[2], "end") == ["left", "hdmi_cli"] and building()[2] == []
    (tmp_path / "top/crates.txt").write_text(CRATES.replace("right tests_may=Threads: low", "right: low hex"))
    assert names(building()[2], "end") == ["right", "hdmi_cli"]
    (tmp_path / "kit/KIT-ID").write_text("a later kit\n")
    assert len(names(building()[2], "end")) == 4


def test_a_change_while_it_builds(building, tmp_path):
    """The program is as old as the build's beginning, so that what was changed since is newer: three provers slept after that."""
    began = time.time()
    (tmp_path / "slow").write_text("")
    assert building()[0] == 0
    assert began - 1 < (tmp_path / "top/crates/hdmi_cli/out/hdmi_cli").stat().st_mtime < time.time() - 0.9


def test_not_proved(building, tmp_path):
    """What the prover said is on standard error, nothing above begins, and what was proved is kept."""
    (tmp_path / "fails.left").write_text("")
    status, said, log = building()
    lines = ["left: not proved", "build.py: the crate left is not proved. Its log is crates/left/out/built/log."]
    assert (status, said.splitlines()) == (1, lines) and "hdmi_cli" not in " ".join(log)
    assert not (tmp_path / "top/crates/hdmi_cli/out/hdmi_cli").exists()
    (tmp_path / "fails.left").unlink()
    assert "low" not in names(building()[2], "begin")


def test_killed_for_memory(building, tmp_path):
    """A check that was killed is tried once more, with nothing beside it; killed again it fails."""
    (tmp_path / "kills.right").write_text("")
    status, _, log = building()
    assert status == 0 and names(log, "begin").count("right") == (1 if (tmp_path / "kills.right").exists() else 2)


@pytest.mark.parametrize("end", [signal.SIGINT, signal.SIGTERM, signal.SIGHUP])
def test_ended_early(building, tmp_path, end):
    """A build that is ended ends its checks, and the next one goes on where it was."""
    assert building()[0] == 0
    (tmp_path / "top/crates/left/src/lib.rt").write_text("//! changed\n")
    (tmp_path / "hangs").write_text("")
    env = {"PATH": f"{tmp_path / 'path'}:/usr/bin:/bin"}
    run = subprocess.Popen([tmp_path / "top/build.py"], env=env, stdin=subprocess.DEVNULL, stderr=subprocess.PIPE)
    hanging = tmp_path / "hanging"
    while not (hanging.exists() and hanging.read_text()):
        time.sleep(0.01)
    check = int(hanging.read_text())
    assert os.getsid(check) == os.getsid(run.pid) and os.getpgid(check) == check  # niceness counts within a session
    run.send_signal(end)
    assert run.communicate(timeout=HANGS)[1] == b"" and run.returncode == 130
    status = Path(f"/proc/{check}/stat")
    while status.exists() and status.read_text().rpartition(")")[2].split()[0] != "Z":
        time.sleep(0.01)
    (tmp_path / "hangs").unlink()
    assert names(building()[2], "end") == ["left", "hdmi_cli"]


def test_no_kit(building, tmp_path):
    (tmp_path / "path/rt").write_text("#!/bin/sh\nexit 1\n")
    status, said, log = building()
    assert status == 2 and "the command rt is not on the PATH" in said and log == []


def test_a_kit_with_its_parts_elsewhere(building, tmp_path):
    """`rt run` builds all; its words are shown where it does not."""
    (tmp_path / "kit/bin/rattle").unlink()
    rt = "#!/bin/sh\n[ $1 = run ] || exec echo {0}/kit/START-HERE.md\nmkdir -p out && echo by rt > out/hdmi_cli\n{1}"
    (tmp_path / "path/rt").write_text(rt.format(tmp_path, "echo 'rt: running out/hdmi_cli' >&2\nexit 2\n"))
    says = "vabgrot: proving and building the program takes ten to twenty minutes on four cores.\n"
    assert building() == (0, says, []) and (tmp_path / "top/crates/hdmi_cli/out/hdmi_cli").read_text() == "by rt\n"
    (tmp_path / "path/rt").write_text(rt.format(tmp_path, "echo 'logic=not-proved'\nexit 1\n"))
    assert building() == (1, says + "logic=not-proved\n", [])


def test_how_long_it_takes(building, tmp_path):
    """A long build says at once how long it takes on this machine, and counts; what is left is said again where it goes on."""
    (tmp_path / "top/crates/right/src/lib.rt").write_text("//! a line\n" * 9000)
    (tmp_path / "slow").write_text("")
    replaced = (tmp_path / "top/build.py").read_text().replace("EACH = 60 ", "EACH = 0 ")
    (tmp_path / "top/build.py").write_text(replaced)
    (tmp_path / "fails.right").write_text("")
    says = building()[1].splitlines()
    takes = r"vabgrot: proving {} crates takes (less than a|about \d+) minutes? on this machine. You can stop it: the next run continues."
    counts = r"vabgrot: {} of 4 crates proved, (less than a|about \d+) minutes? left"
    assert re.fullmatch(takes.format(4), says[0]) and re.fullmatch(counts.format(0), says[1])
    assert any(re.fullmatch(counts.format(1), line) for line in says)
    (tmp_path / "fails.right").unlink()
    says = building()[1].splitlines()
    assert re.fullmatch(takes.format("[23]"), says[0]) and not any("0 of 4" in line for line in says)


def test_the_library(building, tmp_path):
    """`build.py library` proves what the C library needs, and makes its two archives; the program is not built."""
    top = tmp_path / "top"
    (top / "crates" / "vabgrot_c" / "src").mkdir(parents=True)
    (top / "crates" / "vabgrot_c" / "src" / "lib.rt").write_text("//! vabgrot_c\n")
    (top / "crates.txt").write_text(CRATES + "vabgrot_c staticlib: apart\n")
    status, said, log = building("library")
    assert (status, said) == (0, "") and names(log, "end") == ["low", "apart", "vabgrot_c", "vabgrot_c"]
    built = top / "crates/vabgrot_c/out/built"
    words, newer = ((built / name / "libvabgrot_c.a").read_text() for name in ("", "x86-64-v3"))
    assert "--crate-type staticlib --backend llvm" in words and not (top / "crates/hdmi_cli/out").exists()
    assert "--cpu" not in words and "--crate-type staticlib --backend llvm" in newer and "--cpu x86-64-v3" in newer
    assert building("library") == (0, "", [])
