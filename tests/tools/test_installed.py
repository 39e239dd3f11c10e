"""The program and the tools where they are installed: by `./vabgrot install`, from the Debian packages and from the wheel. They run over
real captures, in another folder, without the checkout that they are of, and without the kit."""

import functools
import os
import shlex
import shutil
import subprocess
import sys
from pathlib import Path
from typing import NamedTuple

import pytest

from tests.support import HANGS, TOP, built
from tests.tools.test_examples import TOOLS, commands
from vabgrot import library as native

PARTS = ("vabgrot", "build.py", "setup.py", "pyproject.toml", "crates.txt", "README.md", "CONTRIBUTING.md", "CHANGELOG.md")
PARTS += ("debian", "docs", "examples", "page", "tools", "python", "share")


def put_library(top, folder):
    """Puts the C library, which is built in a folder or in one above it, into a checkout."""
    folder = next((it for it in (folder, *folder.parents) if (it / "libvabgrot.a").is_file()), folder)
    shutil.copytree(TOP / "library", top / "library", ignore=shutil.ignore_patterns("out"))
    for name in ("libvabgrot.a", native.NAME, native.NEWER):
        if (folder / name).is_file():
            (top / "library" / "out" / name).parent.mkdir(parents=True, exist_ok=True)
            shutil.copy(folder / name, top / "library" / "out" / name)


def copied(top, library):
    """A checkout with the built program in it, and with the C library of a folder. Its build scripts do nothing."""
    top.mkdir()
    for name in PARTS:
        copy = shutil.copytree if (TOP / name).is_dir() else shutil.copy
        copy(TOP / name, top / name)
    (top / "crates" / "hdmi_cli" / "out").mkdir(parents=True)
    shutil.copy(built(), top / "crates" / "hdmi_cli" / "out" / "hdmi_cli")
    put_library(top, library)
    for script in ("build.py", "library/build"):
        (top / script).write_text("#!/bin/sh\n")
    return top


class Installed(NamedTuple):
    """Where everything is installed: the folder of the commands, the prefix of the other files, and where Python finds the package."""

    commands: Path
    prefix: Path
    modules: str = ""


def made_by(top, words, folder):
    """What `./vabgrot` makes in a folder."""
    came = subprocess.run([top / "vabgrot", *words, folder], capture_output=True, text=True, timeout=HANGS)
    if came.returncode == 73 and "Install what it needs" in came.stderr:
        pytest.skip(came.stderr.strip())
    assert came.returncode == 0, came.stderr
    return [*folder.iterdir()]


def venv_of(folder, wheel):
    """A virtual environment with the wheel in it; what the wheel depends on is the system's."""
    ran = functools.partial(subprocess.run, check=True, capture_output=True, timeout=HANGS)
    ran([sys.executable, "-m", "venv", "--system-site-packages", folder])
    ran([folder / "bin/pip", "--disable-pip-version-check", "install", "--no-index", "--no-deps", wheel])
    (package,) = folder.glob("lib/python3*/site-packages/vabgrot")
    return Installed(folder / "bin", package / "prefix")


@pytest.fixture(scope="module", params=["install", "package", "wheel"])
def installed(request, tmp_path_factory, hearing):
    """All of it, installed in one of three ways, with the C library that the tests use. The checkout is deleted."""
    if hearing:
        pytest.skip(hearing)
    if not built().is_file():
        pytest.skip(f"there is no program {built()}: `./vabgrot` builds it, or VABGROT_PROGRAM names one")
    folder = tmp_path_factory.mktemp(request.param)
    top = copied(folder / "top", Path(native.find()).parent)
    words = ["package", "--wheel"] if request.param == "wheel" else [request.param]
    made = made_by(top, words, folder / "made")
    shutil.rmtree(top)
    if request.param == "install":
        return Installed(folder / "made/bin", folder / "made")
    if request.param == "wheel":
        return venv_of(folder / "venv", made[0])
    for package in made:
        subprocess.run(["dpkg-deb", "--extract", package, folder / "root"], check=True)
    usr = folder / "root/usr"
    return Installed(usr / "bin", usr, str(usr / "lib/python3/dist-packages"))


@pytest.fixture
def prefix(installed):
    """Where the other files are."""
    return installed.prefix


@pytest.fixture
def shell(installed, tmp_path):
    """Runs a script of bash in a folder of its own, with what is installed on the PATH."""

    def run(script, status=0):
        env = {"PATH": f"{installed.commands}:/usr/bin:/bin", "HOME": str(tmp_path), "LC_ALL": "C.UTF-8", "PYTHONPATH": installed.modules}
        words = ["bash", "-c", f"set -euo pipefail\n{script}"]
        came = subprocess.run(words, cwd=tmp_path, env=env, capture_output=True, text=True, timeout=HANGS)
        assert came.returncode == status, came.stderr
        return came

    return run


@pytest.mark.parametrize("name", TOOLS)
def test_the_examples_of_each_tool(shell, prefix, name):
    """As its --help prints them."""
    lines = commands(shell(f"vabgrot-{name} --help").stdout)
    assert lines and (name == "page" or f"{prefix}/share/doc/vabgrot/" in "\n".join(lines))
    if name == "page" and not (TOP / "page" / "vabgrot.wasm").is_file():
        pytest.skip("there is no page/vabgrot.wasm: page/build makes it")
    came = shell("\n".join(lines))
    if name == "slice":
        assert came.stdout == (TOP / "examples" / "red.link").read_text()


def test_each_tool_on_a_capture(shell, prefix, tmp_path):
    """A damaged capture of three frames, as each tool sees it."""
    bars = prefix / "share/doc/vabgrot/examples/bars.content"
    shell(f"vabgrot make content < {bars} | vabgrot damage 2:28450:0ab > bars.tmc")
    assert shell("vabgrot check < bars.tmc", 1).stdout.endswith("faulty\n")
    shell("vabgrot-report bars.tmc -o bars.html", 1)
    page = (tmp_path / "bars.html").read_text()
    assert "Link faulty" in page and "vabgrot-report bars.tmc" in page and "tools/report" not in page
    shell("vabgrot recover link < bars.tmc > bars.link || vabgrot-pictures --mark pictures < bars.link", 1)
    shell("vabgrot recover content < bars.tmc > bars.content || vabgrot-sound bars.wav < bars.content")
    shell("vabgrot-content pictures/frame0000.png --mode 32,8,16,64,8,2,2,2,1 --sound bars.wav | vabgrot make content > again.tmc")
    assert shell("vabgrot check < again.tmc").stdout == "clean\n"
    shell("vabgrot-lanes unpack b.bin g.bin r.bin < again.tmc > bits && vabgrot-lanes pack --order 2,1,0 b.bin g.bin r.bin > swapped.tmc")
    came = shell("vabgrot-lanes look swapped.tmc", 1).stdout
    assert "lanes pack" in came and "tools/lanes" not in came
    assert "no format of CTA-861" in shell("vabgrot-timing again.tmc", 1).stdout
    came = shell("vabgrot-survey bars.tmc again.tmc swapped.tmc -o survey.csv", 1)
    assert came.stderr.startswith("3 captures, 3 judged now: 1 clean, ")


@pytest.mark.skipif(not (shutil.which("iverilog") and shutil.which("make")), reason="iverilog or make is missing")
def test_the_cores(shell, prefix, tmp_path):
    """They are simulated with what is installed, into a folder of one's own."""
    cores = prefix / "share/doc/vabgrot/examples/verilog"
    came = shell(f"make -s -C {cores} OUT=$PWD/out SMALL=1 check report")
    assert came.stdout.endswith("clean\n") and (tmp_path / "out" / "hdmi.small.html").is_file()
    assert not (cores / "out").exists()


def test_wireshark_finds_the_dissector(prefix):
    """It is in the folder of plugins in Lua."""
    assert (prefix / "lib/wireshark/plugins/vabgrot.lua").read_bytes() == (TOP / "share/wireshark/vabgrot.lua").read_bytes()


def test_the_board_for_grafana(prefix):
    """It is where the documents name it."""
    board = "share/grafana/vabgrot.json"
    assert (prefix / "share/doc/vabgrot" / board).read_bytes() == (TOP / board).read_bytes()


def test_the_program_that_is_used(shell, prefix):
    """It is beside the tools, and they do not use the script of the PATH. In packages it has no symbols."""
    program = prefix / "lib/vabgrot/vabgrot"
    assert program.stat().st_size <= built().stat().st_size and os.access(program, os.X_OK)
    asked = "from vabgrot import place, program; print(program.find() == place.PROGRAM, place.PROGRAM)"
    python = f"PYTHONPATH=$PYTHONPATH:{prefix / 'lib/vabgrot/python'} python3 -c"
    assert shell(f"{python} {shlex.quote(asked)}").stdout == f"True {program}\n"
    assert shell("vabgrot help").stdout.startswith("usage: vabgrot COMMAND")
    usage, hint = shell("vabgrot help me", 2).stderr.splitlines()
    assert usage == "usage: make, recover, check, damage or sample" and "`vabgrot help` lists the commands" in hint
    assert shell("vabgrot --version").stdout == shell("vabgrot-survey --version").stdout


@pytest.mark.skipif(shutil.which("man") is None, reason="man of Debian's package man-db is missing")
def test_the_man_page(shell, prefix):
    if not (prefix / "share/man").is_dir():
        pytest.skip("a wheel has no man pages")
    page = next((prefix / "share/man/man1").glob("vabgrot.1*"))
    came = shell(f"MANWIDTH=100 man --warnings -l {page}")
    assert "read and make the raw bits of an HDMI or DVI link" in came.stdout and came.stderr == ""
    assert os.access(page, os.R_OK)
