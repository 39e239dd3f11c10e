"""How tools start and end: a package of Python that is missing, a standard stream that is closed, and Ctrl-C while modules are read."""

import os
import signal
import subprocess
import time

import pytest

from tests.support import HANGS, TOP
from vabgrot.tools import NAMES


@pytest.fixture
def without(tmp_path, monkeypatch):
    """Takes a module away from what is run: the import fails as that of a package that is not installed."""

    def take(module):
        text = f'raise ModuleNotFoundError("No module named {module!r}", name={module!r})\n'
        (tmp_path / f"{module}.py").write_text(text)
        monkeypatch.setenv("PYTHONPATH", str(tmp_path))

    return take


@pytest.mark.parametrize("name, module", [("errors", "scipy"), ("compare", "skimage"), ("timing", "numpy"), ("slice", "tqdm")])
def test_a_package_is_missing(tool, without, tmp_path, name, module):
    """The tool is refused with the name of Debian's package; the status is not that of a difference."""
    without(module)
    said = tool(name, tmp_path / "a.tmc", status=3).stderr.decode()
    assert said.startswith(f"{name}: No module named '{module}'. Install it: apt-get install -y ") and f" python3-{module}" in said


def test_a_package_that_a_part_of_a_tool_needs_is_missing(tool, without, tmp_path):
    """`lanes` without NumPy still cuts."""
    without("numpy")
    (tmp_path / "a.tmc").write_bytes(b"TMC1" + bytes(4))
    assert tool("lanes", "cut", tmp_path / "a.tmc", "--from", 0).stdout == b"TMC1" + bytes(4)
    said = tool("lanes", "look", tmp_path / "a.tmc", status=3).stderr.decode()
    assert said == "lanes: No module named 'numpy'. Install it: apt-get install -y python3-numpy\n"


@pytest.mark.parametrize("closed", ["<&-", ">&-"])
@pytest.mark.parametrize("name", NAMES)
def test_a_closed_stream(name, closed, tmp_path):
    """No tool ends with a traceback."""
    for words in (() if name == "page" else ("",)) + (str(tmp_path / "a.tmc"), "-"):  # `page` alone serves until Ctrl-C
        script = f"exec {TOP}/tools/{name} {words} {closed}"
        came = subprocess.run(["sh", "-c", script], cwd=tmp_path, capture_output=True, text=True, timeout=HANGS)
        assert "Traceback" not in came.stderr and came.returncode in (2, 3), came.stderr
        assert came.stderr


def test_lanes_of_a_closed_input(tmp_path):
    """An empty input, which is no capture."""
    words = f"exec {TOP}/tools/lanes unpack {tmp_path}/a {tmp_path}/b {tmp_path}/c <&-"
    came = subprocess.run(["sh", "-c", words], capture_output=True, text=True, timeout=HANGS)
    assert came.returncode == 3 and came.stderr.startswith("lanes: ") and "ends after 0 bytes" in came.stderr


@pytest.mark.parametrize("name", ["errors", "report"])
def test_ctrl_c_while_it_starts(name, tmp_path):
    """It ends at once and says nothing."""
    (tmp_path / "numpy.py").write_text(f"import time\nopen({str(tmp_path / 'begun')!r}, 'w').close()\ntime.sleep(600)\n")
    env = os.environ | {"PYTHONPATH": str(tmp_path)}
    words = ["env", "--default-signal=INT", TOP / "tools" / name, "a.tmc"]  # a shell that starts the tests may ignore it
    run = subprocess.Popen(words, stdout=subprocess.PIPE, stderr=subprocess.PIPE, env=env)
    while not (tmp_path / "begun").exists():
        time.sleep(0.01)
    run.send_signal(signal.SIGINT)
    out, said = run.communicate(timeout=HANGS)
    assert (out, said) == (b"", b"") and run.returncode == -signal.SIGINT
