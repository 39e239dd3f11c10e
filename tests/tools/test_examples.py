"""The commands of each tool's help, run as they are printed."""

import subprocess

import pytest

from tests.support import HANGS, TOP, built
from vabgrot.report import whole

TOOLS = ["characters", "compare", "conform", "content", "errors", "lanes", "packets", "page", "pictures", "report", "slice", "sound"]
TOOLS += ["stream", "survey", "timing", "watch", "waves"]


def commands(text):
    """The indented lines after the line that announces examples. Those that serve a page until Ctrl-C are left out."""
    behind = text.rpartition("\nExamples")[2]
    return [line for line in behind.splitlines() if line.startswith("  ") and "page --raw" not in line]


@pytest.mark.parametrize("name", TOOLS)
def test_examples(tool, program, tmp_path, name):
    if name == "page" and not (whole.FOLDER / whole.MODULE).is_file():
        pytest.skip(f"there is no page/{whole.MODULE}: page/build makes it")
    lines = commands(tool(name, "--help").stdout.decode())
    assert lines
    for folder in ("tools", "examples", "docs"):
        (tmp_path / folder).symlink_to(TOP / folder)
    (tmp_path / "vabgrot").symlink_to(built())
    script = "\n".join(["set -euo pipefail", f"export VABGROT_PROGRAM={built()}", *lines])
    came = subprocess.run(["bash", "-c", script], cwd=tmp_path, capture_output=True, timeout=HANGS)
    assert came.returncode == 0, came.stderr.decode()
    if name == "slice":
        assert came.stdout == (TOP / "examples" / "red.link").read_bytes()


def test_all_tools_have_examples():
    assert TOOLS == sorted(path.name for path in (TOP / "tools").iterdir() if path.is_file() and not path.suffix)
