"""The types of the package: `mypy --strict` accepts the programs of docs/guide/LIBRARY.md, the example and a client, and no wrong call."""

import re
import subprocess
import sys

import pytest

from tests.support import HANGS, TOP

pytest.importorskip("mypy")
GUIDE = (TOP / "docs" / "guide" / "LIBRARY.md").read_text("utf-8")


@pytest.mark.slow
def test_mypy(tmp_path):
    """In a folder that has a copy of each, with the package as it is installed: its own modules are not judged."""
    programs = {f"guide{at}": source for at, source in enumerate(re.findall(r"(?ms)^```python\n(.*?)^```", GUIDE))}
    for path in (TOP / "tests/library/client.py", TOP / "tests/library/wrong.py", TOP / "examples/python/bench.py"):
        programs[path.stem] = path.read_text("utf-8")
    for name, source in programs.items():
        (tmp_path / f"{name}.py").write_text(source)
    words = [sys.executable, "-m", "mypy", "--strict", "--follow-imports", "silent", "--cache-dir", "cache", "--config-file", "", "."]
    env = {"PATH": "/usr/bin:/bin", "MYPYPATH": str(TOP / "python")}
    came = subprocess.run(words, cwd=tmp_path, capture_output=True, text=True, env=env, timeout=HANGS)
    assert came.returncode == 0 and "no issues found in 10 source files" in came.stdout, came.stdout + came.stderr
    assert len(programs) == 10
