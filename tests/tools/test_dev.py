"""./dev check: which checks and tests it chooses, and what it says of those that it leaves out. Over a small repository."""

import importlib.util
import shutil
import subprocess

import pytest

from tests.support import TOP

pytestmark = pytest.mark.skipif(
    not (shutil.which("git") and importlib.util.find_spec("flake8")), reason="git or flake8 of Debian is missing"
)
MODULE = '"""A module."""\n\nNUMBER = 1\n'
TEST = '"""Its test."""\n\nfrom vabgrot import {}\n\n\ndef test_it():\n    assert {}.NUMBER == 1\n'


@pytest.fixture
def repository(tmp_path):
    """A repository with two modules, each with a test in a folder of its own; runs its `./dev`."""
    for name in ("dev", "pyproject.toml", ".flake8"):
        shutil.copy(TOP / name, tmp_path)
    texts = {"python/vabgrot/__init__.py": '"""A package."""\n', "crates/low/src/lib.rt": "//! low\n", "run": "#!/bin/sh\necho 1\n"}
    for module, folder in (("one", "unit"), ("two", "tools")):
        texts[f"python/vabgrot/{module}.py"] = MODULE
        texts[f"tests/{folder}/test_{module}.py"] = TEST.format(module, module)
    for name, text in texts.items():
        (tmp_path / name).parent.mkdir(parents=True, exist_ok=True)
        (tmp_path / name).write_text(text)
    for words in (["init", "-q"], ["add", "-A"], ["-c", "user.name=a", "-c", "user.email=a@b.c", "commit", "-qm", "a"]):
        subprocess.run(["git", *words], cwd=tmp_path, check=True)

    def run(*words):
        came = subprocess.run([tmp_path / "dev", *words], cwd=tmp_path, capture_output=True, text=True)
        return came.returncode, came.stdout, came.stderr

    return run


def test_nothing_changed(repository):
    assert repository("check") == (0, "0 files: nothing to check\n", "")


def test_what_is_chosen(repository, tmp_path):
    """A module has its quick test run, and the longer ones named; a crate has its proof named."""
    for name in ("python/vabgrot/one.py", "python/vabgrot/two.py", "crates/low/src/lib.rt"):
        with open(tmp_path / name, "a") as file:
            file.write("OTHER = 2\n" if name.endswith(".py") else "//! more\n")
    status, out, _ = repository("check")
    lines = out.splitlines()
    assert status == 0 and lines[0].startswith("3 files: flake8, ") and {"flake8: ok", "tests: ok"} <= set(lines)
    assert "left out: the proofs of crates/low. In that folder, run rt check" in lines
    longer = [line for line in lines if line.startswith("left out: longer tests.")]
    assert len(longer) == 1 and longer[0].endswith(" tests/tools/test_two.py")
    assert "tests: " not in repository("check", "--no-tests")[1] and "0 files" not in repository("check", "crates")[1]


def test_what_fails(repository, tmp_path):
    """The words of a check that fails are shown, and the status is 1."""
    (tmp_path / "python/vabgrot/one.py").write_text("import os\n\nNUMBER = 2\n")
    status, out, _ = repository("check", "python/vabgrot/one.py")
    assert status == 1 and "flake8: FAILED\n" in out and "'os' imported but unused" in out and "tests: FAILED\n" in out
    status, _, said = repository("check", "python/three.py")
    assert status == 2 and said.endswith("python/three.py: there is no such file or folder\n")
