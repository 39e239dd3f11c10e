"""docs/manual.py: the man page of each tool, and the completion of its words in bash and zsh."""

import importlib
import re
import shutil
import subprocess
from argparse import SUPPRESS

import pytest

from tests.support import TOP
from vabgrot import tools

MISSING = "python3-argparse-manpage or python3-shtab of Debian is missing"
# The words of a command line, and those that complete its last one. The commands are those of docs/guide/commands.toml.
COMPLETED = [
    ("vabgrot re", {"recover", "read", "relay"}),
    ("vabgrot recover co", {"content"}),
    ("vabgrot recover content r", {"relock"}),
    ("vabgrot make link --o", {"--offset"}),
    ("vabgrot-report --js", {"--json"}),
    ("vabgrot-content --depth 3", {"30", "36"}),
    ("vabgrot-lanes ", {"pack", "unpack", "blocks", "cut", "look"}),
    ("vabgrot-lanes pack --words 3", {"32"}),
    ("vabgrot-report my.t", {"my.tmc"}),
]


@pytest.fixture(scope="module")
def share(tmp_path_factory):
    """The folder that has what docs/manual.py writes for a package of Debian."""
    folder = tmp_path_factory.mktemp("manual")
    came = subprocess.run([TOP / "docs/manual.py", folder, "--final", "/usr"], capture_output=True, text=True)
    if came.returncode == 2:
        pytest.skip(MISSING)
    assert (came.returncode, came.stderr) == (0, "")
    return folder / "share"


def options_of(name):
    """The options and operands of a tool, as its parser has them."""
    actions = importlib.import_module(f"vabgrot.tools.{name}").parser()._actions
    named = [word for it in actions for word in it.option_strings if word not in ("-h", "--help")]
    return named + [it.metavar for it in actions if not it.option_strings and it.dest is not SUPPRESS]


@pytest.mark.skipif(shutil.which("man") is None, reason="man of Debian's package man-db is missing")
@pytest.mark.parametrize("name", tools.NAMES)
def test_the_page_of_a_tool(share, name):
    """It has each option, the statuses and the examples of the help, with the names that they have where the tool is installed."""
    page = share / f"man/man1/vabgrot-{name}.1"
    env = {"MANWIDTH": "200", "LC_ALL": "C.UTF-8", "PATH": "/usr/bin:/bin"}
    came = subprocess.run(["man", "--warnings", "-l", page], capture_output=True, text=True, env=env, check=True)
    assert came.stderr == ""
    text = " ".join(came.stdout.split())
    assert f"NAME vabgrot-{name} - " in text and "EXIT STATUS 0 done" in text and f"vabgrot-{name} " in text.partition("EXAMPLES")[2]
    assert not [word for word in options_of(name) if word and word not in text and "|" not in word]
    assert not re.search(r"tools/|\./vabgrot|(?<![\w/])(docs|examples)/", text)


@pytest.mark.parametrize("line, wanted", COMPLETED)
def test_completion_in_bash(share, tmp_path, line, wanted):
    (tmp_path / "my.tmc").write_text("")
    words = line.split(" ")
    script = share / "bash-completion/completions" / words[0]
    function = "_shtab_" + words[0].replace("-", "_")
    asked = f'source {script}; COMP_WORDS=("$@"); COMP_CWORD={len(words) - 1}; {function}; echo "${{COMPREPLY[*]}}"'
    came = subprocess.run(["bash", "-c", asked, "bash", *words], cwd=tmp_path, capture_output=True, text=True, check=True)
    assert set(came.stdout.split()) == wanted


@pytest.mark.skipif(shutil.which("zsh") is None, reason="zsh is missing")
def test_completion_in_zsh(share):
    """zsh finds a completion for each command, and can read it."""
    files = sorted((share / "zsh/vendor-completions").iterdir())
    assert [path.name for path in files] == sorted(f"_{it}" for it in ("vabgrot", *(f"vabgrot-{name}" for name in tools.NAMES)))
    for path in files:
        subprocess.run(["zsh", "-n", path], check=True)
    asked = f"fpath=({files[0].parent} $fpath); autoload -Uz compinit; compinit -u -D; print -l ${{(k)_comps}}"
    known = subprocess.run(["zsh", "-f", "-c", asked], capture_output=True, text=True, check=True).stdout.split()
    assert {path.name[1:] for path in files} <= set(known)
