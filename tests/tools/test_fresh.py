"""What a new user does, in an empty Debian: the first command of the README in a checkout, the packages, and the wheel.

It takes ten minutes and Debian's archive, so it only runs if VABGROT_FRESH=1, or if VABGROT_DEBIAN names a root that debootstrap has made.
It needs root, debootstrap and the sources of apt."""

import os
import re
import shutil
import subprocess

import pytest

from tests.support import HANGS, TOP, built
from tests.tools.test_installed import copied, made_by

IS_WANTED = {"VABGROT_FRESH", "VABGROT_DEBIAN"} & os.environ.keys()
WHY = "it makes an empty Debian, which takes ten minutes: VABGROT_FRESH=1 runs it"
pytestmark = [pytest.mark.slow, pytest.mark.skipif(not IS_WANTED, reason=WHY)]

APT = "DEBIAN_FRONTEND=noninteractive apt-get -qq"
RELEASE = "bookworm"
# A user without rights runs the examples of each tool's help. Eyes need matplotlib, which is only recommended.
EXAMPLES = """set -eu
export LC_ALL=C.UTF-8 HOME=$(mktemp -d)
! command -v rt
for tool in conform content lanes pictures report slice sound survey timing watch; do
  mkdir "$HOME/$tool" && cd "$HOME/$tool"
  vabgrot-$tool --help | sed '1,/^Examples/d; s/--eye eye.png//' > examples && bash -eu -o pipefail examples
done
"""
PACKAGES = f"""{EXAMPLES}
python3 -c 'import vabgrot; print(*vabgrot.receive(b"", b"", b""))'
for tool in vabgrot-report vabgrot-lanes vabgrot; do
  test -s /usr/share/bash-completion/completions/$tool && test -s /usr/share/zsh/vendor-completions/_$tool
done
vabgrot --version
"""
WHEEL = f"""python3 -m venv --system-site-packages "$HOME/venv"
"$HOME/venv/bin/pip" -q install --no-index --no-deps /srv/*.whl
PATH=$HOME/venv/bin:$PATH
{EXAMPLES}
python3 -c 'import vabgrot; print(*vabgrot.receive(b"", b"", b""))'
vabgrot --version
"""


class Root:
    """An empty Debian in a folder. Its commands run in a namespace of their own."""

    def __init__(self, folder):
        self.folder = folder

    def run(self, script, user="root:root", status=0):
        (self.folder / "srv/script").write_text(script)
        within = f"chroot --userspec={user} {self.folder} /usr/bin/env -i HOME=/tmp PATH=/usr/sbin:/usr/bin:/sbin:/bin bash /srv/script"
        mounts = f"mount -t proc proc {self.folder}/proc && mount -t tmpfs -o mode=1777 tmpfs {self.folder}/dev/shm"
        words = ["unshare", "--mount", "sh", "-c", f"{mounts} && {within}"]
        came = subprocess.run(words, capture_output=True, text=True, timeout=HANGS)
        assert came.returncode == status, came.stdout + came.stderr
        return came


@pytest.fixture(scope="module")
def root(tmp_path_factory):
    """An empty Debian, with the list of apt's packages."""
    if os.geteuid():
        pytest.skip("only root can make another Debian")
    if not built().is_file():
        pytest.skip(f"there is no program {built()}: `./vabgrot` builds it, or VABGROT_PROGRAM names one")
    folder = tmp_path_factory.mktemp("fresh") / "root"
    if "VABGROT_DEBIAN" in os.environ:
        subprocess.run(["cp", "-a", os.environ["VABGROT_DEBIAN"], folder], check=True)
    elif shutil.which("debootstrap"):
        made = subprocess.run(["debootstrap", "--variant=minbase", RELEASE, folder], capture_output=True, text=True, timeout=HANGS)
        if made.returncode:
            pytest.skip(f"debootstrap makes no Debian here: {made.stdout.strip().splitlines()[-1]}")
    else:
        pytest.skip("debootstrap of Debian is missing, and VABGROT_DEBIAN names no root that it made")
    shutil.copy("/etc/resolv.conf", folder / "etc")
    yield Root(folder)
    shutil.rmtree(folder.parent, ignore_errors=True)


@pytest.fixture(scope="module")
def checkout(root, library):
    """A checkout in it, with the program and the C library that are built already."""
    return copied(root.folder / "srv/vabgrot", library)


def first_command():
    """The command of the README that makes a report of a capture of the repository."""
    return re.search(r"(?m)^\$ (tools/report examples/.*)$", (TOP / "README.md").read_text("utf-8"))[1]


def test_the_first_command_in_a_checkout(root, checkout):
    """It prints the command that installs all that is missing; after that it makes the report. Only Python itself has to be there."""
    root.run(f"{APT} update && {APT} install -y --no-install-recommends python3")
    said = root.run(f"cd /srv/vabgrot && {first_command()}", status=1).stderr
    install = re.search(r"apt-get install -y [\w -]+$", said.strip())
    assert said.count("\n") == 1 and install, said
    root.run(f"{install[0].replace('apt-get', APT)} --no-install-recommends")
    page = first_command().split()[-1]
    root.run(f"cd /srv/vabgrot && {first_command()}", status=1)
    assert (checkout / page).stat().st_size > 10_000


def test_the_packages(root, checkout):
    """All of them with what they depend on, and nothing else."""
    made = [path for path in made_by(checkout, ["package"], root.folder / "srv") if path.suffix == ".deb"]
    assert {path.name.partition("_")[0] for path in made} == {"vabgrot", "libvabgrot1", "libvabgrot-dev"}
    if shutil.which("lintian"):
        came = subprocess.run(["lintian", "--no-cfg", "--allow-root", *made], capture_output=True, text=True)
        assert not [line for line in came.stdout.splitlines() if line.startswith("E:") and "license" not in line and "licence" not in line]
    root.run(f"{APT} update && {APT} install -y --no-install-recommends /srv/*.deb")
    lines = root.run(PACKAGES, "nobody:nogroup").stdout.splitlines()
    assert lines[-1].startswith("vabgrot 1.0.0, built with ")


def test_the_wheel(root, checkout):
    """The tools run from a virtual environment. What they depend on is Debian's."""
    needed = "python3-jinja2 python3-numpy python3-pil python3-png python3-soundfile python3-tqdm python3-venv python3-pip"
    made_by(checkout, ["package", "--wheel"], root.folder / "srv")
    root.run(f"{APT} update && {APT} remove -y 'libvabgrot*' vabgrot; {APT} install -y --no-install-recommends {needed}")
    lines = root.run(WHEEL, "nobody:nogroup").stdout.splitlines()
    assert lines[-1].startswith("vabgrot 1.0.0, built with ")
