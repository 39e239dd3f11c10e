"""./vabgrot: its own statuses, and what it installs, over a copy with a kit and a program that are shell scripts."""

import functools
import os
import re
import shutil
import subprocess
import sys
import sysconfig
import tomllib
from importlib.util import find_spec

import pytest

import vabgrot
from tests.support import TOP

PYTHON = (".py", "py.typed", "METADATA", "entry_points.txt")  # ends of files of the Python package
PROGRAM = '#!/bin/sh\necho "$@"\nexit 1\n'  # a program that knows all words
UNKNOWING = '#!/bin/sh\necho "usage: .." >&2\nexit 2\n'
HINT = "vabgrot: the words name no command. `{} help` lists the commands.\n"


@pytest.fixture
def front(tmp_path, kit):
    """Runs a copy of the script, with the kit or without it."""
    top = tmp_path / "top"
    (top / "crates" / "hdmi_cli" / "src").mkdir(parents=True)
    (top / "crates" / "hdmi_cli" / "src" / "main.rt").write_text("//! a program\n")
    (top / "crates.txt").write_text("hdmi_cli:\n")
    (tmp_path / "program").write_text(PROGRAM)
    (tmp_path / "program").chmod(0o755)
    for name in ("vabgrot", "build.py", "setup.py", "pyproject.toml", "README.md", "CONTRIBUTING.md", "CHANGELOG.md"):
        shutil.copy(TOP / name, top)
    for folder in ("page", "tools", "python", "share", "docs", "examples", "debian"):
        shutil.copytree(TOP / folder, top / folder, ignore=shutil.ignore_patterns("__pycache__"))

    def run(*words, has_kit=True, script=top / "vabgrot"):
        path = f"{tmp_path / 'path'}:/usr/bin:/bin" if has_kit else "/usr/bin:/bin"
        env = {"PATH": path, "HOME": str(tmp_path / "home")}
        came = subprocess.run([script, *words], env=env, capture_output=True, text=True, stdin=subprocess.DEVNULL)
        return came.returncode, came.stdout, came.stderr

    return run


def test_no_kit_and_no_build(front, tmp_path):
    wanted = (["check"], ["install"], ["install", "/nowhere"], ["package"], ["package", "--wheel"])
    for words in (*wanted, ["build"], ["build", "program"], ["build", "library"], ["build", "page"]):
        status, out, said = front(*words, has_kit=False)
        assert (status, out) == (127, "") and "the command rt is not on the PATH. Install the Rattle kit" in said
    (tmp_path / "fails.hdmi_cli").write_text("")
    status, out, said = front("check")
    assert (status, out) == (70, "") and "hdmi_cli: not proved\nbuild.py: the crate hdmi_cli is not proved." in said
    assert said.splitlines()[-1].startswith("vabgrot: the build failed. ")


def test_built_once_and_run(front):
    """The program's words, output and status are its own; a second run builds nothing."""
    status, out, said = front("recover", "link")
    assert (status, out) == (1, "recover link\n") and "built in" in said
    assert front("check") == (1, "check\n", "")
    assert front("install", "a", "b") == (1, "install a b\n", "")
    assert front("package", "a", "b") == (1, "package a b\n", "")
    assert front("--version", "a") == (1, "--version a\n", "")
    assert front("build", "a") == (1, "build a\n", "")
    assert front("build", "program") == (0, "", "")
    for word in ("help", "--help", "-h"):
        status, out, said = front(word)
        assert (status, said) == (0, "") and out.startswith("usage: ./vabgrot")


@pytest.mark.parametrize("is_installed", [False, True])
def test_words_that_name_no_command(front, tmp_path, is_installed):
    """The program's line and status are its own; a second line says where the commands are listed."""
    (tmp_path / "program").write_text(UNKNOWING)
    front("install", tmp_path / "prefix")
    if is_installed:
        front = functools.partial(front, script=tmp_path / "prefix" / "bin" / "vabgrot")
    said = "usage: ..\n" + HINT.format("vabgrot" if is_installed else "./vabgrot")
    for words in ([], ["chek"], ["recover", "dvi", "x"], ["sample"], ["sample", "21"], ["sample", "2", "3"]):
        assert front(*words) == (2, "", said)


def test_a_sample_is_run_once(front, tmp_path):
    """The script asks the program whether it knows the words, but not by a whole sample."""
    (tmp_path / "program").write_text(f'#!/bin/sh\necho "$@" >> {tmp_path}/runs\n')
    for words in (["sample", "2"], ["sample", "020"], ["sample", "--", "2"]):
        front(*words)
        assert (tmp_path / "runs").read_text() == " ".join(words) + "\n"
        (tmp_path / "runs").unlink()


@pytest.mark.skipif(shutil.which("taskset") is None, reason="taskset of util-linux is missing")
@pytest.mark.parametrize("is_installed", [False, True])
def test_on_one_processor(front, tmp_path, is_installed):
    """What starts threads runs on one of the processors that the script may use, all else on all of them; and where
    `taskset` is refused, all does. The installed script does the same."""
    front("install", tmp_path / "prefix")
    program = tmp_path / "top" / "crates" / "hdmi_cli" / "out" / "hdmi_cli"
    if is_installed:
        front = functools.partial(front, script=tmp_path / "prefix" / "bin" / "vabgrot")
        program = tmp_path / "prefix" / "lib" / "vabgrot" / "vabgrot"
    program.write_text("#!/bin/sh\ngrep Cpus_allowed_list /proc/self/status | cut -f2\necho \"$@\"\n")
    with open("/proc/self/status") as status:
        every = next(line.split()[1] for line in status if line.startswith("Cpus_allowed_list"))
    places = {str(place) for place in os.sched_getaffinity(0)}
    for words in (["recover", "link"], ["recover", "a b"], ["check"], ["relay"], ["sample", "2"]):
        place, said = front(*words)[1].splitlines()
        assert place in places and said == " ".join(words)
    for words in (["make", "link"], ["damage"], ["slip"], ["read", "biphase"], []):
        assert front(*words)[1].splitlines() == [every, " ".join(words)]
    (tmp_path / "path" / "taskset").write_text("#!/bin/sh\nexit 1\n")
    (tmp_path / "path" / "taskset").chmod(0o755)
    assert front("check")[1].splitlines() == [every, "check"]


def tools():
    return [path.name for path in (TOP / "tools").iterdir() if path.is_file() and os.access(path, os.X_OK)]


def test_built_part_by_part(front, tmp_path):
    """`build` builds the program, the library and the page, or one of them; what fails has the lines of its build."""
    top = tmp_path / "top"
    (top / "library").mkdir()
    (top / "library" / "build").write_text(LIBRARY)
    (top / "library" / "build").chmod(0o755)
    (top / "crates" / "vabgrot_c" / "src").mkdir(parents=True)
    (top / "crates" / "vabgrot_c" / "src" / "lib.rt").write_text("//! a library\n")
    (top / "crates.txt").write_text("hdmi_cli:\nvabgrot_c staticlib:\n")
    status, out, said = front("build", "library")
    assert (status, out) == (0, "") and "built in" in said and (top / "library/out/libvabgrot.so.1").is_file()
    assert not (top / "crates/hdmi_cli/out/hdmi_cli").exists()
    assert front("build")[0] == 0 and (top / "crates/hdmi_cli/out/hdmi_cli").is_file()
    (top / "crates" / "vabgrot_c" / "src" / "lib.rt").write_text("//! another library\n")
    (tmp_path / "fails.vabgrot_c").write_text("")
    status, _, said = front("build", "library")
    assert status == 70 and "vabgrot_c: not proved\n" in said and said.splitlines()[-1].startswith("vabgrot: the build failed. ")


def test_installed(front, tmp_path):
    """Below a prefix, or the home folder's .local; each tool runs from there by its name."""
    assert front("install")[0] == 0
    local = tmp_path / "home" / ".local"
    assert {path.name for path in (local / "bin").iterdir()} == {"vabgrot", *(f"vabgrot-{name}" for name in tools())}
    assert (local / "lib/vabgrot/vabgrot").read_text() == PROGRAM
    shutil.rmtree(tmp_path / "top")
    for name in tools():
        came = subprocess.run([local / "bin" / f"vabgrot-{name}", "--help"], capture_output=True, text=True)
        assert came.returncode == 0 and came.stdout.startswith(f"usage: vabgrot-{name}"), came.stderr
        assert not re.search(r"tools/|\./vabgrot|\b(docs|examples)/(?!\w)", came.stdout)
    names = ("README.md", "CONTRIBUTING.md", "docs/guide/FORMATS.md", "examples/red.vcd")
    assert {path.name for path in (local / "share/man/man1").iterdir()} >= {"vabgrot.1"}
    for name in ("man/man1/vabgrot.1", *(f"doc/vabgrot/{it}" for it in names)):
        assert (local / "share" / name).is_file()
    for name in ("page/index.html", "page/page.js", "python/vabgrot/report/page/report.js", "python/vabgrot/report/page/report.css"):
        assert (local / "lib/vabgrot" / name).is_file()


LIBRARY = """#!/bin/sh
[ -f "${0%/*}/../crates/vabgrot_c/out/built/libvabgrot_c.a" ] && mkdir -p "$1" &&
  echo shared > "$1/libvabgrot.so.1" && echo static > "$1/libvabgrot.a"
"""


def test_the_installed_library(front, tmp_path):
    """The C library is put beside the program once its archive is proved and built; where it cannot be made it alone is left out."""
    top, prefix = tmp_path / "top", tmp_path / "prefix"
    shutil.copytree(TOP / "library", top / "library")
    (top / "library" / "build").write_text(LIBRARY)
    (top / "crates" / "vabgrot_c" / "src").mkdir(parents=True)
    (top / "crates" / "vabgrot_c" / "src" / "lib.rt").write_text("//! a library\n")
    (top / "crates.txt").write_text("hdmi_cli:\nvabgrot_c staticlib:\n")
    (tmp_path / "fails.vabgrot_c").write_text("")
    status, _, said = front("install", prefix)
    assert status == 0 and "the C library is left out" in said and not (prefix / "include").exists()
    (tmp_path / "fails.vabgrot_c").unlink()
    assert front("install", prefix)[0] == 0
    for name in ("include/vabgrot.h", "lib/libvabgrot.a", "share/man/man3/vabgrot.3", "share/doc/vabgrot/examples/c/listing.c"):
        assert (prefix / name).is_file()
    assert (prefix / "lib/libvabgrot.so").read_text() == "shared\n" and (prefix / "lib/libvabgrot.so").is_symlink()
    described = (prefix / "lib/pkgconfig/vabgrot.pc").read_text()
    assert "Version: 1.0.0\n" in described and str(tmp_path) not in described


def test_installed_elsewhere(front, tmp_path):
    assert front("install", tmp_path / "other")[0] == 0 and (tmp_path / "other" / "bin" / "vabgrot-report").exists()
    (tmp_path / "file").write_text("")
    status, _, said = front("install", tmp_path / "file")
    assert status == 73 and f"vabgrot: cannot install in {tmp_path / 'file'}. " in said
    if os.geteuid():
        (tmp_path / "shut").mkdir(mode=0o500)
        assert front("install", tmp_path / "shut")[0] == 73


def listed(text):
    """The lines of a help on commands and statuses."""
    _, _, after = text.partition("--version\n\n")
    lines, _, _ = re.sub(r"Only this script ends with:\n(  .*\n)+", "", after).partition("\nThe tools")
    return lines.splitlines()


def test_the_installed_script(front, tmp_path):
    """It has the help of the script in the checkout, but for what is done in a checkout alone, and the program's words."""
    assert front("install", tmp_path / "prefix")[0] == 0
    script = tmp_path / "prefix" / "bin" / "vabgrot"
    here = front("help")[1]
    shutil.rmtree(tmp_path / "top")
    for word in ("help", "--help", "-h"):
        status, out, said = front(word, script=script, has_kit=False)
        assert (status, said) == (0, "") and out.startswith("usage: vabgrot COMMAND")
        assert "install [" not in out and "127" not in out and "./vabgrot" not in out and "tools/" not in out
    assert listed(out) == listed(here.replace("./vabgrot", "vabgrot")) and len(listed(out)) > 30
    for words in (["check"], ["install"], ["package"], []):
        assert front(*words, script=script, has_kit=False) == (1, " ".join(words) + "\n", "")


def test_version(front, tmp_path):
    """The version is that of the newest changes and of the man page; the kit is the one that built the program, also where
    another one is on the PATH later; the installed script and tools say the same."""
    assert front("--version", has_kit=False) == (0, "vabgrot 1.0.0, not built\n", "")
    line = "vabgrot 1.0.0, built with a kit\n"
    front("check")
    (tmp_path / "kit/KIT-ID").write_text("a later kit\n")
    assert front("--version") == front("--version", has_kit=False) == (0, line, "")
    tool = tmp_path / "top/tools/report"
    assert front("--version", script=tool) == (0, line, "")
    assert front("install", tmp_path / "prefix")[0] == 0
    shutil.rmtree(tmp_path / "top")
    for name in ("vabgrot", *(f"vabgrot-{name}" for name in tools())):
        assert front("--version", script=tmp_path / "prefix/bin" / name, has_kit=False) == (0, line, "")
    assert re.search(r"(?m)^## (\d\S*) \(\d{4}-\d\d-\d\d\)$", (TOP / "CHANGELOG.md").read_text())[1] == "1.0.0"
    described = tomllib.loads((TOP / "pyproject.toml").read_text())
    assert described["tool"]["setuptools"]["dynamic"]["version"] == {"attr": "vabgrot.__version__"}
    assert vabgrot.__version__ == "1.0.0" and "version" not in described["project"]
    assert '.TH VABGROT 1 "" "Vabgrot 1.0.0"' in (TOP / "docs/guide/vabgrot.1").read_text()


def test_the_kit_of_another_build(front, tmp_path):
    """Where the record is missing or older than the program, `rt` built it: the kit is that of the PATH, if there is one."""
    front("check")
    (tmp_path / "top/crates/hdmi_cli/out/kit").unlink()
    (tmp_path / "path/rt").write_text("#!/bin/sh\n[ $1 = version ] && echo kit of rt && echo more\n")
    assert front("--version")[1] == "vabgrot 1.0.0, built with kit of rt\n"
    assert front("--version", has_kit=False)[1] == "vabgrot 1.0.0, built with an unknown kit\n"


def asked_for(page):
    """The packages of Python that the page names."""
    return set(re.findall(r"\bpython3-[\w-]+", (TOP / page).read_text()))


PACKING = all(shutil.which(it) for it in ("dh", "dh_python3", "dpkg-architecture")) and all(map(find_spec, ("build_manpages", "shtab")))
packs = pytest.mark.skipif(not PACKING, reason="of Debian debhelper, dh-python, python3-argparse-manpage or python3-shtab is missing")


def fields_of(package):
    """The fields of a package's control file."""
    return dict(line.split(": ", 1) for line in ran(["dpkg-deb", "--field", package]).splitlines() if line[0] != " ")


def files_in(top):
    return {str(path.relative_to(top)).removesuffix(".gz") for path in top.rglob("*") if not path.is_dir()}


@packs
@pytest.mark.slow
def test_package(front, tmp_path):
    """A package of what is installed, with what it needs; its folder is made. Without the C library there is no package of it."""
    status, out, said = front("package", tmp_path / "new" / "folder")
    assert (status, out) == (0, ""), said
    package = tmp_path / "new" / "folder" / f"vabgrot_1.0.0_{ran(['dpkg', '--print-architecture'])[:-1]}.deb"
    assert said.endswith(f"vabgrot: made {package}\n") and [*package.parent.iterdir()] == [package]
    fields = fields_of(package)
    assert (fields["Package"], fields["Version"]) == ("vabgrot", "1.0.0")
    needed = {"python3-jinja2", "python3-numpy", "python3-pil", "python3-png", "python3-soundfile", "python3-tqdm"}
    assert {part.split()[0] for part in fields["Depends"].split(", ")} == needed | {"python3", "python3:any"}
    recommended = {"python3-junitparser", "python3-matplotlib", "python3-numba", "python3-scipy", "python3-skimage"}
    recommended |= {"python3-av", "python3-h5py", "python3-prometheus-client", "python3-rich"}
    assert recommended == set(fields["Recommends"].split(", "))
    assert asked_for("README.md") <= needed
    assert asked_for("docs/guide/TOOLS.md") == recommended | {"python3-distributed"}
    ran(["dpkg-deb", "--extract", package, tmp_path / "root"])
    assert front("install", tmp_path / "prefix")[0] == 0
    usr, prefix = files_in(tmp_path / "root" / "usr"), files_in(tmp_path / "prefix")
    modules = {it.replace("lib/python3/dist-packages", "lib/vabgrot/python") for it in usr if it.endswith(PYTHON)}
    assert modules == {it for it in prefix if it.endswith(PYTHON)} and len(modules) > 100
    assert {f"lib/vabgrot/python/vabgrot{it}" for it in ("/py.typed", "-1.0.0.dist-info/entry_points.txt")} < modules
    shared = "bin/", "lib/vabgrot/page/", "lib/vabgrot/v", "share/man/", "share/doc/", "share/bash-completion/"
    ours = {it for it in usr if it.startswith(shared)} - {"share/doc/vabgrot/changelog", "share/doc/vabgrot/copyright"}
    assert ours == {it for it in prefix if it.startswith(shared)} and "share/man/man1/vabgrot-report.1" in ours
    rights = tuple(f"{it} root/root" for it in ("drwxr-xr-x", "-rwxr-xr-x", "-rw-r--r--"))
    assert all(line.startswith(rights) for line in ran(["dpkg-deb", "--contents", package]).splitlines())
    assert front("--version", script=tmp_path / "root/usr/bin/vabgrot")[1] == front("--version")[1]


@packs
@pytest.mark.slow
def test_packages_of_the_library(front, tmp_path):
    """The C library has a package for programs that use it, and one for who compiles them."""
    made = tmp_path / "top/library"
    shutil.copytree(TOP / "library", made)
    (made / "build").write_text(LIBRARY)
    (tmp_path / "top/crates/vabgrot_c/src").mkdir(parents=True)
    (tmp_path / "top/crates.txt").write_text("hdmi_cli:\nvabgrot_c staticlib:\n")
    status, _, said = front("package", tmp_path / "new")
    assert status == 0, said
    packages = {path.name.partition("_")[0]: path for path in (tmp_path / "new").iterdir()}
    assert set(packages) == {"vabgrot", "libvabgrot1", "libvabgrot-dev"}
    for name, wanted in (("vabgrot", "libvabgrot1"), ("libvabgrot-dev", "libvabgrot1")):
        assert f"{wanted} (= 1.0.0)" in fields_of(packages[name])["Depends"]
    for package in packages.values():
        ran(["dpkg-deb", "--extract", package, tmp_path / "root"])
    (folder,) = (tmp_path / "root/usr/lib").glob("*-linux-gnu*")
    assert {path.name for path in folder.iterdir()} == {"libvabgrot.so.1", "libvabgrot.so", "libvabgrot.a", "pkgconfig"}
    assert f"libdir=${{prefix}}/lib/{folder.name}\n" in (folder / "pkgconfig/vabgrot.pc").read_text()
    for name in ("include/vabgrot.h", "share/doc/libvabgrot-dev/examples/c/listing.c", "share/man/man3/vabgrot.3.gz"):
        assert (tmp_path / "root/usr" / name).is_file()


@pytest.mark.skipif(not all(map(find_spec, ("pip", "setuptools", "wheel"))), reason="python3-pip or python3-wheel of Debian is missing")
def test_wheel(front, tmp_path):
    """A wheel for this platform has the program in the package, and each command. `pip install .` says in a line what to do before it."""
    pip = [sys.executable, "-m", "pip", "--disable-pip-version-check", "install", "--no-deps", "--no-index", "--no-build-isolation"]
    came = subprocess.run([*pip, "--target", tmp_path / "none", tmp_path / "top"], capture_output=True, text=True)
    assert came.returncode == 1 and "vabgrot: the program is not built. Run ./vabgrot build here first" in came.stdout + came.stderr
    status, _, said = front("package", "--wheel", tmp_path / "new")
    assert status == 0, said
    (wheel,) = (tmp_path / "new").iterdir()
    assert wheel.name == f"vabgrot-1.0.0-py3-none-{sysconfig.get_platform().replace('-', '_')}.whl"
    ran([*pip, "--target", tmp_path / "made", wheel])
    shutil.rmtree(tmp_path / "top")
    package = tmp_path / "made/vabgrot"
    assert (package / "py.typed").is_file()
    said = (tmp_path / "made/vabgrot-1.0.0.dist-info/entry_points.txt").read_text()
    assert "[pytest11]\nvabgrot = vabgrot.plugin\n" in said
    assert (package / "prefix/lib/vabgrot/vabgrot").read_text() == PROGRAM
    env = {"PATH": "/usr/bin:/bin", "PYTHONPATH": str(tmp_path / "made")}
    for name in ("vabgrot", *(f"vabgrot-{it}" for it in tools())):
        came = subprocess.run([tmp_path / "made/bin" / name, "--version"], env=env, capture_output=True, text=True)
        assert (came.stdout, came.stderr) == ("vabgrot 1.0.0, built with a kit\n", "")
    came = subprocess.run([tmp_path / "made/bin/vabgrot", "check"], env=env, capture_output=True, text=True, stdin=subprocess.DEVNULL)
    assert (came.returncode, came.stdout) == (1, "check\n")


def test_no_package(front, tmp_path):
    """What is not made leaves nothing behind. Where a Debian package is missing, one line says how all are installed."""
    if PACKING:
        (tmp_path / "file").write_text("")
        status, _, said = front("package", tmp_path / "file")
        assert status == 73 and f"vabgrot: cannot make a package in {tmp_path / 'file'}. " in said
    (tmp_path / "path/dh").write_text("#!/bin/sh\nexit 1\n")
    (tmp_path / "path/dh").chmod(0o755)
    assert front("package", tmp_path / "new")[0] == 73 and not [*(tmp_path / "new").glob("*")]


def ran(words):
    return subprocess.run([str(word) for word in words], capture_output=True, text=True, check=True).stdout
