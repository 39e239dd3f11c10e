"""What the tests share as fixtures: a tool, the program, the C library, a kit; and what a run of them counts at its end."""

import os
from collections import Counter

import pytest

from tests.support import TOP, built, ran
from vabgrot import library as native

os.environ["VABGROT_NO_BUILD"] = "1"  # a test that needs the program, the library or the page is skipped where it is missing
COMPARISONS = "comparisons"  # the property of a test of many: how many passed, and how many failed


def pytest_addoption(parser):
    parser.addoption("--seed", type=int, default=1, help="the seed of the captures with bursts; %(default)s if left out")
    parser.addoption("--count", type=int, default=200, help="how many captures with bursts; %(default)s if left out")


class Tally:
    """Counts tests and comparisons over a run, and says them as its last line."""

    def __init__(self):
        self.tests, self.comparisons = Counter(), Counter()

    def pytest_runtest_logreport(self, report):
        if report.when == "call" or report.outcome != "passed":
            self.tests[report.outcome] += 1
        if report.when == "call":
            for name, counts in report.user_properties:
                if name == COMPARISONS:
                    self.comparisons.update(passed=counts[0], failed=counts[1])

    def __str__(self):
        tests = ", ".join(f"{self.tests[it]:,} {it}" for it in ("passed", "failed", "skipped"))
        return f"all tests: {tests}; comparisons in them: {self.comparisons['passed']:,} passed, {self.comparisons['failed']:,} failed"


def pytest_configure(config):
    if not hasattr(config, "workerinput"):  # one of xdist's processes
        config.pluginmanager.register(Tally(), "tally")


def pytest_collection_modifyitems(items):
    """The slow tests begin first, so that none of them is left over where tests run side by side."""
    items.sort(key=lambda it: it.get_closest_marker("slow") is None)


def pytest_unconfigure(config):
    tally = config.pluginmanager.get_plugin("tally")
    if tally and not config.option.collectonly:
        print(tally)


@pytest.fixture
def compare(record_property):
    """Compares the cases of a table, each a name, what came and what is wanted. All are tried, and those that fail are shown."""

    def each(cases):
        passed, failed = 0, 0
        try:
            for name, came, wanted in cases:
                if came == wanted:
                    passed += 1
                else:
                    failed += 1
                    print(f"{name}: {came!r:.500} came, {wanted!r:.500} is wanted")
        finally:
            record_property(COMPARISONS, (passed, failed))
        assert passed and not failed, f"{failed} of {passed + failed} comparisons failed"

    return each


@pytest.fixture(scope="session")
def executable():
    """The path of the built program. Where VABGROT_PROGRAM names one it must be there."""
    path = built()
    if not path.is_file():
        end = pytest.fail if "VABGROT_PROGRAM" in os.environ else pytest.skip
        end(f"there is no program {path}: `./vabgrot` builds it, or VABGROT_PROGRAM names one")
    return str(path)


def built_library(folder):
    """Builds the shared and the static library into a folder. Answers why that is not possible, if it is not."""
    made = ran([TOP / "library" / "build", folder], b"")
    assert made.returncode in (0, 127), made.stderr.decode()
    return made.stderr.decode().strip() if made.returncode else None


@pytest.fixture(scope="session", autouse=True)
def hearing(tmp_path_factory):
    """Names the C library that the tools of all tests use: the one that is built or named, otherwise one that is built for the tests.
    Answers why there is none, if there is none."""
    try:
        native.loaded(native.find())
        os.environ["VABGROT_LIBRARY"] = native.find()
        return None
    except native.NoLibrary:
        folder = tmp_path_factory.mktemp("hearing")
        why = built_library(folder)
        if not why:
            os.environ["VABGROT_LIBRARY"] = str(folder / "libvabgrot.so.1")
        return why


@pytest.fixture
def tool(hearing):
    """Runs a tool: its name, its words, its input, and the status that is wanted. A refusal is one line."""
    if hearing:
        pytest.skip(hearing)

    def run(name, *words, source=b"", status=0):
        came = ran([TOP / "tools" / name, *words], source)
        assert came.returncode == status, came.stderr.decode()
        if status == 3:
            assert came.stderr.startswith(f"{name}: ".encode()) and came.stderr.count(b"\n") == 1
            assert b"Traceback" not in came.stderr
        return came

    return run


@pytest.fixture
def program(executable):
    """Runs the program; a command that it does not have (status 2) skips the test."""

    def run(*words, source=b"", status=0):
        came = ran([executable, *words], source)
        if came.returncode == 2:
            pytest.skip(f"the program has no `{' '.join(map(str, words[:4]))}`: it answers with status 2")
        assert came.returncode == status, came.stderr.decode()
        return came.stdout

    return run


@pytest.fixture(scope="session")
def library(tmp_path_factory):
    """The folder of the shared and the static library. The tests are skipped where a compiler or the proved archive is missing."""
    folder = tmp_path_factory.mktemp("library")
    if why := built_library(folder):
        pytest.skip(why)
    return folder


PROVER = """#!/bin/sh
for word; do
  case $last in
    --crate-name) name=$word ;;
    --extern) [ -e "${{word#*=}}" ] || echo "$name without $word" >> {0}/log ;;
    -o) made=$word ;;
  esac
  last=$word
done
echo "begin $name" >> {0}/log
[ -e {0}/slow ] && sleep 0.3
[ -e {0}/hangs ] && echo $$ > {0}/hanging && exec sleep 600
[ -e "{0}/kills.$name" ] && rm "{0}/kills.$name" && kill -9 $$
[ -e "{0}/fails.$name" ] && echo "$name: not proved" && exit 1
echo "$*" > "$made"
echo "end $name" >> {0}/log
"""
LINKER = """#!/bin/sh
while [ "$1" != -o ]; do shift; done
cp {0}/program "$2"
"""


@pytest.fixture
def kit(tmp_path):
    """A Rattle kit that is shell scripts, and its `rt` in the folder `path`. Its prover writes what it does into the file `log`,
    fails, hangs or is killed where a file says so, and what it makes is the file `program`."""
    scripts = {"kit/bin/rattle": PROVER, "kit/bin/rattle-link": LINKER, "path/rt": "#!/bin/sh\necho {0}/kit/START-HERE.md\n"}
    for path, text in scripts.items():
        (tmp_path / path).parent.mkdir(parents=True, exist_ok=True)
        (tmp_path / path).write_text(text.format(tmp_path))
        (tmp_path / path).chmod(0o755)
    for name in ("rlibs/hex.rlib", "rlibs/std.rlib", "rattle/logic", "logic_built", "toolchain", "c"):
        (tmp_path / "kit" / name).mkdir(parents=True)
    for name in ("KIT-ID", "rattle/logic/antt-project.json", "c/libos_c.a", "c/liblibc_c.a"):
        (tmp_path / "kit" / name).write_text("a kit\n")
    (tmp_path / "program").write_text("made\n")
    return tmp_path / "kit"
