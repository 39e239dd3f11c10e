"""Each command of the built program while what it asks for is refused (cases.py)."""

import shutil

import pytest

from tests.refused import cases

COMMANDS = 13  # of tests/hostile/inputs.py


@pytest.fixture(scope="module")
def refusing(executable, tmp_path_factory):
    """Runs of the program with the library that refuses."""
    if shutil.which("cc") is None:
        pytest.skip("there is no cc, which builds the library that refuses")
    return cases.Refusing(executable, tmp_path_factory.mktemp("refusing"))


def judged(found):
    """Each case, whether it went well, as one to compare."""
    for name, is_right, came in found:
        yield name, is_right or came, True


@pytest.mark.slow
@pytest.mark.parametrize("number", range(COMMANDS))
def test_refused(refusing, compare, number):
    compare(judged(cases.of_each(refusing, number)))


@pytest.mark.slow
@pytest.mark.parametrize("table", (cases.in_pieces, cases.cut_headers), ids=lambda table: table.__name__)
def test_in_pieces(refusing, compare, table):
    compare(judged(table(refusing)))


def test_each_command_is_tried(executable):
    assert len([*cases.sources(executable)]) == COMMANDS
