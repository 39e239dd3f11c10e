"""Random captures (bursts.py, whole.py, around.py), a test for each table; `--seed` and `--count` choose other ones and more."""

import pytest

from tests.hostile import around, bursts, whole


@pytest.mark.slow
@pytest.mark.parametrize("table", (*bursts.TABLES, *whole.TABLES, *around.TABLES), ids=lambda table: table.__name__)
def test_bursts(executable, compare, pytestconfig, table):
    compare(table(executable, pytestconfig.getoption("--seed"), pytestconfig.getoption("--count")))
