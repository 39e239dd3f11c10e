"""Captures of marginal cables (marginal.py), a test a table; `--seed` and `--count` choose other ones and more."""

import pytest

from tests.hostile import marginal


@pytest.mark.slow
@pytest.mark.parametrize("table", marginal.TABLES, ids=lambda table: table.__name__)
def test_marginal(executable, compare, pytestconfig, table):
    compare(table(executable, pytestconfig.getoption("--seed"), pytestconfig.getoption("--count")))
