"""The built program over inputs and devices that are made to harm it (tables.py), a test a table. Those that take a minute or more
each are run by `-m long` alone."""

import pytest

from tests.hostile import tables


@pytest.mark.slow
@pytest.mark.parametrize("table", tables.TABLES, ids=lambda table: table.__name__)
def test_hostile(executable, compare, table):
    compare(table(executable))


@pytest.mark.long
@pytest.mark.parametrize("table", tables.LONG, ids=lambda table: table.__name__)
def test_long(executable, compare, table):
    compare(table(executable))
