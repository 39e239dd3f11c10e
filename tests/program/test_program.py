"""The built program as a user runs it (rows.py), a test a table."""

import pytest

from tests.program import rows


@pytest.mark.parametrize("table", rows.TABLES, ids=lambda table: table.__name__)
def test_program(executable, compare, table):
    """Each row: its status, what it writes, and its line on standard error."""
    compare(table(executable))
