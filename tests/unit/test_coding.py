"""The tables of the coding in crates/tmds_code are those that the standard's coding gives (DVI 1.0, section 3.3)."""

import pytest

from tests.models import coding


@pytest.mark.parametrize("name", coding.TABLES)
def test_table(name: str) -> None:
    assert coding.stands(name) == coding.TABLES[name][1]()
