"""A plugin of pytest: its fixture `assert_clean` has the verdict on a capture as the message of a failure."""

from collections.abc import Callable

import pytest

from vabgrot.testing import assert_clean as asserted


@pytest.fixture
def assert_clean() -> Callable[..., None]:
    """The function `vabgrot.testing.assert_clean`: fails unless the verdict on a capture is "Clean"."""
    return asserted
