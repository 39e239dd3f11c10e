"""VSYNC as most columns of its lines have it."""

import numpy as np

from vabgrot.video.timings import LOST, held

PERIOD = 100


def changes(text):
    """Columns and levels, where `?` is one that is not known."""
    parts = (part.split(":") for part in text.split())
    return np.array([int(column) << 2 | (LOST if level == "?" else int(level)) for column, level in parts], np.int64)


def test_vsync_is_held():
    pulse = "0:? 0:0 1000:1 1200:0"
    rows = (
        ("nothing damaged", pulse, "", pulse),
        ("one column in the pulse, outside, and before a row", "0:? 0:0 550:1 551:0 1000:1 1050:0 1051:1 1200:0 1540:1 1620:0", "", pulse),
        ("one column just behind an edge", "0:? 0:0 1000:1 1005:0 1006:1 1200:0", "", pulse),
        ("a line that is not known", "0:? 0:0 400:? 500:0 1000:1 1200:0", "", pulse),
        ("damage before what is not known", "0:? 0:0 400:1 402:? 402:0 1000:1 1200:0", "", pulse),
        ("an edge that is not seen", "0:? 0:0 990:? 1010:1 1200:0", "", "0:? 0:0 990:? 1010:1 1200:0"),
        ("two lines that are not known", "0:? 0:0 400:? 600:0 1000:1 1200:0", "", "0:? 0:0 400:? 600:0 1000:1 1200:0"),
        ("a slip", "0:? 0:0 400:? 400:0 1000:1 1200:0", "400", "0:? 0:0 400:? 400:0 1000:1 1200:0"),
    )
    for name, came, slips, wanted in rows:
        found = held(changes(came), PERIOD, np.array([int(it) for it in slips.split()], np.int64))
        assert found.tolist() == changes(wanted).tolist(), name
