"""vabgrot.report.bursts: which faults are one burst, and which stand for themselves."""

import numpy as np
import pytest

CONTROL, VIDEO, PACKET, OPEN, CLOSE, UNKNOWN = range(6)


@pytest.fixture
def found():
    """The first column, the size and the fault numbers of each burst, of faults (kind and column) and periods (kind, column, columns)."""
    from vabgrot.report import bursts

    def of(faults, *periods):
        faults = dict(zip(("kind", "at"), map(list, zip(*faults)), strict=True))
        periods = dict(zip(("kind", "at", "columns"), map(np.array, zip(*periods)) if periods else [np.zeros(0, int)] * 3, strict=True))
        return [(burst.at, burst.columns, burst.faults) for burst in bursts.bursts_of(faults, periods)]

    return of


def noise(*places):
    return [("noise", at) for at in places]


def test_near_faults_are_one(found):
    near = noise(100, 103, 104, 110, 174, 238)
    assert found(near) == [(100, 139, [0, 1, 2, 3, 4, 5])]
    assert found(near[:5]) == []
    assert found(noise(100, 103, 104, 110, 174, 239)) == []
    assert found([*near, *noise(500, 501, 502, 503, 504, 505)]) == [
        (100, 139, [0, 1, 2, 3, 4, 5]),
        (500, 6, [6, 7, 8, 9, 10, 11]),
    ]


def test_the_order_of_a_burst_is_that_of_the_listing(found):
    assert found([("code", 50), ("code", 20), *noise(60, 61, 62, 40)]) == [(20, 43, [0, 1, 2, 3, 4, 5])]


def test_what_is_none(found):
    one = [("symbols", 40), ("lost", 40), ("lost", 40), ("lost", 40), ("mended", 40), ("code", 50)]
    assert found(one) == []  # a packet and a pixel
    assert found([("word", at) for at in range(40, 60)]) == []  # a control period alone
    assert found([*noise(1, 2, 3), ("slip", 4), *noise(5, 6, 7)]) == []


@pytest.mark.parametrize("between", [[(VIDEO, 24, 5)], [(OPEN, 24, 2), (PACKET, 26, 32), (CLOSE, 58, 2)]])
def test_what_stands_alone_is_in_none(found, between):
    """A row or an island without a fault, after twelve control columns and before one."""
    end = between[-1][1] + between[-1][2]
    places = [0, 2, 3, 4, 8, 9, *range(end + 2, end + 8)]
    halves = [(0, 10, list(range(6))), (end + 2, 6, list(range(6, 12)))]
    whole = [(0, end + 8, list(range(12)))]
    assert found(noise(*places), (CONTROL, 12, 12), *between, (CONTROL, end, 1)) == halves
    assert found(noise(*places), (CONTROL, 13, 11), *between, (CONTROL, end, 1)) == whole
    assert found(noise(*places), (CONTROL, 12, 12), *between, (UNKNOWN, end, 1)) == whole
    inside = sorted([*places, between[-1][1]])
    hurt = [(0, end + 8, list(range(13)))]
    assert found(noise(*inside), (CONTROL, 12, 12), *between, (CONTROL, end, 1)) == hurt
