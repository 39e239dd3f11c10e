"""Weaves the fields of interlaced video into frames."""

from collections.abc import Iterator
from dataclasses import dataclass
from fractions import Fraction
from typing import Generic, Protocol, TypeVar

from vabgrot.events import UNTOLD

NEAR = Fraction(1, 8)  # lines; two fields are half a line apart if their distance differs from that by at most this
HALF = Fraction(1, 2)


class Timed(Protocol):
    """What weaving needs to know about a field: width in pixels, rows, and the lines from its VSYNC to its first row (None if
    not known)."""

    @property
    def size(self) -> tuple[int, int]:
        """Width and height."""

    @property
    def lines_down(self) -> Fraction | None:
        """The lines from VSYNC to the first row, as a fraction."""


Field = TypeVar("Field", bound=Timed)


@dataclass(frozen=True)
class Pair(Generic[Field]):
    """The two fields of a frame. A picture without a partner has `lower` None; `is_field` then says whether it is a field that lost its
    partner."""

    upper: Field
    lower: Field | None = None
    is_field: bool = False


def lines_down(change: int | None, firsts: list[int]) -> Fraction | None:
    """Returns the lines from a change of VSYNC to the first row. `firsts` are the first columns of rows. Returns None for a single row,
    or if the column of the first row is not known."""
    if change is None or len(firsts) < 2 or firsts[0] == UNTOLD or firsts[1] <= firsts[0]:
        return None
    return Fraction(firsts[0] - change, firsts[1] - firsts[0])


def half_line(first: Timed, second: Timed) -> int:
    """Returns 1 if the second of two fields is half a line lower than the first, -1 if it is half a line higher, and 0 otherwise."""
    one, other = first.lines_down, second.lines_down
    if one is None or other is None or first.size != second.size:
        return 0
    apart = other - one
    return (1 if apart > 0 else -1) if abs(abs(apart) - HALF) <= NEAR else 0


class Weaver(Generic[Field]):
    """Takes pictures in order and finds the fields of interlaced video: two successive pictures that are half a line apart. The higher
    one is the upper field and begins the frame (CTA-861: the first field)."""

    def __init__(self) -> None:
        self.held: Field | None = None
        self.is_interlaced = False

    def take(self, field: Field) -> Iterator[Pair[Field]]:
        """Takes a picture. Yields the frame that it completes, if any."""
        held, self.held = self.held, field
        if held is None:
            return
        side = half_line(held, field)
        if held.lines_down is not None and field.lines_down is not None:
            self.is_interlaced = side != 0
        if side > 0:
            self.held = None
            yield Pair(held, field)
        else:
            yield Pair(held, is_field=self.is_interlaced)

    def end(self) -> Iterator[Pair[Field]]:
        """Yields the last picture if it is still waiting for a partner."""
        held, self.held = self.held, None
        if held is not None:
            yield Pair(held, is_field=self.is_interlaced)
