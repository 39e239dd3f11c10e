"""Finds the frames of a page that are the two fields of one picture, and the notes about them."""

from collections.abc import Iterator
from dataclasses import dataclass, field
from fractions import Fraction
from typing import NamedTuple, TypedDict

from vabgrot.content import Frame
from vabgrot.video.weaving import Pair, Weaver, lines_down

WOVEN = """The video is interlaced: {fields} fields are woven into {frames}, since half a line lies between them from VSYNC to their first
rows. The one that stands higher is taken for the upper, and the lower behind it for the other field of its frame"""
ALONE = "{fields} whose other one is missing {are} by {itself}"
UNKNOWN = """{who} that the video is interlaced, and which field is the upper is not known, since no two that follow one another have half
a line between them from VSYNC to their first rows: each field is shown as a frame of its own"""


class Shot(NamedTuple):
    """A frame that may be a field: its number, its size in pixels, and the lines from VSYNC to its first row."""

    number: int
    size: tuple[int, int]
    lines_down: Fraction | None


class Shown(TypedDict):
    """A picture of the page: the numbers of its frames (of two, the upper field is first), and whether it is a single field."""

    frames: list[int]
    isField: bool


def counted(number: int, name: str) -> str:
    """Formats a number of things."""
    return f"{number:,} {name}{'s' * (number != 1)}"


@dataclass
class Fields:
    """Takes frames in order, and pairs those that are fields of one picture, like `tools/pictures`."""

    weaver: Weaver[Shot] = field(default_factory=Weaver)
    pairs: list[Pair[Shot]] = field(default_factory=list)

    def take(self, number: int, frame: Frame, width: int) -> None:
        """Takes the next frame, `width` pixels wide. An incomplete frame has no partner."""
        if not frame.is_whole:
            self.end()
            self.pairs.append(Pair(Shot(number, (width, len(frame.rows)), None)))
            return
        down = lines_down(frame.change, frame.firsts)
        self.pairs.extend(self.weaver.take(Shot(number, (width, len(frame.rows)), down)))

    def end(self) -> None:
        """Makes sure that the next frame is not paired with the last one, for example after a slip."""
        self.pairs.extend(self.weaver.end())

    @property
    def woven(self) -> int:
        """The number of pictures with two fields."""
        return sum(pair.lower is not None for pair in self.pairs)

    def shown(self) -> list[Shown]:
        """Returns the pictures of the page."""
        numbers = ([one.number for one in (pair.upper, pair.lower) if one] for pair in self.pairs)
        return [{"frames": frames, "isField": pair.is_field} for frames, pair in zip(numbers, self.pairs)]

    def notes(self, says_interlaced: str) -> Iterator[str]:
        """Yields notes about what was done and assumed. `says_interlaced` names the source that says "interlaced"; "" if none does."""
        if self.woven:
            text = WOVEN.format(fields=2 * self.woven, frames=counted(self.woven, "frame"))
            alone = sum(pair.is_field for pair in self.pairs)
            if alone:
                are, itself = ("are shown", "themselves") if alone > 1 else ("is shown", "itself")
                text += f". {ALONE.format(fields=counted(alone, 'field'), are=are, itself=itself)}"
            yield f"{' '.join(text.split())}."
        elif says_interlaced:
            yield f"{' '.join(UNKNOWN.format(who=says_interlaced).split())}."
