"""Video formats with a code: those of CTA-861 (VIC 1 to 107) and of VESA's Display Monitor Timings (DMT), and the modes that `make
content` has a code for."""

from __future__ import annotations

import functools
from dataclasses import dataclass
from fractions import Fraction
from typing import NamedTuple

CTA, DMT = "CTA-861", "VESA DMT"
ASPECTS = ("4:3", "16:9", "64:27", "256:135")


@dataclass(frozen=True)
class Axis:
    """One direction of a raster: the parts of a line in pixel clocks, or those of a frame (field, if interlaced) in lines. `is_positive`
    says whether the sync pulse is the high level."""

    active: int
    front: int
    sync: int
    back: int
    positive: bool

    @property
    def total(self) -> int:
        """The whole line or field, without the additional half line that fields of some formats have."""
        return self.active + self.front + self.sync + self.back


@dataclass(frozen=True)
class Format:
    """A video format of a standard (`source`) with its code there.

    - `clock`: the pixel clock in Hz. If the format also has a rate that differs by 1000/1001, it is the one that the standard names
      first.
    - `halves`: whether the fields of an interlaced format begin half a line apart.
    - `more_front`: how many lines longer its vertical front porch may be.
    - `repetitions`: the allowed values of the AVI InfoFrame's pixel repetition (0: each pixel is sent once).
    - `across`: counts repeated pixels each time they are sent."""

    source: str
    code: int
    aspect: str
    clock: int
    across: Axis
    down: Axis
    interlaced: bool = False
    halves: bool = False
    more_front: int = 0
    repetitions: tuple[int, ...] = (0,)

    @property
    def name(self) -> str:
        """Its code, as the standard writes it."""
        return f"VIC {self.code}" if self.source == CTA else f"DMT {self.code:02X}h"

    @property
    def columns(self) -> Fraction:
        """The pixel clocks of a frame; for an interlaced format of a field, on average."""
        return self.across.total * (self.down.total + Fraction(self.halves, 2))

    @property
    def rate(self) -> float:
        """The frames a second, or fields if interlaced."""
        return float(self.clock / self.columns)

    @property
    def rows(self) -> int:
        """The rows of a frame."""
        return self.down.active * (1 + self.interlaced)

    @property
    def words(self) -> str:
        """Its code, size, rate and aspect ratio."""
        scan = "i" if self.interlaced else "p"
        return f"{self.name} ({self.across.active}x{self.rows}{scan}, {self.rate:.4g} Hz, {self.aspect})"


# CTA-861, section 4 (detailed timings, VICs). Each raster has: the VICs for the aspect ratios 4:3, 16:9, 64:27 and 256:135; the pixel
# clock in kHz; active, front porch, sync and back porch of a line; the same of a field or frame; the polarities of HSYNC and VSYNC. Then
# marks: "i" is interlaced, "whole" if its fields are whole lines; xN is how often each pixel is sent; front+N allows N more lines of the
# front porch.
CTA_TABLE = """
 1  -   -   -  25175  640   16   96   48  480   10    2   33 --
 2  3   -   -  27000  720   16   62   60  480    9    6   30 --
 -  4  69   -  74250 1280  110   40  220  720    5    5   20 ++
 -  5   -   -  74250 1920   88   44  148  540    2    5   15 ++ i
 6  7   -   -  27000 1440   38  124  114  240    4    3   15 -- i x2
 8  9   -   -  27000 1440   38  124  114  240    4    3   15 -- x2 front+1
10 11   -   -  54000 2880   76  248  228  240    4    3   15 -- i x1-10
12 13   -   -  54000 2880   76  248  228  240    4    3   15 -- x1-10 front+1
14 15   -   -  54000 1440   32  124  120  480    9    6   30 -- x1-2
 - 16  76   - 148500 1920   88   44  148 1080    4    5   36 ++
17 18   -   -  27000  720   12   64   68  576    5    5   39 --
 - 19  68   -  74250 1280  440   40  220  720    5    5   20 ++
 - 20   -   -  74250 1920  528   44  148  540    2    5   15 ++ i
21 22   -   -  27000 1440   24  126  138  288    2    3   19 -- i x2
23 24   -   -  27000 1440   24  126  138  288    2    3   19 -- x2 front+2
25 26   -   -  54000 2880   48  252  276  288    2    3   19 -- i x1-10
27 28   -   -  54000 2880   48  252  276  288    2    3   19 -- x1-10 front+2
29 30   -   -  54000 1440   24  128  136  576    5    5   39 -- x1-2
 - 31  75   - 148500 1920  528   44  148 1080    4    5   36 ++
 - 32  72   -  74250 1920  638   44  148 1080    4    5   36 ++
 - 33  73   -  74250 1920  528   44  148 1080    4    5   36 ++
 - 34  74   -  74250 1920   88   44  148 1080    4    5   36 ++
35 36   -   - 108000 2880   64  248  240  480    9    6   30 -- x1-2,4
37 38   -   - 108000 2880   48  256  272  576    5    5   39 -- x1-2,4
 - 39   -   -  72000 1920   32  168  184  540   23    5   57 +- i whole
 - 40   -   - 148500 1920  528   44  148  540    2    5   15 ++ i
 - 41  70   - 148500 1280  440   40  220  720    5    5   20 ++
42 43   -   -  54000  720   12   64   68  576    5    5   39 --
44 45   -   -  54000 1440   24  126  138  288    2    3   19 -- i x2
 - 46   -   - 148500 1920   88   44  148  540    2    5   15 ++ i
 - 47  71   - 148500 1280  110   40  220  720    5    5   20 ++
48 49   -   -  54000  720   16   62   60  480    9    6   30 --
50 51   -   -  54000 1440   38  124  114  240    4    3   15 -- i x2
52 53   -   - 108000  720   12   64   68  576    5    5   39 --
54 55   -   - 108000 1440   24  126  138  288    2    3   19 -- i x2
56 57   -   - 108000  720   16   62   60  480    9    6   30 --
58 59   -   - 108000 1440   38  124  114  240    4    3   15 -- i x2
 - 60  65   -  59400 1280 1760   40  220  720    5    5   20 ++
 - 61  66   -  74250 1280 2420   40  220  720    5    5   20 ++
 - 62  67   -  74250 1280 1760   40  220  720    5    5   20 ++
 - 63  78   - 297000 1920   88   44  148 1080    4    5   36 ++
 - 64  77   - 297000 1920  528   44  148 1080    4    5   36 ++
 -  -  79   -  59400 1680 1360   40  220  720    5    5   20 ++
 -  -  80   -  59400 1680 1228   40  220  720    5    5   20 ++
 -  -  81   -  59400 1680  700   40  220  720    5    5   20 ++
 -  -  82   -  82500 1680  260   40  220  720    5    5   20 ++
 -  -  83   -  99000 1680  260   40  220  720    5    5   20 ++
 -  -  84   - 165000 1680   60   40  220  720    5    5   95 ++
 -  -  85   - 198000 1680   60   40  220  720    5    5   95 ++
 -  -  86   -  99000 2560  998   44  148 1080    4    5   11 ++
 -  -  87   -  90000 2560  448   44  148 1080    4    5   36 ++
 -  -  88   - 118800 2560  768   44  148 1080    4    5   36 ++
 -  -  89   - 185625 2560  548   44  148 1080    4    5   36 ++
 -  -  90   - 198000 2560  248   44  148 1080    4    5   11 ++
 -  -  91   - 371250 2560  218   44  148 1080    4    5  161 ++
 -  -  92   - 495000 2560  548   44  148 1080    4    5  161 ++
 - 93 103   - 297000 3840 1276   88  296 2160    8   10   72 ++
 - 94 104   - 297000 3840 1056   88  296 2160    8   10   72 ++
 - 95 105   - 297000 3840  176   88  296 2160    8   10   72 ++
 - 96 106   - 594000 3840 1056   88  296 2160    8   10   72 ++
 - 97 107   - 594000 3840  176   88  296 2160    8   10   72 ++
 -  -   -  98 297000 4096 1020   88  296 2160    8   10   72 ++
 -  -   -  99 297000 4096  968   88  128 2160    8   10   72 ++
 -  -   - 100 297000 4096   88   88  128 2160    8   10   72 ++
 -  -   - 101 594000 4096  968   88  128 2160    8   10   72 ++
 -  -   - 102 594000 4096   88   88  128 2160    8   10   72 ++
"""

# VESA DMT 1.13: the code in hexadecimal; the clock in kHz; a line, a field or frame, polarities and scan as above. A border counts as
# porch.
DMT_TABLE = """
01   31500  640   32   64   96  350   32    3   60 +-
02   31500  640   32   64   96  400    1    3   41 -+
03   35500  720   36   72  108  400    1    3   42 -+
04   25175  640   16   96   48  480   10    2   33 --
05   31500  640   24   40  128  480    9    3   28 --
06   31500  640   16   64  120  480    1    3   16 --
07   36000  640   56   56   80  480    1    3   25 --
08   36000  800   24   72  128  600    1    2   22 ++
09   40000  800   40  128   88  600    1    4   23 ++
0a   50000  800   56  120   64  600   37    6   23 ++
0b   49500  800   16   80  160  600    1    3   21 ++
0c   56250  800   32   64  152  600    1    3   27 ++
0d   73250  800   48   32   80  600    3    4   29 +-
0e   33750  848   16  112  112  480    6    8   23 ++
0f   44900 1024    8  176   56  384    0    4   20 ++ i
10   65000 1024   24  136  160  768    3    6   29 --
11   75000 1024   24  136  144  768    3    6   29 --
12   78750 1024   16   96  176  768    1    3   28 ++
13   94500 1024   48   96  208  768    1    3   36 ++
14  115500 1024   48   32   80  768    3    4   38 +-
15  108000 1152   64  128  256  864    1    3   32 ++
16   68250 1280   48   32   80  768    3    7   12 +-
17   79500 1280   64  128  192  768    3    7   20 -+
18  102250 1280   80  128  208  768    3    7   27 -+
19  117500 1280   80  136  216  768    3    7   31 -+
1a  140250 1280   48   32   80  768    3    7   35 +-
1b   71000 1280   48   32   80  800    3    6   14 +-
1c   83500 1280   72  128  200  800    3    6   22 -+
1d  106500 1280   80  128  208  800    3    6   29 -+
1e  122500 1280   80  136  216  800    3    6   34 -+
1f  146250 1280   48   32   80  800    3    6   38 +-
20  108000 1280   96  112  312  960    1    3   36 ++
21  148500 1280   64  160  224  960    1    3   47 ++
22  175500 1280   48   32   80  960    3    4   50 +-
23  108000 1280   48  112  248 1024    1    3   38 ++
24  135000 1280   16  144  248 1024    1    3   38 ++
25  157500 1280   64  160  224 1024    1    3   44 ++
26  187250 1280   48   32   80 1024    3    7   50 +-
27   85500 1360   64  112  256  768    3    6   18 ++
28  148250 1360   48   32   80  768    3    5   37 +-
29  101000 1400   48   32   80 1050    3    4   23 +-
2a  121750 1400   88  144  232 1050    3    4   32 -+
2b  156000 1400  104  144  248 1050    3    4   42 -+
2c  179500 1400  104  152  256 1050    3    4   48 -+
2d  208000 1400   48   32   80 1050    3    4   55 +-
2e   88750 1440   48   32   80  900    3    6   17 +-
2f  106500 1440   80  152  232  900    3    6   25 -+
30  136750 1440   96  152  248  900    3    6   33 -+
31  157000 1440  104  152  256  900    3    6   39 -+
32  182750 1440   48   32   80  900    3    6   44 +-
33  162000 1600   64  192  304 1200    1    3   46 ++
34  175500 1600   64  192  304 1200    1    3   46 ++
35  189000 1600   64  192  304 1200    1    3   46 ++
36  202500 1600   64  192  304 1200    1    3   46 ++
37  229500 1600   64  192  304 1200    1    3   46 ++
38  268250 1600   48   32   80 1200    3    4   64 +-
39  119000 1680   48   32   80 1050    3    6   21 +-
3a  146250 1680  104  176  280 1050    3    6   30 -+
3b  187000 1680  120  176  296 1050    3    6   40 -+
3c  214750 1680  128  176  304 1050    3    6   46 -+
3d  245500 1680   48   32   80 1050    3    6   53 +-
3e  204750 1792  128  200  328 1344    1    3   46 -+
3f  261000 1792   96  216  352 1344    1    3   69 -+
40  333250 1792   48   32   80 1344    3    4   72 +-
41  218250 1856   96  224  352 1392    1    3   43 -+
42  288000 1856  128  224  352 1392    1    3  104 -+
43  356500 1856   48   32   80 1392    3    4   75 +-
44  154000 1920   48   32   80 1200    3    6   26 +-
45  193250 1920  136  200  336 1200    3    6   36 -+
46  245250 1920  136  208  344 1200    3    6   46 -+
47  281250 1920  144  208  352 1200    3    6   53 -+
48  317000 1920   48   32   80 1200    3    6   62 +-
49  234000 1920  128  208  344 1440    1    3   56 -+
4a  297000 1920  144  224  352 1440    1    3   56 -+
4b  380500 1920   48   32   80 1440    3    4   78 +-
4c  268500 2560   48   32   80 1600    3    6   37 +-
4d  348500 2560  192  280  472 1600    3    6   49 -+
4e  443250 2560  208  280  488 1600    3    6   63 -+
4f  505250 2560  208  280  488 1600    3    6   73 -+
50  552750 2560   48   32   80 1600    3    6   85 +-
51   85500 1366   70  143  213  768    3    3   24 ++
52  148500 1920   88   44  148 1080    4    5   36 ++
53  108000 1600   24   80   96  900    1    3   96 ++
54  162000 2048   26   80   96 1152    1    3   44 ++
55   74250 1280  110   40  220  720    5    5   20 ++
56   72000 1366   14   56   64  768    1    3   28 ++
57  556744 4096    8   32   40 2160   48    8    6 +-
58  556188 4096    8   32   40 2160   48    8    6 +-
"""


def _axes(parts: list[str]) -> tuple[Axis, Axis]:
    """Returns the two directions, given eight numbers and a word of two signs."""
    active, front, sync, back, rows, below, pulse, above = map(int, parts[:8])
    across, down = (sign == "+" for sign in parts[8])
    return Axis(active, front, sync, back, across), Axis(rows, below, pulse, above, down)


def _repetitions(word: str) -> tuple[int, ...]:
    """Returns the AVI InfoFrame's values for a mark: x2 is 1, x1-10 is 0 to 9, x1-2,4 is 0, 1 and 3."""
    found: list[int] = []
    for part in word[1:].split(","):
        first, _, last = part.partition("-")
        found += range(int(first) - 1, int(last or first))
    return tuple(found)


def _cta(line: str) -> list[Format]:
    """Returns the formats of a line of CTA_TABLE."""
    parts = line.split()
    across, down = _axes(parts[5:14])
    marks = parts[14:]
    repetitions = next((_repetitions(mark) for mark in marks if mark[0] == "x"), (0,))
    more = next((int(mark[6:]) for mark in marks if mark.startswith("front+")), 0)
    interlaced = "i" in marks
    halves = interlaced and "whole" not in marks
    clock = int(parts[4]) * 1000
    return [
        Format(CTA, int(code), aspect, clock, across, down, interlaced, halves, more, repetitions)
        for code, aspect in zip(parts, ASPECTS)
        if code != "-"
    ]


def _dmt(line: str) -> Format:
    """Returns the format of a line of DMT_TABLE."""
    code, clock, *parts = line.split()
    across, down = _axes(parts[:9])
    interlaced = "i" in parts[9:]
    aspect = Fraction(across.active, down.active * (1 + interlaced))
    ratio = f"{aspect.numerator}:{aspect.denominator}"
    return Format(DMT, int(code, 16), ratio, int(clock) * 1000, across, down, interlaced, interlaced)


@functools.cache
def formats() -> tuple[Format, ...]:
    """Returns every format: first those of CTA-861 by VIC, then those of DMT by code."""
    cta = [found for line in CTA_TABLE.strip().splitlines() for found in _cta(line)]
    return (*sorted(cta, key=lambda found: found.code), *map(_dmt, DMT_TABLE.strip().splitlines()))


def of_vic(vic: int) -> Format | None:
    """Returns the format of CTA-861 with this code, or None."""
    return next((found for found in formats() if found.source == CTA and found.code == vic), None)


class Mode(NamedTuple):
    """A video mode: the columns of a line, the lines of a frame, and whether its sync pulses are positive."""

    active_across: int
    front_across: int
    sync_across: int
    back_across: int
    active_down: int
    front_down: int
    sync_down: int
    back_down: int
    positive: int

    @property
    def size(self) -> tuple[int, int]:
        """The width and height in pixels."""
        return self.active_across, self.active_down

    @property
    def across(self) -> int:
        """The columns of a line."""
        return sum(self[:4])

    @property
    def columns(self) -> int:
        """The columns of a frame."""
        return self.across * sum(self[4:8])

    @property
    def room(self) -> int:
        """The number of packets that fit a frame. Each line has room for whole packets, at most 18 (docs/guide/FORMATS.md)."""
        beside, alone = self.sync_across + self.back_across - 30, self.across - 16
        blank = sum(self[5:8])
        return self.active_down * max(0, min(18, beside // 32)) + blank * max(0, min(18, alone // 32))


class Timing(NamedTuple):
    """The properties of a video identification code in CTA-861: mode, frames a second, aspect ratio of the picture."""

    mode: Mode
    rate: int
    aspect: str

    @property
    def clock(self) -> int:
        """The pixel clock in Hz."""
        return self.mode.columns * self.rate


CUSTOM_CLOCK = 25_200_000  # the pixel clock of a custom mode, in Hz
MADE = (1, 2, 3, 4, 16, 17, 18, 19)  # the codes that `make content` accepts (docs/guide/FORMATS.md)


def _timing(vic: int) -> Timing:
    """Returns the mode of a format of CTA-861, at its integer number of frames a second."""
    found = of_vic(vic)
    assert found is not None
    across, down = ((axis.active, axis.front, axis.sync, axis.back) for axis in (found.across, found.down))
    return Timing(Mode(*across, *down, int(found.across.positive)), round(found.rate), found.aspect)


VICS = {vic: _timing(vic) for vic in MADE}
