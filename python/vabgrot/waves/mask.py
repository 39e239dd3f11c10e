"""The eye mask that a source has to keep free (HDMI 1.4, section 4.2.4: the eye diagram at TP1)."""

from __future__ import annotations

from typing import Any

import numpy as np
import numpy.typing as npt

Reals = npt.NDArray[np.float64]

# The hexagon in the middle of the eye: unit intervals from the middle of a bit, and volts of the pair from their middle.
SHARP, FLAT, INNER, OUTER = 0.35, 0.25, 0.200, 0.780
OFFSETS = np.linspace(-SHARP, SHARP, 37)[1:-1]
ROOM: Reals = INNER * np.clip((SHARP - np.abs(OFFSETS)) / (SHARP - FLAT), 0, 1)  # the height of the hexagon at each offset
CORNERS = [(-SHARP, 0.0), (-FLAT, INNER), (FLAT, INNER), (SHARP, 0.0), (FLAT, -INNER), (-FLAT, -INNER)]


class Mask:
    """Counts the bits with a level inside the mask or beyond its outer limits. `volts` is the value of one unit of the file."""

    def __init__(self, volts: float) -> None:
        self.volts = volts
        self.bits = self.inside = self.beyond = 0
        self.least = np.inf  # the distance of the nearest level from the hexagon, in volts; negative if inside

    def take(self, levels: Reals) -> None:
        """Takes levels relative to the middle of a lane, in units of the file. The rows are the OFFSETS, the columns are bits."""
        volts = np.abs(levels) * self.volts
        free = volts - ROOM[:, None]
        self.bits += levels.shape[1]
        self.inside += int((free < 0).any(axis=0).sum())
        self.beyond += int((volts > OUTER).any(axis=0).sum())
        self.least = min(self.least, float(free.min(initial=np.inf)))

    @property
    def is_kept(self) -> bool:
        """Whether no level was inside the mask."""
        return not (self.inside or self.beyond)

    def __str__(self) -> str:
        if self.is_kept:
            return f"mask: pass, {self.bits:,} bits stay {self.least:.3f} V away from it"
        beyond = f", {self.beyond:,} are beyond {OUTER} V" if self.beyond else ""
        return f"mask: FAIL, {self.inside:,} of {self.bits:,} bits enter it, by {max(-self.least, 0):.3f} V{beyond}"

    def plain(self) -> dict[str, Any]:
        """Returns the same as a value for JSON."""
        return {"pass": self.is_kept, "bits": self.bits, "inside": self.inside, "beyond": self.beyond, "volts_free": self.least}
