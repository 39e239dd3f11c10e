"""Finds the program for the tools, and reads its notes."""

import os
import shutil
from pathlib import Path

from vabgrot import building, place
from vabgrot.errors import Refused

PIPE = 1 << 20  # bytes of a pipe; a larger pipe lets the program wait less often
NO_CAPTURES = {
    "magic": place.named("not a capture: it does not begin with TMC. `tools/lanes pack` makes one from the raw bits of three lanes"),
    "version": "not a known capture: its fourth byte is {}, not 49 or 50 as in the versions 1 and 2. Make it again",
    "short": "not a whole capture: it ends after {} bytes, in its header or before the end that the header names. Record or copy it again",
    "padding": "not a capture: byte {}, the last one of a lane, has ones after the end of the lane. Make it again",
    "trailing": "not a capture: byte {} and the following ones come after the end that the header names. Record or copy it again",
}


def find(named: str | None = None) -> Path:
    """Returns the path of the program: the one in `named` or in VABGROT_PROGRAM, the one that was built or installed with the tools, or
    the one on the PATH. If there is none, a checkout builds it. Raises Refused if that fails."""
    named = named or os.environ.get("VABGROT_PROGRAM")
    path = Path(named or place.PROGRAM)
    if path.is_file() and os.access(path, os.X_OK):
        return path
    found = not named and shutil.which("vabgrot")
    if found:
        return Path(found)
    if named or not building.made("program", path):
        raise Refused(f"there is no program {path}. {building.how('program')}, or VABGROT_PROGRAM names one")
    return path
