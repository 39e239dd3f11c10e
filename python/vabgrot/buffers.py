"""What the package takes as bytes, for type checkers too; without an import of NumPy."""

from __future__ import annotations

import array
import mmap
from typing import TYPE_CHECKING, Any, TypeAlias, cast

if TYPE_CHECKING:
    import numpy as np
    import numpy.typing as npt

Buffer: TypeAlias = "bytes | bytearray | memoryview | mmap.mmap | array.array[int] | npt.NDArray[np.uint8]"
Words: TypeAlias = "npt.NDArray[np.uint16]"


def view_of(given: Buffer, what: str) -> memoryview:
    """The bytes of a buffer. Raises TypeError if it is none, or has other items."""
    view = memoryview(cast(Any, given))
    if view.format not in ("B", "b", "c"):
        raise TypeError(f"{what} bytes, eight bits each, and not items of the format {view.format!r}")
    return view
