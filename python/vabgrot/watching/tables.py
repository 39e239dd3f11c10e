"""Tables (CSV) that are written while a link is watched."""

from __future__ import annotations

import contextlib
import csv
from collections.abc import Iterable, Iterator
from pathlib import Path
from typing import Any

from vabgrot.replacing import naming


class Table:
    """A file of rows, which others can read as they come. Errors of it name it."""

    def __init__(self, path: Path, heads: Iterable[str]) -> None:
        self.path = path
        with naming(path):
            self.file = open(path, "w", encoding="utf-8", newline="")
        self.rows = csv.writer(self.file, lineterminator="\n")
        self.write([heads])

    def write(self, rows: Iterable[Iterable[Any]]) -> None:
        """Writes some rows."""
        with naming(self.path):
            self.rows.writerows(rows)
            self.file.flush()

    def close(self) -> None:
        """Ends the file."""
        with naming(self.path):
            self.file.close()


@contextlib.contextmanager
def table_in(path: Path | None, heads: Iterable[str]) -> Iterator[Table | None]:
    """A table in a file; None if none is wanted."""
    if path is None:
        yield None
        return
    with contextlib.closing(Table(path, heads)) as table:
        yield table
