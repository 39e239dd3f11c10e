"""Writes files completely or not at all."""

import contextlib
import errno
import itertools
import os
import shutil
from collections.abc import Iterator
from pathlib import Path
from typing import IO, Any

NUMBERS = itertools.count()


@contextlib.contextmanager
def naming(path: str | Path, *known: str | Path) -> Iterator[None]:
    """Makes system errors name `path` if they name no file (for example "disk full") or one of the files `known`."""
    try:
        yield
    except OSError as why:
        if why.filename is not None and why.filename not in map(str, known):
            raise
        raise OSError(why.errno or errno.EIO, why.strerror or str(why), str(path)) from None


@contextlib.contextmanager
def replacing(path: str | Path, mode: str = "wb", **words: Any) -> Iterator[IO[Any]]:
    """Opens a file for writing, and replaces `path` with it at the end.

    If anything fails, `path` is unchanged, no temporary file is left, and the error names `path`. Devices and pipes are written directly.
    `words` are passed to `open`."""
    if os.path.exists(path) and not os.path.isfile(path):
        with naming(path), open(path, mode, **words) as file:
            yield file
        return
    target = Path(os.path.realpath(path))
    beside = target.with_name(f".vabgrot.{os.getpid()}.{next(NUMBERS)}")
    try:
        with naming(path, beside):
            with open(beside, mode, **words) as file:
                yield file
            if target.exists():
                shutil.copymode(target, beside)
            os.replace(beside, target)
    finally:
        beside.unlink(missing_ok=True)
