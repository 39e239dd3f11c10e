"""The tools. Each is a module with `parser()`, which returns its argument parser, and `main(argv)`, which returns its exit status."""

import contextlib
import importlib
import os
import signal
import sys
from collections.abc import Iterator, Sequence

from vabgrot.errors import missing

NAMES = (
    *("characters", "compare", "conform", "content", "errors", "lanes", "packets", "page", "pictures"),
    *("report", "slice", "sound", "stream", "survey", "timing", "watch", "waves"),
)
REFUSED = 3


@contextlib.contextmanager
def ended_by_the_keyboard() -> Iterator[None]:
    """Lets Ctrl-C end the process at once while modules are imported, as it ends the program."""
    before = signal.getsignal(signal.SIGINT)
    if before is signal.default_int_handler:
        signal.signal(signal.SIGINT, signal.SIG_DFL)
    try:
        yield
    finally:
        signal.signal(signal.SIGINT, before)


def start(name: str, argv: Sequence[str] | None = None) -> int:
    """Runs a tool with `argv`, or with the arguments of the command line. Returns its exit status, which is 3 if a package is missing. A
    closed standard input counts as empty."""
    if sys.stdin is None:
        sys.stdin = open(os.devnull, encoding="ascii")
    if sys.stdout is None:
        print(f"{name}: standard output is closed", file=sys.stderr)
        return REFUSED
    try:
        with ended_by_the_keyboard():
            tool = importlib.import_module(f"vabgrot.tools.{name}")
    except ModuleNotFoundError as why:
        said = missing(why)
        if said is None:
            raise
        print(f"{name}: {said}", file=sys.stderr)
        return REFUSED
    status: int = tool.main(argv)
    return status
