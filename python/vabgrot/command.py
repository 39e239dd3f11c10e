"""The common part of all tools: options, help, and exit statuses."""

import argparse
import contextlib
import errno
import os
import signal
import sys
import textwrap
import threading
from collections.abc import Callable, Iterator
from pathlib import Path

from vabgrot import place
from vabgrot.errors import Refused, Unaligned, missing

DONE, FAULTY, REFUSED = 0, 1, 3
WRONG_WORDS, NOT_READ = "the options are wrong", "the input is refused, or a file cannot be read or written"
WIDTH = 78  # the width of the list of statuses
FULL = (errno.ENOSPC, errno.EDQUOT, errno.EFBIG)  # errors that only writing raises
KEYBOARD = 130  # the exit status after an interrupt from the keyboard


def numbers(text: str, most: int) -> list[int]:
    """Reads numbers separated by commas, each at most `most`. Use it as the type of an argument."""
    parts = text.split(",")
    if not all(part.isdecimal() and int(part) <= most for part in parts):
        raise argparse.ArgumentTypeError(f"{text}: write numbers from 0 to {most}, with commas between them")
    return [int(part) for part in parts]


def statuses(done: str, faulty: str) -> str:
    """Returns the list of a tool's exit statuses for the end of its help."""
    said = {DONE: done, FAULTY: faulty, 2: WRONG_WORDS, REFUSED: NOT_READ}
    lines = (textwrap.fill(f"  {status}  {text}", WIDTH, subsequent_indent=" " * 5) for status, text in said.items() if text)
    return "Status:\n\n" + "\n".join(lines)


class Help(argparse.HelpFormatter):
    """Fills each paragraph of a text, but keeps the lines of indented ones. In an installed tool, commands and files get their installed
    names."""

    def _expand_help(self, action: argparse.Action) -> str:
        return place.named(super()._expand_help(action), has_files=True)

    def _fill_text(self, text: str, width: int, indent: str) -> str:
        parts = place.named(text, has_files=True).split("\n\n")
        return "\n\n".join(it if it.startswith("  ") else super(Help, self)._fill_text(it, width, indent) for it in parts)


def parser(name: str, text: str, faulty: str = "", examples: str = "", done: str = "done") -> argparse.ArgumentParser:
    """Returns the argument parser of a tool. `done` and `faulty` describe the statuses 0 and 1. `examples` are lines of commands."""
    epilog = statuses(done, faulty)
    if examples:
        head = "Examples:" if place.IS_INSTALLED else "Examples, at the top of the repository:"
        epilog += f"\n\n{head}\n\n" + textwrap.indent(examples, "  ")
    name = f"vabgrot-{name}" if place.IS_INSTALLED else name
    found = argparse.ArgumentParser(prog=name, description=text, epilog=epilog, formatter_class=Help)
    found.add_argument("--version", action=place.Version)
    return found


def say(*lines: str) -> None:
    """Prints lines to standard error."""
    for line in lines:
        print(line, file=sys.stderr)


def add_capture(words: argparse.ArgumentParser) -> None:
    """Adds the operand CAPTURE."""
    words.add_argument("capture", metavar="CAPTURE", type=Path, help="the capture, as `make`, `damage` or `lanes pack` writes it")


def add_dvi(words: argparse._ActionsContainer) -> None:
    """Adds the option `--dvi`."""
    words.add_argument("--dvi", action="store_true", help="read a DVI source, which has no guard bands and no data islands")


def add_json(words: argparse.ArgumentParser) -> None:
    """Adds the option `--json`."""
    words.add_argument("--json", action="store_true", help="print JSON instead of text")


def end_output() -> None:
    """Flushes standard output. If that fails, the rest is dropped, so that Python does not try again."""
    try:
        sys.stdout.flush()
    except OSError:
        with open(os.devnull, "wb") as nothing:
            os.dup2(nothing.fileno(), sys.stdout.fileno())


@contextlib.contextmanager
def ended_by_pipes() -> Iterator[None]:
    """Lets a closed pipe end the process, as it ends the program."""
    is_main = threading.current_thread() is threading.main_thread()  # only the main thread may set signal handlers
    before = signal.signal(signal.SIGPIPE, signal.SIG_DFL) if is_main else None
    try:
        yield
    finally:
        end_output()
        if is_main:
            signal.signal(signal.SIGPIPE, before)


def run(name: str, work: Callable[[], int]) -> int:
    """Runs a tool and returns its exit status. After a refusal or a missing Python package, it prints one line to standard error and
    returns 3. If a capture is not aligned, it returns 1."""
    try:
        with ended_by_pipes():
            try:
                status = work()
            except SystemExit:
                sys.stdout.flush()
                raise
            sys.stdout.flush()
            return status
    except Refused as why:
        said, refused = f"{why}", FAULTY if isinstance(why, Unaligned) else REFUSED
    except OSError as why:
        refused = REFUSED
        output = "standard output" if why.errno in FULL else None
        said = ": ".join(str(part) for part in (why.filename or output, why.strerror or str(why)) if part)
    except ModuleNotFoundError as absent:
        said, refused = missing(absent) or "", REFUSED
        if not said:
            raise
    except KeyboardInterrupt:
        return KEYBOARD
    say(f"{name}: {said}")
    return refused
