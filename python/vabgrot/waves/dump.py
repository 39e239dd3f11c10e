"""Reads value change dumps of simulations (IEEE 1364-2005, clause 18), and FST files with gtkwave's fst2vcd: variables and changes."""

import difflib
import re
import subprocess
from collections.abc import Container, Iterable, Iterator
from pathlib import Path
from typing import NamedTuple

from vabgrot.errors import Refused

PREFIXES = {"": 1, "m": 1e-3, "u": 1e-6, "n": 1e-9, "p": 1e-12, "f": 1e-15}
MOST_NAMES = 8  # the most names that an error lists
RANGE = re.compile(r"\[-?\d+:-?\d+\]$")  # the range of a vector; some simulators write no space before it


class Variable(NamedTuple):
    """A variable of a dump: its path (scopes and name, joined by dots), its code, and its number of bits."""

    path: str
    code: str
    width: int

    @property
    def name(self) -> str:
        return self.path.rpartition(".")[2]


class Change(NamedTuple):
    """A change of the variable with this code, at a time. The digits are 0, 1, x and z, the highest bit first. Without a code, it is a
    new time."""

    time: int
    code: str | None
    digits: str


def lines_of(path: str | Path) -> Iterator[str]:
    """Yields the lines of a value change dump. `fst2vcd` converts an FST file first."""
    with open(path, encoding="ascii", errors="replace") as file:
        if Path(path).suffix.lower() != ".fst":
            yield from file
            return
    words, nothing = ["fst2vcd", "-f", str(path)], subprocess.DEVNULL
    try:
        process = subprocess.Popen(words, stdout=subprocess.PIPE, stderr=nothing, encoding="ascii", errors="replace")
    except FileNotFoundError:
        raise Refused(f"{path}: `fst2vcd` of Debian's package gtkwave is wanted to read it, and is missing") from None
    with process:
        assert process.stdout
        yield from process.stdout
    if process.returncode:
        raise Refused(f"{path}: fst2vcd ends with status {process.returncode}: it is no FST file, or a broken one")


class Dump:
    """A dump: its variables, and `scale`, the unit of time in seconds (None if not given). The changes can be read once."""

    def __init__(self, path: str | Path) -> None:
        self.path = path
        self.words = (word for line in lines_of(path) for word in line.split())
        self.variables: list[Variable] = []
        self.scopes: list[str] = []
        self.scale: float | None = None
        self.read_header()

    def read_header(self) -> None:
        """Reads the header, up to the changes. Raises Refused if there are none."""
        for word in self.words:
            if word == "$enddefinitions":
                return
            if not word.startswith("$"):
                continue
            body = []
            for part in self.words:
                if part == "$end":
                    break
                body.append(part)
            self.take(word, body)
        raise Refused(f"{self.path}: no value change dump: it has no $enddefinitions")

    def take(self, word: str, body: list[str]) -> None:
        """Takes the words between a keyword of the header and its $end."""
        if word == "$timescale":
            scale = re.fullmatch(r"(\d+)([munpf]?)s", "".join(body))
            self.scale = int(scale[1]) * PREFIXES[scale[2]] if scale else None
        elif word == "$scope":
            self.scopes.append(body[-1] if body else "")
        elif word == "$upscope" and self.scopes:
            self.scopes.pop()
        elif word == "$var" and len(body) >= 4 and body[1].isdecimal():
            name = RANGE.sub("", body[3])
            self.variables.append(Variable(".".join([*self.scopes, name]), body[2], int(body[1])))

    def changes(self, codes: Container[str]) -> Iterator[Change]:
        """Yields each new time, and the changes of the variables with these codes. Words may be divided over lines in any way. Raises
        Refused if the time decreases."""
        now, words = 0, self.words
        for word in words:
            head = word[0]
            if head == "#":
                if not word[1:].isdecimal() or int(word[1:]) < now:
                    raise Refused(f"{self.path}: `{word[:20]}` is no time behind {now}")
                now = int(word[1:])
                yield Change(now, None, "")
            elif head in "01xXzZ":
                if (code := word[1:] or next(words, "")) in codes:
                    yield Change(now, code, head)
            elif head in "bBrRsS":  # a code may begin with $, like a keyword
                if (code := next(words, "")) in codes and head in "bB":
                    yield Change(now, code, word[1:])
            elif word == "$comment":
                any(part == "$end" for part in words)  # skips to the $end
            elif head != "$":
                raise Refused(f"{self.path}: `{word[:20]}` is no change of a variable")

    def find(self, word: str) -> Variable:
        """Returns the variable with this path. An unambiguous end of a path is enough. Raises Refused if there is none or several."""
        same = {it.code: it for it in reversed(self.variables) if it.path == word}
        found = same or {it.code: it for it in reversed(self.variables) if it.path.endswith(f".{word}")}
        if len(found) == 1:
            return found.popitem()[1]
        if found:
            raise Refused(f"{self.path}: `{word}` names {len(found)} variables: {some(sorted(it.path for it in found.values()))}")
        dots = word.count(".") + 1
        endings = {".".join(it.path.split(".")[-dots:]): it.path for it in reversed(self.variables)}
        near = [endings[name] for name in difflib.get_close_matches(word, endings, MOST_NAMES, 0.5)]
        names = f"; near it are {some(near)}" if near else f"; there are {some(it.path for it in self.variables)}"
        raise Refused(f"{self.path}: there is no variable `{word}`{names}")


def some(names: Iterable[str]) -> str:
    """Returns the first few names as text."""
    each = list(dict.fromkeys(names))
    return ", ".join(each[:MOST_NAMES]) + (" and others" if len(each) > MOST_NAMES else "")
