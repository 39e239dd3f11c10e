#!/usr/bin/env python3
"""Prints what a reader of a theorem has to believe: every definition that it uses, from the crates' folders specs/, lowest crate first.

    tests/believed.py [THEOREM ..]

A theorem is a field of the record `Promises` in crates/hdmi_cli/specs/Theorem.antt; the default is `headline`. Each line names a
definition and repeats the comment above it. The last line counts the definitions. A type that code declares is named with its file.
The list may contain a few too many, because it follows the imported names only. The exit status is 2 if there is no such theorem."""
import re
import sys
from collections.abc import Iterator
from dataclasses import dataclass, field
from functools import cache
from pathlib import Path

TOP = Path(__file__).resolve().parents[1]
THEOREMS = ("hdmi_cli", "Theorem")
RECORD = "Promises"
NAME = re.compile(r"[A-Za-z_][\w-]*")
HEAD = re.compile(r"(?:(?:abbrev|unfoldable) )?(?:pub )?(?:(?:record|data) )?([A-Za-z_][\w-]*)")
IMPORT = re.compile(r"use Rattle\.([\w.]+?)\.\{([^}]*)\}")
FIELD = re.compile(r"\n  pub (\w+) :")
MEMBER = re.compile(r"(?m)^\s+(?:pub )?([\w-]+) :")  # a field of a record, a constructor of data
NO_NAMES = re.compile(r"--.*|\.[a-z][\w-]*|(?m:^\s+pub [\w-]+ :)")  # comments, fields that are read, fields that are declared


@dataclass(frozen=True, order=True)
class Place:
    """The place of a definition: its crate, its file (`src/FILE` for a type that code declares), and its name."""

    crate: str
    file: str
    name: str


@dataclass
class Definition:
    """A definition: its text and the comment above it."""

    text: str
    comment: str


@dataclass
class Specs:
    """A file of definitions: its own ones, the type of each constructor, and the places of the names that it imports."""

    definitions: dict[str, Definition] = field(default_factory=dict)
    owners: dict[str, str] = field(default_factory=dict)
    imported: dict[str, Place] = field(default_factory=dict)


def place_of(crate: str, file: str, name: str) -> Place:
    """Returns the place of an imported name. A type that code declares, and its variants, are in the file of that code."""
    code = re.fullmatch(r"declared\.(.+)\.(\w+?)(\.TheVariants)?", file)
    return Place(crate, f"src/{code[1].replace('.', '/')}", code[2]) if code else Place(crate, file, name)


def imports_of(text: str) -> Iterator[tuple[str, Place]]:
    """Yields the names that a file imports from crates of the repository, each with its place."""
    for path, names in IMPORT.findall(text):
        crate, _, file = path.partition(".specs.")
        for name in (it.strip() for it in names.split(",") if it.strip()):
            own, _, other = name.partition(" as ")
            yield (other or own), place_of(crate, file, own)


def blocks_of(text: str) -> Iterator[tuple[str, str]]:
    """Yields each block of lines without a blank one, after the comment above it."""
    for block in re.split(r"\n\s*\n", text):
        lines = block.splitlines()
        at = next((i for i, line in enumerate(lines) if not line.startswith("--")), len(lines))
        comment = " ".join(line.removeprefix("--").strip() for line in lines[:at])
        yield comment, "\n".join(lines[at:])


@cache
def specs_of(crate: str, file: str) -> Specs:
    """Reads a file of definitions. The result is empty if there is no such file (a library of the kit, or a type that code declares)."""
    path = TOP / "crates" / crate / "specs" / (file.replace(".", "/") + ".antt")
    found = Specs()
    if not path.is_file():
        return found
    text = path.read_text(encoding="utf-8")
    found.imported.update(imports_of(text))
    for comment, lines in blocks_of(text):
        head = HEAD.match(lines)
        if head and not lines.startswith("use "):
            known = found.definitions.get(head[1])
            found.definitions[head[1]] = Definition((known.text + "\n" if known else "") + lines, known.comment if known else comment)
            if re.match(r"(pub )?data ", lines):
                found.owners.update((name, head[1]) for name in MEMBER.findall(lines))
    return found


def owner_of(place: Place) -> Place:
    """Returns the definition that a name belongs to: for a constructor its type."""
    return Place(place.crate, place.file, specs_of(place.crate, place.file).owners.get(place.name, place.name))


def cited(place: Place, text: str) -> set[Place]:
    """Returns the definitions that a text of a file names, except those of the kit."""
    specs = specs_of(place.crate, place.file)
    names = set(NAME.findall(NO_NAMES.sub(" ", text)))
    own = {Place(place.crate, place.file, name) for name in names & (specs.definitions.keys() | specs.owners.keys())}
    others = {specs.imported[name] for name in names & specs.imported.keys()}
    return {owner_of(it) for it in own | others if (TOP / "crates" / it.crate).is_dir()} - {place}


def theorem_text(name: str) -> str | None:
    """Returns the text of a theorem, or None if there is no such theorem."""
    crate, file = THEOREMS
    _, _, record = (TOP / "crates" / crate / "specs" / f"{file}.antt").read_text(encoding="utf-8").partition(f"record {RECORD} ")
    parts = FIELD.split(record)
    return dict(zip(parts[1::2], parts[2::2], strict=True)).get(name)


def believed(names: list[str]) -> set[Place] | None:
    """Returns every definition that these theorems use, or None if one of them is no theorem."""
    texts = [theorem_text(name) for name in names]
    if None in texts:
        return None
    left = set().union(*(cited(Place(*THEOREMS, name), text) for name, text in zip(names, texts, strict=True) if text))
    found: set[Place] = set()
    while left:
        place = left.pop()
        found.add(place)
        definition = specs_of(place.crate, place.file).definitions.get(place.name)
        if definition:
            left |= cited(place, definition.text) - found
    return found


def crates() -> list[str]:
    lines = (TOP / "crates.txt").read_text(encoding="utf-8").splitlines()
    return [row[0] for row in (re.match(r"\w+", line) for line in lines) if row]


def print_believed(places: set[Place]) -> None:
    for crate in crates():
        own = sorted(it for it in places if it.crate == crate)
        if own:
            print(f"\n{crate}")
        for place in own:
            definition = specs_of(place.crate, place.file).definitions.get(place.name)
            words = f": {definition.comment}" if definition and definition.comment else ""
            print(f"  {place.file}.{place.name}{words}")
    texts = [specs_of(it.crate, it.file).definitions.get(it.name) for it in places]
    lines = sum(it.text.count("\n") + 1 for it in texts if it)
    print(f"\n{len(places)} definitions of {lines} lines in {len({it.crate for it in places})} crates")


def main(words: list[str]) -> int:
    places = believed(words or ["headline"])
    if places is None:
        print(f"believed: not all are theorems of crates/hdmi_cli/specs/Theorem.antt: {' '.join(words)}", file=sys.stderr)
        return 2
    print_believed(places)
    return 0


if __name__ == "__main__":
    sys.exit(main(sys.argv[1:]))
