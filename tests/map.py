#!/usr/bin/env python3
"""Prints what is in the crates, from their sources: code, definitions, lemmas and laws. Crates are listed lowest first.

    tests/map.py [CRATE ..]           each file of these crates (or of all): what it contains and which names it declares
    tests/map.py --crates [CRATE ..]  a table of these crates: what each is for, what a caller may rely on, and how it works
    tests/map.py --laws [CRATE ..]    the laws of these crates: what each says
    tests/map.py --check              checks that each file begins with a comment that says what it contains, and that every name exists
                                      that a document cites

The last line of a check is 'N passed, M failed', counting files and names. The exit status is 1 if one failed, and 2 if there is no such
crate."""
import itertools
import re
import sys
from collections.abc import Iterator
from functools import cache
from pathlib import Path

TOP = Path(__file__).resolve().parents[1]
DOCS = TOP / "docs"
WAY = DOCS / "proof" / "THEOREM.md"
PAGES = (WAY, DOCS / "proof" / "PROVED.md", DOCS / "dev" / "ARCHITECTURE.md", DOCS / "dev" / "DEVELOPING.md", DOCS / "dev" / "DECISIONS.md")
STEP = re.compile(r"(?<![\w/])(\w+)/([\w/]+)(\.rt)?:\s+(\w[\w-]*)")  # `crate/File: lemma`, `crate/file.rt: name`
SHAPES = {("crate", "File", "", "lemma"), ("crate", "file", ".rt", "name")}  # the page explains the notation with these two
CODE = re.compile(r"`([^`\n]+)`")
PATH = re.compile(r"[a-z]\w*(::\w+)+")
NAME = re.compile(r"(?=\w*[a-z])(\w+_\w+|[A-Z]\w*[A-Z]\w*|[A-Z][a-z]+[A-Z]\w*)")  # of two words or more, so never plain text
PUBLIC = {
    ".rt": re.compile(r"(?m)^(?:    )?pub (?:const |unsafe )*(?:fn|struct|enum|trait|type|const|static) (\w+)"),
    ".antt": re.compile(r"(?m)^(?:(?:abbrev|unfoldable) )?pub (?:(?:record|data) )?([\w-]+)"),
}
DECLARED = {
    ".rt": re.compile(
        r"(?m)\b(?:fn|struct|enum|trait|type|const|static|mod|let|ghost) (\w+)|(?:ensures|requires) (\w+) \{"
        r"|^\s+(?:pub(?:\(crate\))? )?(\w+)(?:: |[,({])"
    ),
    ".antt": re.compile(r"(?m)^\s*(?:(?:abbrev|unfoldable) )?(?:pub )?(?:(?:record|data) )?([\w-]+)(?= :| \w* ?:|$| [({])"),
}
LAW = re.compile(r"(?m)((?:^/// .*\n)+)pub fn (\w+)\(\)\n(?:    .*\n)+\{\}")
LEAD = {".rt": "//!", ".antt": "--"}


@cache
def text_of(path: Path) -> str:
    return path.read_text(encoding="utf-8")


@cache
def crates() -> dict[str, str]:
    """Returns the crates in their order, each with the crates that it uses."""
    lines = (re.match(r"(\w+)[^:\n]*:(.*)", line) for line in text_of(TOP / "crates.txt").splitlines() if not line.startswith("#"))
    return {line[1]: line[2].strip() for line in lines if line}


def files(crate: str) -> Iterator[Path]:
    """Yields the files of a crate that begin with a comment: code, definitions and lemmas, but no proofs of single functions."""
    top = TOP / "crates" / crate
    proofs = sorted(path for path in (top / "proofs").glob("*.antt"))
    below = (path for file in proofs for path in sorted(file.with_suffix("").glob("*.antt")))  # parts of a file that only names them
    for path in (*sorted((top / "src").rglob("*.rt")), *sorted((top / "specs").glob("*.antt")), *proofs, *below):
        if any(line.strip() and not re.match(r"(pub )?mod ", line) for line in text_of(path).splitlines()):
            yield path


def head_of(path: Path) -> list[str]:
    """Returns the paragraphs of a file's first comment, each as one line. The list is empty if the file begins without a comment."""
    mark = LEAD[path.suffix]
    lines = itertools.takewhile(lambda line: line.startswith(mark), text_of(path).splitlines())
    text = "\n".join(line.removeprefix(mark).strip() for line in lines)
    return [" ".join(part.split()) for part in text.split("\n\n") if part.strip()]


def said(path: Path) -> str:
    """Returns what a file contains: the first paragraph of its first comment, or nothing."""
    return next(iter(head_of(path)), "")


def purpose_of(crate: str) -> str:
    """Returns what a crate is for, what a caller may rely on, and how it works: the first two paragraphs of its root file."""
    source = TOP / "crates" / crate / "src"
    root = source / "lib.rt"
    return " ".join(head_of(root if root.is_file() else source / "main.rt")[:2])


def laws(crate: str) -> Iterator[tuple[str, str]]:
    """Yields the path of each law of a crate, and what the law says."""
    for path in sorted((TOP / "crates" / crate / "src").glob("*.rt")):
        module = "" if path.stem == "lib" else f"{path.stem}::"
        for comment, name in LAW.findall(text_of(path)):
            yield f"{crate}::{module}{name}", " ".join(line.removeprefix("///").strip() for line in comment.splitlines())


def print_map(names: list[str]) -> None:
    for crate in names:
        print(f"\n{crate}: uses {crates()[crate] or 'no other crate'}")
        for path in files(crate):
            declared = ", ".join(dict.fromkeys(PUBLIC[path.suffix].findall(text_of(path))))
            print(f"  {path.relative_to(TOP / 'crates' / crate)}: {said(path)}" + (f"\n      {declared}" if declared else ""))


def print_crates(names: list[str]) -> None:
    print("| crate | what it is for, what a caller may rely on, how it works |\n|---|---|")
    for crate in names:
        if not crate.endswith("_tests"):
            print(f"| `{crate}` | {purpose_of(crate)} |")


def print_laws(names: list[str]) -> None:
    for path, law in itertools.chain.from_iterable(map(laws, names)):
        print(f"{path}: {law}")


def stands(crate: str, file: str, is_code: str, name: str) -> bool:
    """Returns whether the crate's file has a function or a lemma of that name."""
    path = TOP / "crates" / crate / (f"src/{file}.rt" if is_code else f"proofs/{file}.antt")
    head = rf"(?m)^\s*(pub(\(crate\))? )?fn {name}\b" if is_code else rf"(?m)^pub {name} :"
    return path.is_file() and re.search(head, text_of(path)) is not None


@cache
def declared(crate: str) -> frozenset[str]:
    """Returns all names that a crate declares, and those of its modules, files and tests."""
    names = {crate}
    for path in (TOP / "crates" / crate).rglob("*"):
        names.add(path.stem)
        if path.suffix in DECLARED and "out" not in path.parts:
            names |= {name for found in DECLARED[path.suffix].finditer(text_of(path)) for name in found.groups() if name}
    return frozenset(names)


def elsewhere() -> frozenset[str]:
    """Returns the names of tools and tests: of their files, and those inside them."""
    folders = (TOP / name for name in ("tools", "python", "tests", "fuzz", "bench", "docs", ".ci"))
    files = [path for folder in folders for path in folder.rglob("*") if path.suffix in ("", ".py", ".c") and path.is_file()]
    here = Path(__file__).resolve()
    texts = (path.read_text("utf-8", "ignore") for path in files if path != here)
    words = {word for text in texts for word in re.findall(r"\w*_\w+|[A-Z]\w+", text)}
    lists = text_of(TOP / "vabgrot") + text_of(TOP / "crates.txt")
    return frozenset(words | {path.stem for path in files} | set(re.findall(r"\w*_\w+", lists)))


def cited(page: Path) -> Iterator[str]:
    """Yields the names of code, definitions and lemmas that a document cites: paths, and single names of two words or more."""
    for code in CODE.findall(text_of(page)):
        if PATH.fullmatch(code) or NAME.fullmatch(code):
            yield code


def is_there(name: str, others: frozenset[str]) -> bool:
    crate, _, rest = name.partition("::")
    last = name.rpartition("::")[2]
    if rest and crate in crates():
        return last in declared(crate)
    return last in others or any(last in declared(crate) for crate in crates())


def check() -> int:
    paths = [path for crate in crates() for path in files(crate)]
    faults = [f"{path.relative_to(TOP)}: it does not begin with a comment that says what it contains" for path in paths if not said(path)]
    steps = sorted(set(STEP.findall(text_of(WAY))) - SHAPES)
    gone = (step for step in steps if not stands(*step))
    faults += [f"{WAY.relative_to(TOP)}: {crate}/{file}{end} has no {name}" for crate, file, end, name in gone]
    names, others = sorted({(page, name) for page in PAGES for name in cited(page)}), elsewhere()
    faults += [f"{page.relative_to(TOP)}: there is no `{name}`" for page, name in names if not is_there(name, others)]
    print("".join(f"{fault}\n" for fault in faults) + f"{len(paths) + len(steps) + len(names) - len(faults)} passed, {len(faults)} failed")
    return 1 if faults else 0


def main(words: list[str]) -> int:
    if words == ["--check"]:
        return check()
    options = {"--crates": print_crates, "--laws": print_laws}
    show = options.get(words[0], print_map) if words else print_map
    names = words if show is print_map else words[1:]
    unknown = [name for name in names if name not in crates()]
    if unknown:
        print(f"map.py: there is no crate {unknown[0]}", file=sys.stderr)
        return 2
    show(names or list(crates()))
    return 0


if __name__ == "__main__":
    sys.exit(main(sys.argv[1:]))
