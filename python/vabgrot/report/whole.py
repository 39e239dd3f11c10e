"""The page that reads a capture by itself: its folder, and the same as one file, which a browser opens from disk."""

from __future__ import annotations

import hashlib
import re
from base64 import b64encode
from collections.abc import Iterator
from pathlib import Path

from vabgrot import building, place
from vabgrot.errors import Refused
from vabgrot.report import words

FOLDER = place.TOP / "page"
SHARED = Path(__file__).resolve().parent / "page"  # what the page of a report has too
MODULE = "vabgrot.wasm"
WORDS = "words.js"  # is made of the tables of this package, wherever the page is
PAGE, WORKER = "page.js", "worker.js"  # modules that nothing else imports
STYLES = ("report.css", "page.css")
SCRIPTS = ("tables.js", "sound.js", "report.js")
IMPORT = re.compile(r'^import (\* as \w+|\{[^}]*\}) from "\./(\w+)\.js";$', re.MULTILINE)
EXPORT = re.compile(r"^export (?=(?:const|class|function\*?) (\w+))", re.MULTILINE)
POLICY = re.compile(r'(<meta http-equiv="Content-Security-Policy" content=")[^"]*(">)')
LINK = re.compile(r'<link rel="stylesheet" href="[\w.]+">\n')
SCRIPT = re.compile(r'<script (?:type="module" )?src="[\w.]+"></script>\n')


def place_of(name: str) -> Path:
    """Where a file of the page is: in its own folder, or in that of the reports."""
    own = FOLDER / name
    return own if own.exists() or name == MODULE else SHARED / name


def read(name: str) -> bytes:
    """A file of the page. Raises Refused where the receiver is missing."""
    if name == WORDS:
        return words.text().encode()
    try:
        return place_of(name).read_bytes()
    except FileNotFoundError:
        if name != MODULE:
            raise
        if not building.made("page", FOLDER / name):
            raise Refused(f"{FOLDER / name}: the receiver of the page is missing. {building.how('page')}") from None
        return place_of(name).read_bytes()


def used(name: str) -> Iterator[str]:
    """The modules that a module stands on, each after those that it stands on itself, and the module."""
    seen: set[str] = set()

    def visit(name: str) -> Iterator[str]:
        if name in seen:
            return
        seen.add(name)
        for found in IMPORT.finditer(read(name).decode()):
            yield from visit(f"{found[2]}.js")
        yield name

    yield from visit(name)


def as_function(name: str, text: str) -> str:
    """A module as a function that is called at once, whose answer is what it exports."""
    stem = name.removesuffix(".js")
    names = ", ".join(EXPORT.findall(text))

    def taken(found: re.Match[str]) -> str:
        return f"const {found[1].removeprefix('* as ').replace(' as ', ': ')} = module_{found[2]};"

    body = EXPORT.sub("", IMPORT.sub(taken, text))
    return f"const module_{stem} = (() => {{\n{body}\nreturn {{ {names} }};\n}})();\n"


def bundled(name: str) -> str:
    """A module with all that it stands on, as one script."""
    parts = (as_function(it, read(it).decode()) for it in used(name))
    return '"use strict";\n' + "".join(parts)


def summed(text: str) -> str:
    """What a policy says of a text that stands in the page."""
    return f"'sha256-{b64encode(hashlib.sha256(text.encode()).digest()).decode()}'"


def policy(scripts: list[str], style: str) -> str:
    """Nothing is loaded; these scripts run, and the worker and the receiver that are within the page."""
    script = " ".join(summed(text) for text in scripts)
    return (
        f"default-src 'none'; script-src {script} 'wasm-unsafe-eval'; worker-src blob:; style-src {summed(style)}; "
        "img-src data: blob:; media-src blob:; base-uri 'none'; form-action 'none'"
    )


def single() -> str:
    """The text of the page as one file. Raises Refused where the receiver is missing."""
    style = "".join(read(name).decode() for name in STYLES)
    shared = "".join(read(name).decode() for name in SCRIPTS)
    scripts = [shared, bundled(PAGE)]
    within = {"worker-text": bundled(WORKER), "module-text": b64encode(read(MODULE)).decode()}
    data = "".join(f'<script type="text/plain" id="{name}">{text}</script>\n' for name, text in within.items())
    run = "".join(f"<script>{text}</script>\n" for text in scripts)
    page = read("index.html").decode()
    page = POLICY.sub(lambda found: found[1] + policy(scripts, style) + found[2], page)
    page = LINK.sub("", SCRIPT.sub("", page))
    return page.replace("</head>", f"<style>{style}</style>\n</head>").replace("</body>", f"{data}{run}</body>")
