#!/usr/bin/python3
"""Writes the lists of commands, options and statuses from docs/guide/commands.toml: those of the help of ./vabgrot and of the man page.
Each list is between a line with `made by docs/commands.py: NAME` and a line with `end of what is made`.

    docs/commands.py            writes the lists
    docs/commands.py --check    names the files with old lists and writes nothing; the status is 1 if there are any
    docs/commands.py --words    prints the words of each command, and of `make` with each option, one per line
"""

import argparse
import re
import sys
import textwrap
import tomllib
from itertools import groupby
from pathlib import Path
from typing import Any

Entry = dict[str, Any]  # a command, an option or a status of the file

TOP = Path(__file__).resolve().parents[1]
DATA: dict[str, list[Entry]] = tomllib.loads((TOP / "docs" / "guide" / "commands.toml").read_text("utf-8"))
COMMANDS, OPTIONS, STATUSES, OWN = (DATA[name] for name in ("command", "option", "status", "own_status"))
FILES = ("docs/guide/vabgrot.1", "vabgrot")
BLOCK = re.compile(r"(?ms)(^[^\n]*made by docs/commands\.py: (\w+)[^\n]*\n)(.*?)(^[^\n]*end of what is made)")
WIDTH, INDENT = 118, 22  # of the help's lines
TAKES = " ".join(f"[{option['words']}]" for option in OPTIONS)


def filled(head: str, text: str) -> str:
    """An entry of the help: a head with its text beside it, or below it if the head is long."""
    lines = textwrap.indent(textwrap.fill(text, WIDTH - INDENT, break_on_hyphens=False), " " * INDENT)
    return (f"  {head}\n{lines}" if len(head) > INDENT - 3 else f"  {head}".ljust(INDENT) + lines[INDENT:]) + "\n"


def shell_function(name: str, text: str) -> str:
    """A function of bash that prints a text."""
    return f"{name}() {{\n  cat <<'EOT'\n{text}EOT\n}}\n"


def help_commands() -> str:
    entries, takes = [], f" {TAKES}"
    for it in COMMANDS:
        head = it["words"]
        if it.get("has_options"):
            head, takes = head + takes, " .."
        entries.append(filled(head, f"Reads {it['reads']} and writes {it['writes']}. {it.get('also', '')}"))
    return shell_function("say_commands", "".join(entries))


def status_lines(statuses: list[Entry]) -> str:
    return "".join(f"  {it['number']:<5}{it['what']}\n" for it in statuses).replace("`", "")


def help_statuses() -> str:
    own = "Only this script ends with:\n" + status_lines(OWN)
    return shell_function("say_statuses", "Status:\n" + status_lines(STATUSES)) + shell_function("say_own_statuses", own)


def roff(text: str, letters: str) -> str:
    """A text in roff: code is bold, and the given placeholder letters are italic."""
    text = text.replace("\\", "\\e").replace("-", "\\-")
    text = re.sub(r"`([^`]*)`", r"\\fB\1\\fR", text)
    return re.sub(rf"(?<![\w\\])([{letters}])(?!\w)", r"\\fI\1\\fR", text) if letters else text


def sentences(text: str, more: str = "", words: str = "") -> str:
    """A sentence of the man page, and more sentences; `words` contains the placeholder letters."""
    letters = "".join(re.findall(r"(?<!\w)[A-Z](?!\w)", words))
    text = text[0].upper() + text[1:]
    return roff(f"{text}.\n{more}\n" if more else f"{text}.\n", letters)


def bold_words(words: str) -> str:
    """The words of a command: literal words are bold, placeholders are italic."""
    typed = re.compile(r"(-*[a-z]+( [a-z]+)*)")
    parts = re.split(r"(?<!\w)([A-Z])(?!\w)", words)
    return "".join(rf"\fI{it}\fR" if at % 2 else typed.sub(r"\\fB\1\\fR", it).replace("-", "\\-") for at, it in enumerate(parts))


def man_synopsis() -> str:
    lines = []
    for _, group in groupby(COMMANDS, lambda it: str(it["words"]).split()[0]):
        forms = list(group)
        takes = "".join(f" [{bold_words(it['words'])}]" for it in OPTIONS if forms[0].get("has_options"))
        lines.append("\\fBvabgrot\\fR " + " | ".join(bold_words(it["words"]) for it in forms) + f"{takes}\n")
    return ".nf\n" + "".join(lines) + "\\fBvabgrot help\\fR | \\fBvabgrot \\-\\-version\\fR\n.fi\n"


def man_commands() -> str:
    entries = []
    for it in COMMANDS:
        means = f"Its words: {it['words_mean']}." if ":" in it["words"] else f"{it['words_mean']}." if "words_mean" in it else ""
        more = "\n".join(part for part in (it.get("also", ""), means, it.get("more", "")) if part)
        text = sentences(f"reads {it['reads']} and writes {it['writes']}", more, it["words"])
        entries.append(f".TP\n{bold_words(it['words'])}\n{text}")
    return "".join(entries)


def man_options() -> str:
    return "".join(f".TP\n{bold_words(it['words'])}\n{sentences(it['what'], words=it['words'])}" for it in OPTIONS)


def man_statuses() -> str:
    entries = []
    for it in STATUSES:
        line = f"Standard error has the line {it['line']}." if "line" in it else ""
        more = "\n".join(part for part in (line, it.get("more", "")) if part)
        entries.append(f".TP\n.B {it['number']}\n{sentences(it['what'], more)}")
    return "".join(entries)


def man_ends() -> str:
    """When each command ends with status 1, 3 and 7."""
    entries = []
    for it in COMMANDS:
        ends = [f"{number} if {it[end]}" for number, end in ((1, "one"), (3, "three"), (7, "seven")) if end in it]
        if ends:
            more = "\n".join(f"{end}." for end in ends[1:])
            entries.append(f".TP\n{bold_words(it['words'])}\n{sentences(ends[0], more, it['words'])}")
    return "".join(entries)


MAKERS = [help_commands, help_statuses, man_synopsis, man_commands, man_options, man_statuses, man_ends]
MADE = {maker.__name__: maker for maker in MAKERS}


def print_words() -> None:
    for it in COMMANDS:
        print(it["words"])
        for option in OPTIONS if it.get("has_options") else ():
            print(it["words"], option["words"])


def make(is_check: bool) -> int:
    """Writes the lists, or only compares them. Returns the status."""
    old = []
    for path in (TOP / name for name in FILES):
        text = path.read_text("utf-8")
        made = BLOCK.sub(lambda block: block[1] + MADE[block[2]]() + block[4], text)
        if made != text:
            old.append(path)
            if not is_check:
                path.write_text(made, "utf-8")
    for path in old:
        print(f"{path.relative_to(TOP)}: " + ("its lists are old: run docs/commands.py" if is_check else "written"))
    return 1 if old and is_check else 0


def main() -> int:
    parser = argparse.ArgumentParser(description=__doc__, formatter_class=argparse.RawDescriptionHelpFormatter)
    parser.add_argument("--check", action="store_true", help="name the files with old lists and write nothing")
    parser.add_argument("--words", action="store_true", help="print the words of each command and write nothing")
    args = parser.parse_args()
    if args.words:
        print_words()
        return 0
    return make(args.check)


if __name__ == "__main__":
    sys.exit(main())
