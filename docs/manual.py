#!/usr/bin/python3
"""Writes what a shell shows of each tool: its man page, and the completion of its words in bash and zsh. All of it comes from the tool's
`parser()`. The completion of `vabgrot` itself comes from docs/guide/commands.toml.

    docs/manual.py PREFIX                   writes below PREFIX/share
    docs/manual.py PREFIX --final /usr      the same, for files that are moved to /usr later

It needs the Debian packages python3-argparse-manpage and python3-shtab. Without them it writes nothing, and its status is 2."""

import argparse
import importlib
import re
import sys
import tomllib
from collections.abc import Iterator
from pathlib import Path

TOP = Path(__file__).resolve().parents[1]
sys.path.insert(0, str(TOP / "python"))

from vabgrot import __version__, command, place, tools  # noqa: E402

COMMANDS = TOP / "docs" / "guide" / "commands.toml"
FILES = re.compile(r"CAPTURE|FILE|IMAGE")  # the operands that name files
FOLDERS = re.compile(r"^DIR")
SUMMARY = re.compile(r"The tool `\w+`: (.*)\.$")
# What shtab 1.5 writes takes the first choice alone.
CHOICES = {
    '_choices"\n': '_choices[@]"\n',
    '-W "${current_action_choices}"': '-W "${current_action_choices// /$IFS}"',
}
SEE = r"\fBvabgrot\fR(1), and TOOLS.md, FORMATS.md and TROUBLESHOOTING.md in {docs}"


def roff(text: str) -> str:
    """A line of text in roff: code is bold."""
    text = text.replace("\\", r"\e").replace("-", r"\-")
    text = re.sub(r"`([^`]*)`", r"\\fB\1\\fR", text)
    return re.sub(r"(?m)^(?=[.'])", r"\\&", text)


def paragraphs(text: str) -> Iterator[str]:
    """The paragraphs of a help text in roff. Indented lines stay as they are."""
    for part in text.split("\n\n"):
        if part.startswith("  "):
            lines = "\n".join(roff(line[2:]) for line in part.splitlines())
            yield f".PP\n.RS 4\n.nf\n{lines}\n.fi\n.RE\n"
        else:
            yield f".PP\n{roff(' '.join(part.split()))}\n"


def usage_of(parser: argparse.ArgumentParser) -> str:
    """The command as a line, and its words as the next one."""
    command = parser.prog
    return roff(f"{command}\n{' '.join(parser.format_usage().split()[1:]).removeprefix(command).strip()}")


def manual_of(name: str, parser: argparse.ArgumentParser) -> str:
    """The man page of a tool."""
    from build_manpages import manpage

    class Formatter(manpage._ManpageFormatter):  # type: ignore[misc]
        """Lets a text flow, instead of ending each line where the help does. A command has a heading of its own."""

        def format_text(self, text: str) -> str:
            return roff(" ".join(text.split())) + "\n"

        def _format_parser(self, parser: argparse.ArgumentParser, name: str) -> list[str]:
            says = "".join(paragraphs(place.named(parser.description or "", has_files=True)))
            options = (self._format_action_group(it, name) for it in parser._action_groups)
            return [f".SS {roff(name)}", f".PP\n.B {usage_of(parser)}\n{says}", *options]

    formatter = parser._get_formatter()
    texts = Formatter(parser.prog, formatter)
    module = sys.modules[f"vabgrot.tools.{name}"]
    summary = SUMMARY.match(" ".join((module.__doc__ or "").split()))
    assert summary, f"vabgrot/tools/{name}.py: its docstring does not begin with: The tool `{name}`: .."
    _, _, statuses = (parser.epilog or "").partition("Status:\n\n")
    statuses, _, examples = statuses.partition("\n\n")
    sections = {
        "NAME": f"{roff(parser.prog)} \\- {roff(summary[1])}\n",
        "SYNOPSIS": f".B {usage_of(parser)}\n",
        "DESCRIPTION": "".join(paragraphs(place.named(parser.description or "", has_files=True))),
        "OPTIONS": "\n".join(texts.format_action_group(it, parser.prog) for it in parser._action_groups),
        "EXIT STATUS": "".join(paragraphs(statuses)),
        "EXAMPLES": "".join(paragraphs(place.named(examples.partition("\n\n")[2], has_files=True))),
        "SEE ALSO": SEE.format(docs=roff(str(place.DOCUMENTS / "docs/guide"))) + "\n",
    }
    head = f'.TH {parser.prog.upper()} 1 "" "Vabgrot {__version__}" "User Commands"\n'
    page = head + "".join(f".SH {heading}\n{text}" for heading, text in sections.items())
    return re.sub(r"\n{2,}", "\n", page)


def parsers_of(parser: argparse.ArgumentParser) -> Iterator[argparse.ArgumentParser]:
    """A parser, and those of its commands."""
    yield parser
    for action in parser._actions:
        if isinstance(action, argparse._SubParsersAction):
            for below in action.choices.values():
                yield from parsers_of(below)


def complete_files(parser: argparse.ArgumentParser) -> None:
    """Lets a shell complete the names of files and folders, which the name of an operand tells. shtab wants choices to be a list."""
    import shtab

    for action in (it for each in parsers_of(parser) for it in each._actions):
        name = str(action.metavar)
        kind = shtab.DIRECTORY if FOLDERS.search(name) else shtab.FILE if action.type is Path or FILES.search(name) else None
        if action.choices and not isinstance(action, argparse._SubParsersAction):
            action.choices = list(action.choices)
        if kind:
            action.complete = kind  # type: ignore[attr-defined]


def front() -> argparse.ArgumentParser:
    """The words of the program, as a parser with a command for each of them."""
    found = argparse.ArgumentParser("vabgrot")
    found.add_argument("--version", action="version", version="", help="print the version")
    known: dict[tuple[str, ...], argparse.ArgumentParser] = {(): found}
    below = {head: parser.add_subparsers() for head, parser in known.items()}
    below[()].add_parser("help", help="lists the commands")
    data = tomllib.loads(COMMANDS.read_text("utf-8"))
    for row in data["command"]:
        words = tuple(re.findall(r"(?<!\S)[a-z]+(?!\S)", row["words"]))
        for at in range(len(words)):
            head, path = words[:at], words[: at + 1]
            if path not in known:
                if head not in below:
                    below[head] = known[head].add_subparsers()
                says = f"reads {row['reads']} and writes {row['writes']}" if path == words else f"{path[-1]} .."
                known[path] = below[head].add_parser(path[-1], help=says, description=says)
        for option in data["option"] if row.get("has_options") else ():
            name, metavar = option["words"].split()
            known[words].add_argument(name, metavar=metavar, help=option["what"])
    return found


def bash_completion(parser: argparse.ArgumentParser) -> str:
    """The completion of a command's words in bash, with all choices of a word."""
    import shtab

    text = str(shtab.complete(parser, "bash"))
    for old, new in CHOICES.items():
        text = text.replace(old, new)
    return text


def write(path: Path, text: str) -> None:
    path.parent.mkdir(parents=True, exist_ok=True)
    path.write_text(text, "utf-8")


def write_all(share: Path, zsh: str) -> None:
    """Writes the pages and the completions of all tools below a folder `share`; `zsh` is the folder in which zsh looks."""
    import shtab

    parsers = {name: importlib.import_module(f"vabgrot.tools.{name}").parser() for name in tools.NAMES}
    for name, parser in parsers.items():
        write(share / f"man/man1/{parser.prog}.1", manual_of(name, parser))
    for parser in (*parsers.values(), front()):
        complete_files(parser)
        write(share / f"bash-completion/completions/{parser.prog}", bash_completion(parser))
        write(share / f"zsh/{zsh}/_{parser.prog}", shtab.complete(parser, "zsh"))


def main() -> int:
    parser = argparse.ArgumentParser(description=__doc__, formatter_class=command.Help)
    parser.add_argument("prefix", metavar="PREFIX", type=Path, help="the folder that gets a folder share")
    parser.add_argument("--final", metavar="PREFIX", type=Path, help="where the files are used (default: the same folder)")
    args = parser.parse_args()
    try:
        import build_manpages  # noqa: F401
        import shtab  # noqa: F401
    except ImportError as why:
        print(f"docs/manual.py: {why}. Install it: apt-get install -y python3-argparse-manpage python3-shtab", file=sys.stderr)
        return 2
    place.IS_INSTALLED = True
    place.DOCUMENTS = (args.final or args.prefix.resolve()) / "share/doc/vabgrot"
    write_all(args.prefix / "share", "vendor-completions" if args.final else "site-functions")
    return 0


if __name__ == "__main__":
    sys.exit(main())
