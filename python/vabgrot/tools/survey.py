"""The tool `survey`: judges many captures and writes a table."""

import argparse
import csv
import io
import json
import multiprocessing
import os
import signal
import sys
import time
from collections import Counter
from collections.abc import Iterable, Iterator, Sequence
from concurrent.futures import Future, ProcessPoolExecutor, as_completed
from concurrent.futures.process import BrokenProcessPool
from dataclasses import dataclass
from html import escape
from pathlib import Path
from typing import TYPE_CHECKING, Any

from tqdm import tqdm

from vabgrot import command, library
from vabgrot.errors import NoLibrary, Refused
from vabgrot.formats import faults
from vabgrot.replacing import naming, replacing

if TYPE_CHECKING:
    from vabgrot.verdict import Verdict

TEXT = """Judges many captures and writes a table with one row for each: the verdict, and how many faults of each kind the
link and its contents have. The verdict is that of `tools/report` and `tools/conform`.

The tool works on all cores. With --scheduler, the workers of a Dask scheduler judge; they read the captures by their paths.
`dask-scheduler` and `dask-worker HOST:8786` start a scheduler and a worker.

The table is written row by row. If you stop a survey, the next one continues: it keeps the rows of captures that have not
changed. If an alignment was wrong, the capture is read again as `recover relock` reads it. The column `relocked` says so,
and the counts are those of the second reading."""
FAULTY = "done, and a capture is not clean"
CONNECT = "DASK_DISTRIBUTED__COMM__TIMEOUTS__CONNECT"  # Dask's variable
EXAMPLES = """mkdir -p captures
./vabgrot make link < examples/red.link > captures/red.tmc
./vabgrot make content < examples/bars.content > captures/bars.tmc
tools/survey captures -o survey.csv"""
THINGS = ("columns", "lines", "pixels", "islands", "packets", "cut")
FAULTS = (*(kind for kind in faults.LINK if kind not in ("guard", "slip")), "guard")  # in the order of docs/guide/FORMATS.md
CONTENTS = tuple(faults.CONTENT)  # faults that only `recover content` writes
HEAD = ("path", "bytes", "modified", "verdict", "note", *THINGS, "faults", *FAULTS, "contents", *CONTENTS)
HEAD += ("slips", "relocked", "format", "timing", "seconds")
UNTIMED = ("refused", "not aligned", "failed")
Row = dict[str, str | int]  # a row of the table, by column


@dataclass(frozen=True)
class Asked:
    """What to do with each capture: whether to read it as DVI, and whether to measure its timing."""

    is_dvi: bool = False
    timing: bool = False


def row_of(path: str, asked: Asked) -> Row:
    """Returns the verdict on one capture, and the counts of its contents."""
    began = time.monotonic()
    row: Row = {"path": path, "format": ""}
    try:
        found = os.stat(path)
        row |= {"bytes": found.st_size, "modified": found.st_mtime_ns} | judged(Path(path), asked)
    except OSError as why:
        row |= {"verdict": "failed", "note": f"{why.filename or path}: {why.strerror}"}
    return row | {"seconds": f"{time.monotonic() - began:.2f}"}


def judged(path: Path, asked: Asked) -> Row:
    """The verdict on one capture by the package, and its counts."""
    from vabgrot import verdict

    try:
        found = verdict.judge(path, kind="dvi" if asked.is_dvi else None, is_shown=True)
    except NoLibrary as why:
        return {"verdict": "failed", "note": str(why)}
    except Refused as why:
        return {"verdict": "refused", "note": str(why).removeprefix(f"{path}: ")}
    row = counted(found)
    if asked.timing and found.link.is_aligned:
        row |= {"format": found.timings[0].head.text if found.timings else "no rows", "timing": len(found.timing_faults)}
    return row


def counted(found: "Verdict") -> Row:
    """Returns the word, the headline and the counts of a verdict."""
    from vabgrot.events import Kind

    its = found.reading.events
    rows, cuts, kinds = its.of(Kind.LINE), its.of(Kind.CUT), found.link.kinds
    row: Row = {
        "verdict": str(found.word).lower(),
        "note": found.headline,
        "columns": found.reading.columns,
        "lines": len(rows),
        "pixels": int(its.value[rows].sum()),
        "islands": len(its.of(Kind.OPEN)),
        "packets": len(its.of(Kind.PACKET)),
        "cut": int(its.first[cuts[-1]]) if len(cuts) else 0,
        "slips": kinds.pop("slip", 0),
        "relocked": int(found.reading.grammar == "relock"),
    }
    return row | {"faults": kinds.total(), **kinds, "contents": found.contents.total(), **found.contents}


def captures_of(places: Iterable[str]) -> list[str]:
    """Returns the named captures, and the files *.tmc of named folders, each once."""
    paths = []
    for place in map(Path, places):
        if place.is_dir():
            paths += sorted(path for path in place.rglob("*.tmc") if path.is_file())
        elif place.is_file():
            paths.append(place)
        else:
            raise Refused(f"{place}: there is no such file or folder")
    return list(dict.fromkeys(str(path.resolve()) for path in paths))


class Table:
    """The file with the rows. A row is added as soon as it is known."""

    def __init__(self, path: Path, anew: bool) -> None:
        self.path = path
        self.rows: dict[str, Row] = {}
        if path.exists() and not anew:
            self.read()
        self.replace(self.rows.values())
        self.file = open(path, "ab", buffering=0)

    def read(self) -> None:
        """Reads the complete rows of an earlier survey. The last row may be incomplete. Raises Refused if the file is not such a table."""
        text = self.path.read_text("utf-8", "surrogateescape")
        lines = text[: text.rfind("\n") + 1].splitlines()
        rows = csv.DictReader(lines)
        if lines and tuple(rows.fieldnames or ()) != HEAD:
            raise Refused(f"{self.path}: it is no table of a survey, or one with other columns; --anew writes over it")
        for row in rows:
            if None not in row.values() and row["verdict"] != "failed":
                self.rows[row["path"]] = {**row}

    def replace(self, rows: Iterable[Row]) -> None:
        """Replaces all rows atomically."""
        with replacing(self.path, "w", newline="", encoding="utf-8", errors="surrogateescape") as file:
            writer = csv.DictWriter(file, HEAD, restval=0, extrasaction="ignore")
            writer.writeheader()
            writer.writerows(rows)

    def has(self, path: str, asked: Asked) -> bool:
        """Returns whether a capture was judged (with its timing, if required) and has not changed since."""
        row = self.rows.get(path)
        found = os.stat(path)
        if row is None or (row["bytes"], row["modified"]) != (str(found.st_size), str(found.st_mtime_ns)):
            return False
        return not asked.timing or bool(row["format"]) or row["verdict"] in UNTIMED

    def add(self, row: Row) -> None:
        """Appends a row to the file, completely or not at all."""
        self.rows[str(row["path"])] = row
        text = io.StringIO(newline="")
        csv.DictWriter(text, HEAD, restval=0, extrasaction="ignore").writerow(row)
        left = text.getvalue().encode("utf-8", "surrogateescape")
        with naming(self.path):
            size = os.fstat(self.file.fileno()).st_size
            try:
                while left:
                    left = left[self.file.write(left) :]
            except OSError:
                self.file.truncate(size)
                raise

    def ended(self, paths: list[str]) -> list[Row]:
        """Rewrites the table: first the rows of these captures in order, then the rows of other captures that still exist. Returns the
        first ones."""
        self.file.close()
        rows = [{name: self.rows[path].get(name, 0) for name in HEAD} for path in paths if path in self.rows]
        others = [row for path, row in self.rows.items() if path not in set(paths) and os.path.exists(path)]
        self.replace(rows + others)
        return rows


def begin(places: "multiprocessing.SimpleQueue[int]") -> None:
    """Sets up a worker process: its processor, and no reaction to Ctrl-C, which the survey handles."""
    signal.signal(signal.SIGINT, signal.SIG_IGN)
    os.sched_setaffinity(0, {places.get()})


def here(paths: list[str], asked: Asked) -> Iterator[Row]:
    """Yields the rows of captures that this machine judges, as they are ready. There is one process for each processor. All of them are
    started before this returns, so that no thread of this process is copied."""
    context = multiprocessing.get_context("fork")
    places, processors = context.SimpleQueue(), sorted(os.sched_getaffinity(0))
    for place in processors:
        places.put(place)
    pool = ProcessPoolExecutor(min(len(processors), len(paths)), context, begin, (places,))
    waits = {pool.submit(row_of, path, asked): path for path in paths}
    return rows_of(pool, waits)


def rows_of(pool: ProcessPoolExecutor, waits: "dict[Future[Row], str]") -> Iterator[Row]:
    """Yields the rows of captures that wait for a process, as they are ready."""
    try:
        for wait in as_completed(waits):
            try:
                yield wait.result()
            except BrokenProcessPool:
                yield {"path": waits[wait], "verdict": "failed", "note": "a process that judged captures was ended"}
        pool.shutdown()
    except BaseException:
        pool.shutdown(wait=False, cancel_futures=True)
        for child in multiprocessing.active_children():
            child.terminate()
        raise


def row_there(path: str, flags: tuple[bool, bool]) -> Row:
    """Returns the row of a capture on a remote worker. The function is sent without this module's declarations."""
    try:
        return row_of(path, Asked(*flags))
    except ImportError as why:
        return {"path": path, "verdict": "failed", "note": f"the worker lacks the package: {why}"}


def elsewhere(paths: list[str], scheduler: str, asked: Asked) -> Iterator[Row]:
    """Yields the rows of captures that a scheduler's workers judge. If a worker is lost, Dask gives its captures to another one."""
    try:
        import cloudpickle
        import distributed
    except ImportError as why:
        sys.exit(f"survey: --scheduler: {why}. Install it: apt-get install python3-distributed")
    try:
        client: Any = distributed.Client(scheduler, timeout=os.environ.get(CONNECT, "5s"))  # type: ignore[no-untyped-call]
    except (OSError, ValueError) as why:
        raise Refused(f"{scheduler}: no scheduler answers ({str(why).splitlines()[0]}). Start one with `dask-scheduler`") from None
    cloudpickle.register_pickle_by_value(sys.modules[__name__])  # a worker may have the package in another place
    with client:
        flags = (asked.is_dvi, asked.timing)
        waits = {client.submit(row_there, path, flags, pure=False, retries=2): path for path in paths}
        for wait in distributed.as_completed(waits):  # type: ignore[no-untyped-call]
            fault = wait.exception()
            if fault is None:
                yield wait.result()
            else:
                yield {"path": waits[wait], "verdict": "failed", "note": f"{type(fault).__name__}: {fault}"}
            wait.release()


def page(rows: list[Row]) -> str:
    """Returns the table as HTML. Empty columns are left out."""
    totals = Counter(row["verdict"] for row in rows)
    shown = [name for name in HEAD if name != "modified" and any(str(row[name]) not in ("0", "") for row in rows)]
    told = ", ".join(f"{count} {verdict}" for verdict, count in sorted(totals.items()))
    kinds = [str(row["verdict"]).replace(" ", "-") for row in rows]
    cells = "".join(
        f'<tr class="{kind}">' + "".join(f"<td>{escape(str(row[name]))}</td>" for name in shown) + "</tr>\n"
        for kind, row in zip(kinds, rows)
    )
    heads = "".join(f"<th>{name}</th>" for name in shown)
    style = (
        "body{font-family:sans-serif}table{border-collapse:collapse}td,th{border:1px solid #ccc;padding:2px 6px;text-align:right}"
        "td:first-child,th:first-child{text-align:left}.source-wrong{background:#fff3d0}.clean{background:#e4f6e4}"
        ".link-faulty,.not-aligned,.nothing-judged,.refused,.failed{background:#fbdcdc}"
    )
    return (
        f'<!doctype html>\n<html lang="en"><meta charset="utf-8"><title>Survey</title><style>{style}</style>\n'
        f"<h1>{len(rows)} captures: {told}</h1>\n<table><thead><tr>{heads}</tr></thead><tbody>\n{cells}</tbody></table></html>\n"
    )


def plain_of(row: Row) -> dict[str, str | int | float]:
    """Returns a row as a value for JSON, with its counts as numbers."""
    texts = ("path", "verdict", "note", "format")
    return {name: value if name in texts else float(value) if name == "seconds" else int(value) for name, value in row.items()}


def parser() -> argparse.ArgumentParser:
    """Returns the tool's argument parser."""
    found = command.parser("survey", TEXT, FAULTY, EXAMPLES, "done, and every capture is clean")
    text = "a capture, or a folder whose files *.tmc are judged, with those of its folders"
    found.add_argument("places", nargs="+", metavar="DIR-OR-CAPTURE", help=text)
    text = "the table; its name ends in .csv. The same table as a page is written beside it, with .html"
    found.add_argument("-o", dest="table", type=Path, required=True, metavar="FILE.csv", help=text)
    text = "judge on the workers of this Dask scheduler, which find captures by the same paths. It has 5 seconds to answer, or "
    text += f"as many as {CONNECT} says"
    found.add_argument("--scheduler", metavar="HOST:PORT", help=text)
    found.add_argument("--dvi", action="store_true", help="the captures are of DVI sources")
    found.add_argument("--timing", action="store_true", help="also name the video format, and the faults of its timing")
    found.add_argument("--json", action="store_true", help="also print the rows of the captures as JSON, to standard output")
    found.add_argument("--anew", action="store_true", help="judge all captures again, and replace the table")
    return found


def work(argv: Sequence[str] | None) -> int:
    words = parser()
    args = words.parse_args(argv)
    if args.table.suffix != ".csv":
        words.error(f"-o {args.table}: give a name that ends in .csv")
    paths = captures_of(args.places)
    if not paths:
        raise Refused(f"{args.places[0]}: it has no files *.tmc. Name a folder that contains captures")
    asked, table = Asked(args.dvi, args.timing), Table(args.table, args.anew)
    wanted = [path for path in paths if not table.has(path, asked)]
    if not wanted:
        found: Iterator[Row] = iter(())
    elif args.scheduler:
        found = elsewhere(wanted, args.scheduler, asked)
    else:
        library.loaded(library.find())
        found = here(wanted, asked)
    for row in tqdm(found, total=len(paths), initial=len(paths) - len(wanted), unit="capture", disable=None):
        table.add(row)
    rows = table.ended(paths)
    with replacing(args.table.with_suffix(".html"), "w", encoding="utf-8", errors="surrogateescape") as file:
        file.write(page(rows))
    if args.json:
        print(json.dumps({"captures": [plain_of(row) for row in rows]}, indent=1))
    totals = Counter(row["verdict"] for row in rows)
    told = ", ".join(f"{count} {verdict}" for verdict, count in sorted(totals.items()))
    command.say(f"{len(rows)} captures, {len(wanted)} judged now: {told}")
    return command.DONE if set(totals) == {"clean"} else command.FAULTY


def main(argv: Sequence[str] | None = None) -> int:
    """Runs the tool with `argv`, or with the arguments of the command line. Returns the exit status."""
    return command.run("survey", lambda: work(argv))
