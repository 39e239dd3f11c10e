"""The tool `conform`: whether a capture obeys HDMI 1.4, CTA-861 and IEC 60958, rule by rule."""

from __future__ import annotations

import argparse
import json
from collections.abc import Sequence
from pathlib import Path

from vabgrot import command
from vabgrot.errors import Refused
from vabgrot.judging.verdicts import DAMAGED, FAIL, OPEN, Verdict
from vabgrot.replacing import replacing
from vabgrot.tools.timing import positive
from vabgrot.verdict import judge
from vabgrot.video.matching import Rate

TEXT = """Checks an HDMI capture against the rules of HDMI 1.4, CTA-861 and IEC 60958. It prints one line for each rule:
pass, FAIL or not judged, what it found, the first column of a failure, and the clause of the standard.

A rule is not judged if the capture cannot show it: the capture is too short, it has no sound, or its pixel clock is not
known. The pixel clock is the one that you give, or that of the video format that the tool recognises.

If faults have a common cause, the last lines name it. `tools/characters` shows what is at a column."""
FAULTY = "done, and a rule is broken"
EXAMPLES = """./vabgrot make content < examples/bars.content > bars.tmc
tools/conform bars.tmc --clock 25200000"""


def write_junit(path: Path, capture: Path, found: list[Verdict]) -> None:
    """Writes the verdicts for a build server. Each rule is a test case."""
    try:
        from junitparser import Failure, JUnitXml, Skipped, TestCase, TestSuite
    except ImportError as why:
        raise Refused(f"--junit: {why}. Install it: apt-get install python3-junitparser") from None
    suite = TestSuite(f"conform {capture.name}")
    for one in found:
        case = TestCase(one.rule.name, classname=one.rule.clause)
        if one.state in (FAIL, DAMAGED):
            case.result = [Failure(one.line)]
        elif one.state == OPEN:
            case.result = [Skipped(one.words)]
        suite.add_testcase(case)
    xml = JUnitXml("vabgrot")
    xml.add_testsuite(suite)
    with replacing(path) as file:
        file.write(xml.tostring())


def parser() -> argparse.ArgumentParser:
    """Returns the tool's argument parser."""
    found = command.parser("conform", TEXT, FAULTY, EXAMPLES)
    command.add_capture(found)
    of_rate = found.add_mutually_exclusive_group()
    of_rate.add_argument("--clock", type=positive, metavar="HZ", help="the pixel clock (default: that of the recognised video format)")
    text = "the frames per second, or fields per second of interlaced video"
    of_rate.add_argument("--rate", type=positive, metavar="FIELDS_PER_SECOND", help=text)
    text = "read a DVI source, which has no guard bands and no data islands; four rules apply to it"
    found.add_argument("--dvi", action="store_true", help=text)
    command.add_json(found)
    found.add_argument("--junit", type=Path, metavar="FILE.xml", help="also write the verdicts as JUnit XML, for a build server")
    return found


def work(argv: Sequence[str] | None) -> int:
    args = parser().parse_args(argv)
    found = judge(args.capture, kind="dvi" if args.dvi else None, rate=Rate(args.clock, args.rate), is_shown=True)
    if args.junit:
        write_junit(args.junit, args.capture, found.rules)
    causes = found.causes()
    if args.json:
        said = {"capture": str(args.capture), "verdict": found.plain(), "faulty": found.is_faulty, "columns": found.reading.columns}
        print(json.dumps(said | {"rules": [one.plain() for one in found.rules], "alike": causes}, indent=1))
    else:
        lines = [found.headline, *found.reading.notes, *(one.line for one in found.sorted_rules), *(f"alike: {cause}" for cause in causes)]
        print("\n".join([*lines, found.total]))
    return command.FAULTY if found.is_faulty else command.DONE


def main(argv: Sequence[str] | None = None) -> int:
    """Runs the tool with `argv`, or with the arguments of the command line. Returns the exit status."""
    return command.run("conform", lambda: work(argv))
