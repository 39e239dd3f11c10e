"""What the tests share: where the built program is, how it and the tools are run, and words and inputs that many tests give them."""

import os
import subprocess
from pathlib import Path

from vabgrot import place

TOP = place.TOP
HANGS = 1200  # the seconds after which something hangs, also on a slow machine that has other work
LISTING = b"c 00 4\nc 04 8\nv ff0000\nc 00 12\nend\n"
READERS = (["recover", "link"], ["recover", "content"], ["check"], ["damage", "0:0:354"])
FURTHER = (["recover", "track"], ["recover", "dvi"], ["recover", "biphase", "0"], ["relay"], ["recover", "relock"])
FURTHER += (["recover", "content", "relock"],)
SLIP = ["slip", "0:0:1"]
USAGE = b"usage: make, recover, check, damage or sample\n"


def built():
    """The program that VABGROT_PROGRAM names, or the one that `./vabgrot` and `rt ci` build."""
    return Path(os.environ.get("VABGROT_PROGRAM", place.PROGRAM)).resolve()


def ran(words, source):
    return subprocess.run([str(word) for word in words], input=source, capture_output=True, timeout=HANGS)


def run(program, words, source=b"", stdin=None, stdout=subprocess.PIPE):
    """The status, the output and the notes of a run over some bytes, or over an open file."""
    given = {"input": source} if stdin is None else {"stdin": stdin}
    ran = subprocess.run([program, *words], stdout=stdout, stderr=subprocess.PIPE, timeout=HANGS, **given)
    return ran.returncode, ran.stdout, ran.stderr
