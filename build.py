#!/usr/bin/env python3
"""Proves the crates of the program and builds it. ./vabgrot calls this if the program is missing or old.

    build.py                        builds the program
    build.py library                builds two archives of the C library, one for any x86-64 processor and one for newer ones (x86-64-v3);
                                    library/build makes libvabgrot from them
    build.py library --over-ci      builds the first archive over the libraries that `rt ci` has just proved, and proves no crate below

It proves several crates at the same time, each one after the crates below it. The crate with the most code above it goes first,
because it decides when the last crate can begin; the others give way to it. It calls the kit's prover for one crate at a time, as
`rt ci` does. (`rt all` and `rt run` read all sources before the first proof.) It proves a crate again only if its files, its
line in crates.txt, a crate below it or the kit has changed. Its results are in crates/NAME/out/built, apart from those of `rt`.
If the kit has its parts in other places, `rt run` does everything.

Before a long build, a line on standard error says about how long it takes on this machine. Later lines count the crates and the minutes
that are left: on a terminal one line that changes, otherwise one a minute. A build that is stopped goes on where it was. Status: 0 if the
program is built; 1 if a crate is not proved or the program is not linked, with the prover's words on standard error; 2 if there is no
kit; 130 if it was stopped."""

import collections
import concurrent.futures
import contextlib
import fcntl
import functools
import hashlib
import os
import re
import shutil
import signal
import subprocess
import sys
import time
from dataclasses import dataclass, field
from functools import cached_property
from pathlib import Path

TOP = Path(__file__).resolve().parent
PROGRAM = "hdmi_cli"
LIBRARY = "vabgrot_c"  # a static library
BUILT = TOP / "crates" / PROGRAM / "out" / PROGRAM
RECORD = BUILT.with_name("kit")  # says which kit built the program; `./vabgrot --version` reads it
TARGET = "x86_64-unknown-linux-gnu"
NEWER = "x86-64-v3"  # processors with AVX2, for which the loader finds a library of its own
CRATE = 90  # as many lines of code take as long as a check of a crate without any
ASKED = 13  # and as one `?`, at which a function may end early
ENDING = 5000  # and as what the crate of the program takes more than others of its size
LONG = 8000  # lines whose checks take so long that it is said before
TRIES = 24  # of the measure, which takes about as long as the check of a line
GAIN = 2  # how much faster one check gets at most by its jobs
EACH = 60  # seconds between two lines where there is no terminal
MEMORY = 3_000_000_000  # the most that a check takes, in bytes
MOST_JOBS = 4  # of one check: more hardly help
NICEST = 19
ENDS = (signal.SIGINT, signal.SIGTERM, signal.SIGHUP)  # that end a build
STOPPED = 130  # the status then


@dataclass(frozen=True)
class Kit:
    """The Rattle kit: its prover, and what a check reads of it."""

    folder: Path

    @classmethod
    def found(cls):
        """The kit whose `rt` is on the PATH: `rt doc` names a page of its folder."""
        page = subprocess.run(["rt", "doc"], capture_output=True, text=True, check=True).stdout.strip()
        return cls(Path(page).parent)

    @property
    def identity(self):
        return (self.folder / "KIT-ID").read_bytes()

    @property
    def prover(self):
        """The command that checks a crate and builds it, over the kit's own logic as it was built, and its first words."""
        logic = self.folder / "rattle/logic/antt-project.json"
        return [self.folder / "bin/rattle", "build", "--antt-project", logic, "--logic-built", self.folder / "logic_built"]

    @property
    def libraries(self):
        return self.folder / "rlibs"

    def is_known(self):
        """Whether its parts are where they are looked for here."""
        parts = [*self.prover, *self.compiler, *self.link("", ""), self.libraries]
        return all(part.exists() for part in parts if isinstance(part, Path))

    @property
    def compiler(self):
        return ["--toolchain", self.folder / "toolchain"]

    def link(self, made, program):
        """The command that makes a program of what the prover built."""
        own = [self.folder / "c" / name for name in ("libos_c.a", "liblibc_c.a")]
        return [self.folder / "bin/rattle-link", "--target", TARGET, *self.compiler, "-o", program, made, *own]


@dataclass(eq=False)
class Crate:
    """A crate of the repository: its line in crates.txt, and the crates and the kit's libraries that the line names."""

    kit: Kit
    name: str
    line: str
    uses: list = field(default_factory=list)
    libraries: list = field(default_factory=list)

    @property
    def folder(self):
        return TOP / "crates" / self.name

    @property
    def is_program(self):
        return self.name == PROGRAM

    @property
    def is_archive(self):
        return self.name == LIBRARY

    @property
    def made(self):
        """What a check of the crate writes: a library, the program before it is linked, or the archive of the C library."""
        name = f"{self.name}.o" if self.is_program else f"lib{self.name}.a" if self.is_archive else f"{self.name}.rlib"
        return self.folder / "out/built" / name

    @property
    def left(self):
        """The library that `rt ci` left of the crate."""
        return self.folder / "out/rlib" / f"{self.name}.rlib"

    @property
    def made_from(self):
        """The file that has the sum of all that was read for `made`."""
        return self.folder / "out/built/sum"

    @property
    def log(self):
        return self.folder / "out/built/log"

    @cached_property
    def below(self):
        """The crates that it stands on, each after those that it stands on itself."""
        return list(dict.fromkeys(it for used in self.uses for it in (*used.below, used)))

    @cached_property
    def files(self):
        parts = [self.folder / part for part in ("src", "specs", "proofs")]
        return sorted(path for part in parts for path in part.rglob("*") if path.is_file())

    @cached_property
    def work(self):
        """About how long its check takes, against others: by the lines of its code and each `?` in it, tests left out."""
        code = [path.read_bytes() for path in self.files if path.suffix == ".rt" and "tests" not in (path.stem, path.parent.name)]
        return CRATE + sum(text.count(b"\n") + ASKED * text.count(b"?") for text in code)

    @cached_property
    def sum(self):
        """A sum of all that its check reads."""
        read = hashlib.sha256(self.kit.identity + self.line.encode())
        for path in self.files:
            read.update(repr((str(path.relative_to(self.folder)), path.read_bytes())).encode())
        for used in self.uses:
            read.update(used.sum.encode())
        return read.hexdigest()

    def is_current(self):
        return self.made.exists() and self.made_from.is_file() and self.made_from.read_text() == self.sum

    @property
    def made_newer(self):
        """The archive for newer processors."""
        return self.made.parent / NEWER / self.made.name

    def command(self, jobs, place=lambda it: it.made, is_newer=False):
        """The command that proves it, `jobs` modules at a time, over libraries at their places, and writes what it makes."""
        words = [*self.kit.prover, "--crate-name", self.name, "src/main.rt" if self.is_program else "src/lib.rt", "--jobs", jobs]
        for name in ("std", *self.libraries):
            words += ["--extern", f"{name}={self.kit.libraries / name}.rlib"]
        for used in self.uses:
            words += ["--extern", f"{used.name}={place(used)}"]
        for folder in (self.kit.libraries, *(place(it).parent for it in self.below)):
            words += ["-L", f"dependency={folder}"]
        words += ["--crate-type", "staticlib"] if self.is_archive else []
        words += ["--backend", "llvm", *self.kit.compiler] if self.is_program or self.is_archive else ["--statements"]
        words += ["--cpu", NEWER, "-o", self.made_newer] if is_newer else ["-o", self.made]
        return [str(it) for it in words]


def read_crates(kit, top):
    """The crates below the program, or below the C library, and itself, lowest first."""
    lines = (TOP / "crates.txt").read_text(encoding="utf-8").splitlines()
    rows = [row for row in (re.match(r"(\w+)[^:#]*:?([^#]*)", line) for line in lines) if row]
    named = {row[1]: Crate(kit, row[1], row[0]) for row in rows}
    for row in rows:
        uses = row[2].split()
        named[row[1]].uses = [named[it] for it in uses if it in named]
        named[row[1]].libraries = [it for it in uses if it not in named]
    return [*named[top].below, named[top]]


def ways_up(crates):
    """For each crate, how much work stands in the longest way from it up to the program, its own with it."""
    ways = {}
    for crate in reversed(crates):
        ways[crate] = crate.work + max((ways[it] for it in crates if crate in it.uses), default=0)
    return ways


def processors():
    return len(os.sched_getaffinity(0))


def measure(_):
    """Does what takes a processor about as long as the check of a line. Both spend their time in tables in memory."""
    table = {}
    for number in range(66_000):
        key = (number * 7919 % 10007, str(number))
        table[key] = table.get((number * 31 % 10007, str(number // 2)), 0) + 1
    return len(sorted(table, key=lambda it: it[1]))


def seconds_a_line():
    """How long a processor takes for the check of a line while all of them work. Measuring it takes some seconds."""
    began, tries = time.monotonic(), TRIES * processors()
    with concurrent.futures.ProcessPoolExecutor(processors()) as pool:
        collections.deque(pool.map(measure, range(tries), chunksize=TRIES // 4), maxlen=0)
    return (time.monotonic() - began) / TRIES


def in_words(seconds):
    minutes = round(seconds / 60)
    return "less than a minute" if minutes < 1 else f"about {minutes} minute{'s' * (minutes > 1)}"


class Clock:
    """Says how long a build takes: at first by a measure of the machine, later more and more by what is done."""

    def __init__(self, ways, left):
        self.began = self.said = time.monotonic()
        self.lines = {it: it.work + ENDING * it.is_program for it in left}
        self.total = sum(self.lines.values())
        self.whole = None
        if self.total > LONG:
            longest = max(ways[it] for it in left) + sum(ENDING for it in left if it.is_program)
            self.whole = max(self.total / processors(), longest / GAIN) * seconds_a_line()

    def begin(self):
        if self.whole:
            says = f"vabgrot: proving {len(self.lines)} crates takes {in_words(self.whole)} on this machine."
            print(f"{says} You can stop it: the next run continues.", file=sys.stderr, flush=True)

    def left(self, undone):
        """The seconds that are left, with these crates."""
        passed = time.monotonic() - self.began
        share = 1 - sum(self.lines[it] for it in undone) / self.total
        by_now = passed / share if share else 0
        return max(0.0, (1 - share) * self.whole + share * by_now - passed)

    def show(self, count, undone):
        """Says how many of the crates are proved, and how long the others take."""
        if not self.whole:
            return
        line = f"vabgrot: {count - len(undone)} of {count} crates proved, {in_words(self.left(undone))} left"
        if sys.stderr.isatty():
            print(f"\r{line:<79}", end="", file=sys.stderr, flush=True)
        elif time.monotonic() > self.said + EACH:
            self.said = time.monotonic()
            print(line, file=sys.stderr, flush=True)


def most_at_once():
    """How many checks may run at a time: one more than there are processors, and no more than there is free memory for."""
    with open("/proc/meminfo", encoding="utf-8") as it:
        free = 1024 * int(re.search(r"MemAvailable:\s+(\d+)", it.read())[1])
    return max(1, min(processors() + 1, free // MEMORY))


class Building:
    """Which crates are proved, which are being proved, and which are left, those with the longest ways up first."""

    def __init__(self, crates):
        self.count, self.most = len(crates), most_at_once()
        self.ways = ways_up(crates)
        self.done = {it for it in crates if it.is_current()}
        self.left = sorted((it for it in crates if it not in self.done), key=self.ways.get, reverse=True)
        self.running, self.failed = {}, None
        self.clock = Clock(self.ways, self.left)

    def niceness(self, crate):
        """How nice its check is: the less work stands in its way up, the nicer."""
        longest = max(self.ways.values())
        return NICEST * (longest - self.ways[crate]) // longest

    def begin(self, crate, jobs):
        """Starts a crate's check, in a process group of its own, with which a build that ends early ends it. All stay in one
        session, since a kernel that groups processes by sessions weighs how nice they are within one alone."""
        crate.made.parent.mkdir(parents=True, exist_ok=True)
        crate.made_from.unlink(missing_ok=True)
        words = ["nice", "-n", str(self.niceness(crate)), *crate.command(jobs)]
        before = signal.pthread_sigmask(signal.SIG_BLOCK, ENDS)  # an end that comes now would leave the check running
        try:
            with open(crate.log, "wb") as log:
                how = {"cwd": crate.folder, "stdin": subprocess.DEVNULL, "stdout": log, "stderr": subprocess.STDOUT}
                let = functools.partial(signal.pthread_sigmask, signal.SIG_SETMASK, before)
                self.running[crate] = subprocess.Popen(words, process_group=0, preexec_fn=let, **how)
        finally:
            signal.pthread_sigmask(signal.SIG_SETMASK, before)

    def begin_ready(self):
        """Starts what can be started. A crate's rank is how many with longer ways up are being proved: it begins while that is
        fewer than there are processors. The first one gets as many jobs as help, the others what it leaves."""
        ready = [it for it in self.left if self.done.issuperset(it.uses)]
        for at, crate in enumerate(ready):
            rank = sum(self.ways[it] > self.ways[crate] for it in self.running)
            if rank >= processors() or len(self.running) >= self.most:
                return
            shared = (processors() - len(self.running)) // (len(ready) - at)
            jobs = processors() if rank == 0 and self.most > 1 else max(1, shared)
            self.left.remove(crate)
            self.begin(crate, min(MOST_JOBS, jobs))

    def end(self, crate, status):
        """Takes the end of a check. One that was killed, most likely for want of memory, is tried again with nothing beside it."""
        del self.running[crate]
        if status == 0:
            crate.made_from.write_text(crate.sum)
            self.done.add(crate)
        elif status == -signal.SIGKILL and self.most > 1:
            self.most = 1
            self.left.insert(0, crate)
        else:
            self.failed = self.failed or crate

    def run(self):
        """Proves all, and returns the crate whose check failed, if one did; then the others' checks are ended."""
        self.clock.begin()
        try:
            self.begin_ready()
            while self.running and not self.failed:
                time.sleep(0.1)
                for crate in [it for it, process in self.running.items() if process.poll() is not None]:
                    self.end(crate, self.running[crate].returncode)
                if not self.failed:
                    self.begin_ready()
                self.clock.show(self.count, [*self.left, *self.running])
        finally:
            for process in self.running.values():
                with contextlib.suppress(ProcessLookupError):
                    os.killpg(process.pid, signal.SIGKILL)
            if sys.stderr.isatty():
                print(f"\r{'':79}\r", end="", file=sys.stderr)
        return self.failed


def build(kit, top):
    """Proves all crates and links the program, if it is one; what was said of a crate that is not proved is shown."""
    crates = read_crates(kit, top)
    held = [os.open(it.folder, os.O_RDONLY) for it in crates]
    for it in held:
        fcntl.flock(it, fcntl.LOCK_EX)  # as `rt` does: one of these works in a crate at a time
    failed = Building(crates).run()
    if failed:
        sys.stderr.write(failed.log.read_text(encoding="utf-8", errors="replace"))
        print(f"build.py: the crate {failed.name} is not proved. Its log is {failed.log.relative_to(TOP)}.", file=sys.stderr)
        return 1
    if not crates[-1].is_program:
        return build_newer(crates[-1])
    linked = subprocess.run(kit.link(crates[-1].made, BUILT), capture_output=True, text=True, check=False)
    if linked.returncode:
        sys.stderr.write(linked.stdout + linked.stderr)
        print("build.py: the program is proved, but rattle-link could not link it. The lines above say why.", file=sys.stderr)
    return 1 if linked.returncode else 0


def build_newer(archive):
    """Proves the crate of the C library again and compiles it for newer processors. The libraries below it hold no compiled code."""
    made_from = archive.made_newer.with_name("sum")
    if archive.made_newer.exists() and made_from.is_file() and made_from.read_text() == archive.sum:
        return 0
    archive.made_newer.parent.mkdir(parents=True, exist_ok=True)
    words = archive.command(processors(), is_newer=True)
    done = subprocess.run(
        words, cwd=archive.folder, stdin=subprocess.DEVNULL, stdout=subprocess.PIPE, stderr=subprocess.STDOUT, check=False
    )
    if done.returncode:
        sys.stderr.write(done.stdout.decode(errors="replace"))
        return 1
    made_from.write_text(archive.sum)
    return 0


def build_over_ci(kit):
    """Proves the crate of the C library alone, over the libraries that `rt ci` left."""
    archive = read_crates(kit, LIBRARY)[-1]
    archive.made.parent.mkdir(parents=True, exist_ok=True)
    words = archive.command(processors(), lambda it: it.left)
    return subprocess.run(words, cwd=archive.folder, stdin=subprocess.DEVNULL, check=False).returncode


def build_by_rt():
    """Has `rt run` build the program. It runs it too, and the program without words only says how it is used."""
    print("vabgrot: proving and building the program takes ten to twenty minutes on four cores.", file=sys.stderr, flush=True)
    ran = subprocess.run(["rt", "run"], cwd=TOP / "crates" / PROGRAM, stdin=subprocess.DEVNULL, capture_output=True, text=True)
    is_built = re.search(r"(?m)^rt: running ", ran.stdout + ran.stderr)
    if not is_built:
        sys.stderr.write(ran.stdout + ran.stderr)
    return 0 if is_built else 1


def build_library_by_rt():
    """Has `rt lib` build the archive, and puts it where a build by the prover does."""
    folder = TOP / "crates" / LIBRARY / "out"
    ran = subprocess.run(["rt", "lib"], cwd=folder.parent, stdin=subprocess.DEVNULL, capture_output=True, text=True)
    if ran.returncode:
        sys.stderr.write(ran.stdout + ran.stderr)
        return 1
    (folder / "built").mkdir(parents=True, exist_ok=True)
    shutil.copy(folder / f"lib{LIBRARY}.a", folder / "built")
    return 0


def main():
    is_library = sys.argv[1:] == ["library"]
    is_over_ci = sys.argv[1:] == ["library", "--over-ci"]
    try:
        kit = Kit.found()
    except (OSError, subprocess.CalledProcessError):
        print("build.py: the command rt is not on the PATH, or it fails. Install the Rattle kit and try `rt doc`.", file=sys.stderr)
        return 2
    for end in ENDS:
        signal.signal(end, lambda *_: sys.exit(STOPPED))
    began = time.time()
    if is_over_ci:
        return build_over_ci(kit)
    if is_library:
        return build(kit, LIBRARY) if kit.is_known() else build_library_by_rt()
    status = build(kit, PROGRAM) if kit.is_known() else build_by_rt()
    if status == 0:
        os.utime(BUILT, (began, began))  # what was changed since is newer
        with contextlib.suppress(OSError):  # a kit may have its identity elsewhere
            RECORD.write_bytes(kit.identity)
    return status


if __name__ == "__main__":
    sys.exit(main())
