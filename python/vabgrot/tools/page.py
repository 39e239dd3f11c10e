"""The tool `page`: a page that reads captures in the browser, served on this machine or written as one file; or one that follows a live
link."""

from __future__ import annotations

import argparse
import select
import signal
import sys
import threading
from collections.abc import Iterator, Sequence
from contextlib import contextmanager, suppress
from http.server import BaseHTTPRequestHandler, ThreadingHTTPServer
from pathlib import Path
from typing import TYPE_CHECKING

from vabgrot import command
from vabgrot.errors import Refused
from vabgrot.replacing import replacing
from vabgrot.report import whole

if TYPE_CHECKING:
    from vabgrot.watching.live import Live

TEXT = """Serves a page that reads captures in the browser. Drop a capture into it, or the three files of its lanes.

The page shows the report while it reads: the verdict, each frame with its damaged pixels marked, a timeline, the faults,
the packets in words and the listing, which you can save. The proved receiver runs in the browser, compiled to WebAssembly.
The browser must support WebAssembly with 64-bit memory.

With --raw, the page follows a live link: raw blocks without a header and without an end, as `tools/watch --raw` reads them.
To try it: `tools/lanes blocks my.tmc --repeat | tools/page --raw`. The tool receives the link with the proved receiver of
the C library. The page shows the verdict, the last frame, the faults, the packets, the sound levels and the last minute.
Ctrl-C ends the tool with a summary.

The page is served on 127.0.0.1 only, and a capture is sent nowhere. With -o, the tool writes the page as one file, which a
browser opens from disk."""
FAULTY = "done, and the link that --raw follows had a fault, or its lanes were not aligned"
EXAMPLES = "tools/page -o page.html"
LIVE = "live.html"  # the page of a live link
HOST = "127.0.0.1"
MOST_PORT = 65535
KINDS = {
    ".html": "text/html; charset=utf-8",
    ".css": "text/css; charset=utf-8",
    ".js": "text/javascript; charset=utf-8",
    ".wasm": "application/wasm",
}
HEADERS = {
    "Cache-Control": "no-store",
    "Content-Security-Policy": "default-src 'self'; script-src 'self' 'wasm-unsafe-eval'; img-src 'self' data:; media-src blob:",
    "Cross-Origin-Resource-Policy": "same-origin",
    "Referrer-Policy": "no-referrer",
    "X-Content-Type-Options": "nosniff",
}


class Server(ThreadingHTTPServer):
    """Serves the page on the loopback, and what there is of a live link if it follows one. A reader that goes away ends its own answer
    alone."""

    def __init__(self, number: int, live: Live | None = None) -> None:
        self.live = live
        signal.signal(signal.SIGPIPE, signal.SIG_IGN)
        try:
            super().__init__((HOST, number), Handler)
        except OSError as why:
            raise Refused(f"port {number}: {why.strerror}. Choose another one with --port, or leave it out") from None

    @property
    def url(self) -> str:
        """Where the page is."""
        return f"http://{HOST}:{self.server_port}/"


class Handler(BaseHTTPRequestHandler):
    """Answers with the files of the page and with the live link, and with nothing else."""

    server: Server

    def do_GET(self) -> None:
        """A file, or what there is of the link, or that there is nothing of that name."""
        name = self.path.partition("?")[0].removeprefix("/") or (LIVE if self.server.live else "index.html")
        host = (self.headers.get("Host") or "").rpartition(":")[0]
        if host not in (HOST, "localhost"):
            self.send_error(404)
        elif self.server.live and name == "events":
            self.follow(self.server.live)
        elif self.server.live and name == "picture.png" and self.server.live.picture:
            self.answer(self.server.live.picture, "image/png")
        elif "/" in name or Path(name).suffix not in KINDS or not (name == whole.WORDS or whole.place_of(name).is_file()):
            self.send_error(404)
        else:
            self.answer(whole.read(name), KINDS[Path(name).suffix])

    def begin(self, headers: dict[str, str]) -> None:
        """Begins an answer that is one."""
        self.send_response(200)
        for key, value in {**HEADERS, **headers}.items():
            self.send_header(key, value)
        self.end_headers()

    def answer(self, data: bytes, kind: str) -> None:
        """Answers with some bytes."""
        with suppress(ConnectionError):
            self.begin({"Content-Type": kind, "Content-Length": str(len(data))})
            self.wfile.write(data)

    def follow(self, live: Live) -> None:
        """Sends what is new of the link again and again, until the reader is gone."""
        after = -1
        with suppress(ConnectionError), live.reading():
            self.begin({"Content-Type": "text/event-stream; charset=utf-8"})
            while True:
                after, data = live.message(after)
                self.wfile.write(data)

    def log_message(self, *_: object) -> None:
        """Logs no requests."""


def port(text: str) -> int:
    """Reads the value of --port."""
    numbers = command.numbers(text, MOST_PORT)
    if len(numbers) != 1:
        raise argparse.ArgumentTypeError(f"{text}: write one port from 0 to {MOST_PORT}")
    return numbers[0]


def serve(number: int) -> int:
    """Serves the page until Ctrl-C."""
    whole.read(whole.MODULE)
    with Server(number) as server:
        print(server.url, flush=True)
        server.serve_forever()
    return command.DONE


@contextmanager
def serving(number: int, live: Live) -> Iterator[None]:
    """Serves the page of a live link in other threads, which end with this one."""
    with Server(number, live) as server:
        threading.Thread(target=server.serve_forever, daemon=True).start()
        print(server.url, flush=True)
        try:
            yield
        finally:
            server.shutdown()


def follow(path: str, is_dvi: bool, number: int) -> int:
    """Follows a live link until the keyboard ends it. At the end of its blocks the page stays as it is."""
    from vabgrot.tools.watch import Watch, ended, opened, stop_on_signals
    from vabgrot.watching.counting import Count
    from vabgrot.watching.feeding import Feed
    from vabgrot.watching.live import Live
    from vabgrot.watching.looking import Looks
    from vabgrot.watching.state import State

    if path == "-" and sys.stdin.isatty():
        raise Refused("standard input is a terminal. Name a FIFO, or send raw blocks there: `tools/page --raw < my.fifo`")
    with opened(path, grows=False) as source:
        feed = Feed(source, "dvi" if is_dvi else "track", grows=False, is_raw=True)
        try:
            stop_on_signals(feed)
            state = State(feed, Count(), Looks(feed.grammar))
            live = Live(state)
            with serving(number, live):
                Watch(state, None, stops=False).run(live)
                state.end()
                live.show()
                if not feed.is_stopped:
                    command.say("the link has ended: Ctrl-C ends the page, too")
                    select.select([feed.wake], [], [])
            print("\n".join(state.summary()))
            return ended(state)
        finally:
            feed.close()


def parser() -> argparse.ArgumentParser:
    """The parser of the tool's words."""
    found = command.parser("page", TEXT, FAULTY, EXAMPLES)
    found.add_argument("--port", type=port, default=0, metavar="N", help="the port (default: a free one)")
    either = found.add_mutually_exclusive_group()
    either.add_argument("-o", "--output", metavar="FILE.html", type=Path, help="write the page as one file, and serve nothing")
    text = "follow a live link: raw blocks from a FIFO or a file (default: standard input), 4,096 bytes of each lane in turn"
    either.add_argument("--raw", nargs="?", const="-", metavar="FIFO", help=text)
    text = "with --raw: read a DVI source, which has no guard bands and no data islands"
    found.add_argument("--dvi", action="store_true", help=text)
    return found


def work(argv: Sequence[str] | None) -> int:
    options = parser()
    args = options.parse_args(argv)
    if args.dvi and args.raw is None:
        options.error("--dvi goes with --raw: the page that reads captures has a switch for DVI")
    if args.raw is not None:
        return follow(args.raw, args.dvi, args.port)
    if not args.output:
        return serve(args.port)
    text = whole.single()
    with replacing(args.output, "w", encoding="utf-8") as page:
        page.write(text)
    command.say(f"{args.output}: {len(text.encode()):,} bytes")
    return command.DONE


def main(argv: Sequence[str] | None = None) -> int:
    """Runs the tool with `argv`, or with the arguments of the command line. Returns the exit status."""
    return command.run("page", lambda: work(argv))
