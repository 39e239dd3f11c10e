"""The receiver of page/ in browsers: of 300 generated captures and of the examples the listing and the status are those of the program's
`recover link`, or without guard bands of `recover dvi`, to the byte. One page reads them all, by its own worker."""

import random
from base64 import b64encode

import pytest

from tests.models import feeding
from tests.support import TOP, run

pages = pytest.importorskip("tests.tools.pages")
from tests.tools.firefox import Firefox  # noqa: E402

COUNT = 300  # generated captures
BATCH = 30  # captures that a worker of the page reads one after another
MOST_LINES = 200  # of a listing of which a capture is made
KINDS = ("link", "dvi")  # by the number that the worker takes
EXAMPLES = (("link", "red.link"), ("link", "island.link"), ("link", "skewed.link"), ("content", "bars.content"))
# What the page does with a file that is dropped, but that it shows nothing.
READ = """const [captures, done] = arguments;
const bytesOf = (text) => Uint8Array.from(atob(text), (one) => one.charCodeAt(0));
const textOf = (bytes) => Array.from(bytes, (one) => String.fromCharCode(one)).join("");
const read = (worker, files, kind, module) => new Promise((then, fail) => {
    const parts = [];
    worker.onerror = (event) => fail(event.message);
    worker.onmessage = async ({data}) => {
        parts.push(...data.listing?.parts ?? []);
        if (data.failed) fail(data.failed);
        else if (data.status !== undefined) then([data.status, textOf(new Uint8Array(await new Blob(parts).arrayBuffer()))]);
    };
    worker.postMessage({files, kind, module});
});
(async () => {
    const module = await WebAssembly.compile(await (await fetch("vabgrot.wasm")).arrayBuffer());
    const worker = new Worker("worker.js", {type: "module"}), found = [];
    for (const [kind, capture] of captures) found.push(await read(worker, [new Blob([bytesOf(capture)])], kind, module));
    worker.terminate();
    return found;
})().then(done, (why) => done(String(why)))"""


@pytest.fixture(scope="module", params=("chromium", "firefox"))
def browser(request, tmp_path_factory):
    found = pages.opened() if request.param == "chromium" else Firefox(tmp_path_factory.mktemp("profile"))
    yield found
    found.quit()


def made(executable, kind, rng):
    """A capture that the program makes of a listing, with skew, and damaged or not."""
    listings = iter(lambda: feeding.listing_of(rng, guards=KINDS[kind] == "link"), None)
    listing = next(it for it in listings if it.count(b"\n") <= MOST_LINES)
    tap = ["--offset", str(rng.randrange(1000)), "--skew", f"{rng.randrange(71)},0,{rng.randrange(71)}"]
    capture = run(executable, ["make", KINDS[kind], *tap], listing)[1]
    places = 8 * len(capture) // 3 - 200  # that each lane has
    hits = [f"{rng.randrange(3)}:{rng.randrange(places)}:{rng.randrange(1024):03x}" for _ in range(rng.choice((0, 1, 20)) * (places > 0))]
    return run(executable, ["damage", *hits], capture)[1] if hits else capture


def captures(executable):
    """The name, the number of the kind, and the bytes of each: some of random bits, slipped or not, some of lines and islands, some of
    lines without guard bands, the examples, and bytes that are no capture."""
    for at in range(COUNT):
        rng, kind = random.Random(f"page {at}"), int(at % 3 == 2)
        yield f"capture {at}", kind, made(executable, kind, rng) if at % 3 else feeding.made_capture(rng)[0]
    for command, name in EXAMPLES:
        data = run(executable, ["make", command], (TOP / "examples" / name).read_bytes())[1]
        yield name, 0, data
        yield f"{name}, slipped", 0, run(executable, ["slip", "1:300:3"], data)[1]
        yield f"{name}, cut short", 0, data[:-1]
    for name, data in (("nothing", b""), ("no capture", b"TMC3"), ("no lanes", b"TMC1\0\0\0\0")):
        yield name, 0, data


def listed(browser, given):
    """The status and the listing of each capture, by a browser."""
    for at in range(0, len(given), BATCH):
        batch = [[kind, b64encode(data).decode()] for _, kind, data in given[at : at + BATCH]]
        came = browser.execute_async_script(READ, batch)
        assert len(came) == len(batch), came
        yield from ((status, text.encode("latin1")) for status, text in came)


def test_generated_captures(browser, served, executable, compare):
    browser.get(served)
    given = [*captures(executable)]

    def cases():
        for (name, kind, data), came in zip(given, listed(browser, given), strict=True):
            yield f"{name}, {KINDS[kind]}", came, run(executable, ["recover", KINDS[kind]], data)[:2]

    compare(cases())
