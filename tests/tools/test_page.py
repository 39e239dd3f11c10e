"""tools/page: what the page reads by itself in a browser is what the program writes, and what the report says of it."""

import http.client
import io
import random
import shutil
import subprocess

import pytest

from tests.models import feeding, model, timed
from tests.support import HANGS, TOP, built
from tests.tools.test_channels import AVI_1, CLOCKS, infoframe, packet_line
from vabgrot import capture, channels, making, packets
from vabgrot.formats.layouts import LAYOUTS
from vabgrot.report import whole, words

pages = pytest.importorskip("tests.tools.pages")
from selenium.webdriver.support.ui import WebDriverWait  # noqa: E402

WIDTH, HEIGHT, ACROSS, DOWN, FIRST_PIXEL, FIRST_ROW = 32, 24, 120, 30, 80, 4
MODE = "32 8 16 64 24 2 2 2 1"
FRAME = 10 * ACROSS * DOWN // 8  # bytes of a lane


@pytest.fixture(scope="module")
def alone(receiver, tmp_path_factory):
    """The URL of the page as one file."""
    path = tmp_path_factory.mktemp("alone") / "page.html"
    subprocess.run([TOP / "tools" / "page", "-o", path], check=True)
    return f"file://{path}"


@pytest.fixture
def page(driver, served):
    return pages.Reader(driver, served)


def frames_of(rng, count):
    """A content listing of some frames of noise, each with an AVI InfoFrame, a clock packet, an audio InfoFrame and samples."""
    listing = [f"mode {MODE}"]
    for number in range(count):
        listing += ["avi 0 0 1 0 8 0 0 0 2 0 0 0 0 0 0 0 0", "acr 6144 21600", "audio 1 0 0 0 0 0 0"]
        listing += [f"s {rng.randrange(1 << 24):06x} {rng.randrange(1 << 24):06x} 0 0 {int(it == number == 0)} 0" for it in range(8)]
        listing += [f"row {rng.randbytes(3 * WIDTH).hex()}" for _ in range(HEIGHT)] + [f"frame {WIDTH} {HEIGHT}"]
    return "\n".join([*listing, "end", ""]).encode()


@pytest.fixture
def sent():
    return frames_of(random.Random(1), 4)


def place(frame, line, column, lane):
    """The bit of a lane at which a column of a frame begins."""
    return f"{lane}:{10 * ((frame * DOWN + line) * ACROSS + column)}"


def hits():
    """Pixels of frame 2 (a row each), a character of one packet, three of the next, and one of a guard band of frame 3."""
    found = [f"{place(2, FIRST_ROW + row, FIRST_PIXEL + 3 * row % 32, row % 3)}:0ab" for row in range(0, 24, 5)]
    found += [f"{place(2, 0, 14 + 5, 1)}:354", *(f"{place(2, 0, 14 + 32 + column, 1)}:354" for column in (3, 9, 20))]
    return [*found, f"{place(3, FIRST_ROW + 7, FIRST_PIXEL - 2, 0)}:000"]


def data_of(page):
    """What a page has of a capture: all but the characters at faults, the sound, the files of pictures, and the doubtful columns, which
    only the page that reads by itself has."""
    return page.run(
        "const {thumbs, sound, rest, name, doubts, lines, faults: {characters, ...faults}, frames, ...others} = data;"
        "return {...others, lines: [...lines], faults, frames: frames.map(({picture, kind, ...one}) => one)}"
    )


def counts(page):
    """The faults by kind and lane, as the table has them."""
    buttons = "[...document.querySelectorAll('.count[data-kind]')]"
    return page.run(f"return {buttons}.map((one) => [one.dataset.kind, one.dataset.lane, one.textContent])")


@pytest.mark.parametrize("form", ("served", "alone"))
def test_a_clean_capture(form, request, driver, report, program, sent, tmp_path):
    made = program("make", "content", "--skew", "0,70,35", source=sent)
    wanted, shown = program("recover", "link", source=made), report(made)
    kept = data_of(shown)
    frames, heard = [it.tobytes() for it in shown.frames()], sound_of(shown)
    page = pages.Reader(driver, request.getfixturevalue(form))
    page.read(tmp_path / "a.tmc")
    assert "Link clean" in page.text("verdict") and page.text("no-faults") == "No fault was found."
    assert page.saved(tmp_path) == wanted and page.lines() == wanted.decode().splitlines()
    assert {name for name, value in data_of(page).items() if value != kept[name]} == set()
    assert [it.tobytes() for it in page.frames()] == frames and len(frames) == 4
    assert (page.count("packets"), page.count("rows")) == (wanted.count(b"\np "), wanted.count(b"\nv "))
    assert (page.count("frames"), page.count("samples")) == (4, 32)
    assert sound_of(page) == heard
    page.check()


def test_a_damaged_capture(driver, served, report, program, sent, tmp_path):
    made = program("damage", *hits(), source=program("make", "content", source=sent))
    wanted, shown = program("recover", "link", source=made, status=1), report(made, 1)
    kept, table, cells = data_of(shown), shown.rows("packet-table"), counts(shown)
    faults = [row[:4] for row in shown.rows("fault-table")]
    page = pages.Reader(driver, served)
    page.read(tmp_path / "a.tmc")
    assert "Link faulty" in page.text("verdict")
    assert page.saved(tmp_path) == wanted and page.lines() == wanted.decode().splitlines()
    assert {name for name, value in data_of(page).items() if value != kept[name]} == set()
    assert page.rows("packet-table") == table and counts(page) == cells
    assert [row[:4] for row in page.rows("fault-table")] == faults and len(faults) > 5
    page.click("pixel-on")
    assert "damaged here" in page.text("pixel-says")
    page.check()


def test_noise(driver, served, report, program, sent, tmp_path):
    """Columns that open nothing, in bursts: the listing, and what the report has where the library, which knows all columns, made it."""
    made = program("make", "content", source=sent)
    rng = random.Random(2)
    many = [f"{place(1, FIRST_ROW + 4, rng.randrange(ACROSS), lane)}:{rng.randrange(1024):03x}" for lane in range(3) for _ in range(30)]
    made = program("damage", *many, source=made)
    wanted = program("recover", "link", source=made, status=1)
    shown = report(made, 1)
    kept = data_of(shown)
    page = pages.Reader(driver, served)
    page.read(tmp_path / "a.tmc")
    assert page.saved(tmp_path) == wanted and page.count("faults") == wanted.count(b"\n! ")
    came = data_of(page)
    assert {name for name in kept if came[name] != kept[name]} == set() and came["bursts"]
    page.check()


def test_a_slip(page, program, sent, tmp_path):
    """It is not followed, as `recover link` does not, and the page says who does."""
    made = program("slip", f"1:{8 * FRAME}:3", source=program("make", "content", source=sent))
    wanted = program("recover", "link", source=made, status=1)
    (tmp_path / "a.tmc").write_bytes(made)
    page.read(tmp_path / "a.tmc")
    assert page.saved(tmp_path) == wanted and page.count("faults") == wanted.count(b"\n! ")
    lanes = [model.strays(bits) for bits in model.lanes_in(made)]
    assert [bool(later[0]) for _, later in lanes] == [False, True, False]
    assert f"Lane 1 (green) lost or repeated bits: at bit {lanes[1][1][0]:,} of it" in page.text("advice-list")
    page.check()


def test_dvi(page, program, tmp_path):
    """It is read without guard bands as soon as that is chosen."""
    rows = b"".join(b"c 00 20\nv %s\n" % random.Random(it).randbytes(48).hex().encode() for it in range(12))
    made = program("make", "dvi", source=b"c 03 20\n" + rows + b"c 03 20\n" + rows + b"c 03 20\nend\n")
    wanted = program("recover", "dvi", source=made)
    (tmp_path / "a.tmc").write_bytes(made)
    page.read(tmp_path / "a.tmc")
    assert "Link faulty" in page.text("verdict")
    page.click("dvi")
    WebDriverWait(page.driver, HANGS).until(lambda _: "Link clean" in page.text("verdict") and page.state() == "done")
    assert page.saved(tmp_path) == wanted and page.lines() == wanted.decode().splitlines()
    assert page.count("rows") == 24 and page.text("what") == "DVI link report"
    page.check()


@pytest.mark.parametrize(
    ("data", "word", "says"),
    (
        (b"TMC1\0\0\0\0", "Not aligned", "the three lanes have no bits"),
        (b"TMC1\0\0\0\x08\0\0\0", "Not aligned", "no place at which a control period ends"),
        (b"hello", "Broken file", "it does not begin with TMC"),
        (b"", "Broken file", "The file is empty."),
        (b"TMC3\0\0\0\0", "Broken file", "its fourth byte is 51"),
        (b"TMC1\0\0\0\x08\0\0", "Broken file", "it ends after 10 bytes"),
        (b"TMC1\0\0\0\x08\0\0\0\0", "Broken file", "byte 11 and the following ones"),
        (b"TMC1\0\0\0\x07\0\x80\0", "Broken file", "byte 9, the last one of a lane"),
    ),
)
def test_no_capture(page, tmp_path, data, word, says):
    (tmp_path / "a.tmc").write_bytes(data)
    page.read(tmp_path / "a.tmc")
    assert word in page.text("verdict") and says in page.text("says")
    assert page.run("return document.getElementById('advice').hidden") == ("no place" not in says)
    assert "is shown" not in page.text("says")
    page.check()


@pytest.mark.parametrize("names", (("blue.bin", "green.bin", "red.bin"), ("lane0", "lane1", "lane2"), ("x1", "x2", "x3")))
def test_three_lanes(page, tool, program, sent, tmp_path, names):
    """Each is a file of raw bits, of any length: the listing is that of the capture that `tools/lanes pack` makes of them."""
    lanes, _ = capture.lanes_of(program("make", "content", "--skew", "0,70,35", source=sent))
    paths = [tmp_path / name for name in names]
    for number, (path, lane) in enumerate(zip(paths, lanes)):
        path.write_bytes(lane[: len(lane) - 5000 * number])
    packed = tool("lanes", "pack", *paths).stdout
    wanted = subprocess.run([built(), "recover", "link"], input=packed, stdout=subprocess.PIPE).stdout
    page.read(*reversed(paths))
    assert f"{names[0]} is lane 0 (blue)" in page.text("lanes")
    assert page.saved(tmp_path) == wanted and b"\nv " in wanted
    page.check()


def test_two_files(page, tmp_path):
    for name in "ab":
        (tmp_path / name).write_bytes(b"")
    page.choose(tmp_path / "a", tmp_path / "b")
    assert page.text("trouble") == "2 files are neither a capture nor the three lanes of one."


@pytest.fixture
def long(program, sent, tmp_path):
    """A capture of some thousand frames: the first two of another one again and again."""
    lanes, counts = capture.lanes_of(program("make", "content", source=sent))
    path, times = tmp_path / "long.tmc", 700
    lanes = [bytes(lane[: 2 * FRAME]) * times for lane in lanes]
    with open(path, "wb") as file:
        capture.write(file, [io.BytesIO(lane) for lane in lanes], [8 * len(lanes[0])])
    return path


def test_it_grows(page, program, long, tmp_path):
    """The sections fill while the capture is read, which goes on while they are looked at."""
    page.run(
        "window.seen = []; new MutationObserver(() => seen.push([document.getElementById('count-rows')?.textContent,"
        "document.querySelectorAll('#strip button').length, document.getElementById('progress').value]))"
        ".observe(document.getElementById('report'), {childList: true, subtree: true})"
    )
    page.read(long)
    rows = [int(it[0].replace(",", "")) for it in page.run("return seen") if it[0]]
    assert len(set(rows)) > 2 and rows == sorted(rows) and rows[-1] == 1400 * HEIGHT
    assert any(0 < strip < 1400 and value < 1 for _, strip, value in page.run("return seen"))
    with open(long, "rb") as file:
        wanted = subprocess.run([built(), "recover", "link"], stdin=file, stdout=subprocess.PIPE).stdout
    assert page.saved(tmp_path) == wanted
    assert page.run("return [data.lines.length, data.periods.at.length]") == [wanted.count(b"\n"), wanted.count(b"\n") - 1]
    page.check()


def test_cancel_and_a_second_drop(page, program, sent, long, tmp_path):
    """What came until then stays; and what is dropped next takes its place."""
    page.choose(long)
    WebDriverWait(page.driver, HANGS, poll_frequency=0.01).until(lambda _: page.count("rows"))
    page.click("cancel")
    page.wait("stopped")
    assert "Stopped" in page.text("verdict") and 0 < page.count("rows") < 1400 * HEIGHT
    assert page.run("return document.getElementById('reading').hidden")
    for seed in (3, 4):
        made = program("make", "content", source=frames_of(random.Random(seed), seed - 1))
        wanted = program("recover", "link", source=made)
        page.drop(f"{seed}.tmc", made)
        assert page.text("name") == f"{seed}.tmc" and page.count("frames") == seed - 1
        assert page.saved(tmp_path) == wanted and page.lines() == wanted.decode().splitlines()
        assert page.run("return document.querySelectorAll('#strip button').length") == seed - 1
        page.run("document.querySelector(\"#packets a[href^='#L']\").click()")
        WebDriverWait(page.driver, HANGS).until(lambda _: page.run("return document.querySelectorAll('.is-here').length") == 1)
    page.check()


def test_fields(driver, served, report, program, tmp_path):
    """Interlaced video is woven as the report weaves it, and its pictures are in the same colours. Its size is not that of its VIC."""
    made = program("make", "link", source=timed.text(timed.Sent((64, 8, 8, 40), (20, 2, 3, 5), halves=True, vic=5).lines(6)))
    shown = report(made, 1)
    kept = shown.run("return [data.shown, data.frames.map((one) => one.says)]")
    page = pages.Reader(driver, served)
    page.read(tmp_path / "a.tmc")
    assert page.run("return [data.shown, data.frames.map((one) => one.says)]") == kept
    assert any(len(it["frames"]) == 2 for it in kept[0]) and "fields are woven" in page.text("notes")
    page.check()


@pytest.mark.parametrize(
    ("fields", "depth"),
    (
        (dict(Y=1, C=2, YQ=1), 4), (dict(Y=1, C=1), 4), (dict(Y=2, C=3, EC=6), 4), (dict(Y=2), 6), (dict(Y=0, Q=1), 5),
        (dict(Y=2, C=1, PR=1), 7),
    ),
)  # fmt: skip
def test_colours(driver, served, report, program, tmp_path, fields, depth):
    """YCbCr, deep colour and repeated pixels are shown as the report shows them. The links have no HSYNC, which breaks a rule."""
    rng = random.Random(6)
    packet = making.packet("avi3", fields | {"VIC": 0})
    control = packets.Packet(bytes((3, 0, 0)), [bytes((0, depth, *bytes(5)))] * 4)
    lines = ["c 00 20", "c 14 8", "i 00"]
    for header, bodies in (packet, control):
        lines.append(f"p {header.hex()} {' '.join(it.hex() for it in bodies)} {'0' * 32}")
    lines += ["e 00", "c 00 4", "c 02 40", "c 00 40"]
    for _ in range(2):
        lines += [line for _ in range(4) for line in ("c 00 12", "c 04 8", f"v {rng.randbytes(60).hex()}")]
        lines += ["c 00 20", "c 02 40", "c 00 40"]
    made = program("make", "link", source="\n".join([*lines, "end", ""]).encode())
    shown = report(made, 1)
    frames, kept = [it.tobytes() for it in shown.frames()], data_of(shown)
    page = pages.Reader(driver, served)
    page.read(tmp_path / "a.tmc")
    assert [it.tobytes() for it in page.frames()] == frames and len(frames) > 0
    assert {name for name, value in data_of(page).items() if value != kept[name]} == set()
    page.check()


def sound_of(page):
    """What a page has of the sound: what it says, what can be chosen, the levels, the channel status, the names of the waves, and what
    is played and saved."""
    return page.run(
        "const texts = (name) => [...document.querySelectorAll(name)].map((one) => one.textContent.replace(/\\s/g, ''));"
        "const file = soundOf(); const bars = [...document.querySelectorAll('.level i')].map((one) => one.style.width);"
        "return [by('sound-says').textContent, texts('#sound-choice option'), texts('#levels tr'), bars, texts('#sound article'),"
        "texts('.wave li'),"
        "by('wave').children.length, data.sound, [...file], data.sound.choices.map((_, at) => [...played(file, at)])]"
    )


def sounds():
    """Link listings with sound: of two and of more channels, with and without what tells speakers and rates."""
    many = "".join(packet_line("021f" + ("f0" if at % 192 == 0 else "00"), *(body(at, pair) for pair in range(4))) for at in range(400))
    starts = ["10" if at % 48 == 0 else "00" for at in range(100)]
    two = "".join(packet_line(f"020f{start}", *(body(4 * at + it, 0) for it in range(4))) for at, start in enumerate(starts))
    speakers = infoframe(0x84, 1, "0708" + "0013" + "00" * 6)
    yield two
    yield CLOCKS + two
    yield AVI_1 + CLOCKS + infoframe(0x84, 1, "0108" + "00" * 8) + two
    yield AVI_1 + CLOCKS + speakers + many
    yield many
    yield infoframe(0x84, 1, "07000032" + "00" * 6) + many + packet_line("090f00") * 3
    yield infoframe(0x84, 1, "07000002" + "00" * 6) + many


def body(sample, pair):
    """The body of a pair of channels, with a channel status of consumer use, of 48,000 Hz and of 24 bits."""
    rng = random.Random(8 * sample + pair)
    bit = sample % 192 in (2, 25, 32, 33, 35)
    return channels.body_of([rng.randrange(-1 << 20 + pair, 1 << 20 + pair) for _ in range(2)], [int(bit)] * 2)


WRONG = 2, 3, 5  # the sounds whose Audio InfoFrames break a rule: the rate is another one, or their CA is reserved


@pytest.mark.parametrize("number", range(7))
def test_sound(driver, served, report, program, tmp_path, number):
    """Its rate, speakers, levels, channel status, and what is played and saved are those of the report."""
    sent = [*sounds()][number].splitlines()
    islands = ["\n".join(sent[at : at + 18]) for at in range(0, len(sent), 18)]
    lines = ["c 00 4", *(f"c 00 12\nc 14 8\ni 00\n{island}\ne 00" for island in islands), "c 00 12", "end", ""]
    made = program("make", "link", source="\n".join(lines).encode())
    shown = report(made, int(number in WRONG))
    kept = sound_of(shown)
    page = pages.Reader(driver, served)
    page.read(tmp_path / "a.tmc")
    for one, other in zip(sound_of(page), kept, strict=True):
        assert one == other
    assert page.count("samples") == 400
    WebDriverWait(page.driver, HANGS).until(lambda _: page.run("return by('audio').readyState") > 0)
    page.check()


def test_no_memory64(driver, served):
    """A browser that cannot run the receiver says so."""
    script = {"source": "WebAssembly.validate = () => false"}
    name = driver.execute_cdp_cmd("Page.addScriptToEvaluateOnNewDocument", script)["identifier"]
    try:
        driver.get(served)
        WebDriverWait(driver, HANGS).until(lambda _: driver.execute_script("return !document.getElementById('trouble').hidden"))
        assert "memory64" in driver.execute_script("return document.getElementById('trouble').textContent")
        assert driver.execute_script("return document.getElementById('files').disabled")
    finally:
        driver.execute_cdp_cmd("Page.removeScriptToEvaluateOnNewDocument", {"identifier": name})


def test_a_folder_from_disk(driver):
    """Browsers load no modules of a page from disk, which says what to do."""
    driver.get(f"file://{TOP}/page/index.html")
    shown = "return getComputedStyle(document.getElementById('unstarted')).visibility"
    WebDriverWait(driver, HANGS).until(lambda _: driver.execute_script(shown) == "visible")
    assert driver.execute_script("return document.getElementById('files').disabled")
    driver.get_log("browser")


def unlike_packets(rng):
    """Packets of all types, most of which are right."""
    kinds = [(kind, version) for kind in (0x81, 0x82, 0x83, 0x84, 0x85, 0x87, 0x86, 0x99) for version in (1, 2, 3, 4)]
    lengths = {it.header[:2]: it.header[2] for it in LAYOUTS.values() if it.is_infoframe and it.least is None}
    for kind, version in kinds * 12:
        length = lengths.get((kind, version), rng.randrange(28))
        header, data = bytes((kind, version, length)), bytearray(rng.randbytes(28))
        if kind == 0x81:
            data[1:4] = rng.choice((0x000C03, 0xC45DD8, 0x123456)).to_bytes(3, "little")
        data[0] = -(sum(header) + sum(data[1 : length + 1])) & 255
        yield header + bytes(data)
    for _ in range(300):
        header, *bodies = feeding.packet(rng)
        yield header + b"".join(bodies)
    for kind in (*range(12), 0x40) * 10:
        yield bytes((kind, *rng.randbytes(2))) + rng.randbytes(28)


def test_packets_in_words(page):
    """Of each packet what Python says of it."""
    given = [*unlike_packets(random.Random(5))]
    script = """const [values, done] = arguments;
        const modules = Promise.all(["packets", "infoframes"].map((name) => import(`/${name}.js`)));
        modules.then(([{packetOf, contentOf}, {nameOf}]) => done(values.map((one) => {
        const packet = packetOf(Uint8Array.from(one)); const {words, rows, faults} = contentOf(packet);
        return [nameOf(one[0]), words, rows.map(({name, value, number}) => [name, value, number]), faults]})))"""
    came = page.driver.execute_async_script(script, [list(it) for it in given])
    for data, found in zip(given, came, strict=True):
        packet = packets.Packet(data[:3], [data[at : at + 7] for at in range(3, 31, 7)])
        content = packets.content_of(packet)
        assert found == [packet.name, content.words, [list(row) for row in content.rows], content.faults], data.hex()


def test_the_types(tmp_path):
    """Those that the comments of the JavaScript name, of the page and of a report, in a copy that has the tables of Python."""
    if not shutil.which("tsc"):
        pytest.skip("Debian's package node-typescript is missing")
    for folder in (whole.FOLDER, whole.SHARED):
        shutil.copytree(folder, tmp_path / folder.relative_to(TOP))
    (tmp_path / "page" / whole.WORDS).write_text(words.text(), "utf-8")
    came = subprocess.run(["tsc", "-p", tmp_path / "page" / "jsconfig.json"], capture_output=True, text=True)
    assert (came.returncode, came.stdout) == (0, "")


def test_only_the_page_is_served(served):
    """Nothing outside its folder, and to no page of another name."""
    port = int(served.rstrip("/").rpartition(":")[2])
    for path, host, status in (
        ("/", "127.0.0.1", 200), ("/worker.js", "localhost", 200), ("/../README.md", "127.0.0.1", 404), ("/words.py", "127.0.0.1", 404),
        ("/", "example.com", 404),
    ):  # fmt: skip
        asks = http.client.HTTPConnection("127.0.0.1", port)
        asks.putrequest("GET", path, skip_host=True)
        asks.putheader("Host", f"{host}:{port}")
        asks.endheaders()
        assert asks.getresponse().status == status, (path, host)
        asks.close()


def test_refused_ports(tool):
    for word in ("65536", "1,2", "x"):
        assert b"--port" in tool("page", "--port", word, status=2).stderr
