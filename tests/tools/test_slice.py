"""tools/slice: waveforms of sent captures come back bit for bit."""

import csv
import zipfile

import numpy as np
import pytest
from PIL import Image

from tests.models.channel import Channel
from tests.support import TOP
from vabgrot import capture
from vabgrot.waves import loops, recovery, waveform

EXAMPLES = TOP / "examples"
SKEW = (0.0, 6.9, 3.8)
HARD = dict(off=3e-4, drift=3e-4, random=0.3, periodic=0.3, bandwidth=0.6, noise=0.02, offset=0.7, swing=0.4, skew=SKEW)


def lanes_of(data):
    """The bits of each lane of a capture, one an item."""
    lanes, counts = capture.lanes_of(data)
    bits = (np.unpackbits(np.frombuffer(lane, np.uint8), bitorder="little") for lane in lanes)
    return [lane[:count].astype(bool) for lane, count in zip(bits, counts)]


@pytest.fixture
def sent(program):
    """The lanes of three small frames with a tone, 51,975 bits each."""
    listing = (EXAMPLES / "bars.content").read_bytes()
    return lanes_of(program("make", "content", "--offset", 2345, source=listing))


def saved(path, array):
    np.save(path, array)
    return path


def parts(sent, first, got):
    """The parts of the sent lanes that are to be found, by where they begin; a bit more or less at the end is open."""
    assert all(abs(len(lane) - len(got[0])) <= 8 for lane in got)
    return [lane[at : at + len(found)] for lane, at, found in zip(sent, first, got)]


def assert_like(sent, first, data):
    got = lanes_of(data)
    for wanted, found in zip(parts(sent, first, got), got):
        assert len(wanted) == len(found) and (wanted == found).all()
    return got


@pytest.mark.parametrize("has_clock", [False, True])
@pytest.mark.parametrize("samples", [4.13, 7.77, 13.21, 39.87])
def test_lanes_come_back_bit_for_bit(tool, program, sent, tmp_path, samples, has_clock):
    """Over a channel with all that the model has, from 4 to 40 samples a bit."""
    channel = Channel(samples, **HARD)
    waves, first = channel.waves(sent)
    words = []
    if has_clock:
        waves = np.column_stack([waves, channel.clock(len(sent[0]), len(waves))])
        words = ["--clock", 3]
    came = tool("slice", saved(tmp_path / "a.npy", waves.astype(np.float32)), *words)
    got = assert_like(sent, first, came.stdout)
    assert min(map(len, got)) > 51_900
    assert program("check", source=came.stdout) == b"clean\n"


@pytest.mark.parametrize(
    "words",
    [
        dict(samples=4.0),
        dict(samples=4.27, random=0.3),
        dict(samples=11.3, periodic=0.6, every=211.7),
        dict(samples=9.1, periodic=0.3, every=5000.3),
        dict(samples=5.5, bandwidth=0.6, offset=-3.0, swing=0.01),
    ],
)
def test_one_trouble_at_a_time(tool, sent, tmp_path, words):
    waves, first = Channel(skew=SKEW, **words).waves(sent)
    assert_like(sent, first, tool("slice", saved(tmp_path / "a.npy", waves)).stdout)


def symbols(listing):
    """What each lane says in each column of a link listing: the two bits of a control column, None in guards, the byte
    of a pixel; and the places of `code` lines."""
    columns, codes, words = [], [], []
    for line in listing.decode().splitlines():
        name, *fields = line.split(" ")
        if name == "c":
            value = int(fields[0], 16)
            columns += [[(value >> 2 * lane & 3, "c") for lane in range(3)]] * int(fields[1])
        elif name == "v":
            pixels = bytes.fromhex(fields[0])
            columns += [[None] * 3] * 2 + [list(pixels[at : at + 3][::-1]) for at in range(0, len(pixels), 3)]
        elif fields[0:1] == ["code"]:
            codes.append((int(fields[1]), int(fields[2])))
        elif fields[0:1] == ["word"]:
            words.append((int(fields[1]), int(fields[2])))
    for lane, column in words:
        columns[column] = [symbol if at != lane else "word" for at, symbol in enumerate(columns[column])]
    return columns, codes


def guards_told(listing, shift):
    return {int(line.split()[2]) + shift for line in listing.decode().splitlines() if line.startswith("! guard")}


def test_noise_hurts_characters_and_recover_tells_exactly_these(tool, program, tmp_path):
    """Lines of eight pixels. What a lane says differs from what was sent exactly where a bit of the character does."""
    noise = np.random.default_rng(5)
    lines = [f"c 00 4\nc 04 8\nv {noise.bytes(24).hex()}\n" for _ in range(300)]
    listing = "".join(["c 00 40\n", *lines, "c 00 40\nend\n"]).encode()
    sent = lanes_of(program("make", "link", source=listing))
    waves, first = Channel(6.37, bandwidth=0.8, noise=0.155, skew=SKEW, seed=3).waves(sent)
    came = tool("slice", saved(tmp_path / "a.npy", waves), status=1)
    got = lanes_of(came.stdout)
    places = [np.flatnonzero(a != b) + at for a, b, at in zip(parts(sent, first, got), got, first)]
    hits = {(lane, int(place) // 10) for lane, found in enumerate(places) for place in found}
    assert 20 < len(hits) < 200

    recovered = program("recover", "link", source=came.stdout, status=1)
    told, codes = symbols(recovered)
    wanted, _ = symbols(listing)
    shift = next(at for at in range(100) if sum(a != b for a, b in zip(wanted[at:], told)) < 200)
    pairs = enumerate(zip(told, wanted[shift:]), shift)
    differ = {(lane, column) for column, (row, other) in pairs for lane in range(3) if row[lane] != other[lane]}
    guards = {(lane, column) for lane, column in hits if wanted[column][0] is None}
    assert differ == hits - guards
    assert guards and {column for _, column in guards} == guards_told(recovered, shift)
    for lane, column in codes:
        line = [at for at in range(column + shift - 7, column + shift + 1) if isinstance(wanted[at][0], int)]
        assert any((lane, at) in hits for at in line)
    assert codes


@pytest.fixture
def plain(sent):
    """Waves of 5.3 samples a bit that all formats keep: levels of -100 and 100; and the first bits."""
    waves, first = Channel(5.3, swing=200.0, skew=SKEW).waves([lane[:9000] for lane in sent])
    return waves, first, [lane[:9000] for lane in sent]


def write_csv(path, names, step, columns):
    with open(path, "w", newline="") as file:
        rows = csv.writer(file)
        rows.writerow(names)
        rows.writerows([f"{at * step:.6g}", *row] for at, row in enumerate(columns))
    return path


@pytest.mark.parametrize("kind", ["int8", "int16", "float32"])
def test_raw_samples(tool, plain, tmp_path, kind):
    waves, first, sent = plain
    waves.astype(kind).tofile(tmp_path / "a.bin")
    assert_like(sent, first, tool("slice", tmp_path / "a.bin", "--raw", kind, "--channels", 3).stdout)


def test_arrays(tool, plain, tmp_path):
    waves, first, sent = plain
    np.savez(tmp_path / "a.npz", waves, rate=2e9)
    came = tool("slice", tmp_path / "a.npz")
    assert_like(sent, first, came.stdout)
    assert b"377.35" in came.stderr and b"Mbit/s, 5.3 samples a bit" in came.stderr
    np.savez_compressed(tmp_path / "b.npz", red=waves[:, 2], blue=waves[:, 0], green=waves[:, 1])
    assert_like(sent, first, tool("slice", tmp_path / "b.npz", "--lanes", "blue,green,red").stdout)
    path = saved(tmp_path / "a.npy", np.asfortranarray(waves[:, ::-1].astype(np.int16)))
    assert_like(sent, first, tool("slice", path, "--lanes", "2,1,0").stdout)


def test_pairs_names_and_polarity(tool, plain, tmp_path):
    waves, first, sent = plain
    both = np.column_stack([sign * waves[:, lane] + 50 * lane for lane in range(3) for sign in (1, -1)]).round(1)
    names = ["time (ns)", "D0P", "D0N", "D1+", "D1-", "D2P", "D2N"]
    path = write_csv(tmp_path / "a.csv", names, 0.25, both)
    for words in ("D0P-D0N,D1+-D1-,D2P-D2N", "0-1,2-3,4-5", "D0P,2,4"):
        came = tool("slice", path, "--lanes", words)
        assert_like(sent, first, came.stdout)
        assert b"754.71" in came.stderr
    for words in ("--lanes=-D0N,D1+,D2P", "--lanes=-1,-3,-D2N"):
        assert_like(sent, first, tool("slice", path, words).stdout)
    came = tool("slice", path, "--lanes", "D0N-D0P,D1+,D2N")
    assert_like([~sent[0], sent[1], ~sent[2]], first, came.stdout)


def write_vcd(path, columns, names, step):
    """The changes of some channels of 0 and 1, a sample every so many picoseconds; beside them a bus and a real."""
    lines = ["$date today $end", "$timescale 1 ps $end", "$scope module top $end"]
    lines += [f"$var wire 1 {chr(65 + at)} {name} $end" for at, name in enumerate(names)]
    lines += ["$var wire 4 b bus [3:0] $end", "$var real 64 r level $end", "$upscope $end", "$enddefinitions $end"]
    before = [None] * len(names)
    for at, row in enumerate(columns.tolist()):
        changed = [f"{level}{chr(65 + name)}" for name, level in enumerate(row) if level != before[name]]
        if changed:
            lines += [f"#{at * step}", *changed, "b1z0 b", "r1.5 r"]
        before = row
    path.write_text("\n".join(lines + [f"#{len(columns) * step}"]) + "\n")
    return path


def test_value_changes(tool, plain, tmp_path):
    waves, first, sent = plain
    path = write_vcd(tmp_path / "a.vcd", (waves > 0).astype(int), ["blue", "green", "red"], 100)
    for words in ([], ["--lanes", "blue,green,red"], ["--piece", 1000]):
        came = tool("slice", path, *words)
        assert_like(sent, first, came.stdout)
    assert b"1886.79 Mbit/s, 530" in came.stderr


def write_sigrok(path, logic, analog):
    """A session as sigrok writes it: logic in chunks of eight channels a byte, analog as one number after another."""
    names = [f"probe{at + 1}=D{at}" for at in range(logic.shape[1])] + [f"analog{9 + at}=A{at}" for at in range(3)]
    head = ["[global]", "sigrok version=0.5.2", "[device 1]", "capturefile=logic-1", "samplerate=2 GHz"]
    half = len(logic) // 2
    with zipfile.ZipFile(path, "w", zipfile.ZIP_DEFLATED) as archive:
        archive.writestr("version", "2")
        archive.writestr("metadata", "\n".join([*head, f"total probes={logic.shape[1]}", *names, "unitsize=2"]) + "\n")
        for number, rows in ((1, logic[:half]), (2, logic[half:])):
            whole = np.pad(rows.astype(np.uint8), ((0, 0), (0, 16 - rows.shape[1])))
            archive.writestr(f"logic-1-{number}", np.packbits(whole, axis=1, bitorder="little").tobytes())
        for lane in range(3):
            archive.writestr(f"analog-1-{9 + lane}-1", analog[:, lane].astype("<f4").tobytes())


def test_sessions_of_sigrok(tool, plain, tmp_path):
    waves, first, sent = plain
    write_sigrok(tmp_path / "a.sr", np.column_stack([waves > 0, waves < 0]), waves)
    for words in ("0,1,2", "D0-D3,1-4,-D5", "A0,A1,A2", "D0,A1,-5"):
        came = tool("slice", tmp_path / "a.sr", "--lanes", words)
        assert_like(sent, first, came.stdout)
        assert b"377.35" in came.stderr


def test_pieces_make_no_difference(tool, sent, tmp_path):
    waves, first = Channel(6.1, **HARD).waves(sent)
    path = saved(tmp_path / "a.npy", waves.astype(np.float32))
    whole = tool("slice", path)
    small = tool("slice", path, "--piece", 3001)
    assert_like(sent, first, whole.stdout)
    assert_like(sent, first, small.stdout)


def test_figures_and_eyes(tool, sent, tmp_path):
    """A channel without trouble but random jitter of 0.02 unit intervals RMS; the levels and the rate are those given."""
    waves, _ = Channel(20.3, random=0.28, bandwidth=2.0, offset=1.0, swing=0.5).waves(sent)
    came = tool("slice", saved(tmp_path / "a.npy", waves), "--rate", 1e9, "--eye", tmp_path / "eye.png")
    lines = [line for line in came.stderr.decode().splitlines() if not line.startswith("slice: Debian's package")]
    assert len(lines) == 3
    for lane, line in enumerate(lines):
        assert line.startswith(f"lane {lane}: ") and "49.261" in line and "20.3 samples a bit" in line
        words = line.replace(",", "").split()
        assert 0.015 < float(words[words.index("jitter") + 1]) < 0.03
        low, high = (float(words[words.index("levels") + at]) for at in (1, 3))
        assert abs(low - 0.75) < 0.03 and abs(high - 1.25) < 0.03
        assert 0.9 < float(words[-1]) < 1.1
    with Image.open(tmp_path / "eye.png") as image:
        assert image.size == (700, 1100) and len(image.convert("RGB").getcolors(1 << 20)) > 100


def test_files_that_are_refused(tool, plain, tmp_path):
    waves, _, _ = plain
    path = saved(tmp_path / "a.npy", waves)
    for name, data, says in (
        ("no.npy", b"no", b""),
        ("cut.npy", path.read_bytes()[:5000], b""),
        ("no.npz", b"no", b"zip"),
        ("no.sr", b"no", b"zip"),
        ("no.csv", b"a,b,c\nx,y,z\n", b"no line of numbers"),
        ("bare.csv", b"0,1,2\n1,2,3\n", b"a header is wanted"),
        ("torn.csv", b"t,a\n0,1\n1,x\n", b"behind line 1"),
        ("back.csv", b"t,a\n0,1\n0,1\n", b"do not rise"),
        ("uneven.csv", b"t,a\n0,1\n1,1\n2,1\n900,1\n", b"not evenly spaced"),
        ("no.vcd", b"$var wire 1 ! a $end\n", b"no value change dump"),
        ("back.vcd", b"$timescale 1 ns $end $var wire 3 ! a $end $enddefinitions $end\n#5\n1!\n#3\n0!\n", b"no time"),
        ("no.what", b"no", b"its name ends in none of"),
    ):
        (tmp_path / name).write_bytes(data)
        assert says in tool("slice", tmp_path / name, status=3).stderr
    tool("slice", tmp_path / "missing.npy", status=3)
    tool("slice", saved(tmp_path / "one.npy", waves[:, 0]), status=3)
    assert b"there is no channel `3`" in tool("slice", path, "--lanes", "0,1,3", status=3).stderr
    assert b"there is no channel `red`" in tool("slice", path, "--clock", "red", status=3).stderr
    flat = saved(tmp_path / "flat.npy", np.column_stack([waves[:, :2], np.ones(len(waves))]))
    assert b"lane 2: its level does not change" in tool("slice", flat, status=3).stderr
    holes = saved(tmp_path / "holes.npy", np.where(np.arange(len(waves))[:, None] == 99, np.nan, waves))
    assert b"lane 0: a level is no finite number" in tool("slice", holes, status=3).stderr
    noise = np.random.default_rng(1).standard_normal((5000, 3))
    assert b"lane 0: its edges keep to no bit rate" in tool("slice", saved(tmp_path / "n.npy", noise), status=3).stderr
    clock = np.arange(len(waves)) // 17 % 2
    path = saved(tmp_path / "clock.npy", np.column_stack([waves, clock]))
    assert b"tenth of the clock" in tool("slice", path, "--clock", 3, status=3).stderr
    assert b"no whole number of samples" in tool("slice", path, "--raw", "int16", "--channels", 7, status=3).stderr


@pytest.mark.parametrize("lanes", ["0,1,0", "D0P,D2P,0", "0-1,0,2", "0-1,1-0,2", "0,-0,2", "0-1,2-3,3-2"])
def test_a_channel_that_is_named_twice(tool, plain, tmp_path, lanes):
    waves, _, _ = plain
    path = write_csv(tmp_path / "a.csv", ["t", "D0P", "D0N", "D1P", "D2P"], 1, np.column_stack([waves, waves[:, 0]]))
    assert b" is named twice" in tool("slice", path, "--lanes=" + lanes, status=3).stderr


def test_a_clock_that_is_a_lane_too(tool, plain, tmp_path):
    waves, _, _ = plain
    path = saved(tmp_path / "a.npy", waves)
    assert b"the channel `1` is named twice" in tool("slice", path, "--clock", 1, status=3).stderr


def test_lanes_against_one_wire(tool, plain, tmp_path):
    """A second wire may be that of many lanes."""
    waves, first, sent = plain
    path = saved(tmp_path / "a.npy", np.column_stack([waves + 50, np.full(len(waves), 50)]))
    assert_like(sent, first, tool("slice", path, "--lanes", "0-3,1-3,2-3").stdout)


def random_lanes(bits):
    """Three lanes of random bits; the tools look at no character."""
    return list(np.random.default_rng(9).integers(0, 2, (3, bits)).astype(bool))


@pytest.mark.parametrize("samples", [1.3, 1.8, 2.1, 2.3, 2.55])
def test_few_samples_ask_for_a_clock(tool, tmp_path, samples):
    lanes = random_lanes(20_000)
    channel = Channel(samples, random=0.1, noise=0.02, skew=SKEW)
    waves, first = channel.waves(lanes)
    path = saved(tmp_path / "a.npy", np.column_stack([waves, channel.clock(len(lanes[0]), len(waves))]))
    said = tool("slice", path, status=3).stderr
    assert b"lane 0: its edges " in said and b"; under 2.6 the clock's channel is wanted, with --clock\n" in said
    if samples > 2:
        assert_like(lanes, first, tool("slice", path, "--clock", 3).stdout)


def test_a_lane_of_another_rate(tool, tmp_path):
    """The clock's wire as a lane, and a lane that is 0.2 percent faster; one that is 0.05 percent faster is let pass."""
    lanes = random_lanes(20_000)
    channel = Channel(5.3, noise=0.02)
    waves, _ = channel.waves(lanes)
    path = saved(tmp_path / "a.npy", np.column_stack([waves, channel.clock(len(lanes[0]), len(waves))]))
    said = tool("slice", path, "--lanes", "0,1,3", status=1).stderr.splitlines()[-1]
    assert said.startswith(b"slice: the bit rates of the lanes differ by 400 percent: bits are wrong, or a channel is no")
    for part, status in ((0.002, 1), (0.0005, 0)):
        other, _ = Channel(5.3 * (1 + part), noise=0.02).waves(lanes)
        path = saved(tmp_path / "a.npy", np.column_stack([waves[:, :2], other[: len(waves), 2]]))
        said = tool("slice", path, status=status).stderr
        assert (b"differ by 0.2 percent" in said) == (status == 1)


def test_bad_words(tool, tmp_path):
    path = saved(tmp_path / "a.npy", np.zeros((9, 3)))
    for words in (["--lanes", "0,1"], ["--raw", "int8"], ["--channels", 3], ["--piece", 1], ["--rate", 0]):
        tool("slice", path, *words, status=2)
    tool("slice", path, "--raw", "int8", "--channels", 0, status=2)
    tool("slice", status=2)


def test_help(tool):
    assert tool("slice", "--help").stdout.startswith(b"usage: slice")


@pytest.fixture
def without_numba(tmp_path, monkeypatch):
    """Takes numba away from what is run."""

    def take():
        (tmp_path / "none").mkdir(exist_ok=True)
        (tmp_path / "none" / "numba.py").write_text("raise ImportError\n")
        monkeypatch.setenv("PYTHONPATH", str(tmp_path / "none"))

    return take


TROUBLES = [
    dict(samples=2.71, random=0.1, skew=SKEW),
    dict(samples=4.13, **HARD),
    dict(samples=7.77, **HARD),
    dict(samples=13.2, random=0.4, noise=0.15),  # bits are wrong, and the same ones
    dict(samples=39.87, **HARD),
]


@pytest.mark.parametrize("has_clock", [False, True])
@pytest.mark.parametrize("words", TROUBLES, ids=lambda words: f"{words['samples']}")
def test_numba_makes_no_difference(tool, without_numba, tmp_path, words, has_clock):
    """The same bits to the last, and the same figures, with it and without it."""
    pytest.importorskip("numba")
    lanes = random_lanes(12_000)
    channel = Channel(**words)
    waves, _ = channel.waves(lanes)
    waves = np.column_stack([waves, channel.clock(len(lanes[0]), len(waves))]).astype(np.float32)
    given = [saved(tmp_path / "a.npy", waves), "--piece", 9001, *(["--clock", 3] if has_clock else [])]
    status = 1 if "random" in words and words["samples"] == 13.2 else 0
    fast = tool("slice", *given, status=status)
    without_numba()
    slow = tool("slice", *given, status=status)
    assert fast.stdout == slow.stdout and len(fast.stdout) > 4000
    said, *figures = slow.stderr.splitlines()
    assert said == b"slice: Debian's package python3-numba is not here: with it this takes a fraction of the time"
    assert figures == fast.stderr.splitlines()


@pytest.fixture
def trace():
    """Levels of tenths, many of them alike or on a threshold, from moment 100 on."""
    levels = np.round(np.cumsum(np.random.default_rng(2).standard_normal(3000)) % 3, 1)
    return recovery.Trace(waveform.Piece(100, levels[:, None]), waveform.Channel(0, None))


def all_ways(monkeypatch, loop, write, by_numpy):
    """What a loop writes as Python's own and compiled, and what NumPy finds in its place."""
    pytest.importorskip("numba")
    found = [write(loop), write(loops.fast(loop))]
    monkeypatch.setattr(loops, "fast", lambda _: None)
    return [*found, by_numpy()]


@pytest.mark.parametrize("side", [False, True])
def test_edges_are_the_same_all_ways(monkeypatch, trace, side):
    low, high = np.float32(0.5), np.float32(2.0)

    def write(loop):
        moments = np.zeros(3000)
        return moments[: loop(trace.values, 1, side, low, high, 100.0, moments)]

    trace.new = 1
    one, *others = all_ways(monkeypatch, loops.cross, write, lambda: recovery.crossed(trace, side, low, high))
    assert len(one) > 100 and all(np.array_equal(one, other) for other in others)


@pytest.mark.parametrize("has_clock", [False, True])
def test_bits_are_the_same_all_ways(monkeypatch, trace, has_clock):
    """Also where two edges lie in one bit, and where bits lie before the first edge or past the last value."""
    noise = np.random.default_rng(4)
    numbers = np.cumsum(noise.integers(0, 5, 200))
    track = recovery.Track(110 + 7.3 * numbers + noise.standard_normal(200), numbers, noise.uniform(7, 8, 200), None)
    lane = recovery.Lane("a lane", None)
    lane.trace, lane.levels = trace, recovery.Levels(0, 3)
    lane.written.write(np.zeros(3, bool))
    base = recovery.Freely()
    if has_clock:
        base = recovery.Clock(None)
        base.track = recovery.Track(np.arange(90.0, 3000, 9.7), np.arange(300)[:300], np.full(300, 9.7), None)

    def write(loop):
        ones = np.zeros(447, bool)
        ends = loop(trace.values, 100.0, track[:3], base.track[:3], 3, 1.5, ones)
        return ones.tolist(), *ends

    def by_numpy():
        ones, *ends = lane.sampled(track, base, 450)
        return ones.tolist(), *ends

    one, *others = all_ways(monkeypatch, loops.sample, write, by_numpy)
    assert 100 < sum(one[0]) < 400 and all(one == other for other in others)


def test_what_is_compiled_is_kept(tool, plain, tmp_path, monkeypatch):
    """In a folder of the user's, once; where none can be written, or what is kept is torn, it is compiled anew."""
    pytest.importorskip("numba")
    waves, first, sent = plain
    path = saved(tmp_path / "a.npy", waves)
    monkeypatch.delenv("NUMBA_CACHE_DIR", raising=False)
    monkeypatch.setenv("XDG_CACHE_HOME", str(tmp_path / "cache"))
    kept = []
    for _ in range(2):
        assert_like(sent, first, tool("slice", path).stdout)
        kept.append({it: it.stat().st_mtime_ns for it in (tmp_path / "cache" / "vabgrot").rglob("*.nb*")})
    assert kept[0] == kept[1] and len(kept[0]) == 6
    for it in kept[0]:
        it.write_bytes(it.read_bytes()[:50])
    assert_like(sent, first, tool("slice", path).stdout)
    monkeypatch.setenv("XDG_CACHE_HOME", str(path))
    assert_like(sent, first, tool("slice", path).stdout)
