"""vabgrot.lanes.openings and what tools/report advises by it, and what `recover track` sees of lanes that lose bits."""

import json
import re
import shlex
from html import unescape

import pytest

from tests.models import hearing, model, relocking

ACROSS, LINES, FIRST, PIXELS = 80, 12, 48, 30  # columns of a line, lines, the column of the first guard, pixels of a row


@pytest.fixture
def sent(program):
    """Makes a capture of some rows of unlike pixels, with 48 control columns before each."""

    def make(*words, kind="link"):
        rows = [f"v {(37 * row + 11) % 256:02x}{(11 * row + 3) % 256:02x}{(5 * row + 7) % 256:02x}" for row in range(LINES)]
        text = "".join(f"c 00 40\nc {'04' if kind == 'link' else '00'} 8\n{row[:2]}{row[2:] * PIXELS}\n" for row in rows)
        return program("make", kind, *words, source=f"{text}c 00 40\nend\n".encode())

    return make


def place(line, column):
    """The place of a column of a line, counted from its first guard, in a lane without skew."""
    return 10 * (ACROSS * line + FIRST + column)


def bits_of(tool, capture, folder):
    paths = [folder / name for name in "bgr"]
    counts = tool("lanes", "unpack", *paths, source=capture).stdout.decode().split(",")
    lanes = ["".join(f"{byte:08b}"[::-1] for byte in path.read_bytes()) for path in paths]
    return [lane[: int(count)] for lane, count in zip(lanes, counts)], paths


def packed(tool, lanes, paths):
    for path, lane in zip(paths, lanes):
        padded = lane + "0" * (-len(lane) % 8)
        path.write_bytes(bytes(int(padded[at : at + 8][::-1], 2) for at in range(0, len(padded), 8)))
    return tool("lanes", "pack", "--bits", ",".join(str(len(lane)) for lane in lanes), *paths).stdout


@pytest.fixture
def advice(tool, tmp_path):
    """What the report of a capture advises, and the verdict."""

    def read(capture, *words, status=1):
        pytest.importorskip("jinja2", reason="Debian's package python3-jinja2 is missing")
        (tmp_path / "a.tmc").write_bytes(capture)
        tool("report", tmp_path / "a.tmc", "-o", tmp_path / "a.html", *words, status=status)
        text = (tmp_path / "a.html").read_text()
        section = re.search(r'<section id="advice".*?</section>', text, re.S)
        lines = re.findall(r"<li>(.*?)</li>", section[0], re.S) if section else []
        return [unescape(line).replace("\n", " ") for line in lines], re.search(r"<title>(.*?):", text)[1]

    return read


def cut(tool, capture, line, folder):
    """The capture as the advice says."""
    (folder / "a.tmc").write_bytes(capture)
    name, *words, _, _ = shlex.split(re.search(r"“tools/(lanes cut a.tmc .* > cut.tmc)”", line)[1])
    words[1] = folder / words[1]
    return tool(name, *words).stdout


@pytest.mark.parametrize("skew", [(0, 0, 0), (0, 70, 35), (20, 0, 11)])
@pytest.mark.parametrize("lane", [0, 1, 2])
@pytest.mark.parametrize("back", [1, 7])
def test_a_damaged_control_character_before_the_first_edge(tool, program, sent, advice, tmp_path, skew, lane, back):
    """The report reads the capture anew, so it advises nothing, and has all rows but the first."""
    capture = sent("--offset", 7, "--skew", ",".join(map(str, skew)))
    hurt = program("damage", f"{lane}:{place(0, -back) - 7 - skew[lane]}:300", source=capture)
    early = [one + 10 * back * (number == lane) for number, one in enumerate(skew)]
    if max(early) - min(early) > 70:  # the edge before the damage is of no alignment: the first is at the next row
        assert advice(hurt) == ([], "Source wrong")
        return
    assert advice(hurt) == ([], "Link faulty")
    said = json.loads(tool("report", tmp_path / "a.tmc", "--json", status=1).stdout)
    assert said["relocked"] and said["rows"] == LINES - 1


def test_lanes_that_are_too_far_apart(tool, program, sent, advice, tmp_path):
    lines, verdict = advice(sent("--skew", "0,300,35"))
    assert verdict == "Not aligned" and len(lines) == 1
    assert f"At the skew 0,300,35, {LINES} openings" in lines[0]
    assert program("recover", "link", source=cut(tool, (tmp_path / "a.tmc").read_bytes(), lines[0], tmp_path)).count(b"\nv ") == LINES


def test_advice_about_dvi_where_it_fits(tool, program, sent, advice):
    """Where no control period ends in guards; not where they are those of HDMI, at another skew, at which the capture is read anew."""
    lines, _ = advice(sent(kind="dvi"))
    assert "--dvi" in lines[0] and len(lines) > 4
    hurt = program("damage", f"1:{place(0, -3)}:133", source=sent())
    assert not any("--dvi" in line for line in advice(hurt)[0])


def test_an_alignment_behind_what_is_looked_at(tool, sent, advice, tmp_path):
    lanes, paths = bits_of(tool, sent(kind="dvi"), tmp_path)
    late = packed(tool, ["0" * (1 << 24) + lane for lane in lanes], paths)
    lines, verdict = advice(late)
    assert verdict == "Link faulty" and len(lines) > 4 and not any("--dvi" in line for line in lines)


def test_what_openings_are(sent, tmp_path):
    pytest.importorskip("numpy", reason="Debian's package python3-numpy is missing")
    from vabgrot.lanes import openings

    (tmp_path / "a.tmc").write_bytes(sent("--offset", 3, "--skew", "0,70,35"))
    fits = openings.fits(openings.beginnings(tmp_path / "a.tmc"))
    places = tuple(place(0, 0) - 3 - late for late in (0, 70, 35))
    assert fits.found == fits.best and fits.found.made_words == "0,70,35" and fits.later is None
    assert (fits.found.openings, fits.found.first, fits.found.spread) == (LINES, places, 70)
    assert fits.found.cut == tuple(at - 120 for at in places)
    assert openings.fits(openings.beginnings(tmp_path / "a.tmc", 4096)).found.openings == 5
    (tmp_path / "b.tmc").write_bytes(b"TMC1" + (4000).to_bytes(4, "big") + bytes(1500))
    assert openings.fits(openings.beginnings(tmp_path / "b.tmc")) is None


def slips(track):
    return [line for line in track.decode().splitlines() if line.startswith("! slip ")]


@pytest.fixture
def off(tool, program, sent, tmp_path):
    """Captures of which lane 1 lost a character in the sixth row, had one twice, or lost it in parts; and the skew behind."""
    capture, at = sent(), place(5, 9)
    (blue, green, red), paths = bits_of(tool, capture, tmp_path)
    lost, again = (packed(tool, [blue, lane, red], paths) for lane in (green[:at] + green[at + 10 :], green[: at + 10] + green[at:]))
    parts = program("slip", f"1:{place(5, 19)}:7", source=program("slip", f"1:{at}:3", source=capture))
    return (lost, "0,10,0"), (again, "10,0,10"), (parts, "0,10,0")


def test_whole_characters_that_are_lost_or_repeated_are_no_slip(program, sent, off):
    """Ten bits at once, or in parts within a row; test_they_are_read_anew has what the report makes of them."""
    for hurt, _ in off:
        assert slips(program("recover", "track", source=hurt, status=1)) == []
    rows = program("slip", f"1:{place(6, 9)}:7", source=program("slip", f"1:{place(5, 9)}:3", source=sent()))
    assert len(slips(program("recover", "track", source=rows, status=1))) == 2


def test_they_are_read_anew(tool, off, advice, tmp_path):
    """What the report shows is what `recover relock` writes, by its model."""
    for hurt, _ in off:
        assert advice(hurt) == ([], "Link faulty")
        said = json.loads(tool("report", tmp_path / "a.tmc", "--json", status=1).stdout)
        _, listing = relocking.relocked(model.lanes_in(hurt), hearing.link_of)
        assert said["relocked"] and said["rows"] == listing.count(b"\nv ") and LINES - 1 <= said["rows"]
        assert said["says"].startswith("Link faulty: relock: at bit ") and "1 alignment dropped" in said["slips"]


@pytest.mark.parametrize("slips_of_it", [(5,), (3, 7)])
def test_lanes_that_go_too_far_apart(tool, program, sent, advice, tmp_path, slips_of_it):
    """A lane that is 70 bits late loses some more, or a whole character, which is no slip."""
    hurt, lost = sent("--skew", "0,70,0"), sum(slips_of_it)
    for bits in slips_of_it:
        hurt = program("slip", f"1:{place(5, 9)}:{bits}", source=hurt)
    lines, verdict = advice(hurt)
    assert verdict == "Link faulty" and len(lines) == 1
    far, begin = f"the skew 0,{70 + lost},0", f"rom the place {place(6, 0):,} of lane 0 on openings fit at "
    told = f"{begin}{far}, but lanes more than 70 bits apart are not aligned"
    looked = tool("lanes", "look", tmp_path / "a.tmc").stdout.decode()
    if lost == 10:
        assert told in lines[0] and "\nright as it is: " in looked and f" openings\nf{told}\n" in looked
    else:
        slip = slips(program("recover", "track", source=hurt, status=1))[0].split()[-1]
        assert f"After the place {int(slip):,}, at {far}, {LINES - 6} openings have " in lines[0]
    assert advice(cut(tool, hurt, lines[0], tmp_path)) == ([], "Source wrong")


@pytest.mark.parametrize("lost, rows", [(7, LINES - 7), (8, 0)])
def test_lost_bits_add_up_to_a_skew(program, sent, lost, rows):
    """Nine bits in each of the first rows: after seven of them the lanes align anew, 63 bits apart, and not after eight."""
    capture = sent()
    for row in range(lost):
        capture = program("slip", f"1:{place(row, 9) - 9 * row}:9", source=capture)
    track = program("recover", "track", source=capture, status=1)
    assert len(slips(track)) == lost and track.count(b"\nv ") == rows


@pytest.mark.parametrize("before, rows", [(0, LINES - 1), (1, LINES - 1), (11, LINES - 1), (12, LINES), (20, LINES)])
def test_a_slip_shortly_before_a_row_costs_it(program, sent, before, rows):
    """So many whole characters of the lane stand between the slip and the row's guard."""
    capture = program("slip", f"1:{place(5, -before) - 5}:3", source=sent())
    track = program("recover", "track", source=capture, status=1)
    assert len(slips(track)) == 1 and track.count(b"\nv ") == rows
