"""tools/pictures: the frames of a content listing as PNG files."""

import pytest
from PIL import Image

TWO = b"""avi 2 0 1 0 8 0 0 0 2 0 0 0 0 0 0 0 0
row 0102030a0b0c
row ff0000000000
frame 2 2
row 111111222222
row 333333444444
frame 2 2
end
"""


def pixels(path):
    with Image.open(path) as image:
        return image.size, list(image.getdata())


def test_frames_are_the_rows(tool, tmp_path):
    folder = tmp_path / "new" / "out"
    came = tool("pictures", folder, source=TWO)
    assert came.stderr == b"2 frames, 0 faults in them, 0 others\n" and came.stdout == b""
    assert sorted(path.name for path in folder.iterdir()) == ["frame0000.png", "frame0001.png"]
    assert pixels(folder / "frame0000.png") == ((2, 2), [(1, 2, 3), (10, 11, 12), (255, 0, 0), (0, 0, 0)])
    assert pixels(folder / "frame0001.png") == ((2, 2), [(17,) * 3, (34,) * 3, (51,) * 3, (68,) * 3])


def test_a_senders_listing_has_frames_too(tool, tmp_path):
    tool("pictures", tmp_path, source=b"mode 2 1 2 14 2 1 1 1 0\n" + TWO)
    assert (tmp_path / "frame0001.png").exists()


def test_faults_are_counted(tool, tmp_path):
    """The first `! code` is of a line that is not listed; packets and control columns touch no pixel."""
    text = TWO.replace(b"row 33", b"! code 2 700\n! code 1 702\n! word 0 711\nrow 33")
    text = b"! code 2 99\n! symbols 14 1\n! mended 14 0 1\n" + text[:-4] + b"row 000000000000\ncut 900\nend\n"
    came = tool("pictures", tmp_path, source=text, status=1)
    assert came.stderr.splitlines() == [
        b"frame 1: 2 code",
        b"1 rows of a frame that did not end are left out",
        b"2 frames, 2 faults in them, 4 others",
    ]


def test_a_ragged_row_is_cut_or_filled(tool, tmp_path):
    text = TWO.replace(b"row ff0000000000", b"row ff0000\n! ragged 1").replace(
        b"333333444444", b"333333444444555555\n! ragged 1"
    )
    tool("pictures", tmp_path, source=text, status=1)
    assert pixels(tmp_path / "frame0000.png")[1][2:] == [(255, 0, 0), (0, 0, 0)]
    assert pixels(tmp_path / "frame0001.png")[1][2:] == [(51,) * 3, (68,) * 3]


MARK = (255, 128, 0)
WIDE = b"row " + b"808080" * 12 + b"\n"
LINK = b"c 00 4\nc 04 8\nv " + b"808080" * 12 + b"\n! code 2 19\n! code 0 25\nc 00 12\nend\n"


def test_marks_at_the_ends_of_a_row(tool, tmp_path):
    text = WIDE + WIDE + b"! code 2 19\nframe 12 2\nend\n"
    tool("pictures", "--mark", tmp_path, source=text, status=1)
    assert pixels(tmp_path / "frame0000.png")[1] == [(128,) * 3] * 12 + [MARK] * 4 + [(128,) * 3] * 4 + [MARK] * 4
    tool("pictures", "--force", tmp_path, source=text, status=1)
    assert pixels(tmp_path / "frame0000.png")[1] == [(128,) * 3] * 24


def test_frames_of_an_earlier_run(tool, tmp_path):
    (tmp_path / "frames.png").write_bytes(b"kept")
    tool("pictures", tmp_path, source=TWO)
    one = TWO[: TWO.index(b"row 1111")] + b"end\n"
    assert b"it already contains frame0000.png" in tool("pictures", tmp_path, source=one, status=3).stderr
    assert (tmp_path / "frame0001.png").exists()
    tool("pictures", tmp_path, "--force", source=one)
    assert sorted(path.name for path in tmp_path.iterdir()) == ["frame0000.png", "frames.png"]


def test_boxes_round_pixels(tool, tmp_path):
    """Pixel 0 of the line of the link listing is column 14."""
    (tmp_path / "link").write_bytes(LINK)
    text = WIDE * 3 + b"! code 2 19\n" + WIDE * 2 + b"frame 12 5\nend\n"
    tool("pictures", "--mark", "--link", tmp_path / "link", tmp_path, source=text, status=1)
    found = pixels(tmp_path / "frame0000.png")[1]
    box = {(x, y) for x in range(3, 8) for y in range(5)} - {(x, y) for x in range(4, 7) for y in range(1, 4)}
    assert {(place % 12, place // 12) for place, colour in enumerate(found) if colour == MARK} == box


def test_columns_are_not_counted_past_noise(tool, tmp_path):
    (tmp_path / "link").write_bytes(b"c 00 12\n! noise 12\n" + LINK)
    text = WIDE + b"! code 2 19\nframe 12 1\nend\n"
    tool("pictures", "--mark", "--link", tmp_path / "link", tmp_path, source=text, status=1)
    assert pixels(tmp_path / "frame0000.png")[1] == [MARK] * 4 + [(128,) * 3] * 4 + [MARK] * 4


DVI = b"""c 00 12
v 111111
c 02 3
c 00 12
v 0102030a0b0c0d0e0f101112
! code 2 29
c 00 2
c 02 1
c 00 12
v ff0000000000111111222222
c 02 1
! word 1 48
c 02 2
c 00 12
v 222222
c 00 12
cut 90
end
"""


def test_a_dvi_listing_has_the_frames_between_two_changes_of_vsync(tool, tmp_path):
    """A single column of VSYNC changes nothing, and a `! word` parts no three columns; pixel 0 of the first row is
    column 28."""
    came = tool("pictures", "--mark", tmp_path, source=DVI, status=1)
    assert came.stderr.splitlines() == [
        b"frame 0: 1 code",
        b"1 rows of a frame that did not end are left out",
        b"1 frames, 1 faults in them, 1 others",
    ]
    first, second = [(1, 2, 3), (10, 11, 12), (13, 14, 15)], [(255, 0, 0), (0, 0, 0), (17, 17, 17)]
    assert pixels(tmp_path / "frame0000.png") == ((4, 2), [*first, MARK, *second, MARK])


def test_a_slip_leaves_its_frame_out(tool, tmp_path):
    slipped = DVI.replace(b"cut 90\nend\n", b"! slip 1 900\n") + DVI
    came = tool("pictures", tmp_path, source=slipped, status=1)
    assert came.stderr.splitlines() == [
        b"frame 0: 1 code",
        b"frame 1: 1 code",
        b"2 rows of a frame that did not end are left out",
        b"2 frames, 2 faults in them, 3 others",
    ]


@pytest.mark.parametrize(
    "text, says",
    [
        (b"", b"the input is empty"),
        (TWO[:-4], b"ends after 7 lines"),
        (TWO + b"x", b"line 9: it comes after the line `end`"),
        (TWO[:60], b"line 3: the listing ends within this line"),
        (b"c 00 12\nrow 010203\nend\n", b"line 2: `row 010203` does not begin a line of a link listing"),
        (b"! code 0 9\nrow 010203\nc 00 12\nend\n", b"line 3: `c 00 12` does not begin a line of a content listing"),
        (b"x\nend\n", b"line 1: `x` does not begin a line of a listing"),
        (b"c 0x 12\nend\n", b"line 1: `0x` is not a hexadecimal number"),
        (b"c 00 12\n! code\nend\n", b"line 2: the fault has no place"),
        (b"row 01020\nend\n", b"line 1: `01020` is not a row of 6 hexadecimal digits each"),
        (b"row 0102030405\nend\n", b"line 1: `0102030405` is not a row"),
        (b"row x\nend\n", b"line 1"),
        (b"row\nend\n", b"line 1"),
        (b"!\nend\n", b"line 1"),
        (b"row 010203\nframe 1\nend\n", b"line 2: it has 1 fields instead of 2"),
        (b"row 010203\nframe 1 x\nend\n", b"line 2: `x` is not a decimal number"),
        (b"row 010203\nframe 2 1\nend\n", b"line 2: the rows before it are no frame of 2 x 1 pixels"),
        (b"frame 2 1\nend\n", b"line 1: the rows before it"),
        (b"\xff\xfe\n", b"line 1"),
    ],
)
def test_bad_listings(tool, tmp_path, text, says):
    assert says in tool("pictures", tmp_path, source=text, status=3).stderr


def test_bad_words(tool, tmp_path):
    tool("pictures", status=2)
    tool("pictures", tmp_path, "--link", tmp_path / "link", status=2)
    (tmp_path / "file").write_bytes(b"")
    tool("pictures", tmp_path / "file", source=TWO, status=3)
    tool("pictures", tmp_path, "--mark", "--link", tmp_path / "missing", source=TWO, status=3)


def test_help(tool):
    assert tool("pictures", "--help").stdout.startswith(b"usage: pictures")


def test_a_capture_has_the_frames_of_its_listing(tool, program, tmp_path):
    """Two rows of two pixels between two changes of VSYNC, of which one pixel is damaged; a row before them aligns the receiver."""
    row = "c 04 8\nv {}\nc 00 12\n"
    first, rows = row.format("000000ffffff"), row.format("0102030a0b0c") + row.format("ff0000000000")
    text = f"c 00 12\n{first}c 02 12\nc 00 12\n{rows}c 02 12\nc 00 12\nend\n"
    capture = program("damage", f"2:{10 * (60 + 8 + 2)}:300", source=program("make", "link", source=text.encode()))
    link = program("recover", "link", source=capture, status=1)
    came = [tool("pictures", tmp_path / name, "--mark", source=it, status=1).stderr for name, it in (("capture", capture), ("link", link))]
    assert came[0] == came[1] and came[0].endswith(b"\n1 frames, 1 faults in them, 0 others\n")
    assert (tmp_path / "capture" / "frame0000.png").read_bytes() == (tmp_path / "link" / "frame0000.png").read_bytes()
    assert b"not aligned" in tool("pictures", tmp_path / "none", source=capture[:-1], status=1).stderr  # no whole block is left


@pytest.mark.parametrize("line", [b"! slip 1 900\n", b"! relock 900\n"])
def test_a_frame_of_a_content_listing_goes_on_over_a_slip(tool, tmp_path, line):
    """As `recover content relock` lists it."""
    came = tool("pictures", tmp_path, source=TWO.replace(b"row ff", line + b"row ff"))
    assert came.stderr == b"2 frames, 0 faults in them, 1 others\n"
    assert pixels(tmp_path / "frame0000.png")[1][2:] == [(255, 0, 0), (0, 0, 0)]
