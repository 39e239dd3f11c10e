"""tools/content and tools/pictures: YCbCr, deep colour, ranges, repeated pixels and interlaced fields, there and back. Expected
numbers are those of the formulas of ITU-R BT.601, BT.709 and BT.2020 and of the packing of HDMI 1.4, computed here pixel by pixel."""

import itertools
from fractions import Fraction

import png
import pytest
from PIL import Image

from tests.tools.columns import place_of

MODE = "8,4,16,64,4,1,2,1,1"
HEAD = "avi 2 0 1 {y} 8 0 {c} 0 {q} {ec} 0 {vic} {pr} 0 0 0 0\n"
KR_KB = {"601": ("0.299", "0.114"), "709": ("0.2126", "0.0722"), "2020": ("0.2627", "0.0593")}
PIXELS = [
    *[(0, 0, 0), (65535, 65535, 65535), (65535, 0, 0), (0, 65535, 0), (0, 0, 65535), (65535, 65535, 0), (0, 65535, 65535)],
    *[(65535, 0, 65535), (32896, 32896, 32896), (1, 2, 3), (4000, 40000, 60000), (12345, 23456, 34567), (60000, 1000, 30000)],
    *[(257, 514, 771), (50000, 50001, 50002), (65534, 32767, 1)],
]
BYTES = b"the bytes of the lanes are shown as red, green and blue"
PICTURE = PIXELS + PIXELS[::-1]  # 8 by 4


def rounded(value):
    """The whole number that is nearest, the greater of two."""
    return int((value + Fraction(1, 2)) // 1)


def levels(bits, full):
    """Of luma and of chroma: the number of 0 and the steps to 1."""
    if full:
        return (0, 2**bits - 1), (2 ** (bits - 1), 2**bits - 1)
    return (16 << bits - 8, 219 << bits - 8), (128 << bits - 8, 224 << bits - 8)


def ycbcr(rgb, matrix, bits, full, most=65535):
    """Y, Cb and Cr of a pixel, exactly."""
    kr, kb = map(Fraction, KR_KB[matrix])
    red, green, blue = (Fraction(part, most) for part in rgb)
    y = kr * red + (1 - kr - kb) * green + kb * blue
    parts = y, (blue - y) / (2 * (1 - kb)), (red - y) / (2 * (1 - kr))
    luma, chroma = levels(bits, full)
    places = luma, chroma, chroma
    return tuple(min(max(rounded(part * steps + zero), 0), 2**bits - 1) for part, (zero, steps) in zip(parts, places))


def colour(sample, matrix, bits, full, most):
    """Red, green and blue of Y, Cb and Cr, exactly."""
    kr, kb = map(Fraction, KR_KB[matrix])
    luma, chroma = levels(bits, full)
    y, cb, cr = (Fraction(number - zero, steps) for number, (zero, steps) in zip(sample, (luma, chroma, chroma)))
    red, blue = y + 2 * (1 - kr) * cr, y + 2 * (1 - kb) * cb
    green = (y - kr * red - kb * blue) / (1 - kr - kb)
    return tuple(rounded(min(max(part, 0), 1) * most) for part in (red, green, blue))


def lane_bytes(numbers, bits):
    """The characters of a lane that has these components: bit after bit, the lowest first; zeros fill the last one."""
    stream = [number >> place & 1 for number in numbers for place in range(bits)]
    stream += [0] * (-len(stream) % 8)
    return bytes(sum(bit << place for place, bit in enumerate(stream[at : at + 8])) for at in range(0, len(stream), 8))


def row_of(pixels, bits):
    """The digits of a row: lanes 2, 1 and 0 of each column."""
    return bytes(itertools.chain(*zip(*(lane_bytes([it[lane] for it in pixels], bits) for lane in range(3))))).hex()


def write_deep(path, pixels, width):
    rows = [list(itertools.chain(*pixels[at : at + width])) for at in range(0, len(pixels), width)]
    with open(path, "wb") as file:
        png.Writer(width, len(rows), greyscale=False, bitdepth=16).write(file, rows)


def read_png(path):
    """The bits of a component, the size, and the pixels of a PNG file."""
    with open(path, "rb") as file:
        width, height, rows, told = png.Reader(file=file).read()
        flat = list(itertools.chain(*rows))
    return told["bitdepth"], (width, height), [tuple(flat[at : at + 3]) for at in range(0, len(flat), 3)]


@pytest.fixture
def deep(tmp_path):
    write_deep(tmp_path / "deep.png", PICTURE, 8)
    return tmp_path / "deep.png"


@pytest.fixture
def shallow(tmp_path):
    image = Image.new("RGB", (8, 4))
    image.putdata([tuple(part >> 8 for part in pixel) for pixel in PICTURE])
    image.save(tmp_path / "shallow.png")
    return tmp_path / "shallow.png"


def rows_in(listing):
    return [line[4:] for line in listing.decode().splitlines() if line.startswith("row ")]


def sent_and_back(program, listing):
    """What `recover content`, which calls a depth of colour a fault, and `recover link` tell of the capture of a listing."""
    capture = program("make", "content", "--offset", 7, "--skew", "0,70,35", source=listing)
    return program("recover", "content", source=capture, status=1), program("recover", "link", source=capture)


@pytest.mark.parametrize("bits", [30, 36, 48])
def test_deep_colour_is_packed_from_phase_0_on(tool, deep, bits):
    """HDMI 1.4, section 6.5.2: ten, twelve or sixteen bits, the lowest first. Full range: parts of 2^n - 1."""
    size, most = bits // 3, 2 ** (bits // 3) - 1
    came = tool("content", deep, "--mode", MODE, "--depth", bits).stdout
    wanted = [tuple(rounded(Fraction(part * most, 65535)) for part in pixel) for pixel in PICTURE]
    assert rows_in(came) == [row_of(wanted[at : at + 8], size) for at in range(0, 32, 8)]
    columns = 8 * bits // 24
    phase = {30: 0, 36: 2, 48: 1}[bits]
    body = f"00{ {30: 5, 36: 6, 48: 7}[bits] | phase << 4:02x}010000000000"[:14]
    assert f"packet 030000 {' '.join([body] * 4)}\n".encode() in came
    assert came.startswith(f"mode {columns} ".encode()) and f"frame {columns} 4\n".encode() in came


@pytest.mark.parametrize("bits", [30, 36, 48])
def test_deep_colour_comes_back_to_the_bit(tool, program, deep, tmp_path, bits):
    """16-bit files of n bits: the number that is nearest to v of 2^n - 1 parts, of which the way back is exact."""
    most = 2 ** (bits // 3) - 1
    listing = tool("content", deep, deep, "--mode", MODE, "--depth", bits).stdout
    content, link = sent_and_back(program, listing)
    wanted = [
        tuple(rounded(Fraction(rounded(Fraction(part * most, 65535)) * 65535, most)) for part in pixel) for pixel in PICTURE
    ]
    for number, text in enumerate((listing, content, link)):
        tool("pictures", tmp_path / str(number), source=text)
        assert read_png(tmp_path / str(number) / "frame0000.png") == (16, (8, 4), wanted)
    again = tool("content", tmp_path / "1" / "frame0000.png", "--mode", MODE, "--depth", bits).stdout
    assert rows_in(again) == rows_in(content)[-4:] == rows_in(listing)[-4:]


@pytest.mark.parametrize("matrix", KR_KB)
@pytest.mark.parametrize("reach", ["limited", "full"])
@pytest.mark.parametrize("bits", [24, 30, 36, 48])
def test_ycbcr_444(tool, deep, shallow, tmp_path, matrix, reach, bits):
    size, is_full = bits // 3, reach == "full"
    most = 255 if bits == 24 else 65535
    words = ["--mode", MODE, "--encoding", "ycbcr444", "--matrix", matrix, "--range", reach, "--depth", bits]
    came = tool("content", shallow if bits == 24 else deep, *words).stdout
    pixels = [tuple(part >> 8 for part in pixel) for pixel in PICTURE] if bits == 24 else PICTURE
    samples = [ycbcr(pixel, matrix, size, is_full, most) for pixel in pixels]
    lanes = [(cr, y, cb) for y, cb, cr in samples]
    assert rows_in(came) == [row_of(lanes[at : at + 8], size) for at in range(0, 32, 8)]
    tool("pictures", tmp_path / "out", source=came)
    found = read_png(tmp_path / "out" / "frame0000.png")
    wanted = [colour(sample, matrix, size, is_full, most) for sample in samples]
    assert found == (8 if bits == 24 else 16, (8, 4), wanted)
    step = {24: 2, 30: 130, 36: 40, 48: 4}[bits]
    assert all(abs(one - other) <= step for pixel, back in zip(pixels, wanted) for one, other in zip(pixel, back))


@pytest.mark.parametrize("reach", ["limited", "full"])
@pytest.mark.parametrize("bits", [24, 30, 36])
def test_ycbcr_422(tool, deep, tmp_path, reach, bits):
    """HDMI 1.4, section 6.2.4: twelve bits, the highest eight of Y on lane 1 and of Cb and Cr in turn on lane 2, the lowest four of
    both on lane 0."""
    size, is_full = bits // 3, reach == "full"
    words = ["--mode", MODE, "--encoding", "ycbcr422", "--matrix", "709", "--range", reach, "--depth", bits]
    came = tool("content", deep, *words).stdout
    pixels = [tuple((part >> 8) * 257 for part in pixel) for pixel in PICTURE] if bits == 24 else PICTURE
    samples = [ycbcr(pixel, "709", size, is_full) for pixel in pixels]
    pairs = [(samples[at // 2 * 2], samples[at]) for at in range(32)]
    digits = ""
    for at, (first, own) in enumerate(pairs):
        y, c = own[0] << 12 - size, first[1 + at % 2] << 12 - size
        digits += f"{c >> 4:02x}{y >> 4:02x}{(c & 15) << 4 | y & 15:02x}"
    assert "".join(rows_in(came)) == digits and came.startswith(b"mode 8 4 16 64 ")
    tool("pictures", tmp_path / "out", source=came)
    most = 255 if bits == 24 else 65535
    wanted = [colour((own[0], first[1], first[2]), "709", size, is_full, most) for first, own in pairs]
    assert read_png(tmp_path / "out" / "frame0000.png") == (8 if bits == 24 else 16, (8, 4), wanted)


def test_rgb_of_limited_range(tool, tmp_path):
    text = HEAD.format(y=0, c=0, q=1, ec=0, vic=0, pr=0) + "row 101010ebebeb7d7d7d00ff10\nframe 4 1\nend\n"
    tool("pictures", tmp_path, source=text.encode())
    grey = rounded(Fraction((0x7D - 16) * 255, 219))
    assert read_png(tmp_path / "frame0000.png")[2] == [(0, 0, 0), (255,) * 3, (grey,) * 3, (0, 255, 0)]
    tool("pictures", tmp_path, "--raw", "--force", source=text.encode())
    assert read_png(tmp_path / "frame0000.png")[2] == [(16,) * 3, (235,) * 3, (125,) * 3, (0, 255, 16)]


def test_repeated_pixels_are_taken_out(tool, program, tmp_path):
    image = Image.new("RGB", (4, 4))
    image.putdata([tuple(part >> 8 for part in pixel) for pixel in PICTURE[:16]])
    image.save(tmp_path / "a.png")
    listing = tool("content", tmp_path / "a.png", "--mode", MODE, "--repeat", 2).stdout
    assert b"avi 2 0 1 0 8 0 0 0 2 0 0 0 1 " in listing and rows_in(listing)[0][:12] == "000000000000"
    tool("pictures", tmp_path / "out", source=listing)
    assert read_png(tmp_path / "out" / "frame0000.png")[1:] == ((4, 4), list(image.getdata()))
    assert (
        b"a row has 8 pixels, which it does not divide"
        in tool("content", tmp_path / "a.png", "--mode", MODE, "--repeat", 3, status=3).stderr
    )


@pytest.mark.parametrize(
    "head, notes",
    [
        ("", [b"frame 0: no AVI InfoFrame came: the pixels are taken for RGB of full range"]),
        (HEAD.format(y=2, c=1, q=1, ec=0, vic=0, pr=0), []),
        (
            HEAD.format(y=2, c=0, q=1, ec=0, vic=0, pr=0),
            [b"frame 0: no colorimetry is told: BT.601 is taken, as CTA-861 has it for 4 pixels a row"],
        ),
        (
            HEAD.format(y=2, c=0, q=1, ec=0, vic=16, pr=0),
            [b"frame 0: no colorimetry is told: BT.709 is taken, as CTA-861 has it for 1920 pixels a row"],
        ),
        (
            HEAD.format(y=2, c=1, q=0, ec=0, vic=0, pr=0),
            [b"frame 0: the range of YCbCr is not told by a content listing: the limited one is taken"],
        ),
        (
            HEAD.format(y=2, c=3, q=1, ec=5, vic=0, pr=0),
            [b"frame 0: the colorimetry BT.2020 of constant luminance is not converted: " + BYTES],
        ),
        (
            HEAD.format(y=0, c=0, q=0, ec=0, vic=16, pr=0),
            [b"frame 0: RGB of the default range, which CTA-861 makes the limited one here, is shown as it was sent"],
        ),
        (HEAD.format(y=0, c=0, q=0, ec=0, vic=1, pr=0), []),
        (
            HEAD.format(y=3, c=0, q=0, ec=0, vic=0, pr=0),
            [b"frame 0: YCbCr 4:2:0 are not converted: " + BYTES],
        ),
        (
            HEAD.format(y=0, c=0, q=2, ec=0, vic=0, pr=0) + "gcp 0 0 9\n",
            [b"frame 0: the depth 9 of a general control packet is reserved: 24 bits are taken"],
        ),
    ],
)
def test_what_is_assumed_is_said(tool, tmp_path, head, notes):
    text = f"{head}row 101010ebebeb7d7d7d00ff10\nframe 4 1\nend\n".encode()
    came = tool("pictures", tmp_path, source=text).stderr.splitlines()
    assert came == [*notes, b"1 frames, 0 faults in them, 0 others"]


def test_a_depth_of_0_leaves_the_last_one(tool, tmp_path):
    text = HEAD.format(y=0, c=0, q=2, ec=0, vic=0, pr=0) + "gcp 0 0 7\ngcp 1 0 0\nrow 010203000000\nframe 2 1\nend\n"
    tool("pictures", tmp_path, source=text.encode())
    assert read_png(tmp_path / "frame0000.png") == (16, (1, 1), [(1, 2, 3)])


@pytest.mark.parametrize(
    "words",
    [["--encoding", "ycbcr444"], ["--encoding", "ycbcr422"], ["--depth", 36], ["--encoding", "ycbcr444", "--depth", 30]],
)
def test_damaged_pixels_are_marked(tool, program, deep, tmp_path, words):
    """One character of green, or of Y, becomes a control character, which codes no byte: no pixel but those that have bits of it is
    another, and the mark is round the first."""
    bits = words[-1] if words[-2] == "--depth" else 24
    listing = tool("content", deep, deep, "--mode", MODE, *words).stdout
    capture = program("make", "content", source=listing)
    clean = program("recover", "link", source=capture)
    column, row = 3, 3
    place = place_of(capture, clean, 4 + row, column)  # of the second frame
    damaged = program("damage", f"1:{place}:354", source=capture)
    link = program("recover", "link", source=damaged, status=1)
    tool("pictures", tmp_path / "clean", source=clean)
    assert b"frame 1: 1 code\n" in tool("pictures", tmp_path / "hurt", "--mark", source=link, status=1).stderr
    (_, size, one), (_, _, other) = (read_png(tmp_path / name / "frame0001.png") for name in ("clean", "hurt"))
    touched = {(x, row) for x in range(8 * column // (bits // 3), (8 * column + 7) // (bits // 3) + 1)}
    pixel = min(x for x, _ in touched)
    box = {
        (x, y) for x in range(pixel - 2, pixel + 3) for y in range(row - 2, row + 3) if abs(x - pixel) == 2 or abs(y - row) == 2
    }
    changed = {(place % size[0], place // size[0]) for place in range(len(one)) if one[place] != other[place]}
    assert changed & touched and changed <= box | touched


UPPER, LOWER = ["101112", "202122", "303132"], ["909192", "a0a1a2", "b0b1b2"]
LINE, ACTIVE = 60, 1


def fields_listing(first_is_upper=True, count=4, avi=True):
    """A link listing of interlaced video, made here: fields of 3 rows of one pixel; lines of 60 columns; VSYNC of two lines, of each
    second field half a line later."""
    spans, rows, at = [], {}, 0
    for number in range(count):
        half = (number + (not first_is_upper)) % 2
        begin = at * LINE + (LINE // 2) * half
        spans.append((begin, begin + 2 * LINE))
        for row, pixel in enumerate((LOWER if half else UPPER)):
            rows[at + half + 4 + row] = pixel
        at += 8 + half
    lines = []

    def level(column):
        return 2 * any(one <= column < other for one, other in spans) + (column % LINE < 6)

    def run(first, last, bits=0):
        for column in range(first, last):
            value = level(column) | bits
            if lines and lines[-1][0] == value:
                lines[-1][1] += 1
            else:
                lines.append([value, 1])

    out = []

    def flush():
        out.extend(f"c {value:02x} {times}" for value, times in lines)
        lines.clear()

    for line in range(at + 2):
        begin = line * LINE
        if line in rows:
            run(begin, begin + 30)
            run(begin + 30, begin + 38, 4)
            flush()
            out.append(f"v {rows[line]}")
            run(begin + 41, begin + LINE)
        else:
            run(begin, begin + LINE)
    run(spans[0][0], spans[0][0] + 6)
    flush()
    return "\n".join([*out, "end", ""]).encode()


def pixels(path):
    return [f"{red:02x}{green:02x}{blue:02x}" for red, green, blue in read_png(path)[2]]


def test_fields_are_woven(tool, tmp_path):
    """CTA-861: of the second field VSYNC begins half a line later, so its rows lie below those of the first."""
    woven = list(itertools.chain(*zip(UPPER, LOWER)))
    came = tool("pictures", tmp_path / "woven", source=fields_listing())
    assert [pixels(tmp_path / "woven" / f"frame000{it}.png") for it in (0, 1)] == [woven, woven]
    assert came.stderr.endswith(b"2 frames, 0 faults in them, 0 others\n")
    tool("pictures", tmp_path / "apart", "--fields", source=fields_listing())
    assert [pixels(tmp_path / "apart" / f"frame000{it}.png") for it in range(4)] == [UPPER, LOWER] * 2


def test_marks_of_woven_fields(tool, tmp_path):
    """Row 1 of the second field, on line 8 + 1 + 4 + 1 of 60 columns each, is row 3 of the frame; its pixel is column 40 of the line."""
    text = fields_listing().decode()
    at = text.index("v a0a1a2\n") + len("v a0a1a2\n")
    hurt = (text[:at] + f"! code 1 {14 * LINE + 40}\n" + text[at:]).encode()
    came = tool("pictures", tmp_path, "--mark", source=hurt, status=1)
    assert came.stderr.startswith(b"frame 0: 1 code\n")
    assert pixels(tmp_path / "frame0000.png") == ["101112", "ff8000", "202122", "a0a1a2", "303132", "ff8000"]


def test_a_field_without_its_other_one(tool, tmp_path):
    came = tool("pictures", tmp_path, source=fields_listing(first_is_upper=False, count=4))
    assert b"frame 0: a field without its other one is a picture of its own\n" in came.stderr
    woven = list(itertools.chain(*zip(UPPER, LOWER)))
    assert [pixels(tmp_path / f"frame000{it}.png") for it in range(3)] == [LOWER, woven, UPPER]


def test_fields_of_a_content_listing_are_not_woven(tool, tmp_path):
    text = HEAD.format(y=0, c=0, q=2, ec=0, vic=5, pr=0) + "row 010203\nframe 1 1\nrow 040506\nframe 1 1\nend\n"
    came = tool("pictures", tmp_path, source=text.encode())
    assert b"frame 0: a content listing does not tell which of two fields is the upper" in came.stderr
    assert pixels(tmp_path / "frame0001.png") == ["040506"]


def test_bad_words(tool, deep):
    for words in (
        ["--depth", 27],
        ["--encoding", "rgb565"],
        ["--repeat", 11],
        ["--range", "wide"],
        ["--allocation", 3],
        ["--matrix", "1"],
    ):
        tool("content", deep, "--mode", MODE, *words, status=2)
    said = tool("content", deep, "--mode", MODE, "--encoding", "ycbcr422", "--depth", 48, status=3).stderr
    assert b"YCbCr 4:2:2 cannot have so many bits. Give 24, 30 or 36" in said


def test_lines_of_no_whole_number_of_columns(tool, deep):
    """A line of 86 pixels of 30 bits has 107.5 columns."""
    came = tool("content", deep, "--mode", "8,4,16,58,4,1,2,1,1", "--depth", 30)
    assert came.stdout.startswith(b"mode 10 ") and b"lines have 107 columns, since 107.5 are no whole number" in came.stderr


def test_too_wide(tool, deep):
    said = tool("content", deep, "--mode", "3000,4,16,64,4,1,2,1,1", "--fit", "scale", "--depth", 36, status=3).stderr
    assert b"a row has 4500 columns" in said
