"""The first walk of the README, to its picture."""

from PIL import Image

from tests.support import TOP

SENT = TOP / "examples" / "sent.png"
# Video format 1: lines of 800 columns, the first row is line 35 of 525 and its first pixel column 144.
OFFSET, SKEW_OF_RED = 123457, 35


def damaged(place):
    """The pixel of the second frame whose red character begins at a place of lane 2."""
    column, rest = divmod(place + OFFSET + SKEW_OF_RED, 10)
    assert rest == 0
    line, across = divmod(column, 800)
    return across - 144, line - 525 - 35


def test_the_pictures_of_the_readme(tool, program, tmp_path):
    listing = tool("content", SENT, SENT).stdout
    capture = program("make", "content", "--offset", OFFSET, "--skew", "0,70,35", source=listing)
    places = range(4358748, 8195538 + 1, 8010)
    hurt = program("damage", *(f"2:{place}:0ab" for place in places), source=capture)
    shown = program("recover", "link", source=hurt, status=1)
    tool("pictures", tmp_path / "pictures", source=shown, status=1)
    sent = Image.open(SENT).convert("RGB")
    came = Image.open(tmp_path / "pictures" / "frame0000.png").convert("RGB")
    for place in map(damaged, places):
        red, green, blue = sent.getpixel(place)
        came_red, *others = came.getpixel(place)
        assert came_red != red and others == [green, blue]
        came.putpixel(place, (red, green, blue))
    assert came.tobytes() == sent.tobytes()
