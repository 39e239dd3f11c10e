"""tools/content --packet: each kind of packet there and back to the bit, also where a character of it is damaged. Bytes are written out by
hand from CTA-861 and HDMI 1.4."""

import pytest
from PIL import Image

from tests.tools.columns import bit_of, counted

MODE = "2,4,16,640,1,1,20,1,1"
# Of each word the packet that it makes: the header, and the bytes behind the checksum of an InfoFrame or all of another packet.
PACKETS = {
    "avi:YQ=1,CN=2,ITC=1": ("82020d", "12 08 88 00 60"),  # with S 2, A 1, R 8 and Q 2, as the tool's own has them
    "avi3:Y=2,VIC=193": ("82030d", "52 08 08 c1 00"),
    "avi4:C=3,EC=7,ACE=1": ("82040e", "12 c8 78 00 00 0000 0000 0000 0000 10"),
    "audio:CC=7,CT=1,SS=2,SF=3,CA=19,LSV=15,DM_INH=1,LFEPBL=1": ("84010a", "17 0e 00 13 f9"),
    "hdmi:HDMI_VIC=2": ("810105", "03 0c 00 20 02"),
    "3d:3D_Structure=8,3D_Ext_Data=1": ("810106", "03 0c 00 40 80 10"),
    "forum:ALLM_Mode=1": ("810107", "d8 5d c4 01 02"),
    "dolby:Low_Latency=1,Dolby_Vision_Signal=1": ("81011b", "46 d0 00 03"),
    "hdr10+:Application_Version=1,Targeted_System_Display_Maximum_Luminance=16,Average_Maxrgb=9": ("81011b", "8b 84 90 60 09"),
    "refresh:VRR_EN=1,Base_Vfront=4,Base_Refresh_Rate=300": ("7fc000", "c2 00 01 0001 0004 01 04 01 2c"),
    "extended:First=1,New=1,DS_Type=1,Organization_ID=2,Data_Set_Tag=4,Data_Set_Length=60": ("7f8000", "90 00 02 0004 003c"),
    "mpeg:MB=305419896,MF=1,FR=1": ("85010a", "78 56 34 12 11"),
    "dynamic:EOTF=2,x0=30000,y2=7500,white_x=15635,max=1000,min=50,MaxCLL=1000,MaxFALL=400": (
        "87011a",
        "02 00 3075 0000 0000 0000 0000 4c1d 133d 0000 e803 3200 e803 9001",
    ),
    "acp:ACP_Type=2,Copy_Permission=2,Copy_Number=3,Quality=1,Transaction=1": ("040200", "00 9b"),
    "isrc1:ISRC_Status=2,ISRC_Valid=1,text=USRC17607839": ("054200", "5553 5243 3137 3630 3738 3339"),
    "isrc2:text=AB": ("060000", "4142"),
    "gamut:Packet_Seq=3,Affected_Gamut_Seq_Num=5,Format_Flag=1,GBD_Color_Precision=1,GBD_Color_Space=2": ("0a0530", "8a"),
}


def bodies(header, data):
    """The four bodies, with the checksum of an InfoFrame before its bytes."""
    head, data = bytes.fromhex(header), bytes.fromhex(data.replace(" ", ""))
    if head[0] >= 0x80:
        data = bytes([-(sum(head) + sum(data)) % 256]) + data
    text = data.ljust(28, b"\0").hex()
    return " ".join(text[at : at + 14] for at in range(0, 56, 14))


@pytest.fixture
def image(tmp_path):
    Image.new("RGB", (2, 1)).save(tmp_path / "a.png")
    return tmp_path / "a.png"


@pytest.mark.parametrize("word", PACKETS)
def test_there_and_back(tool, program, image, word):
    listing = tool("content", image, "--mode", MODE, "--packet", word).stdout
    link = program("recover", "link", source=program("make", "content", source=listing)).decode()
    header, data = PACKETS[word]
    assert f"p {header} {bodies(header, data)} " in link


def test_all_of_a_frame_and_a_damaged_character(tool, program, image):
    """The tenth column of each packet has a control character on lane 1: what that hurts of the bodies is mended."""
    words = [part for word in PACKETS if "avi" not in word for part in ("--packet", word)]
    listing = tool("content", image, "--mode", MODE, *words).stdout
    capture = program("make", "content", source=listing)
    listed = program("recover", "link", source=capture)
    places = (bit_of(capture, listed, packet + 10) for packet in counted(listed).packets)
    damaged = program("damage", *(f"1:{place}:354" for place in places), source=capture)
    clean = listed.decode().splitlines()
    link = program("recover", "link", source=damaged, status=1).decode().splitlines()
    assert [line for line in link if line.startswith("p ")] == [line for line in clean if line.startswith("p ")]
    found = [line.split(" ")[1] for line in clean if line.startswith("p ")]
    assert found == ["82020d", *(header for word, (header, _) in PACKETS.items() if "avi" not in word)]
    assert sum(line.startswith("! symbols") for line in link) == len(found) and not any(
        line.startswith("! lost") for line in link
    )


def test_no_room(tool, image):
    """A line of 86 columns has room for one packet before its row, and for two where it has none."""
    words = ["--packet", "mpeg:MB=1"] * 20
    said = tool("content", image, "--mode", "2,4,16,64,1,1,2,1,1", *words, status=3).stderr
    assert b"a frame of the mode has room for 9 packets, but needs 21" in said


@pytest.mark.parametrize(
    "word, says",
    [
        ("no:A=1", b"there is no packet `no`. Choose one of: avi, avi3"),
        ("avi:VIC=128", b"avi: the field VIC cannot be 128. Give a number from 0 to 127"),
        ("hdmi:HDMI=1", b"hdmi has no field HDMI. Choose one of: HDMI_Video_Format, HDMI_VIC"),
        ("acp:ACP_Type", b"acp: `ACP_Type` is not FIELD=NUMBER"),
    ],
)
def test_wrong_packets(tool, image, word, says):
    assert says in tool("content", image, "--mode", MODE, "--packet", word, status=3).stderr
