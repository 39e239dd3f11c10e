"""Packets in words: each field's number and meaning. Expected bytes are written out by hand from CTA-861 and HDMI 1.4; Linux's own
decoder of InfoFrames, where its source is to be had, says the same numbers; edid-decode has the sizes and rates of formats."""

import os
import random
import re
import shutil
import subprocess
import tarfile
from pathlib import Path

import pytest

from vabgrot import making, packets
from vabgrot.errors import Refused
from vabgrot.formats import speakers
from vabgrot.formats.names import LATER_NAMES
from vabgrot.infoframes import mode_name

HERE = Path(__file__).resolve().parent
SOURCE = ("drivers/video/hdmi.c", "include/linux/hdmi.h")
NO_SOURCE = "there is no source of Linux in /usr/src (Debian's linux-source) or where LINUX_SOURCE says"


def packet(header, data):
    """A packet of digits: its header, and the bytes from PB0 on."""
    return packets.Packet(bytes.fromhex(header), making.bodies_of(bytes.fromhex(data.replace(" ", "")).ljust(28, b"\0")))


def infoframe(kind, version, payload):
    """An InfoFrame: the sum of all its bytes is 0."""
    data = bytes.fromhex(payload)
    header = bytes((kind, version, len(data)))
    return packet(header.hex(), f"{-(sum(header) + sum(data)) % 256:02x}{payload}")


def told(it):
    """The rows of a packet: what each says, and its number."""
    return {row.name: (row.value, row.number) for row in packets.content_of(it).rows}


# PB1: Y2-Y0 010, A 1, B 11, S 10. PB2: C 11, M 10, R 1001. PB3: ITC 1, EC 110, Q 01, SC 10. PB4: VIC. PB5: YQ 01, CN 10, PR 0011.
AVI = "5e e9 e6 c1 63 0100 0203 0400 0506"


def test_avi_of_version_3():
    rows = told(infoframe(0x82, 3, AVI.replace(" ", "")))
    assert rows == {
        "format": ("YCbCr 4:4:4", "Y 2"),
        "picture": ("5120 × 2160 at 120 Hz (code 193)", "VIC 193"),
        "aspect": ("16:9", "M 2"),
        "colour": ("extended: BT.2020", "C 3, EC 6"),
        "range": ("limited range", "Q 1"),
        "YCbCr range": ("full range", "YQ 1"),
        "scan": ("underscanned", "S 2"),
        "active aspect": ("4:3", "A 1, R 9"),
        "bars": ("top 1, bottom 770, left 4, right 1541", "B 3"),
        "content": ("IT content", "ITC 1"),
        "content type": ("cinema", "CN 2"),
        "scaling": ("scaled down", "SC 2"),
        "pixels sent": ("4 times each", "PR 3"),
    }
    assert told(infoframe(0x82, 2, AVI.replace(" ", "")))["picture"][1] == "VIC 65"  # seven bits of VIC in version 2
    assert told(infoframe(0x82, 3, "60" + "00" * 12))["format"] == ("YCbCr 4:2:0", "Y 3")
    assert told(infoframe(0x82, 4, "00c070" + "00" * 10 + "10"))["colour"] == (
        "extended: DCI-P3 of a theatre",
        "C 3, EC 7, ACE 1",
    )


@pytest.mark.parametrize(
    "form, picture",
    enumerate(["3840 × 2160 at 30 Hz", "3840 × 2160 at 25 Hz", "3840 × 2160 at 24 Hz", "4096 × 2160 at 24 Hz"], 1),
)
def test_4k_formats_of_hdmi_1_4(form, picture):
    """PB4: the format 001 in bits 5 to 7; PB5: HDMI_VIC."""
    rows = told(infoframe(0x81, 1, f"030c0020{form:02x}"))
    assert rows == {
        "registered to": ("HDMI Licensing", "IEEE 000c03"),
        "video format": ("extended resolution", "HDMI_Video_Format 1"),
        "picture": (picture, f"HDMI_VIC {form}"),
    }


@pytest.mark.parametrize(
    "payload, wanted",
    [
        ("030c004000", {"structure": ("frame packing", "3D_Structure 0")}),
        ("030c004060", {"structure": ("top and bottom", "3D_Structure 6")}),
        (
            "030c00408010",
            {
                "structure": ("side by side, half", "3D_Structure 8"),
                "samples": ("across, odd of the left and even of the right", "3D_Ext_Data 1"),
            },
        ),
        (
            "030c004008080102030405060708",
            {
                "structure": ("frame packing", "3D_Structure 0"),
                "metadata": ("parallax: 0102030405060708", "3D_Metadata_type 0"),
            },
        ),
    ],
)
def test_3d_structures(payload, wanted):
    rows = told(infoframe(0x81, 1, payload))
    assert {name: rows[name] for name in wanted} == wanted and rows["video format"] == ("3D", "HDMI_Video_Format 2")


def test_other_vendors():
    assert told(infoframe(0x81, 1, "d85dc40102"))["low latency"] == ("asked for", "ALLM_Mode 1")
    assert told(infoframe(0x81, 1, "46d00103")) == {"registered to": ("IEEE 01d046", "IEEE 01d046"), "payload": ("03", "")}
    dolby = told(infoframe(0x81, 1, "46d00003aa"))
    assert dolby["registered to"][0] == "Dolby Laboratories" and dolby["payload"] == ("aa", "")
    assert (dolby["Dolby Vision"], dolby["low latency"]) == (("yes", "Dolby_Vision_Signal 1"), ("yes", "Low_Latency 1"))
    assert told(infoframe(0x81, 1, "8b84906009"))["registered to"] == ("HDR10+ Technologies", "IEEE 90848b")


def test_extended_metadata():
    """A data set in several packets: the first one has its head; VRR in one packet."""
    first = packets.content_of(packet("7f8000", "90" "00" "02" "0004" "003c" + "11" * 21))
    assert first.words == "packet first, organization CTA-861, data set tag 4"
    rows = {row.name: row.value for row in packets.content_of(packet("7f4002", "ff" * 28)).rows}
    assert rows == {"packet": "last, number 2"}
    rows = {row.name: row.value for row in packets.content_of(packet("7fc000", "c2" "00" "01" "0001" "0004" "0104012c" + "00" * 17)).rows}
    assert (rows["variable refresh rate"], rows["base rate"], rows["base front porch"]) == ("yes", "300 Hz", "4 lines")


def test_dynamic_range():
    """CTA-861: primaries in 0.00002, low byte first; D65 is 15635, 16450. 1,000 cd/m² at most, 0.005 at least."""
    payload = "0200 3075 604d d08b ac0d 4c1d 983a 133d 4240 e803 3200 e803 9001".replace(" ", "")
    rows = told(infoframe(0x87, 1, payload))
    assert rows["curve"] == ("SMPTE ST 2084 (PQ)", "EOTF 2") and rows["metadata"] == (
        "type 1",
        "Static_Metadata_Descriptor_ID 0",
    )
    assert rows["primary 0"] == ("x 0.60000, y 0.39616", "30000, 19808")
    assert rows["white point"] == ("x 0.31270, y 0.32900", "15635, 16450")
    assert rows["greatest luminance"] == ("1000 cd/m²", "1000") and rows["least luminance"] == ("0.0050 cd/m²", "50")
    assert rows["content light level"] == ("at most 1000 cd/m²", "MaxCLL 1000") and rows["frame's average"] == (
        "at most 400 cd/m²",
        "MaxFALL 400",
    )


def test_isrc_acp_and_gamut():
    text = "USRC17607839".encode().hex()
    rows = told(packet("054200", text))
    assert rows["code"] == ("USRC17607839", text + "00000000") and rows["status"] == ("in the midst", "ISRC_Status 2")
    assert rows["valid"] == ("yes", "ISRC_Valid 1") and rows["goes on"] == ("no", "ISRC_Cont 0")
    assert told(packet("05c100", text))["goes on"] == ("in a second packet", "ISRC_Cont 1")
    assert told(packet("060000", text))["second half"][0] == "USRC17607839"
    rows = told(packet("040200", "01 9b"))
    assert rows["kind"] == ("DVD-Audio", "ACP_Type 2")
    assert rows["copying"] == ("permission 2, number 3", "Copy_Permission 2, Copy_Number 3") and rows["quality"] == (
        "1",
        "Quality 1, Transaction 1",
    )
    rows = told(packet("0a8533", "8a"))
    assert rows["profile"] == ("P0", "GBD_profile 0") and rows["begins"] == (
        "with gamut 5, at the next field",
        "Next_Field 1, Affected_Gamut_Seq_Num 5",
    )
    assert rows["described by"] == ("a range", "Format_Flag 1") and rows["numbers"] == ("10 bits", "GBD_Color_Precision 1")
    assert rows["space"] == ("xvYCC709", "GBD_Color_Space 2") and rows["packet"] == ("the only one", "Packet_Seq 3")


def test_audio():
    rows = told(infoframe(0x84, 1, "170e0013 f9 0000000000".replace(" ", "")))
    assert rows["channels"] == ("8 channels", "CC 7") and rows["coding"] == ("coding PCM", "CT 1")
    assert rows["rate"] == ("48 kHz", "SF 3") and rows["sample"] == ("20 bits", "SS 2")
    assert rows["speakers"] == ("FL FR LFE FC RL RR RLC RRC", "CA 19") and rows["down-mix"] == ("not allowed", "DM_INH 1")
    assert rows["level shift"] == ("15 dB", "LSV 15") and rows["level of LFE"] == ("0 dB", "LFEPBL 1")
    assert told(infoframe(0x84, 1, "f0000b" + "00" * 7))["extended coding"] == ("MPEG-H 3D Audio", "CXT 11")


def test_other_audio_packets_are_named():
    assert packets.content_of(packet("0900f0", "")).words == "high bit rate audio (IEC 61937), four frames, a block starts"
    assert packets.content_of(packet("070f01", "")).words == "One Bit Audio: 4 of four bodies, layout 0, 1 not valid"
    assert packets.content_of(packet("088000", "")).words == "DST audio, a frame starts"
    assert packet("090000", "").name == "High bit rate audio" and packet("070000", "").name == "One Bit Audio samples"


def test_deep_colour():
    rows = told(packet("030000", "00 35 01" + "00 00 00 00" + "00350100000000" * 3))
    assert rows["depth of colour"] == ("30 bits", "CD 5") and rows["packing phase"][1] == "PP 3"
    assert rows["rows begin"] == ("at phase 0", "Default_Phase 1")


def test_samples_of_layout_1():
    """Bodies 0, 1 and 3: channels 1 and 2, 3 and 4, 7 and 8."""
    content = packets.content_of(packet("021b90", "010000 020000 88 030000 040000 88" + "00" * 7 + "050000 060000 00"))
    assert content.words == "1 sample of more than two channels: 1, 2 and 3, 4 and 7, 8, a block starts"
    assert [(it.pair, it.left[0], it.right[0], it.start) for it in content.pairs] == [
        (0, 1, 2, True),
        (1, 3, 4, False),
        (3, 5, 6, True),
    ]


def test_wrong_infoframes():
    assert packets.content_of(packet("82030d", "00" * 14)).faults == ["checksum 92"]
    assert packets.content_of(infoframe(0x87, 1, "0200")).words == "version 1: 0200"  # not of the length of its kind
    assert packets.content_of(infoframe(0x86, 1, "0200")).words == "version 1: 0200"


def numbers(kind, source):
    return {name: source.randrange(field.most + 1) for name, field in making.OFFERED[kind].fields.items()}


@pytest.mark.parametrize("kind", making.OFFERED)
def test_what_is_made_is_read(kind):
    """Each number that is put into a packet is told of it."""
    source = random.Random(kind)
    for _ in range(20):
        wanted = numbers(kind, source)
        if kind in ("avi", "avi3", "avi4"):
            wanted |= {"A": 1, "B": 3, "C": 3, "EC": 7}
        elif kind == "hdmi":
            wanted |= {"HDMI_Video_Format": 1}
        elif kind == "3d":
            wanted |= {"HDMI_Video_Format": 2, "3D_Structure": source.randrange(8, 16)}
        elif kind == "audio":
            wanted |= {"CT": 15}
        elif kind == "dynamic":
            wanted |= {"Static_Metadata_Descriptor_ID": 0}
        elif kind == "acp":
            wanted |= {"ACP_Type": 2}
        elif kind == "extended":
            wanted |= {"First": 1, "Organization_ID": 2}
        elif kind == "gamut":
            wanted |= {"GBD_profile": 0, "Packet_Seq": 3}
        rows = packets.content_of(making.packet(kind, wanted)).rows
        said = dict(re.findall(r"([\w-]+) (\d+)(?:, |$)", ", ".join(row.number for row in rows)))
        bars = {"top", "bottom", "left", "right"}
        for name in set(wanted) - bars - {"max", "min"} - {it for it in wanted if re.fullmatch(r"[xy]\d|white_[xy]", it)}:
            assert said[name] == str(wanted[name]), name
        if bars <= set(wanted):
            assert "top {top}, bottom {bottom}, left {left}, right {right}".format(**wanted) in [row.value for row in rows]
        if kind == "dynamic":
            assert [row.number for row in rows[2:8]] == [
                *(f"{wanted[f'x{at}']}, {wanted[f'y{at}']}" for at in range(3)),
                f"{wanted['white_x']}, {wanted['white_y']}",
                *(str(wanted[it]) for it in ("max", "min")),
            ]


@pytest.fixture(scope="session")
def kernel(tmp_path_factory):
    """Linux's decoder, compiled for the tests alone."""
    compiler = shutil.which("gcc") or shutil.which("cc")
    if not compiler:
        pytest.skip("there is no C compiler")
    folder = tmp_path_factory.mktemp("linux")
    unpack(folder)
    made = folder / "decoder"
    include = [f"-I{HERE / 'kernel' / 'include'}", f"-I{folder / 'include'}", f"-I{folder / 'drivers' / 'video'}"]
    subprocess.run([compiler, "-w", *include, str(HERE / "kernel" / "main.c"), "-o", str(made)], check=True)

    def run(lines):
        came = subprocess.run([made], input="".join(f"{line}\n" for line in lines), capture_output=True, text=True, check=True)
        return came.stdout.splitlines()

    return run


def unpack(folder):
    """The two files of Linux, of a folder that LINUX_SOURCE names or of Debian's archive."""
    named = os.environ.get("LINUX_SOURCE")
    if named:
        for name in SOURCE:
            (folder / name).parent.mkdir(parents=True, exist_ok=True)
            shutil.copy(Path(named) / name, folder / name)
        return
    archives = sorted(Path("/usr/src").glob("linux-source-*.tar.xz"))
    if not archives:
        pytest.skip(NO_SOURCE)
    left = len(SOURCE)
    with tarfile.open(archives[-1], "r|xz") as archive:
        for member in archive:
            name = member.name.partition("/")[2]
            if name in SOURCE:
                (folder / name).parent.mkdir(parents=True, exist_ok=True)
                (folder / name).write_bytes(archive.extractfile(member).read())
                left -= 1
            if not left:
                return


@pytest.mark.parametrize("kind", ["avi", "audio", "hdmi", "3d", "dynamic"])
def test_linux_says_the_same(kernel, kind):
    source, cases = random.Random(kind), []
    for _ in range(200):
        wanted = numbers(kind, source)
        if kind == "hdmi":
            wanted |= {"HDMI_Video_Format": 1, "HDMI_VIC": source.randrange(1, 5)}
        elif kind == "3d":
            wanted |= {"HDMI_Video_Format": 2, "3D_Structure": 8}
        elif kind == "dynamic":
            wanted |= {"Static_Metadata_Descriptor_ID": 0}
        cases.append(wanted)
    made = [making.packet(kind, wanted) for wanted in cases]
    came = kernel((it.header + it.bytes[: it.header[2] + 1]).hex() for it in made)
    unsaid = {"A", "B", "top", "bottom", "left", "right", "HDMI_Video_Format", "LFEPBL"}
    for wanted, line in zip(cases, came, strict=True):
        said = {name: int(number) for name, number in (part.split("=") for part in line.split())}
        assert said == {name: number for name, number in wanted.items() if name not in unsaid}


def test_formats_of_edid_decode():
    """Sizes and rates of all video identification codes from 108 on."""
    if not shutil.which("edid-decode"):
        pytest.skip("there is no edid-decode")
    text = subprocess.run(["edid-decode", "--list-vics"], capture_output=True, text=True, check=True).stdout
    found = re.findall(r"^VIC +(\d+): +(\d+)x(\d+) +([\d.]+) Hz", text, re.M)
    wanted = {int(code): f"{across} × {down} at {float(rate):g} Hz" for code, across, down, rate in found if int(code) > 107}
    assert LATER_NAMES == wanted
    assert (
        mode_name(118) == "3840 × 2160 at 120 Hz (code 118)"
        and mode_name(6) == "720 × 480 at 59.94 fields a second, interlaced (code 6)"
    )
    assert mode_name(150) == "video identification code 150"


def test_allocations():
    """CTA-861: of 7.1 the rear centres are channels 7 and 8; the order of a WAV file is that of its mask."""
    assert len(speakers.ALLOCATIONS) == 0x32 and all(len(row) == 8 for row in speakers.ALLOCATIONS)
    assert speakers.words(0x0B) == "FL FR LFE FC RL RR" and speakers.places(speakers.speakers(0x0B)[:6]) == (
        [0, 1, 3, 2, 4, 5],
        0x3F,
    )
    assert speakers.places(speakers.speakers(0x13)) == ([0, 1, 3, 2, 6, 7, 4, 5], 0x63F)
    assert [speakers.of_mask(mask) for mask in (0x4, 0x3, 0x7, 0x33, 0x3F, 0x60F, 0x63F, 0xFF, 0x5003)] == [
        0,
        0,
        2,
        8,
        11,
        11,
        19,
        31,
        None,
    ]
    assert speakers.words(0x32) == "an allocation that is reserved"


def test_packets_that_cannot_be_made():
    for word, says in (
        ("no", "there is no packet `no`"),
        ("avi:VIC=128", "avi: the field VIC cannot be 128"),
        ("avi:no=1", "avi has no field no"),
        ("avi:VIC", "avi: `VIC` is not FIELD=NUMBER"),
        ("avi:text=a", "avi: `text=a` is not FIELD=NUMBER"),
    ):
        with pytest.raises(Refused, match=re.escape(says)):
            making.packet(*making.parts(word))
