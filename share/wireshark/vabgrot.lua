-- Wireshark's dissector of the packets that `tools/packets --pcap` writes. Made by `tools/packets --dissector`: do not edit it.
-- A record has 20 bytes, then the 31 bytes of the packet: column (8), epoch (4), frame (4), lost blocks, mended blocks
-- (a bit each, bit 4 is the header), damaged characters, and a byte without a meaning. Numbers are big-endian.
local hdmi = Proto("vabgrot", "HDMI data island packet")
local AT, HB, PB = 20, 20, 23
local BODY, BODIES, SIZE = 7, 4, 28
local fields = {}

local function field(make, key, name, ...)
  local made = make("vabgrot." .. key, name, ...)
  fields[#fields + 1] = made
  return made
end
local names = {
  [0] = "Null",
  [1] = "Audio clock",
  [2] = "Audio samples",
  [3] = "General control",
  [4] = "Audio content protection",
  [5] = "ISRC, first half",
  [6] = "ISRC, second half",
  [7] = "One Bit Audio samples",
  [8] = "DST audio",
  [9] = "High bit rate audio",
  [10] = "Gamut metadata",
  [127] = "Extended metadata",
  [129] = "Vendor InfoFrame",
  [130] = "AVI InfoFrame",
  [131] = "Source product InfoFrame",
  [132] = "Audio InfoFrame",
  [133] = "MPEG source InfoFrame",
  [134] = "NTSC VBI InfoFrame",
  [135] = "Dynamic range InfoFrame",
}
local words = {
  ACTIVE = { [2] = "box 16:9, at the top", [3] = "box 14:9, at the top", [4] = "box over 16:9", [8] = "as the picture", [9] = "4:3", [10] = "16:9", [11] = "14:9", [13] = "4:3, made for 14:9", [14] = "16:9, made for 14:9", [15] = "16:9, made for 4:3" },
  ADDITIONAL = { [0] = "DCI-P3 of D65", [1] = "DCI-P3 of a theatre", [2] = "BT.2100 ICtCp", [3] = "sRGB", [4] = "default RGB" },
  ASPECTS = { [0] = "no aspect told", [1] = "4:3", [2] = "16:9", [3] = "reserved aspect" },
  CHANNELS = { [0] = "channels by the stream", [1] = "2 channels", [2] = "3 channels", [3] = "4 channels", [4] = "5 channels", [5] = "6 channels", [6] = "7 channels", [7] = "8 channels" },
  CODINGS = { [0] = "by the stream", [1] = "PCM", [2] = "AC-3", [3] = "MPEG-1", [4] = "MP3", [5] = "MPEG-2", [6] = "AAC", [7] = "DTS", [8] = "ATRAC", [9] = "One Bit Audio", [10] = "E-AC-3", [11] = "DTS-HD", [12] = "MAT", [13] = "DST", [14] = "WMA Pro", [15] = "extended" },
  COLORIMETRY = { [0] = "no colorimetry told", [1] = "SMPTE 170M (BT.601)", [2] = "BT.709", [3] = "extended colorimetry" },
  CONTENTS = { [0] = "graphics", [1] = "photo", [2] = "cinema", [3] = "game" },
  CURVES = { [0] = "traditional gamma, SDR", [1] = "traditional gamma, HDR", [2] = "SMPTE ST 2084 (PQ)", [3] = "hybrid log-gamma" },
  DATA_SETS = { [0] = "periodic pseudo-static", [1] = "periodic dynamic", [2] = "unique", [3] = "reserved" },
  DEPTH_WORDS = { [0] = "no depth told", [4] = "24 bits", [5] = "30 bits", [6] = "36 bits", [7] = "48 bits" },
  DESCRIPTORS = { [0] = "type 1", [1] = "type 2", [2] = "type 3", [3] = "type 4", [4] = "type 5", [5] = "type 6", [6] = "type 7", [7] = "type 8" },
  DOWN_MIXES = { [0] = "allowed", [1] = "not allowed" },
  EXTENDED = { [0] = "xvYCC601", [1] = "xvYCC709", [2] = "sYCC601", [3] = "AdobeYCC601", [4] = "AdobeRGB", [5] = "BT.2020 of constant luminance", [6] = "BT.2020", [7] = "additional colorimetry" },
  FORMATS = { [0] = "RGB", [1] = "YCbCr 4:2:2", [2] = "YCbCr 4:4:4", [3] = "YCbCr 4:2:0", [4] = "reserved", [5] = "reserved", [6] = "reserved", [7] = "defined by IDO" },
  FOUR_K = { [1] = "3840 × 2160 at 30 Hz", [2] = "3840 × 2160 at 25 Hz", [3] = "3840 × 2160 at 24 Hz", [4] = "4096 × 2160 at 24 Hz" },
  FREQUENCY_WORDS = { [0] = "by the stream", [1] = "32 kHz", [2] = "44.1 kHz", [3] = "48 kHz", [4] = "88.2 kHz", [5] = "96 kHz", [6] = "176.4 kHz", [7] = "192 kHz" },
  FURTHER = { [4] = "HE AAC", [5] = "HE AAC v2", [6] = "AAC LC", [7] = "DRA", [8] = "HE AAC with MPEG Surround", [10] = "AAC LC with MPEG Surround", [11] = "MPEG-H 3D Audio", [12] = "AC-4", [13] = "3D Audio of PCM" },
  GAMUT_FORMS = { [0] = "vertices", [1] = "a range" },
  GAMUT_SPACES = { [0] = "BT.709", [1] = "xvYCC601", [2] = "xvYCC709", [3] = "XYZ" },
  ISRC_ENDS = { [0] = "no", [1] = "in a second packet" },
  ISRC_STATES = { [1] = "starting", [2] = "in the midst", [4] = "ending" },
  IT_CONTENT = { [0] = "not told as IT content", [1] = "IT content" },
  LFE_LEVELS = { [0] = "none told", [1] = "0 dB", [2] = "10 dB", [3] = "reserved" },
  LOW_LATENCY = { [0] = "not asked for", [1] = "asked for" },
  METADATA = { [0] = "parallax" },
  MODES = { [0] = "no video identification code", [1] = "640 × 480 at 60 Hz (code 1)", [2] = "720 × 480 at 60 Hz (code 2)", [3] = "720 × 480 at 60 Hz (code 3)", [4] = "1280 × 720 at 60 Hz (code 4)", [5] = "1920 × 1080 at 60 fields a second, interlaced (code 5)", [6] = "720 × 480 at 59.94 fields a second, interlaced (code 6)", [7] = "720 × 480 at 59.94 fields a second, interlaced (code 7)", [8] = "720 × 240 at 60.05 Hz (code 8)", [9] = "720 × 240 at 60.05 Hz (code 9)", [10] = "2880 × 480 at 59.94 fields a second, interlaced (code 10)", [11] = "2880 × 480 at 59.94 fields a second, interlaced (code 11)", [12] = "2880 × 240 at 60.05 Hz (code 12)", [13] = "2880 × 240 at 60.05 Hz (code 13)", [14] = "1440 × 480 at 59.94 Hz (code 14)", [15] = "1440 × 480 at 59.94 Hz (code 15)", [16] = "1920 × 1080 at 60 Hz (code 16)", [17] = "720 × 576 at 50 Hz (code 17)", [18] = "720 × 576 at 50 Hz (code 18)", [19] = "1280 × 720 at 50 Hz (code 19)", [20] = "1920 × 1080 at 50 fields a second, interlaced (code 20)", [21] = "720 × 576 at 50 fields a second, interlaced (code 21)", [22] = "720 × 576 at 50 fields a second, interlaced (code 22)", [23] = "720 × 288 at 50.08 Hz (code 23)", [24] = "720 × 288 at 50.08 Hz (code 24)", [25] = "2880 × 576 at 50 fields a second, interlaced (code 25)", [26] = "2880 × 576 at 50 fields a second, interlaced (code 26)", [27] = "2880 × 288 at 50.08 Hz (code 27)", [28] = "2880 × 288 at 50.08 Hz (code 28)", [29] = "1440 × 576 at 50 Hz (code 29)", [30] = "1440 × 576 at 50 Hz (code 30)", [31] = "1920 × 1080 at 50 Hz (code 31)", [32] = "1920 × 1080 at 24 Hz (code 32)", [33] = "1920 × 1080 at 25 Hz (code 33)", [34] = "1920 × 1080 at 30 Hz (code 34)", [35] = "2880 × 480 at 59.94 Hz (code 35)", [36] = "2880 × 480 at 59.94 Hz (code 36)", [37] = "2880 × 576 at 50 Hz (code 37)", [38] = "2880 × 576 at 50 Hz (code 38)", [39] = "1920 × 1080 at 50 fields a second, interlaced (code 39)", [40] = "1920 × 1080 at 100 fields a second, interlaced (code 40)", [41] = "1280 × 720 at 100 Hz (code 41)", [42] = "720 × 576 at 100 Hz (code 42)", [43] = "720 × 576 at 100 Hz (code 43)", [44] = "720 × 576 at 100 fields a second, interlaced (code 44)", [45] = "720 × 576 at 100 fields a second, interlaced (code 45)", [46] = "1920 × 1080 at 120 fields a second, interlaced (code 46)", [47] = "1280 × 720 at 120 Hz (code 47)", [48] = "720 × 480 at 119.9 Hz (code 48)", [49] = "720 × 480 at 119.9 Hz (code 49)", [50] = "720 × 480 at 119.9 fields a second, interlaced (code 50)", [51] = "720 × 480 at 119.9 fields a second, interlaced (code 51)", [52] = "720 × 576 at 200 Hz (code 52)", [53] = "720 × 576 at 200 Hz (code 53)", [54] = "720 × 576 at 200 fields a second, interlaced (code 54)", [55] = "720 × 576 at 200 fields a second, interlaced (code 55)", [56] = "720 × 480 at 239.8 Hz (code 56)", [57] = "720 × 480 at 239.8 Hz (code 57)", [58] = "720 × 480 at 239.8 fields a second, interlaced (code 58)", [59] = "720 × 480 at 239.8 fields a second, interlaced (code 59)", [60] = "1280 × 720 at 24 Hz (code 60)", [61] = "1280 × 720 at 25 Hz (code 61)", [62] = "1280 × 720 at 30 Hz (code 62)", [63] = "1920 × 1080 at 120 Hz (code 63)", [64] = "1920 × 1080 at 100 Hz (code 64)", [65] = "1280 × 720 at 24 Hz (code 65)", [66] = "1280 × 720 at 25 Hz (code 66)", [67] = "1280 × 720 at 30 Hz (code 67)", [68] = "1280 × 720 at 50 Hz (code 68)", [69] = "1280 × 720 at 60 Hz (code 69)", [70] = "1280 × 720 at 100 Hz (code 70)", [71] = "1280 × 720 at 120 Hz (code 71)", [72] = "1920 × 1080 at 24 Hz (code 72)", [73] = "1920 × 1080 at 25 Hz (code 73)", [74] = "1920 × 1080 at 30 Hz (code 74)", [75] = "1920 × 1080 at 50 Hz (code 75)", [76] = "1920 × 1080 at 60 Hz (code 76)", [77] = "1920 × 1080 at 100 Hz (code 77)", [78] = "1920 × 1080 at 120 Hz (code 78)", [79] = "1680 × 720 at 24 Hz (code 79)", [80] = "1680 × 720 at 25 Hz (code 80)", [81] = "1680 × 720 at 30 Hz (code 81)", [82] = "1680 × 720 at 50 Hz (code 82)", [83] = "1680 × 720 at 60 Hz (code 83)", [84] = "1680 × 720 at 100 Hz (code 84)", [85] = "1680 × 720 at 120 Hz (code 85)", [86] = "2560 × 1080 at 24 Hz (code 86)", [87] = "2560 × 1080 at 25 Hz (code 87)", [88] = "2560 × 1080 at 30 Hz (code 88)", [89] = "2560 × 1080 at 50 Hz (code 89)", [90] = "2560 × 1080 at 60 Hz (code 90)", [91] = "2560 × 1080 at 100 Hz (code 91)", [92] = "2560 × 1080 at 120 Hz (code 92)", [93] = "3840 × 2160 at 24 Hz (code 93)", [94] = "3840 × 2160 at 25 Hz (code 94)", [95] = "3840 × 2160 at 30 Hz (code 95)", [96] = "3840 × 2160 at 50 Hz (code 96)", [97] = "3840 × 2160 at 60 Hz (code 97)", [98] = "4096 × 2160 at 24 Hz (code 98)", [99] = "4096 × 2160 at 25 Hz (code 99)", [100] = "4096 × 2160 at 30 Hz (code 100)", [101] = "4096 × 2160 at 50 Hz (code 101)", [102] = "4096 × 2160 at 60 Hz (code 102)", [103] = "3840 × 2160 at 24 Hz (code 103)", [104] = "3840 × 2160 at 25 Hz (code 104)", [105] = "3840 × 2160 at 30 Hz (code 105)", [106] = "3840 × 2160 at 50 Hz (code 106)", [107] = "3840 × 2160 at 60 Hz (code 107)", [108] = "1280 × 720 at 48 Hz (code 108)", [109] = "1280 × 720 at 48 Hz (code 109)", [110] = "1680 × 720 at 48 Hz (code 110)", [111] = "1920 × 1080 at 48 Hz (code 111)", [112] = "1920 × 1080 at 48 Hz (code 112)", [113] = "2560 × 1080 at 48 Hz (code 113)", [114] = "3840 × 2160 at 48 Hz (code 114)", [115] = "4096 × 2160 at 48 Hz (code 115)", [116] = "3840 × 2160 at 48 Hz (code 116)", [117] = "3840 × 2160 at 100 Hz (code 117)", [118] = "3840 × 2160 at 120 Hz (code 118)", [119] = "3840 × 2160 at 100 Hz (code 119)", [120] = "3840 × 2160 at 120 Hz (code 120)", [121] = "5120 × 2160 at 24 Hz (code 121)", [122] = "5120 × 2160 at 25 Hz (code 122)", [123] = "5120 × 2160 at 30 Hz (code 123)", [124] = "5120 × 2160 at 48 Hz (code 124)", [125] = "5120 × 2160 at 50 Hz (code 125)", [126] = "5120 × 2160 at 60 Hz (code 126)", [127] = "5120 × 2160 at 100 Hz (code 127)", [193] = "5120 × 2160 at 120 Hz (code 193)", [194] = "7680 × 4320 at 24 Hz (code 194)", [195] = "7680 × 4320 at 25 Hz (code 195)", [196] = "7680 × 4320 at 30 Hz (code 196)", [197] = "7680 × 4320 at 48 Hz (code 197)", [198] = "7680 × 4320 at 50 Hz (code 198)", [199] = "7680 × 4320 at 60 Hz (code 199)", [200] = "7680 × 4320 at 100 Hz (code 200)", [201] = "7680 × 4320 at 120 Hz (code 201)", [202] = "7680 × 4320 at 24 Hz (code 202)", [203] = "7680 × 4320 at 25 Hz (code 203)", [204] = "7680 × 4320 at 30 Hz (code 204)", [205] = "7680 × 4320 at 48 Hz (code 205)", [206] = "7680 × 4320 at 50 Hz (code 206)", [207] = "7680 × 4320 at 60 Hz (code 207)", [208] = "7680 × 4320 at 100 Hz (code 208)", [209] = "7680 × 4320 at 120 Hz (code 209)", [210] = "10240 × 4320 at 24 Hz (code 210)", [211] = "10240 × 4320 at 25 Hz (code 211)", [212] = "10240 × 4320 at 30 Hz (code 212)", [213] = "10240 × 4320 at 48 Hz (code 213)", [214] = "10240 × 4320 at 50 Hz (code 214)", [215] = "10240 × 4320 at 60 Hz (code 215)", [216] = "10240 × 4320 at 100 Hz (code 216)", [217] = "10240 × 4320 at 120 Hz (code 217)", [218] = "4096 × 2160 at 100 Hz (code 218)", [219] = "4096 × 2160 at 120 Hz (code 219)" },
  MPEG_FRAMES = { [0] = "no kind told", [1] = "I picture", [2] = "B picture", [3] = "P picture" },
  OWNERS = { [0] = "a vendor", [1] = "HDMI", [2] = "CTA-861", [3] = "VESA" },
  PHASES = { [0] = "at any phase", [1] = "at phase 0" },
  PRECISIONS = { [0] = "8 bits", [1] = "10 bits", [2] = "12 bits", [3] = "reserved" },
  PROTECTIONS = { [0] = "generic audio", [1] = "audio identified by IEC 60958", [2] = "DVD-Audio", [3] = "Super Audio CD" },
  RANGES = { [0] = "default range", [1] = "limited range", [2] = "full range", [3] = "reserved range" },
  REPEATED = { [0] = "new", [1] = "repeated" },
  REPETITIONS = { [0] = "once each", [1] = "2 times each", [2] = "3 times each", [3] = "4 times each", [4] = "5 times each", [5] = "6 times each", [6] = "7 times each", [7] = "8 times each", [8] = "9 times each", [9] = "10 times each", [10] = "11 times each", [11] = "12 times each", [12] = "13 times each", [13] = "14 times each", [14] = "15 times each", [15] = "16 times each" },
  SAMPLINGS = { [0] = "across, odd of the left and odd of the right", [1] = "across, odd of the left and even of the right", [2] = "across, even of the left and odd of the right", [3] = "across, even of the left and even of the right", [4] = "quincunx, odd of the left and odd of the right", [5] = "quincunx, odd of the left and even of the right", [6] = "quincunx, even of the left and odd of the right", [7] = "quincunx, even of the left and even of the right" },
  SCALINGS = { [0] = "none told", [1] = "scaled across", [2] = "scaled down", [3] = "scaled both ways" },
  SCANS = { [0] = "no scan told", [1] = "overscanned", [2] = "underscanned", [3] = "reserved scan" },
  SEQUENCES = { [0] = "in the midst", [1] = "first", [2] = "last", [3] = "the only one" },
  SIZES = { [0] = "by the stream", [1] = "16 bits", [2] = "20 bits", [3] = "24 bits" },
  SOURCES = { [0] = "unknown", [1] = "digital set-top box", [2] = "DVD player", [3] = "D-VHS", [4] = "hard disk recorder", [5] = "DVC", [6] = "digital still camera", [7] = "Video CD", [8] = "game console", [9] = "PC", [10] = "Blu-ray player", [11] = "Super Audio CD", [12] = "HD DVD", [13] = "PMP" },
  SPEAKERS = { [0] = "FL FR", [1] = "FL FR LFE", [2] = "FL FR FC", [3] = "FL FR LFE FC", [4] = "FL FR RC", [5] = "FL FR LFE RC", [6] = "FL FR FC RC", [7] = "FL FR LFE FC RC", [8] = "FL FR RL RR", [9] = "FL FR LFE RL RR", [10] = "FL FR FC RL RR", [11] = "FL FR LFE FC RL RR", [12] = "FL FR RL RR RC", [13] = "FL FR LFE RL RR RC", [14] = "FL FR FC RL RR RC", [15] = "FL FR LFE FC RL RR RC", [16] = "FL FR RL RR RLC RRC", [17] = "FL FR LFE RL RR RLC RRC", [18] = "FL FR FC RL RR RLC RRC", [19] = "FL FR LFE FC RL RR RLC RRC", [20] = "FL FR FLC FRC", [21] = "FL FR LFE FLC FRC", [22] = "FL FR FC FLC FRC", [23] = "FL FR LFE FC FLC FRC", [24] = "FL FR RC FLC FRC", [25] = "FL FR LFE RC FLC FRC", [26] = "FL FR FC RC FLC FRC", [27] = "FL FR LFE FC RC FLC FRC", [28] = "FL FR RL RR FLC FRC", [29] = "FL FR LFE RL RR FLC FRC", [30] = "FL FR FC RL RR FLC FRC", [31] = "FL FR LFE FC RL RR FLC FRC", [32] = "FL FR FC RL RR FCH", [33] = "FL FR LFE FC RL RR FCH", [34] = "FL FR FC RL RR TC", [35] = "FL FR LFE FC RL RR TC", [36] = "FL FR RL RR FLH FRH", [37] = "FL FR LFE RL RR FLH FRH", [38] = "FL FR RL RR FLW FRW", [39] = "FL FR LFE RL RR FLW FRW", [40] = "FL FR FC RL RR RC TC", [41] = "FL FR LFE FC RL RR RC TC", [42] = "FL FR FC RL RR RC FCH", [43] = "FL FR LFE FC RL RR RC FCH", [44] = "FL FR FC RL RR FCH TC", [45] = "FL FR LFE FC RL RR FCH TC", [46] = "FL FR FC RL RR FLH FRH", [47] = "FL FR LFE FC RL RR FLH FRH", [48] = "FL FR FC RL RR FLW FRW", [49] = "FL FR LFE FC RL RR FLW FRW" },
  STRUCTURES = { [0] = "frame packing", [1] = "field alternative", [2] = "line alternative", [3] = "side by side, full", [4] = "L and depth", [5] = "L, depth, graphics and graphics depth", [6] = "top and bottom", [8] = "side by side, half" },
  TOLD = { [0] = "none told", [1] = "told" },
  VIDEO_FORMATS = { [0] = "none beside the AVI InfoFrame's", [1] = "extended resolution", [2] = "3D" },
  YCC_RANGES = { [0] = "limited range", [1] = "full range", [2] = "reserved range", [3] = "reserved range" },
  YES = { [0] = "no", [1] = "yes" },
}

local column = field(ProtoField.uint64, "column", "Column")
local epoch = field(ProtoField.uint32, "epoch", "Epoch")
local frame = field(ProtoField.uint32, "frame", "Frame")
local lost = field(ProtoField.uint8, "lost", "Lost blocks", base.HEX)
local mended = field(ProtoField.uint8, "mended", "Mended blocks", base.HEX)
local damaged = field(ProtoField.uint8, "damaged", "Damaged characters")
local kind = field(ProtoField.uint8, "type", "Type", base.HEX, names)
local header = field(ProtoField.bytes, "header", "Header")
local bodies = field(ProtoField.bytes, "bodies", "Bodies")

local layouts = {
  [129] = {
    { version = 1, length = 6, least = 4, infoframe = true,
      where = { { byte = 1, size = 3, low = 0, bits = 24, number = 3075 }, { byte = 4, size = 1, low = 5, bits = 3, number = 2 } },
      fields = {
        { field = field(ProtoField.uint32, "3d.IEEE", "IEEE"), byte = 1, size = 3, low = 0, bits = 24 },
        { field = field(ProtoField.uint32, "3d.HDMI_Video_Format", "HDMI_Video_Format", base.DEC, words.VIDEO_FORMATS), byte = 4, size = 1, low = 5, bits = 3 },
        { field = field(ProtoField.uint32, "3d.3D_Structure", "3D_Structure", base.DEC, words.STRUCTURES), byte = 5, size = 1, low = 4, bits = 4 },
        { field = field(ProtoField.uint32, "3d.3D_Ext_Data", "3D_Ext_Data", base.DEC, words.SAMPLINGS), byte = 6, size = 1, low = 4, bits = 4 },
        { field = field(ProtoField.uint32, "3d.3D_Meta_present", "3D_Meta_present"), byte = 5, size = 1, low = 3, bits = 1 },
        { field = field(ProtoField.uint32, "3d.type_in_PB6", "type in PB6", base.DEC, words.METADATA), byte = 6, size = 1, low = 5, bits = 3 },
        { field = field(ProtoField.uint32, "3d.length_in_PB6", "length in PB6"), byte = 6, size = 1, low = 0, bits = 5 },
        { field = field(ProtoField.uint32, "3d.type_in_PB7", "type in PB7", base.DEC, words.METADATA), byte = 7, size = 1, low = 5, bits = 3 },
        { field = field(ProtoField.uint32, "3d.length_in_PB7", "length in PB7"), byte = 7, size = 1, low = 0, bits = 5 },
      },
      octets = {
        { field = field(ProtoField.bytes, "3d.behind_PB6", "behind PB6"), first = 7 },
        { field = field(ProtoField.bytes, "3d.behind_PB7", "behind PB7"), first = 8 },
      },
    },
    { version = 1, length = 5, least = 4, infoframe = true,
      where = { { byte = 1, size = 3, low = 0, bits = 24, number = 3075 } },
      fields = {
        { field = field(ProtoField.uint32, "hdmi.IEEE", "IEEE"), byte = 1, size = 3, low = 0, bits = 24 },
        { field = field(ProtoField.uint32, "hdmi.HDMI_Video_Format", "HDMI_Video_Format", base.DEC, words.VIDEO_FORMATS), byte = 4, size = 1, low = 5, bits = 3 },
        { field = field(ProtoField.uint32, "hdmi.HDMI_VIC", "HDMI_VIC", base.DEC, words.FOUR_K), byte = 5, size = 1, low = 0, bits = 8 },
      },
      octets = {
      },
    },
    { version = 1, length = 7, least = 5, infoframe = true,
      where = { { byte = 1, size = 3, low = 0, bits = 24, number = 12869080 } },
      fields = {
        { field = field(ProtoField.uint32, "forum.IEEE", "IEEE"), byte = 1, size = 3, low = 0, bits = 24 },
        { field = field(ProtoField.uint32, "forum.3D_Valid", "3D_Valid", base.DEC, words.TOLD), byte = 5, size = 1, low = 0, bits = 1 },
        { field = field(ProtoField.uint32, "forum.ALLM_Mode", "ALLM_Mode", base.DEC, words.LOW_LATENCY), byte = 5, size = 1, low = 1, bits = 1 },
        { field = field(ProtoField.uint32, "forum.Version", "Version"), byte = 4, size = 1, low = 0, bits = 8 },
      },
      octets = {
        { field = field(ProtoField.bytes, "forum.payload", "payload"), first = 6 },
      },
    },
    { version = 1, length = 27, least = 4, infoframe = true,
      where = { { byte = 1, size = 3, low = 0, bits = 24, number = 53318 } },
      fields = {
        { field = field(ProtoField.uint32, "dolby.IEEE", "IEEE"), byte = 1, size = 3, low = 0, bits = 24 },
        { field = field(ProtoField.uint32, "dolby.Low_Latency", "Low_Latency", base.DEC, words.YES), byte = 4, size = 1, low = 0, bits = 1 },
        { field = field(ProtoField.uint32, "dolby.Dolby_Vision_Signal", "Dolby_Vision_Signal", base.DEC, words.YES), byte = 4, size = 1, low = 1, bits = 1 },
      },
      octets = {
        { field = field(ProtoField.bytes, "dolby.payload", "payload"), first = 5 },
      },
    },
    { version = 1, length = 27, least = 5, infoframe = true,
      where = { { byte = 1, size = 3, low = 0, bits = 24, number = 9471115 } },
      fields = {
        { field = field(ProtoField.uint32, "hdr10.IEEE", "IEEE"), byte = 1, size = 3, low = 0, bits = 24 },
        { field = field(ProtoField.uint32, "hdr10.Application_Version", "Application_Version"), byte = 4, size = 1, low = 6, bits = 2 },
        { field = field(ProtoField.uint32, "hdr10.Targeted_System_Display_Maximum_Luminance", "Targeted_System_Display_Maximum_Luminance"), byte = 4, size = 1, low = 1, bits = 5 },
        { field = field(ProtoField.uint32, "hdr10.Average_Maxrgb", "Average_Maxrgb"), byte = 5, size = 1, low = 0, bits = 8 },
      },
      octets = {
        { field = field(ProtoField.bytes, "hdr10.payload", "payload"), first = 6 },
      },
    },
    { version = 1, length = 3, least = 3, infoframe = true,
      where = {},
      fields = {
        { field = field(ProtoField.uint32, "vendor.IEEE", "IEEE"), byte = 1, size = 3, low = 0, bits = 24 },
      },
      octets = {
        { field = field(ProtoField.bytes, "vendor.payload", "payload"), first = 4 },
      },
    },
  },
  [127] = {
    { version = 0, length = 0, infoframe = false,
      where = { { byte = 2, size = 1, low = 0, bits = 8, number = 1 }, { byte = 3, size = 2, low = 0, bits = 16, big = true, number = 1 } },
      fields = {
        { field = field(ProtoField.uint32, "refresh.VRR_EN", "VRR_EN", base.DEC, words.YES), byte = 7, size = 1, low = 0, bits = 1 },
        { field = field(ProtoField.uint32, "refresh.M_CONST", "M_CONST", base.DEC, words.YES), byte = 7, size = 1, low = 1, bits = 1 },
        { field = field(ProtoField.uint32, "refresh.FVA_Factor_M1", "FVA_Factor_M1"), byte = 7, size = 1, low = 4, bits = 4 },
        { field = field(ProtoField.uint32, "refresh.Base_Vfront", "Base_Vfront"), byte = 8, size = 1, low = 0, bits = 8 },
        { field = field(ProtoField.uint32, "refresh.RB", "RB", base.DEC, words.YES), byte = 9, size = 1, low = 2, bits = 1 },
        { field = field(ProtoField.uint32, "refresh.Base_Refresh_Rate", "Base_Refresh_Rate"), byte = 9, size = 2, low = 0, bits = 10, big = true },
        { field = field(ProtoField.uint32, "refresh.First", "First"), byte = 1, size = 1, low = 7, bits = 1, header = true },
        { field = field(ProtoField.uint32, "refresh.Last", "Last"), byte = 1, size = 1, low = 6, bits = 1, header = true },
        { field = field(ProtoField.uint32, "refresh.Sequence_Index", "Sequence_Index"), byte = 2, size = 1, low = 0, bits = 8, header = true },
        { field = field(ProtoField.uint32, "refresh.New", "New", base.DEC, words.YES), byte = 0, size = 1, low = 7, bits = 1 },
        { field = field(ProtoField.uint32, "refresh.End", "End"), byte = 0, size = 1, low = 6, bits = 1 },
        { field = field(ProtoField.uint32, "refresh.DS_Type", "DS_Type", base.DEC, words.DATA_SETS), byte = 0, size = 1, low = 4, bits = 2 },
        { field = field(ProtoField.uint32, "refresh.AFR", "AFR"), byte = 0, size = 1, low = 3, bits = 1 },
        { field = field(ProtoField.uint32, "refresh.VFR", "VFR"), byte = 0, size = 1, low = 2, bits = 1 },
        { field = field(ProtoField.uint32, "refresh.Sync", "Sync"), byte = 0, size = 1, low = 1, bits = 1 },
        { field = field(ProtoField.uint32, "refresh.Organization_ID", "Organization_ID", base.DEC, words.OWNERS), byte = 2, size = 1, low = 0, bits = 8 },
        { field = field(ProtoField.uint32, "refresh.Data_Set_Tag", "Data_Set_Tag"), byte = 3, size = 2, low = 0, bits = 16, big = true },
        { field = field(ProtoField.uint32, "refresh.Data_Set_Length", "Data_Set_Length"), byte = 5, size = 2, low = 0, bits = 16, big = true },
      },
      octets = {
      },
    },
    { version = 0, length = 0, infoframe = false,
      where = {},
      fields = {
        { field = field(ProtoField.uint32, "extended.First", "First"), byte = 1, size = 1, low = 7, bits = 1, header = true },
        { field = field(ProtoField.uint32, "extended.Last", "Last"), byte = 1, size = 1, low = 6, bits = 1, header = true },
        { field = field(ProtoField.uint32, "extended.Sequence_Index", "Sequence_Index"), byte = 2, size = 1, low = 0, bits = 8, header = true },
        { field = field(ProtoField.uint32, "extended.New", "New", base.DEC, words.YES), byte = 0, size = 1, low = 7, bits = 1 },
        { field = field(ProtoField.uint32, "extended.End", "End"), byte = 0, size = 1, low = 6, bits = 1 },
        { field = field(ProtoField.uint32, "extended.DS_Type", "DS_Type", base.DEC, words.DATA_SETS), byte = 0, size = 1, low = 4, bits = 2 },
        { field = field(ProtoField.uint32, "extended.AFR", "AFR"), byte = 0, size = 1, low = 3, bits = 1 },
        { field = field(ProtoField.uint32, "extended.VFR", "VFR"), byte = 0, size = 1, low = 2, bits = 1 },
        { field = field(ProtoField.uint32, "extended.Sync", "Sync"), byte = 0, size = 1, low = 1, bits = 1 },
        { field = field(ProtoField.uint32, "extended.Organization_ID", "Organization_ID", base.DEC, words.OWNERS), byte = 2, size = 1, low = 0, bits = 8 },
        { field = field(ProtoField.uint32, "extended.Data_Set_Tag", "Data_Set_Tag"), byte = 3, size = 2, low = 0, bits = 16, big = true },
        { field = field(ProtoField.uint32, "extended.Data_Set_Length", "Data_Set_Length"), byte = 5, size = 2, low = 0, bits = 16, big = true },
      },
      octets = {
      },
    },
  },
  [0] = {
    { version = 0, length = 0, infoframe = false,
      where = {},
      fields = {
      },
      octets = {
      },
    },
  },
  [1] = {
    { version = 0, length = 0, infoframe = false,
      where = {},
      fields = {
        { field = field(ProtoField.uint32, "clock.N", "N"), byte = 4, size = 3, low = 0, bits = 20, big = true },
        { field = field(ProtoField.uint32, "clock.CTS", "CTS"), byte = 1, size = 3, low = 0, bits = 20, big = true },
      },
      octets = {
      },
    },
  },
  [2] = {
    { version = 0, length = 0, infoframe = false,
      where = {},
      fields = {
        { field = field(ProtoField.uint32, "samples.sample_present", "sample_present"), byte = 1, size = 1, low = 0, bits = 4, header = true },
        { field = field(ProtoField.uint32, "samples.layout", "layout"), byte = 1, size = 1, low = 4, bits = 1, header = true },
        { field = field(ProtoField.uint32, "samples.sample_flat", "sample_flat"), byte = 2, size = 1, low = 0, bits = 4, header = true },
        { field = field(ProtoField.uint32, "samples.B", "B"), byte = 2, size = 1, low = 4, bits = 4, header = true },
        { field = field(ProtoField.uint32, "samples.left", "left"), byte = 0, size = 3, low = 0, bits = 24 },
        { field = field(ProtoField.uint32, "samples.right", "right"), byte = 3, size = 3, low = 0, bits = 24 },
        { field = field(ProtoField.uint32, "samples.left_VUCP", "left VUCP"), byte = 6, size = 1, low = 0, bits = 4 },
        { field = field(ProtoField.uint32, "samples.right_VUCP", "right VUCP"), byte = 6, size = 1, low = 4, bits = 4 },
        { field = field(ProtoField.uint32, "samples.left_C", "left C"), byte = 6, size = 1, low = 2, bits = 1 },
        { field = field(ProtoField.uint32, "samples.right_C", "right C"), byte = 6, size = 1, low = 6, bits = 1 },
      },
      octets = {
      },
    },
  },
  [3] = {
    { version = 0, length = 0, infoframe = false,
      where = {},
      fields = {
        { field = field(ProtoField.uint32, "control.Set_AVMUTE", "Set_AVMUTE"), byte = 0, size = 1, low = 0, bits = 1 },
        { field = field(ProtoField.uint32, "control.Clear_AVMUTE", "Clear_AVMUTE"), byte = 0, size = 1, low = 4, bits = 1 },
        { field = field(ProtoField.uint32, "control.CD", "CD", base.DEC, words.DEPTH_WORDS), byte = 1, size = 1, low = 0, bits = 4 },
        { field = field(ProtoField.uint32, "control.PP", "PP"), byte = 1, size = 1, low = 4, bits = 4 },
        { field = field(ProtoField.uint32, "control.Default_Phase", "Default_Phase", base.DEC, words.PHASES), byte = 2, size = 1, low = 0, bits = 1 },
      },
      octets = {
      },
    },
  },
  [130] = {
    { version = 2, length = 13, infoframe = true,
      where = {},
      fields = {
        { field = field(ProtoField.uint32, "avi.Y", "Y", base.DEC, words.FORMATS), byte = 1, size = 1, low = 5, bits = 2 },
        { field = field(ProtoField.uint32, "avi.A", "A"), byte = 1, size = 1, low = 4, bits = 1 },
        { field = field(ProtoField.uint32, "avi.B", "B"), byte = 1, size = 1, low = 2, bits = 2 },
        { field = field(ProtoField.uint32, "avi.S", "S", base.DEC, words.SCANS), byte = 1, size = 1, low = 0, bits = 2 },
        { field = field(ProtoField.uint32, "avi.C", "C", base.DEC, words.COLORIMETRY), byte = 2, size = 1, low = 6, bits = 2 },
        { field = field(ProtoField.uint32, "avi.M", "M", base.DEC, words.ASPECTS), byte = 2, size = 1, low = 4, bits = 2 },
        { field = field(ProtoField.uint32, "avi.R", "R", base.DEC, words.ACTIVE), byte = 2, size = 1, low = 0, bits = 4 },
        { field = field(ProtoField.uint32, "avi.ITC", "ITC", base.DEC, words.IT_CONTENT), byte = 3, size = 1, low = 7, bits = 1 },
        { field = field(ProtoField.uint32, "avi.EC", "EC", base.DEC, words.EXTENDED), byte = 3, size = 1, low = 4, bits = 3 },
        { field = field(ProtoField.uint32, "avi.Q", "Q", base.DEC, words.RANGES), byte = 3, size = 1, low = 2, bits = 2 },
        { field = field(ProtoField.uint32, "avi.SC", "SC", base.DEC, words.SCALINGS), byte = 3, size = 1, low = 0, bits = 2 },
        { field = field(ProtoField.uint32, "avi.VIC", "VIC", base.DEC, words.MODES), byte = 4, size = 1, low = 0, bits = 7 },
        { field = field(ProtoField.uint32, "avi.YQ", "YQ", base.DEC, words.YCC_RANGES), byte = 5, size = 1, low = 6, bits = 2 },
        { field = field(ProtoField.uint32, "avi.CN", "CN", base.DEC, words.CONTENTS), byte = 5, size = 1, low = 4, bits = 2 },
        { field = field(ProtoField.uint32, "avi.PR", "PR", base.DEC, words.REPETITIONS), byte = 5, size = 1, low = 0, bits = 4 },
        { field = field(ProtoField.uint32, "avi.top", "top"), byte = 6, size = 2, low = 0, bits = 16 },
        { field = field(ProtoField.uint32, "avi.bottom", "bottom"), byte = 8, size = 2, low = 0, bits = 16 },
        { field = field(ProtoField.uint32, "avi.left", "left"), byte = 10, size = 2, low = 0, bits = 16 },
        { field = field(ProtoField.uint32, "avi.right", "right"), byte = 12, size = 2, low = 0, bits = 16 },
      },
      octets = {
      },
    },
    { version = 3, length = 13, infoframe = true,
      where = {},
      fields = {
        { field = field(ProtoField.uint32, "avi3.Y", "Y", base.DEC, words.FORMATS), byte = 1, size = 1, low = 5, bits = 3 },
        { field = field(ProtoField.uint32, "avi3.A", "A"), byte = 1, size = 1, low = 4, bits = 1 },
        { field = field(ProtoField.uint32, "avi3.B", "B"), byte = 1, size = 1, low = 2, bits = 2 },
        { field = field(ProtoField.uint32, "avi3.S", "S", base.DEC, words.SCANS), byte = 1, size = 1, low = 0, bits = 2 },
        { field = field(ProtoField.uint32, "avi3.C", "C", base.DEC, words.COLORIMETRY), byte = 2, size = 1, low = 6, bits = 2 },
        { field = field(ProtoField.uint32, "avi3.M", "M", base.DEC, words.ASPECTS), byte = 2, size = 1, low = 4, bits = 2 },
        { field = field(ProtoField.uint32, "avi3.R", "R", base.DEC, words.ACTIVE), byte = 2, size = 1, low = 0, bits = 4 },
        { field = field(ProtoField.uint32, "avi3.ITC", "ITC", base.DEC, words.IT_CONTENT), byte = 3, size = 1, low = 7, bits = 1 },
        { field = field(ProtoField.uint32, "avi3.EC", "EC", base.DEC, words.EXTENDED), byte = 3, size = 1, low = 4, bits = 3 },
        { field = field(ProtoField.uint32, "avi3.Q", "Q", base.DEC, words.RANGES), byte = 3, size = 1, low = 2, bits = 2 },
        { field = field(ProtoField.uint32, "avi3.SC", "SC", base.DEC, words.SCALINGS), byte = 3, size = 1, low = 0, bits = 2 },
        { field = field(ProtoField.uint32, "avi3.VIC", "VIC", base.DEC, words.MODES), byte = 4, size = 1, low = 0, bits = 8 },
        { field = field(ProtoField.uint32, "avi3.YQ", "YQ", base.DEC, words.YCC_RANGES), byte = 5, size = 1, low = 6, bits = 2 },
        { field = field(ProtoField.uint32, "avi3.CN", "CN", base.DEC, words.CONTENTS), byte = 5, size = 1, low = 4, bits = 2 },
        { field = field(ProtoField.uint32, "avi3.PR", "PR", base.DEC, words.REPETITIONS), byte = 5, size = 1, low = 0, bits = 4 },
        { field = field(ProtoField.uint32, "avi3.top", "top"), byte = 6, size = 2, low = 0, bits = 16 },
        { field = field(ProtoField.uint32, "avi3.bottom", "bottom"), byte = 8, size = 2, low = 0, bits = 16 },
        { field = field(ProtoField.uint32, "avi3.left", "left"), byte = 10, size = 2, low = 0, bits = 16 },
        { field = field(ProtoField.uint32, "avi3.right", "right"), byte = 12, size = 2, low = 0, bits = 16 },
      },
      octets = {
      },
    },
    { version = 4, length = 14, infoframe = true,
      where = {},
      fields = {
        { field = field(ProtoField.uint32, "avi4.Y", "Y", base.DEC, words.FORMATS), byte = 1, size = 1, low = 5, bits = 3 },
        { field = field(ProtoField.uint32, "avi4.A", "A"), byte = 1, size = 1, low = 4, bits = 1 },
        { field = field(ProtoField.uint32, "avi4.B", "B"), byte = 1, size = 1, low = 2, bits = 2 },
        { field = field(ProtoField.uint32, "avi4.S", "S", base.DEC, words.SCANS), byte = 1, size = 1, low = 0, bits = 2 },
        { field = field(ProtoField.uint32, "avi4.C", "C", base.DEC, words.COLORIMETRY), byte = 2, size = 1, low = 6, bits = 2 },
        { field = field(ProtoField.uint32, "avi4.M", "M", base.DEC, words.ASPECTS), byte = 2, size = 1, low = 4, bits = 2 },
        { field = field(ProtoField.uint32, "avi4.R", "R", base.DEC, words.ACTIVE), byte = 2, size = 1, low = 0, bits = 4 },
        { field = field(ProtoField.uint32, "avi4.ITC", "ITC", base.DEC, words.IT_CONTENT), byte = 3, size = 1, low = 7, bits = 1 },
        { field = field(ProtoField.uint32, "avi4.EC", "EC", base.DEC, words.EXTENDED), byte = 3, size = 1, low = 4, bits = 3 },
        { field = field(ProtoField.uint32, "avi4.Q", "Q", base.DEC, words.RANGES), byte = 3, size = 1, low = 2, bits = 2 },
        { field = field(ProtoField.uint32, "avi4.SC", "SC", base.DEC, words.SCALINGS), byte = 3, size = 1, low = 0, bits = 2 },
        { field = field(ProtoField.uint32, "avi4.VIC", "VIC", base.DEC, words.MODES), byte = 4, size = 1, low = 0, bits = 8 },
        { field = field(ProtoField.uint32, "avi4.YQ", "YQ", base.DEC, words.YCC_RANGES), byte = 5, size = 1, low = 6, bits = 2 },
        { field = field(ProtoField.uint32, "avi4.CN", "CN", base.DEC, words.CONTENTS), byte = 5, size = 1, low = 4, bits = 2 },
        { field = field(ProtoField.uint32, "avi4.PR", "PR", base.DEC, words.REPETITIONS), byte = 5, size = 1, low = 0, bits = 4 },
        { field = field(ProtoField.uint32, "avi4.top", "top"), byte = 6, size = 2, low = 0, bits = 16 },
        { field = field(ProtoField.uint32, "avi4.bottom", "bottom"), byte = 8, size = 2, low = 0, bits = 16 },
        { field = field(ProtoField.uint32, "avi4.left", "left"), byte = 10, size = 2, low = 0, bits = 16 },
        { field = field(ProtoField.uint32, "avi4.right", "right"), byte = 12, size = 2, low = 0, bits = 16 },
        { field = field(ProtoField.uint32, "avi4.ACE", "ACE", base.DEC, words.ADDITIONAL), byte = 14, size = 1, low = 4, bits = 4 },
      },
      octets = {
      },
    },
  },
  [131] = {
    { version = 1, length = 25, infoframe = true,
      where = {},
      fields = {
        { field = field(ProtoField.uint32, "product.kind", "kind", base.DEC, words.SOURCES), byte = 25, size = 1, low = 0, bits = 8 },
      },
      octets = {
        { field = field(ProtoField.string, "product.vendor", "vendor"), first = 1, most = 8 },
        { field = field(ProtoField.string, "product.product", "product"), first = 9, most = 16 },
      },
    },
  },
  [132] = {
    { version = 1, length = 10, infoframe = true,
      where = {},
      fields = {
        { field = field(ProtoField.uint32, "audio.CC", "CC", base.DEC, words.CHANNELS), byte = 1, size = 1, low = 0, bits = 3 },
        { field = field(ProtoField.uint32, "audio.CT", "CT", base.DEC, words.CODINGS), byte = 1, size = 1, low = 4, bits = 4 },
        { field = field(ProtoField.uint32, "audio.SS", "SS", base.DEC, words.SIZES), byte = 2, size = 1, low = 0, bits = 2 },
        { field = field(ProtoField.uint32, "audio.SF", "SF", base.DEC, words.FREQUENCY_WORDS), byte = 2, size = 1, low = 2, bits = 3 },
        { field = field(ProtoField.uint32, "audio.CXT", "CXT", base.DEC, words.FURTHER), byte = 3, size = 1, low = 0, bits = 5 },
        { field = field(ProtoField.uint32, "audio.CA", "CA", base.DEC, words.SPEAKERS), byte = 4, size = 1, low = 0, bits = 8 },
        { field = field(ProtoField.uint32, "audio.LFEPBL", "LFEPBL", base.DEC, words.LFE_LEVELS), byte = 5, size = 1, low = 0, bits = 2 },
        { field = field(ProtoField.uint32, "audio.LSV", "LSV"), byte = 5, size = 1, low = 3, bits = 4 },
        { field = field(ProtoField.uint32, "audio.DM_INH", "DM_INH", base.DEC, words.DOWN_MIXES), byte = 5, size = 1, low = 7, bits = 1 },
      },
      octets = {
      },
    },
  },
  [133] = {
    { version = 1, length = 10, infoframe = true,
      where = {},
      fields = {
        { field = field(ProtoField.uint32, "mpeg.MB", "MB"), byte = 1, size = 4, low = 0, bits = 32 },
        { field = field(ProtoField.uint32, "mpeg.MF", "MF", base.DEC, words.MPEG_FRAMES), byte = 5, size = 1, low = 0, bits = 2 },
        { field = field(ProtoField.uint32, "mpeg.FR", "FR", base.DEC, words.REPEATED), byte = 5, size = 1, low = 4, bits = 1 },
      },
      octets = {
      },
    },
  },
  [135] = {
    { version = 1, length = 26, infoframe = true,
      where = {},
      fields = {
        { field = field(ProtoField.uint32, "dynamic.EOTF", "EOTF", base.DEC, words.CURVES), byte = 1, size = 1, low = 0, bits = 3 },
        { field = field(ProtoField.uint32, "dynamic.Static_Metadata_Descriptor_ID", "Static_Metadata_Descriptor_ID", base.DEC, words.DESCRIPTORS), byte = 2, size = 1, low = 0, bits = 3 },
        { field = field(ProtoField.uint32, "dynamic.x0", "x0"), byte = 3, size = 2, low = 0, bits = 16 },
        { field = field(ProtoField.uint32, "dynamic.y0", "y0"), byte = 5, size = 2, low = 0, bits = 16 },
        { field = field(ProtoField.uint32, "dynamic.x1", "x1"), byte = 7, size = 2, low = 0, bits = 16 },
        { field = field(ProtoField.uint32, "dynamic.y1", "y1"), byte = 9, size = 2, low = 0, bits = 16 },
        { field = field(ProtoField.uint32, "dynamic.x2", "x2"), byte = 11, size = 2, low = 0, bits = 16 },
        { field = field(ProtoField.uint32, "dynamic.y2", "y2"), byte = 13, size = 2, low = 0, bits = 16 },
        { field = field(ProtoField.uint32, "dynamic.white_x", "white_x"), byte = 15, size = 2, low = 0, bits = 16 },
        { field = field(ProtoField.uint32, "dynamic.white_y", "white_y"), byte = 17, size = 2, low = 0, bits = 16 },
        { field = field(ProtoField.uint32, "dynamic.max", "max"), byte = 19, size = 2, low = 0, bits = 16 },
        { field = field(ProtoField.uint32, "dynamic.min", "min"), byte = 21, size = 2, low = 0, bits = 16 },
        { field = field(ProtoField.uint32, "dynamic.MaxCLL", "MaxCLL"), byte = 23, size = 2, low = 0, bits = 16 },
        { field = field(ProtoField.uint32, "dynamic.MaxFALL", "MaxFALL"), byte = 25, size = 2, low = 0, bits = 16 },
      },
      octets = {
        { field = field(ProtoField.bytes, "dynamic.payload", "payload"), first = 3, most = 24 },
      },
    },
  },
  [4] = {
    { version = 0, length = 0, infoframe = false,
      where = {},
      fields = {
        { field = field(ProtoField.uint32, "acp.DVD_Audio_Type_Dependent_Generation", "DVD-Audio_Type_Dependent_Generation"), byte = 0, size = 1, low = 0, bits = 8 },
        { field = field(ProtoField.uint32, "acp.Copy_Permission", "Copy_Permission"), byte = 1, size = 1, low = 6, bits = 2 },
        { field = field(ProtoField.uint32, "acp.Copy_Number", "Copy_Number"), byte = 1, size = 1, low = 3, bits = 3 },
        { field = field(ProtoField.uint32, "acp.Quality", "Quality"), byte = 1, size = 1, low = 1, bits = 2 },
        { field = field(ProtoField.uint32, "acp.Transaction", "Transaction"), byte = 1, size = 1, low = 0, bits = 1 },
        { field = field(ProtoField.uint32, "acp.ACP_Type", "ACP_Type", base.DEC, words.PROTECTIONS), byte = 1, size = 1, low = 0, bits = 8, header = true },
      },
      octets = {
        { field = field(ProtoField.bytes, "acp.CCI_1", "CCI_1"), first = 0, most = 16 },
      },
    },
  },
  [5] = {
    { version = 0, length = 0, infoframe = false,
      where = {},
      fields = {
        { field = field(ProtoField.uint32, "isrc1.ISRC_Status", "ISRC_Status", base.DEC, words.ISRC_STATES), byte = 1, size = 1, low = 0, bits = 3, header = true },
        { field = field(ProtoField.uint32, "isrc1.ISRC_Valid", "ISRC_Valid", base.DEC, words.YES), byte = 1, size = 1, low = 6, bits = 1, header = true },
        { field = field(ProtoField.uint32, "isrc1.ISRC_Cont", "ISRC_Cont", base.DEC, words.ISRC_ENDS), byte = 1, size = 1, low = 7, bits = 1, header = true },
      },
      octets = {
        { field = field(ProtoField.string, "isrc1.text", "text"), first = 0, most = 16 },
      },
    },
  },
  [6] = {
    { version = 0, length = 0, infoframe = false,
      where = {},
      fields = {
      },
      octets = {
        { field = field(ProtoField.string, "isrc2.text", "text"), first = 0, most = 16 },
      },
    },
  },
  [7] = {
    { version = 0, length = 0, infoframe = false,
      where = {},
      fields = {
        { field = field(ProtoField.uint32, "one_bit.samples_present", "samples_present"), byte = 1, size = 1, low = 0, bits = 4, header = true },
        { field = field(ProtoField.uint32, "one_bit.layout", "layout"), byte = 1, size = 1, low = 4, bits = 1, header = true },
        { field = field(ProtoField.uint32, "one_bit.samples_invalid", "samples_invalid"), byte = 2, size = 1, low = 0, bits = 4, header = true },
      },
      octets = {
      },
    },
  },
  [8] = {
    { version = 0, length = 0, infoframe = false,
      where = {},
      fields = {
        { field = field(ProtoField.uint32, "DST.frame_start", "frame_start"), byte = 1, size = 1, low = 7, bits = 1, header = true },
        { field = field(ProtoField.uint32, "DST.samples_invalid", "samples_invalid"), byte = 1, size = 1, low = 6, bits = 1, header = true },
      },
      octets = {
      },
    },
  },
  [9] = {
    { version = 0, length = 0, infoframe = false,
      where = {},
      fields = {
        { field = field(ProtoField.uint32, "high_rate.B", "B"), byte = 2, size = 1, low = 4, bits = 4, header = true },
      },
      octets = {
      },
    },
  },
  [10] = {
    { version = 0, length = 48, infoframe = false,
      where = {},
      fields = {
        { field = field(ProtoField.uint32, "gamut.Format_Flag", "Format_Flag", base.DEC, words.GAMUT_FORMS), byte = 0, size = 1, low = 7, bits = 1 },
        { field = field(ProtoField.uint32, "gamut.GBD_Color_Precision", "GBD_Color_Precision", base.DEC, words.PRECISIONS), byte = 0, size = 1, low = 3, bits = 2 },
        { field = field(ProtoField.uint32, "gamut.GBD_Color_Space", "GBD_Color_Space", base.DEC, words.GAMUT_SPACES), byte = 0, size = 1, low = 0, bits = 3 },
        { field = field(ProtoField.uint32, "gamut.Affected_Gamut_Seq_Num", "Affected_Gamut_Seq_Num"), byte = 1, size = 1, low = 0, bits = 4, header = true },
        { field = field(ProtoField.uint32, "gamut.GBD_profile", "GBD_profile"), byte = 1, size = 1, low = 4, bits = 3, header = true },
        { field = field(ProtoField.uint32, "gamut.Next_Field", "Next_Field"), byte = 1, size = 1, low = 7, bits = 1, header = true },
        { field = field(ProtoField.uint32, "gamut.Current_Gamut_Seq_Num", "Current_Gamut_Seq_Num"), byte = 2, size = 1, low = 0, bits = 4, header = true },
        { field = field(ProtoField.uint32, "gamut.Packet_Seq", "Packet_Seq", base.DEC, words.SEQUENCES), byte = 2, size = 1, low = 4, bits = 2, header = true },
        { field = field(ProtoField.uint32, "gamut.No_Crnt_GBD", "No_Crnt_GBD"), byte = 2, size = 1, low = 7, bits = 1, header = true },
      },
      octets = {
        { field = field(ProtoField.bytes, "gamut.payload", "payload"), first = 0, most = 28 },
      },
    },
  },
}

hdmi.fields = fields

local function number(buffer, it, from)
  local at = (it.header and HB or PB) + it.byte + (it.header and 0 or from)
  local range = buffer(at, it.size)
  local whole = it.big and range:uint() or range:le_uint()
  return math.floor(whole / 2 ^ it.low) % 2 ^ it.bits, range
end

local function layout_of(buffer)
  local length = buffer(HB + 2, 1):uint() % 32
  for _, it in ipairs(layouts[buffer(HB, 1):uint()] or {}) do
    local fits = not it.infoframe or (it.least and length >= it.least)
      or (not it.least and length == it.length and buffer(HB + 1, 1):uint() == it.version)
    for _, one in ipairs(it.where) do
      fits = fits and number(buffer, one, 0) == one.number
    end
    if fits then
      return it, it.infoframe and length + 1 or SIZE
    end
  end
end

local function add(buffer, tree, it, size, from)
  for _, one in ipairs(it.fields) do
    if one.header and from == 0 or not one.header and one.byte + one.size <= size then
      local value, range = number(buffer, one, from)
      tree:add(one.field, range, value)
    end
  end
  for _, one in ipairs(from == 0 and it.octets or {}) do
    local most = math.min(one.most or SIZE, size - one.first)
    if most > 0 then
      tree:add(one.field, buffer(PB + one.first, most))
    end
  end
end

function hdmi.dissector(buffer, packet, tree)
  local value = buffer(HB, 1):uint()
  local name = names[value] or string.format(value >= 0x80 and "InfoFrame %02x" or "Packet %02x", value)
  local is_lost, is_mended = buffer(16, 1):uint() > 0, buffer(17, 1):uint() > 0
  packet.cols.protocol = "HDMI"
  packet.cols.info = name .. (is_lost and " [lost]" or "") .. (is_mended and " [mended]" or "")
  local sub = tree:add(hdmi, buffer(), "HDMI data island packet: " .. name)
  sub:add(column, buffer(0, 8))
  sub:add(epoch, buffer(8, 4))
  sub:add(frame, buffer(12, 4))
  sub:add(lost, buffer(16, 1))
  sub:add(mended, buffer(17, 1))
  sub:add(damaged, buffer(18, 1))
  sub:add(kind, buffer(HB, 1))
  sub:add(header, buffer(HB, 3))
  sub:add(bodies, buffer(PB, SIZE))
  local it, size = layout_of(buffer)
  if not it or is_lost then
    return
  end
  add(buffer, sub, it, size, 0)
  local present = value == 2 and buffer(HB + 1, 1):uint() % 16 or 1
  for body = 1, value == 2 and BODIES - 1 or 0 do
    if math.floor(present / 2 ^ body) % 2 == 1 then
      add(buffer, sub, it, size, BODY * body)
    end
  end
end

DissectorTable.get("wtap_encap"):add((wtap_encaps or wtap).USER0, hdmi)
