"""The characters of a TMDS link that are not pixels, and the lengths of the structures they form. Sources: DVI 1.0, section 3.2 (control
characters), and HDMI 1.4, section 5 (the others). Each table names its section."""

TEN = 10  # bits of a character
ALL = (1 << TEN) - 1
LANES = ("lane 0 (blue)", "lane 1 (green)", "lane 2 (red)")
HSYNC, VSYNC = 1, 2  # bits of a control column's value, and of the sync value of a packet's column

# The control characters of the values 0 to 3 (DVI 1.0, section 3.2.3; HDMI 1.4, section 5.4.2).
CONTROL = (0x354, 0x0AB, 0x154, 0x2AB)

# The characters of the nibbles 0 to 15 (TERC4; HDMI 1.4, section 5.4.3).
TERC4 = (0x29C, 0x263, 0x2E4, 0x2E2, 0x171, 0x11E, 0x18E, 0x13C, 0x2CC, 0x139, 0x19C, 0x2C6, 0x28E, 0x271, 0x163, 0x2C3)

# The guard bands of lanes 0, 1 and 2 (HDMI 1.4, sections 5.2.2.1 and 5.2.3.3). In the guard band of an island, lane 0 carries the syncs.
VIDEO_GUARD = (0x2CC, 0x133, 0x2CC)
ISLAND_GUARD = 0x133
ISLAND_GUARDS_0 = TERC4[12:]

# The control characters of lanes 1 and 2 that announce a line and an island (HDMI 1.4, section 5.2.1.1).
VIDEO_PREAMBLE = (CONTROL[1], CONTROL[0])
ISLAND_PREAMBLE = (CONTROL[1], CONTROL[1])

LEAST_CONTROL = 12  # characters of a control period (HDMI 1.4, section 5.2.1)
PREAMBLE = 8  # characters of a preamble
PACKET = 32  # columns of a packet (HDMI 1.4, section 5.2.3.1)
MOST_PACKETS = 18  # packets of a data island (HDMI 1.4, section 5.2.3.2)
MOST_SKEW = 70  # the greatest skew of the lanes of a capture, in bits (docs/guide/FORMATS.md)
