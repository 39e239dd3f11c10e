"""The tables of the models: a copy of their own of what the standards say, so that the models do not stand on the package that
the tools use."""

# DVI 1.0, section 3.2; HDMI 1.4, section 5.4.2.
CONTROL = (0x354, 0x0AB, 0x154, 0x2AB)
# HDMI 1.4, section 5.4.3.
TERC4 = (0x29C, 0x263, 0x2E4, 0x2E2, 0x171, 0x11E, 0x18E, 0x13C, 0x2CC, 0x139, 0x19C, 0x2C6, 0x28E, 0x271, 0x163, 0x2C3)
# HDMI 1.4, sections 5.2.2.1 and 5.2.3.3.
VIDEO_GUARD = (0x2CC, 0x133, 0x2CC)
ISLAND_GUARD = 0x133
MOST_PIXELS, MOST_PACKETS = 4096, 18
# CTA-861, section 4: the pixels across and down of each mode that `make content` has a code for.
ACTIVE = {1: (640, 480), 2: (720, 480), 3: (720, 480), 4: (1280, 720), 16: (1920, 1080), 17: (720, 576), 18: (720, 576), 19: (1280, 720)}
# Front, sync and back across and down, and the polarity, of each mode that has a code.
PORCHES = {1: (16, 96, 48, 10, 2, 33, 0), 2: (16, 62, 60, 9, 6, 30, 0), 3: (16, 62, 60, 9, 6, 30, 0), 4: (110, 40, 220, 5, 5, 20, 1),
           16: (88, 44, 148, 4, 5, 36, 1), 17: (12, 64, 68, 5, 5, 39, 0), 18: (12, 64, 68, 5, 5, 39, 0), 19: (440, 40, 220, 5, 5, 20, 1)}
