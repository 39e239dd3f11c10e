"""The bits of lanes: locks, openings and skews, the video coding, and files of ten-bit words."""
