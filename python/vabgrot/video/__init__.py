"""Rasters: their timing, the video format that they match, and the colours of their pixels."""
