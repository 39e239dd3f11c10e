"""Compares two captures, or a capture with pictures and sound."""
