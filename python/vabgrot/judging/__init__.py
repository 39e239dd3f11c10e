"""Judges a capture against the standards: the record of the capture, the rules, and a verdict on each rule."""
