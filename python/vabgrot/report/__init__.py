"""The parts of the page about a capture (`tools/report`)."""
