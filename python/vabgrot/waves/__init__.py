"""Reads bits from waveforms and from the dumps of simulations."""
