#!/usr/bin/python3
"""Measures the processor time of tools/slice for a waveform of random bits: 8,600,000 samples of three lanes and of a clock, made by the
channel of the tests, five times one after another. It measures each number of samples per bit (8.3 and 4.3 if you give none), with the
edges of the lanes and with the clock, and without python3-numba. It prints seconds, and million samples a second without the start."""

import os
import resource
import subprocess
import sys
import tempfile
from pathlib import Path

import numpy as np

TOP = Path(__file__).resolve().parents[1]
sys.path.insert(0, str(TOP))
from tests.models.channel import Channel  # noqa: E402

SAMPLES, TIMES = 8_600_000, 5


def wave_of(samples):
    """Returns samples by channels: three lanes and a clock."""
    bits = int(SAMPLES / samples)
    lanes = list(np.random.default_rng(3).integers(0, 2, (3, bits)).astype(bool))
    channel = Channel(samples, off=3e-4, drift=3e-4, random=0.2, periodic=0.2, noise=0.02, skew=(0, 6.9, 3.8))
    waves, _ = channel.waves(lanes)
    waves = np.column_stack([waves, channel.clock(bits, len(waves))]).astype(np.float32)
    return np.concatenate([waves] * TIMES)


def seconds(path, words, folder):
    """Returns the processor time of a run of the tool, which looks for modules in a folder first."""
    before = resource.getrusage(resource.RUSAGE_CHILDREN)
    environment = {**os.environ, "PYTHONPATH": folder}
    command = [TOP / "tools" / "slice", path, *words]
    subprocess.run(command, env=environment, stdout=subprocess.DEVNULL, stderr=subprocess.DEVNULL)
    after = resource.getrusage(resource.RUSAGE_CHILDREN)
    return after.ru_utime + after.ru_stime - before.ru_utime - before.ru_stime


def main():
    os.sched_setaffinity(0, {max(os.sched_getaffinity(0))})
    with tempfile.TemporaryDirectory() as folder:
        Path(folder, "none").mkdir()
        Path(folder, "none", "numba.py").write_text("raise ImportError\n")
        for samples in map(float, sys.argv[1:] or ("8.3", "4.3")):
            wave = wave_of(samples)
            np.save(f"{folder}/a.npy", wave)
            np.save(f"{folder}/start.npy", wave[:5000])
            for name, words, place in (("edges", [], ""), ("clock", ["--clock", "3"], ""), ("no numba", [], f"{folder}/none")):
                start = min(seconds(f"{folder}/start.npy", words, place) for _ in range(3))
                best = min(seconds(f"{folder}/a.npy", words, place) for _ in range(3))
                rate = len(wave) / (best - start) / 1e6
                print(f"{samples:g} samples a bit, {name}: {best:.2f} s, of them {start:.2f} the start; {rate:.1f} a second")


if __name__ == "__main__":
    main()
