"""The sound of a capture for a page: all sent channels, their speakers and levels, and a file to play and save."""

from __future__ import annotations

from base64 import b64encode
from dataclasses import dataclass, replace
from typing import Any

import numpy as np
import numpy.typing as npt

from vabgrot import channels, packets, pcm
from vabgrot.channels import Values, Wide
from vabgrot.content import SAMPLE, Samples
from vabgrot.formats import speakers
from vabgrot.formats.audio import BLOCK
from vabgrot.hearing import Heard
from vabgrot.judging.of_sound import statuses

VALUE = SAMPLE["left"].bits
MOST_PEAKS, WAVE, TALL = 1200, 1200, 100  # the steps of a waveform, and the width and height of a channel's
FULL = 1 << VALUE - 1  # full scale
FLOOR = -60  # dB, where the bars of levels begin
MOST_STATUS = 4  # different blocks of channel status that are shown
SUPPOSED = 48000


@dataclass(frozen=True)
class Channel:
    """A channel: its number from 1, its speaker (NONE if it has none), and its level in dB of full scale (None if silent)."""

    number: int
    speaker: str
    peak: float | None
    mean: float | None

    @property
    def name(self) -> str:
        """A short name."""
        return f"channel {self.number}" if self.speaker == speakers.NONE else self.speaker

    @property
    def words(self) -> str:
        """The speaker in words."""
        return speakers.WORDS.get(self.speaker, "no speaker is told")

    @property
    def levels(self) -> tuple[tuple[str, int], tuple[str, int]]:
        """The peak and the root mean square: in words, and as a percentage for a bar."""
        one, other = (("silent", 0) if it is None else (words_of(it), bar_of(it)) for it in (self.peak, self.mean))
        return one, other

    def plain(self) -> dict[str, Any]:
        """Returns the same as a value for JSON."""
        return {"channel": self.number, "speaker": self.speaker, "peak": self.peak, "rms": self.mean}


def words_of(level: float) -> str:
    """Returns a level in words."""
    return f"{level:.1f} dB".replace("-", "" if level > -0.05 else "−")


def bar_of(level: float) -> int:
    """Returns a level as a percentage for a bar."""
    return max(0, round(100 * (1 - level / FLOOR)))


def decibels(value: float) -> float | None:
    """Converts a value to dB of full scale. Returns None for 0."""
    return round(20 * float(np.log10(value / FULL)), 2) + 0.0 if value else None


def level_of(values: npt.NDArray[np.int32]) -> tuple[float | None, float | None]:
    """Returns the peak and the root mean square of a channel, in dB of full scale."""
    found = values.astype(np.float64)
    return decibels(float(np.abs(found).max(initial=0))), decibels(float(np.sqrt(np.mean(found * found))) if len(found) else 0)


def paths_of(values: npt.NDArray[np.int32], middle: int) -> str:
    """Returns the outline of a channel's samples as an SVG path: the maximum of each step, and back along the minimum."""
    size = len(values)
    steps = min(MOST_PEAKS, size)
    firsts = np.arange(steps) * size // steps
    upper = values >> 8
    greatest, least = np.maximum.reduceat(upper, firsts).tolist(), np.minimum.reduceat(upper, firsts).tolist()
    scale = WAVE / steps
    above = [f"{(step + 0.5) * scale:.1f} {middle - value * 46 / 32768:.1f}" for step, value in enumerate(greatest)]
    below = [f"{(step + 0.5) * scale:.1f} {middle - value * 46 / 32768:.1f}" for step, value in enumerate(least)]
    return f"M{'L'.join(above + below[::-1])}Z"


@dataclass
class Told:
    """The sound of a capture, with its properties. `lost` is the number of lost packets of samples."""

    heard: Heard
    samples: Samples
    values: Values
    clock: int | None
    lost: int

    @classmethod
    def of(cls, heard: Heard, samples: Samples, clock: int | None = None, lost: int = 0) -> Told:
        """Makes the sound, if the pixel clock is known."""
        return cls(heard, samples, heard.values(), clock, lost)

    def rates(self) -> dict[str, int]:
        """The sampling rates by source; clock regeneration comes first. A mode without a code gives no pixel clock."""
        return replace(self.heard, vic=self.heard.vic or None).rates(self.clock)

    @property
    def names(self) -> list[str]:
        """The speakers of the channels, NONE for those without one. Without a known allocation they are the usual ones."""
        count = self.values.shape[1]
        allocation = self.heard.allocation if self.samples.is_wide else 0
        told = speakers.speakers(allocation) if allocation is not None else ()
        return list((told or speakers.speakers(speakers.SENT[count]))[:count])

    def shown(self) -> list[int]:
        """The channels that have a speaker or are not silent, counted from 0."""
        return [at for at, name in enumerate(self.names) if name != speakers.NONE or self.values[:, at].any()]

    def channels(self) -> list[Channel]:
        """The shown channels with their levels."""
        names = self.names
        return [Channel(at + 1, names[at], *level_of(self.values[:, at])) for at in self.shown()]

    @property
    def bits(self) -> int:
        """The bits of a sample: 16 if all lower ones are 0, otherwise 24."""
        return 24 if (self.values & 255).any() else 16

    @property
    def rate(self) -> int:
        """The sampling rate from the first source that gives one."""
        return next(iter(self.rates().values()), SUPPOSED)

    def file(self) -> bytes:
        """Returns the sound as a WAV file, like `tools/sound`. Channels without a speaker come last."""
        if not self.samples.is_wide:
            return pcm.wav(pcm.Sound(self.rate, self.bits, *map(bytes, self.heard.sides[:2])))
        names = tuple(one.name for one in self.channels())
        return channels.write(Wide(self.rate, self.bits, self.values[:, self.shown()], names))

    def says(self) -> str:
        """A description in words."""
        rates = self.rates()
        by = f"by {next(iter(rates))}" if rates else "which is supposed, since nothing that was received tells it"
        shown = self.channels()
        of = f" of {len(shown)} channels ({' '.join(one.name for one in shown)})" if self.samples.is_wide else ""
        seconds = self.samples.total / self.rate
        text = f"{self.samples.total:,} samples of {self.bits} bits{of} at {self.rate:,} Hz, {by}: {seconds:.3f} s."
        if len(set(rates.values())) > 1:
            text += f" These do not agree: {', '.join(f'{who} {rate:,} Hz' for who, rate in rates.items())}."
        if self.samples.is_wide:
            text += f" {self.says_speakers()}"
        if self.lost:
            text += f" {self.lost} packets of samples were lost."
        return text + "".join(f" {count:,} packets of {name} are not played." for name, count in sorted(self.heard.others.items()))

    def says_speakers(self) -> str:
        """Names the source of the speakers."""
        allocation, usual = self.heard.allocation, speakers.SENT[self.values.shape[1]]
        if allocation is not None and speakers.speakers(allocation):
            return f"The speakers are those of the audio InfoFrame (CA {allocation:02x})."
        why = "No audio InfoFrame tells the speakers" if allocation is None else f"CA {allocation:02x} of the audio InfoFrame is reserved"
        return f"{why}: those of CA {usual:02x} are supposed."

    def status(self) -> list[dict[str, object]]:
        """The channel status of each pair, the most frequent one first."""
        found: list[dict[str, object]] = []
        for pair in range(len(self.samples.bodies)):
            sides = [f"channel {2 * pair + side}" for side in (1, 2)] if self.samples.is_wide else ["left", "right"]
            of = f" of channels {2 * pair + 1} and {2 * pair + 2}" if self.samples.is_wide else ""
            for both, times in statuses(self.samples, pair).most_common(1 if self.samples.is_wide else MOST_STATUS):
                rows = [(name, one, other) for (name, one), (_, other) in zip(*map(packets.channel_status, both))]
                found.append({"of": of, "times": times, "sides": sides, "rows": rows})
        return found

    def choices(self) -> list[dict[str, object]]:
        """The choices of the page's player if there are more than two channels: the weight of each channel on both sides."""
        shown = self.channels()
        if not self.samples.is_wide:
            return []
        found: list[dict[str, object]] = [{"name": "all, mixed down to two", "gains": mixed([one.speaker for one in shown])}]
        for pair in range(packets.PAIRS):
            its = [one for one in shown if (one.number - 1) // 2 == pair]
            if its:
                numbers = " and ".join(str(one.number) for one in its)
                name = f"channel{'s' * (len(its) > 1)} {numbers}: {', '.join(one.words for one in its)}"
                found.append({"name": name, "gains": [[float(one is side) for one in shown] for side in (its[0], its[-1])]})
        for channel in shown:
            found.append({"name": f"{channel.name} on both sides", "gains": [[float(one is channel) for one in shown]] * 2})
        return found

    def order(self) -> list[int]:
        """Of each shown channel its place in the file."""
        if not self.samples.is_wide:
            return [0, 1]
        order, _ = speakers.places([one.name for one in self.channels()])
        return [order.index(at) for at in range(len(order))]

    def plain(self) -> dict[str, Any]:
        """What is told of it, for machines."""
        return {"rate": self.rate, "bits": self.bits, "rates": self.rates(), "channels": [one.plain() for one in self.channels()]}

    def page(self) -> dict[str, Any]:
        """What the page has of it."""
        shown = self.channels()
        size = self.samples.total
        return {
            "says": self.says(),
            "label": f"Waveform of {size} samples: {', '.join(one.words for one in shown)}",
            "channels": shown,
            "waves": [paths_of(self.values[:, at], TALL * place + TALL // 2) for place, at in enumerate(self.shown())],
            "gaps": [f"{gap * WAVE / size:.1f}" for gap in self.samples.breaks[:500].tolist()],
            "width": WAVE,
            "height": TALL * len(shown),
            "seconds": f"{size / self.rate:.3f} s",
            "status": self.status(),
            "block": BLOCK,
            "choices": self.choices(),
            "order": self.order(),
            "file": b64encode(self.file()).decode(),
        }


LEFT, RIGHT = frozenset("FL RL RLC FLC FLH FLW".split()), frozenset("FR RR RRC FRC FRH FRW".split())  # of the downmix
HALF = 0.5**0.5


def mixed(names: list[str]) -> list[list[float]]:
    """How much of each channel the two sides of a downmix have (ITU-R BS.775: front left and right whole, the centre and the others of
    each side by 3 dB less, no low frequency effects), such that none is more than full scale."""
    sides = []
    for front, its, others in (("FL", LEFT, RIGHT), ("FR", RIGHT, LEFT)):
        sides.append([1.0 if it == front else 0.0 if it in others or it in ("LFE", speakers.NONE) else HALF for it in names])
    most = max(sum(side) for side in sides) or 1.0
    return [[gain / most for gain in side] for side in sides]
