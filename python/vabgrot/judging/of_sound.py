"""Rules on sound: clock regeneration, samples, their blocks, the channel status, and the audio InfoFrame."""

from __future__ import annotations

from bisect import bisect_right
from collections import Counter
from collections.abc import Iterator
from dataclasses import dataclass

import numpy as np
import numpy.typing as npt

from vabgrot import packets
from vabgrot.content import Samples
from vabgrot.formats.audio import BLOCK, RATES
from vabgrot.formats.layouts import LAYOUTS, Type
from vabgrot.judging.of_packets import first_of, wrong_of
from vabgrot.judging.record import Placed
from vabgrot.judging.verdicts import Case, Span, Verdict, absent, counted, every_two, failed, passed, unjudged

MOST_RATE, LEAST_RATE = 1500, 300  # Hz: of 128 fs / N
STEADY = 0.002  # the tolerance of a measured rate, as a part of it
NOT_SOUND = "no sample was received"
SAMPLE = LAYOUTS["samples"].fields
Statuses = Counter[tuple[tuple[int, ...], ...]]  # the channel status bits of both sides, and how often each was sent


def uneven_of(case: Case) -> list[tuple[Placed, str]]:
    """Returns the packets of samples with odd parity on a side."""
    its, packets = case.content.samples, case.content.packets.of(Type.SAMPLES)
    odd = np.flatnonzero(its.odd).tolist()
    return [(Placed(int(its.at[it]), packets.packet(it), True), f"odd parity on {counted(int(its.odd[it]), 'side')}") for it in odd]


def starts_of(samples: Samples) -> list[tuple[int, int]]:
    """Returns the column and the number of each sample that starts a block, in the first pair of channels."""
    numbers = samples.numbers[0][samples.starts[0]]
    packets = np.searchsorted(np.cumsum(samples.counts), numbers, "right")
    return list(zip(samples.at[packets].tolist(), numbers.tolist()))


def status_of(bodies: npt.NDArray[np.uint8], starts: list[int], breaks: list[int]) -> Statuses:
    """Counts the different channel statuses (both sides) in the complete blocks of these samples."""
    found: Statuses = Counter()
    ends = sorted({*starts, *breaks, len(bodies)})
    for start in starts:
        end = ends[bisect_right(ends, start)] if start < len(bodies) else start
        if end - start >= BLOCK:
            block = bodies[start : start + BLOCK]
            found[tuple(SAMPLE["left C"].numbers(block).tolist()), tuple(SAMPLE["right C"].numbers(block).tolist())] += 1
    return found


def statuses(sound: Samples, pair: int) -> Statuses:
    """Counts the different channel statuses of a pair of channels in its complete blocks."""
    breaks = np.searchsorted(sound.numbers[pair], sound.breaks)
    return status_of(sound.bodies[pair], sound.starts[pair].tolist(), breaks.tolist())


def clock_of(packet: packets.Packet) -> str:
    """Says what is wrong with a single clock regeneration packet."""
    if any(body != packet.bodies[0] for body in packet.bodies):
        return "its four bodies are not alike"
    n, cycles = packets.clock_numbers(packet)
    return f"N {n} and CTS {cycles}: neither may be 0" if not n or not cycles else ""


def regeneration(case: Case, sound: Samples, clocks: list[Placed]) -> Verdict:
    """Fails if there are samples without clock regeneration."""
    name = "clock regeneration"
    if clocks:
        return first_of(name, wrong_of(clocks, clock_of), len(clocks), "clock regeneration packet")
    if not sound.total:
        return unjudged(name, NOT_SOUND)
    return absent(case, name, "clock regeneration packet", *span_of(sound))


def span_of(sound: Samples) -> tuple[int, int]:
    """Returns the range of columns with sound."""
    return int(sound.at[0]), int(sound.at[-1]) + 1


@dataclass(frozen=True)
class Clock:
    """N and CTS of the majority of clock regeneration packets, the mean CTS of all packets with that N, and the column of the first of
    them."""

    n: int
    cycles: float
    at: int

    @property
    def samples(self) -> float:
        """The samples in each column."""
        return self.n / (128 * self.cycles)


def regenerated(clocks: list[Placed]) -> Clock | None:
    """Returns the content of the clock regeneration packets, or None if none can be read."""
    numbers = [(one.at, *packets.clock_numbers(one.packet)) for one in clocks if not clock_of(one.packet)]
    if not numbers:
        return None
    n = Counter(n for _, n, _ in numbers).most_common(1)[0][0]
    return Clock(n, float(np.mean([cycles for _, its, cycles in numbers if its == n])), next(at for at, its, _ in numbers if its == n))


def rates(case: Case, clock: Clock | None) -> Iterator[Verdict]:
    """Yields the rules on N and on the sampling rate."""
    if clock is None:
        why = "no clock regeneration packet can be read"
        yield unjudged("N", why)
        yield unjudged("sample rate", why)
        return
    if not case.clock:
        yield unjudged("N", f"N {clock.n:,}, and no pixel clock is known (--clock)")
        yield unjudged("sample rate", f"N {clock.n:,}, CTS {clock.cycles:,.0f}, and no pixel clock is known (--clock)")
        return
    rate = case.clock * clock.samples
    times = 128 * rate / clock.n
    says = f"N {clock.n:,}: 128 fs / N is {times:,.0f} Hz"
    usual = nearest(rate)
    wants = f", the recommended N is {RATES[usual].n:,}" if usual else ""
    is_right = LEAST_RATE <= times * (1 + STEADY) and times * (1 - STEADY) <= MOST_RATE
    yield passed("N", says + wants) if is_right else failed("N", f"{says}, wants {LEAST_RATE} to {MOST_RATE} Hz{wants}", clock.at)
    says = f"N {clock.n:,}, CTS {clock.cycles:,.0f} and {case.clock:,.0f} Hz make {rate:,.0f} Hz"
    if usual is None:
        yield failed("sample rate", f"{says}, wants one of {', '.join(f'{it:,}' for it in RATES)}", clock.at)
    else:
        yield passed("sample rate", f"{says}: {usual:,} Hz")


def nearest(rate: float) -> int | None:
    """Returns the standard rate nearest to a measured one, or None if none is near."""
    return next((usual for usual in RATES if abs(rate - usual) <= STEADY * usual), None)


def delivered(case: Case, sound: Samples, clock: Clock | None) -> Verdict:
    """Fails if the number of samples in all whole fields does not fit the clock."""
    name = "samples a line"
    if not sound.total or clock is None:
        return unjudged(name, NOT_SOUND if not sound.total else "no clock regeneration packet can be read")
    if len(case.fields) < 2:
        return unjudged(name, "no two whole fields were seen")
    if len(sound.breaks):
        return unjudged(name, "the link may have lost samples")
    begin, end = case.fields[0].begin, case.fields[-1].end
    if sound.at[0] > case.fields[0].end or sound.at[-1] < case.fields[-1].begin:
        return unjudged(name, "the sound begins or ends within the capture")
    came, wanted = int(sound.counts[(sound.at >= begin) & (sound.at < end)].sum()), (end - begin) * clock.samples
    line = case.line or 0
    most = 2 * (1 + 2 * line * clock.samples) + STEADY * wanted  # at both ends a sample may be a line and a sample early or late
    unit, over = ("a line", line) if line else ("a thousand columns", 1000.0)
    says = f"{came * over / (end - begin):.3f} {unit}, N and CTS say {clock.samples * over:.3f}"
    return passed(name, says) if abs(came - wanted) <= most else failed(name, f"{says}: {came:,} of {wanted:,.0f} samples", begin)


def bodies_of(packet: packets.Packet) -> str:
    """Says whether a packet of samples leaves a body out before one that has a sample."""
    present = SAMPLE["sample_present"].of(packet.header)
    return f"sample_present {present:04b} leaves a body out" if present & present + 1 else ""


def blocks(sound: Samples) -> Verdict:
    """Fails if a block does not start every 192 samples."""
    name, starts, breaks = "block start", starts_of(sound), sound.breaks.tolist()
    if not starts:
        if sound.total > BLOCK and not breaks:
            return failed(name, f"no block starts in {sound.total:,} samples", int(sound.at[0]))
        return unjudged(name, NOT_SOUND if not sound.total else "no block starts in the samples that came")
    wrong = []
    for (_, one), (at, other) in zip(starts, starts[1:]):
        if other - one != BLOCK and bisect_right(breaks, one) == bisect_right(breaks, other):
            wrong.append((at, other - one))
    if wrong:
        return failed(name, f"a block of {wrong[0][1]:,} samples, wants {BLOCK}", wrong[0][0], len(wrong))
    return passed(name, counted(len(starts), "block")) if len(starts) > 1 else unjudged(name, "one block starts alone")


def bits_of(bits: tuple[int, ...], first: int, count: int) -> int:
    return sum(bits[first + place] << place for place in range(count))


def status_faults(case: Case, sound: Samples, clock: Clock | None) -> list[str]:
    """Says what is wrong with the channel status of the samples."""
    rate = nearest(case.clock * clock.samples) if clock and case.clock else None
    found = []
    for pair in range(len(sound.bodies)):
        sides = [f"channel {2 * pair + side}" for side in (1, 2)] if sound.is_wide else ["the left side", "the right side"]
        for both in statuses(sound, pair):
            if both[0][0] or both[1][0]:
                found.append("bit 0 says professional use, wants consumer")
            for bits, channel, side in zip(both, (2 * pair + 1, 2 * pair + 2), sides):
                number = bits_of(bits, 20, 4)
                if number not in (0, channel):
                    found.append(f"{side} says channel {number}, wants {channel} or 0 (not told)")
                code = bits_of(bits, 24, 4)
                if rate and code != 1 and code != RATES[rate].code:
                    name = dict(packets.channel_status(bits)).get("rate", "")
                    found.append(f"{side} says {name}, N and CTS make {rate:,} Hz")
    return list(dict.fromkeys(found))


def status(case: Case, sound: Samples, clock: Clock | None) -> Verdict:
    """Fails if the channel status does not fit its channel or the rate."""
    name, known = "channel status", [statuses(sound, pair) for pair in range(len(sound.bodies))]
    if not any(known):
        return unjudged(name, "no whole block came" if sound.total else NOT_SOUND)
    wrong = status_faults(case, sound, clock)
    if wrong:
        return failed(name, "; ".join(wrong[:3]), starts_of(sound)[0][0] if len(sound.starts[0]) else int(sound.at[0]), len(wrong))
    first = next(iter(next(one for one in known if one)))
    words = ", ".join(f"{key} {value}" for key, value in packets.channel_status(first[0]) if key in ("rate", "word"))
    return passed(name, f"{counted(sum(one.total() for one in known), 'block')}, {words}")


def audio_of(packet: packets.Packet, layout: int) -> str:
    """Says what in an audio InfoFrame does not fit the samples."""
    channels, coding, rate, size, speakers = (packet.number(name) for name in ("CC", "CT", "SF", "SS", "CA"))
    found = []
    if not layout and channels > 1:
        found.append(f"{channels + 1} channels (CC {channels}), and samples of two are sent")
    if layout and channels == 1:
        found.append("two channels (CC 1), and samples of more are sent")
    if not layout and speakers:
        found.append(f"speakers of more than two channels (CA {speakers:02x}), and samples of two are sent")
    for name, value in (("coding (CT)", coding), ("rate (SF)", rate), ("sample size (SS)", size)):
        if value:
            found.append(f"{name} {value}, wants 0, by the stream")
    return "; ".join(found)


def infoframes(case: Case, sound: Samples) -> Iterator[Verdict]:
    """Yields the rules on the audio InfoFrame."""
    frames = case.of_kind(Type.AUDIO)
    if not sound.total:
        yield unjudged("audio InfoFrame", NOT_SOUND)
        yield unjudged("audio format", NOT_SOUND)
        return
    yield every_two(case, "audio InfoFrame", "audio InfoFrame", [one.at for one in frames], Span(*span_of(sound)))
    readable = [one for one in frames if one.packet.numbers]
    wrong = wrong_of(readable, lambda packet: audio_of(packet, sound.layout))
    yield first_of("audio format", wrong, len(readable), "audio InfoFrame")


def judged(case: Case) -> Iterator[Verdict]:
    """Yields the verdicts of these rules."""
    sound, clocks = case.content.samples, case.of_kind(Type.CLOCK)
    clock = regenerated(clocks)
    yield regeneration(case, sound, clocks)
    yield from rates(case, clock)
    yield delivered(case, sound, clock)
    narrow = [one for one in case.of_kind(Type.SAMPLES) if not SAMPLE["layout"].of(one.packet.header)]
    yield first_of("sample packets", wrong_of(narrow, bodies_of), len(narrow), "sample packet")
    yield first_of("sample parity", uneven_of(case), len(sound.at), "sample packet")
    yield blocks(sound)
    yield status(case, sound, clock)
    yield from infoframes(case, sound)
