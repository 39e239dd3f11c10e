"""The counters of a watched link, as Prometheus scrapes them from the loopback."""

from __future__ import annotations

from collections.abc import Iterator

from prometheus_client import CollectorRegistry, start_http_server
from prometheus_client.core import CounterMetricFamily, GaugeMetricFamily, Metric
from prometheus_client.registry import Collector

from vabgrot.errors import Refused
from vabgrot.formats.faults import LANED
from vabgrot.watching.counting import KINDS
from vabgrot.watching.notices import KINDS as EVENTS
from vabgrot.watching.state import State

LOOPBACK = "127.0.0.1"
LANES = ("blue", "green", "red")


class Watched(Collector):
    """Answers what has been counted when it is asked."""

    def __init__(self, state: State) -> None:
        self.state = state

    def collect(self) -> Iterator[Metric]:
        """All counters. A fault without a lane has an empty one."""
        state, count = self.state, self.state.count
        times = count.faults
        faults = CounterMetricFamily("vabgrot_faults", "Fault lines of the link.", labels=["kind", "lane"])
        for kind in KINDS:
            for lane in range(len(LANES)) if kind in LANED else (None,):
                faults.add_metric([kind, "" if lane is None else LANES[lane]], times[kind, lane])
        yield faults
        yield CounterMetricFamily("vabgrot_columns", "Columns that events tell.", value=count.before + count.columns)
        yield CounterMetricFamily("vabgrot_frames", "Whole frames.", value=count.frames)
        yield CounterMetricFamily("vabgrot_received_bytes", "Bytes of the capture.", value=state.feed.bytes)
        yield CounterMetricFamily("vabgrot_frames_looked_at", "Whole frames that the view looked at.", value=state.looks.looked)
        yield GaugeMetricFamily("vabgrot_aligned", "1 where the lanes are aligned.", value=int(count.is_aligned))
        happened = CounterMetricFamily("vabgrot_events", "What happened on the link.", labels=["kind"])
        for name in (*sorted(EVENTS), *KINDS):
            happened.add_metric([name], state.happenings.counts[name] if state.happenings else 0)
        yield happened
        yield GaugeMetricFamily("vabgrot_dead_lanes", "Lanes whose bits do not change.", value=len(state.feed.stuck.dead))
        yield GaugeMetricFamily("vabgrot_silent_seconds", "How long nothing comes.", value=state.feed.silence)
        yield GaugeMetricFamily("vabgrot_columns_per_second", "Columns of the last second.", value=state.columns)
        clock = state.clock or 0
        yield GaugeMetricFamily("vabgrot_link_columns_per_second", "Those of the format; 0 where that is not known.", value=clock)


def serve(state: State, port: int) -> None:
    """Serves the counters on a port of the loopback; raises Refused where that cannot be had."""
    registry = CollectorRegistry()
    registry.register(Watched(state))
    try:
        start_http_server(port, LOOPBACK, registry)
    except OSError as why:
        raise Refused(f"port {port}: {why.strerror}") from None
