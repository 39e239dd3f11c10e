"""What happens on a link that is watched: as tables, as counts by kind, and what ends the watch."""

from __future__ import annotations

import contextlib
from collections import Counter
from collections.abc import Iterable, Iterator
from dataclasses import dataclass, field
from pathlib import Path

from vabgrot.events import Events
from vabgrot.flow.parts import Making
from vabgrot.watching.feeding import Feed
from vabgrot.watching.notices import FRAME_HEADS, HEADS, KINDS, Notice, Notices
from vabgrot.watching.tables import Table, table_in


@dataclass
class Happenings:
    """Has notices of what comes, writes them, and counts them by kind. `stops` are the kinds that end the watch."""

    notices: Notices
    stops: frozenset[str] = frozenset()
    events: Table | None = None
    frames: Table | None = None
    making: Making = field(default_factory=Making)
    counts: Counter[str] = field(default_factory=Counter)
    stopped_by: Notice | None = None

    def take(self, events: Events) -> bool:
        """The next events; answers whether more is wanted."""
        return all(self.tell(self.notices.take(part)) for part in self.making.take(events))

    def tell(self, notices: Iterable[Notice]) -> bool:
        """Writes notices, up to one that ends the watch; answers whether there is none."""
        rows = [*self.up_to_a_stop(notices)]
        if self.events and rows:
            self.events.write(rows)
        if self.frames and self.notices.seen:
            self.frames.write(self.notices.seen)
        self.notices.seen = []
        return self.stopped_by is None

    def up_to_a_stop(self, notices: Iterable[Notice]) -> Iterator[Notice]:
        """Notices up to one that ends the watch, counted."""
        for notice in notices:
            self.counts[notice.kind] += 1
            yield notice
            if notice.kind in self.stops:
                self.stopped_by = notice
                return

    def idle(self, feed: Feed) -> bool:
        """What is to be said of bytes that do not come; answers whether more is wanted."""
        return self.tell(self.notices.idle(feed))

    def end(self) -> None:
        """Nothing more comes."""
        for part in () if self.stopped_by else self.making.finish():
            self.tell(self.notices.take(part))
        if not self.stopped_by:
            self.tell(self.notices.flush())

    @property
    def words(self) -> list[str]:
        """What happened how often, and what ended the watch."""
        found = [f"{times:,} × {kind}" for kind, times in sorted(self.counts.items()) if kind in KINDS]
        return found + ([f"stopped by {self.stopped_by}"] if self.stopped_by else [])


@contextlib.contextmanager
def happening(events: Path | None, frames: Path | None, stops: frozenset[str], is_dvi: bool, is_on: bool) -> Iterator[Happenings | None]:
    """What has notices; None if nothing of them is wanted, and it `is_on` for no other reason."""
    if not (events or frames or stops or is_on):
        yield None
        return
    with table_in(events, HEADS) as rows, table_in(frames, FRAME_HEADS) as each:
        yield Happenings(Notices(is_dvi), stops, rows, each)
