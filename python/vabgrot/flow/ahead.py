"""Runs a generator ahead of its reader, in a separate thread."""

from __future__ import annotations

import queue
import threading
from collections.abc import Iterable, Iterator
from typing import Generic, TypeVar

Item = TypeVar("Item")
DEPTH = 4  # the most items that wait for their reader


class Ahead(Generic[Item]):
    """Iterates over the items of another iterable, which runs in a thread. The C library lets other threads run while it receives. An
    error of the iterable is raised here."""

    def __init__(self, source: Iterable[Item]) -> None:
        self.source = source
        self.waiting: queue.Queue[Item | None] = queue.Queue(DEPTH)
        self.error: BaseException | None = None
        self.thread = threading.Thread(target=self.run, daemon=True)
        self.thread.start()

    def run(self) -> None:
        """Takes all items. Puts None at the end, also after an error."""
        try:
            for item in self.source:
                self.waiting.put(item)
        except BaseException as why:
            self.error = why
        self.waiting.put(None)

    def __iter__(self) -> Iterator[Item]:
        while (item := self.waiting.get()) is not None:
            yield item
        if self.error:
            raise self.error
