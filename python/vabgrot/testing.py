"""Assertions about captures, for tests of any framework."""

from __future__ import annotations

from vabgrot.capture import Given
from vabgrot.library import Grammar


def assert_clean(capture: Given, *, kind: Grammar | None = None) -> None:
    """Raises AssertionError with the verdict on a capture unless it is "Clean". The capture and its kind are those of `vabgrot.judge`."""
    __tracebackhide__ = True
    from vabgrot.verdict import judge

    verdict = judge(capture, kind=kind)
    if verdict.is_faulty:
        raise AssertionError(str(verdict))
