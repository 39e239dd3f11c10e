"""The Python package around the proved program: its file formats, the tools, a way to run the program, and the receiver and sender of the
proved C library (docs/guide/LIBRARY.md).

Nothing here is proved. The names below are loaded on first use."""

from typing import TYPE_CHECKING

if TYPE_CHECKING:
    from vabgrot.encoding import Control, Island, Video, encode
    from vabgrot.errors import Error, KindWarning, Misuse, NoLibrary, Refused, Unaligned
    from vabgrot.events import End, Event, Events, Kind
    from vabgrot.receiving import Receiver, receive
    from vabgrot.recovered import Epoch, Packet, Recovered, recover
    from vabgrot.sending import BadListing, make
    from vabgrot.texts import Text, text_of
    from vabgrot.verdict import Verdict, judge

__version__ = "1.0.0"  # the only place that has it
__all__ = [
    "BadListing",
    "Control",
    "End",
    "Epoch",
    "Error",
    "Event",
    "Events",
    "Island",
    "Kind",
    "KindWarning",
    "Misuse",
    "NoLibrary",
    "Packet",
    "Receiver",
    "Recovered",
    "Refused",
    "Text",
    "Unaligned",
    "Verdict",
    "Video",
    "encode",
    "judge",
    "make",
    "receive",
    "recover",
    "text_of",
]

if not TYPE_CHECKING:  # type checkers know the names from above, and refuse others
    import importlib

    _HOMES = {
        "encoding": ("Control", "Island", "Video", "encode"),
        "errors": ("Error", "KindWarning", "Misuse", "NoLibrary", "Refused", "Unaligned"),
        "events": ("End", "Event", "Events", "Kind"),
        "receiving": ("Receiver", "receive"),
        "recovered": ("Epoch", "Packet", "Recovered", "recover"),
        "sending": ("BadListing", "make"),
        "texts": ("Text", "text_of"),
        "verdict": ("Verdict", "judge"),
    }

    def __getattr__(name):
        home = next((home for home, names in _HOMES.items() if name in names), None)
        if home is None:
            raise AttributeError(f"module 'vabgrot' has no attribute {name!r}")
        return getattr(importlib.import_module(f"vabgrot.{home}"), name)

    def __dir__():
        return [*__all__, *(name for name in globals() if name.startswith("__"))]
