"""Wrong calls of the package, each of which `mypy --strict` has to refuse: a comment that nothing needs is an error itself."""

import vabgrot

LANES = (b"a", b"b", b"c")

vabgrot.receive(*LANES, [8, 8, 8])  # type: ignore[misc]
vabgrot.receive("blue", b"green", b"red")  # type: ignore[arg-type]
vabgrot.receive(*LANES, kind="hdmi")  # type: ignore[arg-type]
vabgrot.receive(*LANES, bits=8)  # type: ignore[arg-type]
vabgrot.receive(open("blue"), b"green", b"red")  # type: ignore[arg-type]
vabgrot.Receiver("dvi")  # type: ignore[misc]
vabgrot.Receiver().feed(b"a", b"b")  # type: ignore[call-arg]
vabgrot.Receiver().feed(*LANES, bits=["8", "8", "8"])  # type: ignore[list-item]
vabgrot.Receiver().feed(1, 2, 3)  # type: ignore[arg-type]
vabgrot.recover(1)  # type: ignore[arg-type]
vabgrot.recover("a.tmc", "track")  # type: ignore[misc]
vabgrot.recover("a.tmc", kind="check")  # type: ignore[arg-type]
vabgrot.recover("a.tmc").nothing  # type: ignore[attr-defined]
vabgrot.recover("a.tmc").packets[0].VIC  # type: ignore[attr-defined]
vabgrot.text_of("a.tmc", "check")  # type: ignore[misc]
vabgrot.judge()  # type: ignore[call-arg]
vabgrot.judge("a.tmc").word + 1  # type: ignore[operator]
vabgrot.make(b"end\n", skew=(0, 1))  # type: ignore[arg-type]
vabgrot.encode([b"abc"])  # type: ignore[list-item]
vabgrot.encode([vabgrot.Video([255, 0, 0])])  # type: ignore[arg-type]
vabgrot.Island(bytes(63))  # type: ignore[arg-type]
vabgrot.Control(0)  # type: ignore[call-arg]
vabgrot.nothing()  # type: ignore[attr-defined]
