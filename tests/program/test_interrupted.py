"""A signal that interrupts a read of the program (`EINTR`) changes nothing."""

import os
import signal
import socket
import struct
import subprocess
import time

from tests.support import HANGS, LISTING, run

TIMES = 5  # how often the program is stopped
FIRST = 20  # bytes of the capture that it gets before


def stop_and_go_on(process: int) -> None:
    """A stopped program that waits for a socket with a timeout is interrupted as it goes on (signal(7))."""
    time.sleep(0.1)
    os.kill(process, signal.SIGSTOP)
    os.waitpid(process, os.WUNTRACED)
    os.kill(process, signal.SIGCONT)


def test_a_stopped_program_reads_on(executable: str) -> None:
    capture = run(executable, ["make", "link"], LISTING)[1]
    wanted = run(executable, ["recover", "link"], capture)
    ours, theirs = socket.socketpair()
    theirs.setsockopt(socket.SOL_SOCKET, socket.SO_RCVTIMEO, struct.pack("ll", HANGS, 0))
    with ours, theirs:
        words, pipe = [executable, "recover", "link"], subprocess.PIPE
        program = subprocess.Popen(words, stdin=theirs.fileno(), stdout=pipe, stderr=pipe)
        ours.sendall(capture[:FIRST])
        for _ in range(TIMES):
            stop_and_go_on(program.pid)
        ours.sendall(capture[FIRST:])
        ours.shutdown(socket.SHUT_WR)
        output, notes = program.communicate(timeout=HANGS)
    assert (program.returncode, output, notes) == wanted
