"""The command `vabgrot` of a wheel. It replaces itself with the script that the wheel contains."""

import os
import sys

from vabgrot import place


def main() -> None:
    """Runs the script with the arguments of the command line."""
    os.execv(place.FRONT, [str(place.FRONT), *sys.argv[1:]])
