"""Errors of the tools: input that they refuse, and missing Python packages."""

import importlib.util

NEEDED = ("PIL", "jinja2", "numpy", "png", "soundfile", "tqdm")  # the modules that every tool may use
# Debian's packages, by their modules.
PACKAGES = {
    "PIL": "python3-pil",
    "distributed": "python3-distributed",
    "h5py": "python3-h5py",
    "jinja2": "python3-jinja2",
    "junitparser": "python3-junitparser",
    "matplotlib": "python3-matplotlib",
    "numpy": "python3-numpy",
    "png": "python3-png",
    "prometheus_client": "python3-prometheus-client",
    "rich": "python3-rich",
    "scipy": "python3-scipy",
    "skimage": "python3-skimage",
    "soundfile": "python3-soundfile",
    "tqdm": "python3-tqdm",
}


class Error(Exception):
    """The base of this package's errors. Wrong arguments raise TypeError or ValueError instead."""


class Refused(Error):
    """The input cannot be used. The text says why, in one line."""


class Unaligned(Refused):
    """The lanes of a capture align nowhere: it was read and has no contents."""


class Misuse(Error):
    """A call or its bits do not fit the earlier calls. It did nothing."""


class NoLibrary(Refused):
    """The shared library is missing or unusable."""


class KindWarning(UserWarning):
    """A capture was perhaps read as the wrong kind of link."""


def missing(why: ImportError) -> str | None:
    """Returns a message for a missing Python package, with the command that installs all missing ones. Returns None if the tools do not
    need the package."""
    package = PACKAGES.get((why.name or "").partition(".")[0])
    if package is None:
        return None
    absent = [PACKAGES[it] for it in NEEDED if importlib.util.find_spec(it) is None]
    return f"{why}. Install it: apt-get install -y {' '.join(dict.fromkeys([*absent, package]))}"
