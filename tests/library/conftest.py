"""What the tests of the C library share: programs that are compiled over it."""

import shutil
import subprocess

import pytest

from tests.support import HANGS, TOP

FLAGS = ("-std=c99", "-Wall", "-Wextra", "-Werror", "-O1", "-g")
SANITIZERS = ("-fsanitize=address,undefined", "-fno-sanitize-recover=all")


@pytest.fixture(scope="session")
def compiled(library, tmp_path_factory):
    """Compiles a C source over the static library, with gcc or another compiler and further words; answers the program's path."""

    def compile_source(source, *words, compiler="gcc"):
        if not shutil.which(compiler):
            pytest.skip(f"{compiler} is missing")
        program = tmp_path_factory.mktemp("programs") / source.stem
        flags = FLAGS if source.suffix == ".c" else ("-std=c++11", *FLAGS[1:])
        words = [compiler, *flags, *words, "-I", TOP / "library", source, library / "libvabgrot.a", "-o", program]
        made = subprocess.run(words, capture_output=True, timeout=HANGS)
        assert made.returncode == 0, made.stderr.decode()
        return program

    return compile_source


@pytest.fixture(scope="session")
def listing(compiled):
    """The example that lists a capture, under the address and undefined behaviour sanitizers."""
    return compiled(TOP / "examples" / "c" / "listing.c", *SANITIZERS)
