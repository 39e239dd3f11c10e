"""The wheel of the tools. The program, the C library and the page are in it, so it is for one platform.

`./vabgrot package --wheel` runs this in a copy that has these files in the folder `prefix`. In a checkout, `pip install .` takes them
from where `./vabgrot` built them."""

import shutil
import subprocess
import sys
from pathlib import Path

from setuptools import setup
from setuptools.command.build_py import build_py

try:
    from setuptools.command.bdist_wheel import bdist_wheel
except ImportError:  # before setuptools 70.1
    from wheel.bdist_wheel import bdist_wheel

HERE = Path(__file__).resolve().parent
STAGED = HERE / "prefix"
PROGRAM = HERE / "crates/hdmi_cli/out/hdmi_cli"
NOT_BUILT = "vabgrot: the program is not built. Run ./vabgrot build here first, or install a wheel that ./vabgrot package --wheel made."


class WithProgram(build_py):
    """Copies the program and its files into the package, as its folder `prefix`."""

    def run(self) -> None:
        if not (STAGED.is_dir() or PROGRAM.is_file() or self.editable_mode):
            sys.exit(NOT_BUILT)
        super().run()
        prefix = Path(self.build_lib) / "vabgrot/prefix"
        if STAGED.is_dir():
            shutil.copytree(STAGED, prefix, dirs_exist_ok=True)
        elif not self.editable_mode:
            subprocess.run([HERE / "vabgrot", "stage", prefix.resolve()], check=True)


class OfThePlatform(bdist_wheel):
    """A wheel for any Python 3, but for one platform."""

    def finalize_options(self) -> None:
        super().finalize_options()
        self.root_is_pure = False

    def get_tag(self) -> tuple[str, str, str]:
        return "py3", "none", super().get_tag()[2]


setup(cmdclass={"build_py": WithProgram, "bdist_wheel": OfThePlatform})
