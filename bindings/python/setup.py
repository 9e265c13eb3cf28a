"""The wheel's tag: the package has a library for x86-64 Linux inside, and no module for one Python alone."""
from pathlib import Path
from typing import Tuple

from setuptools import setup
from wheel.bdist_wheel import bdist_wheel


class PlatformWheel(bdist_wheel):  # type: ignore[misc]
    """A wheel for any Python 3 on x86-64 Linux with a C library of 2.17 or later."""

    def finalize_options(self) -> None:
        super().finalize_options()
        self.root_is_pure = False

    def get_tag(self) -> Tuple[str, str, str]:
        """What the file's name says of where it runs."""
        return "py3", "none", "manylinux_2_17_x86_64"

    def run(self) -> None:
        """Builds the wheel, where the library is there."""
        if not Path("irs", "libirs.so").is_file():
            raise SystemExit("there is no irs/libirs.so: `make library` builds it")
        super().run()


setup(cmdclass={"bdist_wheel": PlatformWheel})
