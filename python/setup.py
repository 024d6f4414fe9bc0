"""Puts the shared library into the wheel, and says for which machine it is.

What is in pyproject.toml holds for every wheel; here stands what depends on what was made: the
library in the folder that AFSHTRUNI_MADE names, without it build/ of the source tree, and the
version that the header tells.
"""

import ctypes
import os
import subprocess
from pathlib import Path

from setuptools import setup
from setuptools.command.build_py import build_py
from setuptools.dist import Distribution
from wheel.bdist_wheel import bdist_wheel

HERE = Path(__file__).resolve().parent
MADE = Path(os.environ.get("AFSHTRUNI_MADE") or HERE.parent / "build").resolve()
LIBRARY = "libafshtruni.so"

PLACE = '''"""Where the library is, and its version, as they were packed."""

from __future__ import annotations

from pathlib import Path

LIBRARY = str(Path(__file__).resolve().with_name("{library}"))
VERSION = "{version}"
'''


def told_by_header(*what: str) -> str:
    command = [str(HERE.parent / "host" / "version"), *what]
    return subprocess.run(command, stdout=subprocess.PIPE, check=True).stdout.decode("ascii")


class BuildWithLibrary(build_py):
    """The library lies beside the modules, by the name that programs ask for."""

    def run(self) -> None:
        super().run()
        library = f"{LIBRARY}.{told_by_header('interface')}"
        try:
            ctypes.CDLL(str(MADE / library))
        except OSError as error:
            raise SystemExit(f"No library for this machine, which 'make run' makes: {error}")
        package = Path(self.build_lib) / "afshtruni"
        self.copy_file(str((MADE / library).resolve()), str(package / library))
        place = PLACE.format(library=library, version=told_by_header())
        (package / "_place.py").write_text(place, "ascii")


class OfMachine(Distribution):
    """It has something in it that was compiled, though not for a version of Python's."""

    def has_ext_modules(self) -> bool:
        return True


class WheelOfMachine(bdist_wheel):
    """Any Python 3 will do, and no other machine."""

    def get_tag(self) -> "tuple[str, str, str]":
        return ("py3", "none", super().get_tag()[2])


setup(
    version=told_by_header(),
    distclass=OfMachine,
    cmdclass={"build_py": BuildWithLibrary, "bdist_wheel": WheelOfMachine},
)
