"""Where the library is, and its version.

This is the source tree's: the library that `make -C host library` makes, and the version that the
header tells. `host/install` writes another in its place, for the library that it installs.
"""

from __future__ import annotations

import re
from pathlib import Path

_TREE = Path(__file__).resolve().parents[2]
_DEFINED = re.compile(r"#define AFS_VERSION_(?:MAJOR|MINOR|PATCH) (\d+)")

LIBRARY = str(_TREE / "build" / "libafshtruni.so")
VERSION = ".".join(_DEFINED.findall((_TREE / "host" / "afshtruni.h").read_text("ascii")))
