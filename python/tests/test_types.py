"""The package's type hints hold together, where mypy is there to tell. This needs no library."""

from __future__ import annotations

import subprocess
import sys
from pathlib import Path

import pytest

import afshtruni


def test_type_hints() -> None:
    pytest.importorskip("mypy")
    package = Path(afshtruni.__file__).resolve().parent
    # numcodecs and imageio tell no types.
    options = ["--strict", "--ignore-missing-imports", "--allow-subclassing-any"]
    checked = subprocess.run(
        [sys.executable, "-m", "mypy", *options, "--cache-dir=/dev/null", str(package)],
        capture_output=True, text=True, check=False,
    )
    assert (checked.returncode, checked.stderr) == (0, ""), checked.stdout
