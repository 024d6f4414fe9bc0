"""The library: found, or told where it was looked for; called by threads; and how much it takes."""

from __future__ import annotations

import os
import subprocess
import sys
from concurrent.futures import ThreadPoolExecutor
from pathlib import Path

import numpy as np
import pytest

import afshtruni
from conftest import TREE


def run_python(program: str, **variables: str) -> "subprocess.CompletedProcess[str]":
    package = str(Path(afshtruni.__file__).resolve().parents[1])
    return subprocess.run(
        [sys.executable, "-c", program],
        env={**os.environ, "PYTHONPATH": package, **variables},
        capture_output=True, text=True, check=False,
    )


def test_no_library_is_told() -> None:
    ended = run_python(
        "import afshtruni; afshtruni.survey(b'')", AFSHTRUNI_LIBRARY="/nowhere/libafshtruni.so"
    )
    assert ended.returncode == 1
    last = ended.stderr.splitlines()[-1]
    assert last.startswith("OSError: the library can't be loaded: /nowhere/libafshtruni.so: ")
    assert "AFSHTRUNI_LIBRARY" in last


def test_a_library_without_the_call_is_told() -> None:
    ended = run_python("import afshtruni; afshtruni.survey(b'')", AFSHTRUNI_LIBRARY="libc.so.6")
    assert ended.stderr.endswith("NotImplementedError: this libafshtruni has no afs_survey()\n")


def test_the_library_is_the_one_of_the_package() -> None:
    """Where it is packed with it, as in a wheel, it lies beside the modules."""
    package = Path(afshtruni.__file__).resolve().parent
    packed = sorted(package.glob("libafshtruni.so.*"))
    if not packed:
        pytest.skip("the library isn't packed with the package")
    ended = run_python(
        "import afshtruni, afshtruni._library as l; afshtruni.code; print(l._library()._name)",
    )
    assert (ended.stdout, ended.stderr) == (f"{packed[0]}\n", "")


def test_importing_needs_no_library() -> None:
    ended = run_python("import afshtruni", AFSHTRUNI_LIBRARY="/nowhere/libafshtruni.so")
    assert (ended.returncode, ended.stderr) == (0, "")


def test_importing_needs_numpy_alone() -> None:
    """What the codec and the format need is asked for where they are imported."""
    ended = run_python(
        "import sys; sys.modules.update(dict.fromkeys(['numcodecs', 'zarr', 'imageio']));"
        "import afshtruni\n"
        "for name in ('numcodecs', 'imageio'):\n"
        "    try: __import__('afshtruni.' + name)\n"
        "    except ImportError: print(name)"
    )
    assert (ended.stdout, ended.stderr) == ("numcodecs\nimageio\n", "")


def test_threads(record: bytes) -> None:
    wanted = afshtruni.decode(record).coefficients
    with ThreadPoolExecutor(4) as threads:
        for decoded in threads.map(afshtruni.decode, [record] * 40):
            assert np.array_equal(decoded.coefficients, wanted)


def _resident() -> int:
    pages = int(Path("/proc/self/statm").read_text("ascii").split()[1])
    return pages * os.sysconf("SC_PAGE_SIZE")


def test_memory_of_1000_decodes_is_flat(record: bytes) -> None:
    """A decode lends 5 numbers for each of 64 x 64 coefficients: 1,000 that stayed were 80 MB."""
    for _ in range(50):
        afshtruni.decode(record)
    before = _resident()
    for _ in range(1000):
        afshtruni.decode(record)
    assert _resident() - before < 1 << 20


def test_memory_of_refusals_is_flat(record: bytes) -> None:
    wrong = record + record[5:]
    for count in (50, 1000):
        before = _resident()
        for _ in range(count):
            with pytest.raises(afshtruni.Refusal):
                afshtruni.decode(wrong)
    assert _resident() - before < 1 << 20


def test_example(tmp_path: Path) -> None:
    pytest.importorskip("matplotlib")
    figure = tmp_path / "waterfall.png"
    script = TREE / "python" / "example" / "waterfall.py"
    ended = run_python(f"import runpy, sys; sys.argv[1:] = [{str(figure)!r}]; "
                 f"runpy.run_path({str(script)!r}, run_name='__main__')", MPLBACKEND="Agg")
    assert (ended.returncode, ended.stderr) == (0, "")
    assert figure.read_bytes().startswith(b"\x89PNG")
