"""What the tests share: the tool to compare with, the sample, and records made of it.

The library is for x86-64. On another machine the tests that need it are skipped, unless
AFSHTRUNI_LIBRARY names one that runs there. AFS_TOOL names the tool, build/afs without it.
"""

from __future__ import annotations

import json
import os
import platform
import subprocess
from pathlib import Path
from typing import Any, Callable, Dict, List, Sequence

import numpy as np
import pytest

import afshtruni

TREE = Path(__file__).resolve().parents[2]
TOOL = Path(os.environ.get("AFS_TOOL", TREE / "build" / "afs")).resolve()
SAMPLE = TREE / "host" / "sample" / "waterfall.pgm"

NEED_NO_LIBRARY = ("test_header.py", "test_types.py")

Told = Dict[str, Any]
Tool = Callable[..., "subprocess.CompletedProcess[bytes]"]


def _runs_here() -> bool:
    return platform.machine() == "x86_64" or "AFSHTRUNI_LIBRARY" in os.environ


def pytest_collection_modifyitems(items: List[pytest.Item]) -> None:
    """What is held against the header, and type hints, need no library."""
    if _runs_here():
        return
    for item in items:
        if item.path.name not in NEED_NO_LIBRARY:
            item.add_marker(pytest.mark.skip(reason="the library is for x86-64"))


@pytest.fixture(scope="session")
def afs() -> Tool:
    """Runs the tool."""

    def run(*arguments: object, given: bytes = b"") -> "subprocess.CompletedProcess[bytes]":
        command = [str(TOOL), *map(str, arguments)]
        return subprocess.run(command, input=given, capture_output=True, check=False)

    return run


@pytest.fixture(scope="session")
def told_by_tool(afs: Tool, tmp_path_factory: pytest.TempPathFactory) -> Callable[..., List[Told]]:
    """What a command of the tool tells of many records, in one run."""

    def tell(command: str, records: Sequence[bytes]) -> List[Told]:
        folder = tmp_path_factory.mktemp(command)
        files = [folder / f"{i}.record" for i in range(len(records))]
        for file, record in zip(files, records):
            file.write_bytes(record)
        printed = afs(command, "--json", "-q", *files).stdout
        return [json.loads(line) for line in printed.splitlines()]

    return tell


@pytest.fixture(scope="session")
def record() -> bytes:
    """The sample's record, of three decompositions."""
    return afshtruni.code(afshtruni.read_picture(SAMPLE, 3))


def _without(record: bytes, part: afshtruni.Part) -> bytes:
    return record[: part.offset] + record[part.offset + part.length :]


def _damaged(record: bytes, count: int) -> List[bytes]:
    random = np.random.default_rng(30)
    damaged = []
    for _ in range(count):
        changed = bytearray(record)
        # The nearer to the front, the more is read of it: half of them in the first 80 bytes.
        end = len(record) if random.integers(2) else 80
        changed[int(random.integers(end))] ^= 1 << int(random.integers(8))
        damaged.append(bytes(changed))
    return damaged


@pytest.fixture(scope="session")
def selections(record: bytes) -> List[bytes]:
    """The record whole, served, cut off, and with each of its parts lost."""
    told = afshtruni.survey(record)
    served = [
        afshtruni.serve(record, level, plane)
        for level in range(1, told.decompositions + 2)
        for plane in range(told.planes + 1)
    ]
    cut = [record[:length] for length in (*range(5, 40), *range(40, len(record), 97))]
    lost = [_without(record, part) for part in afshtruni.parts(record)]
    return [record, *served, *cut, *lost]


@pytest.fixture(scope="session")
def variants(record: bytes, selections: List[bytes]) -> List[bytes]:
    """These, and some that our coder never wrote: cut in the header, of another version, with
    numbers in long form, and with a bit turned over."""
    cut = [record[:length] for length in range(5)]
    named = [b"\x02" + record[1:], b"\x01\xc0\x00" + record[2:], record[:5] + b"\x06\x84\x00\x00"]
    return [*selections, *cut, *named, *_damaged(record, 200)]
