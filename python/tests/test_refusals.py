"""A refusal is raised with number, name and place."""

from __future__ import annotations

import pickle
from pathlib import Path

import numpy as np
import pytest

import afshtruni
from afshtruni import Refusal
from conftest import Tool


def _told(refusal: Refusal) -> bytes:
    return f"refused {refusal.number} {refusal.name} at {refusal.place}: ".encode()


def test_refusals_are_those_of_the_tool(afs: Tool, record: bytes) -> None:
    for command, call in (("serve", afshtruni.serve), ("decode", afshtruni.decode)):
        for wrong in (b"", b"\x02", record[:3], b"\x01\x80\x00" + record[2:], record + record[5:]):
            with pytest.raises(Refusal) as raised:
                call(wrong)
            assert afs(command, given=wrong).stderr.startswith(_told(raised.value))


def test_joining_what_does_not_fit(afs: Tool, record: bytes, tmp_path: Path) -> None:
    other = afshtruni.code(np.ones((8, 8), np.int32), 1)
    part = afshtruni.parts(record)[-1]
    changed = bytearray(record)
    changed[part.offset + 4] ^= 0x80
    file = tmp_path / "first.record"
    for first, second, number, name, place in (
        (record, other, 14, "MIXED", 0),
        (record, bytes(changed), 15, "CLASH", part.offset),
        (b"", record, 6, "HEAD", 0),
        (record, record[:2], 6, "HEAD", 2),
    ):
        with pytest.raises(Refusal) as raised:
            afshtruni.join(first, second)
        refusal = raised.value
        assert (refusal.number, refusal.name, refusal.place) == (number, name, place)
        file.write_bytes(first)
        assert afs("join", file, "-", given=second).stderr.startswith(_told(refusal))


def test_asking_for_too_much(record: bytes) -> None:
    for level, plane in ((0, 0), (5, 0), (1, 18), (2**32 + 1, 0), (1, 2**64 - 1)):
        with pytest.raises(Refusal) as raised:
            afshtruni.serve(record, level, plane)
        assert (raised.value.number, raised.value.name, raised.value.place) == (11, "ASK", 0)


def test_range_tells_the_index() -> None:
    pyramid = np.zeros((8, 8), np.int64)
    for far in (65536, -65536, 2**31, -(2**31), 2**32, 2**62, -(2**63)):
        pyramid[3, 2] = far
        with pytest.raises(Refusal) as raised:
            afshtruni.code(pyramid, 1)
        assert (raised.value.name, raised.value.place) == ("RANGE", 26)
    with pytest.raises(Refusal) as raised:
        afshtruni.write_picture(np.full((8, 8), 2**63, np.uint64), decompositions=1)
    assert (raised.value.name, raised.value.place) == ("RANGE", 0)


@pytest.mark.parametrize("shape", [(0, 0), (0, 8), (4, 6), (1024, 4), (2, 2)])
def test_sizes(shape: "tuple[int, int]") -> None:
    for refused in (
        lambda: afshtruni.code(np.zeros(shape, np.int32), 1),
        lambda: afshtruni.write_picture(np.zeros(shape, np.int32), decompositions=1),
        lambda: afshtruni.read_picture(np.zeros(shape, np.uint8)),
    ):
        with pytest.raises(Refusal) as raised:
            refused()
        assert raised.value.name == "SIZE"


@pytest.mark.parametrize("decompositions", [0, 6, 2**32 + 1, 2**64 - 1])
def test_decompositions(decompositions: int) -> None:
    pyramid = np.zeros((64, 64), np.int32)
    for call in (afshtruni.code, afshtruni.read_picture):
        given = pyramid if call is afshtruni.code else pyramid.astype(np.uint8)
        with pytest.raises(Refusal, match="refused 1 SIZE at 0: "):
            call(given, decompositions)


@pytest.mark.parametrize("halvings", [3, 4, 64, 2**64 - 1])
def test_halvings(record: bytes, halvings: int) -> None:
    with pytest.raises(Refusal, match="refused 1 SIZE at 0: "):
        afshtruni.write_picture(afshtruni.decode(record), halvings=halvings)


@pytest.mark.parametrize("file", [b"", b"P5", b"P5 4 4 65535\n" + bytes(32), b"P5 4 4 255\n123"])
def test_no_grey_file(file: bytes) -> None:
    with pytest.raises(Refusal, match="refused 13 GREY at 0: "):
        afshtruni.read_picture(file)


def test_a_refusal_is_a_value_error_that_can_be_sent() -> None:
    refusal = pickle.loads(pickle.dumps(Refusal(8, 5)))
    assert isinstance(refusal, ValueError)
    assert (refusal.number, refusal.name, refusal.place) == (8, "PART", 5)
    assert str(Refusal(99, 0)).startswith("refused 99 UNKNOWN at 0: ")
