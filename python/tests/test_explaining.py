"""What is explained and noted, and what is served within a bound, is as the tool has it."""

from __future__ import annotations

import warnings
from typing import List, Tuple

import numpy as np
import pytest

import afshtruni
from conftest import Tool


def test_words_are_the_tools(afs: Tool, record: bytes, variants: List[bytes]) -> None:
    """Every third, and what shows one thing each."""
    part = afshtruni.parts(record)[9]
    shown = [
        *variants[::3],
        record[:45],
        record[: part.offset] + record[part.offset + part.length :],
        afshtruni.code(np.zeros((8, 8), np.uint8)),
        afshtruni.code(np.full((8, 8), 300, np.int32), 2),
        afshtruni.code(np.array([[300, 0, 0, 0]] + [[0] * 4] * 3), 1),
    ]
    explained = 0
    for held in shown:
        told = afs("explain", given=held)
        if told.returncode == 0:
            explained += 1
            assert afshtruni.explain(held) == told.stdout.decode()
        else:
            with pytest.raises(afshtruni.Refusal) as raised:
                afshtruni.explain(held)
            assert told.stderr.endswith(f": {raised.value.why}\n".encode())
    assert explained > 60


@pytest.mark.parametrize("error", [0, 1, 18, 19, 38, 39, 254, 255])
def test_serving_within_a_bound(afs: Tool, record: bytes, error: int) -> None:
    served = afshtruni.serve(record, error=error)
    assert served == afs("serve", "-q", "-e", error, given=record).stdout
    assert afshtruni.decode(served).pixel_bound <= error


def test_a_bound_that_cannot_be_met(afs: Tool, record: bytes) -> None:
    lacking = afshtruni.serve(record, plane=3)
    for error in (0, 5):
        with pytest.raises(ValueError, match="and nothing nearer can be served") as raised:
            afshtruni.serve(lacking, error=error)
        assert f"; {raised.value}\n".encode() in afs("serve", "-e", error, given=lacking).stderr


def test_bounds_that_are_not_taken(record: bytes) -> None:
    for error, raised in ((256, ValueError), (300, ValueError), (-1, ValueError), (1.5, TypeError)):
        with pytest.raises(raised, match="error must be"):
            afshtruni.serve(record, error=error)  # type: ignore[arg-type]
    for level, plane in ((2, 0), (1, 1)):
        with pytest.raises(TypeError, match="error must not be given with level or plane"):
            afshtruni.serve(record, level, plane, error=5)
    with pytest.raises(afshtruni.Refusal):
        afshtruni.serve(record[:3], error=5)


def _changed(pixels: "np.ndarray[Tuple[int, int], np.dtype[np.uint8]]") -> bytes:
    """A record with one bit of its first part turned over, by which pixels leave 0 to 255."""
    record = afshtruni.code(pixels)
    for part in afshtruni.parts(record):
        for at in range(part.offset + part.length - 1, part.offset + 3, -1):
            turned = bytearray(record)
            turned[at] ^= 0x80
            try:
                decoded = afshtruni.decode(turned)
            except afshtruni.Refusal:
                continue
            with warnings.catch_warnings():
                warnings.simplefilter("ignore", afshtruni.Note)
                if decoded.pixel_bound == 0 and afshtruni.write_picture(decoded).clipped > 0:
                    return bytes(turned)
    raise AssertionError("no such bit")


def test_a_changed_record_is_noted(afs: Tool) -> None:
    pixels = np.random.default_rng(2).integers(0, 2, (32, 32)).astype(np.uint8) * 255
    changed = _changed(pixels)
    decoded = afshtruni.decode(changed)
    for halvings in range(decoded.decompositions):
        with pytest.warns(afshtruni.Note, match="the record was changed, or made of no") as noted:
            picture = afshtruni.write_picture(decoded, halvings=halvings)
        assert noted[0].filename == __file__
        told = afs("decode", "-g", "-s", halvings, given=changed)
        assert told.returncode == 3
        assert told.stdout.endswith(picture.pixels.tobytes())
        assert f"afs: standard input: {picture.note}\n".encode() in told.stderr


def test_other_pictures_are_not_noted(record: bytes) -> None:
    """Whole ones, halved though they may be clipped, those that lack parts, and plain pyramids."""
    pixels = np.random.default_rng(2).integers(0, 2, (32, 32)).astype(np.uint8) * 255
    whole = afshtruni.decode(afshtruni.code(pixels))
    clipped = 0
    with warnings.catch_warnings():
        warnings.simplefilter("error")
        for halvings in range(whole.decompositions):
            picture = afshtruni.write_picture(whole, halvings=halvings)
            assert picture.note is None
            clipped += picture.clipped
        assert clipped > 0
        lacking = afshtruni.write_picture(afshtruni.decode(afshtruni.code(pixels)[:500]))
        assert lacking.clipped > 0 and lacking.note is None
        plain = afshtruni.write_picture(np.full((8, 8), 300, np.int32), decompositions=1)
        assert plain.clipped > 0 and plain.note is None
