"""Arrays and bytes of every sort: taken where they can be, else told why not, never a crash."""

from __future__ import annotations

import array
import mmap
from pathlib import Path
from typing import Any, Optional

import numpy as np
import pytest

import afshtruni
from conftest import SAMPLE

PYRAMID = np.arange(-32, 32, dtype=np.int32).reshape(8, 8)
CODED = bytes.fromhex("0104040103 02020580 02010300 01020540 0101088C 000205C0 00010B0C20")


def _read_only(given: "np.ndarray[Any, Any]") -> "np.ndarray[Any, Any]":
    copy = given.copy()
    copy.setflags(write=False)
    return copy


def _unaligned(given: "np.ndarray[Any, Any]") -> "np.ndarray[Any, Any]":
    room = np.empty(given.nbytes + 1, np.uint8)
    moved = room[1:].view(given.dtype).reshape(given.shape)
    moved[:] = given
    assert not moved.flags.aligned
    return moved


@pytest.mark.parametrize(
    "given",
    [
        pytest.param(PYRAMID.astype(np.int8), id="int8"),
        pytest.param(PYRAMID.astype(np.int16), id="int16"),
        pytest.param(PYRAMID.astype(np.int64), id="int64"),
        pytest.param(PYRAMID.astype(">i4"), id="other byte order"),
        pytest.param(np.asfortranarray(PYRAMID), id="columns first"),
        pytest.param(np.repeat(PYRAMID, 2, axis=1)[:, ::2], id="every other column"),
        pytest.param(PYRAMID[::-1, ::-1].copy()[::-1, ::-1], id="backwards"),
        pytest.param(_read_only(PYRAMID), id="read-only"),
        pytest.param(_unaligned(PYRAMID), id="unaligned"),
    ],
)
def test_pyramids_that_are_taken(given: "np.ndarray[Any, Any]") -> None:
    before = given.copy()
    assert afshtruni.code(given, 1) == afshtruni.code(PYRAMID, 1)
    wanted = afshtruni.write_picture(PYRAMID, decompositions=1).pixels
    assert np.array_equal(afshtruni.write_picture(given, decompositions=1).pixels, wanted)
    assert np.array_equal(given, before)


def test_unsigned_pyramids_are_taken() -> None:
    for kind in (np.uint16, np.uint32, np.uint64):
        given = np.full((4, 4), 200, kind)
        assert np.array_equal(afshtruni.decode(afshtruni.code(given, 1)).coefficients, given)
    told = afshtruni.Pyramid(np.full((4, 4), 200, np.uint8), 1)  # type: ignore[arg-type]
    assert np.array_equal(afshtruni.decode(afshtruni.code(told)), told)


@pytest.mark.parametrize("decompositions", [None, 1, 3, 5])
def test_an_array_of_bytes_is_a_picture(decompositions: Optional[int]) -> None:
    pixels = np.random.default_rng(3).integers(0, 256, (64, 128)).astype(np.uint8)
    pyramid = afshtruni.read_picture(pixels, decompositions)
    record = afshtruni.code(pixels, decompositions)
    assert record == afshtruni.code(pyramid)
    assert np.array_equal(afshtruni.write_picture(afshtruni.decode(record)), pixels)


def test_an_array_of_bytes_is_no_pyramid_to_print() -> None:
    with pytest.raises(TypeError, match="an array of uint8 is a picture"):
        afshtruni.write_picture(np.zeros((8, 8), np.uint8), decompositions=1)


def test_numpy_takes_what_comes_back() -> None:
    decoded = afshtruni.decode(CODED)
    assert np.asarray(decoded) is decoded.coefficients
    assert np.asarray(decoded, np.float64).dtype == np.float64
    copied = np.array(decoded)
    assert copied.dtype == np.int32 and not np.shares_memory(copied, decoded.coefficients)
    picture = afshtruni.write_picture(PYRAMID, decompositions=1)
    assert np.asarray(picture) is picture.pixels
    assert np.abs(np.subtract(picture, picture.pixels)).max() == 0


def test_numpy_may_ask_for_a_copy_or_for_none() -> None:
    decoded = afshtruni.decode(CODED)
    assert decoded.__array__(copy=False) is decoded.coefficients
    assert not np.shares_memory(decoded.__array__(copy=True), decoded.coefficients)
    with pytest.raises(ValueError, match="int32 can't be seen as float64 uncopied"):
        decoded.__array__(np.float64, copy=False)


@pytest.mark.parametrize(
    "given, error, said",
    [
        (PYRAMID.astype(float), TypeError, "pyramid must be of an integer type, not float64"),
        (PYRAMID.astype(complex), TypeError, "integer type, not complex128"),
        (PYRAMID.astype(bool), TypeError, "integer type, not bool"),
        (PYRAMID.astype(object), TypeError, "integer type, not object"),
        (PYRAMID.astype(str), TypeError, "integer type, not <U"),
        (PYRAMID.astype("m8[s]"), TypeError, "integer type, not timedelta64"),
        (np.zeros((8, 8), [("a", "i4")]), TypeError, "integer type, not "),
        (np.ma.masked_array(PYRAMID, PYRAMID > 3), TypeError, "must not be a masked array"),
        (PYRAMID.tolist(), TypeError, "pyramid must be a numpy array, not list"),
        (None, TypeError, "pyramid must be a numpy array, not NoneType"),
        (PYRAMID.ravel(), ValueError, "pyramid must have 2 dimensions, not 1"),
        (PYRAMID.reshape(4, 4, 4), ValueError, "pyramid must have 2 dimensions, not 3"),
        (np.array(3), ValueError, "pyramid must have 2 dimensions, not 0"),
        (np.broadcast_to(np.int32(1), (1 << 20, 1 << 20)), ValueError, "far more than any"),
    ],
)
def test_pyramids_that_are_not_taken(given: Any, error: type, said: str) -> None:
    with pytest.raises(error, match=said):
        afshtruni.code(given, 1)
    with pytest.raises(error, match=said):
        afshtruni.write_picture(given, decompositions=1)


def test_decompositions_go_with_arrays_alone() -> None:
    with pytest.raises(TypeError, match="must be given"):
        afshtruni.code(PYRAMID)
    with pytest.raises(TypeError, match="must not be given"):
        afshtruni.code(afshtruni.Pyramid(PYRAMID, 1), 1)


@pytest.mark.parametrize("given", [1.0, "1", b"1", [1], np.float32(1), np.array([1, 2])])
def test_no_whole_number(given: Any) -> None:
    for refused in (
        lambda: afshtruni.code(PYRAMID, given),
        lambda: afshtruni.read_picture(SAMPLE, given),
        lambda: afshtruni.serve(CODED, given),
        lambda: afshtruni.serve(CODED, 1, given),
        lambda: afshtruni.write_picture(PYRAMID, decompositions=1, halvings=given),
    ):
        with pytest.raises(TypeError, match="must be a whole number, not "):
            refused()


@pytest.mark.parametrize("given", [-1, 1 << 64, (1 << 64) + 1, -(1 << 70)])
def test_numbers_are_never_cut(given: int) -> None:
    with pytest.raises(ValueError, match="must be 0 to 2.64 - 1"):
        afshtruni.serve(CODED, given)
    with pytest.raises(ValueError, match="must be 0 to 2.64 - 1"):
        afshtruni.code(PYRAMID, given)


def test_numbers_of_numpy_are_taken() -> None:
    assert afshtruni.serve(CODED, np.uint8(2), np.int64(0)) == afshtruni.serve(CODED, 2, 0)


def test_records_that_are_taken(tmp_path: Path) -> None:
    file = tmp_path / "job.record"
    file.write_bytes(CODED)
    octets = np.frombuffer(CODED, np.uint8)
    spread = np.repeat(octets, 3)
    with file.open("r+b") as opened, mmap.mmap(opened.fileno(), 0) as mapped:
        for given in (
            bytearray(CODED), memoryview(CODED), mapped, octets, octets.copy(),
            spread[::3], memoryview(spread.tobytes())[::3],
        ):
            assert afshtruni.survey(given) == (4, 4, 1, 3, 6, 0)
            assert afshtruni.serve(given) == CODED
            assert afshtruni.decode(given).reached == (0, 0)


@pytest.mark.parametrize("given", [b"", bytearray(), np.empty(0, np.uint8), memoryview(b"")])
def test_records_that_are_empty(given: Any) -> None:
    for call in (afshtruni.serve, afshtruni.survey, afshtruni.parts, afshtruni.decode):
        with pytest.raises(afshtruni.Refusal, match="refused 6 HEAD at 0: "):
            call(given)


@pytest.mark.parametrize(
    "given, error, said",
    [
        ("a.record", TypeError, "must be bytes, or hold bytes, not str"),
        (None, TypeError, "must be bytes, or hold bytes, not NoneType"),
        (list(CODED), TypeError, "must be bytes, or hold bytes, not list"),
        (7, TypeError, "must be bytes, or hold bytes, not int"),
        (array.array("i", [1, 2]), TypeError, "must hold a row of bytes, not 1 dimensions of 'i'"),
        (memoryview(CODED).cast("B", (5, 6)), TypeError, "must hold a row of bytes, not 2"),
        (np.zeros(30, np.int32), TypeError, "must be of type uint8, not int32"),
        (np.zeros(30, np.int8), TypeError, "must be of type uint8, not int8"),
        (np.zeros((5, 6), np.uint8), ValueError, "must have 1 dimensions, not 2"),
        (np.broadcast_to(np.uint8(1), 1 << 40), ValueError, "far more than any"),
    ],
)
def test_records_that_are_not_taken(given: Any, error: type, said: str) -> None:
    for call in (afshtruni.serve, afshtruni.survey, afshtruni.parts, afshtruni.decode):
        with pytest.raises(error, match=said):
            call(given)
    for pair in ((given, CODED), (CODED, given)):
        with pytest.raises(error, match=said):
            afshtruni.join(*pair)


@pytest.mark.parametrize(
    "given, error, said",
    [
        (np.zeros((8, 8), np.int32), TypeError, "picture must be of type uint8, not int32"),
        (np.zeros((8, 8)), TypeError, "picture must be of type uint8, not float64"),
        (np.zeros((8, 8, 3), np.uint8), ValueError, "picture must have 2 dimensions, not 3"),
        (np.ma.masked_all((8, 8), np.uint8), TypeError, "must not be a masked array"),
        (None, TypeError, "picture must be bytes, or hold bytes, not NoneType"),
        ([[1]], TypeError, "picture must be bytes, or hold bytes, not list"),
        ("nowhere/at.all", FileNotFoundError, "nowhere/at.all"),
    ],
)
def test_pictures_that_are_not_taken(given: Any, error: type, said: str) -> None:
    with pytest.raises(error, match=said):
        afshtruni.read_picture(given)


def test_pictures_that_are_taken() -> None:
    pixels = np.frombuffer(SAMPLE.read_bytes(), np.uint8)[-64 * 64 :].reshape(64, 64)
    wanted = afshtruni.read_picture(SAMPLE).coefficients
    for given in (
        SAMPLE.read_bytes(), bytearray(SAMPLE.read_bytes()), str(SAMPLE), pixels,
        np.asfortranarray(pixels), np.repeat(pixels, 2, axis=0)[::2],
        np.frombuffer(SAMPLE.read_bytes(), np.uint8),
    ):
        assert np.array_equal(afshtruni.read_picture(given).coefficients, wanted)


def test_what_comes_out_is_the_callers_own() -> None:
    decoded = afshtruni.decode(CODED)
    decoded.coefficients[:] = 7
    assert afshtruni.decode(CODED).coefficients[0, 0] == 4
    picture = afshtruni.write_picture(decoded)
    assert picture.pixels.flags.writeable and picture.pixels.flags.owndata


def test_a_file_that_cannot_be_written(tmp_path: Path) -> None:
    with pytest.raises(OSError):
        afshtruni.write_picture(PYRAMID, tmp_path, decompositions=1)
