"""The calls give what the tool gives, on the sample and on what was made of it."""

from __future__ import annotations

from pathlib import Path
from typing import Callable, List, Optional

import numpy as np
import pytest

import afshtruni
from conftest import SAMPLE, Told, Tool

# The example that stands at each call in afshtruni.h.
PYRAMID = np.array([[4, -1, 0, 0], [2, 0, 0, -3], [0, 0, 1, 0], [0, 0, 0, 0]], np.int32)
RECORD = bytes.fromhex(
    "0104040103 02020580 02010300 01020540 0101088C 000205C0 00010B0C20"
)


def _first_refusal(record: bytes) -> Optional[afshtruni.Refusal]:
    try:
        afshtruni.decode(record)
    except afshtruni.Refusal as refusal:
        return refusal
    return None


def _check_decoded(record: bytes, told: Told) -> None:
    decoded = afshtruni.decode(record)
    height, width = decoded.coefficients.shape
    assert (width, height) == (told["width"], told["height"])
    assert decoded.decompositions == told["decompositions"]
    assert decoded.planes == told["planes"]
    assert list(decoded.reached) == told["reached"]
    assert list(decoded.skipped) == told["skipped"]
    assert list(decoded.pixel_bounds) == told["farthest_pixels"]
    assert decoded.pixel_bound == told["farthest_pixels"][0]
    assert decoded.tail == told["tail"]


def test_example_of_the_header() -> None:
    assert afshtruni.code(PYRAMID, 1) == RECORD
    assert afshtruni.serve(RECORD, 2, 0) == bytes.fromhex("0104040103 02020580 01020540 000205C0")
    assert afshtruni.survey(RECORD[:29]) == (4, 4, 1, 3, 5, 4)
    decoded = afshtruni.decode(RECORD[:29])
    assert (decoded.tail, decoded.reached, decoded.skipped) == (4, (1, 0), (0, 0))
    assert decoded.coefficients.tolist() == [[4, -1, 0, 0], [2, 0, 0, -2], [0, 0, 1, 0], [0] * 4]


def test_decoding_tells_what_explain_tells(
    variants: List[bytes], told_by_tool: Callable[..., List[Told]]
) -> None:
    all_told = told_by_tool("explain", variants)
    assert len(all_told) == len(variants)
    numbers = set()
    for record, told in zip(variants, all_told):
        numbers.add(told["number"])
        refusal = _first_refusal(record)
        if refusal is None:
            assert told["number"] == 0
            _check_decoded(record, told)
        else:
            assert [refusal.number, refusal.name, refusal.place] == [
                told[key] for key in ("number", "name", "place")
            ]
    assert numbers == {0, 1, 6, 7, 8, 9, 10, 12}


def test_parts_are_those_that_the_tool_lists(
    variants: List[bytes], told_by_tool: Callable[..., List[Told]]
) -> None:
    for record, told in zip(variants, told_by_tool("parts", variants)):
        if told["number"] != 0:
            with pytest.raises(afshtruni.Refusal) as raised:
                afshtruni.parts(record)
            assert (raised.value.number, raised.value.place) == (told["number"], told["place"])
            continue
        listed = afshtruni.parts(record)
        assert [part._asdict() for part in listed] == told["parts"]
        survey = afshtruni.survey(record)
        assert survey.parts == len(told["parts"]) == len(listed)
        assert survey.tail == told["tail"]


def test_parts_lie_side_by_side(record: bytes) -> None:
    listed = afshtruni.parts(record)
    ends = [part.offset + part.length for part in listed]
    assert ends == [part.offset for part in listed[1:]] + [len(record)]


@pytest.mark.parametrize("decompositions", [None, 1, 2, 3, 4, 5])
def test_coding_a_picture(afs: Tool, decompositions: Optional[int]) -> None:
    asked = [] if decompositions is None else ["-n", decompositions]
    pyramid = afshtruni.read_picture(SAMPLE, decompositions)
    assert afshtruni.code(pyramid) == afs("code", *asked, SAMPLE).stdout


@pytest.mark.parametrize("height, width, decompositions", [(4, 4, 1), (8, 512, 2), (96, 32, 3)])
def test_coding_a_pyramid(afs: Tool, height: int, width: int, decompositions: int) -> None:
    random = np.random.default_rng(height)
    pyramid = random.integers(-65535, 65536, (height, width)).astype(np.int32)
    coded = afs("code", width, height, decompositions, given=pyramid.astype("<i4").tobytes())
    record = afshtruni.code(pyramid, decompositions)
    assert record == coded.stdout
    assert np.array_equal(afshtruni.decode(record).coefficients, pyramid)


@pytest.mark.parametrize("level, plane", [(1, 0), (2, 0), (1, 3), (2, 2), (4, 1)])
def test_serving(afs: Tool, record: bytes, level: int, plane: int) -> None:
    served = afs("serve", "-r", level, "-p", plane, given=record).stdout
    assert afshtruni.serve(record, level, plane) == served


def test_joining_two_downloads(record: bytes) -> None:
    coarse, fine = afshtruni.serve(record, 2), afshtruni.serve(record, 1, 3)
    joined = afshtruni.join(coarse, fine)
    assert joined == afshtruni.join(fine, coarse)
    assert afshtruni.join(joined, record) == record == afshtruni.join(record, record)
    there = {(part.plane, part.level) for part in afshtruni.parts(joined)}
    assert there == {
        (part.plane, part.level)
        for part in afshtruni.parts(record)
        if part.level >= 2 or part.plane >= 3
    }


def test_joining(afs: Tool, selections: List[bytes], tmp_path: Path) -> None:
    file = tmp_path / "first.record"
    for i, j in np.random.default_rng(6).integers(len(selections), size=(60, 2)):
        first, second = selections[i], selections[j]
        file.write_bytes(first)
        joined = afshtruni.join(first, second)
        assert joined == afs("join", file, "-", given=second).stdout
        assert {part[:3] for part in afshtruni.parts(joined)} == {
            part[:3] for arrived in (first, second) for part in afshtruni.parts(arrived)
        }


@pytest.mark.parametrize("length", [5, 300, 1000, 2000, -1, None])
def test_decoding(afs: Tool, record: bytes, length: Optional[int]) -> None:
    arrived = record[:length]
    pyramid = afshtruni.decode(arrived).coefficients
    assert pyramid.astype("<i4").tobytes() == afs("decode", "-q", given=arrived).stdout


@pytest.mark.parametrize("halvings", [0, 1, 2])
@pytest.mark.parametrize("length", [5, 600, None])
def test_printing(
    afs: Tool, record: bytes, tmp_path: Path, halvings: int, length: Optional[int]
) -> None:
    arrived = record[:length]
    file = tmp_path / "printed.pgm"
    picture = afshtruni.write_picture(afshtruni.decode(arrived), file, halvings=halvings)
    printed = afs("decode", "-g", "-s", halvings, given=arrived)
    assert file.read_bytes() == printed.stdout
    assert printed.stdout.endswith(picture.pixels.tobytes())
    assert picture.pixels.shape == (64 >> halvings, 64 >> halvings)
    noted = b"pixel" in printed.stderr and b"set to" in printed.stderr
    assert noted == (picture.clipped > 0)


def test_whole_pictures_come_back(tmp_path: Path) -> None:
    pixels = np.random.default_rng(1).integers(0, 256, (32, 128)).astype(np.uint8)
    pyramid = afshtruni.read_picture(pixels)
    assert pyramid.decompositions == 4
    decoded = afshtruni.decode(afshtruni.code(pyramid))
    assert (decoded.pixel_bound, set(decoded.reached), decoded.tail) == (0, {0}, 0)
    picture = afshtruni.write_picture(decoded, tmp_path / "whole.pgm")
    assert picture.clipped == 0
    assert np.array_equal(picture.pixels, pixels)
    again = afshtruni.read_picture(str(tmp_path / "whole.pgm"))
    assert np.array_equal(again.coefficients, pyramid.coefficients)


def test_used_and_skipped_parts_are_all_that_are_there(selections: List[bytes]) -> None:
    skipping = 0
    for arrived in selections:
        decoded = afshtruni.decode(arrived)
        for level, (plane, skipped) in enumerate(zip(decoded.reached, decoded.skipped), start=1):
            there = {part.plane for part in afshtruni.parts(arrived) if part.level == level}
            assert set(range(plane, decoded.planes)) <= there
            assert len(there) == decoded.planes - plane + skipped
        skipping += any(decoded.skipped)
    assert skipping > len(selections) // 20


def test_no_pixel_is_farther_than_the_bound(record: bytes, selections: List[bytes]) -> None:
    recorded = afshtruni.decode(record)
    wanted = [
        afshtruni.write_picture(recorded, halvings=s).pixels.astype(int)
        for s in range(recorded.decompositions)
    ]
    for arrived in map(afshtruni.decode, selections):
        for halvings, bound in enumerate(arrived.pixel_bounds):
            printed = afshtruni.write_picture(arrived, halvings=halvings).pixels
            assert np.abs(printed - wanted[halvings]).max() <= bound


def test_no_coefficient_is_farther_than_its_level_tells(
    record: bytes, selections: List[bytes]
) -> None:
    recorded = afshtruni.decode(record).coefficients
    for arrived in map(afshtruni.decode, selections):
        apart = np.abs(arrived.coefficients - recorded)
        for level, plane in enumerate(arrived.reached, start=1):
            block = apart[: 64 >> (level - 1), : 64 >> (level - 1)].copy()
            if level <= arrived.decompositions:
                block[: 64 >> level, : 64 >> level] = 0
            assert block.max() < 1 << plane
        assert (np.abs(arrived.coefficients) <= np.abs(recorded)).all()
        assert (arrived.coefficients * recorded >= 0).all()
