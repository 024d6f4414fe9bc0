"""What is wrong is said in the tool's words, and what they call legal is what the library takes."""

from __future__ import annotations

from pathlib import Path
from typing import Callable, List

import numpy as np
import pytest

import afshtruni
from afshtruni import Refusal, _limits
from afshtruni._layout import Header, header_bytes
from conftest import SAMPLE, Told, Tool

HEADER = b"\x01\x04\x04\x01\x03"  # 4 x 4, N = 1, 3 planes


def _told(call: Callable[[], object]) -> Refusal:
    with pytest.raises(Refusal) as raised:
        call()
    return raised.value


def _as_the_tool(refusal: Refusal, of: str = "standard input") -> bytes:
    said = f"refused {refusal.number} {refusal.name} at {refusal.place}: {of}: {refusal.why}\n"
    return said.encode()


def test_damaged_records(
    variants: List[bytes], told_by_tool: Callable[..., List[Told]]
) -> None:
    for command, call in (("explain", afshtruni.decode), ("parts", afshtruni.parts)):
        refused = 0
        for record, told in zip(variants, told_by_tool(command, variants)):
            if told["number"] != 0:
                refused += 1
                assert _told(lambda: call(record)).why == told["why"]  # type: ignore[operator]
        assert refused > 40


@pytest.mark.parametrize(
    "record",
    [
        b"", b"\x01", b"\x01\x04\x04", b"\x01\x84", b"\x01\x84\x84\x84\x84\x00", b"\x01\x84\x00",
        b"\x02", b"\x81\x01", b"\x01\x04\x06\x01\x03", b"\x01\x06\x04\x01\x03",
        b"\x01\x04\x04\x00\x03", b"\x01\x04\x04\x7f\x03", b"\x01\x04\x04\x01\x12",
        b"\x01\x00\x04\x01\x03", b"\x01\x04\x84\x80\x01\x01\x03",
        b"\x01\x04\x04\x01\x00\x00\x01\x00", HEADER + b"\x03\x01\x00", HEADER + b"\x02\x00\x00",
        HEADER + b"\x02\x03\x00",
        HEADER + b"\x02\x02\x41", HEADER + b"\x80\x80\x80\x80\x00", HEADER + b"\x02\x82\x00",
        HEADER + b"\x02\x02\x05\x80\x02\x02\x05", HEADER + b"\x01\x01\x00\x02\x02\x05",
        HEADER + b"\x02\x02\x05\x81", HEADER + b"\x02\x02\x04\x80", HEADER + b"\x02\x02\x07\xfe",
    ],
)
def test_records(afs: Tool, record: bytes) -> None:
    refusal = _told(lambda: afshtruni.decode(record))
    assert afs("decode", given=record).stderr == _as_the_tool(refusal)


@pytest.mark.parametrize("level, plane", [(0, 0), (5, 0), (1, 18), (2**32 + 1, 0)])
def test_asking(afs: Tool, record: bytes, level: int, plane: int) -> None:
    refusal = _told(lambda: afshtruni.serve(record, level, plane))
    said = afs("serve", "-r", level, "-p", plane, given=record).stderr
    assert said == _as_the_tool(refusal)


@pytest.mark.parametrize("halvings", [3, 4, 2**40])
def test_halving(afs: Tool, record: bytes, halvings: int) -> None:
    refusal = _told(lambda: afshtruni.write_picture(afshtruni.decode(record), halvings=halvings))
    assert afs("decode", "-g", "-s", halvings, given=record).stderr == _as_the_tool(refusal)


@pytest.mark.parametrize(
    "file",
    [
        b"", b"P", b"P6 1 1 255\n123", b"\x89PNG", b"MM\0*", b"\0\1", b"P5", b"P5 ", b"P5\n4",
        b"P5 4 x 255\n", b"P5x4 4 255\n", b"P5 4#\n4 255", b"P5 4 4 65535\n" + bytes(32),
        b"P5 4 4 255#", b"P5 4 4 255x", b"P5 4 4 255\n123", b"P5 4 4 255#4\n" + bytes(15),
        b"P5 4 " + b"9" * 5000 + b" 255\n", b"P5 4 00 254\n", b"P5 4 4 255# no end",
    ],
)
def test_no_grey_file(afs: Tool, file: bytes) -> None:
    refusal = _told(lambda: afshtruni.read_picture(file))
    assert refusal.name == "GREY"
    assert afs("code", "-", given=file).stderr == _as_the_tool(refusal)


@pytest.mark.parametrize("height, width", [(1, 1), (8, 6), (6, 8), (600, 1000), (513, 4), (30, 8)])
@pytest.mark.parametrize("decompositions", [None, 1, 2])
def test_sizes_of_pictures(
    afs: Tool, height: int, width: int, decompositions: "int | None"
) -> None:
    asked = [] if decompositions is None else ["-n", decompositions]
    refusal = _told(lambda: afshtruni.code(np.zeros((height, width), np.uint8), decompositions))
    file = b"P5 %d %d 255\n" % (width, height) + bytes(width * height)
    assert afs("code", *asked, "-", given=file).stderr == _as_the_tool(refusal)


@pytest.mark.parametrize("decompositions", [0, 6, 2**40])
def test_decompositions(afs: Tool, decompositions: int) -> None:
    refusal = _told(lambda: afshtruni.read_picture(SAMPLE, decompositions))
    said = afs("code", "-n", decompositions, "-", given=SAMPLE.read_bytes()).stderr
    assert said == _as_the_tool(refusal)


@pytest.mark.parametrize(
    "height, width, n", [(8, 6, 1), (6, 8, 1), (8, 8, 0), (8, 8, 3), (4, 1024, 1)]
)
def test_sizes_of_pyramids(afs: Tool, height: int, width: int, n: int) -> None:
    pyramid = np.zeros((height, width), np.int32)
    refusal = _told(lambda: afshtruni.code(pyramid, n))
    assert afs("code", width, height, n, given=pyramid.tobytes()).stderr == _as_the_tool(refusal)


@pytest.mark.parametrize("far", [65536, -65536, 2**31 - 1, -(2**31)])
def test_range(afs: Tool, far: int) -> None:
    pyramid = np.zeros((8, 16), np.int32)
    pyramid[3, 2] = far
    refusal = _told(lambda: afshtruni.code(pyramid, 1))
    said = afs("code", 16, 8, 1, given=pyramid.astype("<i4").tobytes()).stderr
    assert said == _as_the_tool(refusal)


def test_printing_what_is_out_of_range() -> None:
    pyramid = np.zeros((8, 16), np.int32)
    pyramid[1, 2] = -131072
    for halvings, index in ((0, 18), (1, 10)):
        printed = afshtruni.Pyramid(pyramid, 2)
        refusal = _told(lambda: afshtruni.write_picture(printed, halvings=halvings))
        assert str(refusal) == (
            f"refused 4 RANGE at {index}: coefficient {index} (row 1, column 2, counted from 0) is"
            " -131072; legal is -131071 to 131071"
        )


def test_joining(afs: Tool, record: bytes, tmp_path: Path) -> None:
    part = afshtruni.parts(record)[-1]
    changed = bytearray(record)
    changed[part.offset + 4] ^= 0x80
    file = tmp_path / "first"
    for first, second in (
        (record, HEADER), (record, bytes(changed)), (b"", record), (record, b""), (b"", b"\x02"),
        (record[:2], record), (record, b"\x02"), (HEADER + b"\3\1\0", HEADER + b"\4\1\0"),
    ):
        refusal = _told(lambda: afshtruni.join(first, second))
        file.write_bytes(first)
        which, _, why = refusal.why.partition(": ")
        names = {"first": str(file), "second": "standard input"}
        told = Refusal(refusal.number, refusal.place, why if which in names else refusal.why)
        of = names.get(which, f"{file} and standard input")
        assert afs("join", file, "-", given=second).stderr.startswith(_as_the_tool(told, of))


def _is_taken(header: Header) -> bool:
    try:
        return afshtruni.survey(header_bytes(header)).parts == 0
    except Refusal as refusal:
        assert refusal.name == "SIZE"
        return False


def test_legal_sizes_are_the_librarys() -> None:
    least, greatest = _limits.LEAST_SIDE, _limits.GREATEST_SIDE
    most, planes = _limits.MOST_DECOMPOSITIONS, _limits.MOST_PLANES
    for is_taken, header in (
        (True, Header(least, greatest, 1, planes)),
        (True, Header(greatest, least, 1, 0)),
        (True, Header(greatest, greatest, most, planes)),
        (False, Header(greatest, greatest, most + 1, planes)),
        (False, Header(least, greatest, 1, planes + 1)),
        (False, Header(greatest + 4, least, 1, 0)),
        (False, Header(least, greatest + 4, 1, 0)),
        (False, Header(least - 4, least, 1, 0)),
    ):
        assert _is_taken(header) is is_taken


def test_legal_magnitudes_are_the_librarys() -> None:
    for greatest, call in (
        (_limits.GREATEST_CODED, afshtruni.code),
        (_limits.GREATEST_PRINTED, afshtruni.write_picture),
    ):
        pyramid = np.zeros((4, 4), np.int32)
        pyramid[3, 3] = -greatest
        call(afshtruni.Pyramid(pyramid, 1))  # type: ignore[operator]
        pyramid[3, 3] -= 1
        refusal = _told(lambda: call(afshtruni.Pyramid(pyramid, 1)))  # type: ignore[operator]
        assert refusal.name == "RANGE"
