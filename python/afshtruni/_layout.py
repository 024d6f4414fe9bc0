"""A record taken apart: its header, and the heads of its parts."""

from __future__ import annotations

from enum import Enum
from typing import Iterator, NamedTuple, Tuple

from ._values import Part

_MOST_BYTES = 4
_GROUP = 7
_MORE = 1 << _GROUP
_VERSION = 1
_BITS_PER_COEFFICIENT = 4


class Header(NamedTuple):
    """What stands behind the version."""

    width: int
    height: int
    decompositions: int
    planes: int

    @property
    def coarsest(self) -> int:
        """Levels run from 1, the finest, to this."""
        return self.decompositions + 1

    @property
    def most_parts(self) -> int:
        """One for each plane and level."""
        return self.planes * self.coarsest

    @property
    def most_bits(self) -> int:
        """That a part may have."""
        return _BITS_PER_COEFFICIENT * self.width * self.height


class Form(Enum):
    """How a number in a record may look."""

    WELL_FORMED = 0
    ENDS_EARLY = 1
    GOES_ON = 2
    ENDS_IN_ZERO = 3


def try_number(record: bytes, offset: int) -> Tuple[Form, int, int]:
    """A number in any bytes whatever: its form, its value, and the offset behind it."""
    value = 0
    for i in range(_MOST_BYTES):
        if offset == len(record):
            return Form.ENDS_EARLY, value, offset
        byte = record[offset]
        offset += 1
        value |= (byte & (_MORE - 1)) << (_GROUP * i)
        if byte < _MORE:
            return Form.ENDS_IN_ZERO if i > 0 and byte == 0 else Form.WELL_FORMED, value, offset
    return Form.GOES_ON, value, offset


def _number_at(record: bytes, offset: int) -> Tuple[int, int]:
    _, value, offset = try_number(record, offset)
    return value, offset


def header_of(record: bytes) -> Tuple[Header, int]:
    """The header of a record that a call has found good so far, and the offset behind it."""
    _, offset = _number_at(record, 0)
    numbers = []
    for _ in Header._fields:
        number, offset = _number_at(record, offset)
        numbers.append(number)
    return Header(*numbers), offset


def body_length(bits: int) -> int:
    """How many bytes so many bits take."""
    return (bits + 7) // 8


def parts_until(record: bytes, end: int) -> Iterator[Part]:
    """The parts between header and `end`, where a call has found that just whole ones stand."""
    _, offset = header_of(record)
    while offset < end:
        begins = offset
        plane, offset = _number_at(record, offset)
        level, offset = _number_at(record, offset)
        bits, offset = _number_at(record, offset)
        offset += body_length(bits)
        yield Part(plane, level, bits, begins, offset - begins)


def _put_number(number: int) -> bytes:
    groups = bytearray()
    while number >= _MORE:
        groups.append(number & (_MORE - 1) | _MORE)
        number >>= _GROUP
    groups.append(number)
    return bytes(groups)


def head_bytes(plane: int, level: int, bits: int) -> bytes:
    """What stands before a part's body, in the only form that is legal."""
    return _put_number(plane) + _put_number(level) + _put_number(bits)


def header_bytes(header: Header) -> bytes:
    """A record without parts, in the only form that is legal."""
    return b"".join(map(_put_number, (_VERSION, *header)))
