"""Why a call refused, in the words of the tool.

Number and place of a refusal are the call's; the bytes are looked at for the words alone.
"""

from __future__ import annotations

from typing import Any, List, NamedTuple, Optional, Tuple

from numpy.typing import NDArray

from ._answers import NAMES
from ._layout import Form, Header, body_length, header_of, parts_until, try_number
from ._limits import GREATEST_SIDE, LEAST_SIDE, MOST_DECOMPOSITIONS, MOST_PLANES
from ._values import Part

TOO_SHORT = "memory that was lent is too short"

_HEADER_NAMES = (
    "its version", "W, the width", "H, the height", "N, the number of decompositions",
    "the number of planes",
)
_HEAD_NAMES = ("the plane", "the level", "the bit count")


def is_side(side: int, decompositions: int) -> bool:
    """Whether a side is legal with so many decompositions."""
    return LEAST_SIDE <= side <= GREATEST_SIDE and side % (2 << decompositions) == 0


def _is_legal(header: Header) -> bool:
    return (
        1 <= header.decompositions <= MOST_DECOMPOSITIONS
        and is_side(header.width, header.decompositions)
        and is_side(header.height, header.decompositions)
        and header.planes <= MOST_PLANES
    )


def _why_side(name: str, side: int, decompositions: int, where: str) -> str:
    if not LEAST_SIDE <= side <= GREATEST_SIDE:
        return f"{name}{where} is {side}; legal is {LEAST_SIDE} to {GREATEST_SIDE}"
    multiple = 2 << decompositions
    return f"{name}{where} is {side}; legal with N = {decompositions} is a multiple of {multiple}"


def why_size(header: Header, where: str = "") -> str:
    """Of sizes that aren't legal, with where they are told."""
    count = header.decompositions
    if not 1 <= count <= MOST_DECOMPOSITIONS:
        name = "N, the number of decompositions,"
        return f"{name}{where} is {count}; legal is 1 to {MOST_DECOMPOSITIONS}"
    if not is_side(header.width, count):
        return _why_side("W, the width,", header.width, count, where)
    if not is_side(header.height, count):
        return _why_side("H, the height,", header.height, count, where)
    return f"the number of planes{where} is {header.planes}; legal is 0 to {MOST_PLANES}"


def why_picture(header: Header, is_asked: bool) -> str:
    """Of a picture's sizes that aren't legal, where the number of decompositions was asked for."""
    count = header.decompositions
    if not 1 <= count <= MOST_DECOMPOSITIONS or header.width * header.height == 0:
        return why_size(header, " of the picture")
    multiple = 2 << count
    legal = (
        f"{header.width} x {header.height}: {f'with N = {count} ' if is_asked else ''}sides must be"
        f" multiples of {multiple} and at most {GREATEST_SIDE}"
    )
    if max(header.width, header.height) > GREATEST_SIDE:
        pieces = f"'pamdice -width={GREATEST_SIDE} -height={GREATEST_SIDE}'"
        return f"{legal}; {pieces} cuts it into such pieces, and 'pamscale' makes it smaller"
    padded = f"'pnmpad -mwidth={multiple} -mheight={multiple}'"
    return f"{legal}; {padded} makes it so much larger, and 'pamcut' smaller"


def why_range(pyramid: NDArray[Any], index: int, greatest: int) -> str:
    """Of a coefficient that is too great."""
    row, column = divmod(index, pyramid.shape[1])
    return (
        f"coefficient {index} (row {row}, column {column}, counted from 0) is"
        f" {pyramid[row, column]}; legal is {-greatest} to {greatest}"
    )


def why_halvings(halvings: int, decompositions: int) -> str:
    """Of a picture that can't be halved so often."""
    asked = "1 halving was" if halvings == 1 else f"{halvings} halvings were"
    return f"{asked} asked for; of this picture 0 to {decompositions - 1} can be"


def _why_malformed(form: Form, name: str, offset: int) -> str:
    if form is Form.ENDS_EARLY:
        return f"the end comes before the header has told {name}"
    if form is Form.GOES_ON:
        return f"{name}, at byte {offset}, goes on after four bytes, as no legal number does"
    return (
        f"{name}, at byte {offset}, ends in a byte of 0, as no legal number of several bytes does"
    )


class _Numbers(NamedTuple):
    """Numbers in any bytes, as far as they are well formed, and the form of the one behind."""

    values: Tuple[int, ...]
    form: Form
    offset: int  # of the first that isn't well formed, or behind them all


def _try_numbers(record: bytes, offset: int, count: int) -> _Numbers:
    values: List[int] = []
    for _ in range(count):
        form, value, behind = try_number(record, offset)
        if form is not Form.WELL_FORMED:
            return _Numbers(tuple(values), form, offset)
        values.append(value)
        offset = behind
    return _Numbers(tuple(values), Form.WELL_FORMED, offset)


def _why_head(record: bytes, told: _Numbers) -> str:
    if not record:
        return "nothing is there; the shortest record is a header of 5 bytes"
    return _why_malformed(told.form, _HEADER_NAMES[len(told.values)], told.offset)


def _part_before(record: bytes, place: int) -> Optional[Part]:
    before = None
    for before in parts_until(record, place):
        pass
    return before


def _why_order(plane: int, level: int, place: int, before: Optional[Part]) -> Optional[str]:
    if before is None or (before.plane, before.level) > (plane, level):
        return None
    return (
        f"the part at byte {place}, of plane {plane}, level {level}, stands behind that of plane"
        f" {before.plane}, level {before.level}; planes go down, and levels in a plane"
    )


def _why_part(record: bytes, place: int, header: Header) -> str:
    head = _try_numbers(record, place, len(_HEAD_NAMES))
    plane, level, bits = (*head.values, 0, 0, 0)[: len(_HEAD_NAMES)]
    if head.form not in (Form.WELL_FORMED, Form.ENDS_EARLY):
        return _why_malformed(head.form, _HEAD_NAMES[len(head.values)], head.offset)
    if header.planes == 0:
        return f"a part begins at byte {place}, and by its header the record has no planes"
    at = f"the part at byte {place}"
    if plane >= header.planes:
        return f"{at} has plane {plane}; legal is 0 to {header.planes - 1}"
    if not 1 <= level <= header.coarsest:
        return f"{at} has level {level}; legal is 1 to {header.coarsest}"
    return _why_order(plane, level, place, _part_before(record, place)) or (
        f"{at} (plane {plane}, level {level}) has {bits} bits; legal is at most {header.most_bits}"
    )


def _why_bits(record: bytes, place: int, is_fit: bool) -> str:
    head = _try_numbers(record, place, len(_HEAD_NAMES))
    plane, level, bits = head.values
    end = head.offset + body_length(bits)
    part = f"the part at byte {place} (plane {plane}, level {level})"
    if end > len(record):
        there = 8 * (len(record) - head.offset)
        return f"{part} is cut off with {there} bits there, and decoding it takes fewer"
    if is_fit:
        return f"{part} has {bits} bits, and decoding it takes more or fewer"
    return f"{part} has {bits} bits; those after them in byte {end - 1} aren't all 0"


def why_not_asked(level: int, plane: int, header: Header) -> str:
    """Of a level or plane that can't be asked for."""
    if not 1 <= level <= header.coarsest:
        return f"level {level} was asked for; this record has levels 1 to {header.coarsest}"
    return f"plane {plane} was asked for; of this record 0 to {header.planes} can be"


def why_not_read(record: bytes, number: int, place: int) -> str:
    """Of a record that a call refused, for what it holds and not for what was asked."""
    name = NAMES.get(number, "")
    told = _try_numbers(record, 0, len(_HEADER_NAMES))
    if name == "HEAD" or (name == "LONGFORM" and told.form is not Form.WELL_FORMED):
        return _why_head(record, told)
    if name == "VERSION":
        version = try_number(record, 0)[1]
        return (
            f"it begins with version {version}; legal is 1: so this is no record, or a later one"
        )
    header, _ = header_of(record)
    if name == "SIZE":
        return why_size(header, " in the header")
    if name in ("PART", "LONGFORM"):
        return _why_part(record, place, header)
    if name in ("PAD", "FIT"):
        return _why_bits(record, place, name == "FIT")
    return TOO_SHORT


def _told(header: Header) -> str:
    width, height, decompositions, planes = header
    return f"{width} x {height}, N = {decompositions}, {planes} planes"


def why_mixed(first: bytes, second: bytes) -> str:
    """Of two records with different headers."""
    one, other = header_of(first)[0], header_of(second)[0]
    return f"their headers differ: {_told(one)}; and {_told(other)}"


def why_clash(first: bytes, place: int) -> str:
    """Of a part that two records have, and not the same."""
    plane, level = _try_numbers(first, place, 2).values
    return (
        f"the part of plane {plane}, level {level}, at byte {place} of the first, isn't the same"
        " in the second: they aren't of one record"
    )
