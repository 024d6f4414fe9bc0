"""What a record holds and lacks, in the words of the tool."""

from __future__ import annotations

from typing import Iterator, List, NamedTuple, Optional, Set, Tuple

from ._layout import Form, Header, header_of, parts_until, try_number
from ._lending import BytesLike, held_in
from ._pictures import is_of_no_picture, printed
from ._records import decode
from ._values import Decoded, added_by


class _Cut(NamedTuple):
    """The part that a tail is of."""

    plane: int
    level: int
    bytes_there: int  # of its body


class _Holding(NamedTuple):
    """Which parts a record holds, and how far decoding came with them."""

    header: Header
    there: Set[Tuple[int, int]]
    decoded: Decoded
    cut: Optional[_Cut]

    @property
    def levels(self) -> range:
        """The coarsest first."""
        return range(self.header.coarsest, 0, -1)

    @property
    def planes(self) -> range:
        """The highest first."""
        return range(self.header.planes - 1, -1, -1)

    def is_used(self, plane: int, level: int) -> bool:
        """Usable planes run without a gap from the top down to the reached one."""
        return plane >= self.decoded.reached[level - 1]

    def mark(self, plane: int, level: int) -> str:
        """Of a part, in the grid."""
        if self.is_used(plane, level):
            return "#"
        return "o" if (plane, level) in self.there else "."

    @property
    def is_cut_used(self) -> bool:
        """It lies just below what its level reached, and all that it builds on is used."""
        cut = self.cut
        if cut is None or self.decoded.reached[cut.level - 1] != cut.plane + 1:
            return False
        return all(self.is_used(cut.plane, level) for level in self.levels if level > cut.level)

    @property
    def is_tail_used(self) -> bool:
        """The same, and any of its bits is there."""
        return self.cut is not None and self.is_cut_used and self.cut.bytes_there > 0


def _cut_of(record: bytes, tail: int) -> Optional[_Cut]:
    """The head that a tail begins with, if it is whole."""
    offset = len(record) - tail
    numbers = []
    for _ in range(3):
        form, number, offset = try_number(record, offset)
        if form is not Form.WELL_FORMED:
            return None
        numbers.append(number)
    return _Cut(numbers[0], numbers[1], len(record) - offset)


def _holding_of(record: bytes, decoded: Decoded) -> _Holding:
    parts = parts_until(record, len(record) - decoded.tail)
    there = {(part.plane, part.level) for part in parts}
    return _Holding(header_of(record)[0], there, decoded, _cut_of(record, decoded.tail))


def _what_shows(header: Header) -> Iterator[str]:
    """Before any figure, what the figures can't show."""
    yield (
        f"A record of a pyramid of {header.width} x {header.height} coefficients."
        f" Levels: {header.coarsest} (coarsest) to 1 (finest). Planes: {header.planes}."
    )
    yield "Parts that are missing, and an end that is cut off, show below."
    yield (
        "Bytes that were changed, or lost inside a part, do not: a record has no checksum."
        " Keep a seal:"
    )
    yield (
        "'afs seal FILE >FILE.seals' where a record is made,"
        " 'afs verify FILE.seals FILE' where it arrives."
    )


def _grid(holding: _Holding) -> Iterator[str]:
    yield "    plane  " + "".join(f"{plane:3}" for plane in holding.planes)
    for level in holding.levels:
        marks = (holding.mark(plane, level) for plane in holding.planes)
        yield f"    level {level}" + "".join(f"  {mark}" for mark in marks)
    yield (
        "    #  there and used   o  there, but not used, as a part that it builds on is missing"
        "   .  missing"
    )


def _skipped(holding: _Holding) -> Iterator[str]:
    for level in holding.levels:
        count = holding.decoded.skipped[level - 1]
        if count > 0:
            are = "part is" if count == 1 else "parts are"
            yield f"level {level}: {count} {are} there that can't be used"


def _request(holding: _Holding) -> Iterator[str]:
    """For what request serving a whole record would keep as many, if there is one. Nobody can tell
    whether that was so."""
    header, there = holding.header, holding.there
    least_plane = min((plane for plane, _ in there), default=header.planes)
    least_level = min((level for _, level in there), default=header.coarsest)
    asked = (header.planes - least_plane) * (header.coarsest - least_level + 1)
    if len(there) == asked < header.most_parts:
        yield (
            f"They are as many as 'afs serve -r {least_level} -p {least_plane}' would keep of a"
            " whole record; the others may as well have been lost."
        )


def _parts(holding: _Holding) -> Iterator[str]:
    count, whole = len(holding.there), holding.header.most_parts
    used = sum(len(holding.planes) - reached for reached in holding.decoded.reached)
    there, taken = ("is" if number == 1 else "are" for number in (count, used))
    yield f"\nParts: {count} of {whole} {there} there, {used} of them {taken} used."
    if holding.header.planes == 0:
        yield "Without planes there are no parts: every coefficient is 0."
    else:
        yield from _grid(holding)
    yield from _skipped(holding)
    yield from _request(holding)


def _distance(holding: _Holding, level: int) -> str:
    plane = holding.decoded.reached[level - 1]
    if plane == 0:
        return "reached plane 0: it is the recorded one"
    away = f"less than 2^{plane} = {1 << plane} away"
    if plane < holding.header.planes:
        return f"reached plane {plane}: {away}"
    is_cut = holding.is_tail_used and holding.cut is not None and holding.cut.level == level
    some = " but those that the tail tells" if is_cut else ""
    return f"reached no plane: {away}, and all are decoded as 0{some}"


def _distances(holding: _Holding) -> Iterator[str]:
    yield "\nHow far a decoded coefficient may be from the recorded one:"
    for level in holding.levels:
        yield f"    level {level}  {_distance(holding, level)}"
    yield "It is never of greater magnitude, and it has the recorded sign unless it is 0."
    yield (
        "This is so for a record that our coder wrote, whatever whole parts were left out or lost"
        " since, and wherever it"
    )
    yield (
        "was cut off; not where a byte of it was changed, or lost inside a part. A record doesn't"
        " show who wrote it."
    )


def _farthest_pixel(holding: _Holding) -> Iterator[str]:
    """The same in grey values, where anything lacks."""
    bounds = holding.decoded.pixel_bounds
    if bounds[0] == 0:
        return
    yield (
        f"\nIf this record was made of a picture, a printed pixel is at most {bounds[0]} grey"
        " values from the recorded one."
    )
    for level in holding.levels:
        yield f"    level {level}  adds {added_by(holding.decoded.reached, level)}"
    halved = [
        f"in the picture halved {times} time{'' if times == 1 else 's'} at most {bound}"
        for times, bound in enumerate(bounds)
        if times > 0
    ]
    if halved:
        yield "    " + ", ".join(halved)


def _clipped(decoded: Decoded) -> Iterator[str]:
    """The bound is 0 there, and says nothing of such a record."""
    picture, _ = printed(decoded)
    if is_of_no_picture(decoded, picture, 0):
        come = "pixel comes" if picture.clipped == 1 else "pixels come"
        yield (
            "\nThis record was changed, or made of no picture: all of it is there, and"
            f" {picture.clipped} {come} out under 0 or over 255,"
        )
        yield "as of no picture."


def _missing_planes(holding: _Holding, level: int) -> str:
    runs: List[List[int]] = []
    for plane in holding.planes:
        if (plane, level) in holding.there:
            continue
        if runs and runs[-1][-1] == plane + 1:
            runs[-1].append(plane)
        else:
            runs.append([plane])
    return ", ".join(f"{run[0]}" + (f" to {run[-1]}" if run[1:] else "") for run in runs)


def _missing(holding: _Holding) -> Iterator[str]:
    whole = holding.header.most_parts
    missing = whole - len(holding.there)
    yield f"\nMissing: {missing} of {whole} parts." if missing else "\nMissing: nothing."
    for level in holding.levels:
        planes = _missing_planes(holding, level)
        if planes:
            yield f"    level {level}  plane {planes}"


def _tail(holding: _Holding) -> Iterator[str]:
    tail, cut = holding.decoded.tail, holding.cut
    if tail == 0:
        yield "\nTail: none."
    elif cut is None:
        yield (
            f"\nTail: length {tail}. It is less than the head of a part, and was not used."
        )
    else:
        yield (
            f"\nTail: length {tail}. It is the beginning of the part of level {cut.level}, plane"
            f" {cut.plane}, {_use_of_tail(holding)}"
        )
        if holding.is_tail_used:
            yield (
                f"So coefficients of level {cut.level} may be nearer than told above: each is"
                f" rounded at plane {cut.plane + 1} or at plane {cut.plane}."
            )


def _use_of_tail(holding: _Holding) -> str:
    if not holding.is_cut_used:
        return "and was not used, as a part that it builds on is missing."
    if not holding.is_tail_used:
        return "and was not used, as none of its bits is there."
    return "and was used as far as its bits go."


def explain(record: BytesLike) -> str:
    """Says what a record holds, what of it is used, and how far what is decoded may be from what
    was recorded: what `afs explain` prints. Refuses as `decode` does.
    """
    held = held_in("record", record)
    holding = _holding_of(held, decode(held))
    lines = [
        *_what_shows(holding.header),
        *_parts(holding),
        *_distances(holding),
        *_farthest_pixel(holding),
        *_clipped(holding.decoded),
        *_missing(holding),
        *_tail(holding),
    ]
    return "\n".join(lines) + "\n"
