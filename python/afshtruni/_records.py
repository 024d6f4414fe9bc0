"""Records: coded, served, joined, told of and decoded."""

from __future__ import annotations

from typing import Any, Callable, List, Optional, Tuple, Union

import numpy as np
from numpy.typing import NDArray

from ._answers import ACCEPTED, CODED, DECODED, JOINED, LEVEL_PLACES, NAMES, NUMBER, PLACE, SERVED
from ._answers import SURVEYED
from ._layout import Header, header_of, parts_until
from ._lending import BytesLike, held_in, number, octets
from ._library import Answer, ask, call
from ._limits import GREATEST_CODED
from ._notes import told_bound
from ._pictures import read_picture
from ._pyramids import is_picture, taken_apart, workspace
from ._values import FARTHEST, Decoded, Part, Pyramid, Survey
from ._words import why_clash, why_mixed, why_not_asked, why_not_read, why_range, why_size


def _room_for_record(count: int) -> NDArray[np.uint8]:
    """In which every record of so many coefficients has room."""
    return np.empty(6 * count + 640, np.uint8)


def code(pyramid: Union[Pyramid, NDArray[Any]], decompositions: Optional[int] = None) -> bytes:
    """Makes the record of a pyramid, or of a picture: all of it, at full detail.

    pyramid         what `read_picture` or `decode` gave, or an array, rows by columns: 4 to 512
                    each, multiples of 2^(N+1). One of uint8 is a picture, as in `read_picture`;
                    of any other integer type it is coefficients, and no magnitude is over 65535
    decompositions  N, 1 to 5, where `pyramid` is an array; without it a picture gets as many as
                    its sides allow

    Refuses with 1 SIZE or 4 RANGE.
    """
    if not isinstance(pyramid, Pyramid) and is_picture(pyramid):
        return code(read_picture(pyramid, decompositions))
    lent, halvings = taken_apart(pyramid, decompositions)
    height, width = lent.shape
    out = _room_for_record(lent.size)

    def why(refusal: int, index: int) -> str:
        if NAMES[refusal] == "RANGE":
            return why_range(lent, index, GREATEST_CODED)
        return why_size(Header(width, height, halvings, 0))

    answer = call("afs_code", lent, width, height, halvings, out, workspace(lent.size), why=why)
    return out[: answer[CODED["LENGTH"]]].tobytes()


def serve(
    record: BytesLike, level: int = 1, plane: int = 0, *, error: Optional[int] = None
) -> bytes:
    """Cuts a smaller record out of a record.

    record  bytes, or anything that holds a row of them
    level   the finest level that is kept, 1 to N + 1; 1 keeps all
    plane   the lowest plane that is kept, 0 to the number of planes; 0 keeps all
    error   instead of both: how many grey values a pixel that is printed of it may be from the
            recorded one, 0 to 255, if the record was made of a picture. All levels are kept, and
            the highest plane that will do

    A part that the record's end cuts off is left out; `survey` tells of it. Without `error` nothing
    is decoded. Refuses with 1 SIZE, 6 HEAD, 7 VERSION, 8 PART, 9 PAD, 11 ASK or 12 LONGFORM; with
    `error` also with 10 FIT, and raises ValueError where so many parts are missing that nothing
    will do.
    """
    if error is not None:
        return _serve_within(record, level, plane, error)
    lent = octets("record", record)
    asked = number("level", level), number("plane", plane)

    def why(refusal: int, place: int) -> str:
        held = lent.tobytes()
        if NAMES[refusal] == "ASK":
            return why_not_asked(*asked, header_of(held)[0])
        return why_not_read(held, refusal, place)

    out = np.empty(lent.size, np.uint8)
    answer = call("afs_serve", lent, *asked, out, why=why)
    return out[: answer[SERVED["LENGTH"]]].tobytes()


def _serve_within(record: BytesLike, level: int, plane: int, error: int) -> bytes:
    if (level, plane) != (1, 0):
        raise TypeError("error must not be given with level or plane")
    most = number("error", error)
    if most > FARTHEST:
        raise ValueError(f"error must be 0 to {FARTHEST}, not {most}")
    held = held_in("record", record)
    bound = FARTHEST
    for lowest in range(decode(held).planes, -1, -1):
        served = serve(held, 1, lowest)
        bound = decode(served).pixel_bound
        if bound <= most:
            return served
    raise ValueError(f"{told_bound(bound)}, and nothing nearer can be served, as parts are missing")


def join(first: BytesLike, second: BytesLike) -> bytes:
    """Makes one record with all parts of two, which must agree where both have a part.

    Refuses as `survey` does, the first record before the second and with a place in its own bytes;
    then with 14 MIXED where the headers differ, or 15 CLASH where a part does, at its offset in the
    first.
    """
    lent = octets("first", first), octets("second", second)

    def why(refusal: int, place: int) -> str:
        one, other = (record.tobytes() for record in lent)
        if NAMES[refusal] == "MIXED":
            return why_mixed(one, other)
        if NAMES[refusal] == "CLASH":
            return why_clash(one, place)
        if ask("afs_survey", lent[0])[NUMBER] != ACCEPTED:
            return f"first: {why_not_read(one, refusal, place)}"
        return f"second: {why_not_read(other, refusal, place)}"

    out = np.empty(lent[0].size + lent[1].size, np.uint8)
    answer = call("afs_join", *lent, out, why=why)
    return out[: answer[JOINED["LENGTH"]]].tobytes()


def _why_not(lent: NDArray[np.uint8]) -> Callable[[int, int], str]:
    return lambda refusal, place: why_not_read(lent.tobytes(), refusal, place)


def _surveyed(answer: Answer) -> Survey:
    return Survey(*(answer[SURVEYED[field.upper()]] for field in Survey._fields))


def survey(record: BytesLike) -> Survey:
    """Tells what a record holds: width, height, decompositions, planes, whole parts, tail.

    Bodies aren't decoded. Refuses with 1 SIZE, 6 HEAD, 7 VERSION, 8 PART, 9 PAD or 12 LONGFORM.
    """
    lent = octets("record", record)
    return _surveyed(call("afs_survey", lent, why=_why_not(lent)))


def _size_to_lend(lent: NDArray[np.uint8]) -> Survey:
    """What a good header tells, else all 0.

    Decoding may find a fault before the first one that a survey finds: what is before that is
    surveyed again, as it is a record too unless its header is at fault.
    """
    answer = ask("afs_survey", lent)
    if answer[NUMBER] != ACCEPTED:
        answer = ask("afs_survey", lent[: answer[PLACE]])
    return _surveyed(answer)


def _by_level(answer: Answer, first: int, told: Survey) -> Tuple[int, ...]:
    """The numbers of the levels that there are, level 1 first."""
    return tuple(answer[first : first + min(told.decompositions + 1, LEVEL_PLACES)])


def decode(record: BytesLike) -> Decoded:
    """Makes a pyramid of the parts of a record that are there, and tells how far it got.

    record  bytes, or anything that holds a row of them: a record, or any of its parts in their
            order, with the end cut off wherever it may be

    The part that the end cuts is used as far as its bits go, where all that it builds on is there;
    more bytes of a record that `code` wrote never make a magnitude smaller, nor turn a sign.

    The result is a `Pyramid` with `reached`, `skipped`, `tail` and `pixel_bound`. Refuses as
    `survey` does, and with 10 FIT.
    """
    lent = octets("record", record)
    told = _size_to_lend(lent)
    out = np.empty((told.height, told.width), np.int32)
    answer = call("afs_decode", lent, out, workspace(out.size), why=_why_not(lent))
    return Decoded(
        coefficients=out,
        decompositions=told.decompositions,
        planes=told.planes,
        reached=_by_level(answer, DECODED["REACHED"], told),
        skipped=_by_level(answer, DECODED["SKIPPED"], told),
        tail=answer[DECODED["TAIL"]],
    )


def parts(record: BytesLike) -> List[Part]:
    """Lists the parts of a record that are there whole, in their order.

    Each has `plane`, `level`, `bits`, `offset` and `length`. Refuses as `survey` does.
    """
    held = held_in("record", record)
    return list(parts_until(held, len(held) - survey(held).tail))
