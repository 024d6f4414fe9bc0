"""A record held against a seal: which parts are as they were sealed, and which aren't."""

from __future__ import annotations

from typing import List, NamedTuple, Optional

import numpy as np

from ._answers import ACCEPTED, NUMBER, PLACE, SURVEYED
from ._layout import body_length, head_bytes
from ._library import ask
from ._matching import has_same
from ._refusal import Refusal
from ._seals import Seal, SealedPart, digest_of, seal_of
from ._words import why_not_read


class Reading(NamedTuple):
    """What can be read of bytes that may be a record: its parts up to a fault or to the tail."""

    name: str
    held: bytes
    refusal: Optional[Refusal]
    found: Optional[Seal]  # of what can be read; None without a header
    behind: int  # where it ends


class Comparison(NamedTuple):
    """`is_changed`: anything that is there isn't as it was sealed. `has_tail`: bytes behind the
    last part may be the beginning of the next one. `is_whole`: every byte is as it was sealed, and
    all are there."""

    reading: Reading
    seal: Seal
    is_changed: bool
    has_tail: bool
    is_whole: bool


def read_record(name: str, held: bytes) -> Reading:
    """Before a fault stand whole parts, unless it is in the header."""
    answer = ask("afs_survey", np.frombuffer(held, np.uint8))
    refusal = None
    good = held
    if answer[NUMBER] != ACCEPTED:
        told = answer[NUMBER], answer[PLACE]
        refusal = Refusal(*told, why_not_read(held, *told))
        good = held[: answer[PLACE]]
        answer = ask("afs_survey", np.frombuffer(good, np.uint8))
    if answer[NUMBER] != ACCEPTED:
        return Reading(name, held, refusal, None, 0)
    behind = len(good) - answer[SURVEYED["TAIL"]]
    return Reading(name, held, refusal, seal_of(name, good[:behind]), behind)


def _stands_in(held: bytes, sealed: SealedPart) -> bool:
    """Whether the part itself, head and body, stands anywhere in a file."""
    head = head_bytes(*sealed[:3])
    length = len(head) + body_length(sealed.bits)
    at = held.find(head)
    while 0 <= at <= len(held) - length:
        if digest_of(held[at : at + length]) == sealed.digest:
            return True
        at = held.find(head, at + 1)
    return False


def other_parts(comparison: Comparison) -> List[SealedPart]:
    """Those that are there and not as they were sealed."""
    found = comparison.reading.found
    parts = () if found is None else found.parts
    return [part for part in parts if not has_same(comparison.seal, part)]


def _is_missing(comparison: Comparison, sealed: SealedPart) -> bool:
    """Whether a sealed part isn't there, nor anywhere where the walk over the parts didn't come."""
    found = comparison.reading.found
    if found is not None and found.part(sealed.plane, sealed.level) is not None:
        return False
    return not (comparison.is_changed and _stands_in(comparison.reading.held, sealed))


def missing_parts(comparison: Comparison) -> List[SealedPart]:
    """Those that were sealed and aren't there."""
    return [part for part in comparison.seal.parts if _is_missing(comparison, part)]


def _is_tail_of(seal: Seal, reading: Reading, found: Seal) -> bool:
    """A tail is of the record if it begins as one of the parts does that may follow."""
    tail = reading.held[reading.behind :]
    for part in seal.parts:
        head = head_bytes(*part[:3])
        comes_behind = not found.parts or part[:2] < found.parts[-1][:2]
        if comes_behind and tail[: len(head)] == head[: len(tail)]:
            return True
    return False


def compare_with(seal: Seal, reading: Reading) -> Comparison:
    """Part by part, by digests."""
    found = reading.found
    if found is None:
        return Comparison(reading, seal, True, False, False)
    has_more = reading.behind < len(reading.held)
    is_other = reading.refusal is not None or seal.header != found.header
    has_tail = not is_other and has_more and _is_tail_of(seal, reading, found)
    is_changed = (
        is_other
        or (has_more and not has_tail)
        or not all(has_same(seal, part) for part in found.parts)
    )
    is_whole = not is_changed and not has_more and len(found.parts) == len(seal.parts)
    return Comparison(reading, seal, is_changed, has_tail, is_whole)
