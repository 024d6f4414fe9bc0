"""Records sealed, and held against their seals."""

from __future__ import annotations

import os
from dataclasses import dataclass
from typing import Dict, List, Mapping, Optional, Tuple, Union

from ._answers import ACCEPTED, NUMBER, PLACE, SURVEYED
from ._lending import BytesLike, held_in, octets
from ._library import ask
from ._matching import Matcher, matcher_of
from ._paths import plain_path
from ._refusal import Refusal
from ._seals import Seal, SealedPart, seal_of, write_seals
from ._verdicts import Judged, judge, lines_of
from ._verifying import missing_parts, other_parts, read_record
from ._words import why_not_read

FileName = Union[str, "os.PathLike[str]"]

_NAMELESS = "the record"


@dataclass(frozen=True)
class Verdict:
    """What a record is, beside what was sealed. True where `status` is 0.

    status    as of `afs verify`: 0 where everything that is there is as it was sealed, of the
              record that it is to be; 3 where that is so, but all of it was wanted and isn't there;
              4 where it is so but for a tail, which can't be checked; 5 where it isn't
    kind      "whole" or "selection", as it was sealed; "changed"; "another", as it was sealed, but
              not of the record that it is to be; "ambiguous", where its name doesn't tell which
              that is; "unknown", of no sealed record
    of        the name of the sealed record that it was held against, or None
    changed   plane and level of each part that is there and isn't as it was sealed
    missing   plane and level of each sealed part that isn't there
    tail      how many bytes stand behind the last part that can be read: no digest covers them
    refusal   why it can't be read to its end, or None
    lines     what `afs verify` prints
    """

    status: int
    kind: str
    of: Optional[str]
    changed: Tuple[Tuple[int, int], ...]
    missing: Tuple[Tuple[int, int], ...]
    tail: int
    refusal: Optional[Refusal]
    lines: Tuple[str, ...]

    def __bool__(self) -> bool:
        return self.status == 0


def _named(name: FileName) -> str:
    told = os.fspath(name)
    if not isinstance(told, str):
        raise TypeError(f"a name must be str, not {type(told).__name__}")
    if not told or "\0" in told:
        raise ValueError(f"no file can have the name {told!r}")
    return told


def _sealed(name: str, record: BytesLike) -> Seal:
    held = held_in("record", record)
    answer = ask("afs_survey", octets("record", held))
    number, place, tail = answer[NUMBER], answer[PLACE], answer[SURVEYED["TAIL"]]
    if number != ACCEPTED:
        raise Refusal(number, place, f"{name}: {why_not_read(held, number, place)}")
    if tail > 0:
        raise ValueError(
            f"{name}: has a tail of {tail} bytes, which can't be sealed; serve() leaves it out"
        )
    return seal_of(name, held)


def seal(records: Mapping[FileName, BytesLike]) -> bytes:
    """Seals records: the SHA-256 of every part, as a text that can be signed.

    records  of each its name, by which it is found again, and its bytes

    The text is just what `afs seal` writes; `afs verify` takes it, and `verify`. It is good for the
    records and for whatever is served, cut off or joined of them. Refuses as `survey` does; a
    record with a tail raises ValueError.
    """
    seals: Dict[str, Seal] = {}
    for name, record in records.items():
        told = _named(name)
        if told in seals:
            raise ValueError(f"{told}: is to be sealed twice; of each name there is one seal")
        seals[told] = _sealed(told, record)
    return write_seals(seals.values())


def _places(parts: List[SealedPart]) -> Tuple[Tuple[int, int], ...]:
    return tuple((part.plane, part.level) for part in parts)


def _verdict_of(matcher: Matcher, judged: Judged, whole: bool) -> Verdict:
    reading, compared = judged.reading, judged.comparison
    return Verdict(
        status=judged.status(whole),
        kind=judged.kind,
        of=None if compared is None else compared.seal.name,
        changed=() if compared is None else _places(other_parts(compared)),
        missing=() if compared is None else _places(missing_parts(compared)),
        tail=len(reading.held) - reading.behind,
        refusal=reading.refusal,
        lines=tuple(lines_of(matcher, judged)),
    )


def _check_asked(matcher: Matcher, of: str) -> None:
    count = matcher.namesakes_of(plain_path(of)).many
    if count == 0:
        raise ValueError(f"no record is sealed as {of}")
    if count > 1:
        raise ValueError(f"{count} records are sealed as {of}; the folder before it tells which")


def verify(
    seals: BytesLike,
    record: BytesLike,
    name: Optional[FileName] = None,
    *,
    of: Optional[FileName] = None,
    whole: bool = False,
) -> Verdict:
    """Holds a record, or what was served, cut off or joined of one, against seals.

    seals   what `seal` gave, or `afs seal` wrote
    record  the bytes that came
    name    the path of the file that they were in, if any: it is to be the sealed record whose name
            agrees with it in most components, the last ones first. Without one, and where none
            agrees, it is to be the one that it has most parts of
    of      the name of the sealed record that it is to be, whatever `name` says
    whole   whether a selection will not do

    Judges as `afs verify` does. What can't be read is told as changed, and not raised. Raises
    ValueError where a line of `seals` isn't as it was written, or none, or several, are sealed as
    `of`.
    """
    matcher = matcher_of(held_in("seals", seals))
    asked = None if of is None else _named(of)
    if asked is not None:
        _check_asked(matcher, asked)
    path = None if name is None else _named(name)
    reading = read_record(_NAMELESS if path is None else path, held_in("record", record))
    return _verdict_of(matcher, judge(matcher, asked, path, reading), whole)
