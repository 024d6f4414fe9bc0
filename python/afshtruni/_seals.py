"""Seals: of each record its name, its header's numbers, and for each part its plane, level, bit
count and SHA-256; and their form as a text, which is that of `afs seal`."""

from __future__ import annotations

import re
from dataclasses import dataclass
from functools import cached_property, lru_cache
from hashlib import sha256
from typing import Dict, Iterable, List, Match, NamedTuple, Optional, Pattern, Sequence, Tuple

import numpy as np

from ._answers import ACCEPTED, NUMBER
from ._layout import Header, header_bytes, header_of, parts_until
from ._library import ask

_TITLE = b"afshtruni seals 1\n"
_DIGITS = rb"([0-9]{1,9})"
_DIGEST = rb"([0-9a-f]{64})"
_FIRST_LINE = re.compile(re.escape(_TITLE[:-1]))
_FILE_LINE = re.compile(rb"file ([^\0]*)")
_RECORD_LINE = re.compile(rb"record " + rb" ".join([_DIGITS] * 4))
_PART_LINE = re.compile(rb"part " + rb" ".join([_DIGITS] * 3 + [_DIGEST]))
_SEAL_LINE = re.compile(rb"seal " + _DIGEST)
_LAST_LINE = re.compile(rb"sha256 " + _DIGEST)
_BYTE_IN_NAME = re.compile(rb"%([0-9A-F]{2})")


class SealedPart(NamedTuple):
    """Digested is the whole part, head and body."""

    plane: int
    level: int
    bits: int
    digest: str


@dataclass(frozen=True, eq=False)
class Seal:
    """What is sealed of a record: its name, which the digest leaves out, and its parts, in their
    order."""

    name: str
    header: Header
    parts: Tuple[SealedPart, ...]

    @cached_property
    def _by_place(self) -> Dict[Tuple[int, int], SealedPart]:
        return {(part.plane, part.level): part for part in self.parts}

    def part(self, plane: int, level: int) -> Optional[SealedPart]:
        """The part of a plane and level, or None."""
        return self._by_place.get((plane, level))


def seal_of(name: str, record: bytes) -> Seal:
    """Of a record without a tail that a call has found good."""
    parts = tuple(
        SealedPart(plane, level, bits, digest_of(record[offset : offset + length]))
        for plane, level, bits, offset, length in parts_until(record, len(record))
    )
    return Seal(name, header_of(record)[0], parts)


def digest_of(held: bytes) -> str:
    """SHA-256, in the digits of a seal."""
    return sha256(held).hexdigest()


def as_bytes(name: str) -> bytes:
    """A file's name as the system has it, from Python's form of it."""
    return name.encode("utf-8", "surrogateescape")


def _written(character: str) -> bytes:
    """A byte that would end the line, hide in it or be no text is written as % and two digits."""
    held = as_bytes(character)
    is_text = character > "\x1f" and not "\ud800" <= character < "\ue000"
    return held if is_text and character not in "%\x7f" else b"%%%02X" % held[0]


def _sealed(seal: Seal) -> bytes:
    lines = ["record " + " ".join(map(str, seal.header))]
    lines += ["part " + " ".join(map(str, part)) for part in seal.parts]
    return "".join(line + "\n" for line in lines).encode("ascii")


def write_seals(seals: Iterable[Seal]) -> bytes:
    """Sorted by name: the only form that there is."""
    text = bytearray(_TITLE)
    for seal in sorted(seals, key=lambda seal: as_bytes(seal.name)):
        sealed = _sealed(seal)
        name = b"".join(map(_written, seal.name))
        text += b"file %s\n%sseal %s\n" % (name, sealed, digest_of(sealed).encode("ascii"))
    return bytes(text) + b"sha256 %s\n" % digest_of(text).encode("ascii")


class OtherForm(ValueError):
    """A line isn't as it is written."""

    def __init__(self, line: int) -> None:
        super().__init__(f"line {line} isn't as 'afs seal' wrote it")


class _Lines:
    """Lines taken from the front, each with its newline."""

    def __init__(self, text: bytes) -> None:
        self._lines = text.split(b"\n")
        self.taken = 0

    def take(self, form: Pattern[bytes]) -> Optional[Match[bytes]]:
        is_line = self.taken < len(self._lines) - 1
        match = form.fullmatch(self._lines[self.taken]) if is_line else None
        self.taken += match is not None
        return match

    def need(self, form: Pattern[bytes]) -> Match[bytes]:
        match = self.take(form)
        if match is None:
            raise OtherForm(self.taken + 1)
        return match


def _name_in(line: Match[bytes]) -> str:
    held = _BYTE_IN_NAME.sub(lambda match: bytes.fromhex(match[1].decode("ascii")), line[1])
    return held.decode("utf-8", "surrogateescape")


def _numbers_in(line: Match[bytes], count: int) -> Sequence[int]:
    return [int(group) for group in line.groups()[:count]]


def _is_legal(header: Header) -> bool:
    record = np.frombuffer(header_bytes(header), np.uint8)
    return ask("afs_survey", record)[NUMBER] == ACCEPTED


def _is_next(part: SealedPart, header: Header, parts: Sequence[SealedPart]) -> bool:
    is_there = part.plane < header.planes and 1 <= part.level <= header.coarsest
    is_later = not parts or part[:2] < parts[-1][:2]
    return is_there and is_later and part.bits <= header.most_bits


def _take_parts(lines: _Lines, header: Header) -> Tuple[SealedPart, ...]:
    parts: List[SealedPart] = []
    while True:
        line = lines.take(_PART_LINE)
        if line is None:
            return tuple(parts)
        plane, level, bits = _numbers_in(line, 3)
        part = SealedPart(plane, level, bits, line[4].decode("ascii"))
        if not _is_next(part, header, parts):
            raise OtherForm(lines.taken)
        parts.append(part)


def _take_seals(lines: _Lines) -> Tuple[Seal, ...]:
    seals: List[Seal] = []
    lines.need(_FIRST_LINE)
    while True:
        line = lines.take(_FILE_LINE)
        if line is None:
            lines.need(_LAST_LINE)
            return tuple(seals)
        name = _name_in(line)
        is_next = not seals or as_bytes(seals[-1].name) < as_bytes(name)
        if not is_next or "\0" in name:
            raise OtherForm(lines.taken)
        header = Header(*_numbers_in(lines.need(_RECORD_LINE), 4))
        if not _is_legal(header):
            raise OtherForm(lines.taken)
        seals.append(Seal(name, header, _take_parts(lines, header)))
        lines.need(_SEAL_LINE)


@lru_cache(maxsize=4)
def read_seals(text: bytes) -> Tuple[Seal, ...]:
    """From just the form in which they are written, the digests among it."""
    seals = _take_seals(_Lines(text))
    wanted = write_seals(seals)
    if text != wanted:
        same = 0
        while same < min(len(text), len(wanted)) and text[same] == wanted[same]:
            same += 1
        raise OtherForm(text.count(b"\n", 0, same) + 1)
    return seals
