"""What is told of a record that is held against seals, in the words of the tool."""

from __future__ import annotations

from typing import Dict, Iterator, List, NamedTuple, Optional, Tuple

from ._matching import Matcher, Namesakes
from ._paths import full_path, plain_path
from ._seals import Seal, SealedPart
from ._verifying import Comparison, Reading, compare_with, missing_parts, other_parts

DONE, LACKS, UNCHECKED, CHANGED = 0, 3, 4, 5


class Judged(NamedTuple):
    """The record that it is to be, None if nobody says so; how many it may be by its name, where
    that doesn't tell it, else 0; and what it was held against, None if it is of no sealed one."""

    reading: Reading
    wanted: Optional[Seal]
    namesakes: int
    comparison: Optional[Comparison]

    @property
    def is_another(self) -> bool:
        """It is to be one record, and was held against another that it is of."""
        held_against = self.comparison.seal if self.comparison is not None else None
        return self.wanted is not None and self.wanted is not held_against

    @property
    def is_as_sealed(self) -> bool:
        """Every part that is there is as it was sealed, of the record that it is to be."""
        is_unchanged = self.comparison is not None and not self.comparison.is_changed
        return is_unchanged and self.namesakes == 0 and not self.is_another

    @property
    def kind(self) -> str:
        """The verdict in a word, as `afs verify --json` tells it."""
        if self.comparison is None:
            return "unknown"
        if self.comparison.is_changed:
            return "changed"
        if self.namesakes > 0:
            return "ambiguous"
        if self.is_another:
            return "another"
        return "whole" if self.comparison.is_whole else "selection"

    def status(self, wants_whole: bool) -> int:
        """What `afs verify` ends with."""
        if self.comparison is None or not self.is_as_sealed:
            return CHANGED
        if self.comparison.has_tail:
            return UNCHECKED
        return LACKS if wants_whole and not self.comparison.is_whole else DONE


def _candidates(matcher: Matcher, asked: Optional[str], path: Optional[str]) -> Namesakes:
    """By the record's name, unless one is asked for or there is one alone."""
    if asked is not None:
        return matcher.namesakes_of(plain_path(asked))
    if len(matcher.seals) == 1:
        return Namesakes(matcher.seals[0], 1)
    return Namesakes(None, 0) if path is None else matcher.namesakes_of(full_path(path))


def _compare_with_like(matcher: Matcher, reading: Reading) -> Optional[Comparison]:
    like = None if reading.found is None else matcher.seal_like(reading.found)
    return None if like is None else compare_with(like, reading)


def judge(matcher: Matcher, asked: Optional[str], path: Optional[str], reading: Reading) -> Judged:
    """Where the name isn't sealed, where it may stand for several, or where the record is unchanged
    of another one, it is held against the one that it is most like."""
    candidates = _candidates(matcher, asked, path)
    wanted = candidates.seal
    namesakes = candidates.many if candidates.many > 1 else 0
    if wanted is None:
        return Judged(reading, None, namesakes, _compare_with_like(matcher, reading))
    comparison = compare_with(wanted, reading)
    if comparison.is_changed:
        like = _compare_with_like(matcher, reading)
        comparison = comparison if like is None or like.is_changed else like
    return Judged(reading, wanted, namesakes, comparison)


def _front(judged: Judged, seal: Seal) -> str:
    """The record's name, and the sealed one's where that isn't the same."""
    name = judged.reading.name
    of = judged.wanted.name if judged.is_another and judged.wanted is not None else seal.name
    return f"{name}: " if plain_path(name) == plain_path(of) else f"{name}: of {of}: "


def _range(word: str, numbers: List[int]) -> str:
    least, most = min(numbers), max(numbers)
    return f"{word} {least}" if least == most else f"{word}s {least} to {most}"


def _selection(comparison: Comparison, found: Seal) -> str:
    """The least range of levels and planes that has all of them, and how many of the sealed parts
    are in it."""
    if not found.parts:
        return "a selection: the header alone"
    planes = [part.plane for part in found.parts]
    levels = [part.level for part in found.parts]
    inside = sum(
        min(planes) <= part.plane <= max(planes) and min(levels) <= part.level <= max(levels)
        for part in comparison.seal.parts
    )
    some = f"{len(found.parts)} of the {inside} parts of " if len(found.parts) < inside else ""
    return f"a selection: {some}{_range('level', levels)}, {_range('plane', planes)}"


def _unchanged(comparison: Comparison) -> str:
    found = comparison.reading.found
    is_whole = comparison.is_whole or found is None
    said = "whole" if is_whole or found is None else _selection(comparison, found)
    return said + ("; the tail isn't checked" if comparison.has_tail else "")


def _header_line(comparison: Comparison) -> Iterator[str]:
    found = comparison.reading.found
    if found is None or found.header == comparison.seal.header:
        return
    told, sealed = (" ".join(map(str, header)) for header in (found.header, comparison.seal.header))
    yield f"the header changed: it tells {told}, and {sealed} was sealed"


def _names(parts: List[SealedPart]) -> str:
    return ", ".join(f"({part.plane}, {part.level})" for part in parts)


def _fate(matcher: Matcher, comparison: Comparison, part: SealedPart) -> Tuple[bool, Optional[str]]:
    """Whether a part isn't of this record, and which other one it is of."""
    other = matcher.other_with(comparison.seal, part)
    is_foreign = comparison.seal.part(part.plane, part.level) is None
    return is_foreign or other is not None, None if other is None else other.name


def _part_lines(matcher: Matcher, comparison: Comparison) -> Iterator[str]:
    """One line for all parts with the same fate."""
    fates: Dict[Tuple[bool, Optional[str]], List[SealedPart]] = {}
    for part in other_parts(comparison):
        fates.setdefault(_fate(matcher, comparison, part), []).append(part)
    for (is_foreign, other), parts in fates.items():
        word, verb = ("part", "isn't") if len(parts) == 1 else ("parts", "aren't")
        said = f"{verb} of this record" if is_foreign else "changed"
        yield f"{word} {_names(parts)} {said}" + (f", but of {other}" if other is not None else "")


def _end_line(reading: Reading) -> Iterator[str]:
    if reading.refusal is not None:
        yield f"from byte {reading.behind} on it can't be read"
    elif reading.behind < len(reading.held):
        yield "the tail isn't of this record"


def _missing_line(comparison: Comparison) -> Iterator[str]:
    missing = missing_parts(comparison)
    if missing:
        yield f"missing: part {_names(missing)}"


def _which_line(judged: Judged, comparison: Comparison) -> str:
    """Which record it is, where it isn't the one that it is to be, or its name doesn't tell."""
    is_another = judged.is_another
    front = _front(judged, comparison.seal) if is_another else f"{judged.reading.name}: "
    said = []
    if not comparison.is_changed:
        said.append(f"is {comparison.seal.name}, {_unchanged(comparison)}")
    if judged.namesakes > 0:
        count = judged.namesakes
        said.append(f"by its name it may be any of {count} sealed records: --of tells which")
    return front + "; ".join(said)


def lines_of(matcher: Matcher, judged: Judged) -> List[str]:
    """What `afs verify` prints."""
    comparison = judged.comparison
    if comparison is None:
        return [f"{judged.reading.name}: isn't of any sealed record"]
    front = _front(judged, comparison.seal)
    if judged.is_as_sealed:
        return [front + _unchanged(comparison)]
    lines = []
    if judged.is_another or judged.namesakes > 0:
        lines.append(_which_line(judged, comparison))
    if comparison.is_changed:
        lines += [front + line for line in _header_line(comparison)]
        lines += [front + line for line in _part_lines(matcher, comparison)]
        lines += [front + line for line in _end_line(comparison.reading)]
        lines += [front + line for line in _missing_line(comparison)]
    return lines
