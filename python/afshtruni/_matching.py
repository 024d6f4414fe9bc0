"""Which of the sealed records a file is to be."""

from __future__ import annotations

from functools import lru_cache
from typing import Dict, List, NamedTuple, Optional, Tuple

from ._paths import components_of, plain_path, same_at_end
from ._seals import Seal, SealedPart, read_seals

# Parts with fewer bits may well be the same in any two records.
_BITS_OF_NO_CHANCE = 64


class Namesakes(NamedTuple):
    """Which sealed records a path may stand for: the only one, or the one that agrees with it in
    all that its name has, or None; and how many there are, 1 where one is told."""

    seal: Optional[Seal]
    many: int


def has_same(seal: Seal, part: SealedPart) -> bool:
    """Whether a seal has a part just like this one."""
    return seal.part(part.plane, part.level) == part


class Matcher:
    """Of seals that are sorted by name."""

    def __init__(self, seals: Tuple[Seal, ...]) -> None:
        self.seals = seals
        self._by_last_name: Dict[str, List[Tuple[Tuple[str, ...], Seal]]] = {}
        self._by_digest: Dict[str, List[Seal]] = {}
        for seal in seals:
            components = components_of(plain_path(seal.name))
            for last in components[-1:]:
                self._by_last_name.setdefault(last, []).append((components, seal))
            for part in seal.parts:
                self._by_digest.setdefault(part.digest, []).append(seal)

    def namesakes_of(self, path: str) -> Namesakes:
        """Those that agree with a plain path in most components, from the last one on."""
        components = components_of(path)
        named = self._by_last_name.get(components[-1], []) if components else []
        most = max((same_at_end(components, other) for other, _ in named), default=0)
        agreeing = [pair for pair in named if same_at_end(components, pair[0]) == most]
        all_of_it = [seal for other, seal in agreeing if len(other) == most]
        if len(agreeing) == 1 or all_of_it:
            return Namesakes(all_of_it[0] if all_of_it else agreeing[0][1], 1)
        return Namesakes(None, len(agreeing))

    def seal_like(self, found: Seal) -> Optional[Seal]:
        """The one that has most parts just like these, the longest among them; or None."""
        for part in sorted(found.parts, key=lambda part: -part.bits):
            alike = self._by_digest.get(part.digest, [])
            if alike:
                return max(alike, key=lambda seal: sum(has_same(seal, p) for p in found.parts))
        if found.parts:
            return None
        return next((seal for seal in self.seals if seal.header == found.header), None)

    def other_with(self, seal: Seal, part: SealedPart) -> Optional[Seal]:
        """One other than this that has a part just like it, so long that this is no chance."""
        if part.bits < _BITS_OF_NO_CHANCE:
            return None
        alike = self._by_digest.get(part.digest, [])
        return next((other for other in alike if other is not seal), None)


@lru_cache(maxsize=4)
def matcher_of(text: bytes) -> Matcher:
    """Of seals as a text: made once for many files that are held against them."""
    return Matcher(read_seals(text))
