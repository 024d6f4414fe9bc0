"""What is raised where a call refuses."""

from __future__ import annotations

from typing import Optional

from ._answers import CAUSES, NAMES


class Refusal(ValueError):
    """A call of the library refused what it was given.

    number  what it answered, 1 to 15: a number means the same in every call and never changes
    name    what `afshtruni.h` calls it, without `AFS_`: "SIZE", "PART" and so on
    place   an offset in the record, or an index in the pyramid row by row, or 0
    why     what is wrong, and what would be legal: in the words of `afs`
    """

    number: int
    name: str
    place: int
    why: str

    def __init__(self, number: int, place: int, why: Optional[str] = None) -> None:
        super().__init__(number, place, why)
        self.number = number
        self.name = NAMES.get(number, "UNKNOWN")
        self.place = place
        cause = CAUSES.get(number, "for a cause that this version doesn't know")
        self.why = cause if why is None else why

    def __str__(self) -> str:
        return f"refused {self.number} {self.name} at {self.place}: {self.why}"
