"""What the calls give back."""

from __future__ import annotations

from dataclasses import dataclass
from typing import Any, NamedTuple, Optional, Sequence, Tuple

import numpy as np
from numpy.typing import NDArray

FARTHEST = 255


def added_by(reached: Sequence[int], level: int) -> int:
    """What a level adds to the bound of the law pixel_near, by the reached planes of levels 1 to
    N + 1."""
    plane = reached[level - 1]
    if level == len(reached):
        return (1 << plane) - 1
    return 3 << plane if plane > 0 else 0


def farthest_pixel(reached: Sequence[int], halvings: int) -> int:
    """That bound: of the picture halved so many times the levels over these count."""
    levels = range(halvings + 1, len(reached) + 1)
    return min(sum(added_by(reached, level) for level in levels), FARTHEST)


def _as_array(held: NDArray[Any], dtype: Any, copy: Optional[bool]) -> NDArray[Any]:
    """What numpy asks for; before its version 2 it doesn't tell whether to copy."""
    if copy is None:
        return np.asarray(held, dtype)
    if copy is False and dtype is not None and np.dtype(dtype) != held.dtype:
        raise ValueError(f"numbers of {held.dtype} can't be seen as {np.dtype(dtype)} uncopied")
    return np.array(held, dtype, copy=copy)


@dataclass(frozen=True, eq=False)
class Pyramid:
    """The coefficients of a picture's wavelet transform; numpy takes it as the array of them.

    coefficients    whole numbers, rows by columns, the coarse ones in the top left corner
    decompositions  N, how many times the picture was halved for them, 1 to 5
    """

    coefficients: NDArray[np.int32]
    decompositions: int

    def __array__(self, dtype: Any = None, copy: Optional[bool] = None) -> NDArray[Any]:
        return _as_array(self.coefficients, dtype, copy)


@dataclass(frozen=True, eq=False)
class Decoded(Pyramid):
    """A pyramid made of the parts of a record that are there, and how far it got.

    planes   how many planes the record's header tells
    reached  for each level, level 1 first, the lowest plane that could be used, or `planes` where
             none could: a coefficient of that level is less than 2^m from the recorded one, where
             m is its reached plane; it has no greater magnitude, and the same sign unless it is 0
    skipped  for each level how many of its parts are there whole and couldn't be used, as one that
             they build on is missing: used and skipped parts are all that are there
    tail     bytes at the record's end that are no whole part; where its head is there and all that
             it builds on, it was used as far as its bits go, which `reached` doesn't count
    """

    planes: int
    reached: Tuple[int, ...]
    skipped: Tuple[int, ...]
    tail: int

    @property
    def is_whole(self) -> bool:
        """Whether every part was used, and nothing stands behind them."""
        return not any(self.reached) and self.tail == 0

    @property
    def pixel_bound(self) -> int:
        """How many grey values a pixel printed of this may be from the recorded one, at most.

        Proved as pixel_near, for records that were made of a picture and of which whole parts were
        left out or lost, or the end was cut off; not where a byte inside a part was changed.
        """
        return farthest_pixel(self.reached, 0)

    @property
    def pixel_bounds(self) -> Tuple[int, ...]:
        """The same for the picture itself, then for each halving of it that can be printed."""
        return tuple(farthest_pixel(self.reached, s) for s in range(self.decompositions))


class Survey(NamedTuple):
    """What a record holds: its header, how many whole parts, and the bytes of a cut one."""

    width: int
    height: int
    decompositions: int
    planes: int
    parts: int
    tail: int


class Part(NamedTuple):
    """A part of a record: `record[offset:offset + length]`, a head and then `bits` in bytes."""

    plane: int
    level: int
    bits: int
    offset: int
    length: int


class Picture(NamedTuple):
    """A grey picture; numpy takes it as the array of its pixels.

    pixels   rows by columns
    clipped  how many of them were set to 0 or 255, as they had come out under 0 or over 255
    note     what contradicts the bound that was told, else None: all of a record is there, and of a
             picture no pixel comes out so, so the record was changed, or made of no picture
    """

    pixels: NDArray[np.uint8]
    clipped: int
    note: Optional[str] = None

    def __array__(self, dtype: Any = None, copy: Optional[bool] = None) -> NDArray[Any]:
        return _as_array(self.pixels, dtype, copy)
