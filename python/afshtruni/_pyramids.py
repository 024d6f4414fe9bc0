"""What coding, decoding and pictures share: the coefficients that are lent, and a workspace."""

from __future__ import annotations

from typing import Any, Optional, Tuple, Union

import numpy as np
from numpy.typing import NDArray

from ._lending import coefficients, number
from ._values import Pyramid

_WORK_PER_COEFFICIENT = 4


def workspace(count: int) -> NDArray[np.uint32]:
    """What coding and decoding need for so many coefficients, and reading and writing pictures."""
    return np.empty(_WORK_PER_COEFFICIENT * count, np.uint32)


def is_picture(given: object) -> bool:
    """An array of bytes by itself is pixels: coefficients of that type are told by a `Pyramid`."""
    return isinstance(given, np.ndarray) and given.dtype == np.uint8 and given.ndim == 2


def taken_apart(
    pyramid: Union[Pyramid, NDArray[Any]], decompositions: Optional[int]
) -> Tuple[NDArray[np.int32], int]:
    """The coefficients to lend, and N."""
    if isinstance(pyramid, Pyramid):
        if decompositions is not None:
            raise TypeError("decompositions must not be given with a Pyramid, which has its own")
        decompositions = pyramid.decompositions
        return coefficients(pyramid.coefficients), number("decompositions", decompositions)
    if is_picture(pyramid):
        raise TypeError(
            "an array of uint8 is a picture; where its numbers are coefficients, hand in"
            " Pyramid(array, decompositions)"
        )
    lent = coefficients(pyramid)
    if decompositions is None:
        raise TypeError("decompositions must be given with an array of coefficients")
    return lent, number("decompositions", decompositions)
