"""What a caller hands in, as arrays that can be lent to the library.

What can be changed is copied, so that nobody writes to it while a call runs: the copy is
contiguous, aligned and of the type that the library takes. `bytes` can't be changed, and isn't
copied.
"""

from __future__ import annotations

import mmap
import operator
from typing import Any, SupportsIndex, Union

import numpy as np
from numpy.typing import NDArray

# Far more than any record, picture or pyramid has.
MOST_BYTES = 1 << 28
MOST_NUMBERS = 1 << 26
_WIDEST = (1 << 64) - 1

BytesLike = Union[bytes, bytearray, memoryview, mmap.mmap, NDArray[np.uint8]]


def number(what: str, given: SupportsIndex) -> int:
    """A whole number that the library can be given. Whether it is legal, the library judges."""
    try:
        value = operator.index(given)
    except TypeError:
        raise TypeError(f"{what} must be a whole number, not {_kind(given)}") from None
    if not 0 <= value <= _WIDEST:
        raise ValueError(f"{what} must be 0 to 2^64 - 1, not {value}")
    return value


def _kind(given: object) -> str:
    if isinstance(given, np.ndarray):
        return f"an array of {given.dtype} with {given.ndim} dimensions"
    return f"{type(given).__module__}.{type(given).__name__}".replace("builtins.", "")


def _plain_array(what: str, given: object, dimensions: int) -> NDArray[Any]:
    if not isinstance(given, np.ndarray):
        raise TypeError(f"{what} must be a numpy array, not {_kind(given)}")
    if isinstance(given, np.ma.MaskedArray):
        raise TypeError(f"{what} must not be a masked array: a record has no mask")
    if given.ndim != dimensions:
        raise ValueError(f"{what} must have {dimensions} dimensions, not {given.ndim}")
    if given.size > MOST_NUMBERS:
        raise ValueError(f"{what} has {given.size} numbers, far more than any that can be coded")
    return np.asarray(given)


def coefficients(given: object) -> NDArray[np.int32]:
    """Rows and columns of any integer type. Numbers beyond 32 bits stay far out of range."""
    plain = _plain_array("pyramid", given, 2)
    if plain.dtype.kind not in "iu":
        raise TypeError(f"pyramid must be of an integer type, not {plain.dtype}")
    limits = np.iinfo(np.int32)
    if not np.can_cast(plain.dtype, np.int32):
        plain = np.minimum(plain, limits.max)
        plain = np.maximum(plain, limits.min) if plain.dtype.kind == "i" else plain
    return np.array(plain, dtype=np.int32, order="C", copy=True)


def pixels(given: object) -> bytes:
    """Rows and columns of bytes, as a grey file."""
    plain = _plain_array("picture", given, 2)
    if plain.dtype != np.uint8:
        raise TypeError(f"picture must be of type uint8, not {plain.dtype}")
    height, width = plain.shape
    return b"P5\n%d %d\n255\n" % (width, height) + plain.tobytes()


def held_in(what: str, given: object) -> bytes:
    """Bytes, or what anything holds that has a row of them."""
    held = given if isinstance(given, bytes) else _copied(what, given)
    if len(held) > MOST_BYTES:
        raise ValueError(f"{what} has {len(held)} bytes, far more than any record or picture")
    return held


def octets(what: str, given: object) -> NDArray[np.uint8]:
    """The same as an array."""
    held = held_in(what, given)
    return np.frombuffer(held, np.uint8) if held else np.empty(0, np.uint8)


def _copied(what: str, given: object) -> bytes:
    if isinstance(given, np.ndarray):
        plain = _plain_array(what, given, 1)
        if plain.dtype != np.uint8:
            raise TypeError(f"{what} must be of type uint8, not {plain.dtype}")
        return plain.tobytes()
    try:
        view = memoryview(given)  # type: ignore[arg-type]
    except TypeError:
        raise TypeError(f"{what} must be bytes, or hold bytes, not {_kind(given)}") from None
    if view.format != "B" or view.ndim != 1:
        raise TypeError(
            f"{what} must hold a row of bytes, not {view.ndim} dimensions of {view.format!r}"
        )
    return view.tobytes()
