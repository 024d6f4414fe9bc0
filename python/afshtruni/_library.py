"""The shared library, found and loaded once, and its calls on arrays.

The library trusts its caller in one thing: that what it is lent is apart, aligned and written by
nobody else meanwhile. So only arrays that were made for one call are lent to it (`_lending`).
"""

from __future__ import annotations

import ctypes
import os
from functools import lru_cache
from typing import Any, Callable, List, Mapping, Tuple, Union

import numpy as np
from numpy.typing import NDArray

from . import _place
from ._answers import ACCEPTED, ANSWER_LENGTH, NAMES, NUMBER, PLACE
from ._refusal import Refusal

VARIABLE = "AFSHTRUNI_LIBRARY"

Answer = List[int]
Argument = Union[int, NDArray[Any]]

_SLICE = (ctypes.c_void_p, ctypes.c_size_t)
_WIDE = (ctypes.c_uint64,)

# What each call takes, in order; the answer, a slice, comes after it.
_CALLS: Mapping[str, Tuple[Tuple[Any, ...], ...]] = {
    "afs_code": (_SLICE, _WIDE, _WIDE, _WIDE, _SLICE, _SLICE),
    "afs_serve": (_SLICE, _WIDE, _WIDE, _SLICE),
    "afs_join": (_SLICE, _SLICE, _SLICE),
    "afs_survey": (_SLICE,),
    "afs_decode": (_SLICE, _SLICE, _SLICE),
    "afs_grey_size": (_SLICE,),
    "afs_grey_in": (_SLICE, _WIDE, _SLICE, _SLICE),
    "afs_grey_out": (_SLICE, _WIDE, _WIDE, _WIDE, _SLICE, _SLICE),
}


@lru_cache(maxsize=1)
def _load(path: str) -> ctypes.CDLL:
    try:
        return ctypes.CDLL(path)
    except OSError as error:
        raise OSError(
            f"the library can't be loaded: {error}. It is for x86-64; 'make -C host library' makes"
            f" it for the source tree, and the environment variable {VARIABLE} names another file."
        ) from error


def _library() -> ctypes.CDLL:
    return _load(os.environ.get(VARIABLE) or _place.LIBRARY)


def _exported(name: str) -> Any:
    function = getattr(_library(), name, None)
    if function is None:
        raise NotImplementedError(f"this libafshtruni has no {name}()")
    function.argtypes = [kind for taken in (*_CALLS[name], _SLICE) for kind in taken]
    function.restype = ctypes.c_uint64
    return function


def _passed(argument: Argument) -> Tuple[Any, ...]:
    if isinstance(argument, np.ndarray):
        assert argument.flags.c_contiguous and argument.flags.aligned
        return (argument.ctypes.data if argument.size else None, argument.size)
    return (argument,)


def ask(name: str, *arguments: Argument) -> Answer:
    """Calls the library with numbers and arrays, and gives back its answer, refused or not."""
    answer = np.zeros(ANSWER_LENGTH, np.uint64)
    passed = [value for argument in (*arguments, answer) for value in _passed(argument)]
    _exported(name)(*passed)
    return [int(number) for number in answer]


def call(name: str, *arguments: Argument, why: Callable[[int, int], str]) -> Answer:
    """The same, but raises `Refusal` where the answer is one; `why` has the words for it, by its
    number and place."""
    answer = ask(name, *arguments)
    number, place = answer[NUMBER], answer[PLACE]
    if number != ACCEPTED:
        raise Refusal(number, place, why(number, place) if number in NAMES else None)
    return answer
