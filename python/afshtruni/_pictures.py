"""Grey pictures: made into pyramids, and made of them."""

from __future__ import annotations

import os
import warnings
from pathlib import Path
from typing import Any, Optional, Tuple, Union

import numpy as np
from numpy.typing import NDArray

from ._answers import GREY_READ, GREY_WRITTEN, NAMES
from ._grey_words import why_not_grey
from ._layout import Header
from ._lending import MOST_NUMBERS, BytesLike, number, octets, pixels
from ._library import call
from ._limits import GREATEST_PRINTED
from ._notes import OF_NO_PICTURE, Note
from ._pyramids import taken_apart, workspace
from ._values import Decoded, Picture, Pyramid
from ._words import TOO_SHORT, is_side, why_halvings, why_picture, why_range, why_size

_MOST_DECOMPOSITIONS = 5
_LONGEST_HEADER = 15

FileName = Union[str, "os.PathLike[str]"]


def _grey_file(picture: object) -> NDArray[np.uint8]:
    if isinstance(picture, (str, os.PathLike)):
        return octets("picture", Path(picture).read_bytes())
    if isinstance(picture, np.ndarray) and picture.ndim != 1:
        return octets("picture", pixels(picture))
    return octets("picture", picture)


def _most_decompositions(width: int, height: int) -> int:
    """As many as the sides allow, or 1, which is refused then."""
    for halvings in range(_MOST_DECOMPOSITIONS, 1, -1):
        if is_side(width, halvings) and is_side(height, halvings):
            return halvings
    return 1


def read_picture(
    picture: Union[FileName, BytesLike, NDArray[np.uint8]], decompositions: Optional[int] = None
) -> Pyramid:
    """Makes the pyramid of a grey picture, from which every pixel comes back as it was.

    picture         the name of a binary grey file of Netpbm's (P5, maxval 255), the bytes of one,
                    or an array of uint8, rows by columns: 4 to 512 each, multiples of 2^(N+1)
    decompositions  N, 1 to 5; without it as many as the sides allow

    Refuses with 1 SIZE or 13 GREY.
    """
    file = _grey_file(picture)
    size = call("afs_grey_size", file, why=lambda *_: why_not_grey(file.tobytes()))
    width, height = size[GREY_READ["WIDTH"]], size[GREY_READ["HEIGHT"]]
    is_asked = decompositions is not None
    if decompositions is None:
        decompositions = _most_decompositions(width, height)
    halvings = number("decompositions", decompositions)
    # A picture has no more pixels than its file has bytes, unless a side is 0.
    out = np.empty((height, width) if 0 < width * height <= MOST_NUMBERS else (0, 0), np.int32)
    sizes = Header(width, height, halvings, 0)
    call(
        "afs_grey_in", file, halvings, out, workspace(out.size),
        why=lambda *_: why_picture(sizes, is_asked),
    )
    return Pyramid(out, halvings)


def _why_not_printed(
    whole: NDArray[np.int32], total: int, halved: int, name: str, index: int
) -> str:
    height, width = whole.shape
    if name == "SIZE" and 0 < total <= halved:
        return why_halvings(halved, total)
    if name == "SIZE":
        return why_size(Header(width, height, total, 0))
    if name == "RANGE":
        return why_range(whole[: height >> halved, : width >> halved], index, GREATEST_PRINTED)
    return TOO_SHORT


def printed(
    pyramid: Union[Pyramid, NDArray[Any]], decompositions: Optional[int] = None, halvings: int = 0
) -> Tuple[Picture, NDArray[np.uint8]]:
    """The picture of a pyramid, without a note, and its grey file."""
    whole, total = taken_apart(pyramid, decompositions)
    halved = number("halvings", halvings)
    left = max(total - halved, 0)
    height, width = (side >> halved if left else 0 for side in whole.shape)
    block = np.ascontiguousarray(whole[:height, :width])
    out = np.empty(block.size + _LONGEST_HEADER, np.uint8)

    def why(refusal: int, index: int) -> str:
        return _why_not_printed(whole, total, halved, NAMES[refusal], index)

    answer = call("afs_grey_out", block, width, height, left, out, workspace(block.size), why=why)
    file = out[: answer[GREY_WRITTEN["LENGTH"]]]
    rows = file[file.size - block.size :].reshape(height, width).copy()
    return Picture(rows, answer[GREY_WRITTEN["CLIPPED"]]), file


def is_of_no_picture(pyramid: object, picture: Picture, halvings: int) -> bool:
    """Whether a record was changed, or made of no picture: all of it is there, and pixels come out
    under 0 or over 255. Halved ones may have such pixels, so the picture itself is looked at."""
    if not isinstance(pyramid, Decoded) or pyramid.pixel_bound > 0:
        return False
    return (picture if halvings == 0 else printed(pyramid)[0]).clipped > 0


def write_picture(
    pyramid: Union[Pyramid, NDArray[Any]],
    file: Optional[FileName] = None,
    *,
    decompositions: Optional[int] = None,
    halvings: int = 0,
) -> Picture:
    """Makes the grey picture of a pyramid, and writes it to a file where one is named.

    pyramid         what `decode` or `read_picture` gave, or an array of any integer type but uint8,
                    rows by columns, with no magnitude over 131071
    file            the name of the binary grey file (P5, maxval 255) to write, if any
    decompositions  N, 1 to 5, where `pyramid` is an array
    halvings        how many times the picture is to be halved, less than N

    The result has `pixels`, an array of uint8, and `clipped`, how many of them had come out under 0
    or over 255. Where that shows that the record was changed, or made of no picture, `note` says
    so, and a warning, `Note`. Refuses with 1 SIZE or 4 RANGE.
    """
    picture, written = printed(pyramid, decompositions, halvings)
    if file is not None:
        Path(file).write_bytes(written.tobytes())
    if is_of_no_picture(pyramid, picture, halvings):
        picture = picture._replace(note=OF_NO_PICTURE)
        warnings.warn(Note(f"the record {OF_NO_PICTURE}"), stacklevel=2)
    return picture
