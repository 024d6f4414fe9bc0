"""A codec for numcodecs, and so for zarr: each chunk is the record of a picture.

SYNOPSIS
    import zarr
    from afshtruni.numcodecs import Afshtruni

    kept = zarr.open("waterfall.zarr", "w", shape=(1001, 601), chunks=(256, 256), dtype="u1",
                     compressor=Afshtruni())
    kept[:] = pixels

DESCRIPTION
    An array of any size is stored by chunks, whose sides must be legal: rows and columns as in
    `afshtruni.read_picture`. Leading dimensions of a chunk must be 1, as of (1, 256, 256). What
    comes back is exact. A chunk that isn't whole is refused, whatever could be decoded of it.

    Where the package is installed, numcodecs finds the codec by its name, "afshtruni". In a source
    tree it knows it once this module is imported.
"""

from __future__ import annotations

from typing import Any, Optional

import numpy as np
from numcodecs.abc import Codec
from numcodecs.compat import ensure_bytes, ensure_ndarray, ndarray_copy
from numcodecs.registry import register_codec
from numpy.typing import NDArray

from ._pictures import printed
from ._records import code, decode

__all__ = ["Afshtruni"]


def _picture_of(chunk: NDArray[Any]) -> NDArray[np.uint8]:
    """Of columns that lie in memory one by one each is a row, as codecs take it: decoding knows the
    order in memory alone."""
    if chunk.dtype != np.uint8:
        raise TypeError(f"chunks must be of type uint8, not {chunk.dtype}")
    if chunk.ndim < 2 or set(chunk.shape[:-2]) - {1}:
        raise ValueError(f"chunks must be rows and columns, as (256, 256), not {chunk.shape}")
    rows = chunk.reshape(chunk.shape[-2:])
    return rows if rows.flags.c_contiguous or not rows.flags.f_contiguous else rows.T


class Afshtruni(Codec):
    """Codes chunks of uint8 as the records of pictures.

    decompositions  N, as in `afshtruni.read_picture`
    """

    codec_id = "afshtruni"

    def __init__(self, decompositions: Optional[int] = None) -> None:
        self.decompositions = decompositions

    def encode(self, buf: Any) -> bytes:
        """The record of a chunk. Raises as `afshtruni.read_picture` does."""
        return code(_picture_of(ensure_ndarray(buf)), self.decompositions)

    def decode(self, buf: Any, out: Any = None) -> Any:
        """The chunk of a record, row by row. Raises ValueError where it isn't whole."""
        decoded = decode(ensure_bytes(buf))
        picture, _ = printed(decoded)
        if picture.clipped > 0 or not decoded.is_whole:
            raise ValueError("the chunk isn't the whole record of a picture")
        return ndarray_copy(picture.pixels.reshape(-1), out)


register_codec(Afshtruni)
