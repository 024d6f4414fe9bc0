"""A format for imageio: files that end in .record are read and written as grey pictures.

SYNOPSIS
    import imageio
    import afshtruni.imageio

    imageio.imwrite("job.record", pixels)
    picture = imageio.imread("arrived.record")
    picture.meta["pixel_bound"]

DESCRIPTION
    Importing this module makes the format known. A record that lacks parts is read as far as its
    parts go; what lacks is told by a warning, `afshtruni.Note`, and in the picture's `meta`.
"""

from __future__ import annotations

import warnings
from typing import Any, Dict, Optional, Tuple

import numpy as np
from imageio import formats
from imageio.core import Format
from numpy.typing import NDArray

from ._notes import OF_NO_PICTURE, Note, told_bound
from ._pictures import is_of_no_picture, printed, read_picture
from ._records import code, decode
from ._values import Decoded, Picture

__all__ = ["RecordFormat"]

_LEVELS_TO_CALLER = 6  # of imageio.imread()


def _told(decoded: Decoded, picture: Picture, halvings: int) -> Dict[str, Any]:
    return {
        "decompositions": decoded.decompositions,
        "planes": decoded.planes,
        "reached": decoded.reached,
        "skipped": decoded.skipped,
        "tail": decoded.tail,
        "pixel_bound": decoded.pixel_bounds[halvings],
        "clipped": picture.clipped,
    }


class RecordFormat(Format):
    """Layered records of grey pictures.

    Parameters for reading
    ----------------------
    halvings : int
        How many times the picture is to be halved, less than N. Default 0.

    Parameters for saving
    ---------------------
    decompositions : int
        N, as in `afshtruni.read_picture`, which chooses it by default.
    """

    def _can_read(self, request: Any) -> bool:
        return request.extension in self.extensions

    def _can_write(self, request: Any) -> bool:
        return request.extension in self.extensions

    class Reader(Format.Reader):
        """A record has one picture."""

        def _open(self, halvings: int = 0) -> None:
            decoded = decode(self.request.get_file().read())
            picture, _ = printed(decoded, halvings=halvings)
            self._pixels = picture.pixels
            self._meta = _told(decoded, picture, halvings)
            if self._meta["pixel_bound"] > 0:
                said = told_bound(self._meta["pixel_bound"])
                warnings.warn(Note(said), stacklevel=_LEVELS_TO_CALLER)
            if is_of_no_picture(decoded, picture, halvings):
                warnings.warn(Note(f"the record {OF_NO_PICTURE}"), stacklevel=_LEVELS_TO_CALLER)

        def _close(self) -> None:
            pass

        def _get_length(self) -> int:
            return 1

        def _get_data(self, index: int) -> Tuple[NDArray[np.uint8], Dict[str, Any]]:
            if index != 0:
                raise IndexError("a record has one picture")
            return self._pixels, self._meta

        def _get_meta_data(self, index: Optional[int]) -> Dict[str, Any]:
            return self._meta

    class Writer(Format.Writer):
        """A record has one picture."""

        def _open(self, decompositions: Optional[int] = None) -> None:
            self._decompositions = decompositions
            self._is_written = False

        def _close(self) -> None:
            pass

        def _append_data(self, im: NDArray[Any], meta: Dict[str, Any]) -> None:
            if self._is_written:
                raise RuntimeError("a record has one picture")
            record = code(read_picture(np.asarray(im), self._decompositions))
            self.request.get_file().write(record)
            self._is_written = True

        def set_meta_data(self, meta: Dict[str, Any]) -> None:
            """A record has no place for it."""
            raise RuntimeError("a record has no place for meta data")


formats.add_format(
    RecordFormat("AFSHTRUNI", "Layered records of grey pictures", "record", "i"), overwrite=True
)
