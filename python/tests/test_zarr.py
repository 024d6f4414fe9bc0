"""The codec for numcodecs: chunks of zarr's come back as they were, or are refused."""

from __future__ import annotations

import json
from importlib import metadata
from pathlib import Path
from typing import Any

import numpy as np
import pytest

import afshtruni

numcodecs = pytest.importorskip("numcodecs")
zarr = pytest.importorskip("zarr")

from afshtruni.numcodecs import Afshtruni  # noqa: E402
from conftest import TREE  # noqa: E402
from test_library import run_python  # noqa: E402




def _pixels(*shape: int) -> "np.ndarray[Any, Any]":
    """Smooth with a few steps, as a waterfall is, and noise in a corner."""
    rows, columns = np.indices(shape[-2:])
    smooth = 127 + 120 * np.sin(rows / 37) * np.cos(columns / 53)
    noise = np.random.default_rng(37).integers(0, 256, shape)
    return np.where((rows < 90) & (columns < 70), noise, smooth).astype(np.uint8)


@pytest.mark.parametrize("order", ["C", "F"])
@pytest.mark.parametrize("chunks", [(256, 256), (128, 512), (64, 32)])
def test_an_array_of_any_size(tmp_path: Path, order: str, chunks: "tuple[int, int]") -> None:
    pixels = _pixels(1001, 601)
    place = str(tmp_path / "kept.zarr")
    kept = zarr.open(
        place, "w", shape=pixels.shape, chunks=chunks, dtype="u1", order=order,
        compressor=Afshtruni(),
    )
    kept[:] = pixels
    again = zarr.open(place, "r")
    assert again.compressor == Afshtruni()
    assert np.array_equal(again[:], pixels)
    assert np.array_equal(again[300:777, 5:600:7], pixels[300:777, 5:600:7])
    assert again.nbytes_stored < pixels.nbytes


def test_a_stack_of_pictures() -> None:
    pixels = _pixels(3, 100, 70)
    kept = zarr.array(pixels, chunks=(1, 64, 64), compressor=Afshtruni(2))
    kept[1, 50:60] = 7
    pixels[1, 50:60] = 7
    assert np.array_equal(kept[:], pixels)


def test_a_chunk_is_a_record() -> None:
    pixels = _pixels(64, 128)
    record = Afshtruni().encode(pixels)
    assert record == afshtruni.code(pixels)
    out = np.empty_like(pixels)
    assert Afshtruni().decode(record, out) is out
    assert np.array_equal(out, pixels)
    assert np.array_equal(Afshtruni().decode(record), pixels.ravel())


def test_columns_in_memory() -> None:
    pixels = np.asfortranarray(_pixels(64, 128))
    out = np.empty_like(pixels, order="F")
    Afshtruni().decode(Afshtruni().encode(pixels), out)
    assert np.array_equal(out, pixels)


def test_the_name_is_known() -> None:
    config = {"id": "afshtruni", "decompositions": 3}
    codec = numcodecs.get_codec(config)
    assert (codec, codec.get_config()) == (Afshtruni(3), config)
    assert json.loads(json.dumps(config)) == config


def test_the_name_is_found() -> None:
    """Where the package has metadata that names it: not in the source tree."""
    try:
        version = metadata.version("afshtruni")
    except metadata.PackageNotFoundError:
        assert Path(afshtruni.__file__).resolve().is_relative_to(TREE)
        pytest.skip("not installed as a distribution")
    assert version == afshtruni.__version__
    ended = run_python("import numcodecs; print(numcodecs.get_codec({'id': 'afshtruni'}))")
    assert (ended.stdout, ended.stderr) == ("Afshtruni(decompositions=None)\n", "")


def test_a_chunk_that_is_not_whole_is_refused() -> None:
    pixels = _pixels(64, 64)
    record = afshtruni.code(pixels)
    for lacking in (record[:-1], record[:500], afshtruni.serve(record, plane=1)):
        with pytest.raises(ValueError, match="isn't the whole record of a picture"):
            Afshtruni().decode(lacking)
    no_picture = afshtruni.code(np.full((8, 8), 300, np.int32), 1)
    with pytest.raises(ValueError, match="isn't the whole record of a picture"):
        Afshtruni().decode(no_picture)
    with pytest.raises(afshtruni.Refusal, match="refused 6 HEAD at 0"):
        Afshtruni().decode(b"")


@pytest.mark.parametrize(
    "chunk, error, said",
    [
        (np.zeros((8, 8), np.int32), TypeError, "must be of type uint8, not int32"),
        (np.zeros((8, 8), bool), TypeError, "must be of type uint8, not bool"),
        (bytes(64), ValueError, "must be rows and columns"),
        (np.zeros(64, np.uint8), ValueError, "must be rows and columns"),
        (np.zeros((2, 8, 8), np.uint8), ValueError, "must be rows and columns"),
        (np.zeros((8, 10), np.uint8), afshtruni.Refusal, "refused 1 SIZE"),
    ],
)
def test_chunks_that_are_not_taken(chunk: Any, error: type, said: str) -> None:
    with pytest.raises(error, match=said):
        Afshtruni().encode(chunk)
