"""The format for imageio: pictures come back as they were, and what lacks is told."""

from __future__ import annotations

import warnings
from pathlib import Path

import numpy as np
import pytest

import afshtruni
from conftest import SAMPLE

imageio = pytest.importorskip("imageio")

import afshtruni.imageio  # noqa: E402


def test_pictures_come_back(tmp_path: Path) -> None:
    pixels = np.random.default_rng(8).integers(0, 256, (64, 96)).astype(np.uint8)
    for name in ("job.record", "JOB.RECORD"):
        file = tmp_path / name
        imageio.imwrite(file, pixels)
        assert file.read_bytes() == afshtruni.code(pixels)
        with warnings.catch_warnings():
            warnings.simplefilter("error")
            read = imageio.imread(file)
        assert read.dtype == np.uint8 and np.array_equal(read, pixels)
        assert read.meta["pixel_bound"] == read.meta["clipped"] == 0


def test_decompositions_and_halvings(tmp_path: Path) -> None:
    file = tmp_path / "job.record"
    pixels = imageio.imread(SAMPLE)
    imageio.imwrite(file, pixels, decompositions=2)
    assert file.read_bytes() == afshtruni.code(pixels, 2)
    wanted = afshtruni.write_picture(afshtruni.read_picture(pixels, 2), halvings=1).pixels
    assert np.array_equal(imageio.imread(file, halvings=1), wanted)


def test_what_lacks_is_told(record: bytes, tmp_path: Path) -> None:
    file = tmp_path / "cut.record"
    file.write_bytes(record[:2000])
    decoded = afshtruni.decode(record[:2000])
    said = f"at most {decoded.pixel_bound} grey values from the recorded one"
    with pytest.warns(afshtruni.Note, match=said) as noted:
        read = imageio.imread(file)
    assert noted[0].filename == __file__
    assert np.array_equal(read, afshtruni.write_picture(decoded))
    told = read.meta
    assert (told["reached"], told["tail"]) == (decoded.reached, decoded.tail)
    assert told["pixel_bound"] == decoded.pixel_bound


def test_what_is_no_record_is_refused(tmp_path: Path) -> None:
    file = tmp_path / "no.record"
    file.write_bytes(b"\x02")
    with pytest.raises(afshtruni.Refusal, match="refused 7 VERSION"):
        imageio.imread(file)


@pytest.mark.parametrize(
    "pixels, error",
    [
        (np.zeros((8, 8), np.int32), TypeError),
        (np.zeros((8, 8), np.uint16), TypeError),
        (np.zeros((8, 8, 3), np.uint8), ValueError),
        (np.zeros((8, 10), np.uint8), afshtruni.Refusal),
    ],
)
def test_what_is_not_taken_is_not_written(
    pixels: "np.ndarray[int, np.dtype[np.int64]]", error: type, tmp_path: Path
) -> None:
    file = tmp_path / "job.record"
    with pytest.raises(error):
        imageio.imwrite(file, pixels)
    assert not file.exists()


def test_a_record_has_one_picture(tmp_path: Path) -> None:
    pixels = np.zeros((8, 8), np.uint8)
    with imageio.get_writer(tmp_path / "job.record", mode="i") as writer:
        writer.append_data(pixels)
        with pytest.raises(RuntimeError, match="a record has one picture"):
            writer.append_data(pixels)
        with pytest.raises(RuntimeError, match="no place for meta data"):
            writer.set_meta_data({})
    with imageio.get_reader(tmp_path / "job.record") as reader:
        assert len(reader) == 1
        assert reader.get_meta_data()["planes"] == 0
        with pytest.raises(IndexError):
            reader.get_data(1)
