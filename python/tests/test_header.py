"""Layouts, names and version are the header's. This needs no library."""

from __future__ import annotations

import re
from typing import Dict

import pytest

import afshtruni
from afshtruni import _answers
from conftest import TREE

HEADER = (TREE / "host" / "afshtruni.h").read_text("ascii")
CONSTANTS: Dict[str, int] = {
    name: int(value) for name, value in re.findall(r"^ +AFS_(\w+) = (\d+)", HEADER, re.MULTILINE)
}
LAYOUTS = {
    "CODED": _answers.CODED,
    "SERVED": _answers.SERVED,
    "JOINED": _answers.JOINED,
    "SURVEYED": _answers.SURVEYED,
    "DECODED": _answers.DECODED,
    "GREY_READ": _answers.GREY_READ,
    "GREY_WRITTEN": _answers.GREY_WRITTEN,
}


@pytest.mark.parametrize("name", LAYOUTS)
def test_layout_is_the_headers(name: str) -> None:
    prefix = name + "_"
    places = {k[len(prefix) :]: v for k, v in CONSTANTS.items() if k.startswith(prefix)}
    length = places.pop("NUMBERS")
    assert places == {"NUMBER": _answers.NUMBER, "PLACE": _answers.PLACE, **LAYOUTS[name]}
    assert length <= _answers.ANSWER_LENGTH


def test_a_decoded_answer_has_places_for_levels() -> None:
    places = CONSTANTS["LEVEL_PLACES"]
    assert places == _answers.LEVEL_PLACES
    assert _answers.DECODED["SKIPPED"] == _answers.DECODED["REACHED"] + places
    assert CONSTANTS["DECODED_NUMBERS"] == _answers.DECODED["SKIPPED"] + places


def test_names_are_the_headers() -> None:
    ours = {name: number for number, name in _answers.NAMES.items()}
    single = {name: value for name, value in CONSTANTS.items() if "_" not in name}
    assert single.pop("ACCEPTED") == _answers.ACCEPTED
    assert single == ours


def test_every_number_has_a_cause() -> None:
    assert set(_answers.CAUSES) == set(_answers.NAMES)


def test_version_is_the_headers() -> None:
    defined = re.findall(r"#define AFS_VERSION_\w+ (\d+)", HEADER)
    assert afshtruni.__version__ == ".".join(defined)


def test_every_public_name_has_a_docstring() -> None:
    for name in afshtruni.__all__:
        assert getattr(afshtruni, name).__doc__
        assert name.startswith("__") or name in str(afshtruni.__doc__) or name[0].isupper()
