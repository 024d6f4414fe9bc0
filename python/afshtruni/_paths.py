"""Names of files as paths, taken by their words: no link is followed."""

from __future__ import annotations

import os
from typing import List, Tuple


def plain_path(path: str) -> str:
    """Without empty components and '.', and without a component before '..'."""
    root = "/" if path.startswith("/") else ""
    plain: List[str] = []
    for component in path.split("/"):
        if component == ".." and plain and plain[-1] != "..":
            plain.pop()
        elif component not in ("", ".") and (component != ".." or not root):
            plain.append(component)
    return root + "/".join(plain)


def full_path(path: str) -> str:
    """The same from the root on, where the working folder has a name."""
    try:
        folder = "" if path.startswith("/") else os.getcwd() + "/"
    except OSError:
        folder = ""
    return plain_path(folder + path)


def components_of(plain: str) -> Tuple[str, ...]:
    """Of a plain path."""
    return tuple(component for component in plain.split("/") if component)


def same_at_end(one: Tuple[str, ...], other: Tuple[str, ...]) -> int:
    """How many components at their ends are the same."""
    same = 0
    while same < min(len(one), len(other)) and one[-1 - same] == other[-1 - same]:
        same += 1
    return same
