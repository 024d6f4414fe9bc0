"""What is noted beside a picture, in the words of the tool."""

from __future__ import annotations

IF_PICTURE = "if it was made of a picture, a printed pixel is at most"
OF_NO_PICTURE = (
    "was changed, or made of no picture: all of it is there, and of a picture no pixel comes out"
    " under 0 or over 255"
)


class Note(UserWarning):
    """What a picture's user should know, and `afs` notes beside it: that it may be away from the
    recorded one, or that its record was changed or made of no picture."""


def told_bound(bound: int) -> str:
    """Of a picture that may be away from the recorded one."""
    return f"{IF_PICTURE} {bound} grey values from the recorded one"
