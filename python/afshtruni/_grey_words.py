"""Why a file is no grey picture, in the words of the tool."""

from __future__ import annotations

from typing import Tuple

_MAGIC = b"P5"
_MAXVAL = 255
_MOST = (1 << 64) - 1
_BLANKS = b" \t\n\r"

_OTHER_FILES: Tuple[Tuple[bytes, str], ...] = (
    (b"P1", "a plain bitmap"),
    (b"P4", "a bitmap"),
    (b"P2", "a plain grey picture"),
    (b"P3", "a plain colour picture"),
    (b"P6", "a colour picture"),
    (b"P7", "a PAM picture"),
    (b"\x89PNG", "a PNG picture"),
    (b"\xff\xd8", "a JPEG picture"),
    (b"BM", "a BMP picture"),
    (b"GIF8", "a GIF picture"),
    (b"II*", "a TIFF picture"),
    (b"MM", "a TIFF picture"),
)


_HOW_TO_MAKE_ONE = (
    "'convert IN -alpha off -colorspace Gray -depth 8 OUT.pgm' makes one of it"
)


def _why_not_p5(file: bytes) -> str:
    legal = "legal is a binary grey picture of Netpbm's, which begins with P5"
    for front, name in _OTHER_FILES:
        if file.startswith(front):
            return f"it begins as {name} does; {legal}: {_HOW_TO_MAKE_ONE}"
    if len(file) < len(_MAGIC):
        return f"it has {len(file)} bytes; {legal}"
    return f"it begins with the bytes {file[0]:02X} {file[1]:02X}; {legal}"


def _past_comment(file: bytes, at: int) -> int:
    while at < len(file) and file[at] not in b"\n\r":
        at += 1
    return at


def _past_gap(file: bytes, at: int) -> int:
    while at < len(file) and file[at] in _BLANKS + b"#":
        at = _past_comment(file, at) if file[at] in b"#" else at + 1
    return at


def _past_digits(file: bytes, at: int) -> int:
    while at < len(file) and file[at] in b"0123456789":
        at += 1
    return at


def _value(digits: bytes) -> int:
    """Of any number of digits, or the greatest that the library tells."""
    told = digits.lstrip(b"0") or b"0"
    return _MOST if len(told) > len(str(_MOST)) else min(int(told), _MOST)


def _why_pixels(file: bytes, at: int, width: int, height: int) -> str:
    if file[at : at + 1] == b"#":
        at = _past_comment(file, at)
    if at == len(file):
        return "the end comes before the blank behind the maxval"
    if file[at] not in _BLANKS:
        return f"behind the maxval, at byte {at}, stands {file[at]:02X}; legal is one blank"
    return (
        f"after its header it has {len(file) - at - 1} bytes;"
        f" legal is one for each of {width} x {height} pixels"
    )


def why_not_grey(file: bytes) -> str:
    """Of a file that the library has refused with 13 GREY."""
    if not file.startswith(_MAGIC):
        return _why_not_p5(file)
    at = len(_MAGIC)
    numbers = []
    for name in ("W, the width", "H, the height", "the maxval"):
        begin = _past_gap(file, at)
        if begin == len(file):
            return f"the end comes before {name}"
        end = _past_digits(file, begin)
        if begin == at or begin == end:
            wanted = "a blank before" if begin == at else "a digit of"
            return f"at byte {begin} stands {file[begin]:02X}; legal is {wanted} {name}"
        numbers.append(_value(file[begin:end]))
        at = end
    width, height, maxval = numbers
    if maxval != _MAXVAL:
        return f"its maxval is {maxval}; legal is {_MAXVAL}, a byte for each pixel"
    return _why_pixels(file, at, width, height)
