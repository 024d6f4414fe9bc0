"""Where each number stands in a call's answer, and what the numbers of refusals are called.

All of it is as `afshtruni.h` has it; a test holds it against the header.
"""

from __future__ import annotations

from typing import Mapping

# A call takes a longer answer than it needs, so this does for all of them.
ANSWER_LENGTH = 32

# Every answer begins with these two.
NUMBER, PLACE = 0, 1

# Places in an answer that stand for one level each, level 1 first.
LEVEL_PLACES = 6

CODED: Mapping[str, int] = {"LENGTH": 2}
SERVED: Mapping[str, int] = {"LENGTH": 2, "TAIL": 3}
JOINED: Mapping[str, int] = {"LENGTH": 2}
SURVEYED: Mapping[str, int] = {
    "WIDTH": 2, "HEIGHT": 3, "DECOMPOSITIONS": 4, "PLANES": 5, "PARTS": 6, "TAIL": 7,
}
DECODED: Mapping[str, int] = {"TAIL": 2, "REACHED": 3, "SKIPPED": 9}
GREY_READ: Mapping[str, int] = {"WIDTH": 2, "HEIGHT": 3}
GREY_WRITTEN: Mapping[str, int] = {"LENGTH": 2, "CLIPPED": 3}

ACCEPTED = 0

NAMES: Mapping[int, str] = {
    1: "SIZE", 2: "LENGTH", 3: "WORK", 4: "RANGE", 5: "ROOM", 6: "HEAD", 7: "VERSION", 8: "PART",
    9: "PAD", 10: "FIT", 11: "ASK", 12: "LONGFORM", 13: "GREY", 14: "MIXED", 15: "CLASH",
}

CAUSES: Mapping[int, str] = {
    1: "width, height, decompositions or planes aren't legal",
    2: "the pyramid isn't exactly width x height",
    3: "the workspace is too short",
    4: "a coefficient's magnitude is too great; the place is its index, row by row",
    5: "the output is too short",
    6: "the header ends early, or a number in it goes on after four bytes",
    7: "the version isn't 1",
    8: "the head of a part isn't legal, or a number in it goes on after four bytes",
    9: "a padding bit is set",
    10: "the bits of a part run out or are left over",
    11: "level or plane can't be asked for",
    12: "a number is in long form: of several bytes, the last of them 0",
    13: "no binary grey file with maxval 255, or cut short",
    14: "the headers of the two records differ",
    15: "a part that both records have isn't the same in both",
}
