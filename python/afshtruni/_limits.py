"""What is legal, for words alone, as the library judges; a test holds it against the library."""

from __future__ import annotations

from ._answers import LEVEL_PLACES

LEAST_SIDE = 4
GREATEST_SIDE = 512
MOST_DECOMPOSITIONS = LEVEL_PLACES - 1
MOST_PLANES = 17
GREATEST_CODED = 65535
GREATEST_PRINTED = 131071
