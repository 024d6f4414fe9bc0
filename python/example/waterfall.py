# %% [markdown]
# # A waterfall, cut three ways
#
# A spectrum waterfall is coded once, at full detail. What a client gets of it may be less, and in
# each case the decoder tells how far a pixel may be from the recorded one: the bound is proved.
# Run the cells in an editor that knows `# %%`, or all of it:
#
#     python3 waterfall.py [FIGURE.png]
#
# Without FIGURE.png the figure is shown in a window. It needs matplotlib.

# %%
import sys
from pathlib import Path
from typing import List, NamedTuple

import matplotlib.pyplot as plt
import numpy as np

import afshtruni


def find_sample() -> Path:
    """Beside this file where it is installed, else in the source tree."""
    here = Path(__file__).resolve()
    beside = here.with_name("waterfall.pgm")
    return beside if beside.exists() else here.parents[2] / "host" / "sample" / "waterfall.pgm"


# %% [markdown]
# ## Coded once
#
# The picture's pyramid is made by a transform that loses nothing, and the record has all of it.

# %%
pyramid = afshtruni.read_picture(find_sample(), decompositions=3)
record = afshtruni.code(pyramid)
told = afshtruni.survey(record)
recorded = afshtruni.write_picture(pyramid).pixels
print(f"{told.width} x {told.height} pixels, {told.planes} planes: {len(record)} bytes", end=", ")
print(f"{told.parts} parts")


# %% [markdown]
# ## Cut three ways
#
# 1. A server keeps the upper planes of all levels. Nothing is decoded for that.
# 2. The link stops after 2,000 bytes; the last part is cut off, and used as far as its bits go.
# 3. The link loses one part in the middle, and what builds on it can't be used.


# %%
def without(plane: int, level: int) -> bytes:
    """The record without one of its parts."""
    lost = next(part for part in afshtruni.parts(record) if part[:2] == (plane, level))
    return record[: lost.offset] + record[lost.offset + lost.length :]


class Cut(NamedTuple):
    """What arrived, and how it is called in the figure."""

    title: str
    arrived: bytes


cuts: List[Cut] = [
    Cut("whole", record),
    Cut("served: planes 2 and up", afshtruni.serve(record, level=1, plane=2)),
    Cut("cut off after 2,000 bytes", record[:2000]),
    Cut("part of plane 3, level 3 lost", without(3, 3)),
]

# %% [markdown]
# ## What is printed of each
#
# Above the pictures, below how far each pixel really is from the recorded one. That can be looked
# at here only because the whole record is at hand; the bound needs nothing but what arrived.

# %%
figure, axes = plt.subplots(2, len(cuts), figsize=(12.8, 6.4), layout="constrained")
for cut, (above, below) in zip(cuts, axes.T):
    decoded = afshtruni.decode(cut.arrived)
    printed = afshtruni.write_picture(decoded).pixels
    apart = np.abs(printed.astype(int) - recorded)
    print(f"{cut.title}: {len(cut.arrived)} bytes, reached {decoded.reached},", end=" ")
    print(f"tail {decoded.tail}, at most {decoded.pixel_bound} grey values away, is {apart.max()}")
    assert apart.max() <= decoded.pixel_bound
    grey = above.imshow(printed, cmap="gray", vmin=0, vmax=255, interpolation="nearest")
    away = below.imshow(apart, cmap="magma", vmin=0, vmax=32, interpolation="nearest")
    above.set_title(f"{cut.title}\n{len(cut.arrived)} bytes", fontsize=10)
    below.set_title(f"bound {decoded.pixel_bound}, farthest pixel {apart.max()}", fontsize=10)

axes[0, 0].set_ylabel("printed: time downward")
axes[1, 0].set_ylabel("away from the recorded pixel")
figure.colorbar(grey, ax=axes[0, :], label="grey value", fraction=0.02, pad=0.01)
figure.colorbar(away, ax=axes[1, :], label="grey values", fraction=0.02, pad=0.01, extend="max")
if len(sys.argv) > 1:
    figure.savefig(sys.argv[1], dpi=110)
else:
    plt.show()
