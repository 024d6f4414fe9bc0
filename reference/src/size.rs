//! Sizes, levels and planes.

use crate::refusal::{Cause, Refusal};

/// The largest decomposition count N.
pub const MOST_DECOMPOSITIONS: u32 = 5;
/// The most levels a pyramid has, N + 1.
pub const MOST_LEVELS: usize = MOST_DECOMPOSITIONS as usize + 1;
/// The most planes a record may name.
pub const MOST_PLANES: u32 = 17;
/// The smallest and largest width or height.
pub const SIDES: std::ops::RangeInclusive<u64> = 4..=512;
/// The largest magnitude that is coded.
pub const LARGEST_MAGNITUDE: u32 = 65_535;
/// The largest magnitude that decoding writes, all of 17 planes; so also the
/// largest that goes back to a picture.
pub const LARGEST_DECODED: u32 = 131_071;

/// A spatial level: N + 1 is the LL band, 1 the finest.
///
/// Levels and planes are both small numbers that count downward, and the
/// published listings swap them; as two types they cannot be.
#[derive(Clone, Copy, Debug, PartialEq, Eq, PartialOrd, Ord, Hash)]
pub struct Level(pub u32);

/// A bit plane: the top one first, 0 the last.
#[derive(Clone, Copy, Debug, PartialEq, Eq, PartialOrd, Ord, Hash)]
pub struct Plane(pub u32);

impl Level {
    /// The next finer level's number; 0, no level, for level 1.
    pub fn finer(self) -> Level {
        Level(self.0 - 1)
    }
}

impl Plane {
    /// 2^n, from which on a magnitude is significant at this plane.
    pub fn threshold(self) -> u32 {
        1 << self.0
    }

    /// All planes of a record, downward.
    pub fn downward(planes: u32) -> impl Iterator<Item = Plane> {
        (0..planes).rev().map(Plane)
    }
}

/// A legal W, H and N. There is no other way to one than [`Shape::judge`].
#[derive(Clone, Copy, Debug, PartialEq, Eq)]
pub struct Shape {
    width: u32,
    height: u32,
    decompositions: u32,
}

impl Shape {
    /// The shape, or SIZE. The numbers come from a caller or a header and may
    /// be anything, so N is judged before 2^(N+1) is formed.
    pub fn judge(width: u64, height: u64, decompositions: u64) -> Result<Shape, Refusal> {
        let n_is_legal = (1..=u64::from(MOST_DECOMPOSITIONS)).contains(&decompositions);
        let side_is_legal =
            |side: u64| SIDES.contains(&side) && side % (1 << (decompositions + 1)) == 0;
        if n_is_legal && side_is_legal(width) && side_is_legal(height) {
            Ok(Shape {
                width: width as u32,
                height: height as u32,
                decompositions: decompositions as u32,
            })
        } else {
            Err(Refusal::new(Cause::Size))
        }
    }

    pub fn width(self) -> u32 {
        self.width
    }

    pub fn height(self) -> u32 {
        self.height
    }

    pub fn decompositions(self) -> u32 {
        self.decompositions
    }

    /// W x H.
    pub fn area(self) -> usize {
        self.width as usize * self.height as usize
    }

    /// 4 x W x H: the least workspace, in 32-bit numbers, and also the
    /// largest bit count of a part.
    pub fn workspace(self) -> usize {
        4 * self.area()
    }

    pub fn index(self, row: u32, column: u32) -> usize {
        row as usize * self.width as usize + column as usize
    }

    /// Level N + 1, the LL band.
    pub fn coarsest(self) -> Level {
        Level(self.decompositions + 1)
    }

    /// All levels, coarsest first, as the passes take them.
    pub fn levels_downward(self) -> impl Iterator<Item = Level> {
        (1..=self.decompositions + 1).rev().map(Level)
    }

    /// Rows and columns of the top left block which holds this level and all
    /// coarser ones: H / 2^(k-1) and W / 2^(k-1), for the LL band too.
    pub fn block(self, level: Level) -> (u32, u32) {
        let halvings = level.0 - 1;
        (self.height >> halvings, self.width >> halvings)
    }

    /// How many coefficients a level has.
    pub fn count(self, level: Level) -> usize {
        let cells = |level| {
            let (rows, columns) = self.block(level);
            rows as usize * columns as usize
        };
        if level == self.coarsest() {
            cells(level)
        } else {
            cells(level) - cells(Level(level.0 + 1))
        }
    }

    /// The level in which a coefficient lies.
    pub fn level_of(self, row: u32, column: u32) -> Level {
        self.levels_downward()
            .find(|&level| {
                let (rows, columns) = self.block(level);
                row < rows && column < columns
            })
            .expect("level 1's block is the whole pyramid")
    }
}

/// The number of planes for a largest magnitude M: n_max + 1 with n_max being
/// log2 M rounded down, and none for 0.
pub fn planes_of(largest: u32) -> u32 {
    let powers_up_to_it = (0..u32::BITS).filter(|&n| 1u32 << n <= largest);
    powers_up_to_it.count() as u32
}

/// The number of planes that records had until the coder rounded down: log2 M
/// rounded up, and one more.
///
/// 2^(n-1) < M <= 2^n says that M - 1 has n binary digits.
pub fn earlier_planes_of(largest: u32) -> u32 {
    match largest {
        0 => 0,
        m => (u32::BITS - (m - 1).leading_zeros()) + 1,
    }
}
