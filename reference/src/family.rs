//! Families: offspring, and the sets D (all descendants) and L (D less the
//! offspring) as list entries.

use crate::size::{Level, Shape};

/// A coefficient's coordinates together with the level in which it lies.
#[derive(Clone, Copy, Debug, PartialEq, Eq)]
pub struct Node {
    pub row: u32,
    pub column: u32,
    pub level: Level,
}

/// The 2 x 2 block of a node's offspring, held as its top left member.
#[derive(Clone, Copy, Debug, PartialEq, Eq)]
pub struct Block {
    corner: Node,
}

impl Node {
    /// The node's offspring: always in the next finer level, as level N
    /// follows the LL band.
    #[inline]
    pub fn offspring(self, shape: Shape) -> Option<Block> {
        if self.level == shape.coarsest() {
            self.offspring_from_ll_band(shape)
        } else if self.level > Level(1) {
            Some(self.block_at(2 * self.row, 2 * self.column))
        } else {
            None
        }
    }

    /// In the LL band each 2 x 2 group of nodes has one without offspring;
    /// the other three stand for the three bands of level N, which begin at
    /// column w, at row h, and at both.
    fn offspring_from_ll_band(self, shape: Shape) -> Option<Block> {
        let (h, w) = shape.block(shape.coarsest());
        let (i0, j0) = (self.row & !1, self.column & !1);
        match (self.row % 2, self.column % 2) {
            (0, 0) => None,
            (0, _) => Some(self.block_at(i0, w + j0)),
            (_, 0) => Some(self.block_at(h + i0, j0)),
            (_, _) => Some(self.block_at(h + i0, w + j0)),
        }
    }

    fn block_at(self, row: u32, column: u32) -> Block {
        let level = self.level.finer();
        Block {
            corner: Node { row, column, level },
        }
    }
}

impl Block {
    pub fn level(self) -> Level {
        self.corner.level
    }

    /// Top left, top right, bottom left, bottom right.
    #[inline]
    pub fn members(self) -> [Node; 4] {
        let Node { row, column, level } = self.corner;
        let node = |row, column| Node { row, column, level };
        [
            node(row, column),
            node(row, column + 1),
            node(row + 1, column),
            node(row + 1, column + 1),
        ]
    }

    /// The members' indices into the pyramid, in the same order.
    #[inline]
    pub fn indices(self, shape: Shape) -> [usize; 4] {
        let top = shape.index(self.corner.row, self.corner.column);
        let bottom = top + shape.width() as usize;
        [top, top + 1, bottom, bottom + 1]
    }

    /// Whether the members have offspring in turn, which is whether L of
    /// their parent has members. They are never in the LL band.
    #[inline]
    pub fn has_offspring(self) -> bool {
        self.corner.level > Level(1)
    }
}

/// Type A speaks of D, type B of L.
#[derive(Clone, Copy, Debug, PartialEq, Eq)]
pub enum Kind {
    A,
    B,
}

/// An entry of a LIS: D or L of a node.
#[derive(Clone, Copy, Debug, PartialEq, Eq)]
pub struct Set {
    pub node: Node,
    pub kind: Kind,
}

impl Set {
    pub fn d(node: Node) -> Set {
        Set {
            node,
            kind: Kind::A,
        }
    }

    pub fn l(node: Node) -> Set {
        Set {
            node,
            kind: Kind::B,
        }
    }

    /// Whether the set has a member in this level. D of a node with offspring
    /// has members in every finer level, L in all of those but the first.
    #[inline]
    pub fn has_member_in(self, level: Level) -> bool {
        let skipped = match self.kind {
            Kind::A => 1,
            Kind::B => 2,
        };
        level.0 + skipped <= self.node.level.0
    }

    /// The set as one number of the workspace: kind, level, row and column.
    #[inline]
    pub fn packed(self) -> u32 {
        (self.kind as u32) << 28 | self.node.level.0 << 24 | self.node.row << 12 | self.node.column
    }

    #[inline]
    pub fn unpacked(word: u32) -> Set {
        Set {
            node: Node {
                row: word >> 12 & 0xFFF,
                column: word & 0xFFF,
                level: Level(word >> 24 & 0xF),
            },
            kind: if word >> 28 == 0 { Kind::A } else { Kind::B },
        }
    }
}
