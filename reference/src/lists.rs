//! The lists of each level, in that level's stretch of the workspace.

use crate::family::{Node, Set};
use crate::size::{Level, Shape};

/// A list in a lent stretch of the workspace. What the stretch holds beyond
/// the list's length doesn't matter, so that it may be lent dirty.
pub struct List<'w> {
    room: &'w mut [u32],
    length: usize,
}

impl<'w> List<'w> {
    fn empty(room: &'w mut [u32]) -> List<'w> {
        List { room, length: 0 }
    }

    #[inline]
    pub fn len(&self) -> usize {
        self.length
    }

    pub fn is_empty(&self) -> bool {
        self.length == 0
    }

    #[inline]
    pub fn get(&self, at: usize) -> u32 {
        self.room[at]
    }

    #[inline]
    pub fn put(&mut self, at: usize, word: u32) {
        self.room[at] = word;
    }

    #[inline]
    pub fn push(&mut self, word: u32) {
        self.room[self.length] = word;
        self.length += 1;
    }

    pub fn truncate(&mut self, length: usize) {
        self.length = length;
    }

    /// The entries as they stand.
    #[inline]
    pub fn entries(&self) -> &[u32] {
        &self.room[..self.length]
    }
}

/// LIP, LIS and LSP of one level. LIP and LSP hold indices into the pyramid,
/// LIS packed sets.
pub struct Lists<'w> {
    pub lip: List<'w>,
    pub lis: List<'w>,
    pub lsp: List<'w>,
}

impl<'w> Lists<'w> {
    /// A level of c coefficients has a stretch of 4 x c numbers. A coefficient
    /// enters LIP and LSP at most once, so c is enough for each. A node is the
    /// root of type A once and of type B once in any level's LIS, and there
    /// are fewer than c roots; so 2 x c is enough even if nothing that left
    /// the list made room.
    fn in_stretch(stretch: &'w mut [u32]) -> Lists<'w> {
        let count = stretch.len() / 4;
        let (lip, rest) = stretch.split_at_mut(count);
        let (lsp, lis) = rest.split_at_mut(count);
        Lists {
            lip: List::empty(lip),
            lis: List::empty(lis),
            lsp: List::empty(lsp),
        }
    }
}

/// The lists of all levels.
pub struct AllLists<'w> {
    /// Level 1 first.
    levels: Vec<Lists<'w>>,
}

impl<'w> AllLists<'w> {
    /// The lists as they are before the first plane. The workspace has at
    /// least [`Shape::workspace`] numbers.
    pub fn start(shape: Shape, work: &'w mut [u32]) -> AllLists<'w> {
        let mut levels = Vec::with_capacity(shape.coarsest().0 as usize);
        let mut rest = work;
        for level in (1..=shape.coarsest().0).map(Level) {
            let (stretch, beyond) = rest.split_at_mut(4 * shape.count(level));
            levels.push(Lists::in_stretch(stretch));
            rest = beyond;
        }
        let mut all = AllLists { levels };
        all.enter_ll_band(shape);
        all
    }

    /// LIP of level N + 1 holds the LL band row by row, LIS those of it with
    /// offspring.
    fn enter_ll_band(&mut self, shape: Shape) {
        let level = shape.coarsest();
        let (rows, columns) = shape.block(level);
        let (own, _) = self.own_and_finer(level);
        for row in 0..rows {
            for column in 0..columns {
                let node = Node { row, column, level };
                own.lip.push(shape.index(row, column) as u32);
                if node.offspring(shape).is_some() {
                    own.lis.push(Set::d(node).packed());
                }
            }
        }
    }

    /// A level's lists, and those of the next finer level for what moves on.
    pub fn own_and_finer(&mut self, level: Level) -> (&mut Lists<'w>, Option<&mut Lists<'w>>) {
        let (finer, own) = self.levels.split_at_mut(level.0 as usize - 1);
        (&mut own[0], finer.last_mut())
    }
}
