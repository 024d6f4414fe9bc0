//! The passes, written once for both sides: the decoder runs the same ones as
//! the coder, with bits read where the coder writes them.

use crate::family::{Kind, Node, Set};
use crate::lists::{AllLists, Lists};
use crate::size::{Level, Plane, Shape};
use crate::slip::Slips;
use std::marker::PhantomData;

/// The side that a pass is run for. Each call stands for the bits of one
/// question; the coder finds the answer and writes it, the decoder reads it
/// and acts on it.
pub trait Side {
    /// What ends a pass early: running out of bits, for a decoder.
    type Stop;

    /// A coefficient's significance bit, and if it is 1 the sign bit.
    fn coefficient(&mut self, index: usize, plane: Plane) -> Result<bool, Self::Stop>;
    /// The bit of D.
    fn descendants(&mut self, node: Node, plane: Plane) -> Result<bool, Self::Stop>;
    /// The bit of L.
    fn leaves(&mut self, node: Node, plane: Plane) -> Result<bool, Self::Stop>;
    /// Bit n of the magnitude of a coefficient found significant earlier.
    fn refinement(&mut self, index: usize, plane: Plane) -> Result<(), Self::Stop>;
}

/// The bits of part (plane, level), in three steps.
pub fn run_part<S: Slips, T: Side>(
    shape: Shape,
    lists: &mut AllLists,
    plane: Plane,
    level: Level,
    side: &mut T,
) -> Result<(), T::Stop> {
    let (own, finer) = lists.own_and_finer(level);
    let mut pass = Pass {
        shape,
        plane,
        level,
        own,
        finer,
        side,
        slips: PhantomData::<S>,
    };
    let earlier = pass.own.lsp.len();
    pass.sort_lip(0)?;
    let waiting = pass.own.lip.len();
    pass.sort_lis()?;
    if S::VISITS_NEW_OFFSPRING {
        pass.sort_lip(waiting)?;
    }
    pass.refine_lsp(earlier)
}

struct Pass<'p, 'w, S, T> {
    shape: Shape,
    plane: Plane,
    level: Level,
    own: &'p mut Lists<'w>,
    finer: Option<&'p mut Lists<'w>>,
    side: &'p mut T,
    slips: PhantomData<S>,
}

impl<S: Slips, T: Side> Pass<'_, '_, S, T> {
    /// Step 1. What turns out significant moves to the end of LSP, the rest
    /// closes ranks in its order. (`first` is 0; only a slip has another.)
    fn sort_lip(&mut self, first: usize) -> Result<(), T::Stop> {
        let Lists { lip, lsp, .. } = &mut *self.own;
        let mut kept = first;
        for at in first..lip.len() {
            let index = lip.get(at);
            if self.side.coefficient(index as usize, self.plane)? {
                lsp.push(index);
            } else {
                lip.put(kept, index);
                kept += 1;
            }
        }
        lip.truncate(kept);
        Ok(())
    }

    /// Step 2. The list grows under way, and what is put at its end is visited
    /// in the same pass; its length is therefore asked for at every turn.
    fn sort_lis(&mut self) -> Result<(), T::Stop> {
        let at_start = self.own.lis.len();
        let mut kept = 0;
        let mut at = 0;
        while at < self.own.lis.len() {
            let set = Set::unpacked(self.own.lis.get(at));
            let missed = S::MISSES_NEW_SETS && at >= at_start;
            if missed || self.stays(set)? {
                self.own.lis.put(kept, set.packed());
                kept += 1;
            }
            at += 1;
        }
        self.own.lis.truncate(kept);
        Ok(())
    }

    /// Visits one set; says whether it keeps its place.
    #[inline]
    fn stays(&mut self, set: Set) -> Result<bool, T::Stop> {
        if !set.has_member_in(self.level) {
            self.move_on(set);
            return Ok(false);
        }
        let significant = match set.kind {
            Kind::A => self.side.descendants(set.node, self.plane)?,
            Kind::B => self.side.leaves(set.node, self.plane)?,
        };
        if significant {
            match set.kind {
                Kind::A => self.open_descendants(set.node)?,
                Kind::B => self.open_leaves(set.node),
            }
        }
        Ok(!significant)
    }

    /// Without a bit, to the end of the next finer level's LIS. From level 1
    /// nothing moves on: every set in its list has a member there.
    fn move_on(&mut self, set: Set) {
        let finer = self.finer.as_mut().expect("a level finer than this one");
        finer.lis.push(set.packed());
    }

    /// D was significant: the offspring one by one, and L as a set to come.
    /// Insignificant offspring wait in LIP for the next plane.
    fn open_descendants(&mut self, node: Node) -> Result<(), T::Stop> {
        let block = node
            .offspring(self.shape)
            .expect("a set of the LIS has a family");
        for index in block.indices(self.shape) {
            if self.side.coefficient(index, self.plane)? {
                self.own.lsp.push(index as u32);
            } else {
                self.own.lip.push(index as u32);
            }
        }
        if block.has_offspring() {
            self.own.lis.push(Set::l(node).packed());
        }
        Ok(())
    }

    /// L was significant: D of each of the offspring is a set to come.
    fn open_leaves(&mut self, node: Node) {
        let block = node
            .offspring(self.shape)
            .expect("a set of the LIS has a family");
        for member in block.members() {
            self.own.lis.push(Set::d(member).packed());
        }
    }

    /// Step 3, for the entries that were there before this plane.
    fn refine_lsp(&mut self, earlier: usize) -> Result<(), T::Stop> {
        let entries = self.own.lsp.entries();
        let refined = if S::REFINES_NEW_ENTRIES {
            entries
        } else {
            &entries[..earlier]
        };
        for &index in refined {
            self.side.refinement(index as usize, self.plane)?;
        }
        Ok(())
    }
}
