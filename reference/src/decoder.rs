//! The decoder: from any record to a pyramid, by its usable parts and by what
//! is there of the one that the end of the bytes cuts.

use crate::family::Node;
use crate::layout::{Bits, Header, RanOut};
use crate::lists::AllLists;
use crate::passes::{run_part, Side};
use crate::reading::{CutPart, Part, Walk};
use crate::refusal::{Cause, Refusal};
use crate::size::{Level, Plane, Shape, MOST_LEVELS, MOST_PLANES};
use crate::slip::{Faithful, Slips};

/// Number and place of a refusal, or 0, 0, the length of the record's tail,
/// and each level's reached plane and number of parts that are there and can't
/// be used, level 1 first.
#[derive(Clone, Copy, Debug, Default, PartialEq, Eq)]
pub struct DecodeAnswer {
    pub number: u64,
    pub place: u64,
    pub tail: u64,
    pub reached: [u64; MOST_LEVELS],
    pub skipped: [u64; MOST_LEVELS],
}

impl DecodeAnswer {
    /// In the order of the exported call.
    pub fn numbers(&self) -> [u64; 3 + 2 * MOST_LEVELS] {
        let mut numbers = [0; 3 + 2 * MOST_LEVELS];
        let (first, levels) = numbers.split_at_mut(3);
        let (reached, skipped) = levels.split_at_mut(MOST_LEVELS);
        first.copy_from_slice(&[self.number, self.place, self.tail]);
        reached.copy_from_slice(&self.reached);
        skipped.copy_from_slice(&self.skipped);
        numbers
    }
}

/// Decodes a record into a pyramid of exactly its size. After a refusal the
/// output is all 0; the workspace is all 0 afterwards in any case.
pub fn decode(record: &[u8], out: &mut [i32], work: &mut [u32]) -> DecodeAnswer {
    decode_as::<Faithful>(record, out, work)
}

/// [`decode`], with the errors that `S` names.
pub fn decode_as<S: Slips>(record: &[u8], out: &mut [i32], work: &mut [u32]) -> DecodeAnswer {
    out.fill(0);
    let outcome = decode_parts::<S>(record, out, work);
    work.fill(0);
    outcome.unwrap_or_else(|refusal| {
        out.fill(0);
        DecodeAnswer {
            number: refusal.number(),
            place: refusal.place(),
            ..DecodeAnswer::default()
        }
    })
}

/// One walk reads, judges and decodes, because the first part at fault decides
/// whatever its fault is.
fn decode_parts<S: Slips>(
    record: &[u8],
    out: &mut [i32],
    work: &mut [u32],
) -> Result<DecodeAnswer, Refusal> {
    let mut walk = Walk::begin(record)?;
    let header = walk.header();
    judge_lengths(header.shape, out.len(), work.len())?;
    let mut present = Present::none_yet();
    let mut decoding = Decoding {
        header,
        out,
        lists: AllLists::start(header.shape, work),
        usable: Usable::none_yet(header),
    };
    while let Some(part) = walk.next_part()? {
        present.enter(part.plane, part.level);
        if S::TAKES_ABSENT_FOR_EMPTY {
            decoding.take_absent_before::<S>(Some((part.plane, part.level)), part.offset)?;
        }
        if decoding.usable.enter::<S>(part.plane, part.level) {
            decoding.run::<S>(&part)?;
        }
    }
    if let Some(part) = walk.cut() {
        if decoding.usable.would_be(part.plane, part.level) {
            decoding.run_to_the_cut::<S>(&part)?;
        }
    }
    if S::TAKES_ABSENT_FOR_EMPTY {
        decoding.take_absent_before::<S>(None, record.len())?;
    }
    let reached = decoding.usable.reached_planes();
    Ok(DecodeAnswer {
        tail: walk.tail() as u64,
        reached,
        skipped: present.below(reached),
        ..DecodeAnswer::default()
    })
}

fn judge_lengths(shape: Shape, out: usize, work: usize) -> Result<(), Refusal> {
    if out != shape.area() {
        return Err(Refusal::new(Cause::Length));
    }
    if work < shape.workspace() {
        return Err(Refusal::new(Cause::Work));
    }
    Ok(())
}

/// A decoding under way.
struct Decoding<'d> {
    header: Header,
    out: &'d mut [i32],
    lists: AllLists<'d>,
    usable: Usable,
}

impl Decoding<'_> {
    /// Runs a usable part's passes; its bits must do exactly.
    fn run<S: Slips>(&mut self, part: &Part) -> Result<(), Refusal> {
        match self.listen::<S>(part.plane, part.level, Bits::new(part.body, part.bits)) {
            Heard::All => Ok(()),
            Heard::Some | Heard::TooFew => Err(Refusal::at(Cause::Fit, part.offset)),
        }
    }

    /// Runs a part's passes until the bits that are there are used up; none of
    /// them may be left over. The lists are of no use afterwards, and nothing
    /// comes after such a part.
    fn run_to_the_cut<S: Slips>(&mut self, part: &CutPart) -> Result<(), Refusal> {
        let there = Bits::new(part.there, 8 * part.there.len());
        match self.listen::<S>(part.plane, part.level, there) {
            Heard::All | Heard::TooFew => Ok(()),
            Heard::Some => Err(Refusal::at(Cause::Fit, part.offset)),
        }
    }

    fn listen<S: Slips>(&mut self, plane: Plane, level: Level, bits: Bits) -> Heard {
        let mut listener = Listener {
            out: self.out,
            bits,
        };
        let shape = self.header.shape;
        match run_part::<S, _>(shape, &mut self.lists, plane, level, &mut listener) {
            Ok(()) if listener.bits.all_read() => Heard::All,
            Ok(()) => Heard::Some,
            Err(RanOut) => Heard::TooFew,
        }
    }

    /// A slip: what is absent before the given place in the order is run as
    /// parts of 0 bits.
    fn take_absent_before<S: Slips>(
        &mut self,
        until: Option<(Plane, Level)>,
        offset: usize,
    ) -> Result<(), Refusal> {
        for (plane, level) in self.header.parts_in_order() {
            if Some((plane, level)) == until {
                break;
            }
            if !self.usable.is_usable(plane, level) && self.usable.enter::<S>(plane, level) {
                self.run::<S>(&Part {
                    offset,
                    plane,
                    level,
                    bits: 0,
                    body: &[],
                    whole: &[],
                })?;
            }
        }
        Ok(())
    }
}

/// What passes made of the bits that they were given.
enum Heard {
    /// They ended with the last of them.
    All,
    /// They ended and left some over.
    Some,
    /// They asked for more.
    TooFew,
}

/// Which parts are there whole: of each level the planes, as bits.
struct Present {
    planes: [u32; MOST_LEVELS],
}

impl Present {
    fn none_yet() -> Present {
        Present {
            planes: [0; MOST_LEVELS],
        }
    }

    fn enter(&mut self, plane: Plane, level: Level) {
        self.planes[level.0 as usize - 1] |= 1 << plane.0;
    }

    /// How many of each level lie below the plane that it reached. Usable
    /// planes run without a gap from the top, so those are the parts that are
    /// there and not usable, and nothing is counted on the walk.
    fn below(&self, reached: [u64; MOST_LEVELS]) -> [u64; MOST_LEVELS] {
        let mut counts = [0; MOST_LEVELS];
        for (count, (planes, plane)) in counts.iter_mut().zip(self.planes.iter().zip(reached)) {
            *count = (planes & ((1 << plane) - 1)).count_ones().into();
        }
        counts
    }
}

/// Which parts are usable: (n, k) is if every part (n', k') with n' >= n and
/// k' >= k is present whole.
struct Usable {
    header: Header,
    table: [[bool; MOST_LEVELS]; MOST_PLANES as usize],
}

impl Usable {
    fn none_yet(header: Header) -> Usable {
        Usable {
            header,
            table: [[false; MOST_LEVELS]; MOST_PLANES as usize],
        }
    }

    fn is_usable(&self, plane: Plane, level: Level) -> bool {
        self.table[plane.0 as usize][level.0 as usize - 1]
    }

    /// Whether a part is usable, being there. All the parts on which that
    /// depends come before it in the order. They are this one, those on which
    /// the part one plane up depends, and those on which the part one level
    /// coarser depends; so these two being usable says it.
    fn would_be(&self, plane: Plane, level: Level) -> bool {
        let is_top = plane.0 + 1 == self.header.planes;
        let is_coarsest = level == self.header.shape.coarsest();
        (is_top || self.is_usable(Plane(plane.0 + 1), level))
            && (is_coarsest || self.is_usable(plane, Level(level.0 + 1)))
    }

    /// Notes that a part is present, and says whether it is usable.
    fn enter<S: Slips>(&mut self, plane: Plane, level: Level) -> bool {
        let usable = self.would_be(plane, level) || S::GOES_ON_AFTER_LOSS;
        self.table[plane.0 as usize][level.0 as usize - 1] = usable;
        usable
    }

    /// The lowest plane whose part of this level is usable, or the number of
    /// planes if none is.
    fn reached(&self, level: Level) -> u32 {
        (0..self.header.planes)
            .find(|&plane| self.is_usable(Plane(plane), level))
            .unwrap_or(self.header.planes)
    }

    /// Level 1 first, 0 beyond level N + 1.
    fn reached_planes(&self) -> [u64; MOST_LEVELS] {
        let mut reached = [0; MOST_LEVELS];
        for level in self.header.shape.levels_downward() {
            reached[level.0 as usize - 1] = self.reached(level).into();
        }
        reached
    }
}

/// The decoder's side of a pass: reads each answer and draws it.
struct Listener<'d, 'r> {
    out: &'d mut [i32],
    bits: Bits<'r>,
}

impl Side for Listener<'_, '_> {
    type Stop = RanOut;

    #[inline]
    fn coefficient(&mut self, index: usize, plane: Plane) -> Result<bool, RanOut> {
        let significant = self.bits.take()?;
        if significant {
            let magnitude = plane.threshold() as i32;
            let negative = self.bits.take()?;
            self.out[index] = if negative { -magnitude } else { magnitude };
        }
        Ok(significant)
    }

    #[inline]
    fn descendants(&mut self, _: Node, _: Plane) -> Result<bool, RanOut> {
        self.bits.take()
    }

    #[inline]
    fn leaves(&mut self, _: Node, _: Plane) -> Result<bool, RanOut> {
        self.bits.take()
    }

    /// A bit of 1 adds 2^n to the magnitude, whichever the sign. Either bit
    /// goes the same way, as no branch could be foretold here.
    #[inline]
    fn refinement(&mut self, index: usize, plane: Plane) -> Result<(), RanOut> {
        let added = i32::from(self.bits.take()?) << plane.0;
        let coefficient = &mut self.out[index];
        *coefficient += coefficient.signum() * added;
        Ok(())
    }
}
