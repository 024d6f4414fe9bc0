//! The coder: from a lent pyramid to a record.

use crate::family::{Block, Node};
use crate::layout::{head_bytes, Header, Packer, Written};
use crate::lists::AllLists;
use crate::passes::{run_part, Side};
use crate::refusal::{Cause, Refusal};
use crate::size::{planes_of, Plane, Shape, LARGEST_MAGNITUDE};
use crate::slip::{Faithful, Slips};
use std::convert::Infallible;
use std::marker::PhantomData;

/// Number and place of a refusal, or 0, 0 and the record's length.
#[derive(Clone, Copy, Debug, Default, PartialEq, Eq)]
pub struct CodeAnswer {
    pub number: u64,
    pub place: u64,
    pub length: u64,
}

/// Codes a pyramid of width `w`, height `h` and `n` decompositions. The output
/// holds the record and zeros after it, or after a refusal only zeros; the
/// workspace is all 0 afterwards.
pub fn code(
    pyramid: &[i32],
    w: u64,
    h: u64,
    n: u64,
    out: &mut [u8],
    work: &mut [u32],
) -> CodeAnswer {
    code_as::<Faithful>(pyramid, w, h, n, out, work)
}

/// [`code`], with the errors that `S` names.
pub fn code_as<S: Slips>(
    pyramid: &[i32],
    w: u64,
    h: u64,
    n: u64,
    out: &mut [u8],
    work: &mut [u32],
) -> CodeAnswer {
    let planes = planes_of(largest_of(pyramid));
    code_in_planes::<S>(pyramid, (w, h, n), planes, out, work)
}

/// [`code_as`] for a number of planes that is asked for: the coder's own, the
/// earlier one, or more. Every magnitude must be below 2^planes.
pub fn code_in_planes<S: Slips>(
    pyramid: &[i32],
    (w, h, n): (u64, u64, u64),
    planes: u32,
    out: &mut [u8],
    work: &mut [u32],
) -> CodeAnswer {
    let outcome = judge(pyramid, w, h, n, work)
        .and_then(|shape| write_record::<S>(pyramid, Header { shape, planes }, out, work));
    work.fill(0);
    match outcome {
        Ok(length) => CodeAnswer {
            length: length as u64,
            ..CodeAnswer::default()
        },
        Err(refusal) => {
            out.fill(0);
            CodeAnswer {
                number: refusal.number(),
                place: refusal.place(),
                length: 0,
            }
        }
    }
}

/// Everything that can be refused before there is a result: 1, 2, 3, 4.
fn judge(pyramid: &[i32], w: u64, h: u64, n: u64, work: &[u32]) -> Result<Shape, Refusal> {
    let shape = Shape::judge(w, h, n)?;
    if pyramid.len() != shape.area() {
        return Err(Refusal::new(Cause::Length));
    }
    if work.len() < shape.workspace() {
        return Err(Refusal::new(Cause::Work));
    }
    let too_large = |c: &i32| c.unsigned_abs() > LARGEST_MAGNITUDE;
    match pyramid.iter().position(too_large) {
        Some(index) => Err(Refusal::at(Cause::Range, index)),
        None => Ok(shape),
    }
}

/// M: the largest magnitude.
pub fn largest_of(pyramid: &[i32]) -> u32 {
    pyramid.iter().map(|c| c.unsigned_abs()).max().unwrap_or(0)
}

fn write_record<S: Slips>(
    pyramid: &[i32],
    header: Header,
    out: &mut [u8],
    work: &mut [u32],
) -> Result<usize, Refusal> {
    let shape = header.shape;
    let mut written = Written::to(out);
    written.append(&header.bytes());

    let mut lists = AllLists::start(shape, work);
    let mut teller = Teller::<S> {
        pyramid,
        shape,
        body: Packer::default(),
        slips: PhantomData,
    };
    for (plane, level) in header.parts_in_order() {
        teller.body.clear();
        match run_part::<S, _>(shape, &mut lists, plane, level, &mut teller) {
            Ok(()) => {}
            Err(never) => match never {},
        }
        let (bits, body) = teller.body.close();
        written.append(&head_bytes(plane, level, bits));
        written.append(body);
    }
    written.finish()
}

/// The coder's side of a pass: finds each answer in the pyramid, writes it.
struct Teller<'p, S> {
    pyramid: &'p [i32],
    shape: Shape,
    body: Packer,
    slips: PhantomData<S>,
}

impl<S: Slips> Side for Teller<'_, S> {
    type Stop = Infallible;

    #[inline]
    fn coefficient(&mut self, index: usize, plane: Plane) -> Result<bool, Infallible> {
        let significant = self.is_significant(index, plane.threshold());
        self.body.push(significant);
        if significant {
            self.body.push(self.pyramid[index] < 0);
        }
        Ok(significant)
    }

    #[inline]
    fn descendants(&mut self, node: Node, plane: Plane) -> Result<bool, Infallible> {
        let significant = self.d_is_significant(node, plane.threshold());
        self.body.push(significant);
        Ok(significant)
    }

    #[inline]
    fn leaves(&mut self, node: Node, plane: Plane) -> Result<bool, Infallible> {
        let significant = self.l_is_significant(node, plane.threshold());
        self.body.push(significant);
        Ok(significant)
    }

    #[inline]
    fn refinement(&mut self, index: usize, plane: Plane) -> Result<(), Infallible> {
        let magnitude = self.pyramid[index].unsigned_abs();
        self.body.push(magnitude & plane.threshold() != 0);
        Ok(())
    }
}

/// Significance is found anew each time it is asked for: nothing is kept from
/// one plane to the next. A walk ends at the first significant member.
impl<S: Slips> Teller<'_, S> {
    #[inline]
    fn is_significant(&self, index: usize, threshold: u32) -> bool {
        self.pyramid[index].unsigned_abs() >= threshold
    }

    /// D: the offspring, and L of the same node.
    fn d_is_significant(&self, node: Node, threshold: u32) -> bool {
        match node.offspring(self.shape) {
            Some(block) => {
                self.any_is_significant(block, threshold)
                    || (!S::TESTS_WANTED_LEVEL_ONLY && self.any_d_is_significant(block, threshold))
            }
            None => false,
        }
    }

    /// L: D of each of the offspring.
    fn l_is_significant(&self, node: Node, threshold: u32) -> bool {
        match node.offspring(self.shape) {
            Some(block) => self.any_d_is_significant(block, threshold),
            None => false,
        }
    }

    #[inline]
    fn any_is_significant(&self, block: Block, threshold: u32) -> bool {
        block
            .indices(self.shape)
            .iter()
            .any(|&index| self.is_significant(index, threshold))
    }

    fn any_d_is_significant(&self, block: Block, threshold: u32) -> bool {
        block.has_offspring()
            && block
                .members()
                .iter()
                .any(|&member| self.d_is_significant(member, threshold))
    }
}
