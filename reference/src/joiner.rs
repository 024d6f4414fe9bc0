//! Joining: one record of all that is there of two.

use crate::layout::Written;
use crate::reading::Walk;
use crate::refusal::{Cause, Refusal};
use crate::size::{Level, Plane};
use std::cmp::Reverse;
use std::collections::BTreeMap;

/// Number and place of a refusal, or 0, 0 and the length of what was joined.
#[derive(Clone, Copy, Debug, Default, PartialEq, Eq)]
pub struct JoinAnswer {
    pub number: u64,
    pub place: u64,
    pub length: u64,
}

/// Writes the header that both records have and every part that is whole in
/// either, in order. Zeros stand after them, or after a refusal alone. A place
/// is an offset in the record whose fault it is, and for CLASH in the first.
pub fn join(first: &[u8], second: &[u8], out: &mut [u8]) -> JoinAnswer {
    match join_parts(first, second, out) {
        Ok(length) => JoinAnswer {
            length: length as u64,
            ..JoinAnswer::default()
        },
        Err(refusal) => {
            out.fill(0);
            JoinAnswer {
                number: refusal.number(),
                place: refusal.place(),
                ..JoinAnswer::default()
            }
        }
    }
}

fn join_parts(first: &[u8], second: &[u8], out: &mut [u8]) -> Result<usize, Refusal> {
    let first = Known::of(first)?;
    let second = Known::of(second)?;
    if first.header != second.header {
        return Err(Refusal::new(Cause::Mixed));
    }
    if let Some(offset) = first.clash_with(&second) {
        return Err(Refusal::at(Cause::Clash, offset));
    }
    let mut either = second.parts;
    either.extend(first.parts);
    let mut written = Written::to(out);
    written.append(first.header);
    for held in either.values() {
        written.append(held.bytes);
    }
    written.finish()
}

/// What a part is known by, so that a record's order is the map's: planes
/// downward, and levels downward in a plane.
type Name = (Reverse<Plane>, Reverse<Level>);

/// A record as its header's bytes and, by name, its whole parts' bytes; a tail
/// is nothing.
struct Known<'r> {
    header: &'r [u8],
    parts: BTreeMap<Name, Held<'r>>,
}

struct Held<'r> {
    offset: usize,
    bytes: &'r [u8],
}

impl<'r> Known<'r> {
    fn of(record: &'r [u8]) -> Result<Known<'r>, Refusal> {
        let mut walk = Walk::begin(record)?;
        let mut parts = BTreeMap::new();
        while let Some(part) = walk.next_part()? {
            let held = Held {
                offset: part.offset,
                bytes: part.whole,
            };
            parts.insert((Reverse(part.plane), Reverse(part.level)), held);
        }
        Ok(Known {
            header: walk.header_bytes(),
            parts,
        })
    }

    /// Where the first part stands that the other has with other bytes.
    fn clash_with(&self, other: &Known) -> Option<usize> {
        let differs = |(name, held): &(&Name, &Held)| {
            let others = other.parts.get(name);
            others.map_or(false, |others| others.bytes != held.bytes)
        };
        let clash = self.parts.iter().find(differs);
        clash.map(|(_, held)| held.offset)
    }
}
