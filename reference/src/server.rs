//! The server: keeps some parts of a record without decoding it.

use crate::layout::{Header, Written};
use crate::reading::Walk;
use crate::refusal::{Cause, Refusal};
use crate::size::{Level, Plane};

/// Number and place of a refusal, or 0, 0 and the lengths of what was served
/// and of the record's tail.
#[derive(Clone, Copy, Debug, Default, PartialEq, Eq)]
pub struct ServeAnswer {
    pub number: u64,
    pub place: u64,
    pub length: u64,
    pub tail: u64,
}

/// Writes the record's header and its parts from level `level` and plane
/// `plane` upward, unaltered. Zeros stand after them, or after a refusal
/// alone.
pub fn serve(record: &[u8], level: u64, plane: u64, out: &mut [u8]) -> ServeAnswer {
    match serve_parts(record, level, plane, out) {
        Ok((length, tail)) => ServeAnswer {
            length: length as u64,
            tail: tail as u64,
            ..ServeAnswer::default()
        },
        Err(refusal) => {
            out.fill(0);
            ServeAnswer {
                number: refusal.number(),
                place: refusal.place(),
                ..ServeAnswer::default()
            }
        }
    }
}

/// Length and tail. Dropped parts are walked over and judged like the others,
/// and ROOM comes after every other refusal.
fn serve_parts(
    record: &[u8],
    level: u64,
    plane: u64,
    out: &mut [u8],
) -> Result<(usize, usize), Refusal> {
    let mut walk = Walk::begin(record)?;
    let (level, plane) = judge_request(walk.header(), level, plane)?;
    let mut written = Written::to(out);
    written.append(walk.header_bytes());
    while let Some(part) = walk.next_part()? {
        if part.level >= level && part.plane >= plane {
            written.append(part.whole);
        }
    }
    Ok((written.finish()?, walk.tail()))
}

/// Levels 1 to N + 1 and planes 0 to their number may be asked for. The
/// caller's numbers are compared at their full width.
fn judge_request(header: Header, level: u64, plane: u64) -> Result<(Level, Plane), Refusal> {
    let level_is_legal = (1..=u64::from(header.shape.coarsest().0)).contains(&level);
    let plane_is_legal = plane <= u64::from(header.planes);
    if level_is_legal && plane_is_legal {
        Ok((Level(level as u32), Plane(plane as u32)))
    } else {
        Err(Refusal::new(Cause::Ask))
    }
}
