//! The part list: what a record holds, in lines.

use crate::reading::Walk;
use crate::refusal::{Cause, Refusal};
use std::fmt::Write;

/// The longest input that the program takes.
pub const LONGEST_INPUT: usize = 16_384;

/// The lines that the program prints for a record: its parts, or only the
/// refusal. A record is judged as serving all of it judges it.
pub fn partlist(record: &[u8]) -> String {
    list(record)
        .unwrap_or_else(|refusal| format!("refused {} {}\n", refusal.number(), refusal.place()))
}

/// The lines are made before any is printed, as a refusal prints none of them.
fn list(record: &[u8]) -> Result<String, Refusal> {
    if record.len() > LONGEST_INPUT {
        return Err(Refusal::new(Cause::Room));
    }
    let mut walk = Walk::begin(record)?;
    let shape = walk.header().shape;
    let mut lines = format!(
        "record {} {} {} {}\n",
        shape.width(),
        shape.height(),
        shape.decompositions(),
        walk.header().planes
    );
    while let Some(part) = walk.next_part()? {
        writeln!(
            lines,
            "part {} {} {}",
            part.plane.0, part.level.0, part.bits
        )
        .expect("a string takes every line");
    }
    writeln!(lines, "tail {}", walk.tail()).expect("a string takes every line");
    Ok(lines)
}
