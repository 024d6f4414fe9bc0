//! How far a printed pixel can be from the recorded one, told from the planes
//! that decoding reports.
//!
//! It holds for records of pictures with any parts struck out and cut anywhere:
//! a coefficient of level k is then less than 2^m_k from the recorded one, m_k
//! being the level's reached plane. Of the LL band that error goes into the
//! picture as it is; a finer level's own adds at most 3 x 2^m_k, its two turns
//! of highs taken together with their rounding, and nothing where it is 0.

use crate::size::MOST_LEVELS;

/// No pixel is farther from another.
const WHOLE_RANGE: u64 = 255;

/// The most for a picture of N decompositions that is printed halved so many
/// times, fewer than N; 0 is the picture itself.
pub fn pixel_most(reached: &[u64; MOST_LEVELS], decompositions: u32, halvings: u32) -> u64 {
    reckoned(reached, decompositions, halvings).min(WHOLE_RANGE)
}

/// The same, were there no end at 0 and 255.
pub fn reckoned(reached: &[u64; MOST_LEVELS], decompositions: u32, halvings: u32) -> u64 {
    let plane = |level: u32| reached[level as usize - 1];
    let coarsest = (1 << plane(decompositions + 1)) - 1;
    let finer = halvings + 1..=decompositions;
    let added = finer.map(plane).filter(|&m| m > 0).map(|m| 3 << m);
    coarsest + added.sum::<u64>()
}
