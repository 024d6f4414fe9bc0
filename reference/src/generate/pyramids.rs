//! Pyramids of every kind.

use super::{waterfall, Chance};
use crate::size::{Shape, LARGEST_MAGNITUDE};

#[derive(Clone, Copy, Debug, PartialEq, Eq)]
pub enum PyramidKind {
    AllZero,
    OneCoefficient,
    /// Few coefficients, of any magnitude.
    Sparse,
    /// Every coefficient of about the same number of bits.
    Dense,
    /// 65,535, -65,535 and 0.
    Extreme,
    /// Smaller toward finer levels, as a transform leaves them.
    Decaying,
    Waterfall,
}

impl PyramidKind {
    pub const ALL: [PyramidKind; 7] = [
        PyramidKind::AllZero,
        PyramidKind::OneCoefficient,
        PyramidKind::Sparse,
        PyramidKind::Dense,
        PyramidKind::Extreme,
        PyramidKind::Decaying,
        PyramidKind::Waterfall,
    ];
}

/// A pyramid of any kind; those with little in them come less often.
pub fn any_pyramid(chance: &mut Chance, shape: Shape) -> Vec<i32> {
    let kind = PyramidKind::ALL[chance.weighted(&[2, 4, 12, 8, 4, 12, 6])];
    pyramid(chance, shape, kind)
}

pub fn pyramid(chance: &mut Chance, shape: Shape, kind: PyramidKind) -> Vec<i32> {
    match kind {
        PyramidKind::AllZero => vec![0; shape.area()],
        PyramidKind::OneCoefficient => one_coefficient(chance, shape),
        PyramidKind::Sparse => sparse(chance, shape),
        PyramidKind::Dense => dense(chance, shape),
        PyramidKind::Extreme => extreme(chance, shape),
        PyramidKind::Decaying => decaying(chance, shape),
        PyramidKind::Waterfall => waterfall::pyramid(chance, shape),
    }
}

/// A coefficient of at most so many bits, of either sign.
fn within_bits(chance: &mut Chance, bits: u32) -> i32 {
    let limit = (1i64 << bits) - 1;
    chance.between(-limit, limit) as i32
}

/// A magnitude near a power of two, where planes begin and end, or any.
fn telling(chance: &mut Chance) -> i32 {
    let bits = chance.below(17) as u32;
    if chance.once_in(2) {
        return within_bits(chance, bits.min(16));
    }
    let near = (1i64 << bits) + chance.between(-1, 1);
    let magnitude = near.min(i64::from(LARGEST_MAGNITUDE)) as i32;
    if chance.once_in(2) {
        magnitude
    } else {
        -magnitude
    }
}

fn one_coefficient(chance: &mut Chance, shape: Shape) -> Vec<i32> {
    let mut pyramid = vec![0; shape.area()];
    pyramid[chance.below(shape.area())] = telling(chance);
    pyramid
}

fn sparse(chance: &mut Chance, shape: Shape) -> Vec<i32> {
    let rarity = 1 << (1 + chance.below(7));
    let bits = 1 + chance.below(16) as u32;
    (0..shape.area())
        .map(|_| match chance.once_in(rarity) {
            true if chance.once_in(16) => telling(chance),
            true => within_bits(chance, bits),
            false => 0,
        })
        .collect()
}

fn dense(chance: &mut Chance, shape: Shape) -> Vec<i32> {
    let bits = 1 + chance.below(16) as u32;
    even(chance, shape, bits)
}

/// Every coefficient evenly of at most so many bits.
pub fn even(chance: &mut Chance, shape: Shape, bits: u32) -> Vec<i32> {
    (0..shape.area())
        .map(|_| within_bits(chance, bits))
        .collect()
}

fn extreme(chance: &mut Chance, shape: Shape) -> Vec<i32> {
    let most = LARGEST_MAGNITUDE as i32;
    (0..shape.area())
        .map(|_| *chance.pick(&[most, -most, 0]))
        .collect()
}

fn decaying(chance: &mut Chance, shape: Shape) -> Vec<i32> {
    let top = 4 + chance.below(13) as u32;
    let fall = 1 + chance.below(3) as u32;
    let mut pyramid = Vec::with_capacity(shape.area());
    for row in 0..shape.height() {
        for column in 0..shape.width() {
            let turns = shape.coarsest().0 - shape.level_of(row, column).0;
            let bits = top.saturating_sub(fall * turns);
            // Products of two fall off more quickly than even ones.
            let wide = i64::from(within_bits(chance, bits));
            let share = chance.between(0, 255);
            pyramid.push((wide * share / 255) as i32);
        }
    }
    pyramid
}
