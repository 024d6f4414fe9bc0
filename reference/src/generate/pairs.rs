//! Pairs of records to be joined.

use super::records::{any_record, strike_some, whole_in, Pieces};
use super::{pyramids, shapes, Chance};
use crate::layout::push_number;
use crate::reading::Walk;
use crate::size::MOST_PLANES;

/// How the two of a pair are akin.
#[derive(Clone, Copy, Debug, PartialEq, Eq)]
pub enum Kin {
    /// Selections of one record.
    One,
    /// Selections of two records with one header.
    Two,
    /// Selections of one, either of them damaged in any way.
    Damaged,
    /// Selections of one, either of them, or both, cut anywhere.
    Cut,
    /// Another size, or another number of planes.
    Header,
    /// Selections of one, a bit changed in a part of either.
    Bit,
    /// The same bytes.
    Itself,
}

impl Kin {
    pub const ALL: [Kin; 7] = [
        Kin::One,
        Kin::Two,
        Kin::Damaged,
        Kin::Cut,
        Kin::Header,
        Kin::Bit,
        Kin::Itself,
    ];

    pub const fn name(self) -> &'static str {
        match self {
            Kin::One => "of one record",
            Kin::Two => "of two",
            Kin::Damaged => "one damaged",
            Kin::Cut => "cut",
            Kin::Header => "another header",
            Kin::Bit => "a bit changed",
            Kin::Itself => "with itself",
        }
    }
}

/// Two records; there is no second where the first is to be joined with
/// itself.
pub struct Pair {
    pub kin: Kin,
    pub first: Vec<u8>,
    pub second: Option<Vec<u8>>,
}

/// A pair that begins from a whole record, which either of them may be.
pub fn any_pair(chance: &mut Chance, whole: &[u8]) -> Pair {
    let kin = Kin::ALL[chance.weighted(&[6, 2, 6, 4, 2, 2, 1])];
    let first = selection(chance, whole);
    let mut pair = match kin {
        Kin::Itself => {
            return Pair {
                kin,
                first: any_record(chance, &first),
                second: None,
            }
        }
        Kin::Two => [first, selection_of_another(chance, whole)],
        Kin::Header => [first, with_another_header(chance, whole)],
        _ => [first, selection(chance, whole)],
    };
    if chance.once_in(2) {
        pair.swap(0, 1);
    }
    let [first, second] = &mut pair;
    let either = if chance.once_in(2) { first } else { second };
    match kin {
        Kin::Damaged => *either = any_record(chance, either),
        Kin::Bit => change_a_bit(chance, either),
        Kin::Cut => cut_some(chance, &mut pair),
        _ => {}
    }
    let [first, second] = pair;
    Pair {
        kin,
        first,
        second: Some(second),
    }
}

/// Some of its parts, or all.
fn selection(chance: &mut Chance, whole: &[u8]) -> Vec<u8> {
    let mut left = Pieces::of(whole);
    match chance.below(4) {
        0 => {}
        1 => left.strike(|_, _| chance.once_in(2)),
        _ => strike_some(chance, &mut left),
    }
    left.together()
}

/// Some parts of another pyramid's record, of the same size and as many
/// planes. Where only few are left, none need be in the other too.
fn selection_of_another(chance: &mut Chance, whole: &[u8]) -> Vec<u8> {
    let header = Walk::begin(whole).expect("a whole record").header();
    let mut pyramid = pyramids::any_pyramid(chance, header.shape);
    for coefficient in &mut pyramid {
        *coefficient %= 1 << header.planes;
    }
    let mut left = Pieces::of(&whole_in(&pyramid, header.shape, header.planes));
    if chance.once_in(2) && !left.parts.is_empty() {
        let kept = chance.below(left.parts.len());
        left.parts = vec![left.parts.swap_remove(kept)];
    } else {
        strike_some(chance, &mut left);
    }
    left.together()
}

/// The header of another size, or with another number of planes, before parts
/// that need not be legal behind it.
fn with_another_header(chance: &mut Chance, whole: &[u8]) -> Vec<u8> {
    let mut left = Pieces::of(whole);
    if chance.once_in(2) {
        let shape = shapes::any_shape(chance);
        let numbers = [shape.width(), shape.height(), shape.decompositions()];
        for (number, value) in left.header[1..].iter_mut().zip(numbers) {
            number.clear();
            push_number(number, value);
        }
    } else {
        left.header[4].clear();
        push_number(
            &mut left.header[4],
            chance.below(MOST_PLANES as usize + 1) as u32,
        );
    }
    if chance.once_in(2) {
        left.parts.clear();
    }
    left.together()
}

/// Within a body, so that it is still a record.
fn change_a_bit(chance: &mut Chance, record: &mut Vec<u8>) {
    let mut pieces = Pieces::of(record);
    pieces.parts.retain(|part| part.bits > 0);
    if pieces.parts.is_empty() {
        return;
    }
    let at = chance.below(pieces.parts.len());
    let part = &mut pieces.parts[at];
    let bit = chance.below(part.bits);
    part.body[bit / 8] ^= 0x80 >> (bit % 8);
    *record = pieces.together();
}

fn cut_some(chance: &mut Chance, pair: &mut [Vec<u8>; 2]) {
    let which = 1 + chance.below(3);
    for (at, record) in pair.iter_mut().enumerate() {
        if which >> at & 1 == 1 {
            record.truncate(chance.below(record.len() + 1));
        }
    }
}
