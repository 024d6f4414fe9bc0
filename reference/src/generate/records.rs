//! Records of every kind: whole, struck, cut, damaged in every number, with
//! bits that fit but that no coder wrote, and noise.

use super::{pyramids, shapes, Chance};
use crate::coder::{code_in_planes, largest_of};
use crate::family::Node;
use crate::layout::{body_length, head_bytes, push_number, Header, Packer, LONGEST_NUMBER};
use crate::lists::AllLists;
use crate::passes::{run_part, Side};
use crate::reading::Walk;
use crate::size::{earlier_planes_of, planes_of, Level, Plane, Shape, MOST_PLANES};
use crate::slip::Faithful;
use std::convert::Infallible;

/// Room enough for the record of any pyramid of this shape: 17 planes of at
/// most 37/16 bits a coefficient, and the heads.
pub fn room_for(shape: Shape) -> usize {
    16 + 17 * (shape.area() * 37 / 128 + 6 * 8)
}

/// The coder's record of a pyramid.
pub fn whole(pyramid: &[i32], shape: Shape) -> Vec<u8> {
    whole_in(pyramid, shape, planes_of(largest_of(pyramid)))
}

/// A pyramid's record of so many planes.
pub fn whole_in(pyramid: &[i32], shape: Shape, planes: u32) -> Vec<u8> {
    let mut out = vec![0; room_for(shape)];
    let mut work = vec![0; shape.workspace()];
    let size = (
        shape.width().into(),
        shape.height().into(),
        shape.decompositions().into(),
    );
    let answer = code_in_planes::<Faithful>(pyramid, size, planes, &mut out, &mut work);
    assert_eq!(answer.number, 0, "a legal pyramid is coded");
    out.truncate(answer.length as usize);
    out
}

/// Where the number of planes of a record comes from.
#[derive(Clone, Copy, Debug, PartialEq, Eq)]
pub enum Count {
    /// The coder's; also the earlier one, where both are the same.
    Now,
    /// That of the coder before it rounded down, being another.
    Earlier,
    /// More than either.
    More,
    /// No pyramid was coded.
    Invented,
}

impl Count {
    pub const fn name(self) -> &'static str {
        match self {
            Count::Now => "this count",
            Count::Earlier => "the earlier count",
            Count::More => "more planes",
            Count::Invented => "invented",
        }
    }
}

/// A record to begin from.
#[derive(Clone, Debug)]
pub struct Whole {
    pub bytes: Vec<u8>,
    pub count: Count,
}

/// A pyramid's record of any count: of the earlier one in every second case.
pub fn of_any_count(chance: &mut Chance, pyramid: &[i32], shape: Shape) -> Whole {
    let largest = largest_of(pyramid);
    let (now, earlier) = (planes_of(largest), earlier_planes_of(largest));
    let planes = match chance.weighted(&[6, 12, 4]) {
        0 => now,
        1 => earlier,
        _ => MOST_PLANES - chance.below((MOST_PLANES - earlier) as usize + 1) as u32,
    };
    let count = match planes {
        _ if planes == now => Count::Now,
        _ if planes == earlier => Count::Earlier,
        _ => Count::More,
    };
    let bytes = whole_in(pyramid, shape, planes);
    Whole { bytes, count }
}

/// A record whose bits fit but that no coder wrote: the passes are run with
/// bits drawn by chance. Magnitudes come up to 131,071, families are opened
/// for nothing, planes are empty.
pub fn invented(chance: &mut Chance, shape: Shape) -> Vec<u8> {
    let header = Header {
        shape,
        planes: chance.below(MOST_PLANES as usize + 1) as u32,
    };
    let mut work = vec![0; shape.workspace()];
    let mut lists = AllLists::start(shape, &mut work);
    let mut record = header.bytes();
    let mut inventor = Inventor {
        likelihood: 1 + chance.below(60),
        chance,
        body: Packer::default(),
    };
    for (plane, level) in header.parts_in_order() {
        inventor.body.clear();
        match run_part::<Faithful, _>(shape, &mut lists, plane, level, &mut inventor) {
            Ok(()) => {}
            Err(never) => match never {},
        }
        let (bits, body) = inventor.body.close();
        record.extend(head_bytes(plane, level, bits));
        record.extend(body);
    }
    record
}

/// A side of the passes that answers by chance.
struct Inventor<'c> {
    chance: &'c mut Chance,
    /// In percent, of a significance bit being 1.
    likelihood: usize,
    body: Packer,
}

impl Inventor<'_> {
    fn draw(&mut self, percent: usize) -> bool {
        let bit = self.chance.percent(percent);
        self.body.push(bit);
        bit
    }
}

impl Side for Inventor<'_> {
    type Stop = Infallible;

    fn coefficient(&mut self, _: usize, _: Plane) -> Result<bool, Infallible> {
        let significant = self.draw(self.likelihood);
        if significant {
            self.draw(50);
        }
        Ok(significant)
    }

    fn descendants(&mut self, _: Node, _: Plane) -> Result<bool, Infallible> {
        Ok(self.draw(self.likelihood))
    }

    fn leaves(&mut self, _: Node, _: Plane) -> Result<bool, Infallible> {
        Ok(self.draw(self.likelihood))
    }

    fn refinement(&mut self, _: usize, _: Plane) -> Result<(), Infallible> {
        self.draw(50);
        Ok(())
    }
}

/// A record taken apart into its numbers, each held as the bytes that stand
/// for it, so that any of them can be replaced, by no number even.
#[derive(Clone, Debug)]
pub struct Pieces {
    pub header: [Vec<u8>; 5],
    pub parts: Vec<PartPieces>,
}

#[derive(Clone, Debug)]
pub struct PartPieces {
    pub plane: Plane,
    pub level: Level,
    pub bits: usize,
    pub head: [Vec<u8>; 3],
    pub body: Vec<u8>,
}

fn number_bytes(value: u32) -> Vec<u8> {
    let mut bytes = Vec::new();
    push_number(&mut bytes, value);
    bytes
}

impl Pieces {
    /// Of a record that reading accepts; a tail is left out.
    pub fn of(record: &[u8]) -> Pieces {
        let mut walk = Walk::begin(record).expect("a legal header");
        let Header { shape, planes } = walk.header();
        let mut parts = Vec::new();
        while let Some(part) = walk.next_part().expect("legal parts") {
            parts.push(PartPieces {
                plane: part.plane,
                level: part.level,
                bits: part.bits,
                head: [part.plane.0, part.level.0, part.bits as u32].map(number_bytes),
                body: part.body.to_vec(),
            });
        }
        Pieces {
            header: [
                1,
                shape.width(),
                shape.height(),
                shape.decompositions(),
                planes,
            ]
            .map(number_bytes),
            parts,
        }
    }

    pub fn together(&self) -> Vec<u8> {
        let mut record: Vec<u8> = self.header.concat();
        for part in &self.parts {
            record.extend(part.head.concat());
            record.extend(&part.body);
        }
        record
    }

    /// Strikes out the parts that `strikes` names.
    pub fn strike(&mut self, mut strikes: impl FnMut(Plane, Level) -> bool) {
        self.parts.retain(|part| !strikes(part.plane, part.level));
    }
}

/// Ways to go at a whole record.
#[derive(Clone, Copy, Debug, PartialEq, Eq)]
pub enum Harm {
    None,
    /// Parts struck out.
    Struck,
    /// The bytes end anywhere.
    Cut,
    /// One number of the header is another, or none.
    HeaderNumber,
    /// One number of a part's head is another, or none.
    HeadNumber,
    /// One of these eight numbers is not in its shortest form.
    LongForm,
    /// One of these eight numbers has too many bytes.
    TooManyBytes,
    /// Padding bits set.
    Padding,
    /// Bits of a body turned over.
    Body,
    /// A bit more or fewer, count and body agreeing.
    BitCount,
    /// Parts in each other's places, or twice.
    Order,
    /// Any bytes turned over, put in or taken out.
    AnyBytes,
    /// Bytes put after the end.
    After,
    /// Nothing of it is left: noise, or a header and noise.
    Noise,
}

impl Harm {
    pub const ALL: [Harm; 14] = [
        Harm::None,
        Harm::Struck,
        Harm::Cut,
        Harm::HeaderNumber,
        Harm::HeadNumber,
        Harm::LongForm,
        Harm::TooManyBytes,
        Harm::Padding,
        Harm::Body,
        Harm::BitCount,
        Harm::Order,
        Harm::AnyBytes,
        Harm::After,
        Harm::Noise,
    ];
}

/// A whole record to begin from: a coder's of any count, or one with invented
/// bits.
pub fn any_whole(chance: &mut Chance, shape: Shape) -> Whole {
    if chance.once_in(4) {
        return Whole {
            bytes: invented(chance, shape),
            count: Count::Invented,
        };
    }
    let pyramid = pyramids::any_pyramid(chance, shape);
    of_any_count(chance, &pyramid, shape)
}

/// The record after one harm of any kind, or two in turn, or none.
pub fn any_record(chance: &mut Chance, record: &[u8]) -> Vec<u8> {
    let first = *chance.pick(&Harm::ALL);
    let second = if chance.once_in(5) {
        *chance.pick(&Harm::ALL)
    } else {
        Harm::None
    };
    let mut pieces = Pieces::of(record);
    for harm in [first, second] {
        harm_pieces(chance, &mut pieces, harm);
    }
    let mut bytes = pieces.together();
    for harm in [first, second] {
        bytes = harm_bytes(chance, bytes, harm);
    }
    bytes
}

/// What arrives of a record where the bytes end in mid body, or before any of
/// it. Damaged: bits are turned over in a part, or one has more bits than it
/// should, so that the walk may end before the bits that are there.
pub fn cut_in_a_body(chance: &mut Chance, mut pieces: Pieces, damaged: bool) -> Vec<u8> {
    let with_body: Vec<usize> = (0..pieces.parts.len())
        .filter(|&at| !pieces.parts[at].body.is_empty())
        .collect();
    if with_body.is_empty() {
        return pieces.together();
    }
    let last = *chance.pick(&with_body);
    pieces.parts.truncate(last + 1);
    if damaged {
        match chance.below(3) {
            0 => turn_bits(chance, &mut pieces.parts[last]),
            1 => lengthen(chance, &mut pieces.parts[last]),
            _ => {
                let part = any_part(chance, &mut pieces);
                turn_bits(chance, part);
            }
        }
    }
    let missing = 1 + chance.below(pieces.parts[last].body.len());
    let mut bytes = pieces.together();
    bytes.truncate(bytes.len() - missing);
    bytes
}

/// Up to five bytes more than the bits need.
fn lengthen(chance: &mut Chance, part: &mut PartPieces) {
    let more = 1 + chance.below(5);
    let bytes = chance.bytes(more);
    part.body.extend(bytes);
    part.bits = 8 * part.body.len();
    part.head[2] = number_bytes(part.bits as u32);
}

/// The harms that need to know where parts and numbers are.
pub fn harm_pieces(chance: &mut Chance, pieces: &mut Pieces, harm: Harm) {
    match harm {
        Harm::Struck => strike_some(chance, pieces),
        Harm::HeaderNumber => {
            let at = chance.below(pieces.header.len());
            replace_number(chance, &mut pieces.header[at]);
        }
        Harm::LongForm => {
            let number = any_number(chance, pieces);
            *number = long_form(chance, number);
        }
        Harm::TooManyBytes => *any_number(chance, pieces) = too_many_bytes(chance),
        _ if pieces.parts.is_empty() => {}
        Harm::HeadNumber => {
            let part = any_part(chance, pieces);
            let at = chance.below(part.head.len());
            replace_number(chance, &mut part.head[at]);
        }
        Harm::Padding => set_padding(chance, pieces),
        Harm::Body => {
            let part = any_part(chance, pieces);
            turn_bits(chance, part);
        }
        Harm::BitCount => {
            let part = any_part(chance, pieces);
            change_count(chance, part);
        }
        Harm::Order => disorder(chance, pieces),
        _ => {}
    }
}

/// The harms that take a record for mere bytes.
pub fn harm_bytes(chance: &mut Chance, mut bytes: Vec<u8>, harm: Harm) -> Vec<u8> {
    match harm {
        Harm::Cut => {
            bytes.truncate(chance.below(bytes.len() + 1));
            bytes
        }
        Harm::AnyBytes => {
            for _ in 0..1 + chance.below(3) {
                change_a_byte(chance, &mut bytes);
            }
            bytes
        }
        Harm::After => {
            let length = 1 + chance.below(6);
            bytes.extend(chance.bytes(length));
            bytes
        }
        Harm::Noise => noise(chance),
        _ => bytes,
    }
}

fn any_part<'p>(chance: &mut Chance, pieces: &'p mut Pieces) -> &'p mut PartPieces {
    let at = chance.below(pieces.parts.len());
    &mut pieces.parts[at]
}

/// One of the header's five numbers, or of the three of any part's head.
fn any_number<'p>(chance: &mut Chance, pieces: &'p mut Pieces) -> &'p mut Vec<u8> {
    let in_header = pieces.header.len();
    let which = chance.below(in_header + 3);
    if which < in_header || pieces.parts.is_empty() {
        &mut pieces.header[which % in_header]
    } else {
        &mut any_part(chance, pieces).head[which - in_header]
    }
}

/// Each part with some likelihood, or one alone, or one level or plane.
pub fn strike_some(chance: &mut Chance, pieces: &mut Pieces) {
    if pieces.parts.is_empty() {
        return;
    }
    let (plane, level) = {
        let part = any_part(chance, pieces);
        (part.plane, part.level)
    };
    match chance.below(5) {
        0 => pieces.strike(|p, k| (p, k) == (plane, level)),
        1 => pieces.strike(|p, _| p == plane),
        2 => pieces.strike(|_, k| k == level),
        _ => {
            let likelihood = 1 + chance.below(50);
            pieces.strike(|_, _| chance.percent(likelihood));
        }
    }
}

/// Another value, a number that has none, or no number.
fn replace_number(chance: &mut Chance, number: &mut Vec<u8>) {
    *number = match chance.below(8) {
        0 => Vec::new(),
        1 => number_bytes(chance.below(8) as u32),
        2 => number_bytes(chance.below(1 << 10) as u32),
        3 => number_bytes((chance.word() >> 36) as u32),
        4 => neighbour(chance, number),
        5 => long_form(chance, number),
        6 => too_many_bytes(chance),
        _ => number_bytes(*chance.pick(&[0, 1, 2, 3, 4, 5, 6, 7, 17, 18, 64, 127, 128, 512, 516])),
    };
}

/// One more or one less.
fn neighbour(chance: &mut Chance, number: &[u8]) -> Vec<u8> {
    let value = number
        .iter()
        .rev()
        .fold(0, |value, byte| value << 7 | u32::from(byte & 0x7F));
    let near = if chance.once_in(2) {
        value + 1
    } else {
        value.saturating_sub(1)
    };
    number_bytes(near & ((1 << 28) - 1))
}

/// The same value with groups of 0 after it, of as many bytes as a number may
/// have at most.
fn long_form(chance: &mut Chance, number: &[u8]) -> Vec<u8> {
    let mut bytes = number.to_vec();
    bytes.truncate(LONGEST_NUMBER - 1);
    let least = bytes.len().max(1);
    let groups = least + chance.below(LONGEST_NUMBER - least);
    bytes.resize(groups, 0);
    bytes.iter_mut().for_each(|byte| *byte |= 0x80);
    bytes.push(0);
    bytes
}

/// As many bytes as a number may have, and each says that another follows.
fn too_many_bytes(chance: &mut Chance) -> Vec<u8> {
    let mut bytes = chance.bytes(LONGEST_NUMBER);
    bytes.iter_mut().for_each(|byte| *byte |= 0x80);
    bytes
}

/// In the first part from a place of chance on that has padding.
fn set_padding(chance: &mut Chance, pieces: &mut Pieces) {
    let count = pieces.parts.len();
    let first = chance.below(count);
    for at in (0..count).map(|step| (first + step) % count) {
        let part = &mut pieces.parts[at];
        let free = (8 - part.bits % 8) % 8;
        if free > 0 {
            let last = part.body.last_mut().expect("bits have a byte");
            *last |= 1 << chance.below(free);
            return;
        }
    }
}

/// Bits within the bit count, so that PAD isn't given for them.
fn turn_bits(chance: &mut Chance, part: &mut PartPieces) {
    if part.bits == 0 {
        return;
    }
    for _ in 0..1 + chance.below(3) {
        let at = chance.below(part.bits);
        part.body[at / 8] ^= 0x80 >> (at % 8);
    }
}

fn change_count(chance: &mut Chance, part: &mut PartPieces) {
    let by = chance.between(-9, 9);
    let bits = (part.bits as i64 + by).max(0) as usize;
    part.bits = bits;
    part.head[2] = number_bytes(bits as u32);
    part.body.resize(body_length(bits), 0);
    if let (Some(last), used) = (part.body.last_mut(), bits % 8) {
        if used > 0 {
            *last &= !(0xFF >> used);
        }
    }
}

fn disorder(chance: &mut Chance, pieces: &mut Pieces) {
    let one = chance.below(pieces.parts.len());
    let other = chance.below(pieces.parts.len());
    if chance.once_in(2) {
        pieces.parts.swap(one, other);
    } else {
        let again = pieces.parts[one].clone();
        pieces.parts.insert(other, again);
    }
}

fn change_a_byte(chance: &mut Chance, bytes: &mut Vec<u8>) {
    if bytes.is_empty() {
        return;
    }
    let at = chance.below(bytes.len());
    match chance.below(4) {
        0 => bytes[at] = chance.word() as u8,
        1 => bytes[at] ^= 1 << chance.below(8),
        2 => bytes.insert(at, chance.word() as u8),
        _ => {
            bytes.remove(at);
        }
    }
}

/// Bytes of chance, on their own or after a legal header or a legal head.
pub fn noise(chance: &mut Chance) -> Vec<u8> {
    let length = chance.below(40);
    if chance.once_in(3) {
        return chance.bytes(length);
    }
    let shape = shapes::any_shape(chance);
    let header = Header {
        shape,
        planes: chance.below(MOST_PLANES as usize + 1) as u32,
    };
    let mut bytes = header.bytes();
    if chance.once_in(2) && header.planes > 0 {
        let bits = chance.below(40);
        bytes.extend(head_bytes(Plane(header.planes - 1), shape.coarsest(), bits));
    }
    bytes.extend(chance.bytes(length));
    bytes
}
