//! Record layout: numbers in seven-bit groups, the header, part heads, and
//! bits packed into bodies.

use crate::refusal::{Cause, Refusal};
use crate::size::{Level, Plane, Shape};

/// The only version there is.
pub const VERSION: u32 = 1;
/// A number has at most this many bytes.
pub const LONGEST_NUMBER: usize = 4;

/// What stands where a number should begin.
#[derive(Clone, Copy, Debug, PartialEq, Eq)]
pub enum Number {
    /// A number in its shortest form, and where the bytes after it begin.
    Value { value: u32, next: usize },
    /// A fourth byte with the top bit set.
    TooManyBytes,
    /// Several bytes and the last 0.
    LongForm,
    /// The bytes end before the number does.
    CutOff,
}

/// Reads a number: groups of seven bits, lowest first, a set top bit saying
/// that another byte follows.
pub fn read_number(bytes: &[u8], at: usize) -> Number {
    let mut value = 0;
    for group in 0..LONGEST_NUMBER {
        let byte = match bytes.get(at + group) {
            Some(&byte) => byte,
            None => return Number::CutOff,
        };
        value |= u32::from(byte & 0x7F) << (7 * group);
        if byte & 0x80 == 0 {
            let shortest = group == 0 || byte != 0;
            let next = at + group + 1;
            return if shortest {
                Number::Value { value, next }
            } else {
                Number::LongForm
            };
        }
    }
    Number::TooManyBytes
}

/// Appends a number in its shortest form. It is below 2^28.
pub fn push_number(bytes: &mut Vec<u8>, mut value: u32) {
    debug_assert!(value < 1 << 28);
    while value >= 0x80 {
        bytes.push(value as u8 | 0x80);
        value >>= 7;
    }
    bytes.push(value as u8);
}

/// What a header says, once it is found legal.
#[derive(Clone, Copy, Debug, PartialEq, Eq)]
pub struct Header {
    pub shape: Shape,
    pub planes: u32,
}

impl Header {
    pub fn bytes(&self) -> Vec<u8> {
        let mut bytes = Vec::new();
        for number in [
            VERSION,
            self.shape.width(),
            self.shape.height(),
            self.shape.decompositions(),
            self.planes,
        ] {
            push_number(&mut bytes, number);
        }
        bytes
    }

    /// The places of a record in their order: planes downward, and levels
    /// downward in a plane.
    pub fn parts_in_order(self) -> impl Iterator<Item = (Plane, Level)> {
        Plane::downward(self.planes).flat_map(move |plane| {
            self.shape
                .levels_downward()
                .map(move |level| (plane, level))
        })
    }
}

/// A part's head: plane, level, bit count.
pub fn head_bytes(plane: Plane, level: Level, bits: usize) -> Vec<u8> {
    let mut bytes = Vec::new();
    push_number(&mut bytes, plane.0);
    push_number(&mut bytes, level.0);
    push_number(&mut bytes, bits as u32);
    bytes
}

/// The whole bytes that hold so many bits.
pub fn body_length(bits: usize) -> usize {
    (bits + 7) / 8
}

/// Whether the last byte's bits beyond the bit count are all 0.
pub fn padding_is_clear(body: &[u8], bits: usize) -> bool {
    match (body.last(), bits % 8) {
        (None, _) | (_, 0) => true,
        (Some(&last), used) => last & (0xFF >> used) == 0,
    }
}

/// A body being packed, most significant bit first.
#[derive(Default)]
pub struct Packer {
    bytes: Vec<u8>,
    /// The bits not yet in `bytes`, fewer than 64, the latest lowest.
    open: u64,
    open_bits: u32,
}

impl Packer {
    #[inline]
    pub fn push(&mut self, bit: bool) {
        self.open = self.open << 1 | u64::from(bit);
        self.open_bits += 1;
        if self.open_bits == u64::BITS {
            self.bytes.extend_from_slice(&self.open.to_be_bytes());
            self.open = 0;
            self.open_bits = 0;
        }
    }

    /// Bit count and body, padded with 0 bits.
    pub fn close(&mut self) -> (usize, &[u8]) {
        let bits = 8 * self.bytes.len() + self.open_bits as usize;
        if self.open_bits > 0 {
            let padded = self.open << (u64::BITS - self.open_bits);
            let length = body_length(self.open_bits as usize);
            self.bytes
                .extend_from_slice(&padded.to_be_bytes()[..length]);
            self.open = 0;
            self.open_bits = 0;
        }
        (bits, &self.bytes)
    }

    /// Begins the next body, in the same memory.
    pub fn clear(&mut self) {
        self.bytes.clear();
        self.open = 0;
        self.open_bits = 0;
    }
}

/// The bits of a body being read.
pub struct Bits<'r> {
    body: &'r [u8],
    count: usize,
    at: usize,
}

/// A bit was asked for and there is none left.
#[derive(Clone, Copy, Debug, PartialEq, Eq)]
pub struct RanOut;

impl<'r> Bits<'r> {
    pub fn new(body: &'r [u8], count: usize) -> Bits<'r> {
        Bits { body, count, at: 0 }
    }

    #[inline]
    pub fn take(&mut self) -> Result<bool, RanOut> {
        if self.at == self.count {
            return Err(RanOut);
        }
        let bit = self.body[self.at / 8] >> (7 - self.at % 8) & 1;
        self.at += 1;
        Ok(bit == 1)
    }

    pub fn all_read(&self) -> bool {
        self.at == self.count
    }
}

/// A result on its way into a lent output. It may turn out longer than the
/// output: the length is counted on, as ROOM is judged by the whole result.
pub struct Written<'o> {
    out: &'o mut [u8],
    length: usize,
}

impl<'o> Written<'o> {
    pub fn to(out: &'o mut [u8]) -> Written<'o> {
        Written { out, length: 0 }
    }

    pub fn append(&mut self, bytes: &[u8]) {
        let end = self.length + bytes.len();
        if let Some(place) = self.out.get_mut(self.length..end) {
            place.copy_from_slice(bytes);
        }
        self.length = end;
    }

    /// The result's length, with zeros after it, or ROOM.
    pub fn finish(self) -> Result<usize, Refusal> {
        match self.out.get_mut(self.length..) {
            Some(rest) => {
                rest.fill(0);
                Ok(self.length)
            }
            None => Err(Refusal::new(Cause::Room)),
        }
    }
}
