//! Binary Netpbm grey files: P5 with a maxval of 255.
//!
//! To Netpbm's own reader a comment is nothing but the line end behind it, so
//! that it may stand, and may touch a number, wherever a blank may be. Without
//! comments a header is four words, each ended by a blank; the first may have
//! more blanks behind it, and so may width and height, but the last one has no
//! more: what follows its blank is a pixel.

use crate::refusal::{Cause, Refusal};
use std::slice::Iter;

const MAGIC: &[u8] = b"P5";
const MAXVAL: u64 = 255;

/// The sides that a file tells, legal or not, each at most 2^64 - 1 even where
/// the file tells more; and its pixels, row by row. Bytes behind them are left
/// out.
#[derive(Clone, Copy, Debug, PartialEq, Eq)]
pub struct GreyFile<'f> {
    pub width: u64,
    pub height: u64,
    pub pixels: &'f [u8],
}

/// The file's picture, or GREY: not such a header, another maxval, header or
/// pixels cut short.
pub fn read(file: &[u8]) -> Result<GreyFile<'_>, Refusal> {
    picture(file).ok_or_else(|| Refusal::new(Cause::Grey))
}

fn picture(file: &[u8]) -> Option<GreyFile<'_>> {
    let mut words = Words::of(file);
    if words.next()? != MAGIC {
        return None;
    }
    let (width, height, maxval) = (words.number()?, words.number()?, words.number()?);
    let behind = words.behind();
    // As no file has 2^64 bytes, a side that is told as less than it is has the
    // same verdict.
    let wanted = u128::from(width) * u128::from(height);
    if maxval != MAXVAL || wanted > behind.len() as u128 {
        return None;
    }
    Some(GreyFile {
        width,
        height,
        pixels: &behind[..wanted as usize],
    })
}

/// The header that is written: three lines, width and height with one space.
pub fn header(width: u32, height: u32) -> Vec<u8> {
    format!("P5\n{width} {height}\n{MAXVAL}\n").into_bytes()
}

/// A whole file: the header and the pixels.
pub fn file(width: u32, height: u32, pixels: &[u8]) -> Vec<u8> {
    [&header(width, height), pixels].concat()
}

fn is_blank(byte: u8) -> bool {
    matches!(byte, b' ' | b'\t' | b'\n' | b'\r')
}

/// The bytes with each comment left out up to its line end. A comment without
/// one has no end, and then neither has the header.
struct Uncommented<'f> {
    bytes: Iter<'f, u8>,
}

impl Iterator for Uncommented<'_> {
    type Item = u8;

    fn next(&mut self) -> Option<u8> {
        match *self.bytes.next()? {
            b'#' => {
                let line_end = |byte: &&u8| matches!(**byte, b'\n' | b'\r');
                self.bytes.find(line_end).copied()
            }
            byte => Some(byte),
        }
    }
}

/// What stands before each blank; between two of them that is an empty word.
/// Of what comes behind a word only its blank is taken.
struct Words<'f> {
    bytes: Uncommented<'f>,
}

impl<'f> Words<'f> {
    fn of(file: &'f [u8]) -> Words<'f> {
        let bytes = file.iter();
        Words {
            bytes: Uncommented { bytes },
        }
    }

    fn number(&mut self) -> Option<u64> {
        let word = self.find(|word| !word.is_empty())?;
        word.iter().try_fold(0u64, |value, &byte| {
            let digit = char::from(byte).to_digit(10)?;
            Some(value.saturating_mul(10).saturating_add(digit.into()))
        })
    }

    fn behind(&self) -> &'f [u8] {
        self.bytes.bytes.as_slice()
    }
}

impl Iterator for Words<'_> {
    type Item = Vec<u8>;

    /// None where the bytes end before a blank does end the word.
    fn next(&mut self) -> Option<Vec<u8>> {
        let mut word = Vec::new();
        loop {
            match self.bytes.next()? {
                byte if is_blank(byte) => return Some(word),
                byte => word.push(byte),
            }
        }
    }
}
