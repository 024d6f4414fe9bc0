//! Grey files of every kind: headers in every writing, and headers and files
//! that are damaged in one thing.

use super::Chance;
use crate::netpbm;

const BLANKS: [u8; 4] = *b" \t\n\r";
const LINE_ENDS: [u8; 2] = *b"\n\r";
/// Bytes that a reader may take for something else.
const TELLING: &[u8] = b"\x0b\x0c\0#-+.,_P5p0129aAxX \t\n\r\x80\x85\xa0\xff";
/// The most digits of a number.
const MOST_DIGITS: usize = 30;

/// A grey file taken apart, each piece held as the bytes that stand for it, so
/// that any can be replaced.
#[derive(Clone, Debug)]
pub struct GreyPieces {
    pub magic: Vec<u8>,
    /// Width, height and maxval, each with the gap before it.
    pub numbers: [GreyNumber; 3],
    pub end: Vec<u8>,
    pub pixels: Vec<u8>,
    pub rest: Vec<u8>,
}

#[derive(Clone, Debug)]
pub struct GreyNumber {
    pub gap: Vec<u8>,
    pub digits: Vec<u8>,
}

impl GreyPieces {
    /// A good file in any writing, with bytes behind its pixels at times. The
    /// sides are given as digits, as they may be any number. The first pixel is
    /// at times one that a reader may take for a part of the header.
    pub fn any_writing(
        chance: &mut Chance,
        width: &str,
        height: &str,
        mut pixels: Vec<u8>,
    ) -> GreyPieces {
        let plain = chance.once_in(6);
        if let (true, Some(first)) = (chance.once_in(4), pixels.first_mut()) {
            *first = *chance.pick(TELLING);
        }
        let numbers = [width, height, "255"].map(|digits| GreyNumber {
            gap: if plain { vec![b' '] } else { gap(chance) },
            digits: with_zeros(chance, digits, plain),
        });
        let end = match chance.below(4) {
            0 => comment(chance),
            _ => vec![*chance.pick(&BLANKS)],
        };
        GreyPieces {
            magic: b"P5".to_vec(),
            numbers,
            end,
            pixels,
            rest: rest(chance),
        }
    }

    pub fn header(&self) -> Vec<u8> {
        let mut bytes = self.magic.clone();
        for number in &self.numbers {
            bytes.extend(&number.gap);
            bytes.extend(&number.digits);
        }
        bytes.extend(&self.end);
        bytes
    }

    pub fn together(&self) -> Vec<u8> {
        [&self.header()[..], &self.pixels, &self.rest].concat()
    }

    /// Whether a comment stands before a number.
    pub fn has_comment(&self) -> bool {
        self.numbers.iter().any(|number| number.gap.contains(&b'#'))
    }

    /// Whether a comment stands right behind a number.
    pub fn comment_touches(&self) -> bool {
        let mut behind = self.numbers[1..].iter().map(|number| &number.gap);
        behind.any(|gap| gap.starts_with(b"#"))
    }

    /// Whether the maxval is ended by a comment.
    pub fn ends_in_comment(&self) -> bool {
        self.end.starts_with(b"#")
    }

    pub fn has_long_number(&self) -> bool {
        let mut numbers = self.numbers.iter();
        numbers.any(|number| number.digits.len() >= 20)
    }
}

/// One to four of blanks and comments, these with their line end.
fn gap(chance: &mut Chance) -> Vec<u8> {
    let mut bytes = Vec::new();
    for _ in 0..1 + chance.below(4) * chance.below(2) {
        if chance.percent(35) {
            bytes.extend(comment(chance));
        } else {
            bytes.push(*chance.pick(&BLANKS));
        }
    }
    bytes
}

/// Anything but a line end may stand in a comment; a line end follows it.
fn comment(chance: &mut Chance) -> Vec<u8> {
    let mut bytes = vec![b'#'];
    for _ in 0..chance.below(9) {
        let byte = if chance.once_in(2) {
            *chance.pick(TELLING)
        } else {
            chance.word() as u8
        };
        if !LINE_ENDS.contains(&byte) {
            bytes.push(byte);
        }
    }
    bytes.push(*chance.pick(&LINE_ENDS));
    bytes
}

fn with_zeros(chance: &mut Chance, digits: &str, plain: bool) -> Vec<u8> {
    let length = if plain || chance.below(4) > 0 {
        digits.len()
    } else {
        digits.len() + chance.below(MOST_DIGITS + 1 - digits.len().min(MOST_DIGITS))
    };
    format!("{digits:0>length$}").into_bytes()
}

/// Nothing, a few bytes, or a second picture.
fn rest(chance: &mut Chance) -> Vec<u8> {
    match chance.below(6) {
        0 => {
            let length = 1 + chance.below(20);
            chance.bytes(length)
        }
        1 => netpbm::file(2, 2, &[1, 2, 3, 4]),
        _ => Vec::new(),
    }
}

/// A side of any size as digits.
pub fn any_digits(chance: &mut Chance) -> String {
    match chance.below(5) {
        0 => {
            let wide = [u64::MAX, u64::MAX - 1, 1 << 63, (1 << 63) - 1, 1 << 32];
            chance.pick(&wide).to_string()
        }
        1 => {
            // At 2^64 and just over it.
            (u128::from(u64::MAX) + chance.below(10) as u128).to_string()
        }
        2 => chance.word().to_string(),
        _ => {
            let length = 1 + chance.below(MOST_DIGITS);
            let digit = |_| char::from(*chance.pick(b"0123456789"));
            (0..length).map(digit).collect()
        }
    }
}

/// A file whose header is the point: sides of every kind, few pixels. Where a
/// side is beyond all bounds the other is 0 for the most part, as only then
/// it is a picture.
pub fn any_header(chance: &mut Chance) -> GreyPieces {
    let (width, height) = match chance.weighted(&[6, 3, 1, 3, 1]) {
        0 => (chance.below(13), chance.below(13)),
        1 => (4 * chance.below(9), 4 * chance.below(9)),
        2 => (1 + chance.below(600), 1),
        3 => return header_of_any_number(chance),
        _ => {
            let (width, height) = (any_digits(chance), any_digits(chance));
            return GreyPieces::any_writing(chance, &width, &height, Vec::new());
        }
    };
    let pixels = chance.bytes(width * height);
    GreyPieces::any_writing(chance, &width.to_string(), &height.to_string(), pixels)
}

fn header_of_any_number(chance: &mut Chance) -> GreyPieces {
    let (any, none) = (any_digits(chance), "0".to_string());
    let (width, height) = if chance.once_in(2) {
        (any, none)
    } else {
        (none, any)
    };
    GreyPieces::any_writing(chance, &width, &height, Vec::new())
}

/// Ways to go at a good file.
#[derive(Clone, Copy, Debug, PartialEq, Eq)]
pub enum GreyHarm {
    /// The bytes end anywhere in the header.
    CutHeader,
    /// The bytes end before the last pixel.
    CutPixels,
    /// One byte of the header is another.
    Byte,
    /// One byte is put into the header.
    Put,
    /// One byte of the header is taken out.
    Taken,
    Magic,
    Maxval,
    /// No gap before a number, or none behind the last.
    NoGap,
    /// Something that isn't a blank between two numbers.
    WrongGap,
    /// A number with a sign, a point, in another base, or no number.
    WrongNumber,
    /// A comment that never ends.
    OpenComment,
    /// Nothing of it is left.
    Noise,
}

impl GreyHarm {
    pub const ALL: [GreyHarm; 12] = [
        GreyHarm::CutHeader,
        GreyHarm::CutPixels,
        GreyHarm::Byte,
        GreyHarm::Put,
        GreyHarm::Taken,
        GreyHarm::Magic,
        GreyHarm::Maxval,
        GreyHarm::NoGap,
        GreyHarm::WrongGap,
        GreyHarm::WrongNumber,
        GreyHarm::OpenComment,
        GreyHarm::Noise,
    ];

    pub fn name(self) -> &'static str {
        match self {
            GreyHarm::CutHeader => "header cut",
            GreyHarm::CutPixels => "pixels cut",
            GreyHarm::Byte => "byte changed",
            GreyHarm::Put => "byte put in",
            GreyHarm::Taken => "byte taken out",
            GreyHarm::Magic => "magic",
            GreyHarm::Maxval => "maxval",
            GreyHarm::NoGap => "no gap",
            GreyHarm::WrongGap => "wrong gap",
            GreyHarm::WrongNumber => "wrong number",
            GreyHarm::OpenComment => "open comment",
            GreyHarm::Noise => "noise",
        }
    }
}

/// The file's bytes after a harm. Those of single bytes may leave it good, as
/// in a comment.
pub fn harmed(chance: &mut Chance, mut pieces: GreyPieces, harm: GreyHarm) -> Vec<u8> {
    let header = pieces.header();
    match harm {
        GreyHarm::CutHeader => return header[..chance.below(header.len())].to_vec(),
        GreyHarm::CutPixels => return cut_pixels(chance, &pieces),
        GreyHarm::Byte | GreyHarm::Put | GreyHarm::Taken => {
            let changed = change_a_byte(chance, header, harm);
            return [&changed[..], &pieces.pixels, &pieces.rest].concat();
        }
        GreyHarm::Noise => return noise(chance),
        GreyHarm::Magic => pieces.magic = wrong_magic(chance),
        GreyHarm::Maxval => pieces.numbers[2].digits = wrong_maxval(chance),
        GreyHarm::NoGap => match chance.below(4) {
            3 => pieces.end.clear(),
            at => pieces.numbers[at].gap.clear(),
        },
        GreyHarm::WrongGap => match chance.below(4) {
            3 => pieces.end = wrong_gap(chance),
            at => pieces.numbers[at].gap = wrong_gap(chance),
        },
        GreyHarm::WrongNumber => {
            let number = &mut pieces.numbers[chance.below(3)];
            number.digits = wrong_number(chance, &number.digits);
        }
        GreyHarm::OpenComment => open_comment(chance, &mut pieces),
    }
    pieces.together()
}

/// By one for the most part.
fn cut_pixels(chance: &mut Chance, pieces: &GreyPieces) -> Vec<u8> {
    let count = pieces.pixels.len();
    let left = if chance.once_in(2) {
        chance.below(count + 1).saturating_sub(1)
    } else {
        count.saturating_sub(1)
    };
    [&pieces.header()[..], &pieces.pixels[..left]].concat()
}

fn change_a_byte(chance: &mut Chance, mut bytes: Vec<u8>, harm: GreyHarm) -> Vec<u8> {
    let at = chance.below(bytes.len());
    let byte = match chance.below(4) {
        0 => chance.word() as u8,
        1 => bytes[at] ^ 1 << chance.below(8),
        _ => *chance.pick(TELLING),
    };
    match harm {
        GreyHarm::Put => bytes.insert(at, byte),
        GreyHarm::Taken => {
            bytes.remove(at);
        }
        _ => bytes[at] = byte,
    }
    bytes
}

fn wrong_magic(chance: &mut Chance) -> Vec<u8> {
    let wrong: [&[u8]; 16] = [
        b"",
        b"P",
        b"5",
        b"P1",
        b"P2",
        b"P4",
        b"P6",
        b"P7",
        b"p5",
        b"5P",
        b" P5",
        b"P 5",
        b"\xef\xbb\xbfP5",
        b"#\nP5",
        b"P#\n5",
        b"\x89PNG",
    ];
    chance.pick(&wrong).to_vec()
}

fn wrong_maxval(chance: &mut Chance) -> Vec<u8> {
    let wrong = [
        "0",
        "1",
        "15",
        "25",
        "55",
        "254",
        "256",
        "2550",
        "65535",
        // 2^8, 2^16, 2^32 and 2^64 more than it should be.
        "511",
        "65791",
        "4294967551",
        "18446744073709551871",
        "18446744073709551615",
        "255255255255255255255255255255",
    ];
    chance.pick(&wrong).as_bytes().to_vec()
}

fn wrong_gap(chance: &mut Chance) -> Vec<u8> {
    let wrong: [&[u8]; 12] = [
        b"\x0b", b"\x0c", b"\0", b",", b"x", b"\xa0", b"\x85", b"\\n", b" \x0b", b"\x0c\n",
        b"\x1a", b";",
    ];
    chance.pick(&wrong).to_vec()
}

fn wrong_number(chance: &mut Chance, digits: &[u8]) -> Vec<u8> {
    let (front, back) = *chance.pick(&[
        ("-", ""),
        ("+", ""),
        ("0x", ""),
        ("", ".0"),
        ("", "e0"),
        ("", "."),
        ("", "_"),
        ("\u{660}", ""),
        ("'", "'"),
    ]);
    if chance.once_in(8) {
        return Vec::new();
    }
    [front.as_bytes(), digits, back.as_bytes()].concat()
}

/// From any gap on, or from the end on, all is one comment.
fn open_comment(chance: &mut Chance, pieces: &mut GreyPieces) {
    let from = chance.below(4);
    for number in pieces.numbers.iter_mut().skip(from + 1) {
        *number = GreyNumber {
            gap: vec![b' '],
            digits: vec![b'7'],
        };
    }
    match pieces.numbers.get_mut(from) {
        Some(number) => number.gap = b"#".to_vec(),
        None => pieces.end = b"#".to_vec(),
    }
    if from < pieces.numbers.len() {
        pieces.end = vec![b' '];
    }
    let line_end = |byte: &mut u8| {
        if LINE_ENDS.contains(byte) {
            *byte = b'.';
        }
    };
    pieces.pixels.iter_mut().for_each(line_end);
    pieces.rest.iter_mut().for_each(line_end);
}

/// Bytes of chance, or of a header's own bytes, on their own or behind a magic.
fn noise(chance: &mut Chance) -> Vec<u8> {
    let mut bytes = if chance.once_in(3) {
        Vec::new()
    } else {
        b"P5\n".to_vec()
    };
    let length = chance.below(40);
    if chance.once_in(2) {
        bytes.extend(chance.bytes(length));
    } else {
        bytes.extend((0..length).map(|_| *chance.pick(b"0123456789 \t\n\r#P")));
    }
    bytes
}
