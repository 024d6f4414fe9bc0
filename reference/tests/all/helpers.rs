//! What several tests use: calls with dirty buffers whose state afterwards is
//! checked, the example, and what demand 3 expects.

use reference::coder::code_as;
use reference::decoder::decode_as;
use reference::generate::records::{room_for, Pieces};
use reference::reading::Walk;
use reference::size::{Level, Plane, Shape};
use reference::slip::{Faithful, Slips};
use reference::{CodeAnswer, DecodeAnswer, ServeAnswer};

/// The record in full, and the pyramid it was made from.
pub const EXAMPLE: [u8; 30] = [
    0x01, 0x04, 0x04, 0x01, 0x03, 0x02, 0x02, 0x05, 0x80, 0x02, 0x01, 0x03, 0x00, 0x01, 0x02, 0x05,
    0x40, 0x01, 0x01, 0x08, 0x8C, 0x00, 0x02, 0x05, 0xC0, 0x00, 0x01, 0x0B, 0x0C, 0x20,
];
pub const EXAMPLE_PYRAMID: [i32; 16] = [4, -1, 0, 0, 2, 0, 0, -3, 0, 0, 1, 0, 0, 0, 0, 0];

pub fn shape(w: u64, h: u64, n: u64) -> Shape {
    Shape::judge(w, h, n).expect("a legal size")
}

/// Codes with dirty buffers of the given lengths. The output comes back whole.
pub fn code_into<S: Slips>(
    pyramid: &[i32],
    (w, h, n): (u64, u64, u64),
    out: usize,
    work: usize,
) -> (CodeAnswer, Vec<u8>) {
    let mut out = vec![0xA5; out];
    let mut work = vec![0xDEAD_BEEF; work];
    let answer = code_as::<S>(pyramid, w, h, n, &mut out, &mut work);
    assert!(work.iter().all(|&word| word == 0), "workspace all 0");
    let used = answer.length as usize;
    assert!(out[used..].iter().all(|&byte| byte == 0), "0 after it");
    if answer.number != 0 {
        assert_eq!(answer.length, 0, "a refusal has only number and place");
    } else {
        assert_eq!(answer.place, 0);
    }
    (answer, out)
}

/// The record of a legal pyramid.
pub fn coded_as<S: Slips>(pyramid: &[i32], shape: Shape) -> Vec<u8> {
    let size = (
        shape.width().into(),
        shape.height().into(),
        shape.decompositions().into(),
    );
    let (answer, mut out) = code_into::<S>(pyramid, size, room_for(shape), shape.workspace());
    assert_eq!(answer.number, 0);
    out.truncate(answer.length as usize);
    out
}

pub fn coded(pyramid: &[i32], shape: Shape) -> Vec<u8> {
    coded_as::<Faithful>(pyramid, shape)
}

/// Decodes into dirty buffers of the given lengths.
pub fn decode_into<S: Slips>(record: &[u8], out: usize, work: usize) -> (DecodeAnswer, Vec<i32>) {
    let mut out = vec![-77; out];
    let mut work = vec![0xDEAD_BEEF; work];
    let answer = decode_as::<S>(record, &mut out, &mut work);
    assert!(work.iter().all(|&word| word == 0), "workspace all 0");
    if answer.number == 0 {
        assert_eq!(answer.place, 0);
    } else {
        assert!(out.iter().all(|&c| c == 0), "output all 0");
        assert_eq!((answer.tail, answer.reached), (0, [0; 6]));
        assert_eq!(answer.skipped, [0; 6]);
    }
    (answer, out)
}

/// Decodes into buffers of the size that the header tells, where it is legal.
pub fn decoded_as<S: Slips>(record: &[u8]) -> (DecodeAnswer, Vec<i32>) {
    match Walk::begin(record) {
        Ok(walk) => {
            let shape = walk.header().shape;
            decode_into::<S>(record, shape.area(), shape.workspace())
        }
        Err(_) => decode_into::<S>(record, 16, 64),
    }
}

pub fn decoded(record: &[u8]) -> (DecodeAnswer, Vec<i32>) {
    decoded_as::<Faithful>(record)
}

/// Serves into a dirty output of the given length.
pub fn serve_into(record: &[u8], level: u64, plane: u64, out: usize) -> (ServeAnswer, Vec<u8>) {
    let mut out = vec![0xA5; out];
    let answer = reference::serve(record, level, plane, &mut out);
    let used = answer.length as usize;
    assert!(out[used..].iter().all(|&byte| byte == 0), "0 after it");
    if answer.number == 0 {
        assert_eq!(answer.place, 0);
    } else {
        assert_eq!((answer.length, answer.tail), (0, 0));
    }
    (answer, out)
}

/// What is served, to an output that is long enough.
pub fn served(record: &[u8], level: u64, plane: u64) -> Vec<u8> {
    let (answer, mut out) = serve_into(record, level, plane, record.len());
    assert_eq!(answer.number, 0);
    out.truncate(answer.length as usize);
    out
}

/// The record without the parts named.
pub fn without(record: &[u8], lost: &[(u32, u32)]) -> Vec<u8> {
    let mut pieces = Pieces::of(record);
    let before = pieces.parts.len();
    pieces.strike(|plane, level| lost.contains(&(plane.0, level.0)));
    assert_eq!(pieces.parts.len() + lost.len(), before);
    pieces.together()
}

/// Where a coefficient lies, by the rules' sentence about level k.
pub fn level_at(shape: Shape, row: u32, column: u32) -> u32 {
    let (w, h, n) = (shape.width(), shape.height(), shape.decompositions());
    let within = |halvings: u32| row < h / (1 << halvings) && column < w / (1 << halvings);
    if within(n) {
        return n + 1;
    }
    (1..=n).find(|&k| within(k - 1) && !within(k)).unwrap()
}

/// Demand 3: the lowest plane such that from the top plane down to it every
/// part of the level and of each coarser one is there; the number of planes if
/// there is none.
pub fn lowest_plane(
    shape: Shape,
    planes: u32,
    level: u32,
    is_there: &dyn Fn(Plane, Level) -> bool,
) -> u32 {
    let all_there = |plane: u32| {
        (plane..planes).all(|p| (level..=shape.coarsest().0).all(|k| is_there(Plane(p), Level(k))))
    };
    (0..planes).find(|&m| all_there(m)).unwrap_or(planes)
}

/// Demand 3: what decoding gives of a pyramid's record when only some of its
/// parts are there.
pub fn expected(
    pyramid: &[i32],
    shape: Shape,
    planes: u32,
    is_there: &dyn Fn(Plane, Level) -> bool,
) -> ([u64; 6], Vec<i32>) {
    let mut reached = [0; 6];
    for level in 1..=shape.coarsest().0 {
        reached[level as usize - 1] = lowest_plane(shape, planes, level, is_there).into();
    }
    let mut rounded = Vec::with_capacity(pyramid.len());
    for row in 0..shape.height() {
        for column in 0..shape.width() {
            let level = level_at(shape, row, column);
            let step = 1i32 << reached[level as usize - 1];
            // Division is toward zero.
            rounded.push(pyramid[shape.index(row, column)] / step * step);
        }
    }
    (reached, rounded)
}
