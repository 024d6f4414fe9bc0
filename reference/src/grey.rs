//! Grey pictures in and out: from a Netpbm grey file to a pyramid, and back.

use crate::lifting::{transform, transform_back};
use crate::netpbm;
use crate::refusal::{Cause, Refusal};
use crate::size::{Shape, LARGEST_DECODED};

/// Number and place of a refusal, or 0, 0, width and height.
#[derive(Clone, Copy, Debug, Default, PartialEq, Eq)]
pub struct GreyInAnswer {
    pub number: u64,
    pub place: u64,
    pub width: u64,
    pub height: u64,
}

/// Number and place of a refusal, or 0, 0, the file's length and how many
/// pixels lay outside 0 to 255.
#[derive(Clone, Copy, Debug, Default, PartialEq, Eq)]
pub struct GreyOutAnswer {
    pub number: u64,
    pub place: u64,
    pub length: u64,
    pub clipped: u64,
}

impl GreyInAnswer {
    fn of(outcome: Result<(u64, u64), Refusal>) -> GreyInAnswer {
        match outcome {
            Ok((width, height)) => GreyInAnswer {
                width,
                height,
                ..GreyInAnswer::default()
            },
            Err(refusal) => GreyInAnswer {
                number: refusal.number(),
                place: refusal.place(),
                ..GreyInAnswer::default()
            },
        }
    }
}

/// The sides of a grey file's picture, legal or not, each at most 2^64 - 1;
/// refused where the way in would refuse the file itself.
pub fn grey_size(file: &[u8]) -> GreyInAnswer {
    GreyInAnswer::of(netpbm::read(file).map(|grey| (grey.width, grey.height)))
}

/// Makes the pyramid of a grey file's picture with `n` decompositions. The
/// output is exactly as long as the picture has pixels; after a refusal it is
/// all 0. The workspace is all 0 afterwards.
pub fn grey_in(file: &[u8], n: u64, out: &mut [i32], work: &mut [u32]) -> GreyInAnswer {
    let outcome = make_pyramid(file, n, out, work.len());
    work.fill(0);
    if outcome.is_err() {
        out.fill(0);
    }
    GreyInAnswer::of(outcome)
}

fn make_pyramid(file: &[u8], n: u64, out: &mut [i32], work: usize) -> Result<(u64, u64), Refusal> {
    let grey = netpbm::read(file)?;
    let shape = judge(grey.width, grey.height, n, out.len(), work)?;
    for (cell, &pixel) in out.iter_mut().zip(grey.pixels) {
        *cell = pixel.into();
    }
    transform(out, shape);
    Ok((grey.width, grey.height))
}

/// Makes the grey file of a pyramid's picture, pixels outside 0 to 255 set to
/// the nearer end. The output holds the file and zeros after it, or after a
/// refusal only zeros; the workspace is all 0 afterwards.
pub fn grey_out(
    pyramid: &[i32],
    w: u64,
    h: u64,
    n: u64,
    out: &mut [u8],
    work: &mut [u32],
) -> GreyOutAnswer {
    let outcome = make_file(pyramid, w, h, n, work.len())
        .and_then(|(file, clipped)| put_file(&file, out).map(|length| (length, clipped)));
    work.fill(0);
    match outcome {
        Ok((length, clipped)) => GreyOutAnswer {
            length: length as u64,
            clipped: clipped as u64,
            ..GreyOutAnswer::default()
        },
        Err(refusal) => {
            out.fill(0);
            GreyOutAnswer {
                number: refusal.number(),
                place: refusal.place(),
                ..GreyOutAnswer::default()
            }
        }
    }
}

/// The file and how many of its pixels were clipped.
fn make_file(
    pyramid: &[i32],
    w: u64,
    h: u64,
    n: u64,
    work: usize,
) -> Result<(Vec<u8>, usize), Refusal> {
    let shape = judge(w, h, n, pyramid.len(), work)?;
    let too_large = |c: &i32| c.unsigned_abs() > LARGEST_DECODED;
    if let Some(index) = pyramid.iter().position(too_large) {
        return Err(Refusal::at(Cause::Range, index));
    }
    let mut cells = pyramid.to_vec();
    transform_back(&mut cells, shape);
    let outside = cells.iter().filter(|&&cell| u8::try_from(cell).is_err());
    let clipped = outside.count();
    let pixels: Vec<u8> = cells.iter().map(|&cell| nearest_grey(cell)).collect();
    let file = netpbm::file(shape.width(), shape.height(), &pixels);
    Ok((file, clipped))
}

/// The number itself, or the nearer end of 0 to 255.
pub fn nearest_grey(value: i32) -> u8 {
    value.clamp(0, 255) as u8
}

fn put_file(file: &[u8], out: &mut [u8]) -> Result<usize, Refusal> {
    if file.len() > out.len() {
        return Err(Refusal::new(Cause::Room));
    }
    let (front, rest) = out.split_at_mut(file.len());
    front.copy_from_slice(file);
    rest.fill(0);
    Ok(file.len())
}

/// What both ways judge alike: 1, 2, 3.
fn judge(w: u64, h: u64, n: u64, pyramid: usize, work: usize) -> Result<Shape, Refusal> {
    let shape = Shape::judge(w, h, n)?;
    if pyramid != shape.area() {
        return Err(Refusal::new(Cause::Length));
    }
    if work < shape.workspace() {
        return Err(Refusal::new(Cause::Work));
    }
    Ok(shape)
}
