//! Grey pictures of every kind.

use super::{waterfall, Chance};
use crate::lifting::transform;
use crate::size::Shape;

#[derive(Clone, Copy, Debug, PartialEq, Eq)]
pub enum PictureKind {
    Flat,
    Ramp,
    Noise,
    /// 0 and 255 by chance.
    BlackAndWhite,
    /// 0 and 255 in squares.
    Checker,
    Waterfall,
}

impl PictureKind {
    pub const ALL: [PictureKind; 6] = [
        PictureKind::Flat,
        PictureKind::Ramp,
        PictureKind::Noise,
        PictureKind::BlackAndWhite,
        PictureKind::Checker,
        PictureKind::Waterfall,
    ];
}

/// A picture of any kind, row by row; those with little in them come less
/// often.
pub fn any_picture(chance: &mut Chance, shape: Shape) -> Vec<u8> {
    let kind = PictureKind::ALL[chance.weighted(&[1, 2, 4, 4, 2, 4])];
    picture(chance, shape, kind)
}

pub fn picture(chance: &mut Chance, shape: Shape, kind: PictureKind) -> Vec<u8> {
    match kind {
        PictureKind::Flat => vec![chance.word() as u8; shape.area()],
        PictureKind::Ramp => ramp(chance, shape),
        PictureKind::Noise => chance.bytes(shape.area()),
        PictureKind::BlackAndWhite => black_and_white(chance, shape.area()),
        PictureKind::Checker => checker(chance, shape),
        PictureKind::Waterfall => {
            let (w, h) = (shape.width() as usize, shape.height() as usize);
            let greys = waterfall::picture(chance, w, h);
            greys.into_iter().map(|grey| grey as u8).collect()
        }
    }
}

/// The pyramid of a picture.
pub fn pyramid_of(pixels: &[u8], shape: Shape) -> Vec<i32> {
    let mut cells: Vec<i32> = pixels.iter().map(|&pixel| pixel.into()).collect();
    transform(&mut cells, shape);
    cells
}

pub fn black_and_white(chance: &mut Chance, count: usize) -> Vec<u8> {
    (0..count).map(|_| *chance.pick(&[0, 255])).collect()
}

/// Brighter by so much a row and a column, from black again after white.
fn ramp(chance: &mut Chance, shape: Shape) -> Vec<u8> {
    let (by_row, by_column) = (chance.below(9) as u32, chance.below(9) as u32);
    each_place(shape, |row, column| {
        (row * by_row + column * by_column) as u8
    })
}

fn checker(chance: &mut Chance, shape: Shape) -> Vec<u8> {
    let (rows, columns) = (1 + chance.below(4) as u32, 1 + chance.below(4) as u32);
    each_place(shape, |row, column| {
        if (row / rows + column / columns) % 2 == 0 {
            255
        } else {
            0
        }
    })
}

fn each_place(shape: Shape, pixel: impl Fn(u32, u32) -> u8) -> Vec<u8> {
    let mut pixels = Vec::with_capacity(shape.area());
    for row in 0..shape.height() {
        for column in 0..shape.width() {
            pixels.push(pixel(row, column));
        }
    }
    pixels
}
