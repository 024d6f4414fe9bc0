//! The 5/3 lifting: the worked example, the standard's own formulas, exactness
//! both ways at all legal sizes, order, rounding and ranges.

use crate::helpers::shape;
use reference::generate::pyramids::even;
use reference::generate::shapes::any_shape;
use reference::generate::waterfall;
use reference::generate::Chance;
use reference::lifting::{halved, transform, transform_back};
use reference::size::{Shape, LARGEST_DECODED};

/// A picture of 4 x 4, and its pyramid with N = 1.
pub const PICTURE: [u8; 16] = [
    0, 10, 20, 30, 40, 50, 60, 70, 80, 90, 100, 110, 255, 0, 255, 0,
];
pub const PYRAMID: [i32; 16] = [
    0, 23, 0, 10, 93, 109, -63, -56, 0, 0, 0, 0, 48, 25, -255, -265,
];

/// The most that a pixel of 0 to 255 can make of a coefficient, N up to 5: a
/// turn takes at most 5/4 of what the lows span, a little more by rounding.
const PICTURE_MOST: u32 = 13_120;

fn forward(picture: &[i32], shape: Shape) -> Vec<i32> {
    let mut cells = picture.to_vec();
    transform(&mut cells, shape);
    cells
}

fn back(pyramid: &[i32], shape: Shape) -> Vec<i32> {
    let mut cells = pyramid.to_vec();
    transform_back(&mut cells, shape);
    cells
}

fn random_greys(chance: &mut Chance, shape: Shape) -> Vec<i32> {
    let bytes = chance.bytes(shape.area());
    bytes.into_iter().map(i32::from).collect()
}

fn blacks_and_whites(chance: &mut Chance, shape: Shape) -> Vec<i32> {
    let pixels = (0..shape.area()).map(|_| *chance.pick(&[0, 255]));
    pixels.collect()
}

fn largest(cells: &[i32]) -> u32 {
    let magnitudes = cells.iter().map(|cell| cell.unsigned_abs());
    magnitudes.max().expect("a pyramid has coefficients")
}

#[test]
fn the_worked_example() {
    let shape = shape(4, 4, 1);
    let picture = PICTURE.map(i32::from);
    assert_eq!(forward(&picture, shape), PYRAMID);
    assert_eq!(back(&PYRAMID, shape), picture);
}

#[test]
fn a_known_line() {
    // Rows 10 20 30 40, each row the same, so that columns pass unchanged:
    // high 20 - 20 = 0 and 40 - 30 = 10; low 10 + (0+0+2)/4 and 30 + (0+10+2)/4.
    let cells = forward(&[10, 20, 30, 40].repeat(4), shape(4, 4, 1));
    assert_eq!(cells[..4], [10, 33, 0, 10]);
    assert_eq!(cells[4..8], [10, 33, 0, 10]);
    assert_eq!(cells[8..], [0; 8]);
}

/// One turn along a line as the standard prints it: the signal extended by
/// reflection at its first and last sample, samples of odd and even place.
fn published_line(line: &[i64]) -> Vec<i64> {
    let last = line.len() as i64 - 1;
    let x = |at: i64| line[(last - (last - at.abs()).abs()) as usize];
    let odd = |at: i64| x(at) - (x(at - 1) + x(at + 1)).div_euclid(2);
    let even = |at: i64| x(at) + (odd(at - 1) + odd(at + 1) + 2).div_euclid(4);
    let lows = (0..=last).step_by(2).map(even);
    let highs = (1..=last).step_by(2).map(odd);
    lows.chain(highs).collect()
}

fn transposed(rows: &[Vec<i64>]) -> Vec<Vec<i64>> {
    let columns = 0..rows[0].len();
    columns
        .map(|column| rows.iter().map(|row| row[column]).collect())
        .collect()
}

/// Each turn on the rows and columns that are its block, the rest as it was.
fn published(picture: &[i32], shape: Shape) -> Vec<i32> {
    let rows = picture.chunks(shape.width() as usize);
    let mut cells: Vec<Vec<i64>> = rows
        .map(|row| row.iter().map(|&pixel| pixel.into()).collect())
        .collect();
    for turn in 0..shape.decompositions() {
        let (h, w) = (shape.height() >> turn, shape.width() >> turn);
        let top = cells.iter().take(h as usize);
        let block: Vec<Vec<i64>> = top.map(|row| row[..w as usize].to_vec()).collect();
        let columns = transposed(&block);
        let split: Vec<Vec<i64>> = columns
            .iter()
            .map(|column| published_line(column))
            .collect();
        for (row, changed) in cells.iter_mut().zip(transposed(&split)) {
            row[..w as usize].copy_from_slice(&published_line(&changed));
        }
    }
    cells.concat().into_iter().map(|cell| cell as i32).collect()
}

#[test]
fn as_the_standard_prints_it() {
    let mut chance = Chance::new(81);
    for _ in 0..150 {
        let shape = any_shape(&mut chance);
        for cells in [
            random_greys(&mut chance, shape),
            blacks_and_whites(&mut chance, shape),
            even(&mut chance, shape, 17),
        ] {
            assert!(
                forward(&cells, shape) == published(&cells, shape),
                "{shape:?}"
            );
        }
    }
}

fn comes_back(chance: &mut Chance, w: u64, h: u64, n: u64) {
    let shape = shape(w, h, n);
    let picture = random_greys(chance, shape);
    assert!(
        back(&forward(&picture, shape), shape) == picture,
        "{shape:?}"
    );
    let any = even(chance, shape, 17);
    assert!(back(&forward(&any, shape), shape) == any, "{shape:?}");
    assert!(forward(&back(&any, shape), shape) == any, "{shape:?}");
}

/// Every N; every pair of sides up to 64, and every side up to 512 with the
/// shortest other one, and with itself.
#[test]
fn all_sizes_come_back() {
    let mut chance = Chance::new(82);
    for n in 1..=5 {
        let unit = 2 << n;
        let sides: Vec<u64> = (1..=512 / unit).map(|units| units * unit).collect();
        let short = sides.iter().filter(|&&side| side <= 64);
        for &w in short.clone() {
            short
                .clone()
                .for_each(|&h| comes_back(&mut chance, w, h, n));
        }
        for &side in &sides {
            comes_back(&mut chance, side, unit, n);
            comes_back(&mut chance, unit, side, n);
            if side % 128 == 0 {
                comes_back(&mut chance, side, side, n);
            }
        }
    }
}

/// Each of the 65,536 pictures of 0 and 255.
#[test]
fn all_black_and_white_pictures_of_16_pixels_come_back() {
    let shape = shape(4, 4, 1);
    for pattern in 0..1 << 16 {
        let mut cells = [0; 16];
        for (at, cell) in cells.iter_mut().enumerate() {
            *cell = (pattern >> at & 1) * 255;
        }
        let picture = cells;
        transform(&mut cells, shape);
        assert!(largest(&cells) <= PICTURE_MOST);
        transform_back(&mut cells, shape);
        assert!(cells == picture, "{pattern:#x}");
    }
}

/// Rounding makes the order tell: of the turned picture the turned pyramid is
/// another.
#[test]
fn columns_come_before_rows() {
    let turned = |cells: &[i32]| -> Vec<i32> {
        let places = (0..4).flat_map(|row| (0..4).map(move |column| column * 4 + row));
        places.map(|at| cells[at]).collect()
    };
    let picture = PICTURE.map(i32::from);
    let rows_first = turned(&forward(&turned(&picture), shape(4, 4, 1)));
    assert_eq!((PYRAMID[4], rows_first[4]), (93, 92));
    assert_eq!((PYRAMID[6], rows_first[6]), (-63, -64));
    let back_the_other_way = turned(&back(&turned(&PYRAMID), shape(4, 4, 1)));
    assert_ne!(back_the_other_way, picture);
}

/// Toward minus infinity: with all columns even, the halves' sums are -3 and
/// the quarters' -3 + 2; toward zero they would give -1 and 0.
#[test]
fn halves_and_quarters_are_rounded_down() {
    let cells = forward(&[-3, 0, 0, 0].repeat(4), shape(4, 4, 1));
    // high 0 - floor(-3 / 2) = 2, low -3 + floor((2 + 2 + 2) / 4) = -2.
    assert_eq!(cells[..4], [-2, 1, 2, 0]);
    let cells = forward(&[0, -1, 0, -2].repeat(4), shape(4, 4, 1));
    // Lows 0 + floor((-1 - 1 + 2) / 4) = 0, 0 + floor((-1 - 2 + 2) / 4) = -1.
    assert_eq!(cells[..4], [0, -1, -1, -2]);
}

#[test]
fn pictures_stay_within_what_is_coded() {
    let mut chance = Chance::new(83);
    for _ in 0..200 {
        let shape = any_shape(&mut chance);
        for picture in [
            random_greys(&mut chance, shape),
            blacks_and_whites(&mut chance, shape),
        ] {
            assert!(largest(&forward(&picture, shape)) <= PICTURE_MOST);
        }
    }
}

/// What each row, white alone, gives to each row's low half across: in rows as
/// in columns, as all sides are equal here.
fn gains(shape: Shape) -> Vec<Vec<i32>> {
    let side = shape.width() as usize;
    let rows = 0..side;
    rows.map(|white| {
        let mut cells = vec![0; side * side];
        cells[white * side..(white + 1) * side].fill(1 << 20);
        let split = forward(&cells, shape);
        split.iter().step_by(side).copied().collect()
    })
    .collect()
}

/// White where the coefficient (at, at) gains by it, or where it loses, and
/// black elsewhere: the farthest from 0 that it gets.
fn farthest(shape: Shape, at: usize) -> u32 {
    let gains = gains(shape);
    let rises = |row: usize, column: usize| (gains[row][at] > 0) == (gains[column][at] > 0);
    let side = shape.width() as usize;
    let places = (0..side * side).map(|place| rises(place / side, place % side));
    let white: Vec<i32> = places.map(|rises| i32::from(rises) * 255).collect();
    let black: Vec<i32> = white.iter().map(|pixel| 255 - pixel).collect();
    largest(&forward(&white, shape)).max(largest(&forward(&black, shape)))
}

/// What pictures chosen so come to: the bound is far from it.
#[test]
fn the_farthest_coefficients_of_pictures() {
    for (side, n, at, met) in [
        (64, 1, 35, 510),
        (64, 2, 21, 796),
        (64, 3, 9, 965),
        (128, 4, 9, 1_004),
        (192, 5, 7, 1_015),
    ] {
        assert_eq!(farthest(shape(side, side, n), at), met, "N = {n}");
    }
}

/// From magnitudes up to 131,071 nothing comes near the ends of 32 bits.
#[test]
fn the_way_back_has_room() {
    let mut chance = Chance::new(84);
    let most = LARGEST_DECODED as i32;
    let mut met = 0;
    for _ in 0..200 {
        let shape = any_shape(&mut chance);
        let extreme: Vec<i32> = (0..shape.area())
            .map(|_| *chance.pick(&[most, -most]))
            .collect();
        met = met.max(largest(&back(&extreme, shape)));
    }
    assert!(met > LARGEST_DECODED && met < 1 << 26, "{met}");
}

#[test]
fn coarser_levels_are_the_halved_picture() {
    let mut chance = Chance::new(85);
    for _ in 0..60 {
        let shape = any_shape(&mut chance);
        let mut picture =
            waterfall::picture(&mut chance, shape.width() as usize, shape.height() as usize);
        let pyramid = forward(&picture, shape);
        let mut large = shape;
        for times in 0..shape.decompositions() {
            let (block, small) = halved(&pyramid, shape, times);
            assert_eq!(
                (small.width(), small.height()),
                (large.width(), large.height())
            );
            assert!(back(&block, small) == picture, "{shape:?} halved {times}");
            // One turn more, and its lows are the next.
            let (w, h) = (large.width().into(), large.height().into());
            let one = Shape::judge(w, h, 1).expect("a legal size");
            let turned = forward(&picture, one);
            picture = turned
                .chunks(large.width() as usize)
                .take(large.height() as usize / 2)
                .flat_map(|row| &row[..large.width() as usize / 2])
                .copied()
                .collect();
            if times + 1 < shape.decompositions() {
                large = halved(&pyramid, shape, times + 1).1;
            }
        }
    }
}
