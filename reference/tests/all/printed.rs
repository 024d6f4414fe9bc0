//! How far a printed pixel is from the recorded one: never more than the bound
//! that the reached planes give, for selections and cuts of records of pictures,
//! at every size that is printed; and how near to the bound it comes.

use crate::helpers::*;
use reference::bound::{pixel_most, reckoned};
use reference::generate::pictures::{
    any_picture, black_and_white, picture, pyramid_of, PictureKind,
};
use reference::generate::records::{strike_some, Pieces};
use reference::generate::shapes::any_shape;
use reference::generate::Chance;
use reference::grey::nearest_grey;
use reference::lifting::{halved, transform_back};
use reference::size::{Shape, LARGEST_DECODED};

/// The picture that a pyramid gives, halved so many times.
fn printed(pyramid: &[i32], shape: Shape, halvings: u32) -> Vec<u8> {
    let (mut cells, smaller) = halved(pyramid, shape, halvings);
    transform_back(&mut cells, smaller);
    cells.into_iter().map(nearest_grey).collect()
}

fn farthest(some: &[u8], others: &[u8]) -> u64 {
    assert_eq!(some.len(), others.len());
    let pairs = some.iter().zip(others);
    let distances = pairs.map(|(one, other)| one.abs_diff(*other));
    distances.max().unwrap_or(0).into()
}

/// A picture's pyramid and what is printed of the whole record, at every size.
struct Recorded {
    shape: Shape,
    pyramid: Vec<i32>,
    sizes: Vec<Vec<u8>>,
}

impl Recorded {
    fn of(pixels: &[u8], shape: Shape) -> Recorded {
        let pyramid = pyramid_of(pixels, shape);
        let sizes: Vec<Vec<u8>> = (0..shape.decompositions())
            .map(|halvings| printed(&pyramid, shape, halvings))
            .collect();
        assert!(sizes[0] == pixels);
        Recorded {
            shape,
            pyramid,
            sizes,
        }
    }

    /// Decodes what is left of the record, prints it at every size and holds
    /// it against the bound. Tells the greatest ratio to it.
    fn check(&self, left: &[u8]) -> f64 {
        let (answer, decoded) = decoded(left);
        assert_eq!(answer.number, 0);
        self.check_decoded(&decoded, &answer.reached)
    }

    fn check_decoded(&self, decoded: &[i32], reached: &[u64; 6]) -> f64 {
        assert!(decoded.iter().all(|c| c.unsigned_abs() <= LARGEST_DECODED));
        let n = self.shape.decompositions();
        let mut greatest: f64 = 0.0;
        for (halvings, recorded) in (0..n).zip(&self.sizes) {
            let error = farthest(&printed(decoded, self.shape, halvings), recorded);
            let most = pixel_most(reached, n, halvings);
            assert!(error <= most, "{error} over {most}: {reached:?}");
            if error > 0 {
                greatest = greatest.max(error as f64 / reckoned(reached, n, halvings) as f64);
            }
        }
        greatest
    }
}

#[test]
fn the_bound_in_numbers() {
    // All at p = 2 with N = 5, the finest alone without its last two planes,
    // all there, nothing there.
    assert_eq!(pixel_most(&[2; 6], 5, 0), 63);
    assert_eq!(pixel_most(&[2, 0, 0, 0, 0, 0], 5, 0), 12);
    assert_eq!(pixel_most(&[0; 6], 5, 0), 0);
    assert_eq!(pixel_most(&[17; 6], 5, 0), 255);
    assert_eq!(pixel_most(&[2, 2, 2, 2, 0, 0], 3, 0), 39);
    // Halved, the finer levels don't count.
    assert_eq!(pixel_most(&[9, 9, 1, 0, 0, 0], 3, 2), 6);
    assert_eq!(pixel_most(&[9, 9, 1, 1, 0, 0], 3, 2), 7);
    assert_eq!(pixel_most(&[1, 1, 0, 0, 0, 0], 1, 0), 7);
}

/// The sample and noise, as they are coded: every request.
#[test]
fn every_request_is_within_the_bound() {
    let mut chance = Chance::new(6);
    for (kind, n) in [
        (PictureKind::Waterfall, 3),
        (PictureKind::Noise, 3),
        (PictureKind::BlackAndWhite, 5),
    ] {
        let shape = shape(64, 64, n);
        let recorded = Recorded::of(&picture(&mut chance, shape, kind), shape);
        let record = coded(&recorded.pyramid, shape);
        let planes = u64::from(Pieces::of(&record).header[4][0]);
        for level in 1..=n + 1 {
            for plane in 0..=planes {
                recorded.check(&served(&record, level, plane));
            }
        }
        assert_eq!(recorded.check(&record), 0.0);
    }
}

/// Some of the record's parts, and these cut anywhere behind the header.
fn some_of(chance: &mut Chance, whole: &Pieces) -> Vec<u8> {
    let mut left = whole.clone();
    if chance.below(4) > 0 {
        strike_some(chance, &mut left);
    }
    let mut record = left.together();
    if chance.once_in(2) {
        let header: usize = left.header.iter().map(Vec::len).sum();
        record.truncate(header + chance.below(record.len() - header + 1));
    }
    record
}

#[test]
fn selections_and_cuts_are_within_the_bound() {
    let mut chance = Chance::new(111);
    for kind in [PictureKind::Waterfall, PictureKind::Noise] {
        let shape = shape(32, 32, 3);
        let recorded = Recorded::of(&picture(&mut chance, shape, kind), shape);
        let whole = Pieces::of(&coded(&recorded.pyramid, shape));
        for _ in 0..5_000 {
            recorded.check(&some_of(&mut chance, &whole));
        }
    }
}

#[test]
fn pictures_of_any_size_and_kind_are_within_the_bound() {
    let mut chance = Chance::new(112);
    for _ in 0..300 {
        let shape = any_shape(&mut chance);
        let recorded = Recorded::of(&any_picture(&mut chance, shape), shape);
        let whole = Pieces::of(&coded(&recorded.pyramid, shape));
        for _ in 0..2 {
            recorded.check(&some_of(&mut chance, &whole));
        }
    }
}

/// Rounded toward zero at each level's plane, as decoding does by demand 3.
fn rounded(pyramid: &[i32], shape: Shape, reached: &[u64; 6]) -> Vec<i32> {
    let mut cells = pyramid.to_vec();
    for row in 0..shape.height() {
        for column in 0..shape.width() {
            let plane = reached[level_at(shape, row, column) as usize - 1];
            let cell = &mut cells[shape.index(row, column)];
            *cell = *cell / (1 << plane) * (1 << plane);
        }
    }
    cells
}

/// Random pictures of 8 x 8 in 0 and 255, the finest level at every plane.
#[test]
fn random_pictures_come_near_the_bound() {
    let mut chance = Chance::new(113);
    let mut greatest: f64 = 0.0;
    for n in [1, 2] {
        let shape = shape(8, 8, n);
        for _ in 0..1_500 {
            let recorded = Recorded::of(&black_and_white(&mut chance, 64), shape);
            for plane in 0..9 {
                for reached in [[plane, 0, 0, 0, 0, 0], [plane; 6]] {
                    let left = rounded(&recorded.pyramid, shape, &reached);
                    greatest = greatest.max(recorded.check_decoded(&left, &reached));
                }
            }
        }
    }
    assert!(greatest > 0.65, "{greatest}");
}

/// Grey, with all highs at 2^m - 1 and signs such that they add up at one odd
/// place: when they are gone it is nearly as far off as the bound says, so that
/// this can't be much less.
#[test]
fn the_bound_is_nearly_reached() {
    let shape = shape(8, 8, 1);
    let sign = |at: u32| if at % 4 == 1 { 1 } else { -1 };
    for (plane, least) in [(3, 0.87), (4, 0.93), (5, 0.96)] {
        let mut cells = vec![128; 64];
        for row in 0..8 {
            for column in 0..8 {
                let sum = match (row < 4, column < 4) {
                    (true, true) => continue,
                    (true, false) => sign(column),
                    (false, true) => sign(row),
                    (false, false) => sign(row) * sign(column),
                };
                cells[shape.index(row, column)] = sum * ((1 << plane) - 1);
            }
        }
        transform_back(&mut cells, shape);
        let pixels: Vec<u8> = cells.iter().map(|&cell| cell as u8).collect();
        let recorded = Recorded::of(&pixels, shape);
        let reached = [plane, 0, 0, 0, 0, 0];
        let left = rounded(&recorded.pyramid, shape, &reached);
        let ratio = recorded.check_decoded(&left, &reached);
        assert!(ratio >= least, "{ratio} at {plane}");
    }
}
