//! Demand 3: strike any parts out of a coder's record, by request or loss;
//! the rest is accepted and each coefficient is rounded toward zero at the
//! plane that its level reached. Of a part that the end cuts off, its own
//! level is rounded at its plane or at the one above it.

use crate::helpers::*;
use reference::generate::pyramids::{any_pyramid, pyramid, PyramidKind};
use reference::generate::records::{strike_some, PartPieces, Pieces};
use reference::generate::shapes::{any_shape, shape_of, SizeClass};
use reference::generate::Chance;
use reference::size::{Level, Plane, Shape};

/// What arrived of a record: parts, and a tail.
struct Arrived<'a> {
    left: &'a Pieces,
    bytes: &'a [u8],
    tail: usize,
    /// The part that the tail is of, if its head is whole.
    cut: Option<(Plane, Level)>,
}

impl Arrived<'_> {
    fn is_there(&self, plane: Plane, level: Level) -> bool {
        let mut parts = self.left.parts.iter();
        parts.any(|part| (part.plane, part.level) == (plane, level))
    }

    /// What decoding gives, and what it would give with the cut part whole,
    /// which tells apart from it what the tail may have brought.
    fn expected(&self, pyramid: &[i32], shape: Shape) -> ([u64; 6], Vec<i32>, Vec<i32>) {
        let planes = u32::from(self.left.header[4][0]);
        let there = |plane, level| self.is_there(plane, level);
        let (reached, rounded) = expected(pyramid, shape, planes, &there);
        let with_cut = |plane, level| self.cut == Some((plane, level)) || there(plane, level);
        (
            reached,
            rounded,
            expected(pyramid, shape, planes, &with_cut).1,
        )
    }
}

/// Decodes what arrived of a pyramid's record and holds it against demand 3;
/// says how many coefficients the tail brought nearer.
fn check(pyramid: &[i32], shape: Shape, arrived: &Arrived) -> usize {
    let (reached, rounded, nearer) = arrived.expected(pyramid, shape);
    let (answer, decoded) = decoded(arrived.bytes);
    assert_eq!((answer.number, answer.place), (0, 0));
    assert_eq!(answer.tail, arrived.tail as u64);
    assert_eq!(answer.reached, reached);
    assert_eq!(answer.skipped, skipped(arrived.left, reached));
    let either = rounded.iter().zip(&nearer);
    assert!(
        decoded
            .iter()
            .zip(either)
            .all(|(c, (above, at))| c == above || c == at),
        "{shape:?}, reached {reached:?}"
    );
    let brought = decoded.iter().zip(&rounded);
    brought.filter(|(c, above)| c != above).count()
}

/// "With it the answer is complete": of each level used and skipped parts are
/// those that are there.
fn skipped(left: &Pieces, reached: [u64; 6]) -> [u64; 6] {
    let planes = u64::from(left.header[4][0]);
    let levels = usize::from(left.header[3][0]) + 1;
    let mut counts = [0; 6];
    for level in 0..levels {
        let of_level = |part: &&PartPieces| part.level.0 as usize == level + 1;
        let there = left.parts.iter().filter(of_level).count() as u64;
        counts[level] = there - (planes - reached[level]);
    }
    counts
}

fn check_whole(pyramid: &[i32], shape: Shape, left: &Pieces) {
    let arrived = Arrived {
        left,
        bytes: &left.together(),
        tail: 0,
        cut: None,
    };
    assert_eq!(check(pyramid, shape, &arrived), 0);
}

#[test]
fn struck_records_of_every_kind() {
    let mut chance = Chance::new(41);
    for n in 1..=5 {
        for kind in PyramidKind::ALL {
            for class in [SizeClass::To16, SizeClass::To64] {
                let shape = shape_of(&mut chance, n, class);
                let pyramid = pyramid(&mut chance, shape, kind);
                let whole = Pieces::of(&coded(&pyramid, shape));
                for _ in 0..8 {
                    let mut left = whole.clone();
                    strike_some(&mut chance, &mut left);
                    check_whole(&pyramid, shape, &left);
                }
            }
        }
    }
}

#[test]
fn struck_records_of_any_size() {
    let mut chance = Chance::new(42);
    for _ in 0..600 {
        let shape = any_shape(&mut chance);
        let pyramid = any_pyramid(&mut chance, shape);
        let mut left = Pieces::of(&coded(&pyramid, shape));
        strike_some(&mut chance, &mut left);
        check_whole(&pyramid, shape, &left);
    }
}

#[test]
fn every_selection_of_the_example() {
    let whole = Pieces::of(&EXAMPLE);
    for choice in 0..1u32 << whole.parts.len() {
        let mut left = whole.clone();
        let mut at = 0;
        left.strike(|_, _| {
            at += 1;
            choice >> (at - 1) & 1 == 0
        });
        check_whole(&EXAMPLE_PYRAMID, shape(4, 4, 1), &left);
    }
}

#[test]
fn every_single_loss_of_a_deep_record() {
    let mut chance = Chance::new(43);
    let shape = shape(64, 128, 5);
    for kind in [
        PyramidKind::Decaying,
        PyramidKind::Sparse,
        PyramidKind::Waterfall,
    ] {
        let pyramid = pyramid(&mut chance, shape, kind);
        let whole = Pieces::of(&coded(&pyramid, shape));
        for lost in 0..whole.parts.len() {
            let mut left = whole.clone();
            left.parts.remove(lost);
            check_whole(&pyramid, shape, &left);
        }
    }
}

/// Empty parts must be there like any others.
#[test]
fn losses_of_empty_parts() {
    let mut chance = Chance::new(44);
    let mut losses = 0;
    for _ in 0..300 {
        let shape = any_shape(&mut chance);
        let pyramid = any_pyramid(&mut chance, shape);
        let whole = Pieces::of(&coded(&pyramid, shape));
        let empty: Vec<usize> = (0..whole.parts.len())
            .filter(|&at| whole.parts[at].bits == 0)
            .collect();
        if !empty.is_empty() {
            let mut left = whole.clone();
            left.parts.remove(*chance.pick(&empty));
            check_whole(&pyramid, shape, &left);
            losses += 1;
        }
    }
    assert!(losses > 20, "{losses}");
}

#[test]
fn served_records() {
    let mut chance = Chance::new(45);
    for _ in 0..300 {
        let shape = any_shape(&mut chance);
        let pyramid = any_pyramid(&mut chance, shape);
        let mut left = Pieces::of(&coded(&pyramid, shape));
        if chance.once_in(2) {
            strike_some(&mut chance, &mut left);
        }
        let planes = usize::from(left.header[4][0]);
        let level = 1 + chance.below(shape.coarsest().0 as usize) as u64;
        let plane = chance.below(planes + 1) as u64;
        let record = served(&left.together(), level, plane);
        check_whole(&pyramid, shape, &Pieces::of(&record));
    }
}

/// A cut part counts as struck out in what is told, and its bytes are the tail.
/// Says how many coefficients it brought nearer.
fn check_cut(pyramid: &[i32], shape: Shape, record: &[u8], cut: usize) -> usize {
    let mut left = Pieces::of(record);
    let mut end: usize = left.header.iter().map(Vec::len).sum();
    assert!(cut >= end, "the header is intact");
    let mut whole_parts = 0;
    let mut cut_part = None;
    for part in &left.parts {
        let head = part.head.concat().len();
        let after = end + head + part.body.len();
        if after > cut {
            cut_part = (end + head <= cut).then_some((part.plane, part.level));
            break;
        }
        end = after;
        whole_parts += 1;
    }
    left.parts.truncate(whole_parts);
    let arrived = Arrived {
        left: &left,
        bytes: &record[..cut],
        tail: cut - end,
        cut: cut_part,
    };
    let brought = check(pyramid, shape, &arrived);
    // Serving leaves the tail out and reports it.
    let (answer, out) = serve_into(&record[..cut], 1, 0, cut);
    assert_eq!((answer.number, answer.tail), (0, (cut - end) as u64));
    assert!(out[..answer.length as usize] == record[..end]);
    brought
}

#[test]
fn cut_at_every_byte() {
    let mut chance = Chance::new(46);
    let mut nearer = 0;
    for (w, h, n) in [(4, 4, 1), (8, 16, 2), (16, 32, 3), (64, 32, 4), (64, 64, 5)] {
        let shape = shape(w, h, n);
        for kind in [PyramidKind::Sparse, PyramidKind::Waterfall] {
            let pyramid = pyramid(&mut chance, shape, kind);
            let record = coded(&pyramid, shape);
            let step = 1 + record.len() / 1500;
            for cut in (5..=record.len()).step_by(step) {
                nearer += usize::from(check_cut(&pyramid, shape, &record, cut) > 0);
            }
        }
    }
    assert!(nearer > 2_000, "{nearer}");
}

#[test]
fn struck_and_cut_anywhere() {
    let mut chance = Chance::new(47);
    let mut nearer = 0;
    for _ in 0..400 {
        let shape = any_shape(&mut chance);
        let pyramid = any_pyramid(&mut chance, shape);
        let mut left = Pieces::of(&coded(&pyramid, shape));
        strike_some(&mut chance, &mut left);
        let record = left.together();
        let header: usize = left.header.iter().map(Vec::len).sum();
        let cut = header + chance.below(record.len() - header + 1);
        nearer += usize::from(check_cut(&pyramid, shape, &record, cut) > 0);
    }
    assert!(nearer > 20, "{nearer}");
}

#[test]
fn reached_planes_run_without_a_gap() {
    let mut chance = Chance::new(48);
    for _ in 0..200 {
        let shape = any_shape(&mut chance);
        let pyramid = any_pyramid(&mut chance, shape);
        let mut left = Pieces::of(&coded(&pyramid, shape));
        strike_some(&mut chance, &mut left);
        let reached = decoded(&left.together()).0.reached;
        let levels = shape.coarsest().0 as usize;
        assert!(reached[..levels].windows(2).all(|pair| pair[0] >= pair[1]));
        assert!(reached[levels..].iter().all(|&plane| plane == 0));
    }
}
