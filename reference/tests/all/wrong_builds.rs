//! A test of the tests: each of the "errors that look reasonable" is made, and
//! the ordinary checks must catch it. The faithful build passes them all.

use crate::helpers::*;
use crate::literal;
use reference::generate::pyramids::{pyramid, PyramidKind};
use reference::generate::records::{strike_some, Pieces};
use reference::generate::shapes::{shape_of, SizeClass};
use reference::generate::Chance;
use reference::size::Shape;
use reference::slip::*;

/// A few pyramids of every N and of the kinds that say something.
fn samples() -> Vec<(Shape, Vec<i32>)> {
    let mut chance = Chance::new(61);
    let mut samples = Vec::new();
    for n in 1..=5 {
        for kind in [
            PyramidKind::OneCoefficient,
            PyramidKind::Sparse,
            PyramidKind::Dense,
            PyramidKind::Decaying,
            PyramidKind::Waterfall,
        ] {
            let shape = shape_of(&mut chance, n, SizeClass::To16);
            samples.push((shape, pyramid(&mut chance, shape, kind)));
        }
    }
    samples
}

/// The example's bytes, from its pyramid.
fn example_is_coded<S: Slips>() -> bool {
    coded_as::<S>(&EXAMPLE_PYRAMID, shape(4, 4, 1)) == EXAMPLE
}

/// Demand 2 of the coder: the published steps' bytes.
fn records_are_the_published_ones<S: Slips>() -> bool {
    samples().iter().all(|(shape, pyramid)| {
        let (w, h, n) = (shape.width(), shape.height(), shape.decompositions());
        let published = literal::record(pyramid, w as usize, h as usize, n as usize);
        coded_as::<S>(pyramid, *shape) == published
    })
}

/// The coder's record is decoded by the same build to the pyramid. A build
/// that is wrong on both sides alike may pass this.
fn whole_comes_back<S: Slips>() -> bool {
    samples().iter().all(|(shape, pyramid)| {
        let (answer, back) = decoded_as::<S>(&coded_as::<S>(pyramid, *shape));
        answer.number == 0 && back == *pyramid
    })
}

/// Demand 2 of the decoder: a right record gives the pyramid.
fn right_records_are_decoded<S: Slips>() -> bool {
    samples().iter().all(|(shape, pyramid)| {
        let (answer, back) = decoded_as::<S>(&coded(pyramid, *shape));
        answer.number == 0 && answer.reached == [0; 6] && back == *pyramid
    })
}

/// Demand 3: a right record with parts struck out.
fn struck_is_rounded<S: Slips>() -> bool {
    let mut chance = Chance::new(62);
    samples().iter().all(|(shape, pyramid)| {
        let whole = Pieces::of(&coded(pyramid, *shape));
        (0..6).all(|_| {
            let mut left = whole.clone();
            strike_some(&mut chance, &mut left);
            as_demanded::<S>(pyramid, *shape, &left)
        })
    })
}

/// Demand 3 where only an empty part is lost, the last one: no bit is missing,
/// but the part is, and its level reached one plane less. With nothing but one
/// coefficient of the LL band, no set of level 2 is ever opened and all parts
/// of level 1 are empty.
fn empty_loss_is_reported<S: Slips>() -> bool {
    let shape = shape(8, 8, 2);
    let mut pyramid = vec![0; 64];
    pyramid[0] = 2;
    let mut left = Pieces::of(&coded(&pyramid, shape));
    let last = left.parts.pop().expect("six parts");
    assert_eq!((last.plane.0, last.level.0, last.bits), (0, 1, 0));
    as_demanded::<S>(&pyramid, shape, &left)
}

fn as_demanded<S: Slips>(pyramid: &[i32], shape: Shape, left: &Pieces) -> bool {
    let planes = u32::from(left.header[4][0]);
    let (reached, rounded) = expected(pyramid, shape, planes, &|plane, level| {
        left.parts
            .iter()
            .any(|part| (part.plane, part.level) == (plane, level))
    });
    let (answer, decoded) = decoded_as::<S>(&left.together());
    answer.number == 0 && answer.reached == reached && decoded == rounded
}

#[derive(Debug, PartialEq)]
struct Passed {
    example: bool,
    published: bool,
    comes_back: bool,
    right_decoded: bool,
    struck: bool,
    empty_loss: bool,
}

const ALL_PASSED: Passed = Passed {
    example: true,
    published: true,
    comes_back: true,
    right_decoded: true,
    struck: true,
    empty_loss: true,
};

fn checked<S: Slips>() -> Passed {
    Passed {
        example: example_is_coded::<S>(),
        published: records_are_the_published_ones::<S>(),
        comes_back: whole_comes_back::<S>(),
        right_decoded: right_records_are_decoded::<S>(),
        struck: struck_is_rounded::<S>(),
        empty_loss: empty_loss_is_reported::<S>(),
    }
}

#[test]
fn the_faithful_build_passes() {
    assert_eq!(checked::<Faithful>(), ALL_PASSED);
}

#[test]
fn going_on_after_a_loss_is_caught() {
    let passed = checked::<GoesOnAfterLoss>();
    assert!(!passed.struck);
    // And only there: nothing else tells of it.
    assert!(passed.example && passed.published && passed.right_decoded);
}

#[test]
fn testing_the_wanted_level_only_is_caught() {
    let passed = checked::<TestsWantedLevelOnly>();
    assert!(!passed.published && !passed.comes_back);
    // The example has one level below the LL band, which cannot tell.
    assert!(passed.example);
}

#[test]
fn refining_new_entries_is_caught() {
    let passed = checked::<RefinesNewEntries>();
    assert!(!passed.example && !passed.published && !passed.comes_back);
    assert!(!passed.right_decoded && !passed.struck);
}

#[test]
fn visiting_new_offspring_again_is_caught() {
    let passed = checked::<VisitsNewOffspring>();
    assert!(!passed.example && !passed.published);
    assert!(!passed.right_decoded && !passed.struck);
    // Both sides err alike, so a round trip alone would not do.
    assert!(passed.comes_back);
}

#[test]
fn missing_new_sets_is_caught() {
    let passed = checked::<MissesNewSets>();
    assert!(!passed.published && !passed.right_decoded && !passed.struck);
    assert!(passed.example);
}

#[test]
fn taking_an_absent_part_for_an_empty_one_is_caught() {
    let passed = checked::<TakesAbsentForEmpty>();
    assert!(!passed.struck && !passed.empty_loss);
    assert!(passed.example && passed.published && passed.right_decoded);
}
