//! Demand 2: the record is what the published steps and the layout give,
//! serving keeps exactly the parts named, a whole record gives the pyramid.

use crate::helpers::*;
use crate::literal;
use reference::coder::largest_of;
use reference::generate::pyramids::{any_pyramid, pyramid, PyramidKind};
use reference::generate::records::{whole_in, Pieces};
use reference::generate::shapes::{any_shape, shape_of, SizeClass};
use reference::generate::Chance;
use reference::size::{earlier_planes_of, planes_of, Shape, MOST_PLANES};

fn published(pyramid: &[i32], shape: Shape) -> Vec<u8> {
    literal::record(
        pyramid,
        shape.width() as usize,
        shape.height() as usize,
        shape.decompositions() as usize,
    )
}

#[test]
fn the_published_steps_give_the_example() {
    assert_eq!(published(&EXAMPLE_PYRAMID, shape(4, 4, 1)), EXAMPLE);
}

#[test]
fn records_are_those_of_the_published_steps() {
    let mut chance = Chance::new(21);
    for n in 1..=5 {
        for kind in PyramidKind::ALL {
            for class in [SizeClass::To16, SizeClass::To64] {
                let rounds = if n == 5 || class == SizeClass::To64 {
                    2
                } else {
                    12
                };
                for _ in 0..rounds {
                    let shape = shape_of(&mut chance, n, class);
                    let pyramid = pyramid(&mut chance, shape, kind);
                    let record = coded(&pyramid, shape);
                    assert!(record == published(&pyramid, shape), "{shape:?} {kind:?}");
                }
            }
        }
    }
}

/// The earlier count is that of what is stored; more planes than either are
/// legal too. All of them give the pyramid.
#[test]
fn records_of_every_count() {
    let mut chance = Chance::new(27);
    let mut differing = 0;
    for n in 1..=4 {
        for kind in PyramidKind::ALL {
            let shape = shape_of(&mut chance, n, SizeClass::To16);
            let pyramid = pyramid(&mut chance, shape, kind);
            let largest = largest_of(&pyramid);
            let earlier = literal::earlier_planes(largest);
            assert_eq!(earlier_planes_of(largest), earlier);
            differing += u32::from(earlier != planes_of(largest));
            let [w, h, n] = [shape.width(), shape.height(), shape.decompositions()];
            for planes in planes_of(largest)..=MOST_PLANES {
                let record = whole_in(&pyramid, shape, planes);
                let [w, h, n] = [w as usize, h as usize, n as usize];
                assert!(record == literal::record_in(&pyramid, w, h, n, planes));
                let (answer, back) = decoded(&record);
                assert_eq!((answer.number, answer.tail, answer.reached), (0, 0, [0; 6]));
                assert!(back == pyramid, "{shape:?} {kind:?} {planes}");
            }
        }
    }
    assert!(differing > 10, "{differing}");
}

/// -5 at (0, 0) of 4 x 4, now and as it was written before.
#[test]
fn minus_five_by_either_count() {
    let mut pyramid = [0; 16];
    pyramid[0] = -5;
    let now = [
        0x01, 0x04, 0x04, 0x01, 0x03, 0x02, 0x02, 0x05, 0xC0, 0x02, 0x01, 0x03, 0x00, 0x01, 0x02,
        0x04, 0x00, 0x01, 0x01, 0x03, 0x00, 0x00, 0x02, 0x04, 0x10, 0x00, 0x01, 0x03, 0x00,
    ];
    let before = [
        0x01, 0x04, 0x04, 0x01, 0x04, 0x03, 0x02, 0x04, 0x00, 0x03, 0x01, 0x03, 0x00,
    ];
    let shape = shape(4, 4, 1);
    assert_eq!(coded(&pyramid, shape), now);
    assert_eq!(
        whole_in(&pyramid, shape, earlier_planes_of(5)),
        [&before, &now[5..]].concat()
    );
    for (value, bytes, planes) in [(5, 29, 3), (65_535, 133, 16), (-65_535, 133, 16)] {
        pyramid[0] = value;
        let record = coded(&pyramid, shape);
        assert_eq!((record.len(), record[4]), (bytes, planes));
        let earlier = whole_in(&pyramid, shape, u32::from(planes) + 1);
        assert_eq!(earlier.len(), bytes + 8);
    }
}

#[test]
fn a_large_record_is_that_of_the_published_steps() {
    let mut chance = Chance::new(22);
    let shape = shape(128, 256, 4);
    let pyramid = pyramid(&mut chance, shape, PyramidKind::Waterfall);
    assert!(coded(&pyramid, shape) == published(&pyramid, shape));
}

/// Every 4 x 4 pyramid of a small range in its corners, by counting.
#[test]
fn small_pyramids_by_counting() {
    let shape = shape(4, 4, 1);
    for count in 0..5u32.pow(6) {
        let mut pyramid = [0; 16];
        let mut left = count;
        for at in [0, 1, 4, 5, 7, 10] {
            pyramid[at] = (left % 5) as i32 - 2;
            left /= 5;
        }
        let record = coded(&pyramid, shape);
        assert_eq!(record, published(&pyramid, shape));
        assert_eq!(decoded(&record).1, pyramid);
    }
}

#[test]
fn whole_records_give_the_pyramid() {
    let mut chance = Chance::new(23);
    for n in 1..=5 {
        for kind in PyramidKind::ALL {
            for class in [SizeClass::To16, SizeClass::To64, SizeClass::To256] {
                let shape = shape_of(&mut chance, n, class);
                let pyramid = pyramid(&mut chance, shape, kind);
                let (answer, back) = decoded(&coded(&pyramid, shape));
                assert_eq!((answer.number, answer.tail), (0, 0));
                assert_eq!(answer.reached, [0; 6]);
                assert!(back == pyramid, "{shape:?} {kind:?}");
            }
        }
    }
}

#[test]
fn the_largest_pyramids_come_back() {
    let mut chance = Chance::new(24);
    for n in 1..=5 {
        let shape = shape(512, 512, n);
        for kind in [
            PyramidKind::Dense,
            PyramidKind::Extreme,
            PyramidKind::Waterfall,
        ] {
            let pyramid = pyramid(&mut chance, shape, kind);
            assert!(
                decoded(&coded(&pyramid, shape)).1 == pyramid,
                "{n} {kind:?}"
            );
        }
    }
}

#[test]
fn a_record_holds_every_part_in_order() {
    let mut chance = Chance::new(25);
    for _ in 0..200 {
        let shape = any_shape(&mut chance);
        let pyramid = any_pyramid(&mut chance, shape);
        let pieces = Pieces::of(&coded(&pyramid, shape));
        let planes = u32::from(pieces.header[4][0]);
        let mut parts = pieces.parts.iter();
        for plane in (0..planes).rev() {
            for level in (1..=shape.decompositions() + 1).rev() {
                let part = parts.next().expect("every part is written");
                assert_eq!((part.plane.0, part.level.0), (plane, level));
            }
        }
        assert!(parts.next().is_none());
    }
}

#[test]
fn serving_keeps_exactly_the_parts_named() {
    let mut chance = Chance::new(26);
    for _ in 0..300 {
        let shape = any_shape(&mut chance);
        let pyramid = any_pyramid(&mut chance, shape);
        let record = coded(&pyramid, shape);
        let mut pieces = Pieces::of(&record);
        let planes = usize::from(pieces.header[4][0]);
        let level = 1 + chance.below(shape.coarsest().0 as usize) as u64;
        let plane = chance.below(planes + 1) as u64;
        pieces.strike(|p, k| u64::from(k.0) < level || u64::from(p.0) < plane);
        let kept = pieces.together();
        assert!(served(&record, level, plane) == kept);
        // Room for just these bytes is enough, for one less is not.
        let (answer, out) = serve_into(&record, level, plane, kept.len());
        assert_eq!((answer.number, answer.length), (0, kept.len() as u64));
        assert!(out == kept);
        let (answer, _) = serve_into(&record, level, plane, kept.len() - 1);
        assert_eq!((answer.number, answer.place), (5, 0));
    }
}

#[test]
fn coding_needs_just_its_room() {
    let mut chance = Chance::new(27);
    for _ in 0..150 {
        let shape = any_shape(&mut chance);
        let pyramid = any_pyramid(&mut chance, shape);
        let record = coded(&pyramid, shape);
        let size = (
            shape.width().into(),
            shape.height().into(),
            shape.decompositions().into(),
        );
        let into = |room| {
            code_into::<reference::slip::Faithful>(&pyramid, size, room, shape.workspace() + 3)
        };
        let (answer, out) = into(record.len());
        assert_eq!(answer.number, 0);
        assert!(out == record);
        for room in [0, chance.below(record.len()), record.len() - 1] {
            assert_eq!(into(room).0.number, 5);
        }
    }
}
