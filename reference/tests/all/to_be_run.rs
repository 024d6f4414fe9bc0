//! "To be run", in its order.

use crate::helpers::*;
use reference::slip::Faithful;

/// The number that coding a pyramid of one value comes back with.
fn number_for(w: u64, h: u64, n: u64, value: i32) -> u64 {
    let area = (w * h) as usize;
    let (answer, _) = code_into::<Faithful>(&vec![value; area], (w, h, n), 4 * area, 4 * area);
    answer.number
}

#[test]
fn decomposition_counts() {
    assert_eq!(number_for(64, 64, 0, 1), 1);
    assert_eq!(number_for(64, 64, 6, 1), 1);
    assert_eq!(number_for(64, 64, 5, 1), 0);
}

#[test]
fn sizes_by_their_multiples() {
    assert_eq!(number_for(6, 8, 1, 1), 1);
    assert_eq!(number_for(8, 6, 1, 1), 1);
    assert_eq!(number_for(8, 8, 1, 1), 0);
}

#[test]
fn the_largest_size() {
    assert_eq!(number_for(512, 512, 5, 1), 0);
    assert_eq!(number_for(512, 512, 1, 1), 0);
    assert_eq!(number_for(516, 512, 1, 1), 1);
    assert_eq!(number_for(512, 516, 1, 1), 1);
}

#[test]
fn magnitudes() {
    for value in [65_535, -65_535] {
        let pyramid = [value; 16];
        let record = coded(&pyramid, shape(4, 4, 1));
        assert_eq!(decoded(&record).1, pyramid);
    }
    for value in [65_536, -65_536, i32::MIN, i32::MAX] {
        assert_eq!(number_for(4, 4, 1, value), 4, "{value}");
    }
}

#[test]
fn empty_input() {
    let (answer, _) = decoded(&[]);
    assert_eq!((answer.number, answer.place), (6, 0));
    let (answer, _) = serve_into(&[], 1, 0, 10);
    assert_eq!((answer.number, answer.place), (6, 0));
}

#[test]
fn room_for_the_example() {
    let (answer, out) = code_into::<Faithful>(&EXAMPLE_PYRAMID, (4, 4, 1), 29, 64);
    assert_eq!((answer.number, answer.place, answer.length), (5, 0, 0));
    assert_eq!(out, [0; 29]);
    let (answer, out) = code_into::<Faithful>(&EXAMPLE_PYRAMID, (4, 4, 1), 30, 64);
    assert_eq!((answer.number, answer.place, answer.length), (0, 0, 30));
    assert_eq!(out, EXAMPLE);
}

#[test]
fn the_first_29_bytes() {
    let (answer, pyramid) = decoded(&EXAMPLE[..29]);
    assert_eq!((answer.number, answer.tail), (0, 4));
    // Without the whole of the last part level 1 is rounded at plane 1, but for
    // what came of plane 0: the 1 at (2, 2).
    assert_eq!(answer.reached, [1, 0, 0, 0, 0, 0]);
    assert_eq!(pyramid, [4, -1, 0, 0, 2, 0, 0, -2, 0, 0, 1, 0, 0, 0, 0, 0]);
}
