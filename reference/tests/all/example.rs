//! The record in full, and P6 to P11.

use crate::helpers::*;

#[test]
fn p6_the_example_is_coded() {
    assert_eq!(coded(&EXAMPLE_PYRAMID, shape(4, 4, 1)), EXAMPLE);
}

#[test]
fn p6_the_example_is_decoded() {
    let (answer, pyramid) = decoded(&EXAMPLE);
    assert_eq!(answer.numbers(), [0; 15]);
    assert_eq!(pyramid, EXAMPLE_PYRAMID);
}

#[test]
fn p7_all_zero() {
    let record = coded(&[0; 16], shape(4, 4, 1));
    assert_eq!(record, [0x01, 0x04, 0x04, 0x01, 0x00]);
    let (answer, pyramid) = decoded(&record);
    assert_eq!((answer.number, answer.reached), (0, [0; 6]));
    assert_eq!(pyramid, [0; 16]);
}

#[test]
fn p8_served_for_level_2() {
    let record = served(&EXAMPLE, 2, 0);
    assert_eq!(record.len(), 17);
    let (answer, pyramid) = decoded(&record);
    assert_eq!(answer.number, 0);
    assert_eq!(answer.reached, [3, 0, 0, 0, 0, 0]);
    assert_eq!(answer.skipped, [0; 6]);
    assert_eq!(pyramid, [4, -1, 0, 0, 2, 0, 0, 0, 0, 0, 0, 0, 0, 0, 0, 0]);
}

#[test]
fn p9_served_for_plane_1() {
    let record = served(&EXAMPLE, 1, 1);
    assert_eq!(record.len(), 21);
    assert_eq!(record, EXAMPLE[..21]);
    let (answer, pyramid) = decoded(&record);
    assert_eq!(answer.number, 0);
    assert_eq!(answer.reached, [1, 1, 0, 0, 0, 0]);
    assert_eq!(answer.skipped, [0; 6]);
    assert_eq!(pyramid, [4, 0, 0, 0, 2, 0, 0, -2, 0, 0, 0, 0, 0, 0, 0, 0]);
}

#[test]
fn p10_a_coarse_part_lost() {
    let (answer, pyramid) = decoded(&without(&EXAMPLE, &[(1, 2)]));
    assert_eq!(answer.number, 0);
    assert_eq!(answer.reached, [2, 2, 0, 0, 0, 0]);
    assert_eq!(answer.skipped, [2, 1, 0, 0, 0, 0]);
    assert_eq!(pyramid, [4, 0, 0, 0, 0, 0, 0, 0, 0, 0, 0, 0, 0, 0, 0, 0]);
}

#[test]
fn p11_a_fine_part_lost() {
    let (answer, pyramid) = decoded(&without(&EXAMPLE, &[(1, 1)]));
    assert_eq!(answer.number, 0);
    assert_eq!(answer.reached, [2, 0, 0, 0, 0, 0]);
    assert_eq!(answer.skipped, [1, 0, 0, 0, 0, 0]);
    assert_eq!(pyramid, [4, -1, 0, 0, 2, 0, 0, 0, 0, 0, 0, 0, 0, 0, 0, 0]);
}

#[test]
fn every_request_of_the_example() {
    // Offsets of the six parts, and the end.
    let offsets = [5, 9, 13, 17, 21, 25, 30];
    let order = [(2, 2), (2, 1), (1, 2), (1, 1), (0, 2), (0, 1)];
    for level in 1..=2 {
        for plane in 0..=3 {
            let mut wanted = EXAMPLE[..5].to_vec();
            for (at, (n, k)) in order.iter().enumerate() {
                if *k >= level && *n >= plane {
                    wanted.extend(&EXAMPLE[offsets[at]..offsets[at + 1]]);
                }
            }
            assert_eq!(served(&EXAMPLE, level, plane), wanted);
        }
    }
}

#[test]
fn a_header_alone_is_a_record() {
    let (answer, pyramid) = decoded(&EXAMPLE[..5]);
    assert_eq!((answer.number, answer.tail), (0, 0));
    assert_eq!(answer.reached, [3, 3, 0, 0, 0, 0]);
    assert_eq!(pyramid, [0; 16]);
}
