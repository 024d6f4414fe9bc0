//! The part that the end of the bytes cuts is decoded as far as its bits go:
//! worked bytes, both causes of 10, and what more bytes of a record bring.

use crate::helpers::*;
use reference::coder::largest_of;
use reference::generate::pyramids::any_pyramid;
use reference::generate::records::{invented, strike_some, whole_in, Pieces};
use reference::generate::shapes::{any_shape, shape_of, SizeClass};
use reference::generate::Chance;
use reference::reading::Walk;
use reference::size::{earlier_planes_of, planes_of};

/// Number, place, tail, reached planes of both levels, and the pyramid.
fn told(record: &[u8]) -> ([u64; 5], Vec<i32>) {
    let (answer, pyramid) = decoded(record);
    let mut numbers = [0; 5];
    numbers.copy_from_slice(&answer.numbers()[..5]);
    (numbers, pyramid)
}

#[test]
fn the_first_29_bytes_and_the_first_28() {
    let (numbers, pyramid) = told(&EXAMPLE[..29]);
    assert_eq!(numbers, [0, 0, 4, 1, 0]);
    // The 1 at (2, 2) came with the tail.
    assert_eq!(pyramid, [4, -1, 0, 0, 2, 0, 0, -2, 0, 0, 1, 0, 0, 0, 0, 0]);
    for (length, tail) in [(28, 3), (27, 2), (26, 1), (25, 0)] {
        let (numbers, pyramid) = told(&EXAMPLE[..length]);
        assert_eq!(numbers, [0, 0, tail, 1, 0]);
        assert_eq!(pyramid, [4, -1, 0, 0, 2, 0, 0, -2, 0, 0, 0, 0, 0, 0, 0, 0]);
    }
}

#[test]
fn a_significance_bit_without_its_sign() {
    let mut pyramid = EXAMPLE_PYRAMID;
    pyramid[13] = -1;
    let record = coded(&pyramid, shape(4, 4, 1));
    assert_eq!(record[25..], [0x00, 0x01, 0x10, 0x11, 0xE1]);
    let (numbers, arrived) = told(&record[..29]);
    assert_eq!(numbers, [0, 0, 4, 1, 0]);
    assert_eq!(arrived, [4, -1, 0, 0, 2, 0, 0, -2, 0, 0, 0, 0, 0, 0, 0, 0]);
}

/// The first four parts, the last with another bit count and body.
fn with_fourth_part(bits: u8, body: &[u8]) -> Vec<u8> {
    [&EXAMPLE[..17], &[1, 1, bits], body].concat()
}

#[test]
fn a_walk_that_ends_with_the_bits_there_or_before_them() {
    let (numbers, pyramid) = told(&with_fourth_part(0x20, &[0x8C]));
    assert_eq!(numbers, [0, 0, 4, 2, 1]);
    assert_eq!(pyramid, [4, 0, 0, 0, 2, 0, 0, -2, 0, 0, 0, 0, 0, 0, 0, 0]);
    // Eight bits more than the walk asks for, whatever they are.
    for more in [0x00, 0xFF] {
        let (numbers, pyramid) = told(&with_fourth_part(0x20, &[0x8C, more]));
        assert_eq!(numbers, [10, 17, 0, 0, 0]);
        assert_eq!(pyramid, [0; 16]);
    }
}

#[test]
fn padding_of_a_cut_body_is_not_looked_at() {
    // Nine bits of which eight are there: 10001100, all of them asked for.
    let (numbers, pyramid) = told(&with_fourth_part(9, &[0x8C]));
    assert_eq!(numbers, [0, 0, 4, 2, 1]);
    assert_eq!(pyramid[7], -2);
    // The same whole: bits run out or left over, and padding before that.
    assert_eq!(told(&with_fourth_part(9, &[0x8C, 0])).0, [10, 17, 0, 0, 0]);
    assert_eq!(told(&with_fourth_part(9, &[0x8C, 1])).0, [9, 17, 0, 0, 0]);
}

#[test]
fn a_tail_that_is_not_used() {
    let as_two_parts = |tail: &[u8]| {
        let record = [&EXAMPLE[..13], tail].concat();
        let (numbers, pyramid) = told(&record);
        assert_eq!(numbers, [0, 0, tail.len() as u64, 2, 2], "{tail:02X?}");
        assert_eq!(pyramid, [4, 0, 0, 0, 0, 0, 0, 0, 0, 0, 0, 0, 0, 0, 0, 0]);
    };
    // Of parts that want (1, 2), which isn't there: neither decoded nor refused,
    // though 10 would be due of the second.
    as_two_parts(&[1, 1, 0x20, 0x8C]);
    as_two_parts(&[0, 2, 0x20, 0, 0, 0]);
    // A head that is cut, and a head with no body byte behind it.
    as_two_parts(&[1]);
    as_two_parts(&[1, 2]);
    as_two_parts(&[1, 2, 0x85]);
    as_two_parts(&[1, 2, 5]);
}

#[test]
fn the_head_of_a_cut_part_is_judged_first() {
    let number = |head: &[u8]| told(&[&EXAMPLE[..13], head].concat()).0[..2].to_vec();
    // A part that was there, a plane that isn't, too many bits; then 10.
    assert_eq!(number(&[2, 2, 0x20, 0]), [8, 13]);
    assert_eq!(number(&[3, 2, 0x20, 0]), [8, 13]);
    assert_eq!(number(&[1, 2, 0x41, 0, 0]), [8, 13]);
    assert_eq!(number(&[1, 2, 0xA0, 0x00, 0]), [12, 13]);
    assert_eq!(number(&[1, 2, 0x20, 0, 0]), [10, 13]);
}

/// What comes before is judged first: padding, then bits that don't fit.
#[test]
fn a_fault_before_the_cut_part_decides() {
    let mut record = with_fourth_part(0x20, &[0x8C, 0]);
    assert_eq!(told(&record).0[..2], [10, 17]);
    record[16] = 0xFF;
    assert_eq!(told(&record).0[..2], [9, 13]);
    record[16] = 0x00;
    record[15] = 3;
    assert_eq!(told(&record).0[..2], [10, 13]);
}

/// No magnitude falls and no sign turns.
fn is_no_worse(before: &[i32], after: &[i32]) -> bool {
    before.iter().zip(after).all(|(&less, &more)| {
        less.unsigned_abs() <= more.unsigned_abs() && (less == 0 || less.signum() == more.signum())
    })
}

/// A coder's record of either count, struck in every second case.
fn of_a_coder(chance: &mut Chance, class: SizeClass) -> Vec<u8> {
    let n = 1 + chance.below(5) as u32;
    let shape = shape_of(chance, n, class);
    let pyramid = any_pyramid(chance, shape);
    let largest = largest_of(&pyramid);
    let planes = match chance.below(2) {
        0 => planes_of(largest),
        _ => earlier_planes_of(largest),
    };
    let mut left = Pieces::of(&whole_in(&pyramid, shape, planes));
    if chance.once_in(2) {
        strike_some(chance, &mut left);
    }
    left.together()
}

/// Every prefix of 200 records: accepted, and no worse than the one before.
#[test]
fn more_bytes_are_never_worse() {
    let mut chance = Chance::new(191);
    let (mut prefixes, mut better) = (0, 0);
    for record in 0..200 {
        let class = match record % 40 {
            0 => SizeClass::To64,
            _ => SizeClass::To16,
        };
        let record = of_a_coder(&mut chance, class);
        let header = Walk::begin(&record).expect("legal").header_bytes().len();
        let mut before = decoded(&record[..header]).1;
        for length in header..=record.len() {
            let (answer, after) = decoded(&record[..length]);
            assert_eq!((answer.number, answer.place), (0, 0));
            assert!(is_no_worse(&before, &after), "{length} of {record:02X?}");
            prefixes += 1;
            better += u64::from(before != after);
            before = after;
        }
    }
    println!("{prefixes} prefixes, {better} better than the one before");
    assert!(
        prefixes > 50_000 && better > prefixes / 3,
        "{prefixes} {better}"
    );
}

/// Of bits that no coder wrote, all of it accepted, prefixes are too: the walk
/// asks for what it asks for. That they are no worse is promised of coders'.
#[test]
fn prefixes_of_invented_records_are_accepted() {
    let mut chance = Chance::new(192);
    for _ in 0..300 {
        let shape = any_shape(&mut chance);
        let record = invented(&mut chance, shape);
        let header = Walk::begin(&record).expect("legal").header_bytes().len();
        let length = header + chance.below(record.len() - header + 1);
        assert_eq!(decoded(&record[..length]).0.number, 0);
    }
}
