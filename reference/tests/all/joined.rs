//! Joining: the worked records, the order of refusals, and the algebra: it
//! commutes, it associates, a record with itself is itself, and of selections of
//! one record it is the selection by "or".

use crate::helpers::*;
use reference::generate::pairs::{any_pair, Kin};
use reference::generate::records::{any_record, any_whole, Pieces};
use reference::generate::shapes::{any_shape, shape_of, SizeClass};
use reference::generate::Chance;
use reference::reading::Walk;
use reference::{join, survey, JoinAnswer};

/// Joins into a dirty output of the given length.
fn join_into(first: &[u8], second: &[u8], room: usize) -> (JoinAnswer, Vec<u8>) {
    let mut out = vec![0xA5; room];
    let answer = join(first, second, &mut out);
    let used = answer.length as usize;
    assert!(out[used..].iter().all(|&byte| byte == 0), "0 after it");
    if answer.number == 0 {
        assert_eq!(answer.place, 0);
    } else {
        assert_eq!(answer.length, 0, "a refusal has only number and place");
    }
    (answer, out)
}

/// What is joined, if it is, with the room that is always enough.
fn joined(first: &[u8], second: &[u8]) -> Option<Vec<u8>> {
    let (answer, mut out) = join_into(first, second, first.len() + second.len());
    assert_ne!(answer.number, 5, "room for both is room for the join");
    out.truncate(answer.length as usize);
    (answer.number == 0).then_some(out)
}

fn refused(first: &[u8], second: &[u8], room: usize) -> (u64, u64) {
    let (answer, _) = join_into(first, second, room);
    (answer.number, answer.place)
}

/// The example with some bytes another value.
fn changed(at: usize, byte: u8) -> Vec<u8> {
    let mut record = EXAMPLE.to_vec();
    record[at] = byte;
    record
}

#[test]
fn the_example_served_in_two_ways() {
    let (coarse, high) = (served(&EXAMPLE, 2, 0), served(&EXAMPLE, 1, 1));
    for (first, second) in [(&coarse, &high), (&high, &coarse)] {
        let (answer, out) = join_into(first, second, 30);
        assert_eq!((answer.number, answer.length), (0, 25));
        assert_eq!(out[..25], EXAMPLE[..25]);
        assert_eq!(refused(first, second, 24), (5, 0));
    }
}

#[test]
fn the_example_with_itself() {
    assert_eq!(joined(&EXAMPLE, &EXAMPLE).unwrap(), EXAMPLE);
    assert_eq!(join_into(&EXAMPLE, &EXAMPLE, 30).0.length, 30);
    assert_eq!(refused(&EXAMPLE, &EXAMPLE, 29), (5, 0));
    let cut = &EXAMPLE[..29];
    assert_eq!(joined(cut, cut).unwrap(), EXAMPLE[..25]);
    assert_eq!(joined(cut, &EXAMPLE).unwrap(), EXAMPLE);
    assert_eq!(joined(&EXAMPLE, &EXAMPLE[..7]).unwrap(), EXAMPLE);
}

#[test]
fn a_shared_part_that_differs() {
    let (first_other, last_other) = (changed(8, 0x40), changed(28, 0x0D));
    assert_eq!(refused(&EXAMPLE, &first_other, 60), (15, 5));
    // The place is in the first record, wherever the second has the part.
    let lost = without(&EXAMPLE, &[(1, 2)]);
    assert_eq!(refused(&lost, &last_other, 60), (15, 21));
    assert_eq!(refused(&last_other, &lost, 60), (15, 25));
    // Of a part that one of them lacks nothing can differ.
    assert_eq!(joined(&EXAMPLE[..9], &last_other).unwrap(), last_other);
    assert_eq!(joined(&EXAMPLE[..29], &last_other).unwrap(), last_other);
    // The first of several; bit counts differ too.
    let both = {
        let mut both = first_other.clone();
        both[28] = 0x0D;
        both
    };
    assert_eq!(refused(&EXAMPLE, &both, 60), (15, 5));
    let shorter = [&EXAMPLE[..7], &[0x04, 0x80], &EXAMPLE[9..]].concat();
    assert_eq!(refused(&EXAMPLE, &shorter, 60), (15, 5));
}

#[test]
fn headers_that_differ() {
    for header in [
        [0x01, 0x04, 0x04, 0x01, 0x02],
        [0x01, 0x08, 0x04, 0x01, 0x03],
        [0x01, 0x04, 0x08, 0x01, 0x03],
    ] {
        assert_eq!(refused(&EXAMPLE, &header, 60), (14, 0));
        assert_eq!(refused(&header, &EXAMPLE, 60), (14, 0));
    }
    let deeper = [0x01, 0x08, 0x08, 0x02, 0x03];
    let wide = [0x01, 0x08, 0x08, 0x01, 0x03];
    assert_eq!(refused(&deeper, &wide, 60), (14, 0));
}

/// The first record's faults, the second's, 14, 15, last 5.
#[test]
fn the_order_of_refusals() {
    let pad = changed(8, 0x81);
    let other = [0x01, 0x04, 0x04, 0x01, 0x02];
    assert_eq!(refused(&EXAMPLE[..4], &pad, 60), (6, 4));
    assert_eq!(refused(&pad, &EXAMPLE[..4], 60), (9, 5));
    assert_eq!(refused(&other, &pad, 60), (9, 5));
    assert_eq!(refused(&pad, &other, 60), (9, 5));
    assert_eq!(refused(&changed(8, 0x40), &EXAMPLE[..3], 60), (6, 3));
    assert_eq!(refused(&EXAMPLE, &other, 0), (14, 0));
    assert_eq!(refused(&EXAMPLE, &changed(8, 0x40), 0), (15, 5));
    assert_eq!(refused(&EXAMPLE, &EXAMPLE, 0), (5, 0));
    assert_eq!(refused(&[], &[], 60), (6, 0));
    assert_eq!(refused(&[0x02], &[], 60), (7, 0));
    assert_eq!(refused(&EXAMPLE, &[0x81, 0x00], 60), (12, 0));
    assert_eq!(
        refused(&EXAMPLE, &[0x01, 0x06, 0x04, 0x01, 0x03], 60),
        (1, 0)
    );
}

/// Bits are not decoded, so that they don't fit is no fault.
#[test]
fn parts_need_not_be_usable_nor_fit() {
    let unfit = [&EXAMPLE[..5], &[0x02, 0x02, 0x04, 0x80]].concat();
    let fine = [&EXAMPLE[..5], &EXAMPLE[25..]].concat();
    let both = [&unfit[..], &EXAMPLE[25..]].concat();
    assert_eq!(joined(&unfit, &fine).unwrap(), both);
}

/// A record's parts by the bits of a number, again from the first behind 64.
fn selected(record: &[u8], selection: u64) -> Vec<u8> {
    let mut pieces = Pieces::of(record);
    let mut at = 0;
    pieces.strike(|_, _| {
        at += 1;
        selection >> ((at - 1) % 64) & 1 == 0
    });
    pieces.together()
}

/// The selection by "or", and decoding it gives what decoding that gives.
#[test]
fn every_pair_of_selections_of_the_example() {
    for first in 0..64 {
        for second in 0..64 {
            let [a, b] = [first, second].map(|choice| selected(&EXAMPLE, choice));
            let either = selected(&EXAMPLE, first | second);
            let join = joined(&a, &b).expect("selections of one record");
            assert_eq!(join, either);
            assert_eq!(decoded(&join), decoded(&either));
        }
    }
}

/// Cut anywhere behind the header too, of records of every kind.
#[test]
fn selections_of_one_record_by_or() {
    let mut chance = Chance::new(81);
    for _ in 0..400 {
        let shape = any_shape(&mut chance);
        let whole = any_whole(&mut chance, shape).bytes;
        let header = Walk::begin(&whole)
            .expect("it is whole")
            .header_bytes()
            .len();
        let mut pair = [(); 2].map(|()| selected(&whole, chance.word()));
        for record in &mut pair {
            if chance.once_in(2) {
                let end = header + chance.below(record.len() - header + 1);
                record.truncate(end);
            }
        }
        let [there, others] = [&pair[0], &pair[1]].map(|record| names(record));
        let mut either = Pieces::of(&whole);
        either.strike(|plane, level| {
            let name = (plane.0, level.0);
            !there.contains(&name) && !others.contains(&name)
        });
        let either = either.together();
        assert!(joined(&pair[0], &pair[1]).expect("they are of one") == either);
        assert!(joined(&pair[1], &pair[0]).expect("they are of one") == either);
    }
}

fn names(record: &[u8]) -> Vec<(u32, u32)> {
    let parts = Pieces::of(record).parts.into_iter();
    parts.map(|part| (part.plane.0, part.level.0)).collect()
}

/// Of a pair of records of any kind: where it is accepted, the other order is
/// and gives the same; what comes of it is a record without a tail with all the
/// parts of either; and each with itself is itself less its tail.
#[test]
fn pairs_of_every_kind() {
    let mut chance = Chance::new(82);
    let mut accepted = 0;
    for _ in 0..1_500 {
        let shape = any_shape(&mut chance);
        let whole = any_whole(&mut chance, shape).bytes;
        let pair = any_pair(&mut chance, &whole);
        let first = &pair.first;
        let second = pair.second.as_ref().unwrap_or(first);
        for record in [first, second] {
            is_itself(record);
        }
        let join = match joined(first, second) {
            Some(join) => join,
            None => {
                assert_ne!(pair.kin, Kin::One, "selections of one record");
                assert!(joined(second, first).is_none());
                continue;
            }
        };
        accepted += 1;
        assert!(joined(second, first).expect("the other order") == join);
        assert_eq!(survey(&join).tail, 0);
        let mut either = names(first);
        either.extend(names(second));
        either.sort_unstable_by(|a, b| b.cmp(a));
        either.dedup();
        assert_eq!(names(&join), either);
        assert_eq!(join_into(first, second, join.len()).0.number, 0);
        assert_eq!(refused(first, second, join.len() - 1), (5, 0));
    }
    assert!(accepted > 400, "{accepted} accepted");
}

fn is_itself(record: &[u8]) {
    let said = survey(record);
    let (answer, _) = join_into(record, record, 2 * record.len());
    assert_eq!((answer.number, answer.place), (said.number, said.place));
    if said.number == 0 {
        let end = record.len() - said.tail as usize;
        assert!(joined(record, record).unwrap() == record[..end]);
    }
}

/// Three in either grouping, where no call refuses.
#[test]
fn three_in_either_grouping() {
    let mut chance = Chance::new(83);
    let mut grouped = 0;
    for round in 0..600 {
        let class = [SizeClass::To16, SizeClass::To64][round % 2];
        let shape = shape_of(&mut chance, 1 + round as u32 % 3, class);
        let whole = any_whole(&mut chance, shape).bytes;
        let pair = any_pair(&mut chance, &whole);
        let a = pair.first;
        let b = pair.second.unwrap_or_else(|| whole.clone());
        let c = if chance.once_in(3) {
            any_record(&mut chance, &whole)
        } else {
            selected(&whole, chance.word())
        };
        let left = joined(&a, &b).and_then(|ab| joined(&ab, &c));
        let right = joined(&b, &c).and_then(|bc| joined(&a, &bc));
        if let (Some(left), Some(right)) = (left, right) {
            assert!(left == right);
            grouped += 1;
        }
    }
    assert!(grouped > 150, "{grouped} groupings");
}
