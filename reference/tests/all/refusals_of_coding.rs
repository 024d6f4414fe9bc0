//! Coding's refusals, one by one and in their order.

use crate::helpers::*;
use reference::slip::Faithful;

/// Number and place for a pyramid of 16 zeros but for the given ones.
fn refusal(size: (u64, u64, u64), pyramid: &[i32], out: usize, work: usize) -> (u64, u64) {
    let (answer, _) = code_into::<Faithful>(pyramid, size, out, work);
    (answer.number, answer.place)
}

const SIZE: (u64, u64, u64) = (4, 4, 1);

#[test]
fn size() {
    let pyramid = [0; 16];
    for wrong in [
        (0, 4, 1),
        (4, 0, 1),
        (2, 4, 1),
        (4, 2, 1),
        (4, 4, 0),
        (4, 4, 2),
        (4, 4, 6),
        (4, 5, 1),
        (6, 4, 1),
        (516, 4, 1),
        (4, 516, 1),
        ((1 << 32) + 4, 4, 1),
        (4, (1 << 32) + 4, 1),
        (4, 4, (1 << 32) + 1),
        (4, 4, 64),
        (4, 4, u64::MAX),
        (u64::MAX, u64::MAX, u64::MAX),
        (1 << 63, 2, 1),
    ] {
        assert_eq!(refusal(wrong, &pyramid, 100, 100), (1, 0), "{wrong:?}");
    }
}

#[test]
fn length() {
    for length in [0, 15, 17, 32] {
        assert_eq!(refusal(SIZE, &vec![0; length], 100, 64), (2, 0));
    }
}

#[test]
fn work() {
    for work in [0, 1, 63] {
        assert_eq!(refusal(SIZE, &[0; 16], 100, work), (3, 0));
    }
    for work in [64, 65, 1000] {
        assert_eq!(refusal(SIZE, &[0; 16], 100, work), (0, 0));
    }
}

#[test]
fn range() {
    for at in 0..16 {
        for value in [65_536, -65_536, i32::MAX, i32::MIN] {
            let mut pyramid = [1; 16];
            pyramid[at] = value;
            assert_eq!(refusal(SIZE, &pyramid, 100, 64), (4, at as u64));
            // The first such index, whatever comes later.
            pyramid[15] = i32::MIN;
            assert_eq!(refusal(SIZE, &pyramid, 100, 64), (4, at as u64));
        }
    }
}

#[test]
fn room() {
    for room in 0..30 {
        assert_eq!(refusal(SIZE, &EXAMPLE_PYRAMID, room, 64), (5, 0));
    }
    for room in 30..40 {
        assert_eq!(refusal(SIZE, &EXAMPLE_PYRAMID, room, 64), (0, 0));
    }
    assert_eq!(refusal(SIZE, &[0; 16], 4, 64), (5, 0));
    assert_eq!(refusal(SIZE, &[0; 16], 5, 64), (0, 0));
}

/// Everything wrong at once, then righted from the front.
#[test]
fn order() {
    let wild = [i32::MIN; 16];
    assert_eq!(refusal((4, 4, 6), &wild[..15], 0, 0), (1, 0));
    assert_eq!(refusal(SIZE, &wild[..15], 0, 0), (2, 0));
    assert_eq!(refusal(SIZE, &wild, 0, 0), (3, 0));
    assert_eq!(refusal(SIZE, &wild, 0, 64), (4, 0));
    assert_eq!(refusal(SIZE, &EXAMPLE_PYRAMID, 0, 64), (5, 0));
    assert_eq!(refusal(SIZE, &EXAMPLE_PYRAMID, 30, 64), (0, 0));
}
