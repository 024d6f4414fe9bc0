//! The calls in the shape of the exported ones.

use crate::helpers::{without, EXAMPLE, EXAMPLE_PYRAMID};
use reference::portal::{afs_code, afs_decode, afs_join, afs_serve, afs_survey};

const DIRTY: u64 = 0xFEED;

#[test]
fn answers_stand_at_the_front() {
    let mut answer = [DIRTY; 12];
    let (mut out, mut work) = ([9; 40], [9; 64]);
    let number = afs_code(&EXAMPLE_PYRAMID, 4, 4, 1, &mut out, &mut work, &mut answer);
    assert_eq!(number, 0);
    assert_eq!(answer, [0, 0, 30, 0, 0, 0, 0, 0, 0, 0, 0, 0]);
    assert_eq!((&out[..30], &out[30..]), (&EXAMPLE[..], &[0; 10][..]));
    assert_eq!(work, [0; 64]);

    let mut answer = [DIRTY; 12];
    let number = afs_serve(&EXAMPLE[..29], 2, 0, &mut out, &mut answer);
    assert_eq!(number, 0);
    assert_eq!(answer, [0, 0, 17, 4, 0, 0, 0, 0, 0, 0, 0, 0]);

    let mut answer = [DIRTY; 18];
    let (mut pyramid, mut work) = ([9; 16], [9; 70]);
    let number = afs_decode(&EXAMPLE[..29], &mut pyramid, &mut work, &mut answer);
    assert_eq!(number, 0);
    assert_eq!(answer[..9], [0, 0, 4, 1, 0, 0, 0, 0, 0]);
    assert_eq!(answer[9..], [0; 9]);
    assert_eq!(work, [0; 70]);

    let mut answer = [DIRTY; 18];
    let lost = without(&EXAMPLE, &[(1, 2)]);
    let number = afs_decode(&lost, &mut pyramid, &mut work, &mut answer);
    assert_eq!(number, 0);
    assert_eq!(answer[..9], [0, 0, 0, 2, 2, 0, 0, 0, 0]);
    assert_eq!(answer[9..], [2, 1, 0, 0, 0, 0, 0, 0, 0]);

    let mut answer = [DIRTY; 12];
    let number = afs_join(&EXAMPLE[..29], &EXAMPLE[..13], &mut out, &mut answer);
    assert_eq!(number, 0);
    assert_eq!(answer, [0, 0, 25, 0, 0, 0, 0, 0, 0, 0, 0, 0]);
    assert_eq!((&out[..25], &out[25..]), (&EXAMPLE[..25], &[0; 15][..]));

    let mut answer = [DIRTY; 12];
    assert_eq!(afs_survey(&EXAMPLE[..29], &mut answer), 0);
    assert_eq!(answer, [0, 0, 4, 4, 1, 3, 5, 4, 0, 0, 0, 0]);
}

#[test]
fn refusals_are_returned_and_written() {
    let mut answer = [DIRTY; 5];
    let mut wild = EXAMPLE_PYRAMID;
    wild[3] = i32::MIN;
    let (mut out, mut work) = ([9; 40], [9; 64]);
    assert_eq!(
        afs_code(&wild, 4, 4, 1, &mut out, &mut work, &mut answer),
        4
    );
    assert_eq!(answer, [4, 3, 0, 0, 0]);
    assert_eq!((out, work), ([0; 40], [0; 64]));

    let mut answer = [DIRTY; 5];
    let mut out = [9; 40];
    assert_eq!(
        afs_serve(&EXAMPLE, (1 << 32) + 1, 0, &mut out, &mut answer),
        11
    );
    assert_eq!(answer, [11, 0, 0, 0, 0]);
    assert_eq!(out, [0; 40]);

    let mut answer = [DIRTY; 15];
    let (mut pyramid, mut work) = ([9; 16], [9; 64]);
    assert_eq!(
        afs_decode(&EXAMPLE[..3], &mut pyramid, &mut work, &mut answer),
        6
    );
    assert_eq!((&answer[..2], &answer[2..]), (&[6, 3][..], &[0; 13][..]));

    let mut answer = [DIRTY; 9];
    assert_eq!(afs_survey(&EXAMPLE[..3], &mut answer), 6);
    assert_eq!(answer, [6, 3, 0, 0, 0, 0, 0, 0, 0]);
    let mut short = [DIRTY; 7];
    assert_eq!(afs_survey(&EXAMPLE, &mut short), 5);
    assert_eq!(short, [0; 7]);
    assert_eq!((pyramid, work), ([0; 16], [0; 64]));
}

/// Before any other check, and with all that was lent at 0.
#[test]
fn an_answer_slice_too_short() {
    for length in 0..3 {
        let mut answer = vec![DIRTY; length];
        let (mut out, mut work) = ([9; 40], [9; 70]);
        let number = afs_code(&[7; 3], 0, 0, 0, &mut out, &mut work, &mut answer);
        assert_eq!((number, out, work), (5, [0; 40], [0; 70]));
        assert_eq!(answer, vec![0; length]);
    }
    for length in 0..4 {
        let mut answer = vec![DIRTY; length];
        let mut out = [9; 40];
        let number = afs_serve(&[], 0, 99, &mut out, &mut answer);
        assert_eq!((number, out), (5, [0; 40]));
        assert_eq!(answer, vec![0; length]);
    }
    for length in 0..3 {
        let mut answer = vec![DIRTY; length];
        let mut out = [9; 40];
        let number = afs_join(&EXAMPLE, &[], &mut out, &mut answer);
        assert_eq!((number, out), (5, [0; 40]));
        assert_eq!(answer, vec![0; length]);
    }
    for length in 0..15 {
        let mut answer = vec![DIRTY; length];
        let (mut out, mut work) = ([9; 11], [9; 5]);
        let number = afs_decode(&EXAMPLE, &mut out, &mut work, &mut answer);
        assert_eq!((number, out, work), (5, [0; 11], [0; 5]));
        assert_eq!(answer, vec![0; length]);
    }
}

#[test]
fn nothing_lent_at_all() {
    assert_eq!(afs_code(&[], 0, 0, 0, &mut [], &mut [], &mut []), 5);
    assert_eq!(afs_serve(&[], 0, 0, &mut [], &mut []), 5);
    assert_eq!(afs_decode(&[], &mut [], &mut [], &mut []), 5);
    assert_eq!(afs_join(&[], &[], &mut [], &mut []), 5);
    assert_eq!(afs_join(&[], &[], &mut [], &mut [1; 3]), 6);
    assert_eq!(afs_code(&[], 0, 0, 0, &mut [], &mut [], &mut [1; 3]), 1);
    assert_eq!(afs_serve(&[], 0, 0, &mut [], &mut [1; 4]), 6);
    assert_eq!(afs_decode(&[], &mut [], &mut [], &mut [1; 15]), 6);
}
