//! Pictures in and out, through calls of the exported shape with dirty buffers
//! whose state afterwards is checked.

use crate::helpers::*;
use crate::lifting::{PICTURE, PYRAMID};
use reference::generate::grey_files::{any_header, harmed, GreyHarm, GreyPieces};
use reference::generate::pictures::{any_picture, pyramid_of};
use reference::generate::records::any_whole;
use reference::generate::shapes::any_shape;
use reference::generate::Chance;
use reference::netpbm::file;
use reference::portal::{afs_grey_in, afs_grey_out, afs_grey_size};
use reference::size::Shape;
use reference::GreyOutAnswer;

const DIRTY: u64 = 0xFEED;

/// The answer's four numbers, and the output whole.
fn in_to(file: &[u8], n: u64, out: usize, work: usize) -> ([u64; 4], Vec<i32>) {
    let mut out = vec![-77; out];
    let (mut work, mut answer) = (vec![0xDEAD_BEEF; work], [DIRTY; 6]);
    let returned = afs_grey_in(file, n, &mut out, &mut work, &mut answer);
    assert!(work.iter().all(|&word| word == 0), "workspace all 0");
    assert_eq!((returned, answer[4..].to_vec()), (answer[0], vec![0; 2]));
    if returned != 0 {
        assert!(out.iter().all(|&cell| cell == 0), "output all 0");
        assert_eq!(answer[1..], [0; 5]);
    }
    ([answer[0], answer[1], answer[2], answer[3]], out)
}

fn out_of(
    pyramid: &[i32],
    (w, h, n): (u64, u64, u64),
    out: usize,
    work: usize,
) -> ([u64; 4], Vec<u8>) {
    let mut out = vec![0xA5; out];
    let (mut work, mut answer) = (vec![0xDEAD_BEEF; work], [DIRTY; 6]);
    let returned = afs_grey_out(pyramid, w, h, n, &mut out, &mut work, &mut answer);
    assert!(work.iter().all(|&word| word == 0), "workspace all 0");
    assert_eq!((returned, answer[4..].to_vec()), (answer[0], vec![0; 2]));
    assert!(returned == 0 || answer[2..4] == [0, 0]);
    assert!(out[answer[2] as usize..].iter().all(|&byte| byte == 0));
    ([answer[0], answer[1], answer[2], answer[3]], out)
}

fn size_of(file: &[u8]) -> [u64; 4] {
    let mut answer = [DIRTY; 6];
    let returned = afs_grey_size(file, &mut answer);
    assert_eq!((returned, answer[4..].to_vec()), (answer[0], vec![0; 2]));
    [answer[0], answer[1], answer[2], answer[3]]
}

fn in_at(file: &[u8], n: u64) -> ([u64; 4], Vec<i32>) {
    in_to(file, n, 16, 64)
}

const EXAMPLE_FILE: &[u8] =
    b"P5\n4 4\n255\n\x00\x0a\x14\x1e\x28\x32\x3c\x46\x50\x5a\x64\x6e\xff\x00\xff\x00";

#[test]
fn the_example_both_ways() {
    assert_eq!(file(4, 4, &PICTURE), EXAMPLE_FILE);
    assert_eq!(size_of(EXAMPLE_FILE), [0, 0, 4, 4]);
    assert_eq!(in_at(EXAMPLE_FILE, 1), ([0, 0, 4, 4], PYRAMID.to_vec()));
    let (answer, out) = out_of(&PYRAMID, (4, 4, 1), 30, 64);
    assert_eq!(answer, [0, 0, 27, 0]);
    assert_eq!(out[..27], *EXAMPLE_FILE);
    assert_eq!(out_of(&PYRAMID, (4, 4, 1), 27, 80).0, [0, 0, 27, 0]);
    assert_eq!(out_of(&PYRAMID, (4, 4, 1), 26, 64).0, [5, 0, 0, 0]);
}

#[test]
fn width_and_height_have_their_places() {
    let picture = file(8, 4, &[7; 32]);
    let (answer, pyramid) = in_to(&picture, 1, 32, 128);
    assert_eq!((answer, size_of(&picture)), ([0, 0, 8, 4], [0, 0, 8, 4]));
    let (answer, out) = out_of(&pyramid, (8, 4, 1), 100, 128);
    assert_eq!((answer, &out[..43]), ([0, 0, 43, 0], &picture[..]));
}

#[test]
fn refusals_of_the_way_in() {
    for n in [0, 2, 6, (1 << 32) + 1, u64::MAX] {
        assert_eq!(in_at(EXAMPLE_FILE, n).0, [1, 0, 0, 0]);
    }
    for (length, work, number) in [(15, 64, 2), (17, 64, 2), (0, 0, 2), (16, 63, 3), (16, 0, 3)] {
        let (answer, _) = in_to(EXAMPLE_FILE, 1, length, work);
        assert_eq!(answer, [number, 0, 0, 0]);
    }
    // 13 comes before 1, and 1 before 2 and 3.
    assert_eq!(in_at(b"P2\n3 3\n255\n", 9).0, [13, 0, 0, 0]);
    assert_eq!(in_at(&EXAMPLE_FILE[..26], 9).0, [13, 0, 0, 0]);
    assert_eq!(in_to(EXAMPLE_FILE, 9, 3, 2).0, [1, 0, 0, 0]);
    assert_eq!(in_at(&file(3, 5, &[0; 15]), 1).0, [1, 0, 0, 0]);
    assert_eq!(in_at(&file(516, 4, &[0; 2064]), 1).0, [1, 0, 0, 0]);
    assert_eq!(in_at(b"P5\n0 5\n255\n", 1).0, [1, 0, 0, 0]);
    assert_eq!(in_to(b"", 1, 0, 0).0, [13, 0, 0, 0]);
}

#[test]
fn refusals_of_the_way_back() {
    for n in [0, 2, 6, (1 << 32) + 1] {
        assert_eq!(out_of(&PYRAMID, (4, 4, n), 27, 64).0, [1, 0, 0, 0]);
    }
    let wide = (1 << 32) + 4;
    assert_eq!(out_of(&PYRAMID, (wide, 4, 1), 27, 64).0, [1, 0, 0, 0]);
    assert_eq!(out_of(&PYRAMID[..15], (4, 4, 1), 0, 0).0, [2, 0, 0, 0]);
    let mut cells = PYRAMID;
    cells[9] = 131_072;
    assert_eq!(out_of(&cells, (4, 4, 1), 0, 63).0, [3, 0, 0, 0]);
    assert_eq!(out_of(&cells, (4, 4, 1), 0, 64).0, [4, 9, 0, 0]);
    cells[5] = i32::MIN;
    assert_eq!(out_of(&cells, (4, 4, 1), 27, 64).0, [4, 5, 0, 0]);
    for most in [131_071, -131_071] {
        cells = PYRAMID;
        cells[15] = most;
        assert_eq!(out_of(&cells, (4, 4, 1), 27, 64).0[..2], [0, 0]);
        cells[15] += most.signum();
        assert_eq!(out_of(&cells, (4, 4, 1), 27, 64).0, [4, 15, 0, 0]);
    }
}

#[test]
fn an_answer_slice_too_short() {
    for length in 0..4 {
        let (mut out, mut work, mut answer) = ([9; 5], [9; 7], vec![DIRTY; length]);
        assert_eq!(afs_grey_in(b"", 0, &mut out, &mut work, &mut answer), 5);
        assert_eq!((out, work, &answer), ([0; 5], [0; 7], &vec![0; length]));
        let (mut out, mut work, mut answer) = ([9; 30], [9; 64], vec![DIRTY; length]);
        let returned = afs_grey_out(&PYRAMID, 4, 4, 1, &mut out, &mut work, &mut answer);
        assert_eq!((returned, out, work), (5, [0; 30], [0; 64]));
        assert_eq!(answer, vec![0; length]);
        let mut answer = vec![DIRTY; length];
        assert_eq!(afs_grey_size(EXAMPLE_FILE, &mut answer), 5);
        assert_eq!(answer, vec![0; length]);
    }
}

/// The pyramid of numbers of which just three lie outside.
#[test]
fn clipped_pixels_are_counted_at_both_ends() {
    let mut picture = PICTURE.map(i32::from);
    for (at, value) in [(3, 256), (6, -1), (12, 300)] {
        picture[at] = value;
    }
    let mut pyramid = picture;
    reference::lifting::transform(&mut pyramid, shape(4, 4, 1));
    let (answer, out) = out_of(&pyramid, (4, 4, 1), 27, 64);
    assert_eq!(answer, [0, 0, 27, 3]);
    let mut pixels = PICTURE;
    for (at, value) in [(3, 255), (6, 0), (12, 255)] {
        pixels[at] = value;
    }
    assert_eq!(out[11..], pixels);
}

#[test]
fn every_black_and_white_picture_of_16_pixels_comes_back() {
    let mut picture = file(4, 4, &[0; 16]);
    let (mut pyramid, mut out, mut work) = ([0; 16], [0; 27], [0; 64]);
    for pattern in 0..1 << 16 {
        for at in 0..16 {
            picture[11 + at] = (pattern >> at & 1) as u8 * 255;
        }
        let answer = reference::grey_in(&picture, 1, &mut pyramid, &mut work);
        assert_eq!((answer.number, answer.width, answer.height), (0, 4, 4));
        let answer = reference::grey_out(&pyramid, 4, 4, 1, &mut out, &mut work);
        let whole = GreyOutAnswer {
            length: 27,
            ..GreyOutAnswer::default()
        };
        assert_eq!(answer, whole);
        assert!(out[..] == picture[..], "{pattern:#x}");
    }
}

fn numbers(shape: Shape) -> (u64, u64, u64) {
    (
        shape.width().into(),
        shape.height().into(),
        shape.decompositions().into(),
    )
}

/// File to pyramid to record, decoded whole and printed: the file as it is
/// written here, however its header was written.
#[test]
fn files_come_back_by_way_of_their_record() {
    let mut chance = Chance::new(101);
    for _ in 0..250 {
        let shape = any_shape(&mut chance);
        let (w, h, n) = numbers(shape);
        let pixels = any_picture(&mut chance, shape);
        let pieces = GreyPieces::any_writing(&mut chance, &w.to_string(), &h.to_string(), pixels);
        let plain = file(shape.width(), shape.height(), &pieces.pixels);
        let (answer, pyramid) = in_to(&pieces.together(), n, shape.area(), shape.workspace());
        assert_eq!(answer, [0, 0, w, h]);
        assert!(pyramid == pyramid_of(&pieces.pixels, shape));
        let (answer, decoded) = decoded(&coded(&pyramid, shape));
        assert_eq!((answer.number, answer.reached), (0, [0; 6]));
        let (answer, out) = out_of(&decoded, (w, h, n), plain.len() + 5, shape.workspace());
        assert_eq!(answer, [0, 0, plain.len() as u64, 0]);
        assert!(out[..plain.len()] == plain[..], "{shape:?}");
    }
}

/// The size's call and the way in say 13 of the same files.
#[test]
fn files_refused_are_the_same() {
    let mut chance = Chance::new(102);
    for _ in 0..3_000 {
        let pieces = any_header(&mut chance);
        let bytes = match chance.below(2) {
            0 => pieces.together(),
            _ => {
                let harm = *chance.pick(&GreyHarm::ALL);
                harmed(&mut chance, pieces, harm)
            }
        };
        let number = in_at(&bytes, 1).0[0];
        let size = size_of(&bytes);
        assert_eq!(number == 13, size[0] == 13);
        if size[0] == 0 {
            let legal = Shape::judge(size[2], size[3], 1).is_ok();
            assert_eq!(number == 1, !legal);
        } else {
            assert_eq!(size, [13, 0, 0, 0]);
        }
    }
}

/// Whatever decoding gives can be looked at, records with bits that no coder
/// wrote included.
#[test]
fn whatever_is_decoded_can_be_printed() {
    let mut chance = Chance::new(103);
    let mut largest = 0;
    for _ in 0..400 {
        let shape = any_shape(&mut chance);
        let record = any_whole(&mut chance, shape).bytes;
        let (answer, decoded) = decoded(&record);
        assert_eq!(answer.number, 0);
        largest = largest.max(decoded.iter().map(|c| c.unsigned_abs()).max().unwrap());
        let room = 15 + shape.area();
        let (answer, _) = out_of(&decoded, numbers(shape), room, shape.workspace());
        assert_eq!(answer[..2], [0, 0]);
    }
    assert!(largest > 65_535, "{largest}");
}
