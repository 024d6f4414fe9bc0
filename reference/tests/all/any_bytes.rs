//! Whatever the bytes: the calls end, answer within the table, and leave what
//! was lent as the rules say (the helpers look at that in every call). For
//! small pyramids the answers are also held against the rules word for word.

use crate::helpers::*;
use crate::literal;
use reference::generate::records::{any_record, any_whole, invented, noise, Pieces};
use reference::generate::shapes::any_shape;
use reference::generate::Chance;
use reference::partlist;

/// Decodes, serves and lists; returns decoding's number.
fn take(record: &[u8]) -> u64 {
    let (decoding, pyramid) = decoded(record);
    assert!([0, 1, 6, 7, 8, 9, 10, 12].contains(&decoding.number));
    if pyramid.len() <= 256 {
        let outcome = literal::Outcome {
            number: decoding.number,
            place: decoding.place,
            tail: decoding.tail,
            reached: decoding.reached,
            skipped: decoding.skipped,
            pyramid: (decoding.number == 0).then_some(pyramid),
        };
        assert!(outcome == literal::decode(record), "{record:02X?}");
    }
    assert!(decoding.place <= record.len() as u64);
    assert!(decoding.tail <= record.len() as u64);

    let (serving, out) = serve_into(record, 1, 0, record.len());
    assert!([0, 1, 6, 7, 8, 9, 12].contains(&serving.number));
    agree(
        record,
        (decoding.number, decoding.place),
        (serving.number, serving.place),
    );

    let list = partlist(record);
    if record.len() > 16_384 {
        assert_eq!(list, "refused 5 0\n");
    } else if serving.number == 0 {
        assert!(list.ends_with(&format!("\ntail {}\n", serving.tail)));
        assert!(out[..serving.length as usize] == record[..serving.length as usize]);
        assert_eq!(serving.length + serving.tail, record.len() as u64);
    } else {
        assert_eq!(
            list,
            format!("refused {} {}\n", serving.number, serving.place)
        );
    }
    decoding.number
}

/// Serving refuses just as decoding does, but for FIT, behind which serving
/// goes on to what comes later.
fn agree(record: &[u8], decoding: (u64, u64), serving: (u64, u64)) {
    if decoding.0 == 10 {
        assert!(serving.0 == 0 || serving.1 > decoding.1, "{record:02X?}");
    } else {
        assert_eq!(decoding, serving, "{record:02X?}");
    }
}

#[test]
fn damaged_records() {
    let mut chance = Chance::new(51);
    let mut counts = [0; 13];
    for _ in 0..600 {
        let shape = any_shape(&mut chance);
        let whole = any_whole(&mut chance, shape).bytes;
        for _ in 0..20 {
            counts[take(&any_record(&mut chance, &whole)) as usize] += 1;
        }
    }
    for number in [0, 1, 6, 7, 8, 9, 10, 12] {
        assert!(counts[number] > 20, "{number}: {counts:?}");
    }
}

#[test]
fn noise_of_every_length() {
    let mut chance = Chance::new(52);
    for _ in 0..20_000 {
        take(&noise(&mut chance));
    }
    for length in 0..300 {
        take(&chance.bytes(length));
    }
}

#[test]
fn every_byte_of_the_example_every_value() {
    for at in 0..EXAMPLE.len() {
        for byte in 0..=255 {
            let mut record = EXAMPLE;
            record[at] = byte;
            take(&record);
        }
    }
}

#[test]
fn every_two_bytes_after_a_header() {
    for first in 0..=255 {
        for second in 0..=255 {
            take(&[1, 4, 4, 1, 3, first, second]);
            take(&[1, 4, 4, 1, 3, 2, 2, first, second]);
        }
    }
}

/// Bits that no coder wrote are accepted if they fit, and decoding says of
/// each level how far it came.
#[test]
fn invented_bits_are_accepted() {
    let mut chance = Chance::new(53);
    let mut largest = 0;
    for _ in 0..300 {
        let shape = any_shape(&mut chance);
        let record = invented(&mut chance, shape);
        let (answer, pyramid) = decoded(&record);
        assert_eq!((answer.number, answer.reached), (0, [0; 6]));
        assert_eq!(answer.skipped, [0; 6]);
        let here = pyramid.iter().map(|c| c.unsigned_abs()).max().unwrap();
        largest = largest.max(here);
        assert_eq!(take(&record), 0);
    }
    assert!((65_536..=131_071).contains(&largest), "{largest}");
}

/// With parts of such a record struck out, the rest is still accepted, and
/// values are those of the whole with the lower bits gone.
#[test]
fn invented_bits_struck() {
    let mut chance = Chance::new(54);
    for _ in 0..300 {
        let shape = any_shape(&mut chance);
        let record = invented(&mut chance, shape);
        let (_, whole) = decoded(&record);
        let mut left = Pieces::of(&record);
        reference::generate::records::strike_some(&mut chance, &mut left);
        let planes = u32::from(left.header[4][0]);
        let (reached, rounded) = expected(&whole, shape, planes, &|plane, level| {
            left.parts
                .iter()
                .any(|part| (part.plane, part.level) == (plane, level))
        });
        let (answer, pyramid) = decoded(&left.together());
        assert_eq!((answer.number, answer.reached), (0, reached));
        assert!(pyramid == rounded);
    }
}
