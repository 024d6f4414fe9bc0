//! The refusals of serving and decoding, one by one and in their order.

use crate::helpers::*;
use reference::slip::Faithful;

/// Number and place that decoding comes back with.
fn decoding(record: &[u8]) -> (u64, u64) {
    let (answer, _) = decoded(record);
    (answer.number, answer.place)
}

/// Number and place that serving all of it comes back with.
fn serving(record: &[u8]) -> (u64, u64) {
    let (answer, _) = serve_into(record, 1, 0, record.len());
    (answer.number, answer.place)
}

/// The same refusal in serving and decoding.
fn both(record: &[u8], number: u64, place: u64) {
    assert_eq!(decoding(record), (number, place), "decoding {record:02X?}");
    assert_eq!(serving(record), (number, place), "serving {record:02X?}");
}

/// The tail's length in an accepted record, the same in both.
fn tail(record: &[u8], length: u64) {
    let (decoded, _) = decoded(record);
    assert_eq!((decoded.number, decoded.tail), (0, length), "{record:02X?}");
    let (served, _) = serve_into(record, 1, 0, record.len());
    assert_eq!((served.number, served.tail), (0, length), "{record:02X?}");
}

/// A 4 x 4 header with 3 planes, and what follows it.
fn after_header(bytes: &[u8]) -> Vec<u8> {
    let mut record = EXAMPLE[..5].to_vec();
    record.extend(bytes);
    record
}

/// The example with one byte another.
fn example_with(at: usize, byte: u8) -> Vec<u8> {
    let mut record = EXAMPLE.to_vec();
    record[at] = byte;
    record
}

#[test]
fn size_in_the_header() {
    for header in [
        [1, 0, 4, 1, 3],
        [1, 4, 2, 1, 3],
        [1, 6, 4, 1, 3],
        [1, 4, 6, 1, 3],
        [1, 4, 4, 0, 3],
        [1, 4, 4, 2, 3],
        [1, 64, 64, 6, 3],
        [1, 4, 4, 127, 3],
        [1, 4, 4, 1, 18],
        [1, 4, 4, 1, 127],
    ] {
        both(&header, 1, 0);
    }
    // 516 columns; the largest number for each.
    both(&[1, 0x84, 0x04, 4, 1, 3], 1, 0);
    both(&[1, 0xFF, 0xFF, 0xFF, 0x7F, 4, 1, 3], 1, 0);
    both(&[1, 4, 0xFF, 0xFF, 0xFF, 0x7F, 1, 3], 1, 0);
    both(&[1, 4, 4, 0xFF, 0xFF, 0xFF, 0x7F, 3], 1, 0);
    both(&[1, 4, 4, 1, 0xFF, 0xFF, 0xFF, 0x7F], 1, 0);
    // 17 planes are legal.
    tail(&[1, 4, 4, 1, 17], 0);
}

#[test]
fn length_of_the_output() {
    for length in [0, 15, 17] {
        let (answer, _) = decode_into::<Faithful>(&EXAMPLE, length, 64);
        assert_eq!((answer.number, answer.place), (2, 0));
    }
}

#[test]
fn work() {
    for work in [0, 63] {
        let (answer, _) = decode_into::<Faithful>(&EXAMPLE, 16, work);
        assert_eq!((answer.number, answer.place), (3, 0));
    }
    for work in [64, 65, 500] {
        let (answer, pyramid) = decode_into::<Faithful>(&EXAMPLE, 16, work);
        assert_eq!(answer.number, 0);
        assert_eq!(pyramid, EXAMPLE_PYRAMID);
    }
}

#[test]
fn room_in_serving() {
    for room in 0..17 {
        let (answer, _) = serve_into(&EXAMPLE, 2, 0, room);
        assert_eq!((answer.number, answer.place), (5, 0));
    }
    let (answer, _) = serve_into(&EXAMPLE, 2, 0, 17);
    assert_eq!((answer.number, answer.length), (0, 17));
}

#[test]
fn header_that_ends_early() {
    for length in 0..5 {
        both(&EXAMPLE[..length], 6, length as u64);
    }
    // A number cut off is told by where it begins.
    both(&[0x80], 6, 0);
    both(&[1, 0x80], 6, 1);
    both(&[1, 4, 0x80, 0x80], 6, 2);
    both(&[1, 4, 4, 0x80, 0x80, 0x80], 6, 3);
    both(&[1, 0x80, 0x04, 0x80, 0x04, 5, 0x83], 6, 6);
}

#[test]
fn too_many_bytes_in_the_header() {
    let endless = [0x80, 0x80, 0x80, 0x80];
    for at in 0..5 {
        let (before, behind) = (&EXAMPLE[..at], &EXAMPLE[at + 1..5]);
        both(&[before, &endless].concat(), 6, at as u64);
        both(&[before, &endless, behind].concat(), 6, at as u64);
        both(&[before, &endless, &[0], behind].concat(), 6, at as u64);
    }
    both(&[1, 4, 4, 0xFF, 0xFF, 0xFF, 0xFF, 3], 6, 3);
}

#[test]
fn long_forms_in_the_header() {
    for at in 0..5 {
        let (before, behind) = (&EXAMPLE[..at], &EXAMPLE[at + 1..5]);
        for groups in 1..4 {
            let mut long = vec![0x80; groups];
            long[0] |= EXAMPLE[at];
            long.push(0);
            both(&[before, &long].concat(), 12, at as u64);
            both(&[before, &long, behind].concat(), 12, at as u64);
        }
    }
    both(&[0x81, 0x00], 12, 0);
    both(&[1, 4, 0x80, 0x00, 4], 12, 2);
    both(&[1, 4, 4, 1, 0xFF, 0x00], 12, 4);
}

#[test]
fn version() {
    for version in [0, 2, 3, 127] {
        both(&[version, 4, 4, 1, 3], 7, 0);
        both(&[version], 7, 0);
    }
    both(&[0x81, 0x01, 4, 4, 1, 3], 7, 0);
}

#[test]
fn order_in_the_header() {
    // The version before all that follows it.
    both(&[2, 0x80, 0x00], 7, 0);
    both(&[2, 0, 0, 0, 99], 7, 0);
    // All four numbers before their values.
    both(&[1, 0, 4, 1], 6, 4);
    both(&[1, 0, 0, 99, 0x80, 0x00], 12, 4);
    // The first number that isn't a value decides.
    both(&[1, 4, 0x80, 0x00, 0x80, 0x80, 0x80, 0x80], 12, 2);
    both(&[1, 4, 0x80, 0x80, 0x80, 0x80, 0x80, 0x00], 6, 2);
    // SIZE before the parts, and before what is lent or asked for.
    both(&[1, 0, 4, 1, 3, 0x80, 0x00], 1, 0);
    let (answer, _) = decode_into::<Faithful>(&[1, 0, 4, 1, 3], 3, 3);
    assert_eq!((answer.number, answer.place), (1, 0));
    let (answer, _) = serve_into(&[1, 0, 4, 1, 3], 9, 9, 0);
    assert_eq!((answer.number, answer.place), (1, 0));
}

#[test]
fn too_many_bytes_in_a_head() {
    let endless = [0x80, 0x80, 0x80, 0x80];
    for which in 0..3 {
        for offset in [5, 21] {
            let before = &EXAMPLE[..offset + which];
            both(&[before, &endless].concat(), 8, offset as u64);
            both(&[before, &endless, &[0, 1]].concat(), 8, offset as u64);
        }
    }
    both(&after_header(&[2, 2, 0xFF, 0xFF, 0xFF, 0xFF]), 8, 5);
}

#[test]
fn long_forms_in_a_head() {
    for which in 0..3 {
        for offset in [5, 21] {
            let before = &EXAMPLE[..offset + which];
            for long in [&[0x80, 0][..], &[0xFF, 0], &[0x85, 0x80, 0x80, 0]] {
                both(&[before, long].concat(), 12, offset as u64);
                both(&[before, long, &[2, 5, 0x80]].concat(), 12, offset as u64);
            }
        }
    }
    both(&after_header(&[0x80, 0x00, 1, 5]), 12, 5);
    both(&after_header(&[2, 2, 0x80, 0x00, 0x80]), 12, 5);
}

#[test]
fn order_in_a_head() {
    // The first that isn't a value decides, before any value is judged.
    both(&after_header(&[2, 0x80, 0x00, 5]), 12, 5);
    both(&after_header(&[0x7F, 0x80, 0x00]), 12, 5);
    both(&after_header(&[2, 0x80, 0x80, 0x80, 0x80]), 8, 5);
    both(
        &after_header(&[2, 0x80, 0x00, 0xFF, 0xFF, 0xFF, 0xFF]),
        12,
        5,
    );
    both(
        &after_header(&[2, 0xFF, 0xFF, 0xFF, 0xFF, 0x80, 0x00]),
        8,
        5,
    );
    tail(&after_header(&[2, 2, 5, 0x80, 2, 0x80]), 2);
}

#[test]
fn heads_cut_off() {
    tail(&after_header(&[]), 0);
    tail(&after_header(&[0x80]), 1);
    tail(&after_header(&[0x80, 0x80, 0x80]), 3);
    // No value is judged before the three numbers are there.
    tail(&after_header(&[0x7F]), 1);
    tail(&after_header(&[0x7F, 0x7F]), 2);
    tail(&after_header(&[0x7F, 0x7F, 0xFF, 0xFF, 0xFF]), 5);
    tail(&after_header(&[2, 0x80, 0x80, 0x80]), 4);
    tail(&after_header(&[2, 2, 0x80, 0x80]), 4);
}

#[test]
fn plane_and_level_of_a_part() {
    both(&after_header(&[3, 2, 0]), 8, 5);
    both(&after_header(&[0xFF, 0xFF, 0xFF, 0x7F, 2, 0]), 8, 5);
    both(&after_header(&[2, 0, 0]), 8, 5);
    both(&after_header(&[2, 3, 0]), 8, 5);
    both(&after_header(&[2, 0xFF, 0xFF, 0xFF, 0x7F, 0]), 8, 5);
}

#[test]
fn order_of_parts() {
    // Level 1 of plane 2, not usable alone, and something after it.
    for (plane, level, is_after) in [
        (2, 2, false),
        (2, 1, false),
        (1, 2, true),
        (1, 1, true),
        (0, 1, true),
    ] {
        let record = after_header(&[2, 1, 0, plane, level, 0]);
        let expected = if is_after { (0, 0) } else { (8, 8) };
        assert_eq!(serving(&record), expected, "{plane} {level}");
        assert_eq!(decoding(&record), expected, "{plane} {level}");
    }
    // Planes upward.
    both(&after_header(&[1, 2, 0, 2, 2, 0]), 8, 8);
}

#[test]
fn bit_counts() {
    // 64 bits are legal in 4 x 4, 65 are not, whether the body is there or not.
    let mut record = after_header(&[0, 1, 64]);
    record.extend([0; 8]);
    assert_eq!(serving(&record), (0, 0));
    assert_eq!(decoding(&record), (0, 0));
    let mut record = after_header(&[0, 1, 65]);
    both(&record, 8, 5);
    record.extend([0; 9]);
    both(&record, 8, 5);
    tail(&after_header(&[0, 1, 64]), 3);
    tail(&after_header(&[0, 1, 64, 0, 0, 0, 0, 0, 0, 0]), 10);
    both(&after_header(&[0, 1, 0xFF, 0xFF, 0xFF, 0x7F]), 8, 5);
}

#[test]
fn no_planes() {
    let header = [1, 4, 4, 1, 0];
    let with = |bytes: &[u8]| [&header[..], bytes].concat();
    tail(&header, 0);
    tail(&with(&[0]), 1);
    tail(&with(&[0, 1]), 2);
    both(&with(&[0, 1, 0]), 8, 5);
    let (answer, _) = serve_into(&header, 1, 0, 5);
    assert_eq!(answer.number, 0);
    let (answer, _) = serve_into(&header, 1, 1, 5);
    assert_eq!(answer.number, 11);
}

#[test]
fn padding() {
    // Five bits, eleven bits; each padding bit.
    for bit in 0..3 {
        both(&example_with(8, 0x80 | 1 << bit), 9, 5);
        both(&example_with(16, 0x40 | 1 << bit), 9, 13);
    }
    for bit in 0..5 {
        both(&example_with(29, 0x20 | 1 << bit), 9, 25);
    }
    // In a part that is not usable too.
    let mut unusable = without(&EXAMPLE, &[(2, 2)]);
    unusable[20] |= 1;
    both(&unusable, 9, 17);
}

#[test]
fn padding_and_heads_are_judged_in_dropped_parts() {
    let (answer, _) = serve_into(&example_with(12, 0x01), 2, 0, 30);
    assert_eq!((answer.number, answer.place), (9, 9));
    let (answer, _) = serve_into(&example_with(26, 3), 2, 1, 30);
    assert_eq!((answer.number, answer.place), (8, 25));
}

#[test]
fn a_part_without_its_body_is_no_pad() {
    // The body is incomplete: its set bits are not looked at.
    tail(&after_header(&[2, 2, 12, 0xFF]), 4);
}

#[test]
fn bits_that_run_out() {
    // One bit fewer in the first part: 1000 and no fifth.
    let mut record = EXAMPLE.to_vec();
    record[7] = 4;
    assert_eq!(decoding(&record), (10, 5));
    assert_eq!(serving(&record), (0, 0));
    // A significance bit without its sign.
    let mut record = after_header(&[2, 2, 4, 0x10]);
    assert_eq!(decoding(&record), (10, 5));
    // None at all.
    record = after_header(&[2, 2, 0]);
    assert_eq!(decoding(&record), (10, 5));
}

#[test]
fn bits_left_over() {
    let mut record = EXAMPLE.to_vec();
    record[7] = 6;
    assert_eq!(decoding(&record), (10, 5));
    assert_eq!(serving(&record), (0, 0));
    let record = example_with(8, 0x00);
    // 0000 and a bit over.
    assert_eq!(decoding(&record), (10, 5));
}

#[test]
fn only_usable_parts_must_fit() {
    // Part (2,1) without (2,2): any bits will do.
    let record = after_header(&[2, 1, 7, 0xAA]);
    assert_eq!(decoding(&record), (0, 0));
    let record = after_header(&[2, 2, 5, 0x80, 1, 1, 7, 0xAA]);
    assert_eq!(decoding(&record), (0, 0));
}

#[test]
fn the_first_part_at_fault_decides() {
    // FIT in the first part, PAD in the second, a malformed head after it.
    let mut record = EXAMPLE.to_vec();
    record[7] = 4;
    record[12] |= 1;
    record[13] = 9;
    assert_eq!(decoding(&record), (10, 5));
    assert_eq!(serving(&record), (9, 9));
    // PAD in the first part, FIT later.
    let mut record = EXAMPLE.to_vec();
    record[8] |= 1;
    record[15] = 4;
    both(&record, 9, 5);
    // FIT before a head out of order.
    let mut record = EXAMPLE.to_vec();
    record[15] = 4;
    record[16] = 0x40;
    record[17] = 2;
    assert_eq!(decoding(&record), (10, 13));
    assert_eq!(serving(&record), (8, 17));
    // FIT before a long form.
    let mut record = EXAMPLE.to_vec();
    record[7] = 4;
    record.splice(9..10, [0x82, 0x00]);
    assert_eq!(decoding(&record), (10, 5));
    assert_eq!(serving(&record), (12, 9));
    // Within a part PAD comes before FIT.
    let mut record = EXAMPLE.to_vec();
    record[7] = 4;
    record[8] |= 8;
    both(&record, 9, 5);
}

#[test]
fn requests() {
    for (level, plane) in [
        (0, 0),
        (3, 0),
        (1, 4),
        (2, 4),
        ((1 << 32) + 1, 0),
        (1, 1 << 32),
        (u64::MAX, u64::MAX),
    ] {
        let (answer, _) = serve_into(&EXAMPLE, level, plane, 30);
        assert_eq!((answer.number, answer.place), (11, 0), "{level} {plane}");
    }
    for (level, plane) in [(1, 0), (2, 0), (1, 3), (2, 3)] {
        let (answer, _) = serve_into(&EXAMPLE, level, plane, 30);
        assert_eq!(answer.number, 0);
    }
}

#[test]
fn order_in_serving() {
    // A bad request is told before the parts, a short output after them.
    let bad_part = example_with(8, 0x81);
    let (answer, _) = serve_into(&bad_part, 3, 0, 0);
    assert_eq!((answer.number, answer.place), (11, 0));
    let (answer, _) = serve_into(&bad_part, 1, 0, 0);
    assert_eq!((answer.number, answer.place), (9, 5));
    let (answer, _) = serve_into(&EXAMPLE[..4], 3, 0, 0);
    assert_eq!((answer.number, answer.place), (6, 4));
    let long_level = after_header(&[2, 0x82, 0x00, 5]);
    let (answer, _) = serve_into(&long_level, 3, 0, 0);
    assert_eq!((answer.number, answer.place), (11, 0));
    let (answer, _) = serve_into(&long_level, 1, 0, 0);
    assert_eq!((answer.number, answer.place), (12, 5));
    let last_bad = example_with(29, 0x21);
    let (answer, _) = serve_into(&last_bad, 2, 3, 0);
    assert_eq!((answer.number, answer.place), (9, 25));
}

#[test]
fn order_in_decoding() {
    let bad_part = example_with(8, 0x81);
    let (answer, _) = decode_into::<Faithful>(&bad_part, 15, 0);
    assert_eq!((answer.number, answer.place), (2, 0));
    let (answer, _) = decode_into::<Faithful>(&bad_part, 16, 0);
    assert_eq!((answer.number, answer.place), (3, 0));
    let (answer, _) = decode_into::<Faithful>(&bad_part, 16, 64);
    assert_eq!((answer.number, answer.place), (9, 5));
    let (answer, _) = decode_into::<Faithful>(&[1, 4, 4, 1], 15, 0);
    assert_eq!((answer.number, answer.place), (6, 4));
    let (answer, _) = decode_into::<Faithful>(&[1, 4, 4, 0x81, 0x00], 15, 0);
    assert_eq!((answer.number, answer.place), (12, 3));
    let long_level = after_header(&[2, 0x82, 0x00, 5]);
    let (answer, _) = decode_into::<Faithful>(&long_level, 16, 63);
    assert_eq!((answer.number, answer.place), (3, 0));
}

/// 17 planes of bits that no coder wrote: every coefficient is found at the
/// top plane and every refinement bit is 1.
#[test]
fn the_largest_decoded_magnitude() {
    let mut record = vec![1, 4, 4, 1, 17];
    // Four coefficients, positive; then three sets and twelve coefficients.
    record.extend([16, 2, 8, 0xAA]);
    record.extend([16, 1, 27]);
    record.extend([0b1101_0101, 0b0110_1010, 0b1011_0101, 0b0100_0000]);
    for plane in (0..16).rev() {
        record.extend([plane, 2, 4, 0xF0]);
        record.extend([plane, 1, 12, 0xFF, 0xF0]);
    }
    let (answer, pyramid) = decoded(&record);
    assert_eq!((answer.number, answer.place), (0, 0));
    assert_eq!(pyramid, [131_071; 16]);
}
