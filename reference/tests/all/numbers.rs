//! Numbers in seven-bit groups, and packed bits: P1 to P5 and their like.

use reference::layout::Number::{self, CutOff, LongForm, TooManyBytes, Value};
use reference::layout::{padding_is_clear, push_number, read_number, Bits, Packer, RanOut};

fn written(value: u32) -> Vec<u8> {
    let mut bytes = Vec::new();
    push_number(&mut bytes, value);
    bytes
}

fn value(value: u32, next: usize) -> Number {
    Value { value, next }
}

#[test]
fn p1_to_p3_numbers_in_shortest_form() {
    for (number, bytes) in [
        (127, &[0x7F][..]),
        (128, &[0x80, 0x01]),
        (512, &[0x80, 0x04]),
        (0, &[0x00]),
        (16_383, &[0xFF, 0x7F]),
        (16_384, &[0x80, 0x80, 0x01]),
        ((1 << 28) - 1, &[0xFF, 0xFF, 0xFF, 0x7F]),
    ] {
        assert_eq!(written(number), bytes, "{number}");
        assert_eq!(read_number(bytes, 0), value(number, bytes.len()));
    }
}

#[test]
fn p4_long_forms() {
    for bytes in [
        &[0x80, 0x00][..],
        &[0xFF, 0x00],
        &[0x80, 0x00, 0x80],
        &[0x81, 0x80, 0x00],
        &[0x80, 0x80, 0x80, 0x00],
        &[0x81, 0x80, 0x80, 0x00],
    ] {
        assert_eq!(read_number(bytes, 0), LongForm, "{bytes:02X?}");
    }
}

#[test]
fn p5_too_many_bytes() {
    for bytes in [
        &[0x80, 0x80, 0x80, 0x80][..],
        &[0xFF, 0xFF, 0xFF, 0xFF],
        &[0x80, 0x80, 0x80, 0x80, 0x00],
        &[0x80, 0x80, 0x80, 0x80, 0x01],
    ] {
        assert_eq!(read_number(bytes, 0), TooManyBytes, "{bytes:02X?}");
    }
}

#[test]
fn numbers_cut_off() {
    for bytes in [&[][..], &[0x80], &[0x80, 0x80], &[0x80, 0x80, 0x80]] {
        assert_eq!(read_number(bytes, 0), CutOff, "{bytes:02X?}");
    }
    assert_eq!(read_number(&[1, 2, 3], 3), CutOff);
}

#[test]
fn a_number_is_read_from_its_place() {
    assert_eq!(
        read_number(&[0x80, 0x05, 0x80, 0x04, 0x00], 2),
        value(512, 4)
    );
    assert_eq!(read_number(&[0x00, 0x00], 0), value(0, 1));
}

#[test]
fn every_number_comes_back() {
    let near_powers = (0..28).flat_map(|power| {
        let two = 1u32 << power;
        [two - 1, two, two + 1]
    });
    for number in near_powers.chain(0..70_000) {
        let bytes = written(number);
        assert_eq!(read_number(&bytes, 0), value(number, bytes.len()));
        for cut in 0..bytes.len() {
            assert_eq!(read_number(&bytes[..cut], 0), CutOff);
        }
    }
}

#[test]
fn bits_are_packed_most_significant_first() {
    let mut packer = Packer::default();
    for bit in [
        true, false, false, false, true, true, false, false, false, true,
    ] {
        packer.push(bit);
    }
    assert_eq!(packer.close(), (10, &[0x8C, 0x40][..]));
    packer.clear();
    assert_eq!(packer.close(), (0, &[][..]));
}

#[test]
fn packed_bits_of_every_length_come_back() {
    for length in 0..200 {
        let bits: Vec<bool> = (0..length).map(|at| at * at % 7 < 3).collect();
        let mut packer = Packer::default();
        bits.iter().for_each(|&bit| packer.push(bit));
        let (count, body) = packer.close();
        assert_eq!((count, body.len()), (length, (length + 7) / 8));
        assert!(padding_is_clear(body, count));
        let mut reader = Bits::new(body, count);
        for &bit in &bits {
            assert!(!reader.all_read());
            assert_eq!(reader.take(), Ok(bit));
        }
        assert!(reader.all_read());
        assert_eq!(reader.take(), Err(RanOut));
    }
}

#[test]
fn each_padding_bit_is_looked_at_and_no_other() {
    for bits in 0..=24 {
        let used = bits % 8;
        for at in 0..8 {
            let mut body = vec![0; (bits + 7) / 8];
            if let Some(last) = body.last_mut() {
                *last = 0x80 >> at;
            }
            let is_padding = used > 0 && at >= used;
            assert_eq!(padding_is_clear(&body, bits), !is_padding, "{bits} {at}");
        }
    }
}
