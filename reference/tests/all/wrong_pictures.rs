//! A test of the comparison: readers and ways back that are wrong in one thing
//! that looks reasonable, each of which it must catch.

use reference::compare::{run, Call, Memory, Own, Returned, Routine, Subject};

type OtherFile = fn(&[u8]) -> Vec<u8>;
type OtherPyramid = fn(&[i32]) -> Vec<i32>;

/// The portal, given something else to read.
struct Misled {
    file: OtherFile,
    pyramid: OtherPyramid,
}

const FAITHFUL: Misled = Misled {
    file: |file| file.to_vec(),
    pyramid: |pyramid| pyramid.to_vec(),
};

impl Subject for Misled {
    fn call(&self, call: Call, memory: &mut Memory) -> Returned {
        let read = |file| (self.file)(file);
        match call {
            Call::GreySize(file) => Own.call(Call::GreySize(&read(file)), memory),
            Call::GreyIn { file, n } => {
                let file = &read(file);
                Own.call(Call::GreyIn { file, n }, memory)
            }
            Call::GreyOut(pyramid, sizes) => {
                Own.call(Call::GreyOut(&(self.pyramid)(pyramid), sizes), memory)
            }
            others => Own.call(others, memory),
        }
    }
}

/// The number of the first case that is different, of the emulator's count.
fn caught(routine: Routine, subject: &Misled) -> Option<u64> {
    let compared = run(routine, 4_000, 1, subject, &mut |_| {});
    compared.err().map(|difference| difference.case)
}

fn misread(file: OtherFile) -> Misled {
    Misled { file, ..FAITHFUL }
}

fn replaced(file: &[u8], from: u8, to: u8) -> Vec<u8> {
    let bytes = file
        .iter()
        .map(|&byte| if byte == from { to } else { byte });
    bytes.collect()
}

#[test]
fn readers_that_take_too_much_are_caught() {
    let wrong: [OtherFile; 6] = [
        // VT and FF for blanks.
        |file| replaced(file, 0x0B, b' '),
        |file| replaced(file, 0x0C, b' '),
        // One pixel fewer than there must be.
        |file| [file, &[0]].concat(),
        // No gap behind the magic.
        |file| match file.strip_prefix(b"P5") {
            Some(rest) => [b"P5 ", rest].concat(),
            None => file.to_vec(),
        },
        // A sign before a number.
        |file| replaced(file, b'+', b'0'),
        // Any letter's case.
        |file| replaced(file, b'p', b'P'),
    ];
    for (at, file) in wrong.iter().enumerate() {
        assert!(caught(Routine::GreySize, &misread(*file)).is_some(), "{at}");
    }
}

#[test]
fn readers_that_take_too_little_are_caught() {
    let wrong: [OtherFile; 4] = [
        // TAB and CR for no blanks.
        |file| replaced(file, b'\t', b'.'),
        |file| replaced(file, b'\r', b'.'),
        // No comments.
        |file| replaced(file, b'#', b'.'),
        // A comment that ends at LF alone.
        |file| {
            let mut commented = false;
            let bytes = file.iter().map(|&byte| {
                commented = byte == b'#' || commented && byte != b'\n';
                if commented && byte == b'\r' {
                    b'.'
                } else {
                    byte
                }
            });
            bytes.collect()
        },
    ];
    for (at, file) in wrong.iter().enumerate() {
        assert!(caught(Routine::GreySize, &misread(*file)).is_some(), "{at}");
    }
}

/// CR LF behind the maxval taken for one line end, as if there were no CR.
#[test]
fn a_line_end_swallowed_behind_the_maxval_is_caught() {
    let subject = misread(|file| {
        let end = file.windows(5).position(|bytes| bytes == b"255\r\n");
        match end {
            Some(at) => [&file[..at + 3], &file[at + 4..]].concat(),
            None => file.to_vec(),
        }
    });
    assert!(caught(Routine::GreySize, &subject).is_some());
    assert!(caught(Routine::GreyIn, &subject).is_some());
}

#[test]
fn limits_of_the_way_back_are_caught() {
    let wrong: [OtherPyramid; 3] = [
        // 4 judged at 65,535, and at 131,072 instead of 131,071.
        |pyramid| {
            let judged = |&cell: &i32| {
                if cell.unsigned_abs() > 65_535 {
                    i32::MAX
                } else {
                    cell
                }
            };
            pyramid.iter().map(judged).collect()
        },
        |pyramid| {
            let judged = |&cell: &i32| if cell == 131_072 { 0 } else { cell };
            pyramid.iter().map(judged).collect()
        },
        // The least number's magnitude taken for negative.
        |pyramid| {
            let judged = |&cell: &i32| if cell == i32::MIN { 0 } else { cell };
            pyramid.iter().map(judged).collect()
        },
    ];
    for (at, &pyramid) in wrong.iter().enumerate() {
        let subject = Misled {
            pyramid,
            ..FAITHFUL
        };
        assert!(caught(Routine::GreyOut, &subject).is_some(), "{at}");
    }
}

#[test]
fn the_faithful_is_not() {
    for routine in [Routine::GreySize, Routine::GreyIn] {
        assert_eq!(caught(routine, &FAITHFUL), None);
    }
}
