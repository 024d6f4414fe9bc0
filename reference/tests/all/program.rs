//! The part list, as a function and as the program.

use crate::helpers::EXAMPLE;
use reference::partlist;
use std::io::Write;
use std::process::{Command, Stdio};

const LIST: &str = "record 4 4 1 3
part 2 2 5
part 2 1 3
part 1 2 5
part 1 1 8
part 0 2 5
part 0 1 11
tail 0
";

/// What the program prints for this input.
fn printed(input: &[u8]) -> String {
    let mut program = Command::new(env!("CARGO_BIN_EXE_partlist"))
        .stdin(Stdio::piped())
        .stdout(Stdio::piped())
        .spawn()
        .expect("the program starts");
    let mut stdin = program.stdin.take().expect("a pipe");
    // The program may stop reading at its longest input.
    let _ = stdin.write_all(input);
    drop(stdin);
    let output = program.wait_with_output().expect("the program ends");
    assert!(output.status.success());
    String::from_utf8(output.stdout).expect("text")
}

#[test]
fn the_example_is_listed() {
    assert_eq!(partlist(&EXAMPLE), LIST);
    assert_eq!(printed(&EXAMPLE), LIST);
}

#[test]
fn a_tail_is_listed() {
    let listed = partlist(&EXAMPLE[..29]);
    assert!(listed.ends_with("part 0 2 5\ntail 4\n"), "{listed}");
    assert_eq!(partlist(&EXAMPLE[..5]), "record 4 4 1 3\ntail 0\n");
    assert_eq!(partlist(&EXAMPLE[..6]), "record 4 4 1 3\ntail 1\n");
}

#[test]
fn refusals_are_listed_alone() {
    assert_eq!(partlist(&[]), "refused 6 0\n");
    assert_eq!(printed(&[]), "refused 6 0\n");
    assert_eq!(partlist(&[2]), "refused 7 0\n");
    assert_eq!(partlist(&[1, 4, 4]), "refused 6 3\n");
    assert_eq!(partlist(&[1, 4, 5, 1, 3]), "refused 1 0\n");
    let mut padded = EXAMPLE;
    padded[24] |= 1;
    assert_eq!(partlist(&padded), "refused 9 21\n");
    let mut disordered = EXAMPLE;
    disordered[21] = 1;
    assert_eq!(partlist(&disordered), "refused 8 21\n");
    assert_eq!(printed(&disordered), "refused 8 21\n");
}

#[test]
fn bits_that_do_not_fit_are_listed() {
    // FIT is the decoder's alone.
    let mut unfit = EXAMPLE;
    unfit[7] = 4;
    unfit[8] = 0;
    assert!(partlist(&unfit).starts_with("record 4 4 1 3\npart 2 2 4\n"));
}

#[test]
fn the_longest_input() {
    // 512 x 512 has room for a part of 16,370 bytes.
    let mut record = vec![0x01, 0x80, 0x04, 0x80, 0x04, 0x05, 0x01];
    record.extend([0x00, 0x06]);
    let bits = 8 * (16_384 - 12);
    reference::layout::push_number(&mut record, bits);
    record.resize(16_384, 0xFF);
    let listed = format!("record 512 512 5 1\npart 0 6 {bits}\ntail 0\n");
    assert_eq!(partlist(&record), listed);
    assert_eq!(printed(&record), listed);
    record.push(0);
    assert_eq!(partlist(&record), "refused 5 0\n");
    assert_eq!(printed(&record), "refused 5 0\n");
    assert_eq!(printed(&vec![0; 200_000]), "refused 5 0\n");
}
