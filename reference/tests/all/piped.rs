//! Calls through pipes: what is written for a call, what is made of its answer,
//! and programs that don't answer.

use reference::compare::{run, Routine, Sizes, Subject};
use reference::piped::Piped;
use reference::portal;
use std::cell::RefCell;
use std::collections::VecDeque;
use std::io::{self, Read, Write};
use std::path::Path;
use std::process::Command;
use std::rc::Rc;

/// A number as it stands in a pipe.
fn number(n: u64) -> Vec<u8> {
    n.to_le_bytes().to_vec()
}

#[test]
fn a_call_is_written_and_its_answer_read() {
    let told = [
        number(7),
        vec![1, 2, 3],
        vec![40, 41],
        number(u64::MAX),
        number(6),
    ]
    .concat();
    let (mut written, mut out, mut answer) = (Vec::new(), [8, 9], [10, 11]);
    let piped = Piped::between(&mut written, &told[..]);
    assert_eq!(piped.serve(&[1, 2, 3], 4, 5, &mut out, &mut answer), Ok(7));
    assert_eq!((out, answer), ([40, 41], [u64::MAX, 6]));

    let record = [number(3), vec![1, 2, 3]].concat();
    let out = [number(2), vec![8, 9]].concat();
    let answer = [number(16), number(10), number(11)].concat();
    let letter_and_numbers = [vec![b's'], number(4), number(5)].concat();
    assert_eq!(written, [letter_and_numbers, record, out, answer].concat());
}

#[test]
fn coefficients_and_workspace_keep_their_cells() {
    let told = [
        number(0),
        vec![0xFE, 0xFF, 0xFF, 0xFF],
        vec![1],
        vec![0, 0, 0, 0x80],
        number(2),
    ]
    .concat();
    let (mut written, mut out, mut work, mut answer) = (Vec::new(), [0], [5], [0]);
    let piped = Piped::between(&mut written, &told[..]);
    let sizes = Sizes { w: 1, h: 2, n: 3 };
    let returned = piped.code(&[-2], sizes, &mut out, &mut work, &mut answer);
    assert_eq!(returned, Ok(0));
    assert_eq!((out, work, answer), ([1], [0x8000_0000], [2]));

    let told = [number(0), vec![1], vec![0xFF; 4], vec![9, 0, 0, 0]].concat();
    let (mut written, mut out, mut work) = (Vec::new(), [0], [0]);
    let piped = Piped::between(&mut written, &told[..]);
    assert_eq!(piped.decode(&[1], &mut out, &mut work, &mut []), Ok(0));
    assert_eq!((out, work), ([-1], [9]));
}

#[test]
fn an_input_that_was_written_to_is_told() {
    let told = [number(0), vec![1, 2, 4]].concat();
    let piped = Piped::between(Vec::new(), &told[..]);
    let returned = piped.serve(&[1, 2, 3], 1, 0, &mut [], &mut []);
    assert_eq!(returned, Err("the record was written to".to_string()));
}

#[test]
fn a_call_with_two_inputs_has_both() {
    let told = [number(14), vec![1], vec![2, 3], vec![0], number(14)].concat();
    let (mut written, mut out, mut answer) = (Vec::new(), [8], [9]);
    let piped = Piped::between(&mut written, &told[..]);
    assert_eq!(piped.join(&[1], &[2, 3], &mut out, &mut answer), Ok(14));
    assert_eq!((out, answer), ([0], [14]));
    let records = [number(1), vec![1], number(2), vec![2, 3]].concat();
    let lent = [number(1), vec![8], number(8), number(9)].concat();
    assert_eq!(written, [vec![b'j'], records, lent].concat());

    let told = [number(0), vec![1], vec![2, 4]].concat();
    let piped = Piped::between(Vec::new(), &told[..]);
    let returned = piped.join(&[1], &[2, 3], &mut [], &mut []);
    assert_eq!(
        returned,
        Err("the second record was written to".to_string())
    );
}

#[test]
fn pictures_go_through_pipes() {
    let told = [number(13), vec![80], number(13), number(0)].concat();
    let (mut written, mut answer) = (Vec::new(), [7, 8]);
    let piped = Piped::between(&mut written, &told[..]);
    assert_eq!(piped.grey_size(b"P", &mut answer), Ok(13));
    assert_eq!(answer, [13, 0]);
    let file = [number(1), vec![80]].concat();
    let lent = [number(16), number(7), number(8)].concat();
    assert_eq!(written, [vec![b'g'], file, lent].concat());
}

/// How many numbers a call has, by its letter, and how many stretches.
fn form(letter: u8) -> (usize, usize) {
    match letter {
        b'c' | b'o' => (3, 4),
        b's' => (2, 3),
        b'd' | b'j' => (0, 4),
        b'g' | b'v' => (0, 2),
        b'i' => (1, 4),
        _ => panic!("no such call"),
    }
}

/// The portal at the pipes' other end: what was written is answered when the
/// answer is read. Its clones share what is between them.
#[derive(Clone, Default)]
struct Portal {
    calls: Rc<RefCell<Vec<u8>>>,
    answers: Rc<RefCell<VecDeque<u8>>>,
}

impl Write for Portal {
    fn write(&mut self, bytes: &[u8]) -> io::Result<usize> {
        self.calls.borrow_mut().write(bytes)
    }

    fn flush(&mut self) -> io::Result<()> {
        Ok(())
    }
}

impl Read for Portal {
    fn read(&mut self, bytes: &mut [u8]) -> io::Result<usize> {
        let call = std::mem::take(&mut *self.calls.borrow_mut());
        let mut answers = self.answers.borrow_mut();
        if let Some((&letter, rest)) = call.split_first() {
            answers.extend(answered(letter, rest));
        }
        answers.read(bytes)
    }
}

fn answered(letter: u8, mut rest: &[u8]) -> Vec<u8> {
    let mut take = |count: usize| {
        let (front, back) = rest.split_at(count);
        rest = back;
        front
    };
    let mut read_number = || u64::from_le_bytes(take(8).try_into().expect("a number"));
    let (numbers, stretches) = form(letter);
    let n: Vec<u64> = (0..numbers).map(|_| read_number()).collect();
    let mut m: Vec<Vec<u8>> = (0..stretches)
        .map(|_| {
            let size = u64::from_le_bytes(take(8).try_into().expect("a number"));
            take(size as usize).to_vec()
        })
        .collect();
    let mut answer = cells(&m.pop().expect("an answer"), u64::from_le_bytes);
    let returned = match letter {
        b'g' => portal::afs_grey_size(&m[0], &mut answer),
        b'v' => portal::afs_survey(&m[0], &mut answer),
        b's' => {
            let (record, out) = m.split_at_mut(1);
            portal::afs_serve(&record[0], n[0], n[1], &mut out[0], &mut answer)
        }
        b'j' => {
            let (records, out) = m.split_at_mut(2);
            portal::afs_join(&records[0], &records[1], &mut out[0], &mut answer)
        }
        _ => {
            let mut work = cells(&m.pop().expect("a workspace"), u32::from_le_bytes);
            let returned = with_work(letter, &n, &mut m, &mut work, &mut answer);
            m.push(work.iter().flat_map(|word| word.to_le_bytes()).collect());
            returned
        }
    };
    m.push(answer.iter().flat_map(|word| word.to_le_bytes()).collect());
    [number(returned), m.concat()].concat()
}

/// The calls that are lent a workspace; input and output stand in `m`.
fn with_work(
    letter: u8,
    n: &[u64],
    m: &mut [Vec<u8>],
    work: &mut [u32],
    answer: &mut [u64],
) -> u64 {
    let (input, out) = m.split_at_mut(1);
    let (input, out) = (&input[0], &mut out[0]);
    match letter {
        b'c' | b'o' => {
            let call = match letter {
                b'c' => portal::afs_code,
                _ => portal::afs_grey_out,
            };
            let pyramid = cells(input, i32::from_le_bytes);
            call(&pyramid, n[0], n[1], n[2], out, work, answer)
        }
        _ => {
            let mut pyramid = cells(out, i32::from_le_bytes);
            let returned = match letter {
                b'd' => portal::afs_decode(input, &mut pyramid, work, answer),
                _ => portal::afs_grey_in(input, n[0], &mut pyramid, work, answer),
            };
            *out = pyramid.iter().flat_map(|cell| cell.to_le_bytes()).collect();
            returned
        }
    }
}

fn cells<T, const SIZE: usize>(bytes: &[u8], cell: fn([u8; SIZE]) -> T) -> Vec<T> {
    let all = bytes.chunks_exact(SIZE);
    all.map(|bytes| cell(bytes.try_into().expect("a cell")))
        .collect()
}

/// The whole comparison by way of pipes, the portal at their other end.
#[test]
fn the_own_portal_behind_pipes_is_equal() {
    for routine in Routine::EXPORTED {
        let portal = Portal::default();
        let piped = Piped::between(portal.clone(), portal);
        run(routine, 300, 1, &piped, &mut |_| {}).unwrap_or_else(|d| panic!("{d}"));
    }
}

/// It reads nothing, writes nothing and ends.
const SILENT: &str = "true";

#[test]
fn a_program_that_does_not_answer_is_a_difference() {
    for routine in Routine::EXPORTED {
        let piped = Piped::through(Path::new(SILENT)).expect("it runs");
        let difference = run(routine, 10, 1, &piped, &mut |_| {}).unwrap_err();
        assert_eq!(difference.case, 0);
        assert!(difference.what.starts_with("no answer to the call"));
    }
}

#[test]
fn the_comparing_program_fails_with_the_program_that_it_asks() {
    for (program, why) in [
        (SILENT, "no answer to the call"),
        ("no/such/program", "doesn't run"),
    ] {
        let output = Command::new(env!("CARGO_BIN_EXE_compare"))
            .args(["--through", program, "decode", "10"])
            .output()
            .expect("the program runs");
        let printed = String::from_utf8(output.stdout).expect("text");
        assert_eq!(output.status.code(), Some(1));
        assert!(
            printed.starts_with("DIFFERENT") && printed.contains(why),
            "{printed}"
        );
    }
}
