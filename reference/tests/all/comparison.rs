//! The comparison: the reference's own portal passes it, all that can occur
//! occurs in it, and subjects that are wrong in one thing fail it.

use reference::compare::{
    run, run_partlist, Call, Difference, Memory, Own, Returned, Routine, Subject, Tally,
};
use reference::reading::cut_part;
use std::path::Path;
use std::process::Command;

fn compare(routine: Routine, count: u64, subject: &dyn Subject) -> Result<Tally, Difference> {
    run(routine, count, 1, subject, &mut |_| {})
}

fn is_equal_and_all_occurs(routine: Routine, count: u64) {
    let tally = compare(routine, count, &Own).unwrap_or_else(|d| panic!("{d}"));
    assert_eq!(tally.missing(), [""; 0], "{tally}");
}

#[test]
fn the_own_portal_is_equal_and_all_occurs() {
    for routine in [
        Routine::Code,
        Routine::Serve,
        Routine::Decode,
        Routine::Survey,
        Routine::Join,
    ] {
        is_equal_and_all_occurs(routine, 4_000);
    }
}

#[test]
fn pictures_by_the_own_portal_are_equal_and_all_occurs() {
    is_equal_and_all_occurs(Routine::GreySize, 4_000);
    is_equal_and_all_occurs(Routine::GreyIn, 1_500);
    is_equal_and_all_occurs(Routine::GreyOut, 1_500);
}

#[test]
fn the_own_program_is_equal_and_all_occurs() {
    let program = Path::new(env!("CARGO_BIN_EXE_partlist"));
    let tally = run_partlist(program, 1_200, 1, &mut |_| {}).unwrap_or_else(|d| panic!("{d}"));
    assert_eq!(tally.missing(), [""; 0], "{tally}");
}

#[test]
fn a_wrong_program_is_caught() {
    // It prints its usage, or nothing.
    let program = Path::new(env!("CARGO_BIN_EXE_compare"));
    assert!(run_partlist(program, 1, 1, &mut |_| {}).is_err());
    let nowhere = Path::new("no/such/program");
    assert!(run_partlist(nowhere, 1, 1, &mut |_| {}).is_err());
}

/// The program's exit status: 1 also where all is equal but too little of it.
#[test]
fn the_comparing_program() {
    let run = |arguments: &[&str]| {
        let output = Command::new(env!("CARGO_BIN_EXE_compare"))
            .args(arguments)
            .output()
            .expect("the program runs");
        let printed = String::from_utf8(output.stdout).expect("text");
        (output.status.code(), printed)
    };
    let (status, printed) = run(&["serve", "2500", "3"]);
    assert_eq!(status, Some(0), "{printed}");
    assert!(printed.starts_with("serve: seed 3, 2500 cases, all equal\n"));
    let (status, printed) = run(&["serve", "2"]);
    assert_eq!(status, Some(1));
    assert!(printed.contains("NO CASE OF answer"), "{printed}");
    for wrong in [&["serve"][..], &["dance", "3"], &["code", "x"], &[]] {
        assert_eq!(run(wrong), (Some(2), String::new()));
    }
}

#[test]
fn what_did_not_occur_is_named() {
    let missing = compare(Routine::Serve, 1, &Own).unwrap().missing();
    assert!(missing.len() > 25, "{missing:?}");
    let long = |name: &&String| name.starts_with("long ");
    assert!(missing.iter().filter(long).count() >= 7, "{missing:?}");
    let counts = |name: &&String| name.contains("count") || name.contains("planes");
    assert!(missing.iter().filter(counts).count() >= 2, "{missing:?}");
    let missing = compare(Routine::GreySize, 1, &Own).unwrap().missing();
    assert!(missing.len() > 15, "{missing:?}");
    let third = |name: &&String| name.starts_with("a third being ");
    assert_eq!(missing.iter().filter(third).count(), 1, "{missing:?}");
}

#[test]
fn a_seed_gives_the_same_cases() {
    let first = compare(Routine::Decode, 200, &Own).unwrap().to_string();
    let again = compare(Routine::Decode, 200, &Own).unwrap().to_string();
    assert_eq!(first, again);
    assert!(
        first.starts_with("decode: seed 1, 200 cases, all equal\n"),
        "{first}"
    );
}

/// The portal with one thing wrong afterwards.
struct Wrong {
    spoil: fn(&mut Lent),
}

/// All that a call was lent, where it has it, and what it returns.
struct Lent<'l> {
    returned: u64,
    bytes: &'l mut [u8],
    coefficients: &'l mut [i32],
    work: &'l mut [u32],
    answer: &'l mut [u64],
}

impl Subject for Wrong {
    fn call(&self, call: Call, memory: &mut Memory) -> Returned {
        let returned = Own.call(call, memory)?;
        let mut lent = Lent {
            returned,
            bytes: memory.bytes,
            coefficients: memory.coefficients,
            work: memory.work,
            answer: memory.answer,
        };
        (self.spoil)(&mut lent);
        Ok(lent.returned)
    }
}

fn fails(routine: Routine, spoil: fn(&mut Lent)) {
    let compared = compare(routine, 400, &Wrong { spoil });
    assert!(compared.is_err(), "{}", routine.name());
}

#[test]
fn a_wrong_number_or_place_is_caught() {
    for routine in Routine::EXPORTED {
        fails(routine, |lent| lent.returned = lent.returned.max(1));
        fails(routine, |lent| {
            if lent.returned >= 8 {
                lent.returned = 8;
            }
            if let Some(place) = lent.answer.get_mut(1) {
                *place += u64::from(lent.returned != 0);
            }
        });
    }
}

/// A long form told as the header's or the part's other faults are, and the
/// other way round; number, place and memory as they were.
#[test]
fn a_wrong_cause_of_a_malformed_number_is_caught() {
    for routine in [Routine::Serve, Routine::Decode, Routine::Survey] {
        fails(routine, |lent| {
            if lent.returned == 12 && lent.answer[1] < 5 {
                tell(lent, 6);
            }
        });
        fails(routine, |lent| {
            if lent.returned == 12 && lent.answer[1] >= 7 {
                tell(lent, 8);
            }
        });
        fails(routine, |lent| {
            if lent.returned == 6 {
                tell(lent, 12);
            }
        });
    }
}

/// The portal decoding other bytes than it is given.
struct Decodes {
    what: fn(&[u8]) -> Vec<u8>,
}

impl Subject for Decodes {
    fn call(&self, call: Call, memory: &mut Memory) -> Returned {
        match call {
            Call::Decode(record) => Own.call(Call::Decode(&(self.what)(record)), memory),
            other => Own.call(other, memory),
        }
    }
}

#[test]
fn a_cut_part_decoded_otherwise_is_caught() {
    let differs = |what| {
        let difference = compare(Routine::Decode, 400, &Decodes { what }).unwrap_err();
        difference.what
    };
    // Its last byte isn't used, or a byte of zeros is there that isn't.
    differs(|record| match cut_part(record) {
        Some(part) if !part.there.is_empty() => record[..record.len() - 1].to_vec(),
        _ => record.to_vec(),
    });
    differs(|record| match cut_part(record) {
        Some(_) => [record, &[0]].concat(),
        None => record.to_vec(),
    });
}

/// A cut part thrown away: of the same answer, and other coefficients.
#[test]
fn a_cut_part_thrown_away_is_caught() {
    struct Throws;
    impl Subject for Throws {
        fn call(&self, call: Call, memory: &mut Memory) -> Returned {
            let returned = Own.call(call, memory)?;
            if let (0, Call::Decode(record)) = (returned, call) {
                if let Some(part) = cut_part(record) {
                    let mut work = vec![0; memory.work.len()];
                    reference::decode(&record[..part.offset], memory.coefficients, &mut work);
                }
            }
            Ok(returned)
        }
    }
    let difference = compare(Routine::Decode, 400, &Throws).unwrap_err();
    assert!(difference.what.contains("out"), "{difference}");
}

/// Two records made of two.
type Others = for<'r> fn(&'r [u8], &'r [u8]) -> (&'r [u8], &'r [u8]);

/// The portal joining other records than it is given.
struct Joins {
    what: Others,
}

impl Subject for Joins {
    fn call(&self, call: Call, memory: &mut Memory) -> Returned {
        let call = match call {
            Call::Join { first, second } => {
                let (first, second) = (self.what)(first, second);
                Call::Join { first, second }
            }
            other => other,
        };
        Own.call(call, memory)
    }
}

#[test]
fn wrong_joins_are_caught() {
    let fails = |what| assert!(compare(Routine::Join, 400, &Joins { what }).is_err());
    // The first record's parts alone; the second's.
    fails(|first, _| (first, first));
    fails(|_, second| (second, second));
    // A fault of the second told first, and the place of 15 in the second.
    fails(|first, second| (second, first));
}

/// Unequal headers told as unequal parts, and the other way round.
#[test]
fn wrong_causes_of_joining_are_caught() {
    fails(Routine::Join, |lent| {
        if lent.returned == 14 {
            tell(lent, 15);
        }
    });
    fails(Routine::Join, |lent| {
        if lent.returned == 15 {
            tell(lent, 14);
        }
    });
}

fn tell(lent: &mut Lent, number: u64) {
    lent.returned = number;
    lent.answer[0] = number;
}

#[test]
fn a_wrong_count_is_caught() {
    // Length, tail, reached plane of level 6, skipped parts of level 1 and of
    // level 6, whole parts; length of a join; width, height, length, pixels that
    // were clipped.
    fails(Routine::Code, |lent| bump(lent, 2));
    fails(Routine::Serve, |lent| bump(lent, 3));
    fails(Routine::Decode, |lent| bump(lent, 8));
    fails(Routine::Decode, |lent| bump(lent, 9));
    fails(Routine::Decode, |lent| bump(lent, 14));
    fails(Routine::Survey, |lent| bump(lent, 6));
    fails(Routine::Join, |lent| bump(lent, 2));
    fails(Routine::GreySize, |lent| bump(lent, 2));
    fails(Routine::GreyIn, |lent| bump(lent, 3));
    fails(Routine::GreyOut, |lent| bump(lent, 2));
    fails(Routine::GreyOut, |lent| bump(lent, 3));
}

/// Reached planes told in the place of the counts, and parts that were used
/// counted for those that weren't.
#[test]
fn wrong_counts_of_skipped_parts_are_caught() {
    fails(Routine::Decode, |lent| {
        if lent.answer.len() >= 15 {
            lent.answer.copy_within(3..9, 9);
        }
    });
    fails(Routine::Decode, |lent| {
        if lent.answer.len() >= 15 && lent.answer[9] > 0 {
            lent.answer[9] -= 1;
        }
    });
}

#[test]
fn sides_in_each_others_place_are_caught() {
    for routine in [Routine::GreySize, Routine::GreyIn] {
        fails(routine, |lent| {
            if lent.answer.len() >= 4 {
                lent.answer.swap(2, 3);
            }
        });
    }
}

fn bump(lent: &mut Lent, at: usize) {
    if let Some(number) = lent.answer.get_mut(at) {
        *number += 1;
    }
}

#[test]
fn an_answer_not_cleared_is_caught() {
    for routine in Routine::EXPORTED {
        fails(routine, |lent| {
            if lent.returned == 5 && !lent.answer.is_empty() {
                lent.answer[0] = 5;
                lent.answer[lent.answer.len() - 1] = 5;
            }
        });
    }
    // Behind the last number.
    fails(Routine::Survey, |lent| bump(lent, 8));
    fails(Routine::Decode, |lent| bump(lent, 15));
}

#[test]
fn memory_left_dirty_is_caught() {
    let dirty_work = |lent: &mut Lent| {
        if let Some(last) = lent.work.last_mut() {
            *last = 1;
        }
    };
    for routine in lent_memory() {
        if routine != Routine::Serve && routine != Routine::Join {
            fails(routine, dirty_work);
        }
    }
    let dirty_refusal = |lent: &mut Lent| {
        if lent.returned != 0 {
            lent.bytes.iter_mut().take(1).for_each(|byte| *byte = 1);
            lent.coefficients.iter_mut().take(1).for_each(|c| *c = 1);
        }
    };
    for routine in lent_memory() {
        fails(routine, dirty_refusal);
    }
    let dirty_end = |lent: &mut Lent| {
        if let Some(last) = lent.bytes.last_mut() {
            *last ^= 1;
        }
    };
    fails(Routine::Code, dirty_end);
    fails(Routine::Serve, dirty_end);
    fails(Routine::Join, dirty_end);
    fails(Routine::GreyOut, dirty_end);
}

/// The routines that are lent more than an answer to write to.
fn lent_memory() -> impl Iterator<Item = Routine> {
    let all = Routine::EXPORTED.iter().copied();
    all.filter(|&routine| routine != Routine::GreySize && routine != Routine::Survey)
}

#[test]
fn a_wrong_coefficient_or_pixel_is_caught() {
    for routine in [Routine::Decode, Routine::GreyIn] {
        fails(routine, |lent| {
            if let (0, Some(last)) = (lent.returned, lent.coefficients.last_mut()) {
                *last = -*last;
            }
        });
    }
    // 255 clipped to 254.
    fails(Routine::GreyOut, |lent| {
        for byte in lent.bytes.iter_mut().filter(|byte| **byte == 255) {
            *byte = 254;
        }
    });
}

/// Writes just beyond what was lent.
struct Overrun;

impl Subject for Overrun {
    fn call(&self, call: Call, memory: &mut Memory) -> Returned {
        let returned = Own.call(call, memory);
        let Memory {
            bytes,
            work,
            answer,
            ..
        } = memory;
        // The comparison keeps guards of its own around every slice it lends.
        match call {
            Call::Serve { .. } | Call::Join { .. } | Call::GreyOut(..) => unsafe {
                *bytes.as_mut_ptr().add(bytes.len()) = 0
            },
            Call::GreySize(_) => unsafe { *answer.as_mut_ptr().add(answer.len()) = 0 },
            Call::GreyIn { .. } => unsafe { *work.as_mut_ptr().sub(1) = 0 },
            _ => {}
        }
        returned
    }
}

#[test]
fn writing_outside_is_caught() {
    for (routine, of) in [
        (Routine::Serve, "out"),
        (Routine::Join, "out"),
        (Routine::GreySize, "answer"),
        (Routine::GreyIn, "work"),
        (Routine::GreyOut, "out"),
    ] {
        let difference = compare(routine, 10, &Overrun).unwrap_err();
        assert_eq!(difference.what, format!("written outside of {of}"));
    }
}
