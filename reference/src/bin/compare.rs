//! Compares the product with the reference on many seeded cases: the archive's
//! exported calls (with the feature `archive`, or through a program that makes
//! them, else the reference's own portal), or what a part list program prints.

use reference::compare::{run, run_partlist, Routine, Subject, Tally};
use reference::piped::Piped;
use std::path::Path;
use std::process::ExitCode;
use std::time::{Duration, Instant};

#[cfg(feature = "archive")]
const SUBJECT: (&str, &dyn Subject) = ("the archive", &reference::archive::Archive);
#[cfg(not(feature = "archive"))]
const SUBJECT: (&str, &dyn Subject) = ("the reference's own portal", &reference::compare::Own);

const USAGE: &str = "usage: compare CALL COUNT [SEED]
       compare --through PROGRAM CALL COUNT [SEED]
       compare partlist PROGRAM COUNT [SEED]
where CALL is code, serve, decode, survey, join, grey_size, grey_in or grey_out";

fn main() -> ExitCode {
    let arguments: Vec<String> = std::env::args().skip(1).collect();
    match compare(&arguments) {
        Some(outcome) => report(outcome),
        None => {
            eprintln!("{USAGE}");
            ExitCode::from(2)
        }
    }
}

/// The count of cases, or what is different.
type Outcome = Result<Tally, String>;

/// Nothing where the arguments make no sense.
fn compare(arguments: &[String]) -> Option<Outcome> {
    match arguments {
        [name, program, rest @ ..] if name == Routine::Partlist.name() => {
            compare_partlist(program, rest)
        }
        [option, program, rest @ ..] if option == "--through" => {
            match Piped::through(Path::new(program)) {
                Ok(subject) => compare_calls(program, &subject, rest),
                Err(error) => Some(Err(format!("{program} doesn't run: {error}"))),
            }
        }
        _ => {
            let (whose, subject) = SUBJECT;
            compare_calls(whose, subject, arguments)
        }
    }
}

fn compare_partlist(program: &str, arguments: &[String]) -> Option<Outcome> {
    let (count, seed) = count_and_seed(arguments)?;
    eprintln!("partlist of {program}, {count} cases, seed {seed}");
    let outcome = run_partlist(Path::new(program), count, seed, &mut progress(count));
    Some(outcome.map_err(|difference| difference.to_string()))
}

fn compare_calls(whose: &str, subject: &dyn Subject, arguments: &[String]) -> Option<Outcome> {
    let (name, rest) = arguments.split_first()?;
    let mut routines = Routine::EXPORTED.iter().copied();
    let routine = routines.find(|routine| routine.name() == name)?;
    let (count, seed) = count_and_seed(rest)?;
    eprintln!("{name} of {whose}, {count} cases, seed {seed}");
    let outcome = run(routine, count, seed, subject, &mut progress(count));
    Some(outcome.map_err(|difference| difference.to_string()))
}

fn count_and_seed(arguments: &[String]) -> Option<(u64, u64)> {
    match arguments {
        [count] => Some((count.parse().ok()?, 1)),
        [count, seed] => Some((count.parse().ok()?, seed.parse().ok()?)),
        _ => None,
    }
}

/// All equal is not enough: each sort of case must have occurred.
fn report(outcome: Outcome) -> ExitCode {
    let tally = match outcome {
        Ok(tally) => tally,
        Err(difference) => {
            println!("DIFFERENT {difference}");
            return ExitCode::FAILURE;
        }
    };
    print!("{tally}");
    let missing = tally.missing();
    if missing.is_empty() {
        ExitCode::SUCCESS
    } else {
        println!("  NO CASE OF {}", missing.join(", "));
        ExitCode::FAILURE
    }
}

/// A line on standard error every few seconds of a long run.
fn progress(count: u64) -> impl FnMut(u64) {
    let begun = Instant::now();
    let mut next = Duration::from_secs(5);
    move |done| {
        let elapsed = begun.elapsed();
        if elapsed >= next {
            eprintln!("  {done} of {count} after {} s", elapsed.as_secs());
            next = elapsed + Duration::from_secs(10);
        }
    }
}
