//! Records that are refused for the form of a number, by which number it is.

use super::{header_of, Wanted};
use crate::layout::{read_number, Number};
use crate::refusal::Cause;

/// A number in long form, in each of a record's places for one: five in the
/// header, then three in a part's head.
const LONG: [&str; 8] = [
    "long version",
    "long width",
    "long height",
    "long N",
    "long planes",
    "long plane",
    "long level",
    "long bit count",
];

/// The same of a number whose fourth byte says that another follows.
const ENDLESS: [&str; 8] = [
    "endless version",
    "endless width",
    "endless height",
    "endless N",
    "endless planes",
    "endless plane",
    "endless level",
    "endless bit count",
];

const IN_THE_HEADER: usize = 5;

pub fn sorts() -> Vec<(&'static str, Wanted)> {
    let names = LONG.iter().chain(&ENDLESS);
    names.map(|&name| (name, Wanted::One)).collect()
}

/// What a record is counted by whose reading ended with this number and place.
pub fn sorts_of(record: &[u8], number: u64, place: u64) -> Vec<&'static str> {
    let causes = [Cause::Head, Cause::Part, Cause::LongForm];
    if !causes.iter().any(|&cause| cause as u64 == number) {
        return Vec::new();
    }
    let (mut at, first) = match header_of(record) {
        None => (0, 0),
        Some(_) => (place as usize, IN_THE_HEADER),
    };
    for (long, endless) in LONG.iter().zip(ENDLESS).skip(first) {
        match read_number(record, at) {
            Number::Value { next, .. } => at = next,
            Number::LongForm => return vec![long],
            Number::TooManyBytes => return vec![endless],
            Number::CutOff => break,
        }
    }
    Vec::new()
}
