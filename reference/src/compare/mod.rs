//! Comparison of a subject, reached through calls of the exported shape, with
//! the library: the returned number, the answer, the output, the workspace.
//!
//! Every buffer is lent dirty, with guards on both sides that must stay as
//! they are. A comparison counts its cases by answer, by N and by size, and
//! those of reading by the number that was refused for its form, and is only
//! good if none of the counts is 0.

mod coding;
mod decoding;
mod grey_in;
mod grey_out;
mod joining;
mod lent;
mod listing;
mod malformed;
mod serving;
mod subject;
mod surveying;
mod tally;

use crate::generate::records::{any_whole, Count, Whole};
use crate::generate::shapes::shape_of_case;
use crate::generate::Chance;
use crate::layout::Header;
use crate::reading::Walk;
use crate::size::Shape;
use coding::compare_code;
use decoding::compare_decode;
use grey_in::{compare_grey_in, compare_grey_size};
use grey_out::compare_grey_out;
use joining::compare_join;
use listing::compare_partlist;
use serving::compare_serve;
use std::path::Path;
pub use subject::{Call, Memory, Own, Returned, Sizes, Subject};
use surveying::compare_survey;
pub use tally::{Difference, Tally};

#[derive(Clone, Copy, Debug, PartialEq, Eq)]
pub enum Routine {
    Code,
    Serve,
    Decode,
    Survey,
    Join,
    GreySize,
    GreyIn,
    GreyOut,
    /// The program; it has no subject but a path ([`run_partlist`]).
    Partlist,
}

impl Routine {
    /// Those that a [`Subject`] can have.
    pub const EXPORTED: [Routine; 8] = [
        Routine::Code,
        Routine::Serve,
        Routine::Decode,
        Routine::Survey,
        Routine::Join,
        Routine::GreySize,
        Routine::GreyIn,
        Routine::GreyOut,
    ];

    pub fn name(self) -> &'static str {
        match self {
            Routine::Code => "code",
            Routine::Serve => "serve",
            Routine::Decode => "decode",
            Routine::Survey => "survey",
            Routine::Join => "join",
            Routine::GreySize => "grey_size",
            Routine::GreyIn => "grey_in",
            Routine::GreyOut => "grey_out",
            Routine::Partlist => "partlist",
        }
    }

    /// The numbers that the exported routine can give. Decoding, surveying and
    /// the calls that read grey files have ROOM only for an answer slice that is
    /// too short.
    pub fn can_answer(self, number: u64) -> bool {
        let numbers: &[u64] = match self {
            Routine::Code => &[0, 1, 2, 3, 4, 5],
            Routine::Serve => &[0, 1, 5, 6, 7, 8, 9, 11, 12],
            Routine::Decode => &[0, 1, 2, 3, 5, 6, 7, 8, 9, 10, 12],
            Routine::Join => &[0, 1, 5, 6, 7, 8, 9, 12, 14, 15],
            Routine::GreySize => &[0, 5, 13],
            Routine::GreyIn => &[0, 1, 2, 3, 5, 13],
            Routine::GreyOut => &[0, 1, 2, 3, 4, 5],
            Routine::Survey | Routine::Partlist => &[0, 1, 5, 6, 7, 8, 9, 12],
        };
        numbers.contains(&number)
    }

    /// Whether its cases have an N, and so a shape to be counted by.
    fn has_shapes(self) -> bool {
        self != Routine::GreySize
    }

    /// What else its cases are counted by, and how many of them are wanted.
    fn sorts(self) -> Vec<(&'static str, Wanted)> {
        match self {
            Routine::GreySize => grey_in::sorts_of_headers(),
            Routine::GreyIn => grey_in::sorts_of_files(),
            Routine::GreyOut => grey_out::SORTS.to_vec(),
            Routine::Decode => [records_sorts(), decoding::sorts()].concat(),
            Routine::Serve | Routine::Survey | Routine::Partlist => records_sorts(),
            Routine::Join => [COUNTS.to_vec(), joining::sorts()].concat(),
            Routine::Code => Vec::new(),
        }
    }
}

fn records_sorts() -> Vec<(&'static str, Wanted)> {
    [malformed::sorts(), COUNTS.to_vec()].concat()
}

/// The counts of planes of the records that cases begin from.
const COUNTS: [(&str, Wanted); 4] = [
    (Count::Now.name(), Wanted::One),
    (Count::Earlier.name(), Wanted::AQuarter),
    (Count::More.name(), Wanted::One),
    (Count::Invented.name(), Wanted::One),
];

/// How many cases of a sort a comparison must have had.
#[derive(Clone, Copy, Debug, PartialEq, Eq)]
pub enum Wanted {
    One,
    AFifth,
    AQuarter,
    AThird,
    AThirdOfAccepted,
}

/// What a case is counted by: the answer's number, its shape, if it has a legal
/// one, and its sorts.
pub struct Case {
    number: u64,
    shape: Option<Shape>,
    sorts: Vec<&'static str>,
}

impl Case {
    fn new(number: u64, shape: Option<Shape>) -> Case {
        Case {
            number,
            shape,
            sorts: Vec::new(),
        }
    }

    fn sorted(self, sorts: Vec<&'static str>) -> Case {
        Case { sorts, ..self }
    }
}

/// Compares on so many cases of a seed, up to the first difference. Case i is
/// the same however many there are.
pub fn run(
    routine: Routine,
    count: u64,
    seed: u64,
    subject: &dyn Subject,
    progress: &mut dyn FnMut(u64),
) -> Result<Tally, Difference> {
    let mut stock = Stock::new(seed);
    all_cases(
        routine,
        count,
        seed,
        progress,
        |chance, case| match routine {
            Routine::Code => compare_code(chance, case, subject),
            Routine::Serve => compare_serve(chance, stock.record(case), subject),
            Routine::Decode => compare_decode(chance, stock.record(case), subject),
            Routine::Survey => compare_survey(chance, stock.record(case), subject),
            Routine::Join => compare_join(chance, stock.record(case), subject),
            Routine::GreySize => compare_grey_size(chance, subject),
            Routine::GreyIn => compare_grey_in(chance, case, subject),
            Routine::GreyOut => compare_grey_out(chance, case, &mut stock, subject),
            Routine::Partlist => Err("a subject has no part list".to_string()),
        },
    )
}

/// Compares what a program prints, given records on its standard input, with
/// the library's part list.
pub fn run_partlist(
    program: &Path,
    count: u64,
    seed: u64,
    progress: &mut dyn FnMut(u64),
) -> Result<Tally, Difference> {
    let mut stock = Stock::new(seed);
    all_cases(Routine::Partlist, count, seed, progress, |chance, case| {
        compare_partlist(chance, stock.record(case), program)
    })
}

fn all_cases(
    routine: Routine,
    count: u64,
    seed: u64,
    progress: &mut dyn FnMut(u64),
    mut compare: impl FnMut(&mut Chance, u64) -> Compared,
) -> Result<Tally, Difference> {
    let mut tally = Tally::new(routine, seed);
    for case in 0..count {
        match compare(&mut Chance::of_case(seed, case), case) {
            Ok(case) => tally.count(case),
            Err(what) => {
                return Err(Difference {
                    routine,
                    seed,
                    case,
                    what,
                })
            }
        }
        progress(case + 1);
    }
    Ok(tally)
}

/// Whole records to begin from. Some cases in a row share one, as making it
/// takes longer than harming it.
struct Stock {
    seed: u64,
    made: Option<(u64, Whole)>,
}

impl Stock {
    const SHARED_BY: u64 = 8;

    fn new(seed: u64) -> Stock {
        Stock { seed, made: None }
    }

    fn record(&mut self, case: u64) -> &Whole {
        let batch = case / Stock::SHARED_BY;
        let made = match self.made.take() {
            Some((of, record)) if of == batch => (of, record),
            _ => {
                let mut chance = Chance::of_case(!self.seed, batch);
                let shape = shape_of_case(&mut chance, batch);
                (batch, any_whole(&mut chance, shape))
            }
        };
        &self.made.insert(made).1
    }
}

/// A case that was equal, or what differs.
type Compared = Result<Case, String>;

/// The header that reading finds, if it finds one.
fn header_of(record: &[u8]) -> Option<Header> {
    Walk::begin(record).ok().map(|walk| walk.header())
}
