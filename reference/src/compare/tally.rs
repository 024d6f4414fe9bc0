//! The count of cases, and the difference that ends it.

use super::{Case, Routine, Wanted};
use crate::generate::shapes::SizeClass;
use crate::size::MOST_DECOMPOSITIONS;
use std::fmt::{self, Display};

/// The numbers that a call may come back with go up to 15.
const NUMBERS: usize = 16;

/// How many cases a comparison had of each sort.
#[derive(Clone, Debug)]
pub struct Tally {
    routine: Routine,
    seed: u64,
    cases: u64,
    answers: [u64; NUMBERS],
    decompositions: [u64; MOST_DECOMPOSITIONS as usize],
    classes: [u64; SizeClass::ALL.len()],
    sorts: Vec<(&'static str, Wanted, u64)>,
}

impl Tally {
    pub(super) fn new(routine: Routine, seed: u64) -> Tally {
        Tally {
            routine,
            seed,
            cases: 0,
            answers: [0; NUMBERS],
            decompositions: [0; MOST_DECOMPOSITIONS as usize],
            classes: [0; SizeClass::ALL.len()],
            sorts: routine
                .sorts()
                .into_iter()
                .map(|(name, wanted)| (name, wanted, 0))
                .collect(),
        }
    }

    /// By N and by size only accepted cases count: what a refused case says
    /// of its size may be anything.
    pub(super) fn count(&mut self, case: Case) {
        self.cases += 1;
        self.answers[case.number as usize] += 1;
        if let (0, Some(shape)) = (case.number, case.shape) {
            self.decompositions[shape.decompositions() as usize - 1] += 1;
            self.classes[SizeClass::of(shape) as usize] += 1;
        }
        for (name, _, count) in &mut self.sorts {
            *count += u64::from(case.sorts.contains(name));
        }
    }

    /// What can occur and did not.
    pub fn missing(&self) -> Vec<String> {
        let answers = (0..)
            .zip(&self.answers)
            .filter(|&(number, &count)| self.routine.can_answer(number) && count == 0)
            .map(|(number, _)| format!("answer {number}"));
        let sorts = self.sorts.iter().filter_map(|&(name, wanted, count)| {
            let (enough, least) = match wanted {
                Wanted::One => (count > 0, ""),
                Wanted::AFifth => (5 * count >= self.cases, "a fifth being "),
                Wanted::AQuarter => (4 * count >= self.cases, "a quarter being "),
                Wanted::AThird => (3 * count >= self.cases, "a third being "),
                Wanted::AThirdOfAccepted => (
                    3 * count >= self.answers[0],
                    "a third of the accepted with ",
                ),
            };
            Some(format!("{least}{name}")).filter(|_| !enough)
        });
        let missing: Vec<String> = answers.chain(sorts).collect();
        if !self.routine.has_shapes() {
            return missing;
        }
        let decompositions = (1..)
            .zip(&self.decompositions)
            .filter(|(_, &count)| count == 0)
            .map(|(n, _)| format!("N = {n}"));
        let classes = SizeClass::ALL
            .iter()
            .zip(&self.classes)
            .filter(|(_, &count)| count == 0)
            .map(|(class, _)| format!("size {}", class.name()));
        let all = missing.into_iter().chain(decompositions).chain(classes);
        all.collect()
    }
}

impl Display for Tally {
    fn fmt(&self, f: &mut fmt::Formatter) -> fmt::Result {
        writeln!(
            f,
            "{}: seed {}, {} cases, all equal",
            self.routine.name(),
            self.seed,
            self.cases
        )?;
        write!(f, "  answers")?;
        for (number, count) in (0..).zip(&self.answers) {
            if self.routine.can_answer(number) {
                write!(f, "  {number}: {count}")?;
            } else {
                write!(f, "  {number}: -")?;
            }
        }
        if !self.sorts.is_empty() {
            write!(f, "\n  sorts")?;
        }
        for (name, _, count) in &self.sorts {
            write!(f, "  {name}: {count}")?;
        }
        if !self.routine.has_shapes() {
            return writeln!(f);
        }
        write!(f, "\n  accepted by N")?;
        for (n, count) in (1..).zip(&self.decompositions) {
            write!(f, "  {n}: {count}")?;
        }
        write!(f, "\n  accepted by size")?;
        for (class, count) in SizeClass::ALL.iter().zip(&self.classes) {
            write!(f, "  {}: {count}", class.name())?;
        }
        writeln!(f)
    }
}

/// Where subject and library part.
#[derive(Clone, Debug)]
pub struct Difference {
    pub routine: Routine,
    pub seed: u64,
    pub case: u64,
    pub what: String,
}

impl Display for Difference {
    fn fmt(&self, f: &mut fmt::Formatter) -> fmt::Result {
        write!(
            f,
            "{}: seed {}, case {}: {}",
            self.routine.name(),
            self.seed,
            self.case,
            self.what
        )
    }
}
