//! Times of calls, taken in turns, and how they are printed.

use reference::compare::{Own, Returned, Subject};
use std::time::{Duration, Instant};

#[cfg(feature = "archive")]
pub const ARCHIVE: Option<&dyn Subject> = Some(&reference::archive::Archive);
#[cfg(not(feature = "archive"))]
pub const ARCHIVE: Option<&dyn Subject> = None;

/// The times of one call.
pub struct Row {
    pub reference: Times,
    pub archive: Option<Times>,
    pub other: Option<Times>,
}

impl Row {
    /// All run in turns, so that whatever else the machine does falls on each.
    /// The other, where there is one, does the same, and answers how many bytes
    /// or samples were made.
    pub fn take<O: Copy>(
        runs: usize,
        mut call: impl FnMut(&dyn Subject) -> Returned,
        other: Option<O>,
        mut other_call: impl FnMut(O) -> usize,
    ) -> Row {
        let mut reference = Vec::with_capacity(runs);
        let mut archive = Vec::with_capacity(runs);
        let mut others = Vec::with_capacity(runs);
        for _ in 0..runs {
            reference.push(timed(|| assert_eq!(call(&Own), Ok(0), "it is accepted")));
            if let Some(subject) = ARCHIVE {
                archive.push(timed(|| assert_eq!(call(subject), Ok(0), "it is accepted")));
            }
            if let Some(other) = other {
                others.push(timed(|| assert!(other_call(other) > 0, "it works")));
            }
        }
        Row {
            reference: Times::of(reference).expect("there are runs"),
            archive: Times::of(archive),
            other: Times::of(others),
        }
    }

    pub fn print(&self, name: &str, length: usize) {
        print!("  {name:19} {length:7} {}", self.reference);
        if let Some(archive) = &self.archive {
            print!("  {archive}  {}", archive.beside(&self.reference));
        }
        if let Some(other) = &self.other {
            let ours = self.archive.as_ref().unwrap_or(&self.reference);
            print!("  {other}  {}", ours.beside(other));
        }
        println!();
    }
}

/// A ratio is the archive's time (without an archive the reference's) to the
/// other's.
pub fn print_heading(other: Option<&str>) {
    print!("  {:19} {:>7} {:>19}", "", "bytes", "reference");
    if ARCHIVE.is_some() {
        print!("  {:>19}  {:>11}", "archive", "ratio");
    }
    if let Some(other) = other {
        print!("  {other:>19}  {:>11}", "ratio");
    }
    println!();
}

fn timed(call: impl FnOnce()) -> Duration {
    let begun = Instant::now();
    call();
    begun.elapsed()
}

/// In microseconds.
pub struct Times {
    pub least: f64,
    median: f64,
}

impl Times {
    fn of(mut times: Vec<Duration>) -> Option<Times> {
        times.sort();
        let microseconds = |time: &Duration| time.as_secs_f64() * 1e6;
        Some(Times {
            least: microseconds(times.first()?),
            median: microseconds(times.get(times.len() / 2)?),
        })
    }

    fn beside(&self, others: &Times) -> String {
        let (least, median) = (self.least / others.least, self.median / others.median);
        format!("{least:4.2} / {median:4.2}")
    }
}

impl std::fmt::Display for Times {
    fn fmt(&self, out: &mut std::fmt::Formatter) -> std::fmt::Result {
        write!(out, "{:8.1} / {:8.1}", self.least, self.median)
    }
}

/// A line for each of those who were timed: nanoseconds for each of so many
/// coefficients, a column a side.
pub fn print_growth(call: &str, other: &str, rows: &[(usize, Row)]) {
    let print = |who: &str, times_of: fn(&Row) -> Option<&Times>| {
        if rows.iter().all(|(_, row)| times_of(row).is_some()) {
            print!("  {call:14} {who:9}");
            for (area, row) in rows {
                let least = times_of(row).map_or(0.0, |times| times.least);
                print!(" {:8.3}", 1e3 * least / *area as f64);
            }
            println!();
        }
    };
    print("reference", |row| Some(&row.reference));
    print("archive", |row| row.archive.as_ref());
    print(other, |row| row.other.as_ref());
}
