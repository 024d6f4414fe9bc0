//! The rules' "errors that look reasonable", as switches.
//!
//! Coder and decoder are written once over [`Slips`]; the calls of the
//! library are the [`Faithful`] ones. The other types exist so that a test
//! can show that each error is caught by the ordinary checks. As the switches
//! are constants of a type, the faithful calls carry none of them.

/// Which errors are made.
pub trait Slips {
    /// Going on with a level after a part of it, or of a coarser one, is lost.
    const GOES_ON_AFTER_LOSS: bool = false;
    /// Testing only the members of D (or L) in the wanted level.
    const TESTS_WANTED_LEVEL_ONLY: bool = false;
    /// Refining an entry in the plane in which it came in.
    const REFINES_NEW_ENTRIES: bool = false;
    /// Visiting LIP_k again for offspring just put there.
    const VISITS_NEW_OFFSPRING: bool = false;
    /// Missing sets just put at the end of LIS_k.
    const MISSES_NEW_SETS: bool = false;
    /// Taking an absent part for one of 0 bits.
    const TAKES_ABSENT_FOR_EMPTY: bool = false;
}

/// None of them.
pub struct Faithful;
impl Slips for Faithful {}

pub struct GoesOnAfterLoss;
impl Slips for GoesOnAfterLoss {
    const GOES_ON_AFTER_LOSS: bool = true;
}

pub struct TestsWantedLevelOnly;
impl Slips for TestsWantedLevelOnly {
    const TESTS_WANTED_LEVEL_ONLY: bool = true;
}

pub struct RefinesNewEntries;
impl Slips for RefinesNewEntries {
    const REFINES_NEW_ENTRIES: bool = true;
}

pub struct VisitsNewOffspring;
impl Slips for VisitsNewOffspring {
    const VISITS_NEW_OFFSPRING: bool = true;
}

pub struct MissesNewSets;
impl Slips for MissesNewSets {
    const MISSES_NEW_SETS: bool = true;
}

pub struct TakesAbsentForEmpty;
impl Slips for TakesAbsentForEmpty {
    const TAKES_ABSENT_FOR_EMPTY: bool = true;
}
