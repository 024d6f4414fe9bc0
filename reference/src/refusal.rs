//! Numbers that a call may come back with.

/// Why a call refuses; the discriminant is the number reported.
#[derive(Clone, Copy, Debug, PartialEq, Eq)]
pub enum Cause {
    Size = 1,
    Length = 2,
    Work = 3,
    Range = 4,
    Room = 5,
    Head = 6,
    Version = 7,
    Part = 8,
    Pad = 9,
    Fit = 10,
    Ask = 11,
    LongForm = 12,
    Grey = 13,
    Mixed = 14,
    Clash = 15,
}

/// A cause and the place reported with it: an index into the pyramid for
/// [`Cause::Range`], an offset into the record for the causes 6, 8, 9, 10, 12
/// and 15, 0 for all others.
#[derive(Clone, Copy, Debug, PartialEq, Eq)]
pub struct Refusal {
    pub cause: Cause,
    pub place: usize,
}

impl Refusal {
    pub fn new(cause: Cause) -> Refusal {
        Refusal { cause, place: 0 }
    }

    pub fn at(cause: Cause, place: usize) -> Refusal {
        Refusal { cause, place }
    }

    pub fn number(self) -> u64 {
        self.cause as u64
    }

    pub fn place(self) -> u64 {
        self.place as u64
    }
}
