//! The survey: what a record holds, in numbers.

use crate::reading::Walk;
use crate::refusal::Refusal;

/// Number and place of a refusal, or 0, 0 and what the header says, how many
/// parts are whole and how long the tail is.
#[derive(Clone, Copy, Debug, Default, PartialEq, Eq)]
pub struct SurveyAnswer {
    pub number: u64,
    pub place: u64,
    pub width: u64,
    pub height: u64,
    pub decompositions: u64,
    pub planes: u64,
    pub parts: u64,
    pub tail: u64,
}

impl SurveyAnswer {
    /// In the order of the exported call.
    pub fn numbers(&self) -> [u64; 8] {
        [
            self.number,
            self.place,
            self.width,
            self.height,
            self.decompositions,
            self.planes,
            self.parts,
            self.tail,
        ]
    }
}

/// A record is judged as serving all of it judges it.
pub fn survey(record: &[u8]) -> SurveyAnswer {
    count_parts(record).unwrap_or_else(|refusal| SurveyAnswer {
        number: refusal.number(),
        place: refusal.place(),
        ..SurveyAnswer::default()
    })
}

fn count_parts(record: &[u8]) -> Result<SurveyAnswer, Refusal> {
    let mut walk = Walk::begin(record)?;
    let mut parts = 0;
    while walk.next_part()?.is_some() {
        parts += 1;
    }
    let shape = walk.header().shape;
    Ok(SurveyAnswer {
        width: shape.width() as u64,
        height: shape.height() as u64,
        decompositions: shape.decompositions().into(),
        planes: walk.header().planes.into(),
        parts,
        tail: walk.tail() as u64,
        ..SurveyAnswer::default()
    })
}
