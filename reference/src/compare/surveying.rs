//! Cases of surveying.

use super::lent::*;
use super::{header_of, malformed, Case, Compared, Subject};
use crate::generate::records::{any_record, Whole};
use crate::generate::Chance;
use crate::portal::SURVEY_ANSWER;

pub fn compare_survey(chance: &mut Chance, base: &Whole, subject: &dyn Subject) -> Compared {
    let record = any_record(chance, &base.bytes);
    let answer_length = answer_length(chance, SURVEY_ANSWER);
    let said = crate::survey(&record);
    let numbers = said.numbers();
    let (want, mut want_answer) = expected_answer(answer_length, &numbers);

    let before = record.clone();
    let mut answer = Lent::dirty(answer_length, DIRTY_NUMBER);
    let got = subject.survey(&record, answer.cells())?;

    check_returned(got, want)?;
    answer.check("answer", &mut want_answer)?;
    check_input("the record", &record, &before)?;
    let shape = header_of(&record).map(|header| header.shape);
    let mut sorts = malformed::sorts_of(&record, want, said.place);
    sorts.push(base.count.name());
    Ok(Case::new(want, shape).sorted(sorts))
}
