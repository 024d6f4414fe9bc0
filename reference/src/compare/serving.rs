//! Cases of serving.

use super::lent::*;
use super::{header_of, malformed, Case, Compared, Subject};
use crate::generate::records::{any_record, Whole};
use crate::generate::Chance;
use crate::layout::Header;
use crate::portal::SERVE_ANSWER;

/// A request, legal for the most part.
fn request(chance: &mut Chance, header: Option<Header>) -> (u64, u64) {
    if chance.once_in(12) {
        let wrong = [0, 7, (1 << 32) + 1, 1 << 32, u64::MAX, 18, 6, 5];
        return (*chance.pick(&wrong), *chance.pick(&wrong));
    }
    match header {
        Some(Header { shape, planes }) => (
            1 + chance.below(shape.coarsest().0 as usize) as u64,
            chance.below(planes as usize + 1) as u64,
        ),
        None => (chance.below(8) as u64, chance.below(19) as u64),
    }
}

pub fn compare_serve(chance: &mut Chance, base: &Whole, subject: &dyn Subject) -> Compared {
    let record = any_record(chance, &base.bytes);
    let header = header_of(&record);
    let (level, plane) = request(chance, header);
    let length = serve_room(chance, &record, level, plane);
    let answer_length = answer_length(chance, SERVE_ANSWER);

    let mut want_out = Lent::dirty(length, DIRTY_BYTE);
    let said = crate::serve(&record, level, plane, want_out.cells());
    let numbers = [said.number, said.place, said.length, said.tail];
    let (want, mut want_answer) = expected_answer(answer_length, &numbers);
    if answer_length < numbers.len() {
        want_out.cells().fill(0);
    }

    let before = record.clone();
    let mut out = Lent::dirty(length, DIRTY_BYTE);
    let mut answer = Lent::dirty(answer_length, DIRTY_NUMBER);
    let got = subject.serve(&record, level, plane, out.cells(), answer.cells())?;

    check_returned(got, want)?;
    answer.check("answer", &mut want_answer)?;
    out.check("out", &mut want_out)?;
    check_input("the record", &record, &before)?;
    let mut sorts = malformed::sorts_of(&record, want, said.place);
    sorts.push(base.count.name());
    Ok(Case::new(want, header.map(|header| header.shape)).sorted(sorts))
}

/// An output as long as the record, or just long enough, or too short.
fn serve_room(chance: &mut Chance, record: &[u8], level: u64, plane: u64) -> usize {
    let mut plenty = vec![0; record.len()];
    let needed = crate::serve(record, level, plane, &mut plenty).length as usize;
    match chance.below(8) {
        0 => needed,
        1 => needed.saturating_sub(1),
        2 => chance.below(needed + 1),
        3 => record.len() + chance.below(50),
        _ => record.len(),
    }
}
