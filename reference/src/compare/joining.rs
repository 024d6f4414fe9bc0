//! Cases of joining.

use super::lent::*;
use super::{header_of, Case, Compared, Subject, Wanted};
use crate::generate::pairs::{any_pair, Kin};
use crate::generate::records::Whole;
use crate::generate::Chance;
use crate::portal::JOIN_ANSWER;

/// Accepted, with a part of each record that the other hasn't.
const OF_BOTH: &str = "more than either";
/// Refused for what reading one of them gives.
const OF_FIRST: &str = "the first refused";
const OF_SECOND: &str = "the second refused";

pub fn sorts() -> Vec<(&'static str, Wanted)> {
    let kins = Kin::ALL.iter().map(|kin| (kin.name(), Wanted::One));
    let others = [
        (OF_BOTH, Wanted::AThirdOfAccepted),
        (OF_FIRST, Wanted::One),
        (OF_SECOND, Wanted::One),
    ];
    kins.chain(others).collect()
}

pub fn compare_join(chance: &mut Chance, base: &Whole, subject: &dyn Subject) -> Compared {
    let pair = any_pair(chance, &base.bytes);
    // A record with itself is lent twice, and not as a copy.
    let first = &pair.first[..];
    let second = pair.second.as_deref().unwrap_or(first);
    let length = join_room(chance, first, second);
    let answer_length = answer_length(chance, JOIN_ANSWER);

    let mut want_out = Lent::dirty(length, DIRTY_BYTE);
    let said = crate::join(first, second, want_out.cells());
    let numbers = [said.number, said.place, said.length];
    let (want, mut want_answer) = expected_answer(answer_length, &numbers);
    if answer_length < numbers.len() {
        want_out.cells().fill(0);
    }

    let before = (first.to_vec(), second.to_vec());
    let mut out = Lent::dirty(length, DIRTY_BYTE);
    let mut answer = Lent::dirty(answer_length, DIRTY_NUMBER);
    let got = subject.join(first, second, out.cells(), answer.cells())?;

    check_returned(got, want)?;
    answer.check("answer", &mut want_answer)?;
    out.check("out", &mut want_out)?;
    check_input("the first record", first, &before.0)?;
    check_input("the second record", second, &before.1)?;
    let mut sorts = sorts_of(pair.kin, [first, second], want, said.length);
    sorts.push(base.count.name());
    let shape = header_of(first).map(|header| header.shape);
    Ok(Case::new(want, shape).sorted(sorts))
}

fn sorts_of(kin: Kin, pair: [&[u8]; 2], number: u64, length: u64) -> Vec<&'static str> {
    let is_longer = |record: &[u8]| length > record.len() as u64 - crate::survey(record).tail;
    let sort = match number {
        0 if pair.iter().all(|record| is_longer(record)) => Some(OF_BOTH),
        0 | 5 | 14 | 15 => None,
        _ if crate::survey(pair[0]).number != 0 => Some(OF_FIRST),
        _ => Some(OF_SECOND),
    };
    sort.into_iter().chain([kin.name()]).collect()
}

/// An output as long as both, or just long enough, or too short.
fn join_room(chance: &mut Chance, first: &[u8], second: &[u8]) -> usize {
    let most = first.len() + second.len();
    let needed = crate::join(first, second, &mut vec![0; most]).length as usize;
    match chance.below(8) {
        0 => needed,
        1 => needed.saturating_sub(1),
        2 => chance.below(needed + 1),
        3 => most + chance.below(50),
        _ => most,
    }
}
