//! Cases of decoding.

use super::lent::*;
use super::{header_of, malformed, Case, Compared, Subject, Wanted};
use crate::decoder::DecodeAnswer;
use crate::generate::records::{any_record, cut_in_a_body, strike_some, Count, Pieces, Whole};
use crate::generate::Chance;
use crate::layout::Header;
use crate::portal::DECODE_ANSWER;
use crate::reading::{cut_part, CutPart};
use crate::refusal::Cause;

/// Accepted, with a part that is there and can't be used.
const SKIPPED: &str = "parts skipped";
/// Accepted or refused for its bits, and the last part is cut in its body.
const CUT: &str = "cut in a body";
/// Such a record whose bits no coder wrote.
const CUT_FOREIGN: &str = "foreign and cut";
/// Accepted, and the cut part was decoded; and it changed a coefficient.
const CUT_USED: &str = "cut part used";
const CUT_DREW: &str = "cut part drew";
/// Accepted, and it wasn't.
const CUT_UNUSED: &str = "cut part unused";
/// The two causes of 10.
const UNFIT: &str = "10 of a whole part";
const CUT_UNFIT: &str = "10 of a cut part";

pub fn sorts() -> Vec<(&'static str, Wanted)> {
    let cut = [
        CUT_FOREIGN,
        CUT_USED,
        CUT_DREW,
        CUT_UNUSED,
        UNFIT,
        CUT_UNFIT,
    ];
    let mut sorts = vec![(SKIPPED, Wanted::AThirdOfAccepted), (CUT, Wanted::AFifth)];
    sorts.extend(cut.map(|name| (name, Wanted::One)));
    sorts
}

/// A record, and whether its bits are known to be no coder's.
struct Arrived {
    bytes: Vec<u8>,
    foreign: bool,
}

/// Any record, more often struck than not: what lacks a part is accepted, and
/// others are skipped for it. A third are cut in a body, which the others are
/// by chance.
fn any_or_struck(chance: &mut Chance, whole: &Whole) -> Arrived {
    let mut left = Pieces::of(&whole.bytes);
    if chance.percent(60) {
        strike_some(chance, &mut left);
    }
    if chance.percent(65) {
        return Arrived {
            bytes: any_record(chance, &left.together()),
            foreign: whole.count == Count::Invented,
        };
    }
    let damaged = chance.once_in(2);
    Arrived {
        bytes: cut_in_a_body(chance, left, damaged),
        foreign: damaged || whole.count == Count::Invented,
    }
}

/// By the answer alone: the part lies just below the plane that its level
/// reached, and each coarser level reached its plane.
fn is_used(part: &CutPart, header: Header, said: &DecodeAnswer) -> bool {
    let (plane, level) = (u64::from(part.plane.0), part.level.0 as usize);
    let coarser = &said.reached[level..header.shape.coarsest().0 as usize];
    said.reached[level - 1] == plane + 1 && coarser.iter().all(|&reached| reached <= plane)
}

/// Whether the tail changed any coefficient.
fn drew(record: &[u8], part: &CutPart, header: Header, pyramid: &[i32]) -> bool {
    let mut without = vec![0; header.shape.area()];
    let mut work = vec![0; header.shape.workspace()];
    crate::decode(&record[..part.offset], &mut without, &mut work);
    without != pyramid
}

/// What a decoding is counted by: what it skipped, and what became of a tail.
fn sorts_of(arrived: &Arrived, said: &DecodeAnswer, pyramid: &[i32]) -> Vec<&'static str> {
    let mut sorts = Vec::new();
    if said.number == 0 && said.skipped.iter().any(|&count| count > 0) {
        sorts.push(SKIPPED);
    }
    let unfit = said.number == Cause::Fit as u64;
    let cut = cut_part(&arrived.bytes).filter(|_| said.number == 0 || unfit);
    let of_cut = cut.map_or(false, |part| said.place == part.offset as u64);
    if unfit {
        sorts.push(if of_cut { CUT_UNFIT } else { UNFIT });
    }
    if let (Some(part), Some(header)) = (cut, header_of(&arrived.bytes)) {
        sorts.push(CUT);
        if arrived.foreign {
            sorts.push(CUT_FOREIGN);
        }
        if said.number == 0 {
            let used = is_used(&part, header, said);
            sorts.push(if used { CUT_USED } else { CUT_UNUSED });
            if drew(&arrived.bytes, &part, header, pyramid) {
                sorts.push(CUT_DREW);
            }
        }
    }
    sorts
}

pub fn compare_decode(chance: &mut Chance, base: &Whole, subject: &dyn Subject) -> Compared {
    let arrived = any_or_struck(chance, base);
    let record = &arrived.bytes;
    let header = header_of(record);
    let (length, work_length) = decode_room(chance, header);
    let answer_length = answer_length(chance, DECODE_ANSWER);

    let mut want_out = Lent::dirty(length, DIRTY_COEFFICIENT);
    let mut want_work = Lent::dirty(work_length, DIRTY_WORD);
    let said = crate::decode(record, want_out.cells(), want_work.cells());
    let drawn = sorts_of(&arrived, &said, want_out.cells());
    let numbers = said.numbers();
    let (want, mut want_answer) = expected_answer(answer_length, &numbers);
    if answer_length < numbers.len() {
        want_out.cells().fill(0);
    }

    let before = record.clone();
    let mut out = Lent::dirty(length, DIRTY_COEFFICIENT);
    let mut work = Lent::dirty(work_length, DIRTY_WORD);
    let mut answer = Lent::dirty(answer_length, DIRTY_NUMBER);
    let got = subject.decode(record, out.cells(), work.cells(), answer.cells())?;

    check_returned(got, want)?;
    answer.check("answer", &mut want_answer)?;
    out.check("out", &mut want_out)?;
    work.check("work", &mut want_work)?;
    check_input("the record", record, &before)?;
    let mut sorts = malformed::sorts_of(record, want, said.place);
    sorts.push(base.count.name());
    if want == said.number {
        sorts.extend(drawn);
    }
    Ok(Case::new(want, header.map(|header| header.shape)).sorted(sorts))
}

/// Lengths of output and workspace: right, or at times one of them wrong.
fn decode_room(chance: &mut Chance, header: Option<Header>) -> (usize, usize) {
    let (area, least) = match header {
        Some(Header { shape, .. }) => (shape.area(), shape.workspace()),
        None => (chance.below(80), chance.below(300)),
    };
    match chance.below(32) {
        0 => (area + 1, least),
        1 => (area.saturating_sub(1), least),
        2 => (chance.below(area + 1), chance.below(least + 1)),
        3 => (area, least.saturating_sub(1)),
        4 => (area, chance.below(least + 1)),
        5..=8 => (area, least + chance.below(40)),
        _ => (area, least),
    }
}
