//! Cases of grey files: their sizes, and the way in.

use super::coding::any_size_number;
use super::lent::*;
use super::{Case, Compared, Subject, Wanted};
use crate::generate::grey_files::{any_header, harmed, GreyHarm, GreyPieces};
use crate::generate::pictures::any_picture;
use crate::generate::shapes::shape_of_case;
use crate::generate::Chance;
use crate::portal::GREY_IN_ANSWER;
use crate::size::Shape;

const PICTURE: &str = "picture";
const NOT_GREY: &str = "not grey";
const DAMAGED: &str = "damaged";
const COMMENT: &str = "comment";
const TOUCHING: &str = "comment at a number";
const END: &str = "comment at the end";
const LONG: &str = "20 digits";
const BEHIND: &str = "bytes behind";
const CAPPED: &str = "side over 2^64 - 1";
const EMPTY: &str = "side of 0";

fn of_each_harm(sorts: &[(&'static str, Wanted)]) -> Vec<(&'static str, Wanted)> {
    let harms = GreyHarm::ALL.iter().map(|harm| (harm.name(), Wanted::One));
    sorts.iter().copied().chain(harms).collect()
}

pub fn sorts_of_headers() -> Vec<(&'static str, Wanted)> {
    of_each_harm(&[
        (PICTURE, Wanted::AThird),
        (NOT_GREY, Wanted::AThird),
        (COMMENT, Wanted::One),
        (TOUCHING, Wanted::One),
        (END, Wanted::One),
        (LONG, Wanted::One),
        (BEHIND, Wanted::One),
        (CAPPED, Wanted::One),
        (EMPTY, Wanted::One),
    ])
}

pub fn sorts_of_files() -> Vec<(&'static str, Wanted)> {
    of_each_harm(&[
        (DAMAGED, Wanted::AThird),
        (PICTURE, Wanted::AThird),
        (COMMENT, Wanted::One),
        (TOUCHING, Wanted::One),
        (END, Wanted::One),
        (LONG, Wanted::One),
        (BEHIND, Wanted::One),
    ])
}

/// How the header of an accepted file was written.
fn writing(pieces: &GreyPieces) -> Vec<&'static str> {
    let found = [
        (pieces.has_comment(), COMMENT),
        (pieces.comment_touches(), TOUCHING),
        (pieces.ends_in_comment(), END),
        (pieces.has_long_number(), LONG),
        (!pieces.rest.is_empty(), BEHIND),
    ];
    let sorts = found.iter().filter(|(is_so, _)| *is_so);
    sorts.map(|&(_, name)| name).collect()
}

/// A file and what it is counted by.
struct GreyCase {
    file: Vec<u8>,
    sorts: Vec<&'static str>,
}

impl GreyCase {
    /// Good, or so many times of a hundred with one harm.
    fn of(chance: &mut Chance, pieces: GreyPieces, percent: usize) -> GreyCase {
        if !chance.percent(percent) {
            return GreyCase {
                file: pieces.together(),
                sorts: writing(&pieces),
            };
        }
        let harm = *chance.pick(&GreyHarm::ALL);
        GreyCase {
            file: harmed(chance, pieces, harm),
            sorts: vec![DAMAGED, harm.name()],
        }
    }

    /// With what the size's call says of it, answers too short left aside.
    fn sorts(mut self) -> Vec<&'static str> {
        let said = crate::grey_size(&self.file);
        self.sorts.push(match said.number {
            0 => PICTURE,
            _ => NOT_GREY,
        });
        if said.width == u64::MAX || said.height == u64::MAX {
            self.sorts.push(CAPPED);
        }
        if said.number == 0 && (said.width == 0 || said.height == 0) {
            self.sorts.push(EMPTY);
        }
        self.sorts
    }
}

pub fn compare_grey_size(chance: &mut Chance, subject: &dyn Subject) -> Compared {
    let pieces = any_header(chance);
    let case = GreyCase::of(chance, pieces, 50);
    let answer_length = answer_length(chance, GREY_IN_ANSWER);

    let said = crate::grey_size(&case.file);
    let numbers = [said.number, said.place, said.width, said.height];
    let (want, mut want_answer) = expected_answer(answer_length, &numbers);

    let before = case.file.clone();
    let mut answer = Lent::dirty(answer_length, DIRTY_NUMBER);
    let got = subject.grey_size(&case.file, answer.cells())?;

    check_returned(got, want)?;
    answer.check("answer", &mut want_answer)?;
    check_input("the file", &case.file, &before)?;
    Ok(Case::new(want, None).sorted(case.sorts()))
}

pub fn compare_grey_in(chance: &mut Chance, case: u64, subject: &dyn Subject) -> Compared {
    let shape = shape_of_case(chance, case);
    let case = grey_file(chance, shape);
    let n = match chance.below(16) {
        0 => any_size_number(chance),
        1 => 1 + chance.below(5) as u64,
        _ => shape.decompositions().into(),
    };
    let (length, work_length) = grey_room(chance, shape);
    let answer_length = answer_length(chance, GREY_IN_ANSWER);

    let mut want_out = Lent::dirty(length, DIRTY_COEFFICIENT);
    let mut want_work = Lent::dirty(work_length, DIRTY_WORD);
    let said = crate::grey_in(&case.file, n, want_out.cells(), want_work.cells());
    let numbers = [said.number, said.place, said.width, said.height];
    let (want, mut want_answer) = expected_answer(answer_length, &numbers);
    if answer_length < numbers.len() {
        want_out.cells().fill(0);
    }

    let before = case.file.clone();
    let mut out = Lent::dirty(length, DIRTY_COEFFICIENT);
    let mut work = Lent::dirty(work_length, DIRTY_WORD);
    let mut answer = Lent::dirty(answer_length, DIRTY_NUMBER);
    let got = subject.grey_in(&case.file, n, out.cells(), work.cells(), answer.cells())?;

    check_returned(got, want)?;
    answer.check("answer", &mut want_answer)?;
    out.check("out", &mut want_out)?;
    work.check("work", &mut want_work)?;
    check_input("the file", &case.file, &before)?;
    let shape = Shape::judge(said.width, said.height, n).ok();
    Ok(Case::new(want, shape).sorted(case.sorts()))
}

/// A picture of this shape, or at times of sides that are not legal; a third
/// and more of all files are damaged.
fn grey_file(chance: &mut Chance, shape: Shape) -> GreyCase {
    let (w, h, pixels) = if chance.once_in(20) {
        let (w, h) = (chance.below(20), chance.below(20));
        (w, h, chance.bytes(w * h))
    } else {
        let (w, h) = (shape.width() as usize, shape.height() as usize);
        (w, h, any_picture(chance, shape))
    };
    let pieces = GreyPieces::any_writing(chance, &w.to_string(), &h.to_string(), pixels);
    GreyCase::of(chance, pieces, 40)
}

/// Lengths of pyramid and workspace: right, or at times one of them wrong.
pub fn grey_room(chance: &mut Chance, shape: Shape) -> (usize, usize) {
    let (area, least) = (shape.area(), shape.workspace());
    match chance.below(32) {
        0 => (area + 1, least),
        1 => (area - 1, least),
        2 => (chance.below(area + 1), chance.below(least + 1)),
        3 => (area, least - 1),
        4 => (area, chance.below(least + 1)),
        5..=8 => (area, least + chance.below(40)),
        _ => (area, least),
    }
}
