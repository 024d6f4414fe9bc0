//! Cases of coding.

use super::lent::*;
use super::{Case, Compared, Sizes, Subject};
use crate::generate::shapes::shape_of_case;
use crate::generate::{pyramids, records, Chance};
use crate::portal::CODE_ANSWER;
use crate::size::{Shape, LARGEST_MAGNITUDE};

/// Sizes that are not legal, and legal ones that another size makes wrong.
pub fn any_size_number(chance: &mut Chance) -> u64 {
    *chance.pick(&[
        0,
        1,
        2,
        3,
        4,
        5,
        6,
        8,
        12,
        62,
        64,
        96,
        128,
        510,
        511,
        512,
        513,
        516,
        576,
        1024,
        1 << 31,
        (1 << 32) + 1,
        (1 << 32) + 4,
        (1 << 32) + 64,
        1 << 63,
        u64::MAX,
    ])
}

struct CodeCase {
    pyramid: Vec<i32>,
    w: u64,
    h: u64,
    n: u64,
    out: usize,
    work: usize,
    answer: usize,
}

/// A pyramid that is coded, and at times one or two things wrong with it.
fn code_case(chance: &mut Chance, case: u64) -> CodeCase {
    let shape = shape_of_case(chance, case);
    let mut case = CodeCase {
        pyramid: pyramids::any_pyramid(chance, shape),
        w: shape.width().into(),
        h: shape.height().into(),
        n: shape.decompositions().into(),
        out: records::room_for(shape),
        work: shape.workspace() + chance.below(3) * chance.below(20),
        answer: answer_length(chance, CODE_ANSWER),
    };
    if chance.once_in(3) {
        fit_room(chance, shape, &mut case);
    }
    let wrongs = [0, 0, 1, 1, 2][chance.below(5)];
    for _ in 0..wrongs {
        do_wrong(chance, &mut case);
    }
    case
}

/// Output that is just long enough, or nearly.
fn fit_room(chance: &mut Chance, shape: Shape, case: &mut CodeCase) {
    let needed = records::whole(&case.pyramid, shape).len();
    case.out = match chance.below(4) {
        0 => needed,
        1 => needed - 1,
        2 => chance.below(needed),
        _ => needed + chance.below(9),
    };
}

fn do_wrong(chance: &mut Chance, case: &mut CodeCase) {
    match chance.below(6) {
        0 => case.w = any_size_number(chance),
        1 => case.h = any_size_number(chance),
        2 => case.n = any_size_number(chance),
        3 => {
            let length = match chance.below(3) {
                0 => case.pyramid.len() + 1,
                1 => case.pyramid.len() - 1,
                _ => chance.below(2 * case.pyramid.len()),
            };
            case.pyramid.resize(length, 1);
        }
        4 => {
            case.work = match chance.below(2) {
                0 => case.pyramid.len() * 4 - usize::from(!case.pyramid.is_empty()),
                _ => chance.below(case.work + 1),
            }
        }
        _ => {
            let least = LARGEST_MAGNITUDE as i32 + 1;
            for _ in 0..1 + chance.below(3) {
                if !case.pyramid.is_empty() {
                    let at = chance.below(case.pyramid.len());
                    case.pyramid[at] =
                        *chance.pick(&[least, -least, i32::MIN, i32::MAX, i32::MIN + 1]);
                }
            }
        }
    }
}

pub fn compare_code(chance: &mut Chance, case: u64, subject: &dyn Subject) -> Compared {
    let case = code_case(chance, case);
    let CodeCase { w, h, n, .. } = case;

    let mut want_out = Lent::dirty(case.out, DIRTY_BYTE);
    let mut want_work = Lent::dirty(case.work, DIRTY_WORD);
    let said = crate::code(&case.pyramid, w, h, n, want_out.cells(), want_work.cells());
    let numbers = [said.number, said.place, said.length];
    let (want, mut want_answer) = expected_answer(case.answer, &numbers);
    if case.answer < numbers.len() {
        want_out.cells().fill(0);
    }

    let pyramid = case.pyramid.clone();
    let mut out = Lent::dirty(case.out, DIRTY_BYTE);
    let mut work = Lent::dirty(case.work, DIRTY_WORD);
    let mut answer = Lent::dirty(case.answer, DIRTY_NUMBER);
    let sizes = Sizes { w, h, n };
    let got = subject.code(&pyramid, sizes, out.cells(), work.cells(), answer.cells())?;

    check_returned(got, want)?;
    answer.check("answer", &mut want_answer)?;
    out.check("out", &mut want_out)?;
    work.check("work", &mut want_work)?;
    check_input("the pyramid", &pyramid, &case.pyramid)?;
    Ok(Case::new(want, Shape::judge(w, h, n).ok()))
}
