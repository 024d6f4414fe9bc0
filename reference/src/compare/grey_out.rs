//! Cases of the way back: pyramids of pictures, of records that lost something
//! or were never coded, of any numbers.

use super::coding::any_size_number;
use super::grey_in::grey_room;
use super::lent::*;
use super::{header_of, Case, Compared, Sizes, Stock, Subject, Wanted};
use crate::bound::pixel_most;
use crate::generate::pictures::{any_picture, pyramid_of};
use crate::generate::records::{any_record, of_any_count, strike_some, Count, Pieces, Whole};
use crate::generate::shapes::shape_of_case;
use crate::generate::{pyramids, Chance};
use crate::lifting::{halved, transform_back};
use crate::netpbm;
use crate::portal::GREY_OUT_ANSWER;
use crate::refusal::Cause;
use crate::size::{Shape, LARGEST_DECODED};

const OF_PICTURE: &str = "of a picture";
const OF_STRUCK: &str = "of a struck record";
const HALVED: &str = "halved";
const OF_ANY_RECORD: &str = "of any record";
const ANY_NUMBERS: &str = "any numbers";
const OVER: &str = "over 131,071";
const CLIPPED: &str = "clipped";
const NONE_CLIPPED: &str = "none clipped";

pub const SORTS: &[(&str, Wanted)] = &[
    (OF_PICTURE, Wanted::One),
    (OF_STRUCK, Wanted::One),
    (Count::Now.name(), Wanted::One),
    (Count::Earlier.name(), Wanted::One),
    (Count::More.name(), Wanted::One),
    (HALVED, Wanted::One),
    (OF_ANY_RECORD, Wanted::One),
    (ANY_NUMBERS, Wanted::One),
    (OVER, Wanted::One),
    (CLIPPED, Wanted::One),
    (NONE_CLIPPED, Wanted::One),
];

/// A pyramid, what it is, and what must be so where it is accepted.
struct Source {
    shape: Shape,
    pyramid: Vec<i32>,
    sorts: Vec<&'static str>,
    promise: Promise,
}

enum Promise {
    Nothing,
    /// It was decoded: its magnitudes are in range.
    Prints,
    /// The file's pixels are at most so far from these.
    Near {
        recorded: Vec<u8>,
        most: u64,
    },
}

fn source(chance: &mut Chance, case: u64, stock: &mut Stock) -> Source {
    let shape = shape_of_case(chance, case);
    match chance.weighted(&[4, 6, 5, 4, 2]) {
        0 => {
            let recorded = any_picture(chance, shape);
            Source {
                shape,
                pyramid: pyramid_of(&recorded, shape),
                sorts: vec![OF_PICTURE],
                promise: Promise::Near { recorded, most: 0 },
            }
        }
        1 => of_struck_record(chance, shape),
        2 => of_any_record(chance, stock.record(case)),
        3 => Source {
            shape,
            pyramid: any_numbers(chance, shape),
            sorts: vec![ANY_NUMBERS],
            promise: Promise::Nothing,
        },
        _ => Source {
            shape,
            pyramid: over(chance, shape),
            sorts: vec![OVER],
            promise: Promise::Nothing,
        },
    }
}

/// A picture's record with parts struck out, cut at times, decoded; printed
/// whole or halved.
fn of_struck_record(chance: &mut Chance, shape: Shape) -> Source {
    let pyramid = pyramid_of(&any_picture(chance, shape), shape);
    let whole = of_any_count(chance, &pyramid, shape);
    let mut pieces = Pieces::of(&whole.bytes);
    strike_some(chance, &mut pieces);
    let mut record = pieces.together();
    if chance.once_in(3) {
        let header: usize = pieces.header.iter().map(Vec::len).sum();
        record.truncate(header + chance.below(record.len() - header + 1));
    }
    let mut left = vec![0; shape.area()];
    let said = crate::decode(&record, &mut left, &mut vec![0; shape.workspace()]);
    assert_eq!(said.number, 0, "a selection is a record");
    let halvings = match chance.below(3) {
        0 => chance.below(shape.decompositions() as usize) as u32,
        _ => 0,
    };
    let (mut recorded, smaller) = halved(&pyramid, shape, halvings);
    transform_back(&mut recorded, smaller);
    Source {
        shape: smaller,
        pyramid: halved(&left, shape, halvings).0,
        sorts: if halvings > 0 {
            vec![OF_STRUCK, whole.count.name(), HALVED]
        } else {
            vec![OF_STRUCK, whole.count.name()]
        },
        promise: Promise::Near {
            recorded: recorded
                .into_iter()
                .map(crate::grey::nearest_grey)
                .collect(),
            most: pixel_most(&said.reached, shape.decompositions(), halvings),
        },
    }
}

/// What any bytes decode to that decoding accepts; those that it refuses are
/// taken without their harm.
fn of_any_record(chance: &mut Chance, base: &Whole) -> Source {
    let harmed = any_record(chance, &base.bytes);
    let (shape, pyramid) = decoded(&harmed)
        .or_else(|| decoded(&base.bytes))
        .expect("the stock's records are accepted");
    Source {
        shape,
        pyramid,
        sorts: vec![OF_ANY_RECORD, base.count.name()],
        promise: Promise::Prints,
    }
}

fn decoded(record: &[u8]) -> Option<(Shape, Vec<i32>)> {
    let shape = header_of(record)?.shape;
    let mut pyramid = vec![0; shape.area()];
    let said = crate::decode(record, &mut pyramid, &mut vec![0; shape.workspace()]);
    Some((shape, pyramid)).filter(|_| said.number == 0)
}

/// Magnitudes up to 131,071, at times nothing but these.
fn any_numbers(chance: &mut Chance, shape: Shape) -> Vec<i32> {
    let most = LARGEST_DECODED as i32;
    if chance.once_in(4) {
        let ends = [most, -most, most - 1, 0];
        return (0..shape.area()).map(|_| *chance.pick(&ends)).collect();
    }
    let bits = 1 + chance.below(17) as u32;
    pyramids::even(chance, shape, bits)
}

fn over(chance: &mut Chance, shape: Shape) -> Vec<i32> {
    let mut pyramid = any_numbers(chance, shape);
    let least = LARGEST_DECODED as i32 + 1;
    for _ in 0..1 + chance.below(3) {
        let at = chance.below(pyramid.len());
        pyramid[at] = *chance.pick(&[least, -least, i32::MIN, i32::MAX, i32::MIN + 1]);
    }
    pyramid
}

/// The numbers and lengths of a call.
struct Lengths {
    w: u64,
    h: u64,
    n: u64,
    out: usize,
    work: usize,
    answer: usize,
}

/// Right for the most part, with one or two things wrong at times; the pyramid
/// is made longer or shorter where its length is wrong.
fn lengths(chance: &mut Chance, source: &mut Source) -> Lengths {
    let shape = source.shape;
    let needed = netpbm::header(shape.width(), shape.height()).len() + shape.area();
    let (length, work) = grey_room(chance, shape);
    source.pyramid.resize(length, 1);
    let mut lengths = Lengths {
        w: shape.width().into(),
        h: shape.height().into(),
        n: shape.decompositions().into(),
        out: match chance.below(8) {
            0 => needed - 1,
            1 => chance.below(needed),
            2..=4 => needed + chance.below(40),
            _ => needed,
        },
        work,
        answer: answer_length(chance, GREY_OUT_ANSWER),
    };
    match chance.below(24) {
        0 => lengths.w = any_size_number(chance),
        1 => lengths.h = any_size_number(chance),
        2 => lengths.n = any_size_number(chance),
        _ => {}
    }
    lengths
}

pub(super) fn compare_grey_out(
    chance: &mut Chance,
    case: u64,
    stock: &mut Stock,
    subject: &dyn Subject,
) -> Compared {
    let mut source = source(chance, case, stock);
    let lengths = lengths(chance, &mut source);
    let Lengths { w, h, n, .. } = lengths;
    let before = source.pyramid.clone();

    let mut want_out = Lent::dirty(lengths.out, DIRTY_BYTE);
    let mut want_work = Lent::dirty(lengths.work, DIRTY_WORD);
    let said = crate::grey_out(&before, w, h, n, want_out.cells(), want_work.cells());
    let numbers = [said.number, said.place, said.length, said.clipped];
    let (want, mut want_answer) = expected_answer(lengths.answer, &numbers);
    if lengths.answer < numbers.len() {
        want_out.cells().fill(0);
    }

    let pyramid = &source.pyramid;
    let mut out = Lent::dirty(lengths.out, DIRTY_BYTE);
    let mut work = Lent::dirty(lengths.work, DIRTY_WORD);
    let mut answer = Lent::dirty(lengths.answer, DIRTY_NUMBER);
    let sizes = Sizes { w, h, n };
    let got = subject.grey_out(pyramid, sizes, out.cells(), work.cells(), answer.cells())?;

    check_returned(got, want)?;
    answer.check("answer", &mut want_answer)?;
    out.check("out", &mut want_out)?;
    work.check("work", &mut want_work)?;
    check_input("the pyramid", pyramid, &before)?;
    let shape = Shape::judge(w, h, n).ok();
    if shape == Some(source.shape) {
        let told = answer.cells();
        source.promise.check(got, told, out.cells())?;
    }
    if want == 0 {
        source.sorts.push(if said.clipped > 0 {
            CLIPPED
        } else {
            NONE_CLIPPED
        });
    }
    Ok(Case::new(want, shape).sorted(source.sorts))
}

impl Promise {
    /// What the call gave, its numbers being the pyramid's own.
    fn check(&self, got: u64, answer: &[u64], out: &[u8]) -> Result<(), String> {
        match self {
            Promise::Nothing => Ok(()),
            _ if got == Cause::Range as u64 => Err("what was decoded is out of range".to_string()),
            Promise::Near { recorded, most } if got == 0 => {
                let pixels = &out[answer[2] as usize - recorded.len()..answer[2] as usize];
                let pairs = pixels.iter().zip(recorded);
                let farthest = pairs.map(|(one, other)| one.abs_diff(*other)).max();
                match farthest {
                    Some(error) if u64::from(error) > *most => Err(format!(
                        "a pixel is {error} off, at most {most} by the planes"
                    )),
                    _ => Ok(()),
                }
            }
            _ => Ok(()),
        }
    }
}
