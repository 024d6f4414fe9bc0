//! The calls in the shape in which C sees them: the answer goes to the front
//! of a lent slice of 64-bit numbers, with 0 after it, and its first number is
//! also returned. A slice shorter than the answer gives ROOM before any other
//! check, with the slice, the output and the workspace all 0.

use crate::refusal::Cause;

/// Number, place, length.
pub const CODE_ANSWER: usize = 3;
/// Number, place, length, tail length.
pub const SERVE_ANSWER: usize = 4;
/// Number, place, tail length, six reached planes, six counts of parts that
/// are there and not usable.
pub const DECODE_ANSWER: usize = 15;
/// Number, place, length.
pub const JOIN_ANSWER: usize = 3;
/// Number, place, W, H, N, planes, whole parts, tail length.
pub const SURVEY_ANSWER: usize = 8;
/// Number, place, width, height.
pub const GREY_IN_ANSWER: usize = 4;
/// Number, place, length, pixels set to the nearer end.
pub const GREY_OUT_ANSWER: usize = 4;

#[allow(clippy::too_many_arguments)]
pub fn afs_code(
    pyramid: &[i32],
    w: u64,
    h: u64,
    n: u64,
    out: &mut [u8],
    work: &mut [u32],
    answer: &mut [u64],
) -> u64 {
    if answer.len() < CODE_ANSWER {
        out.fill(0);
        work.fill(0);
        return no_room_for(answer);
    }
    let said = crate::code(pyramid, w, h, n, out, work);
    put(answer, &[said.number, said.place, said.length])
}

pub fn afs_serve(record: &[u8], level: u64, plane: u64, out: &mut [u8], answer: &mut [u64]) -> u64 {
    if answer.len() < SERVE_ANSWER {
        out.fill(0);
        return no_room_for(answer);
    }
    let said = crate::serve(record, level, plane, out);
    put(answer, &[said.number, said.place, said.length, said.tail])
}

pub fn afs_decode(record: &[u8], out: &mut [i32], work: &mut [u32], answer: &mut [u64]) -> u64 {
    if answer.len() < DECODE_ANSWER {
        out.fill(0);
        work.fill(0);
        return no_room_for(answer);
    }
    put(answer, &crate::decode(record, out, work).numbers())
}

pub fn afs_join(first: &[u8], second: &[u8], out: &mut [u8], answer: &mut [u64]) -> u64 {
    if answer.len() < JOIN_ANSWER {
        out.fill(0);
        return no_room_for(answer);
    }
    let said = crate::join(first, second, out);
    put(answer, &[said.number, said.place, said.length])
}

pub fn afs_survey(record: &[u8], answer: &mut [u64]) -> u64 {
    if answer.len() < SURVEY_ANSWER {
        return no_room_for(answer);
    }
    put(answer, &crate::survey(record).numbers())
}

pub fn afs_grey_size(file: &[u8], answer: &mut [u64]) -> u64 {
    if answer.len() < GREY_IN_ANSWER {
        return no_room_for(answer);
    }
    let said = crate::grey_size(file);
    put(answer, &[said.number, said.place, said.width, said.height])
}

pub fn afs_grey_in(
    file: &[u8],
    n: u64,
    out: &mut [i32],
    work: &mut [u32],
    answer: &mut [u64],
) -> u64 {
    if answer.len() < GREY_IN_ANSWER {
        out.fill(0);
        work.fill(0);
        return no_room_for(answer);
    }
    let said = crate::grey_in(file, n, out, work);
    put(answer, &[said.number, said.place, said.width, said.height])
}

#[allow(clippy::too_many_arguments)]
pub fn afs_grey_out(
    pyramid: &[i32],
    w: u64,
    h: u64,
    n: u64,
    out: &mut [u8],
    work: &mut [u32],
    answer: &mut [u64],
) -> u64 {
    if answer.len() < GREY_OUT_ANSWER {
        out.fill(0);
        work.fill(0);
        return no_room_for(answer);
    }
    let said = crate::grey_out(pyramid, w, h, n, out, work);
    put(
        answer,
        &[said.number, said.place, said.length, said.clipped],
    )
}

fn put(answer: &mut [u64], numbers: &[u64]) -> u64 {
    let (front, rest) = answer.split_at_mut(numbers.len());
    front.copy_from_slice(numbers);
    rest.fill(0);
    numbers[0]
}

/// The refusal is only returned: the slice, too short for it, is all 0.
fn no_room_for(answer: &mut [u64]) -> u64 {
    answer.fill(0);
    Cause::Room as u64
}
