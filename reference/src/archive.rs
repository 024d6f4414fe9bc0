//! The product's archive, libportal.a, linked under the feature `archive`.

use crate::compare::{Call, Memory, Returned, Sizes, Subject};

// Takes no part in the program: it makes cargo notice a new archive.
const _: &[u8] = include_bytes!(concat!(
    env!(
        "PORTAL_DIR",
        "PORTAL_DIR must name the directory of libportal.a"
    ),
    "/libportal.a"
));

#[link(name = "portal", kind = "static")]
extern "C" {
    fn afs_code(
        pyramid: *const i32,
        pyramid_len: usize,
        w: u64,
        h: u64,
        n: u64,
        out: *mut u8,
        out_len: usize,
        work: *mut u32,
        work_len: usize,
        answer: *mut u64,
        answer_len: usize,
    ) -> u64;

    fn afs_serve(
        record: *const u8,
        record_len: usize,
        level: u64,
        plane: u64,
        out: *mut u8,
        out_len: usize,
        answer: *mut u64,
        answer_len: usize,
    ) -> u64;

    fn afs_decode(
        record: *const u8,
        record_len: usize,
        out: *mut i32,
        out_len: usize,
        work: *mut u32,
        work_len: usize,
        answer: *mut u64,
        answer_len: usize,
    ) -> u64;

    fn afs_join(
        first: *const u8,
        first_len: usize,
        second: *const u8,
        second_len: usize,
        out: *mut u8,
        out_len: usize,
        answer: *mut u64,
        answer_len: usize,
    ) -> u64;

    fn afs_survey(record: *const u8, record_len: usize, answer: *mut u64, answer_len: usize)
        -> u64;

    fn afs_grey_size(file: *const u8, file_len: usize, answer: *mut u64, answer_len: usize) -> u64;

    fn afs_grey_in(
        file: *const u8,
        file_len: usize,
        n: u64,
        out: *mut i32,
        out_len: usize,
        work: *mut u32,
        work_len: usize,
        answer: *mut u64,
        answer_len: usize,
    ) -> u64;

    fn afs_grey_out(
        pyramid: *const i32,
        pyramid_len: usize,
        w: u64,
        h: u64,
        n: u64,
        out: *mut u8,
        out_len: usize,
        work: *mut u32,
        work_len: usize,
        answer: *mut u64,
        answer_len: usize,
    ) -> u64;
}

/// The archive's calls.
pub struct Archive;

/// An exported call: of each slice its address and length.
macro_rules! exported {
    ($name:ident, [$($read:ident),*], [$($number:ident),*], [$($lent:ident),*]) => {
        $name(
            $($read.as_ptr(), $read.len(),)*
            $($number,)*
            $($lent.as_mut_ptr(), $lent.len()),*
        )
    };
}

impl Subject for Archive {
    fn call(&self, call: Call, memory: &mut Memory) -> Returned {
        let Memory {
            bytes,
            coefficients,
            work,
            answer,
        } = memory;
        // The pointers and lengths are those of slices that live through the
        // call, and the borrow checker keeps them apart, as the calls ask.
        Ok(unsafe {
            match call {
                Call::Code(pyramid, Sizes { w, h, n }) => {
                    exported!(afs_code, [pyramid], [w, h, n], [bytes, work, answer])
                }
                Call::Serve {
                    record,
                    level,
                    plane,
                } => exported!(afs_serve, [record], [level, plane], [bytes, answer]),
                Call::Decode(record) => {
                    exported!(afs_decode, [record], [], [coefficients, work, answer])
                }
                Call::Survey(record) => exported!(afs_survey, [record], [], [answer]),
                Call::Join { first, second } => {
                    exported!(afs_join, [first, second], [], [bytes, answer])
                }
                Call::GreySize(file) => exported!(afs_grey_size, [file], [], [answer]),
                Call::GreyIn { file, n } => {
                    exported!(afs_grey_in, [file], [n], [coefficients, work, answer])
                }
                Call::GreyOut(pyramid, Sizes { w, h, n }) => {
                    exported!(afs_grey_out, [pyramid], [w, h, n], [bytes, work, answer])
                }
            }
        })
    }
}
