//! Who makes the calls, and what a call is.

use crate::portal;
use crate::size::Shape;

/// What a call returned, or why it couldn't be made.
pub type Returned = Result<u64, String>;

/// A call, with what it reads.
#[derive(Clone, Copy)]
pub enum Call<'a> {
    Code(&'a [i32], Sizes),
    Serve {
        record: &'a [u8],
        level: u64,
        plane: u64,
    },
    Decode(&'a [u8]),
    Survey(&'a [u8]),
    Join {
        first: &'a [u8],
        second: &'a [u8],
    },
    GreySize(&'a [u8]),
    GreyIn {
        file: &'a [u8],
        n: u64,
    },
    GreyOut(&'a [i32], Sizes),
}

/// W, H and N as a caller gives them.
#[derive(Clone, Copy)]
pub struct Sizes {
    pub w: u64,
    pub h: u64,
    pub n: u64,
}

impl Sizes {
    pub fn of(shape: Shape) -> Sizes {
        Sizes {
            w: shape.width().into(),
            h: shape.height().into(),
            n: shape.decompositions().into(),
        }
    }
}

/// What a call writes to; what it isn't lent is empty.
#[derive(Default)]
pub struct Memory<'a> {
    pub bytes: &'a mut [u8],
    pub coefficients: &'a mut [i32],
    pub work: &'a mut [u32],
    pub answer: &'a mut [u64],
}

impl<'a> Memory<'a> {
    fn of_bytes(bytes: &'a mut [u8], work: &'a mut [u32], answer: &'a mut [u64]) -> Memory<'a> {
        Memory {
            bytes,
            work,
            answer,
            ..Memory::default()
        }
    }

    fn of_coefficients(
        coefficients: &'a mut [i32],
        work: &'a mut [u32],
        answer: &'a mut [u64],
    ) -> Memory<'a> {
        Memory {
            coefficients,
            work,
            answer,
            ..Memory::default()
        }
    }

    fn of_answer(answer: &'a mut [u64]) -> Memory<'a> {
        Memory {
            answer,
            ..Memory::default()
        }
    }
}

/// What is compared with the library: whoever can make a call.
pub trait Subject {
    fn call(&self, call: Call, memory: &mut Memory) -> Returned;

    fn code(
        &self,
        pyramid: &[i32],
        sizes: Sizes,
        out: &mut [u8],
        work: &mut [u32],
        answer: &mut [u64],
    ) -> Returned {
        let mut memory = Memory::of_bytes(out, work, answer);
        self.call(Call::Code(pyramid, sizes), &mut memory)
    }

    fn serve(
        &self,
        record: &[u8],
        level: u64,
        plane: u64,
        out: &mut [u8],
        answer: &mut [u64],
    ) -> Returned {
        let call = Call::Serve {
            record,
            level,
            plane,
        };
        self.call(call, &mut Memory::of_bytes(out, &mut [], answer))
    }

    fn decode(
        &self,
        record: &[u8],
        out: &mut [i32],
        work: &mut [u32],
        answer: &mut [u64],
    ) -> Returned {
        let mut memory = Memory::of_coefficients(out, work, answer);
        self.call(Call::Decode(record), &mut memory)
    }

    fn survey(&self, record: &[u8], answer: &mut [u64]) -> Returned {
        self.call(Call::Survey(record), &mut Memory::of_answer(answer))
    }

    fn join(&self, first: &[u8], second: &[u8], out: &mut [u8], answer: &mut [u64]) -> Returned {
        let mut memory = Memory::of_bytes(out, &mut [], answer);
        self.call(Call::Join { first, second }, &mut memory)
    }

    fn grey_size(&self, file: &[u8], answer: &mut [u64]) -> Returned {
        self.call(Call::GreySize(file), &mut Memory::of_answer(answer))
    }

    fn grey_in(
        &self,
        file: &[u8],
        n: u64,
        out: &mut [i32],
        work: &mut [u32],
        answer: &mut [u64],
    ) -> Returned {
        let mut memory = Memory::of_coefficients(out, work, answer);
        self.call(Call::GreyIn { file, n }, &mut memory)
    }

    fn grey_out(
        &self,
        pyramid: &[i32],
        sizes: Sizes,
        out: &mut [u8],
        work: &mut [u32],
        answer: &mut [u64],
    ) -> Returned {
        let mut memory = Memory::of_bytes(out, work, answer);
        self.call(Call::GreyOut(pyramid, sizes), &mut memory)
    }
}

/// The library itself, through [`portal`]: tries the portal, and the
/// comparison.
pub struct Own;

impl Subject for Own {
    fn call(&self, call: Call, memory: &mut Memory) -> Returned {
        let Memory {
            bytes,
            coefficients,
            work,
            answer,
        } = memory;
        Ok(match call {
            Call::Code(pyramid, Sizes { w, h, n }) => {
                portal::afs_code(pyramid, w, h, n, bytes, work, answer)
            }
            Call::Serve {
                record,
                level,
                plane,
            } => portal::afs_serve(record, level, plane, bytes, answer),
            Call::Decode(record) => portal::afs_decode(record, coefficients, work, answer),
            Call::Survey(record) => portal::afs_survey(record, answer),
            Call::Join { first, second } => portal::afs_join(first, second, bytes, answer),
            Call::GreySize(file) => portal::afs_grey_size(file, answer),
            Call::GreyIn { file, n } => portal::afs_grey_in(file, n, coefficients, work, answer),
            Call::GreyOut(pyramid, Sizes { w, h, n }) => {
                portal::afs_grey_out(pyramid, w, h, n, bytes, work, answer)
            }
        })
    }
}
