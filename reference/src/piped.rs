//! The product's archive behind two pipes: a program that links it makes the
//! calls that are written to it (`host/piped_calls.c` says in which form), so
//! that a machine that can't link the archive can compare it all the same.

use crate::compare::{Call, Memory, Returned, Sizes, Subject};
use std::cell::RefCell;
use std::io::{self, Read, Write};
use std::path::Path;
use std::process::{ChildStdin, ChildStdout, Command, Stdio};

/// The calls of whoever reads what is written and answers it.
pub struct Piped<W, R> {
    calls: RefCell<W>,
    answers: RefCell<R>,
}

impl Piped<ChildStdin, ChildStdout> {
    /// The program ends with its input, when this is dropped.
    pub fn through(program: &Path) -> io::Result<Self> {
        let mut child = Command::new(program)
            .stdin(Stdio::piped())
            .stdout(Stdio::piped())
            .spawn()?;
        let calls = child.stdin.take().expect("the input is a pipe");
        let answers = child.stdout.take().expect("the output is a pipe");
        Ok(Piped::between(calls, answers))
    }
}

impl<W: Write, R: Read> Piped<W, R> {
    pub fn between(calls: W, answers: R) -> Self {
        Piped {
            calls: RefCell::new(calls),
            answers: RefCell::new(answers),
        }
    }

    /// The answer to a call; it has one unless the program has failed.
    fn answer(&self, call: &Written) -> Result<Answer, String> {
        let mut bytes = vec![0; NUMBER + call.lent];
        self.exchange(&call.bytes, &mut bytes)
            .map_err(|error| format!("no answer to the call: {error}"))?;
        Ok(Answer { bytes, read: 0 })
    }

    /// The program reads a whole call before it answers, so neither waits for
    /// the other.
    fn exchange(&self, call: &[u8], answer: &mut [u8]) -> io::Result<()> {
        let mut calls = self.calls.borrow_mut();
        calls.write_all(call)?;
        calls.flush()?;
        self.answers.borrow_mut().read_exact(answer)
    }
}

impl<W: Write, R: Read> Subject for Piped<W, R> {
    fn call(&self, call: Call, memory: &mut Memory) -> Returned {
        let mut written = Written::head(call);
        for input in Input::of(call) {
            match input {
                Input::Bytes(_, bytes) => written.lend(bytes),
                Input::Pyramid(pyramid) => written.lend(pyramid),
            }
        }
        let uses = Uses::of(call);
        if uses.bytes {
            written.lend(memory.bytes);
        }
        if uses.coefficients {
            written.lend(memory.coefficients);
        }
        if uses.work {
            written.lend(memory.work);
        }
        written.lend(memory.answer);

        let mut told = self.answer(&written)?;
        let returned = told.number();
        for input in Input::of(call) {
            match input {
                Input::Bytes(name, bytes) => told.check_same(name, bytes)?,
                Input::Pyramid(pyramid) => told.check_same("the pyramid", pyramid)?,
            }
        }
        // What a call isn't lent is empty, and nothing is told of it.
        told.take(memory.bytes);
        told.take(memory.coefficients);
        told.take(memory.work);
        told.take(memory.answer);
        Ok(returned)
    }
}

/// What a call only reads.
enum Input<'a> {
    Bytes(&'static str, &'a [u8]),
    Pyramid(&'a [i32]),
}

impl<'a> Input<'a> {
    /// In their order.
    fn of(call: Call<'a>) -> Vec<Input<'a>> {
        match call {
            Call::Code(pyramid, _) | Call::GreyOut(pyramid, _) => vec![Input::Pyramid(pyramid)],
            Call::Serve { record, .. } | Call::Decode(record) | Call::Survey(record) => {
                vec![Input::Bytes("the record", record)]
            }
            Call::Join { first, second } => vec![
                Input::Bytes("the first record", first),
                Input::Bytes("the second record", second),
            ],
            Call::GreySize(file) | Call::GreyIn { file, .. } => {
                vec![Input::Bytes("the file", file)]
            }
        }
    }
}

/// What a call is lent to write to beside its answer, be it empty.
struct Uses {
    bytes: bool,
    coefficients: bool,
    work: bool,
}

impl Uses {
    fn of(call: Call) -> Uses {
        let copies = matches!(call, Call::Serve { .. } | Call::Join { .. });
        let bytes = copies || matches!(call, Call::Code(..) | Call::GreyOut(..));
        let coefficients = matches!(call, Call::Decode(_) | Call::GreyIn { .. });
        Uses {
            bytes,
            coefficients,
            work: (bytes || coefficients) && !copies,
        }
    }
}

/// Bytes of a number between stretches of memory.
const NUMBER: usize = 8;

/// A call as it is written, and how many bytes of memory it lends.
struct Written {
    bytes: Vec<u8>,
    lent: usize,
}

impl Written {
    /// Its letter and its numbers.
    fn head(call: Call) -> Written {
        let (letter, numbers) = match call {
            Call::Code(_, Sizes { w, h, n }) => (b'c', vec![w, h, n]),
            Call::Serve { level, plane, .. } => (b's', vec![level, plane]),
            Call::Decode(_) => (b'd', vec![]),
            Call::Survey(_) => (b'v', vec![]),
            Call::Join { .. } => (b'j', vec![]),
            Call::GreySize(_) => (b'g', vec![]),
            Call::GreyIn { n, .. } => (b'i', vec![n]),
            Call::GreyOut(_, Sizes { w, h, n }) => (b'o', vec![w, h, n]),
        };
        let mut bytes = vec![letter];
        numbers.iter().for_each(|number| number.put(&mut bytes));
        Written { bytes, lent: 0 }
    }

    fn lend<T: Cell>(&mut self, memory: &[T]) {
        let size = memory.len() * T::SIZE;
        (size as u64).put(&mut self.bytes);
        memory.iter().for_each(|cell| cell.put(&mut self.bytes));
        self.lent += size;
    }
}

/// An answer, and how much of it is read.
struct Answer {
    bytes: Vec<u8>,
    read: usize,
}

impl Answer {
    fn number(&mut self) -> u64 {
        u64::get(self.next(NUMBER))
    }

    fn take<T: Cell>(&mut self, memory: &mut [T]) {
        let told = self.next(memory.len() * T::SIZE);
        for (cell, bytes) in memory.iter_mut().zip(told.chunks_exact(T::SIZE)) {
            *cell = T::get(bytes);
        }
    }

    /// What is only lent to be read must come back as it was.
    fn check_same<T: Cell>(&mut self, name: &str, memory: &[T]) -> Result<(), String> {
        let told = self.next(memory.len() * T::SIZE);
        let mut pairs = memory.iter().zip(told.chunks_exact(T::SIZE));
        if pairs.all(|(cell, bytes)| *cell == T::get(bytes)) {
            Ok(())
        } else {
            Err(format!("{name} was written to"))
        }
    }

    fn next(&mut self, size: usize) -> &[u8] {
        let from = self.read;
        self.read += size;
        &self.bytes[from..self.read]
    }
}

/// What memory is made of, in a pipe lowest byte first.
trait Cell: PartialEq {
    const SIZE: usize;
    fn put(&self, bytes: &mut Vec<u8>);
    fn get(bytes: &[u8]) -> Self;
}

macro_rules! cells {
    ($($cell:ty)*) => {
        $(impl Cell for $cell {
            const SIZE: usize = std::mem::size_of::<$cell>();

            fn put(&self, bytes: &mut Vec<u8>) {
                bytes.extend_from_slice(&self.to_le_bytes());
            }

            fn get(bytes: &[u8]) -> Self {
                <$cell>::from_le_bytes(bytes.try_into().expect("a cell"))
            }
        })*
    };
}

cells!(u8 i32 u32 u64);
