//! `bench [RUNS [SIDE]]`: times of coder, server, joiner and decoder, and of
//! pictures in and out, N = 5, on squares of side 512, and how they grow from 64; or on
//! squares of SIDE alone. With the feature `archive` also the archive's, with
//! `openjpeg` also OpenJPEG's for the same picture, with `plain_c` also those of
//! lifting in plain C; all on the same input, in turns.

mod pictures;
mod times;

use pictures::{bench_pictures, bench_pictures_growth};
use reference::compare::{Sizes, Subject};
use reference::generate::{pyramids, records, waterfall, Chance};
use reference::lifting::{halved, transform_back};
use reference::openjpeg::{Jpeg2000, SquarePicture};
use reference::portal::{CODE_ANSWER, DECODE_ANSWER, JOIN_ANSWER, SERVE_ANSWER};
use reference::size::Shape;
use times::{print_growth, print_heading, Row};

#[cfg(feature = "openjpeg")]
const OPENJPEG: Option<&dyn Jpeg2000> = Some(&reference::openjpeg::OpenJpeg);
#[cfg(not(feature = "openjpeg"))]
const OPENJPEG: Option<&dyn Jpeg2000> = None;

const SEED: u64 = 1;
const DECOMPOSITIONS: u64 = 5;
const SIDES: [u64; 4] = [64, 128, 256, 512];
/// What is served and decoded: all of it, coarser levels, higher planes.
const REQUESTS: [(u64, u64); 7] = [(1, 0), (2, 0), (3, 0), (4, 0), (1, 1), (1, 2), (1, 3)];

fn main() {
    let arguments: Vec<String> = std::env::args().skip(1).collect();
    match parse(&arguments) {
        Some((runs, Some(shape))) => {
            bench_one(runs, shape);
            bench_pictures(runs, shape);
        }
        Some((runs, None)) => {
            let largest = square(512).expect("512 is legal");
            bench_one(runs, largest);
            bench_pictures(runs, largest);
            bench_growth(runs);
            bench_pictures_growth(runs);
        }
        None => {
            eprintln!("usage: bench [RUNS [SIDE]], SIDE a multiple of 64 up to 512");
            std::process::exit(2);
        }
    }
}

fn parse(arguments: &[String]) -> Option<(usize, Option<Shape>)> {
    let (runs, side) = match arguments {
        [] => (40, None),
        [runs] => (runs.parse().ok()?, None),
        [runs, side] => (runs.parse().ok()?, Some(square(side.parse().ok()?)?)),
        _ => return None,
    };
    Some((runs, side)).filter(|_| runs > 0)
}

fn square(side: u64) -> Option<Shape> {
    Shape::judge(side, side, DECOMPOSITIONS).ok()
}

/// What is tried: as coding finds it, and as no coder likes it.
fn samples(shape: Shape) -> [Sample; 2] {
    let random = pyramids::even(&mut Chance::new(SEED), shape, 8);
    let waterfall = waterfall::pyramid(&mut Chance::new(SEED), shape);
    [
        Sample::new("waterfall", shape, waterfall),
        Sample::new("random, magnitudes to 255", shape, random),
    ]
}

fn bench_one(runs: usize, shape: Shape) {
    println!(
        "{} x {}, N = {DECOMPOSITIONS}, {runs} runs each, in turns; microseconds and ratios, least / median",
        shape.width(),
        shape.height()
    );
    for mut sample in samples(shape) {
        sample.print_name();
        print_heading(OPENJPEG.map(|_| "OpenJPEG"));
        sample.code(runs).print("code", sample.record.len());
        for (level, plane) in REQUESTS {
            let length = sample.served_length(level, plane);
            let row = sample.serve(runs, level, plane);
            row.print(&format!("serve r = {level}, p = {plane}"), length);
        }
        sample
            .join(runs)
            .print("join two halves", sample.record.len());
        for (level, plane) in REQUESTS {
            let length = sample.served_length(level, plane);
            let row = sample.decode(runs, level, plane);
            row.print(&format!("decode r = {level}, p = {plane}"), length);
        }
    }
}

/// Rows of one call each, a column a side.
fn bench_growth(runs: usize) {
    println!("nanoseconds a coefficient, least, by side: {SIDES:?}");
    let mut by_side: Vec<[Sample; 2]> = SIDES
        .iter()
        .map(|&side| samples(square(side).expect("each side is legal")))
        .collect();
    for kind in 0..2 {
        println!("{}", by_side[0][kind].name);
        let mut of_each = |timed: &dyn Fn(&mut Sample) -> Row| -> Vec<(usize, Row)> {
            let samples = by_side.iter_mut().map(|sides| &mut sides[kind]);
            samples
                .map(|sample| (sample.shape.area(), timed(sample)))
                .collect()
        };
        print_growth("code", "OpenJPEG", &of_each(&|sample| sample.code(runs)));
        let served = of_each(&|sample| sample.serve(runs, 1, 0));
        print_growth("serve", "OpenJPEG", &served);
        let decoded = of_each(&|sample| sample.decode(runs, 1, 0));
        print_growth("decode", "OpenJPEG", &decoded);
    }
}

/// A pyramid with its record, its picture and codestream, and all that is
/// lent, made once.
struct Sample {
    name: &'static str,
    shape: Shape,
    pyramid: Vec<i32>,
    record: Vec<u8>,
    picture: SquarePicture,
    codestream: Vec<u8>,
    bytes: Vec<u8>,
    coefficients: Vec<i32>,
    work: Vec<u32>,
}

impl Sample {
    fn new(name: &'static str, shape: Shape, pyramid: Vec<i32>) -> Sample {
        let mut sample = Sample {
            name,
            shape,
            record: records::whole(&pyramid, shape),
            picture: SquarePicture::of_pyramid(&pyramid, shape),
            codestream: Vec::new(),
            bytes: vec![0; records::room_for(shape)],
            coefficients: vec![0; shape.area()],
            work: vec![0; shape.workspace()],
            pyramid,
        };
        if let Some(codec) = OPENJPEG {
            let length = codec.encode(&sample.picture, &mut sample.bytes);
            sample.codestream = sample.bytes[..length].to_vec();
            sample.check_pictures(codec);
        }
        sample
    }

    /// What JPEG 2000 gives with the side halved is the picture of the
    /// pyramid's coarser levels, so that the two do decode the same. It keeps
    /// samples within their precision; a coarser picture can go beyond.
    fn check_pictures(&mut self, codec: &dyn Jpeg2000) {
        let limit = 1 << (self.picture.precision - 1);
        for halvings in 0..self.shape.decompositions() {
            let count = codec.decode(&self.codestream, halvings, &mut self.coefficients);
            let mut coarser = self.coarser_picture(halvings);
            for sample in &mut coarser {
                *sample = (*sample).clamp(-limit, limit - 1);
            }
            assert!(coarser == self.coefficients[..count], "the same picture");
        }
    }

    fn coarser_picture(&self, halvings: u32) -> Vec<i32> {
        let (mut coarser, smaller) = halved(&self.pyramid, self.shape, halvings);
        transform_back(&mut coarser, smaller);
        coarser
    }

    fn print_name(&self) {
        let bits = |length: usize| 8.0 * length as f64 / self.shape.area() as f64;
        let (record, codestream) = (self.record.len(), self.codestream.len());
        print!(
            "{}: record {record} bytes, {:.3} bits a coefficient",
            self.name,
            bits(record)
        );
        if OPENJPEG.is_some() {
            print!("; JPEG 2000 {codestream} bytes, {:.3}", bits(codestream));
        }
        println!();
    }

    fn served_length(&mut self, level: u64, plane: u64) -> usize {
        reference::serve(&self.record, level, plane, &mut self.bytes).length as usize
    }

    fn code(&mut self, runs: usize) -> Row {
        let sizes = Sizes::of(self.shape);
        let (pyramid, picture) = (&self.pyramid, &self.picture);
        let (bytes, work) = (&mut self.bytes, &mut self.work);
        let mut codestream = vec![0; bytes.len()];
        let row = Row::take(
            runs,
            |subject| {
                let mut answer = [0; CODE_ANSWER];
                subject.code(pyramid, sizes, bytes, work, &mut answer)
            },
            OPENJPEG,
            |codec| codec.encode(picture, &mut codestream),
        );
        let record = &self.record;
        assert!(bytes.starts_with(record), "the last one coded the same");
        row
    }

    fn serve(&mut self, runs: usize, level: u64, plane: u64) -> Row {
        let out = &mut self.bytes[..self.record.len()];
        let record = &self.record;
        let call = |subject: &dyn Subject| {
            let mut answer = [0; SERVE_ANSWER];
            subject.serve(record, level, plane, out, &mut answer)
        };
        Row::take(runs, call, None, |()| 0)
    }

    /// Each half has every second part.
    fn join(&mut self, runs: usize) -> Row {
        let halves = [0, 1].map(|half| {
            let (mut left, mut at) = (records::Pieces::of(&self.record), 0);
            left.strike(|_, _| {
                at += 1;
                at % 2 == half
            });
            left.together()
        });
        let out = &mut self.bytes[..self.record.len()];
        let call = |subject: &dyn Subject| {
            let mut answer = [0; JOIN_ANSWER];
            subject.join(&halves[0], &halves[1], out, &mut answer)
        };
        let row = Row::take(runs, call, None, |()| 0);
        let whole = self.bytes.starts_with(&self.record);
        assert!(whole, "the last one joined is the record");
        row
    }

    /// JPEG 2000 has no request for planes: it decodes whole, or with the side
    /// halved.
    fn decode(&mut self, runs: usize, level: u64, plane: u64) -> Row {
        let length = self.served_length(level, plane);
        let served = &self.bytes[..length];
        let (coefficients, work) = (&mut self.coefficients, &mut self.work);
        let codestream = &self.codestream;
        let mut samples = vec![0; self.shape.area()];
        let halvings = level as u32 - 1;
        Row::take(
            runs,
            |subject| {
                let mut answer = [0; DECODE_ANSWER];
                subject.decode(served, coefficients, work, &mut answer)
            },
            OPENJPEG.filter(|_| plane == 0),
            |codec| codec.decode(codestream, halvings, &mut samples),
        )
    }
}
