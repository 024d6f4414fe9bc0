//! Pictures in and out: the way in and the way back beside lifting in plain C;
//! from a grey file to a record and back beside OpenJPEG from and to a grey file.

use crate::times::{print_growth, print_heading, Row};
use crate::{square, DECOMPOSITIONS, OPENJPEG, SEED, SIDES};
use reference::compare::{Returned, Sizes, Subject};
use reference::generate::pictures::{picture, pyramid_of, PictureKind};
use reference::generate::{records, Chance};
use reference::netpbm;
use reference::openjpeg::{Jpeg2000, SquarePicture};
use reference::plain::{self, Lifting};
use reference::portal::{CODE_ANSWER, DECODE_ANSWER, GREY_IN_ANSWER, GREY_OUT_ANSWER};
use reference::size::Shape;

#[cfg(feature = "plain_c")]
const PLAIN_C: Option<&dyn Lifting> = Some(&plain::PlainC);
#[cfg(not(feature = "plain_c"))]
const PLAIN_C: Option<&dyn Lifting> = None;

const KINDS: [(&str, PictureKind); 2] = [
    ("waterfall", PictureKind::Waterfall),
    ("noise", PictureKind::Noise),
];

pub fn bench_pictures(runs: usize, shape: Shape) {
    for (name, kind) in KINDS {
        let mut sample = GreySample::new(shape, kind);
        let (file, record) = (sample.file.len(), sample.record.len());
        println!("picture of {name}: file {file} bytes, record {record} bytes");
        print_heading(PLAIN_C.map(|_| "plain C"));
        sample.way_in(runs).print("file to pyramid", file);
        sample.way_back(runs).print("pyramid to file", file);
        print_heading(OPENJPEG.map(|_| "OpenJPEG"));
        sample.file_to_record(runs).print("file to record", record);
        sample.record_to_file(runs).print("record to file", record);
    }
}

pub fn bench_pictures_growth(runs: usize) {
    println!("nanoseconds a pixel, least, by side: {SIDES:?}");
    for (name, kind) in KINDS {
        println!("picture of {name}");
        let mut samples: Vec<GreySample> = SIDES
            .iter()
            .map(|&side| GreySample::new(square(side).expect("each side is legal"), kind))
            .collect();
        let mut of_each = |timed: &dyn Fn(&mut GreySample) -> Row| -> Vec<(usize, Row)> {
            let rows = samples.iter_mut();
            rows.map(|sample| (sample.shape.area(), timed(sample)))
                .collect()
        };
        let rows = of_each(&|sample| sample.way_in(runs));
        print_growth("to pyramid", "plain C", &rows);
        let rows = of_each(&|sample| sample.way_back(runs));
        print_growth("to file", "plain C", &rows);
        let rows = of_each(&|sample| sample.file_to_record(runs));
        print_growth("file to record", "OpenJPEG", &rows);
        let rows = of_each(&|sample| sample.record_to_file(runs));
        print_growth("record to file", "OpenJPEG", &rows);
    }
}

/// A grey file, its pyramid, record and codestream, and all that is lent, made
/// once.
struct GreySample {
    shape: Shape,
    file: Vec<u8>,
    pyramid: Vec<i32>,
    record: Vec<u8>,
    codestream: Vec<u8>,
    bytes: Vec<u8>,
    coefficients: Vec<i32>,
    work: Vec<u32>,
}

impl GreySample {
    fn new(shape: Shape, kind: PictureKind) -> GreySample {
        let pixels = picture(&mut Chance::new(SEED), shape, kind);
        let pyramid = pyramid_of(&pixels, shape);
        let mut sample = GreySample {
            shape,
            file: netpbm::file(shape.width(), shape.height(), &pixels),
            record: records::whole(&pyramid, shape),
            pyramid,
            codestream: Vec::new(),
            bytes: vec![0; records::room_for(shape)],
            coefficients: vec![0; shape.area()],
            work: vec![0; shape.workspace()],
        };
        if let Some(codec) = OPENJPEG {
            let length = encode(codec, &sample.file, &mut sample.bytes);
            sample.codestream = sample.bytes[..length].to_vec();
            let mut back = vec![0; sample.file.len()];
            decode(codec, &sample.codestream, shape, &mut back);
            assert!(back == sample.file, "the same picture");
        }
        sample
    }

    fn way_in(&mut self, runs: usize) -> Row {
        let (shape, file) = (self.shape, &self.file);
        let pixels = pixels_of(file);
        let mut split = vec![0; shape.area()];
        let mut lines = vec![0; plain::workspace(shape)];
        let (coefficients, work) = (&mut self.coefficients, &mut self.work);
        let row = Row::take(
            runs,
            |subject| grey_in(subject, file, coefficients, work),
            PLAIN_C,
            |lifting| {
                lifting.split(pixels, shape, &mut split, &mut lines);
                split.len()
            },
        );
        assert!(*coefficients == self.pyramid, "the last one made the same");
        assert!(PLAIN_C.is_none() || split == self.pyramid, "so did plain C");
        row
    }

    fn way_back(&mut self, runs: usize) -> Row {
        let (shape, pyramid) = (self.shape, &self.pyramid);
        let mut joined = vec![0; shape.area()];
        let mut lines = vec![0; plain::workspace(shape)];
        let (bytes, work) = (&mut self.bytes[..self.file.len()], &mut self.work);
        let row = Row::take(
            runs,
            |subject| grey_out(subject, pyramid, shape, bytes, work),
            PLAIN_C,
            |lifting| {
                let clipped = lifting.join(pyramid, shape, &mut joined, &mut lines);
                joined.len() - clipped
            },
        );
        assert!(*bytes == self.file[..], "the last one made the same");
        assert!(
            PLAIN_C.is_none() || joined == pixels_of(bytes),
            "so did plain C"
        );
        row
    }

    fn file_to_record(&mut self, runs: usize) -> Row {
        let (shape, file) = (self.shape, &self.file);
        let sizes = Sizes::of(shape);
        let mut codestream = vec![0; self.bytes.len()];
        let (bytes, work) = (&mut self.bytes, &mut self.work);
        let coefficients = &mut self.coefficients;
        let row = Row::take(
            runs,
            |subject| {
                grey_in(subject, file, coefficients, work)?;
                let mut answer = [0; CODE_ANSWER];
                subject.code(coefficients, sizes, bytes, work, &mut answer)
            },
            OPENJPEG,
            |codec| encode(codec, file, &mut codestream),
        );
        assert!(
            bytes.starts_with(&self.record),
            "the last one coded the same"
        );
        row
    }

    fn record_to_file(&mut self, runs: usize) -> Row {
        let (shape, record, codestream) = (self.shape, &self.record, &self.codestream);
        let mut back = vec![0; self.file.len()];
        let (bytes, work) = (&mut self.bytes[..self.file.len()], &mut self.work);
        let coefficients = &mut self.coefficients;
        let row = Row::take(
            runs,
            |subject| {
                let mut answer = [0; DECODE_ANSWER];
                subject.decode(record, coefficients, work, &mut answer)?;
                grey_out(subject, coefficients, shape, bytes, work)
            },
            OPENJPEG,
            |codec| decode(codec, codestream, shape, &mut back),
        );
        assert!(*bytes == self.file[..], "the last one made the same");
        row
    }
}

fn pixels_of(file: &[u8]) -> &[u8] {
    netpbm::read(file).expect("a grey file").pixels
}

fn grey_in(
    subject: &dyn Subject,
    file: &[u8],
    coefficients: &mut [i32],
    work: &mut [u32],
) -> Returned {
    let mut answer = [0; GREY_IN_ANSWER];
    subject.grey_in(file, DECOMPOSITIONS, coefficients, work, &mut answer)
}

fn grey_out(
    subject: &dyn Subject,
    pyramid: &[i32],
    shape: Shape,
    bytes: &mut [u8],
    work: &mut [u32],
) -> Returned {
    let mut answer = [0; GREY_OUT_ANSWER];
    subject.grey_out(pyramid, Sizes::of(shape), bytes, work, &mut answer)
}

fn encode(codec: &dyn Jpeg2000, file: &[u8], out: &mut [u8]) -> usize {
    codec.encode(&SquarePicture::of_file(file, DECOMPOSITIONS as u32), out)
}

/// The grey file of a codestream's picture; how many bytes it has.
fn decode(codec: &dyn Jpeg2000, codestream: &[u8], shape: Shape, out: &mut [u8]) -> usize {
    let mut samples = vec![0; shape.area()];
    let count = codec.decode(codestream, 0, &mut samples);
    let pixels: Vec<u8> = samples[..count]
        .iter()
        .map(|&sample| sample as u8)
        .collect();
    let file = netpbm::file(shape.width(), shape.height(), &pixels);
    out.copy_from_slice(&file);
    file.len()
}
