//! OpenJPEG's lossless JPEG 2000, linked under the feature `openjpeg` through
//! the host's bench/openjpeg.c, for the benchmark.

use crate::lifting::transform_back;
use crate::netpbm;
use crate::size::Shape;

/// A codec of square pictures.
pub trait Jpeg2000 {
    /// The codestream's length.
    fn encode(&self, picture: &SquarePicture, out: &mut [u8]) -> usize;

    /// How many samples there are, the side halved so many times.
    fn decode(&self, codestream: &[u8], halvings: u32, out: &mut [i32]) -> usize;
}

/// A picture as JPEG 2000 takes it.
pub struct SquarePicture {
    pub samples: Vec<i32>,
    pub side: u32,
    /// Bits of a sample, its sign included.
    pub precision: u32,
    pub is_signed: bool,
    pub decompositions: u32,
}

impl SquarePicture {
    /// Of a grey file, each sample a byte.
    pub fn of_file(file: &[u8], decompositions: u32) -> SquarePicture {
        let grey = netpbm::read(file).expect("a grey file");
        assert_eq!(grey.width, grey.height, "the picture is square");
        SquarePicture {
            samples: grey.pixels.iter().map(|&pixel| pixel.into()).collect(),
            side: grey.width as u32,
            precision: 8,
            is_signed: false,
            decompositions,
        }
    }

    /// The picture whose 5/3 transform is a pyramid. As its samples are signed,
    /// JPEG 2000 shifts no level, and codes just the pyramid's coefficients.
    pub fn of_pyramid(pyramid: &[i32], shape: Shape) -> SquarePicture {
        assert_eq!(shape.width(), shape.height(), "the pyramid is square");
        let mut samples = pyramid.to_vec();
        transform_back(&mut samples, shape);
        let magnitudes = samples.iter().map(|sample| sample.unsigned_abs());
        let largest = magnitudes.max().expect("a picture has samples");
        SquarePicture {
            samples,
            side: shape.width(),
            precision: u32::BITS - largest.leading_zeros() + 1,
            is_signed: true,
            decompositions: shape.decompositions(),
        }
    }
}

#[cfg(feature = "openjpeg")]
pub use linked::OpenJpeg;

#[cfg(feature = "openjpeg")]
mod linked {
    use super::{Jpeg2000, SquarePicture};

    #[link(name = "openjpeg_for_bench", kind = "static")]
    extern "C" {
        fn openjpeg_encode(
            samples: *const i32,
            side: u32,
            precision: u32,
            is_signed: u32,
            decompositions: u32,
            out: *mut u8,
            room: usize,
        ) -> usize;

        fn openjpeg_decode(
            codestream: *const u8,
            length: usize,
            halvings: u32,
            out: *mut i32,
            room: usize,
        ) -> usize;
    }

    #[link(name = "openjp2")]
    extern "C" {}

    pub struct OpenJpeg;

    // The pointers and lengths are those of slices that live through the call.
    impl Jpeg2000 for OpenJpeg {
        fn encode(&self, picture: &SquarePicture, out: &mut [u8]) -> usize {
            assert_eq!(picture.samples.len(), picture.side.pow(2) as usize);
            unsafe {
                openjpeg_encode(
                    picture.samples.as_ptr(),
                    picture.side,
                    picture.precision,
                    picture.is_signed.into(),
                    picture.decompositions,
                    out.as_mut_ptr(),
                    out.len(),
                )
            }
        }

        fn decode(&self, codestream: &[u8], halvings: u32, out: &mut [i32]) -> usize {
            unsafe {
                openjpeg_decode(
                    codestream.as_ptr(),
                    codestream.len(),
                    halvings,
                    out.as_mut_ptr(),
                    out.len(),
                )
            }
        }
    }
}
