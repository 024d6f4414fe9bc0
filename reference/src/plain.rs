//! Lifting in plain C, linked under the feature `plain_c`: the host's
//! bench/lifting.c, for the benchmark.

use crate::size::Shape;

/// How many numbers of workspace it wants.
pub fn workspace(shape: Shape) -> usize {
    2 * shape.area() + 3 * shape.width() as usize
}

/// Lifting from bytes to a pyramid, and back.
pub trait Lifting {
    fn split(&self, pixels: &[u8], shape: Shape, out: &mut [i32], work: &mut [i32]);

    /// How many pixels were set to the nearer end.
    fn join(&self, pyramid: &[i32], shape: Shape, out: &mut [u8], work: &mut [i32]) -> usize;
}

#[cfg(feature = "plain_c")]
pub use linked::PlainC;

#[cfg(feature = "plain_c")]
mod linked {
    use super::{workspace, Lifting};
    use crate::size::Shape;

    #[link(name = "lifting_for_bench", kind = "static")]
    extern "C" {
        fn plain_split(
            pixels: *const u8,
            width: usize,
            height: usize,
            turns: usize,
            out: *mut i32,
            work: *mut i32,
        );

        fn plain_join(
            pyramid: *const i32,
            width: usize,
            height: usize,
            turns: usize,
            out: *mut u8,
            work: *mut i32,
        ) -> usize;
    }

    pub struct PlainC;

    // All slices are as long as the calls want them, and live through them.
    impl Lifting for PlainC {
        fn split(&self, pixels: &[u8], shape: Shape, out: &mut [i32], work: &mut [i32]) {
            let (w, h, n) = numbers(shape);
            assert_eq!((pixels.len(), out.len()), (w * h, w * h));
            assert!(work.len() >= workspace(shape));
            unsafe {
                plain_split(
                    pixels.as_ptr(),
                    w,
                    h,
                    n,
                    out.as_mut_ptr(),
                    work.as_mut_ptr(),
                )
            }
        }

        fn join(&self, pyramid: &[i32], shape: Shape, out: &mut [u8], work: &mut [i32]) -> usize {
            let (w, h, n) = numbers(shape);
            assert_eq!((pyramid.len(), out.len()), (w * h, w * h));
            assert!(work.len() >= workspace(shape));
            unsafe {
                plain_join(
                    pyramid.as_ptr(),
                    w,
                    h,
                    n,
                    out.as_mut_ptr(),
                    work.as_mut_ptr(),
                )
            }
        }
    }

    fn numbers(shape: Shape) -> (usize, usize, usize) {
        (
            shape.width() as usize,
            shape.height() as usize,
            shape.decompositions() as usize,
        )
    }
}
