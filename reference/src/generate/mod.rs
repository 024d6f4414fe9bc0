//! Seeded generators of pyramids, records, pictures and grey files, for tests
//! and comparisons.
//!
//! They use whole numbers only, so that a seed gives the same cases on every
//! machine.

pub mod chance;
pub mod grey_files;
pub mod pairs;
pub mod pictures;
pub mod pyramids;
pub mod records;
pub mod shapes;
pub mod waterfall;

pub use chance::Chance;
