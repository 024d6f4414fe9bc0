//! Layered coefficient records: a coder from a lent pyramid to a record, a
//! server that keeps some parts of a record without decoding it, a decoder
//! from any such record back to a pyramid.
//!
//! This is the second, separate implementation. It is written from the exact
//! rules (called "the rules" in the comments here) and from the published
//! FS-SPIHT steps, and shares no line with the product, so that a misreading
//! of the rules by either shows as a difference between the two.
//!
//! The modules follow the rules' sections:
//!
//! * [`refusal`]: the numbers that a call may come back with
//! * [`size`]: sizes, levels, planes
//! * [`family`]: offspring, and the sets D and L
//! * [`lists`], [`passes`]: the three lists of each level, and the passes
//! * [`layout`]: numbers, header, parts, packed bits
//! * [`reading`]: the walk over a record
//! * [`lifting`]: from a picture's numbers to a pyramid and back
//! * [`netpbm`]: grey files
//! * [`bound`]: how far a printed pixel can be from the recorded one
//! * [`coder`], [`server`], [`decoder`], [`survey`], [`joiner`], [`grey`],
//!   [`partlist`]: the calls
//! * [`portal`]: the same calls in the shape in which C sees them
//!
//! and for trying the product: [`generate`] makes pyramids and records,
//! [`compare`] compares, [`piped`] makes the calls of an archive that can't be
//! linked, [`openjpeg`] and [`plain`] give times to compare with, [`slip`] holds
//! the rules' "errors that look reasonable" so that the tests can be shown to
//! catch them.

pub mod bound;
pub mod coder;
pub mod compare;
pub mod decoder;
pub mod family;
pub mod generate;
pub mod grey;
pub mod joiner;
pub mod layout;
pub mod lifting;
pub mod lists;
pub mod netpbm;
pub mod openjpeg;
pub mod partlist;
pub mod passes;
pub mod piped;
pub mod plain;
pub mod portal;
pub mod reading;
pub mod refusal;
pub mod server;
pub mod size;
pub mod slip;
pub mod survey;

#[cfg(feature = "archive")]
pub mod archive;

pub use coder::{code, CodeAnswer};
pub use decoder::{decode, DecodeAnswer};
pub use grey::{grey_in, grey_out, grey_size, GreyInAnswer, GreyOutAnswer};
pub use joiner::{join, JoinAnswer};
pub use partlist::partlist;
pub use server::{serve, ServeAnswer};
pub use survey::{survey, SurveyAnswer};
