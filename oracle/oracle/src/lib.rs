//! The rules (../../../docs/RULES.md, cited as RULES) composed from the original functions: what our corner finder must
//! answer, and what it must leave in every buffer. See ../../README.md.
//!
//! - The leaves, each the original function behind the checks that RULES 2.4 puts before it: [`ring`], [`response`],
//!   [`peaks`], [`centroid`], [`search_box`], [`pyramid`], [`merge`], [`naive`].
//! - What the rules add: [`pass`] and [`frame`], [`stream`], [`listing`], [`program`]; and [`exact`], the pass by
//!   exact values, with [`tolerance`], the centroid by them.
//! - What the oracle is run on: [`generate`], [`wrong`], [`sample`], [`compare`], [`timing`].

pub mod buffers;
pub mod centroid;
pub mod compare;
pub mod exact;
pub mod frame;
pub mod generate;
pub mod image;
pub mod listing;
pub mod merge;
pub mod naive;
pub mod numbers;
pub mod params;
pub mod pass;
pub mod peaks;
pub mod program;
pub mod pyramid;
pub mod refusal;
pub mod response;
pub mod ring;
pub mod sample;
pub mod search_box;
pub mod stream;
pub mod tally;
pub mod timing;
pub mod tolerance;
pub mod wrong;

pub use chess_corners_core::{Corner, ResponseMap};
