//! Stub module over the three original files.
pub mod detect;
pub mod response;
pub mod ring;
