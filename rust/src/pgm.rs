//! Uploaded photographs.
use crate::{library, Refusal};

/// The sides of an uploaded photograph, and its pixels.
#[derive(Clone, Copy, Debug, Eq, PartialEq)]
pub struct Pgm<'a> {
    pub width: usize,
    pub height: usize,
    pub pixels: &'a [u8],
}

/// The pixels of an uploaded photograph, a binary PGM (P5) with a maxval of 255, as a part of the upload, and its
/// sides.
pub fn read_pgm(upload: &[u8]) -> Result<Pgm<'_>, Refusal> {
    let (at, (width, height)) = library::pgm(upload)?;
    Ok(Pgm { width, height, pixels: &upload[at..at + width * height] })
}
