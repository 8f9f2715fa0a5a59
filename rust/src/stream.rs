//! The frame stream.
use crate::{library, raw, Params, Refusal};

/// The frame stream of an image of at most 96 by 96 pixels: the one stream that the program `corners` reads as these
/// sides, parameters and pixels. Threshold and merge radius are written bit for bit, a NaN's pattern included.
pub fn write_stream(image: &[u8], width: usize, height: usize, params: &Params) -> Result<Vec<u8>, Refusal> {
    let mut stream = vec![0; raw::LONGEST_STREAM];
    let length = library::write_stream(image, width, height, params, &mut stream)?;
    stream.truncate(length);
    Ok(stream)
}
