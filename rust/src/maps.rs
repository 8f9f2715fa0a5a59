//! Response maps.
use crate::{is_large, library, Params, Refusal};
use std::ops::Range;

/// The responses of a box, in row order.
#[derive(Clone, Debug, PartialEq)]
pub struct ResponseMap {
    pub width: usize,
    pub height: usize,
    pub cells: Vec<f32>,
}

/// The responses of the columns `across` of the rows `down` of an image, clipped to it, by a ring of radius 5 or 10.
pub fn response(
    image: &[u8],
    width: usize,
    height: usize,
    ring: u32,
    across: Range<usize>,
    down: Range<usize>,
) -> Result<ResponseMap, Refusal> {
    let side = |range: &Range<usize>, n: usize| range.end.min(n).saturating_sub(range.start);
    let places = if is_large(width, height) { 0 } else { side(&across, width) * side(&down, height) };
    let mut cells = vec![0.0; places];
    let (width, height) = library::response(image, width, height, ring, across, down, &mut cells)?;
    cells.truncate(width * height);
    Ok(ResponseMap { width, height, cells })
}

/// Changes the pixel of column `x` and row `y` to `value`, and computes those cells of the image's `map` again whose
/// samples contain it and that are not within a ring radius of the edge. Answers how many they are, at most 21. A map
/// that was the whole image's by that ring is so again; any other gets those cells and no more.
pub fn retouch(
    image: &mut [u8],
    width: usize,
    height: usize,
    ring: u32,
    map: &mut [f32],
    x: usize,
    y: usize,
    value: u8,
) -> Result<usize, Refusal> {
    library::retouch(image, width, height, ring, map, x, y, value)
}

/// Whether a map has so many peaks, and how many rows inside the border were looked at to know it.
#[derive(Clone, Copy, Debug, Eq, PartialEq)]
pub struct Enough {
    pub enough: bool,
    pub rows: usize,
}

/// Whether a response map of `width` by `height` cells has at least `wanted` peaks. Of the parameters those up to
/// `centroid_radius` matter.
pub fn has_peaks(
    map: &[f32],
    width: usize,
    height: usize,
    params: &Params,
    wanted: usize,
) -> Result<Enough, Refusal> {
    library::has_peaks(map, width, height, params, wanted)
}
