//! Pixels known between limits.
use crate::{is_large, library, Params, Refusal};

/// What the response of each cell can be, in fifths and in row order.
#[derive(Clone, Debug, Eq, PartialEq)]
pub struct ResponseLimits {
    pub lows: Vec<i32>,
    pub highs: Vec<i32>,
}

/// A low and a high number of fifths for each cell of an image of `width` by `height` pixels, each of which is known to
/// lie from its value in `low` up to its value in `high`. Five times the exact response, which is whole, of every image
/// between the two lies from the one up to the other.
pub fn response_limits(
    low: &[u8],
    high: &[u8],
    width: usize,
    height: usize,
    ring: u32,
) -> Result<ResponseLimits, Refusal> {
    let cells = if is_large(width, height) { 0 } else { width * height };
    let (mut lows, mut highs) = (vec![0; cells], vec![0; cells]);
    library::response_limits(low, high, width, height, ring, &mut lows, &mut highs)?;
    Ok(ResponseLimits { lows, highs })
}

/// Whether the place of column `x` and row `y` is a sure peak of two maps of limits: with those of [`response_limits`]
/// by the same ring it is then a peak, by exact values, of every image between the two. The threshold is a whole
/// response, and of the parameters `ring`, `window`, `least_neighbours` and `centroid_radius` matter. Both maps have
/// exactly `width` times `height` numbers.
pub fn sure_peak(
    lows: &[i32],
    highs: &[i32],
    width: usize,
    height: usize,
    params: &Params,
    threshold: u32,
    x: usize,
    y: usize,
) -> Result<bool, Refusal> {
    library::sure_peak(lows, highs, width, height, params, threshold, x, y)
}
