//! How far a centroid may be off, in whole numbers: each coordinate within 1/32 pixel of the exact centroid (RULES 33).
use crate::numbers::rounded;

/// The exact centroid is (x / mass, y / mass), weighed by the exact values above 0 of all cells that the centroid sums,
/// the centre included (RULES 33.1).
#[derive(Clone, Copy, Debug, PartialEq, Eq)]
pub struct ExactCentroid {
    pub x: i128,
    pub y: i128,
    pub mass: i128,
}

/// The exact centroid of the window about a seed, which is rounded half away from zero; the window lies within the map.
pub fn exact_centroid(fifths: &[i32], width: usize, radius: u32, seed: (f32, f32)) -> ExactCentroid {
    let reach = i64::from(radius);
    let (column, row) = (rounded(seed.0).round, rounded(seed.1).round);
    let mut exact = ExactCentroid { x: 0, y: 0, mass: 0 };
    for y in row - reach..=row + reach {
        for x in column - reach..=column + reach {
            let weight = i128::from(fifths[y as usize * width + x as usize].max(0));
            exact.x += i128::from(x) * weight;
            exact.y += i128::from(y) * weight;
            exact.mass += weight;
        }
    }
    exact
}

/// Coordinates are counted in this part of a pixel: 2^-64.
const PIXEL: i128 = 1 << 64;

/// A coordinate as a whole number of these parts; one below 2^-40 need not be any.
fn in_parts(coordinate: f32) -> Option<i128> {
    let parts = f64::from(coordinate) * PIXEL as f64;
    (parts.is_finite() && parts.fract() == 0.0).then_some(parts as i128)
}

/// How far a coordinate is from moment / mass: the distance times mass, in parts.
fn distance(coordinate: f32, moment: i128, mass: i128) -> Option<i128> {
    in_parts(coordinate).map(|parts| (parts * mass - moment * PIXEL).abs())
}

/// The larger distance of the two coordinates in pixels, or nothing where one is not within 1/32.
pub fn deviation(got: (f32, f32), exact: &ExactCentroid) -> Option<f64> {
    let within = |distance: &i128| exact.mass > 0 && 32 * distance <= exact.mass * PIXEL;
    let across = distance(got.0, exact.x, exact.mass).filter(within)?;
    let down = distance(got.1, exact.y, exact.mass).filter(within)?;
    Some(across.max(down) as f64 / (exact.mass * PIXEL) as f64)
}

#[cfg(test)]
mod tests {
    use super::*;
    use crate::numbers::next_away;

    #[test]
    fn weights_are_the_fifths_above_0() {
        let fifths = [0, -9, 2, 0, 1, 0, 0, 0, 5];
        let about_the_middle = exact_centroid(&fifths, 3, 1, (0.5, 1.25));
        assert_eq!(about_the_middle, ExactCentroid { x: 2 * 2 + 1 + 5 * 2, y: 1 + 5 * 2, mass: 8 });
        assert_eq!(exact_centroid(&fifths, 3, 0, (2.4, 1.5)), ExactCentroid { x: 10, y: 10, mass: 5 });
    }

    #[test]
    fn a_32nd_is_within_and_the_next_float_is_not() {
        let exact = ExactCentroid { x: 30, y: 24, mass: 3 };
        assert_eq!(deviation((10.0, 8.0), &exact), Some(0.0));
        assert_eq!(deviation((10.03125, 7.96875), &exact), Some(0.03125));
        assert_eq!(deviation((next_away(10.03125), 8.0), &exact), None);
        assert_eq!(deviation((10.0, f32::NAN), &exact), None);
        assert_eq!(deviation((10.0, 8.0), &ExactCentroid { x: 0, y: 0, mass: 0 }), None);
    }
}
