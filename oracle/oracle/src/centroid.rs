//! `CenterOfMassRefiner::refine`: the response-weighted centroid around a seed.
use crate::image::check_map;
use crate::params::{Params, PLAIN};
use crate::refusal::{refuse_if, Refusal, COORDINATE, LARGEST_SIDE, PARAMETER};
pub use chess_corners_core::RefineStatus as Outcome;
use chess_corners_core::{
    refine_corners_on_image, CenterOfMassRefiner, Corner, CornerRefiner, RefineContext, ResponseMap,
};

/// The outcome with its own floats: the centroid and its mass, or the unmoved seed and 0.
#[derive(Clone, Copy, Debug)]
pub struct Centroid {
    pub outcome: Outcome,
    pub x: f32,
    pub y: f32,
    pub mass: f32,
}

/// A map for the centroid: cells in row order and the sides that are claimed for them.
#[derive(Clone, Copy, Debug)]
pub struct Map<'a> {
    pub cells: &'a [f32],
    pub width: usize,
    pub height: usize,
}

fn refiner(radius: u32) -> CenterOfMassRefiner {
    let params = Params { centroid: radius, ..PLAIN };
    CenterOfMassRefiner::new(params.chess().center_of_mass)
}

/// The corners of a map's peaks: a peak that the centroid does not accept is dropped.
pub fn centroids(list: Vec<Corner>, map: &ResponseMap, radius: u32) -> Vec<Corner> {
    refine_corners_on_image(list, None, Some(map), &mut refiner(radius))
}

/// A seed that is not finite or beyond 1,000,000 either way (RULES 2.2, number 4).
fn seed_refused(v: f32) -> bool {
    !v.is_finite() || v.abs() > 1_000_000.0
}

/// The centroid around a seed, or refusal 1, 2, 3 or 4; without a map, 1 and 2 are not judged.
pub fn refine(radius: u32, x: f32, y: f32, map: Option<Map>) -> Result<Centroid, Refusal> {
    if let Some(m) = map {
        check_map(m.cells.len(), m.width, m.height, LARGEST_SIDE)?;
    }
    refuse_if(radius > 16, PARAMETER)?;
    refuse_if(seed_refused(x) || seed_refused(y), COORDINATE)?;
    let map = map.map(|m| ResponseMap::new(m.width, m.height, m.cells.to_vec()));
    Ok(refine_on(radius, x, y, map.as_ref()))
}

/// The same with nothing to refuse.
pub fn refine_on(radius: u32, x: f32, y: f32, map: Option<&ResponseMap>) -> Centroid {
    let result = refiner(radius).refine([x, y], RefineContext::new(None, map));
    Centroid { outcome: result.status, x: result.x, y: result.y, mass: result.score }
}

#[cfg(test)]
mod tests {
    use super::*;

    #[test]
    fn the_four_outcomes() {
        let mut cells = vec![0.0; 25];
        cells[2 * 5 + 3] = 4.0;
        let map = Some(Map { cells: &cells, width: 5, height: 5 });
        let at = |x, y, radius| refine(radius, x, y, map).unwrap();
        let accepted = at(2.0, 2.0, 1);
        assert_eq!(accepted.outcome, Outcome::Accepted);
        assert_eq!((accepted.x, accepted.y, accepted.mass), (3.0, 2.0, 4.0));
        assert_eq!(at(1.0, 3.0, 1).outcome, Outcome::IllConditioned);
        assert_eq!(at(0.4, 3.0, 1).outcome, Outcome::OutOfBounds);
        let none = refine(1, 2.25, -7.0, None).unwrap();
        assert_eq!(none.outcome, Outcome::Rejected);
        assert_eq!((none.x, none.y, none.mass), (2.25, -7.0, 0.0));
    }

    #[test]
    fn refusals_come_before_outcomes() {
        let map = Some(Map { cells: &[0.0], width: 1, height: 2 });
        assert_eq!(refine(17, f32::NAN, 0.0, map).unwrap_err(), 2);
        assert_eq!(refine(17, f32::NAN, 0.0, None).unwrap_err(), 3);
        assert_eq!(refine(16, f32::NAN, 0.0, None).unwrap_err(), 4);
    }
}
