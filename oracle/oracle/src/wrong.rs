//! The four wrong roads, which are the last four rows of RULES 15.3, and two wrong merges more. A frame or a vector
//! on which one of them gives another answer is worth keeping.
use crate::exact::EXACT;
use crate::image::Image;
use crate::merge::{is_close, merge_where};
use crate::params::{is_off, Params};
use crate::pass::{Steps, STEPS};
use crate::search_box::{boxes_of, Boxes};
use chess_corners_core::{Corner, ResponseMap};

/// Merging by distance alone.
pub const BY_DISTANCE: Steps = Steps { merge: merge_by_distance, ..STEPS };

/// Seeds rounded half to even.
pub const HALF_TO_EVEN: Steps = Steps { boxes: boxes_half_to_even, ..STEPS };

/// Equal fifths taken for equal floats: peaks by whole fifths.
pub const EQUAL_FIFTHS: Steps = EXACT;

pub fn merge_by_distance(list: &[Corner], radius: f32) -> Vec<Corner> {
    if is_off(radius) {
        return list.to_vec();
    }
    merge_where(list, |a, b| is_close(a, b, radius))
}

fn merge_in_cells(list: &[Corner], radius: f32, cell: impl Fn(f32, f32) -> f32) -> Vec<Corner> {
    if is_off(radius) {
        return list.to_vec();
    }
    let left = list.iter().map(|c| c.x).fold(f32::INFINITY, f32::min);
    let top = list.iter().map(|c| c.y).fold(f32::INFINITY, f32::min);
    let near = |a: f32, b: f32, origin: f32| (cell(a, origin) as i64).abs_diff(cell(b, origin) as i64) <= 1;
    merge_where(list, |a, b| near(a.x, b.x, left) && near(a.y, b.y, top) && is_close(a, b, radius))
}

/// Cell numbers by dividing by the radius instead of multiplying by its reciprocal.
pub fn merge_by_division(list: &[Corner], radius: f32) -> Vec<Corner> {
    merge_in_cells(list, radius, |v, origin| (v - origin) / radius)
}

/// Cell numbers counted from 0 instead of the least coordinate.
pub fn merge_from_zero(list: &[Corner], radius: f32) -> Vec<Corner> {
    let inverse = 1.0 / radius;
    merge_in_cells(list, radius, |v, _| v * inverse)
}

fn boxes_half_to_even(base: Image, scale: f32, params: &Params, seeds: &[Corner]) -> Boxes {
    let even = |v: f32| (v / scale).round_ties_even() * scale;
    let moved: Vec<Corner> = seeds.iter().map(|c| Corner::new(even(c.x), even(c.y), c.strength)).collect();
    boxes_of(base, scale, params, &moved)
}

/// "Above the threshold" for "not at or below it": shows only where a cell is a NaN.
pub fn peaks_above(map: &ResponseMap, params: &Params) -> Vec<Corner> {
    let lifted = params.threshold.max(0.0);
    let list = crate::peaks::peaks_of(map, params);
    list.into_iter().filter(|c| c.strength > lifted).collect()
}
