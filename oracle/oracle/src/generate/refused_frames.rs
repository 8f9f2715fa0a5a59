//! Faulty frames of the library with the number that RULES 2 gives them, written by hand.
use super::images::whole_case;
use crate::buffers::Sizes;
use crate::image::Image;
use crate::params::{Params, PLAIN};
use crate::refusal::Refusal;

/// A frame with its buffers' lengths and the number due; 0 where it is not refused.
#[derive(Clone)]
pub struct Case {
    pub name: &'static str,
    pub number: Refusal,
    pub width: usize,
    pub height: usize,
    pub pixels: Vec<u8>,
    pub params: Params,
    pub sizes: Sizes,
}

impl Case {
    pub fn image(&self) -> Image<'_> {
        Image { pixels: &self.pixels, width: self.width, height: self.height }
    }
}

/// A flat frame of two levels with a change: 12 by 12, 144 cells, 36 level pixels.
fn flat(name: &'static str, number: Refusal, change: fn(&mut Case)) -> Case {
    let mut case = Case {
        name,
        number,
        width: 12,
        height: 12,
        pixels: vec![50; 144],
        params: Params { merge: 3.0, levels: 2, ..PLAIN },
        sizes: Sizes { map: 144, levels: 36, seeds: [4; 4], corners: [4; 4] },
    };
    change(&mut case);
    case
}

/// The whole case (RULES 14) with other buffers: one corner.
fn one_corner(name: &'static str, number: Refusal, sizes: Sizes) -> Case {
    let params = Params { merge: 3.0, minimum: 1, ..PLAIN };
    Case { name, number, width: 11, height: 11, pixels: whole_case(), params, sizes }
}

/// A frame without pixels.
fn empty(name: &'static str, number: Refusal, width: usize, height: usize) -> Case {
    let base = flat(name, number, |case| case.pixels.clear());
    Case { width, height, ..base }
}

/// 1 and 2.
fn sides() -> Vec<Case> {
    let largest = u32::MAX as usize;
    vec![
        flat("sound", 0, |_| {}),
        empty("sides of 4,096 and 0", 0, 4096, 0),
        empty("sides of 0 and 4,096", 0, 0, 4096),
        empty("width 4,097", 1, 4097, 0),
        empty("height 4,097", 1, 0, 4097),
        empty("both sides the largest u32", 1, largest, largest),
        empty("no pixels", 2, 12, 12),
        flat("a pixel missing", 2, |c| c.pixels.truncate(143)),
        flat("a pixel too many", 2, |c| c.pixels.push(50)),
        flat("a pixel missing and ring 4", 2, |c| {
            c.pixels.truncate(143);
            c.params.ring = 4;
        }),
    ]
}

/// 3 and 5.
fn parameters() -> Vec<Case> {
    vec![
        flat("ring 4", 3, |c| c.params.ring = 4),
        flat("ring 0", 3, |c| c.params.ring = 0),
        flat("ring 261", 3, |c| c.params.ring = 261),
        flat("window 17", 3, |c| c.params.window = 17),
        flat("window the largest u32", 3, |c| c.params.window = u32::MAX),
        flat("centroid radius 17", 3, |c| c.params.centroid = 17),
        flat("search radius 256", 3, |c| c.params.search = 256),
        flat("all at their limits", 0, |c| {
            (c.params.window, c.params.centroid, c.params.search) = (16, 16, 255);
        }),
        flat("search radius 256 and merge radius 5,000", 3, |c| {
            (c.params.search, c.params.merge) = (256, 5000.0);
        }),
        flat("merge radius 5,000", 5, |c| c.params.merge = 5000.0),
        flat("merge radius 5,000 without levels", 5, |c| {
            (c.params.merge, c.params.levels) = (5000.0, 0);
        }),
        flat("merge radius 5,000 and no map", 5, |c| (c.params.merge, c.sizes.map) = (5000.0, 0)),
    ]
}

/// 8, 9 and 10.
fn buffers() -> Vec<Case> {
    let just = Sizes { map: 121, levels: 0, seeds: [0; 4], corners: [1; 4] };
    let unequal = Sizes { map: 130, levels: 5, seeds: [1, 2, 3, 2], corners: [3, 1, 2, 4] };
    vec![
        flat("map too short", 8, |c| c.sizes.map = 143),
        flat("map too short without levels", 8, |c| (c.sizes.map, c.params.levels) = (143, 0)),
        flat("map and levels too short", 8, |c| (c.sizes.map, c.sizes.levels) = (143, 35)),
        flat("levels too short", 9, |c| c.sizes.levels = 35),
        flat("no levels and no buffer for them", 0, |c| (c.params.levels, c.sizes.levels) = (0, 0)),
        flat("no list and no place for one", 0, |c| (c.sizes.seeds, c.sizes.corners) = ([0; 4], [0; 4])),
        one_corner("whole case", 0, just),
        one_corner("unequal slices", 0, unequal),
        one_corner("no place for a corner", 10, Sizes { corners: [0; 4], ..just }),
        one_corner("one slice without a place", 10, Sizes { corners: [3, 0, 2, 4], ..unequal }),
        one_corner("no place for the neighbours", 10, Sizes { corners: [3, 1, 2, 0], ..unequal }),
        one_corner("map too short and no place for a corner", 8, Sizes { map: 120, corners: [0; 4], ..just }),
    ]
}

/// Each refusal of a frame, alone and with higher ones.
pub fn cases() -> Vec<Case> {
    [sides(), parameters(), buffers()].into_iter().flatten().collect()
}
