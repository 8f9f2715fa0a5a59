//! The pass by exact values: each map's peaks are chosen by whole fifths, everything else is computed.
use crate::params::Params;
use crate::pass::{Steps, View, STEPS};
use crate::peaks::neighbours_of;
use crate::ring::{offsets, CROSS};
use chess_corners_core::{Corner, ResponseMap};

/// The exact value of one response in fifths: 5(SR - DR) - |5 ring sum - 16 cross sum|.
pub fn fifths_of(samples: &[i32; 16], cross_sum: i32) -> i32 {
    let s = samples;
    let sr: i32 = (0..4).map(|k| (s[k] + s[k + 8] - s[k + 4] - s[k + 12]).abs()).sum();
    let dr: i32 = (0..8).map(|k| (s[k] - s[k + 8]).abs()).sum();
    let ring_sum: i32 = s.iter().sum();
    5 * (sr - dr) - (5 * ring_sum - 16 * cross_sum).abs()
}

/// The exact values of a view's map, in row order; within a ring radius of the image's edge 0 (RULES 3.6).
pub fn fifths_map(view: &View, ring: u32) -> Vec<i32> {
    let image = view.image;
    let reach = ring as usize;
    let (w, h) = view.area.clipped_sides(image.width, image.height);
    let at = |x: usize, y: usize, (dx, dy): (i32, i32)| {
        let place = (y as i32 + dy) as usize * image.width + (x as i32 + dx) as usize;
        i32::from(image.pixels[place])
    };
    let cell = |x: usize, y: usize| {
        if x < reach || y < reach || x + reach >= image.width || y + reach >= image.height {
            return 0;
        }
        let samples = offsets(ring).map(|offset| at(x, y, offset));
        fifths_of(&samples, CROSS.iter().map(|&offset| at(x, y, offset)).sum())
    };
    let places = (0..h).flat_map(|y| (0..w).map(move |x| (x, y)));
    places.map(|(x, y)| cell(view.area.x0 + x, view.area.y0 + y)).collect()
}

/// The cells of the window around a place, without its centre; the border keeps it inside the map.
fn window(x: usize, y: usize, radius: usize, width: usize) -> impl Iterator<Item = usize> {
    let rows = y - radius..=y + radius;
    let cells = rows.flat_map(move |v| (x - radius..=x + radius).map(move |u| v * width + u));
    cells.filter(move |&cell| cell != y * width + x)
}

/// The exact list of a map (RULES 10.1): in row order the cells inside the same border whose exact value is above the
/// lifted threshold, with no larger one in the window, and enough above 0 there. Strengths are the computed ones.
pub fn exact_peaks(fifths: &[i32], map: &ResponseMap, params: &Params) -> Vec<Corner> {
    let (w, h, b) = (map.width(), map.height(), params.border());
    let mut list = Vec::new();
    if w <= 2 * b || h <= 2 * b {
        return list;
    }
    // A float and its fivefold are exact in f64.
    let floor = if params.threshold > 0.0 { 5.0 * f64::from(params.threshold) } else { 0.0 };
    for y in b..h - b {
        for x in b..w - b {
            let value = fifths[y * w + x];
            let cells = || window(x, y, params.window as usize, w).map(|cell| fifths[cell]);
            let positive = cells().filter(|&v| v > 0).count();
            let top = f64::from(value) > floor && cells().all(|v| v <= value);
            if top && positive >= params.least as usize {
                list.push(Corner::new(x as f32, y as f32, map.at(x, y)));
            }
        }
    }
    list
}

/// The steps of the exact pass: the same with one change (RULES 10.2).
pub const EXACT: Steps =
    Steps { peaks: |view, map, params| exact_peaks(&fifths_map(view, params.ring), map, params), ..STEPS };

/// One map's two peak lists, for demand 3.
pub struct Comparison {
    /// Both lists name the same places in the same order.
    pub alike: bool,
    /// A peak of the exact list has in its window an equal exact value with a larger computed one.
    pub overtaken: bool,
    /// Peaks of the exact list.
    pub peaks: usize,
    /// Each peak of the computed list has as many neighbours by exact values (RULES 24.5).
    pub counts_alike: bool,
}

/// Compares a map's computed and exact lists.
pub fn compare(view: &View, params: &Params) -> Comparison {
    let map = view.map(params.ring);
    let fifths = fifths_map(view, params.ring);
    let exact = exact_peaks(&fifths, &map, params);
    let computed = (STEPS.peaks)(view, &map, params);
    let place = |c: &Corner| c.y as usize * map.width() + c.x as usize;
    let overtaken = exact.iter().any(|c| {
        let (own, x, y) = (place(c), c.x as usize, c.y as usize);
        window(x, y, params.window as usize, map.width())
            .any(|cell| fifths[cell] == fifths[own] && map.data()[cell] > map.data()[own])
    });
    let by_fifths = |c: &Corner| {
        let cells = window(c.x as usize, c.y as usize, params.window as usize, map.width());
        cells.filter(|&cell| fifths[cell] > 0).count() as u32
    };
    let counts = neighbours_of(&map, params.window, &computed);
    Comparison {
        alike: exact.iter().map(place).eq(computed.iter().map(place)),
        overtaken,
        peaks: exact.len(),
        counts_alike: computed.iter().map(by_fifths).eq(counts),
    }
}

/// Whether the lifted threshold is a whole number (RULES 10.5).
pub fn has_whole_threshold(params: &Params) -> bool {
    let lifted = params.threshold.max(0.0);
    lifted.is_finite() && lifted.fract() == 0.0
}

#[cfg(test)]
mod tests {
    use super::*;
    use crate::params::PLAIN;

    #[test]
    fn the_paper_s_value_in_fifths() {
        let half: [i32; 16] = std::array::from_fn(|k| if k % 8 < 4 { 255 } else { 0 });
        assert_eq!(fifths_of(&half, 640), 10_160);
        assert_eq!(fifths_of(&half, 641), 10_144);
        assert_eq!(fifths_of(&[100; 16], 500), 0);
    }

    #[test]
    fn whole_thresholds() {
        let whole = |threshold| has_whole_threshold(&Params { threshold, ..PLAIN });
        assert!(whole(f32::NAN) && whole(-0.5) && whole(7.0) && whole(f32::MAX));
        assert!(!whole(0.5) && !whole(f32::INFINITY) && !whole(f32::from_bits(1)));
    }
}
