//! The exact choice, over the linked library.
mod common;

use common::{beside, board, cells, corners, is_inside, nearest, photograph, window};
use common::{Numbers, CROSS, PLAIN, RING};
use zakdomp::{Corner, Finder, Params, Refusal};

/// Every peak is a corner at its own place.
const BARE: Params = Params { window: 1, merge_radius: 0.0, ..PLAIN };

/// With a window of 1 the middle of 13 by 13 pixels is the one cell inside the border. Its response is 28 fifths, and
/// so is that of a cell beside it, whose float is larger.
fn tipped() -> Vec<u8> {
    (0..13 * 13_u32).map(|i| u8::try_from(7 * i * i % 24).unwrap()).collect()
}

/// A cell's exact response in fifths (RULES 3.5), a second time; 0 at the edge.
fn fifths(image: &[u8], side: usize, cell: (usize, usize)) -> i32 {
    if !is_inside(cell, side, side, 5) {
        return 0;
    }
    let at = |place| i32::from(image[beside(side, cell, place)]);
    let s = RING.map(at);
    let (ring, cross): (i32, i32) = (s.iter().sum(), CROSS.map(at).iter().sum());
    let sr: i32 = (0..4).map(|k| (s[k] + s[k + 8] - s[k + 4] - s[k + 12]).abs()).sum();
    let dr: i32 = (0..8).map(|k| (s[k] - s[k + 8]).abs()).sum();
    5 * (sr - dr) - (5 * ring - 16 * cross).abs()
}

/// The exact list of a square image at threshold 0 (RULES 10.1).
fn exact_places(image: &[u8], side: usize, radius: usize) -> Vec<(usize, usize)> {
    let is_peak = |&cell: &(usize, usize)| {
        let peak = fifths(image, side, cell);
        peak > 0 && window(cell, radius).all(|other| fifths(image, side, other) <= peak)
    };
    cells(side, side).filter(|&cell| is_inside(cell, side, side, 5 + radius)).filter(is_peak).collect()
}

/// The cells of corners; a centre of mass of one cell may be rounded beside it.
fn places(corners: &[Corner]) -> Vec<(usize, usize)> {
    let place = |x: f32| usize::try_from(nearest(x)).unwrap();
    corners.iter().map(|c| (place(c.x), place(c.y))).collect()
}

#[test]
fn a_corner_that_rounding_tips_over() {
    let (image, mut finder) = (tipped(), Finder::new());
    assert_eq!(corners(finder.find(&image, 13, 13, &BARE)), Ok(vec![]));
    let found = finder.find_exact(&image, 13, 13, &BARE).unwrap();
    assert_eq!((places(&found.corners), found.ties), (vec![(6, 6)], 0));
    assert!((found.corners[0].strength - 5.6).abs() < 0.001);
    let upload = photograph("P5 13 13 255\n", &image);
    assert_eq!(corners(finder.find_pgm(&upload, &BARE)), Ok(vec![]));
    assert_eq!(finder.find_exact_pgm(&upload, &BARE), Ok(found));
}

#[test]
fn thresholds_about_28_fifths() {
    let (image, mut finder) = (tipped(), Finder::new());
    let mut count = |threshold| {
        let params = Params { threshold, ..BARE };
        finder.find_exact(&image, 13, 13, &params).unwrap().corners.len()
    };
    // 5.6 as a float is a little less than 28 fifths, and the next float more
    assert_eq!([5.5, 5.6, 5.600_000_4, 6.0, f32::INFINITY].map(&mut count), [1, 1, 0, 0, 0]);
    assert_eq!([-1.0, f32::NAN, 0.0].map(count), [1, 1, 1]);
}

#[test]
fn noise_of_few_greys() {
    let mut finder = Finder::new();
    let mut different = 0;
    for seed in 1..=40 {
        let image = Numbers(seed).pixels(48 * 48, 2 + seed % 4);
        for window in [1, 2] {
            let params = Params { window, ..BARE };
            let exact = corners(finder.find_exact(&image, 48, 48, &params)).unwrap();
            let due = exact_places(&image, 48, window as usize);
            assert_eq!(places(&exact), due, "seed {seed}, window {window}");
            different += usize::from(corners(finder.find(&image, 48, 48, &params)) != Ok(exact));
        }
    }
    assert!(different > 15, "{different} lists differ");
}

#[test]
fn the_same_on_a_board() {
    let image = board(384, 288, 48);
    let mut finder = Finder::new();
    for levels in [1, 3] {
        let params = Params { threshold: 30.0, levels, minimum_side: 20, ..Params::default() };
        let found = finder.find(&image, 384, 288, &params).unwrap();
        assert_eq!(found.corners.len(), 7 * 5);
        assert_eq!(finder.find_exact(&image, 384, 288, &params), Ok(found));
    }
}

#[test]
fn refusals() {
    let image = tipped();
    let upload = photograph("P5 13 13 255\n", &image);
    let wrong_ring = Params { ring: 6, ..BARE };
    let mut finder = Finder::with_most(0);
    assert_eq!(corners(finder.find(&image, 13, 13, &BARE)), Ok(vec![]));
    assert_eq!(finder.find_exact(&image, 13, 13, &BARE), Err(Refusal::ListShort));
    assert_eq!(finder.find_exact_pgm(&upload, &BARE), Err(Refusal::ListShort));
    assert_eq!(finder.find_exact(&image, 4097, 13, &wrong_ring), Err(Refusal::Side));
    assert_eq!(finder.find_exact(&image, 13, 12, &wrong_ring), Err(Refusal::Length));
    assert_eq!(finder.find_exact(&image, 13, 13, &wrong_ring), Err(Refusal::Parameter));
    assert_eq!(finder.find_exact_pgm(&upload[..9], &wrong_ring), Err(Refusal::Pgm));
    assert_eq!(finder.find_exact_pgm(&upload, &wrong_ring), Err(Refusal::Parameter));
    let wide = Params { merge_radius: 5000.0, ..BARE };
    assert_eq!(finder.find_exact(&image, 13, 13, &wide), Err(Refusal::MergeRadius));
}
