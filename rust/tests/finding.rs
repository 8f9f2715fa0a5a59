//! The crate over the linked library.
mod common;

use common::{board, corners, count, others, peaks, whole_case, Numbers, PLAIN, SIDE};
use zakdomp::{response, Corner, Finder, Frame, Params, Refusal};

#[test]
fn the_whole_case() {
    let Frame { corners, ties, .. } = Finder::new().find(&whole_case(), SIDE, SIDE, &PLAIN).unwrap();
    assert_eq!(corners, vec![Corner { x: 5.0, y: 5.0, strength: 2032.0, neighbours: 0 }]);
    assert_eq!(ties, 0);
}

#[test]
fn a_board_on_one_and_three_levels() {
    let image = board(384, 288, 48);
    let mut finder = Finder::new();
    for levels in [1, 3] {
        let params = Params { threshold: 30.0, levels, minimum_side: 20, ..Params::default() };
        let corners = finder.find(&image, 384, 288, &params).unwrap().corners;
        assert_eq!(corners.len(), 7 * 5);
        let off = |v: f32| ((v + 0.5) / 48.0).round() * 48.0 - (v + 0.5);
        assert!(corners.iter().all(|c| off(c.x).abs() < 0.5 && off(c.y).abs() < 0.5 && c.strength > 30.0));
    }
}

#[test]
fn more_corners_than_places_at_first() {
    let image = Numbers(1).pixels(512 * 512, 256);
    let params = Params { merge_radius: 0.0, window: 1, least_neighbours: 0, ..Params::default() };
    let found = Finder::new().find(&image, 512, 512, &params).unwrap();
    let most = found.corners.len();
    assert!(most > 1024, "{most}");
    assert_eq!(Finder::with_most(1000).find(&image, 512, 512, &params), Err(Refusal::ListShort));
    assert_eq!(Finder::with_most(most).find(&image, 512, 512, &params), Ok(found));
}

/// Pixels of two greys, so that responses are often equal.
#[test]
fn ties() {
    let image: Vec<u8> = Numbers(2).pixels(48 * 48, 2).iter().map(|grey| 255 * grey).collect();
    let map = response(&image, 48, 48, 5, 0..48, 0..48).unwrap().cells;
    let mut finder = Finder::new();
    for window in 0..3 {
        let params = Params { window, ..PLAIN };
        let tied = |&(x, y): &(usize, usize)| {
            count(&others(&map, 48, (x, y), &params), |cell| cell == map[y * 48 + x])
        };
        let due: usize = peaks(&map, 48, 48, &params).iter().map(tied).sum();
        assert_eq!(due > 0, window > 0);
        for merge_radius in [0.0, 4096.0] {
            let found = finder.find(&image, 48, 48, &Params { merge_radius, ..params }).unwrap();
            assert_eq!(found.ties, due as u64);
        }
    }
}

/// Strength and neighbours of each corner, in their order.
fn counted(corners: &[Corner]) -> Vec<(f32, usize)> {
    corners.iter().map(|corner| (corner.strength, corner.neighbours as usize)).collect()
}

#[test]
fn neighbours_of_each_corner() {
    let image = Numbers(3).pixels(64 * 64, 256);
    let map = response(&image, 64, 64, 5, 0..64, 0..64).unwrap().cells;
    let mut finder = Finder::new();
    for window in 0..4 {
        let params = Params { window, centroid_radius: 1, merge_radius: 0.0, ..PLAIN };
        let positive = |cell| count(&others(&map, 64, cell, &params), |cell| cell > 0.0);
        let due: Vec<(f32, usize)> = peaks(&map, 64, 64, &params)
            .into_iter()
            .map(|(x, y)| (map[y * 64 + x], positive((x, y))))
            .collect();
        let found = corners(finder.find(&image, 64, 64, &params)).unwrap();
        assert_eq!(counted(&found), due);
        assert_eq!(due.iter().any(|peak| peak.1 > 0), window > 0);
        let merged = corners(finder.find(&image, 64, 64, &Params { merge_radius: 8.0, ..params })).unwrap();
        assert!(merged.len() < due.len() && counted(&merged).iter().all(|peak| due.contains(peak)));
    }
}

#[test]
fn refusals() {
    let image = whole_case();
    let find = |w, h, params: Params| Finder::new().find(&image, w, h, &params).unwrap_err();
    assert_eq!(find(4097, 11, PLAIN), Refusal::Side);
    assert_eq!(find(usize::MAX, usize::MAX, PLAIN), Refusal::Side);
    assert_eq!(find(11, 10, PLAIN), Refusal::Length);
    assert_eq!(find(11, 11, Params { ring: 6, ..PLAIN }), Refusal::Parameter);
    assert_eq!(find(11, 11, Params { search_radius: 256, ..PLAIN }), Refusal::Parameter);
    assert_eq!(find(11, 11, Params { merge_radius: 5000.0, ..PLAIN }), Refusal::MergeRadius);
    let text = find(4097, 11, PLAIN).to_string();
    assert_eq!(text, "a side is above 4096, or above 96 in a stream (number 1)");
}

#[test]
fn responses_of_boxes() {
    let image = whole_case();
    let map = response(&image, SIDE, SIDE, 5, 4..6, 5..99).unwrap();
    assert_eq!((map.width, map.height, map.cells.len()), (2, 6, 12));
    assert_eq!(map.cells[..2], [0.0, 2032.0]);
    let empty = response(&image, SIDE, SIDE, 5, 4..4, 0..usize::MAX).unwrap();
    assert_eq!((empty.width, empty.height, empty.cells.len()), (0, 0, 0));
    assert_eq!(response(&image, SIDE, SIDE, 7, 0..1, 0..1), Err(Refusal::Parameter));
    assert_eq!(response(&image, 5000, 1, 5, 0..5000, 0..1), Err(Refusal::Side));
}
