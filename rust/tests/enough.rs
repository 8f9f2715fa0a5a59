//! Whether a map has enough peaks, over the linked library and against a second implementation.
mod common;

use common::{board, border, float, peaks, Numbers, PLAIN};
use zakdomp::{has_peaks, response, Enough, Params, Refusal};

fn told(enough: bool, rows: usize) -> Enough {
    Enough { enough, rows }
}

/// The answer, from the list of all peaks.
fn counted(map: &[f32], width: usize, height: usize, p: &Params, wanted: usize) -> Enough {
    let (border, peaks) = (border(p), peaks(map, width, height, p));
    let inside = if width <= 2 * border || height <= 2 * border { 0 } else { height - 2 * border };
    let looked = if wanted == 0 { 0 } else { peaks.get(wanted - 1).map_or(inside, |(_, y)| y - border + 1) };
    told(peaks.len() >= wanted, looked)
}

/// Three peaks, one below the other, in a map of 11 by 13 whose border leaves no other cell.
fn column() -> Vec<f32> {
    let mut map = vec![0.0; 11 * 13];
    for (y, value) in [(5, 1.0), (6, 2.0), (7, 3.0)] {
        map[y * 11 + 5] = value;
    }
    map
}

#[test]
fn the_rows_of_a_column() {
    let map = column();
    for (wanted, enough, rows) in
        [(0, true, 0), (1, true, 1), (2, true, 2), (3, true, 3), (4, false, 3), (usize::MAX, false, 3)]
    {
        assert_eq!(has_peaks(&map, 11, 13, &PLAIN, wanted), Ok(told(enough, rows)), "{wanted} wanted");
    }
}

#[test]
fn a_side_of_twice_the_border() {
    let map = column();
    for (width, height) in [(10, 13), (13, 10), (10, 10), (0, 0), (0, 4096)] {
        let cells = vec![7.0; width * height];
        assert_eq!(has_peaks(&cells, width, height, &PLAIN, 1), Ok(told(false, 0)), "{width} by {height}");
        assert_eq!(has_peaks(&cells, width, height, &PLAIN, 0), Ok(told(true, 0)), "{width} by {height}");
    }
    let wide = Params { window: 1, ..PLAIN };
    assert_eq!(has_peaks(&map, 11, 13, &wide, 1), Ok(told(false, 0)), "a border of 6");
}

#[test]
fn refusals_come_first() {
    let map = column();
    for wanted in [0, 1] {
        let refused = |w, h, p: &Params| has_peaks(&map, w, h, p, wanted).unwrap_err();
        assert_eq!(refused(4097, 0, &PLAIN), Refusal::Side);
        assert_eq!(refused(11, 12, &Params { ring: 6, ..PLAIN }), Refusal::Length);
        assert_eq!(refused(11, 13, &Params { ring: 6, ..PLAIN }), Refusal::Parameter);
        assert_eq!(refused(11, 13, &Params { window: 17, ..PLAIN }), Refusal::Parameter);
        assert_eq!(refused(11, 13, &Params { centroid_radius: 17, ..PLAIN }), Refusal::Parameter);
    }
}

#[test]
fn random_maps_against_the_second_implementation() {
    let mut numbers = Numbers(7);
    let (mut yes, mut no) = (0, 0);
    for _ in 0..4_000 {
        let p = Params {
            ring: numbers.one_of(&[5, 5, 5, 10]),
            threshold: numbers.one_of(&[f32::NAN, -1.0, 0.0, 1.0, 2.5]),
            window: numbers.word(3),
            least_neighbours: numbers.word(4),
            centroid_radius: numbers.word(2),
            ..PLAIN
        };
        let (width, height) =
            (2 * border(&p) - 1 + numbers.below(12), 2 * border(&p) - 1 + numbers.below(12));
        let cell = |k: usize| if k == 0 { f32::NAN } else { float(k) - 3.0 };
        let map: Vec<f32> = (0..width * height).map(|_| cell(numbers.below(8))).collect();
        let count = peaks(&map, width, height, &p).len();
        for wanted in [0, 1, count.saturating_sub(1), count, count + 1, count / 2] {
            let due = counted(&map, width, height, &p, wanted);
            let found = has_peaks(&map, width, height, &p, wanted);
            assert_eq!(found, Ok(due), "{width} by {height}, {wanted} wanted, {p:?}");
            *if due.enough { &mut yes } else { &mut no } += 1;
        }
    }
    assert!(yes > 1_000 && no > 1_000, "{yes} and {no}");
}

/// Rows further than the window's radius below the last one looked at do not matter.
#[test]
fn what_is_not_looked_at_does_not_matter() {
    let image = board(96, 96, 12);
    let mut map = response(&image, 96, 96, 5, 0..96, 0..96).unwrap().cells;
    let p = Params { threshold: 30.0, ..Params::default() };
    assert!(peaks(&map, 96, 96, &p).len() > 10);
    let found = has_peaks(&map, 96, 96, &p, 10).unwrap();
    assert!(found.enough && found.rows < 96 - 2 * 9);
    map[(9 + found.rows + 2) * 96..].fill(f32::INFINITY);
    assert_eq!(has_peaks(&map, 96, 96, &p, 10), Ok(found));
}
