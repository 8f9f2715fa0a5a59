//! A pixel changed and its map redone, over the linked library.
mod common;

use common::{bits, whole_case, Numbers, SIDE};
use zakdomp::{response, retouch, Refusal};

fn cells(image: &[u8], w: usize, h: usize, ring: u32) -> Vec<f32> {
    response(image, w, h, ring, 0..w, 0..h).expect("a map").cells
}

#[test]
fn the_whole_case() {
    for (x, y, value, count, fifths) in
        [(5, 5, 129, 1, 10_144.0), (5, 0, 254, 1, 10_145.0), (0, 0, 9, 0, 10_160.0), (5, 5, 128, 1, 10_160.0)]
    {
        let mut image = whole_case();
        let mut map = cells(&image, SIDE, SIDE, 5);
        assert_eq!(retouch(&mut image, SIDE, SIDE, 5, &mut map, x, y, value), Ok(count));
        assert_eq!(image[y * SIDE + x], value);
        assert!((map[60] * 5.0 - fifths).abs() < 0.005, "{} fifths", map[60] * 5.0);
        assert_eq!(bits(&map), bits(&cells(&image, SIDE, SIDE, 5)));
    }
}

#[test]
fn at_most_twenty_one() {
    for (ring, side) in [(5, 21), (5, 31), (10, 41)] {
        let mut image = vec![100; side * side];
        let mut map = cells(&image, side, side, ring);
        assert_eq!(retouch(&mut image, side, side, ring, &mut map, side / 2, side / 2, 9), Ok(21));
        assert_eq!(retouch(&mut image, side, side, ring, &mut map, 0, 0, 9), Ok(0));
    }
}

#[test]
fn as_a_fresh_run() {
    let mut numbers = Numbers(8);
    for _ in 0..300 {
        let (w, h) = (1 + numbers.below(40), 1 + numbers.below(40));
        let ring = numbers.one_of(&[5, 10]);
        let mut image = numbers.pixels(w * h, 256);
        let mut map = cells(&image, w, h, ring);
        for _ in 0..5 {
            let (x, y, value) = (numbers.below(w), numbers.below(h), numbers.byte(256));
            let mut painted = image.clone();
            painted[y * w + x] = value;
            let count = retouch(&mut image, w, h, ring, &mut map, x, y, value).expect("not refused");
            assert!(count <= 21);
            assert_eq!(image, painted);
            assert_eq!(bits(&map), bits(&cells(&painted, w, h, ring)));
        }
    }
}

#[test]
fn another_map_gets_those_cells_and_no_more() {
    let mut numbers = Numbers(14);
    for _ in 0..100 {
        let (w, h) = (11 + numbers.below(30), 11 + numbers.below(30));
        let mut image = numbers.pixels(w * h, 256);
        let mut map = vec![f32::NAN; w * h];
        let (x, y, value) = (numbers.below(w), numbers.below(h), numbers.byte(256));
        let count = retouch(&mut image, w, h, 5, &mut map, x, y, value).expect("not refused");
        let fresh = cells(&image, w, h, 5);
        let redone: Vec<usize> = (0..w * h).filter(|&i| !map[i].is_nan()).collect();
        assert_eq!(redone.len(), count);
        assert!(redone.iter().all(|&i| map[i].to_bits() == fresh[i].to_bits()));
    }
}

#[test]
fn refusals_in_their_order() {
    let mut image = whole_case();
    let before = image.clone();
    let mut map = vec![7.0; SIDE * SIDE];
    let mut short = vec![7.0; SIDE * SIDE - 1];
    let mut long = vec![7.0; SIDE * SIDE + 1];
    assert_eq!(retouch(&mut image, 4097, SIDE, 6, &mut short, SIDE, 0, 1), Err(Refusal::Side));
    assert_eq!(retouch(&mut image, SIDE, SIDE, 6, &mut short, SIDE, 0, 1), Err(Refusal::Length));
    assert_eq!(retouch(&mut image, SIDE, SIDE, 5, &mut long, 5, 5, 1), Err(Refusal::Length));
    assert_eq!(retouch(&mut image[..120], SIDE, SIDE, 5, &mut map, 5, 5, 1), Err(Refusal::Length));
    assert_eq!(retouch(&mut image, SIDE, SIDE, 6, &mut map, SIDE, 0, 1), Err(Refusal::Parameter));
    assert_eq!(retouch(&mut image, SIDE, SIDE, 5, &mut map, SIDE, 0, 1), Err(Refusal::Outside));
    assert_eq!(retouch(&mut image, SIDE, SIDE, 5, &mut map, 0, SIDE, 1), Err(Refusal::Outside));
    assert_eq!(retouch(&mut [], 0, 0, 5, &mut [], 0, 0, 1), Err(Refusal::Outside));
    assert_eq!(image, before);
    assert!(map.iter().chain(&short).chain(&long).all(|&cell| cell == 7.0));
    assert_eq!(Refusal::Outside.number(), 14);
}
