//! The list that a merge would leave, over the linked library and against a second implementation.
mod common;

use common::{float, Numbers};
use zakdomp::{merged, Corner, Refusal};

fn corner(x: f32, y: f32, strength: f32, neighbours: u32) -> Corner {
    Corner { x, y, strength, neighbours }
}

/// The merge by the rules, corner by corner: cell numbers from the least coordinates, and the lowest place that is
/// joined.
fn by_the_rules(corners: &[Corner], radius: f32) -> Vec<Corner> {
    if !radius.is_finite() || radius <= 0.0 {
        return corners.to_vec();
    }
    let least = |of: fn(&Corner) -> f32| corners.iter().map(of).fold(f32::INFINITY, f32::min);
    let (left, top, inverse) = (least(|c| c.x), least(|c| c.y), 1.0 / radius);
    let cell = |v: f32, origin: f32| ((v - origin) * inverse).trunc();
    let beside = |a: f32, b: f32, origin: f32| (cell(a, origin) - cell(b, origin)).abs() <= 1.0;
    let joins = |a: &Corner, b: &Corner| {
        let (dx, dy) = (a.x - b.x, a.y - b.y);
        beside(a.x, b.x, left) && beside(a.y, b.y, top) && dx * dx + dy * dy <= radius * radius
    };
    let mut kept: Vec<Corner> = vec![];
    for c in corners {
        match kept.iter_mut().find(|o| joins(c, o)) {
            Some(o) if o.strength < c.strength => *o = *c,
            Some(_) => {}
            None => kept.push(*c),
        }
    }
    kept
}

/// Corners on quarter pixels, so that many are as near as a radius.
fn some_corners(numbers: &mut Numbers, count: usize, side: usize) -> Vec<Corner> {
    let mut quarters = |n: usize| float(numbers.below(4 * n + 1)) / 4.0;
    let count = u32::try_from(count).unwrap();
    (0..count).map(|i| corner(quarters(side), quarters(side), quarters(3), i)).collect()
}

#[test]
fn the_stronger_of_two() {
    let two = [corner(1.0, 1.0, 3.0, 5), corner(2.0, 1.0, 4.0, 6)];
    assert_eq!(merged(&two, 3.0), Ok(vec![two[1]]));
    assert_eq!(merged(&two, 0.5), Ok(two.to_vec()));
    for off in [0.0, -1.0, f32::INFINITY, f32::NAN] {
        assert_eq!(merged(&two, off), Ok(two.to_vec()));
    }
    assert_eq!(merged(&[], 3.0), Ok(vec![]));
}

#[test]
fn refusals_in_their_order() {
    let out = [corner(1.0, 1.0, 3.0, 0), corner(-1.0, 1.0, 4.0, 0)];
    assert_eq!(merged(&out, 5000.0), Err(Refusal::Coordinate));
    assert_eq!(merged(&out[..1], 5000.0), Err(Refusal::MergeRadius));
    assert_eq!(merged(&out, 0.0), Ok(out.to_vec()));
}

/// Short lists by the hundred, and some that need each of the tables of the index.
#[test]
fn random_lists_against_the_second_implementation() {
    let mut numbers = Numbers(6);
    let radii = [1.0, 3.0, 0.5, 0.7, 7.0, 1.0 / 3.0, 1.0 / 64.0, 4096.0, 0.0];
    for case in 0..400 {
        let (count, side) = if case % 100 == 99 { (600 + 30 * case, 1000) } else { (case % 40, 12) };
        let corners = some_corners(&mut numbers, count, side);
        for _ in 0..3 {
            let radius = numbers.one_of(&radii);
            if count < 1000 || radius < 3.0 {
                let left = by_the_rules(&corners, radius);
                assert_eq!(merged(&corners, radius), Ok(left), "case {case}, radius {radius}");
            }
        }
    }
}
