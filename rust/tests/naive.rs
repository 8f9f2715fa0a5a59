//! Corners merged by distance alone, over the linked library: against a second implementation, and against the merge by
//! cells.
mod common;

use common::{bits, float, Numbers};
use zakdomp::raw::{zakdomp_merge, zakdomp_merge_naive};
use zakdomp::{merge_naive, Corner, Refusal};

/// Corners at multiples of a step, fewer than `most` from 0, so that many are near each other.
fn some_corners(numbers: &mut Numbers, step: f32, most: usize) -> Vec<Corner> {
    let corner = |numbers: &mut Numbers| Corner {
        x: float(numbers.below(most)) * step,
        y: float(numbers.below(most)) * step,
        strength: float(numbers.below(5)),
        neighbours: numbers.word(1000),
    };
    (0..numbers.below(24)).map(|_| corner(numbers)).collect()
}

fn at(x: f32, y: f32) -> Corner {
    Corner { x, y, strength: 1.0, neighbours: 0 }
}

/// The rule in a few lines.
fn by_distance(corners: &[Corner], radius: f32) -> Vec<Corner> {
    let mut kept: Vec<Corner> = vec![];
    for c in corners {
        let near = |o: &Corner| {
            let (dx, dy) = (c.x - o.x, c.y - o.y);
            dx * dx + dy * dy <= radius * radius
        };
        match kept.iter().position(near) {
            Some(i) if kept[i].strength < c.strength => kept[i] = *c,
            Some(_) => {}
            None => kept.push(*c),
        }
    }
    kept
}

/// Four slices, and one of the two functions on them: its number, the corners left, and the slices.
struct Slices {
    floats: [Vec<f32>; 3],
    neighbours: Vec<u32>,
}

impl Slices {
    fn of(corners: &[Corner]) -> Self {
        let field = |of: fn(&Corner) -> f32| corners.iter().map(of).collect();
        Self {
            floats: [field(|c| c.x), field(|c| c.y), field(|c| c.strength)],
            neighbours: corners.iter().map(|c| c.neighbours).collect(),
        }
    }

    fn bits(&self) -> Vec<u32> {
        [bits(&self.floats.concat()), self.neighbours.clone()].concat()
    }

    #[rustfmt::skip]
    fn merge(mut self, naive: bool, count: usize, radius: f32) -> (u8, usize, Vec<u32>) {
        let ([xs, ys, ss], ns) = (&mut self.floats, &mut self.neighbours);
        let function = if naive { zakdomp_merge_naive } else { zakdomp_merge };
        let mut kept = 77;
        // SAFETY: every slice is whole, none overlaps another, and the call keeps none.
        let number = unsafe {
            function(
                xs.as_mut_ptr(), xs.len(), ys.as_mut_ptr(), ys.len(), ss.as_mut_ptr(), ss.len(),
                ns.as_mut_ptr(), ns.len(), count, radius, &raw mut kept,
            )
        };
        (number, kept, self.bits())
    }
}

#[test]
fn case_that_tells_the_merges_apart() {
    let given = [at(1.0 - 1.0 / 16_777_216.0, 0.0), at(2.0, 0.0), at(0.0, 100.0)];
    assert_eq!(merge_naive(&given, 1.0), Ok(vec![given[0], given[2]]));
    assert_eq!(Slices::of(&given).merge(false, 3, 1.0).1, 3);
    let given = [at(82.0 / 64.0, 0.0), at(123.0 / 64.0, 0.0), at(0.0, 0.0)];
    assert_eq!(merge_naive(&given, 41.0 / 64.0), Ok(vec![given[0], given[2]]));
    assert_eq!(Slices::of(&given).merge(false, 3, 41.0 / 64.0).1, 3);
}

#[test]
fn random_lists() {
    let mut numbers = Numbers(12);
    for _ in 0..4000 {
        let step = numbers.one_of(&[1.0, 0.5, 0.1, 1.0 / 64.0, 0.37]);
        let corners = some_corners(&mut numbers, step, 60);
        let radius = numbers.one_of(&[1.0, 3.0, 0.7, 1.0 / 64.0, 2.5, 64.0]);
        assert_eq!(merge_naive(&corners, radius), Ok(by_distance(&corners, radius)));
    }
}

/// At multiples of 1/64, from -2 to 4,112, and with each power of two, whatever the count: numbers, counts and buffers
/// of the two calls.
#[test]
fn alike_at_multiples_of_a_64th() {
    let mut numbers = Numbers(64);
    let mut refused = 0;
    for case in 0..8000 {
        let radius = 2f32.powi(case % 19 - 6);
        let most = numbers.one_of(&[40, 400, 4000, 263_168]);
        let mut corners = some_corners(&mut numbers, 1.0 / 64.0, most);
        for c in &mut corners {
            match numbers.below(200) {
                0 => c.x = -0.0,
                1 => c.y -= 2.0,
                _ => {}
            }
        }
        let count = corners.len() + usize::from(numbers.below(50) == 0);
        let naive = Slices::of(&corners).merge(true, count, radius);
        refused += usize::from(naive.0 != 0);
        assert_eq!(naive, Slices::of(&corners).merge(false, count, radius), "{corners:?} {radius}");
    }
    assert!(refused > 100);
}

#[test]
fn refusals_in_their_order() {
    let good = [at(1.0, 1.0), at(2.0, 2.0)];
    let bad = [at(1.0, 1.0), at(-1.0, 2.0)];
    for (corners, count, radius, number) in [
        (bad, 3, 5000.0, 4),
        (good, 3, 5000.0, 5),
        (good, 3, 1.0, 10),
        (bad, 3, f32::NAN, 10),
        (bad, 1, 5000.0, 5),
    ] {
        let before = Slices::of(&corners).bits();
        assert_eq!(Slices::of(&corners).merge(true, count, radius), (number, 77, before));
    }
    assert_eq!(merge_naive(&bad, 1.0), Err(Refusal::Coordinate));
    assert_eq!(merge_naive(&good, 1.0 / 65.0), Err(Refusal::MergeRadius));
    let mut short = Slices::of(&good);
    short.neighbours.pop();
    assert_eq!(short.merge(true, 2, 1.0).0, 10);
}

#[test]
fn off_radius_keeps_all() {
    let all = [at(1.0, 1.0), at(1.0, 1.0), at(-5.0, f32::INFINITY)];
    for radius in [0.0, -0.0, -1.0, f32::NAN, f32::INFINITY, f32::NEG_INFINITY] {
        assert_eq!(merge_naive(&all, radius), Ok(all.to_vec()));
    }
    assert_eq!(merge_naive(&[], 1.0), Ok(vec![]));
}

/// The stronger corner comes with its neighbours, and after the list the slices are as they were.
#[test]
fn neighbours_and_what_follows() {
    let mut all = [at(1.0, 1.0), at(1.5, 1.0), at(9.0, 9.0), at(7.0, 7.0)];
    for (i, c) in (0_u8..).zip(&mut all) {
        (c.strength, c.neighbours) = (f32::from(i), 10 + u32::from(i));
    }
    let (number, kept, bits) = Slices::of(&all).merge(true, 3, 1.0);
    let due = [all[1], all[2], all[2], all[3]];
    assert_eq!((number, kept, bits), (0, 2, Slices::of(&due).bits()));
}
