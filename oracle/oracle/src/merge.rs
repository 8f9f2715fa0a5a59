//! `merge_corners_simple`: near corners become one.
use crate::buffers::{same_list, CornerBuffer};
use crate::params::{check_merge_radius, is_off};
use crate::refusal::{refuse_if, Refusal, COORDINATE, LIST_SHORT};
use chess_corners_core::{merge_corners_simple, Corner};

/// The original merge is run where its grid has at most so many cells.
const LARGEST_GRID: f64 = (1u32 << 20) as f64;

/// The least of some coordinates, as the original finds it.
fn least(coordinates: impl Iterator<Item = f32>) -> f32 {
    coordinates.fold(f32::INFINITY, |m, v| if v < m { v } else { m })
}

/// How many cells the original's grid would have on one side.
fn grid_side(coordinates: impl Iterator<Item = f32> + Clone, radius: f32) -> f64 {
    let greatest = coordinates.clone().fold(f32::NEG_INFINITY, f32::max);
    (((greatest - least(coordinates)) * (1.0 / radius)).floor() + 1.0) as f64
}

/// How many cells the original's grid would have.
pub fn grid_cells(list: &[Corner], radius: f32) -> f64 {
    grid_side(list.iter().map(|c| c.x), radius) * grid_side(list.iter().map(|c| c.y), radius)
}

/// The original merge, whatever its grid costs.
pub fn original(list: &[Corner], radius: f32) -> Vec<Corner> {
    merge_corners_simple(&mut list.to_vec(), radius)
}

/// The merge over any rule that says which corners are near enough, lowest place first: where in the list those stand that are left.
fn places_where(list: &[Corner], joins: impl Fn(&Corner, &Corner) -> bool) -> Vec<usize> {
    let mut kept: Vec<usize> = Vec::new();
    for (place, c) in list.iter().enumerate() {
        match kept.iter().position(|&k| joins(c, &list[k])) {
            Some(i) if c.strength > list[kept[i]].strength => kept[i] = place,
            Some(_) => {}
            None => kept.push(place),
        }
    }
    kept
}

fn corners_at(list: &[Corner], places: &[usize]) -> Vec<Corner> {
    places.iter().map(|&place| list[place].clone()).collect()
}

/// The list that such a merge leaves.
pub fn merge_where(list: &[Corner], joins: impl Fn(&Corner, &Corner) -> bool) -> Vec<Corner> {
    corners_at(list, &places_where(list, joins))
}

/// Squared distance at most radius squared.
pub fn is_close(a: &Corner, b: &Corner, radius: f32) -> bool {
    let (dx, dy) = (a.x - b.x, a.y - b.y);
    dx * dx + dy * dy <= radius * radius
}

/// The places of the merged list without a stored grid: the cell numbers decide (RULES 8.2, 8.3).
fn places_by_cell_numbers(list: &[Corner], radius: f32) -> Vec<usize> {
    let inverse = 1.0 / radius;
    let (left, top) = (least(list.iter().map(|c| c.x)), least(list.iter().map(|c| c.y)));
    let near = |a: f32, b: f32, origin: f32| {
        let cell = |v: f32| ((v - origin) * inverse) as u64;
        cell(a).abs_diff(cell(b)) <= 1
    };
    places_where(list, |a, b| near(a.x, b.x, left) && near(a.y, b.y, top) && is_close(a, b, radius))
}

/// The merged list so.
pub fn by_cell_numbers(list: &[Corner], radius: f32) -> Vec<Corner> {
    corners_at(list, &places_by_cell_numbers(list, radius))
}

/// The merged list: by the original, and by cell numbers where its grid would be too large.
pub fn merged(list: &[Corner], radius: f32) -> Vec<Corner> {
    if is_off(radius) || list.is_empty() || grid_cells(list, radius) <= LARGEST_GRID {
        original(list, radius)
    } else {
        by_cell_numbers(list, radius)
    }
}

/// The neighbours of a merged list: those of the corners that are left (RULES 24.2), which must be those that the original leaves.
pub fn merged_neighbours(list: &[Corner], neighbours: &[u32], radius: f32, kept: &[Corner]) -> Vec<u32> {
    let places =
        if is_off(radius) { (0..list.len()).collect() } else { places_by_cell_numbers(list, radius) };
    assert!(same_list(&corners_at(list, &places), kept), "a merge by places that is not the original's");
    places.iter().map(|&place| neighbours[place]).collect()
}

/// A coordinate that is not finite or outside 0..4,096 (RULES 2.2, number 4).
fn coordinate_refused(v: f32) -> bool {
    !(0.0..=4096.0).contains(&v)
}

/// Merges the first `count` corners of a buffer: how many stay, or refusal 4, 5 or 10; an off radius gives only 10.
pub fn merge(buffer: &mut CornerBuffer, count: usize, radius: f32) -> Result<usize, Refusal> {
    if !is_off(radius) {
        // Where the stated count exceeds the places, 4 judges the corners that the buffer has (RULES 2.4).
        let judged = buffer.list(count.min(buffer.places()));
        let refused = |c: &Corner| coordinate_refused(c.x) || coordinate_refused(c.y);
        refuse_if(judged.iter().any(refused), COORDINATE)?;
        check_merge_radius(radius)?;
    }
    refuse_if(count > buffer.places(), LIST_SHORT)?;
    let list = buffer.list(count);
    let kept = merged(&list, radius);
    let neighbours = merged_neighbours(&list, &buffer.neighbours[..count], radius, &kept);
    buffer.put(0, &kept, &neighbours);
    Ok(kept.len())
}

#[cfg(test)]
mod tests {
    use super::*;

    fn buffer(xs: &[f32]) -> CornerBuffer {
        let n = xs.len();
        CornerBuffer { x: xs.to_vec(), y: vec![0.0; n], strength: vec![1.0; n], neighbours: vec![0; n] }
    }

    #[test]
    fn refusals_in_their_order() {
        let mut one = buffer(&[1.0, -1.0]);
        assert_eq!(merge(&mut one, 2, 5000.0), Err(4));
        assert_eq!(merge(&mut one, 1, 5000.0), Err(5));
        assert_eq!(merge(&mut one, 3, 3.0), Err(4));
        assert_eq!(merge(&mut one, 3, f32::NAN), Err(10));
        assert_eq!(merge(&mut one, 2, f32::INFINITY), Ok(2));
        one.neighbours.pop(); // now -1.0 stands behind what the buffer has
        assert_eq!(merge(&mut one, 2, 3.0), Err(10));
    }

    /// A stronger corner brings its neighbours, an equal or a weaker one does not.
    #[test]
    fn neighbours_of_the_corner_that_is_left() {
        for (strengths, left) in [([3.0, 4.0], 2), ([3.0, 3.0], 7), ([4.0, 3.0], 7)] {
            let mut two = buffer(&[1.0, 2.0]);
            (two.strength, two.neighbours) = (strengths.to_vec(), vec![7, 2]);
            assert_eq!(merge(&mut two, 2, 3.0), Ok(1));
            assert_eq!(two.neighbours, [left, 2]);
            assert_eq!(merge(&mut two, 2, 0.0), Ok(2));
            assert_eq!(two.neighbours, [left, 2]);
        }
    }
}
