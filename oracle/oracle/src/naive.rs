//! `merge_corners_naive`: near corners become one, by distance alone (RULES 31).
use crate::buffers::{same_list, CornerBuffer};
use crate::merge::{self, is_close};
use crate::params::is_off;
use crate::refusal::Refusal;
use crate::Corner;
use chess_corners_core::RadonDetectorParams;

/// The original's own function, private there, which `prepare` makes visible. It takes the radius squared.
pub fn original(list: &[Corner], radius: f32) -> Vec<Corner> {
    RadonDetectorParams::merge_corners_naive(list, radius * radius)
}

/// The rule: where in the list those stand that are left.
pub fn places_left(list: &[Corner], radius: f32) -> Vec<usize> {
    let mut kept: Vec<usize> = Vec::new();
    for (place, c) in list.iter().enumerate() {
        match kept.iter_mut().find(|k| is_close(c, &list[**k], radius)) {
            Some(k) if c.strength > list[*k].strength => *k = place,
            Some(_) => {}
            None => kept.push(place),
        }
    }
    kept
}

/// Whether the rule leaves what the original's function leaves.
pub fn as_original(list: &[Corner], radius: f32) -> bool {
    let by_rule: Vec<Corner> = places_left(list, radius).iter().map(|&place| list[place].clone()).collect();
    same_list(&by_rule, &original(list, radius))
}

/// Merges the first `count` corners of a buffer by distance alone: how many stay, or what the merge by cells refuses.
pub fn merge(buffer: &mut CornerBuffer, count: usize, radius: f32) -> Result<usize, Refusal> {
    merge::merge(&mut buffer.clone(), count, radius)?;
    if is_off(radius) {
        return Ok(count);
    }
    let list = buffer.list(count);
    assert!(as_original(&list, radius), "a merge by places that is not the original's");
    let kept = original(&list, radius);
    let places = places_left(&list, radius);
    let neighbours: Vec<u32> = places.iter().map(|&place| buffer.neighbours[place]).collect();
    buffer.put(0, &kept, &neighbours);
    Ok(kept.len())
}
