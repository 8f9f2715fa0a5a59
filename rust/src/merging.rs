//! Corners merged.
use crate::lists::Lists;
use crate::{library, Corner, Refusal};

/// What merging these corners by a radius would leave of them, as `zakdomp_merge` of include/zakdomp.h merges; the
/// corners stay as they are, so several radii can be tried. A radius that is 0, negative or not finite leaves all. The
/// time grows with their number, in whatever order they come; it takes a table of four floats for each.
pub fn merged(corners: &[Corner], radius: f32) -> Result<Vec<Corner>, Refusal> {
    let mut list = Lists::of(corners);
    let mut table = vec![0.0; 4 * corners.len() + 4];
    let kept = library::merge_by_table(&mut list, corners.len(), radius, &mut table)?;
    Ok(list.first(kept))
}

/// What is left of a list of corners that are merged by distance alone. Each corner in turn looks among those kept for
/// the first at most `radius` away. It takes that one's place if it is strictly stronger, and is dropped if not; where
/// there is none it is kept after the others. A radius of 0, a negative one and one that is not finite keep all. No
/// frame is merged so (`zakdomp_merge` of include/zakdomp.h): the two leave the same where the coordinates are
/// multiples of 1/64 and the radius is a power of two from 1/64 to 4096.
pub fn merge_naive(corners: &[Corner], radius: f32) -> Result<Vec<Corner>, Refusal> {
    let mut list = Lists::of(corners);
    let kept = library::merge_naive(&mut list, corners.len(), radius)?;
    Ok(list.first(kept))
}
