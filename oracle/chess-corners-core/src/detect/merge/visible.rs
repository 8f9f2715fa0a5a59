//! Makes the private function of merge.rs callable.
use super::*;

/// `merge_corners_naive` of a list that stays as it is.
pub fn naive(corners: &[Corner], r2: f32) -> Vec<Corner> {
    merge_corners_naive(&mut corners.to_vec(), r2)
}
