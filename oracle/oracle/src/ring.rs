//! The ring tables of ring.rs.
use chess_corners_core::OrientationMethod;

/// A radius of 10 selects the second ring, every other number the first (RULES 3.1).
pub fn offsets(radius: u32) -> &'static [(i32, i32); 16] {
    OrientationMethod::ring_offsets(radius)
}

/// The five cross pixels, in the original's order of summing.
pub const CROSS: [(i32, i32); 5] = [(0, 0), (0, -1), (0, 1), (1, 0), (-1, 0)];

#[cfg(test)]
mod tests {
    use super::*;

    #[test]
    fn only_ten_selects_the_second_ring() {
        for radius in [0, 1, 4, 5, 6, 9, 11, 255, u32::MAX] {
            assert_eq!(offsets(radius), offsets(5));
        }
        assert_ne!(offsets(10), offsets(5));
    }

    #[test]
    fn sixteen_different_places_outside_the_cross() {
        for radius in [5, 10] {
            let table = offsets(radius);
            let reach = radius as i32;
            for (k, place) in table.iter().enumerate() {
                assert!(!table[..k].contains(place) && !CROSS.contains(place));
                assert!(place.0.abs() <= reach && place.1.abs() <= reach);
            }
        }
    }
}
