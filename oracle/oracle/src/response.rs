//! `chess_response_u8_patch`: the response map of a box.
use crate::image::{Area, Image};
use crate::params::{check_ring, Params, PLAIN};
use crate::refusal::{refuse_if, Refusal, LARGEST_SIDE, MAP_SHORT};
use chess_corners_core::{chess_response_u8_patch, ResponseMap, Roi};

/// The map of a box of a checked image. An empty box gives a map of 0 by 0.
pub fn map_of(image: Image, ring: u32, area: Area) -> ResponseMap {
    let Some(roi) = Roi::new(area.x0, area.y0, area.x1, area.y1) else {
        return ResponseMap::default();
    };
    let reach = ring as usize;
    if image.width < reach || image.height < reach {
        // An image thinner than the ring gives zeros (RULES 3.6); with overflow checks the original panics here.
        let (w, h) = area.clipped_sides(image.width, image.height);
        return ResponseMap::new(w, h, vec![0.0; w * h]);
    }
    let params = Params { ring, ..PLAIN };
    chess_response_u8_patch(image.pixels, image.width, image.height, &params.chess(), roi)
}

/// The map of a box into a buffer: the map's sides, or refusal 1, 2, 3 or 8.
pub fn response(image: Image, ring: u32, area: Area, map: &mut [f32]) -> Result<(usize, usize), Refusal> {
    image.check(LARGEST_SIDE)?;
    check_ring(ring)?;
    let (width, height) = area.clipped_sides(image.width, image.height);
    refuse_if(map.len() < width * height, MAP_SHORT)?;
    let patch = map_of(image, ring, area);
    map[..width * height].copy_from_slice(patch.data());
    Ok((patch.width(), patch.height()))
}

#[cfg(test)]
mod tests {
    use super::*;

    #[test]
    fn empty_boxes_and_thin_images() {
        let pixels = [9u8; 4 * 30];
        let image = Image { pixels: &pixels, width: 4, height: 30 };
        let thin = map_of(image, 5, image.whole());
        assert_eq!((thin.width(), thin.height()), (4, 30));
        assert!(thin.data().iter().all(|v| v.to_bits() == 0));
        let outside = Area { x0: 4, y0: 0, x1: 9, y1: 30 };
        assert_eq!(map_of(image, 5, outside).width(), 0);
        let reversed = Area { x0: 3, y0: 5, x1: 1, y1: 9 };
        assert_eq!(map_of(image, 5, reversed).height(), 0);
    }
}
