//! `make_roi_context` and `RoiContext::compute_roi`: the box of the base in which a seed is looked at again.
use crate::image::{Area, Image};
use crate::params::Params;
use crate::refusal::{refuse_if, Refusal, COORDINATE, LARGEST_SIDE, PARAMETER, SIDE};
use chess_corners::multiscale::visible::{roi_boxes, BoxContext};
use chess_corners_core::Corner;

/// The boxes of seeds, in order; "no box" is an answer.
pub type Boxes = Vec<Option<Area>>;

/// The boxes of seeds found on a level of the given scale.
pub fn boxes_of(base: Image, scale: f32, params: &Params, seeds: &[Corner]) -> Boxes {
    let context = BoxContext {
        width: base.width,
        height: base.height,
        coarse_scale: scale,
        detector_border: (params.ring + params.window) as i32,
        refine_border: params.centroid as i32,
        refinement_radius: params.search,
    };
    let area = |(x0, y0, x1, y1): (i32, i32, i32, i32)| Area {
        x0: x0 as usize,
        y0: y0 as usize,
        x1: x1 as usize,
        y1: y1 as usize,
    };
    let boxes = roi_boxes(base.pixels, &context, seeds);
    boxes.into_iter().map(|b| b.map(area)).collect()
}

/// A coordinate that is not finite or outside 0..4,096 (RULES 2.2, number 4).
fn coordinate_refused(v: f32) -> bool {
    !(0.0..=4096.0).contains(&v)
}

/// The box of one seed of level `level`, no box, or refusal 1, 3 or 4. Ring, window, centroid and search radius count.
pub fn search_box(
    width: usize,
    height: usize,
    level: u32,
    params: &Params,
    x: f32,
    y: f32,
) -> Result<Option<Area>, Refusal> {
    refuse_if(width > LARGEST_SIDE || height > LARGEST_SIDE, SIDE)?;
    params.check_window()?;
    refuse_if(params.search > 255 || level > 12, PARAMETER)?;
    refuse_if(coordinate_refused(x) || coordinate_refused(y), COORDINATE)?;
    let pixels = vec![0; width * height]; // the original asks an image only for its sides
    let base = Image { pixels: &pixels, width, height };
    let scale = 1.0 / (1u32 << level) as f32;
    Ok(boxes_of(base, scale, params, &[Corner::new(x, y, 0.0)])[0])
}

#[cfg(test)]
mod tests {
    use super::*;
    use crate::numbers::next_away;
    use crate::params::PLAIN;

    #[test]
    fn ends_of_the_coordinates() {
        let at = |x, y| search_box(200, 200, 0, &PLAIN, x, y);
        assert_eq!(at(-0.0, 4096.0), Ok(None));
        assert_eq!(at(-f32::from_bits(1), 9.0), Err(4));
        assert_eq!(at(9.0, next_away(4096.0)), Err(4));
        assert_eq!(at(f32::NAN, 9.0), Err(4));
    }

    #[test]
    fn seeds_half_way_go_away_from_zero() {
        let x0 = |x| search_box(200, 200, 1, &PLAIN, x, 40.0).map(|found| found.map(|area| area.x0));
        assert_eq!(x0(50.25), Ok(Some(101 - 7)));
        assert_eq!(x0(50.75), Ok(Some(102 - 7)));
    }
}
