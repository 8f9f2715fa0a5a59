//! A frame: its refusals, the pass, and what every buffer holds afterwards.
use crate::buffers::Buffers;
use crate::image::Image;
use crate::params::Params;
use crate::pass::{pass, Lists, Places, Steps, UNLIMITED};
use crate::pyramid::{levels_of, pixels_above};
use crate::refusal::{refuse_if, Refusal, LEVELS_SHORT, MAP_SHORT};
use box_image_pyramid::PyramidBuffers;
use chess_corners::multiscale::visible::detect;
use chess_corners::DetectorConfig;
use chess_corners_core::{Corner, ImageView};

/// What a finished frame answers (RULES 9.6): how many corners stand in their buffer, and the ties.
#[derive(Clone, Copy, Debug, Default, PartialEq, Eq)]
pub struct Found {
    pub count: usize,
    pub ties: u64,
}

/// Finds the corners of a frame, or gives refusal 1, 2, 3, 5, 8, 9 or 10. With the steps of RULES 9 it is the computed
/// frame, with those of [`crate::exact`] the exact one; refusals and buffers are the same for both.
pub fn find_corners(
    image: Image,
    params: &Params,
    buffers: &mut Buffers,
    largest_side: usize,
    steps: &Steps,
) -> Result<Found, Refusal> {
    image.check(largest_side)?;
    params.check()?;
    refuse_if(buffers.map.len() < image.width * image.height, MAP_SHORT)?;
    let mut scratch = PyramidBuffers::new();
    let pyramid = levels_of(image, params, &mut scratch);
    let above = pixels_above(&pyramid);
    refuse_if(buffers.levels.len() < above.len(), LEVELS_SHORT)?;
    let places = Places { seeds: buffers.seeds.places(), corners: buffers.corners.places() };
    let lists = pass(&pyramid.levels, params, places, steps).inspect_err(|_| buffers.clear())?;
    let (of_seeds, of_corners) = lists.neighbours(params, steps);
    buffers.map.fill(0.0);
    buffers.levels[..above.len()].copy_from_slice(&above);
    buffers.seeds.hold_only(&lists.seeds, &of_seeds);
    buffers.corners.hold_only(&lists.corners, &of_corners);
    Ok(Found { count: lists.corners.len(), ties: lists.ties(params, steps) })
}

/// Calls `f` with the lists of a frame that has sides, length and parameters in order, its buffers never short.
pub fn with_lists<T>(image: Image, params: &Params, steps: &Steps, f: impl FnOnce(Lists) -> T) -> T {
    let mut scratch = PyramidBuffers::new();
    let pyramid = levels_of(image, params, &mut scratch);
    let lists = pass(&pyramid.levels, params, UNLIMITED, steps);
    f(lists.expect("unlimited places"))
}

/// The merged corners alone.
pub fn corners_of(image: Image, params: &Params, steps: &Steps) -> Vec<Corner> {
    with_lists(image, params, steps, |lists| lists.corners)
}

/// The corners of the original orchestrator, `detect_multiscale`. It panics where the last level is thinner than the
/// ring; see NOTES.md.
pub fn by_orchestrator(image: Image, params: &Params) -> Vec<Corner> {
    let view = ImageView::from_u8_slice(image.width, image.height, image.pixels);
    let config = DetectorConfig::scalar(params.chess(), params.pyramid(), params.search, params.merge);
    let found = detect(view.expect("a checked image"), &config);
    found.iter().map(|d| Corner::new(d.x, d.y, d.response)).collect()
}

#[cfg(test)]
mod tests {
    use super::*;
    use crate::buffers::{bytes_before, floats_before, words_before, Sizes};
    use crate::exact::EXACT;
    use crate::generate::hunted::{Road, FOUND};
    use crate::generate::images::whole_case;
    use crate::params::PLAIN;
    use crate::pass::STEPS;
    use crate::refusal::{LARGEST_SIDE, LIST_SHORT};

    /// The whole case in a frame of two levels, of which only the base has a corner, or of one.
    fn find(levels: u32, sizes: &Sizes) -> (Result<Found, Refusal>, Buffers) {
        let mut buffers = Buffers::before(sizes);
        let pixels = whole_case();
        let image = Image { pixels: &pixels, width: 11, height: 11 };
        let params = Params { merge: 3.0, levels, ..PLAIN };
        (find_corners(image, &params, &mut buffers, LARGEST_SIDE, &STEPS), buffers)
    }

    const SIZES: Sizes = Sizes { map: 122, levels: 27, seeds: [1, 2, 3, 2], corners: [3, 2, 4, 5] };

    #[test]
    fn a_finished_frame_leaves_its_lists_and_zeros() {
        let (answer, buffers) = find(1, &SIZES);
        assert_eq!(answer, Ok(Found { count: 1, ties: 0 }));
        assert_eq!(buffers.map, [0.0; 122]);
        assert_eq!(buffers.levels, bytes_before(27));
        assert_eq!(buffers.seeds.strength, [0.0; 3]);
        assert_eq!(buffers.corners.x, [5.0, 0.0, 0.0]);
        assert_eq!(buffers.corners.strength, [2032.0, 0.0, 0.0, 0.0]);
        assert_eq!((buffers.seeds.neighbours, buffers.corners.neighbours), (vec![0; 2], vec![0; 5]));
    }

    #[test]
    fn levels_stand_first_and_the_rest_is_as_before() {
        let (answer, buffers) = find(2, &SIZES);
        assert_eq!(answer, Ok(Found::default()));
        assert_eq!(buffers.levels[25..], bytes_before(27)[25..]);
        assert_ne!(buffers.levels[..25], bytes_before(27)[..25]);
    }

    #[test]
    fn refusal_10_clears_everything_and_the_others_nothing() {
        let (answer, buffers) = find(1, &Sizes { corners: [3, 2, 4, 0], ..SIZES });
        assert_eq!(answer, Err(10));
        assert_eq!(buffers.map, [0.0; 122]);
        assert_eq!(buffers.levels, [0; 27]);
        assert_eq!((buffers.corners.strength, buffers.seeds.neighbours), (vec![0.0; 4], vec![0; 2]));
        let (answer, buffers) = find(1, &Sizes { map: 120, ..SIZES });
        assert_eq!(answer, Err(8));
        assert_eq!(buffers.map, floats_before(120));
        assert_eq!(buffers.corners.x, floats_before(3));
        assert_eq!(buffers.corners.neighbours, words_before(5));
    }

    /// Frames whose exact list has more corners: places for the computed ones alone are too few.
    #[test]
    fn the_exact_frame_has_buffers_of_its_own_need() {
        for (road, number) in FOUND.into_iter().filter(|&(road, _)| road == Road::EqualFifths) {
            let upload = road.frame(number);
            let (image, params) = (upload.image(), &upload.params);
            let need = |steps| with_lists(image, params, steps, |lists| lists.found.len());
            let (fewer, all) = (need(&STEPS), need(&EXACT));
            assert!(fewer < all);
            let find = |places, steps| {
                let sizes = Sizes { map: upload.pixels.len(), corners: [places; 4], ..Sizes::default() };
                let mut buffers = Buffers::before(&sizes);
                let answer = find_corners(image, params, &mut buffers, LARGEST_SIDE, steps);
                (answer.map(|found| found.count), buffers)
            };
            assert_eq!(find(fewer, &STEPS).0, Ok(fewer));
            assert_eq!(find(all, &EXACT).0, Ok(all));
            let (short, buffers) = find(fewer, &EXACT);
            assert_eq!((short, buffers.corners.x), (Err(LIST_SHORT), vec![0.0; fewer]));
        }
    }
}
