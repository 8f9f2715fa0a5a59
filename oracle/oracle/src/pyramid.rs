//! `build_pyramid`: the levels, and where level k lies.
use crate::image::Image;
use crate::params::{Params, PLAIN};
use crate::refusal::{refuse_if, Refusal, LARGEST_SIDE, LEVELS_SHORT, PARAMETER};
use box_image_pyramid::{build_pyramid, ImageView, Pyramid, PyramidBuffers};

/// The levels of a checked image, the base first; none where the count is 0 or a side is below the minimum.
pub fn levels_of<'a>(base: Image<'a>, params: &Params, buffers: &'a mut PyramidBuffers) -> Pyramid<'a> {
    let view = ImageView::new(base.width, base.height, base.pixels).expect("a checked image");
    build_pyramid(view, &params.pyramid(), buffers)
}

/// The pixels of the levels above the base, one level behind the other.
pub fn pixels_above(pyramid: &Pyramid) -> Vec<u8> {
    let above = pyramid.levels.iter().skip(1);
    above.flat_map(|level| level.img.data.iter().copied()).collect()
}

/// The levels above the base into a buffer: the number of levels, or refusal 1, 2 or 9.
pub fn build(base: Image, count: u32, minimum: u32, buffer: &mut [u8]) -> Result<usize, Refusal> {
    base.check(LARGEST_SIDE)?;
    let mut scratch = PyramidBuffers::new();
    let params = Params { levels: count, minimum, ..PLAIN };
    let pyramid = levels_of(base, &params, &mut scratch);
    let above = pixels_above(&pyramid);
    refuse_if(buffer.len() < above.len(), LEVELS_SHORT)?;
    buffer[..above.len()].copy_from_slice(&above);
    Ok(pyramid.levels.len())
}

/// Where the pixels of a level lie: in the base for level 0, else in the level buffer.
#[derive(Clone, Copy, Debug, PartialEq)]
pub struct Place {
    pub in_base: bool,
    pub from: usize,
    pub width: usize,
    pub height: usize,
}

/// What `locate` found out about a level.
#[derive(Clone, Copy, Debug, PartialEq)]
pub struct Located {
    pub place: Place,
    /// The number of levels.
    pub built: usize,
    /// The pixels of all levels above the base.
    pub above: usize,
}

/// Where level k of these sides, count and minimum lies, or refusal 1, 2, 3 (not built) or 9.
pub fn locate(
    base: Image,
    count: u32,
    minimum: u32,
    k: usize,
    buffer_length: usize,
) -> Result<Located, Refusal> {
    base.check(LARGEST_SIDE)?;
    let mut scratch = PyramidBuffers::new();
    let params = Params { levels: count, minimum, ..PLAIN };
    let pyramid = levels_of(base, &params, &mut scratch);
    let pixels = |k: usize| pyramid.levels[k].img.data.len();
    let built = pyramid.levels.len();
    refuse_if(k >= built, PARAMETER)?;
    let above = (1..built).map(pixels).sum();
    refuse_if(buffer_length < above, LEVELS_SHORT)?;
    let place = Place {
        in_base: k == 0,
        from: (1..k).map(pixels).sum(),
        width: pyramid.levels[k].img.width,
        height: pyramid.levels[k].img.height,
    };
    Ok(Located { place, built, above })
}

#[cfg(test)]
mod tests {
    use super::*;

    #[test]
    fn places_of_levels() {
        let pixels = [1u8; 12 * 9];
        let base = Image { pixels: &pixels, width: 12, height: 9 };
        let found = locate(base, 9, 0, 2, 100).unwrap();
        let place = Place { in_base: false, from: 24, width: 3, height: 2 };
        assert_eq!(found, Located { place, built: 4, above: 24 + 6 + 1 });
        assert_eq!(locate(base, 9, 0, 4, 100).unwrap_err(), PARAMETER);
        assert_eq!(locate(base, 9, 0, 1, 30).unwrap_err(), LEVELS_SHORT);
    }
}
