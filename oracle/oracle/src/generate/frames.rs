//! Random frames.
use super::{damage, floats, images, Rng};
use crate::params::Params;
use crate::pass::STEPS;
use crate::stream::{write, Upload};

/// The sides that frames are drawn from.
#[derive(Clone, Copy, Debug)]
pub enum Shape {
    /// Up to 48, and little more than what the border leaves something of.
    Small,
    /// 49 to 96.
    Large,
    /// 96 by 96: the largest that `corners` takes.
    Full,
    /// Sides about the ring's radius and below: often too thin for any response.
    Thin,
}

/// Subjects of [`Rng::of_case`].
const RANDOM: u64 = 1;
const DAMAGED: u64 = 2;

/// Parameters that often leave corners to be found.
pub(super) fn likely(rng: &mut Rng) -> Params {
    let window = rng.pick(&[0, 1, 1, 1, 2, 2]);
    Params {
        ring: rng.pick(&[5, 5, 5, 5, 5, 5, 5, 10]),
        threshold: floats::threshold(rng),
        window,
        least: if window == 0 { 0 } else { rng.pick(&[0, 0, 1, 2, 3]) },
        centroid: rng.pick(&[0, 0, 1, 1, 2]),
        merge: floats::merge_radius(rng),
        levels: if rng.once_in(20) { 3 } else { rng.pick(&[1, 1, 2]) },
        minimum: rng.pick(&[0, 0, 1, 2, 6]),
        search: rng.pick(&[0, 0, 1, 2, 3, 4, 8]),
    }
}

/// The same with one of them at or near an end of its range.
pub(super) fn at_an_end(rng: &mut Rng) -> Params {
    let mut params = likely(rng);
    match rng.below(7) {
        0 => params.threshold = floats::odd(rng),
        1 => params.window = rng.from_to(3, 16) as u32,
        2 => params.least = rng.pick(&[4, 8, 24, 25, 255]),
        3 => params.centroid = rng.from_to(3, 16) as u32,
        4 => params.levels = rng.pick(&[0, 4, 5, 255]),
        5 => params.minimum = rng.pick(&[10, 11, 12, 20, 24, 40, 65535]),
        _ => params.search = rng.pick(&[16, 40, 254, 255]),
    }
    params
}

/// The least side at which the last level has a cell inside the border.
pub(super) fn least_side(params: &Params) -> usize {
    (2 * params.border() + 1) << (params.levels.clamp(1, 4) - 1)
}

/// The largest side of a small frame.
const SMALL: usize = 48;

/// The same parameters with a border that leaves something of a small frame, most of them below 40 pixels a side.
fn for_small(params: Params) -> Params {
    if least_side(&params) <= 32 {
        return params;
    }
    let narrow = Params { window: 0, least: 0, centroid: 0, ..params };
    if least_side(&narrow) <= SMALL {
        return narrow;
    }
    Params { levels: 1, ..params }
}

fn side(rng: &mut Rng, shape: Shape, params: &Params) -> usize {
    match shape {
        Shape::Small => (least_side(params) + rng.below(12).min(rng.below(12))).min(SMALL),
        Shape::Large => rng.from_to(SMALL + 1, 96),
        Shape::Full => 96,
        Shape::Thin => rng.below(2 * params.ring as usize + 3),
    }
}

/// A threshold that is exactly the strength of a corner of the frame, or the next float to it.
pub(super) fn at_a_strength(rng: &mut Rng, upload: &Upload) -> f32 {
    let corners = crate::frame::corners_of(upload.image(), &upload.params, &STEPS);
    if corners.is_empty() {
        return upload.params.threshold;
    }
    let strength = corners[rng.below(corners.len())].strength;
    f32::from_bits(strength.to_bits() + rng.below(3) as u32 - 1)
}

/// A frame whose parameters are all in range.
pub fn frame(rng: &mut Rng, shape: Shape) -> Upload {
    let params = match shape {
        _ if rng.once_in(10) => at_an_end(rng),
        Shape::Small => for_small(likely(rng)),
        _ => likely(rng),
    };
    let (width, height) = (side(rng, shape, &params), side(rng, shape, &params));
    let pixels = images::random(rng, width, height, &params);
    let mut upload = Upload { width, height, params, pixels };
    if rng.once_in(16) {
        upload.params.threshold = at_a_strength(rng, &upload);
    }
    upload
}

/// Stream `case` of a run of random streams for `corners`: sides from 0 to 96.
pub fn random_stream(seed: u64, case: u64) -> Vec<u8> {
    let mut rng = Rng::of_case(seed, RANDOM, case);
    let shapes =
        [Shape::Small, Shape::Small, Shape::Small, Shape::Large, Shape::Large, Shape::Full, Shape::Thin];
    let shape = rng.pick(&shapes);
    write(&frame(&mut rng, shape))
}

/// Stream `case` of a run of damaged streams.
pub fn damaged_stream(seed: u64, case: u64) -> Vec<u8> {
    let mut rng = Rng::of_case(seed, DAMAGED, case);
    let shape = rng.pick(&[Shape::Small, Shape::Thin]);
    let upload = frame(&mut rng, shape);
    damage::damaged(&mut rng, &upload)
}

#[cfg(test)]
mod tests {
    use super::*;
    use crate::program::corners;

    #[test]
    fn random_frames_are_in_range() {
        for case in 0..200 {
            let text = corners(&random_stream(7, case));
            assert!(text.starts_with("corners ") || text == "refused 10\n", "case {case}: {text}");
        }
    }
}
