//! Frames on which rounding can tip a choice, so that the computed one and the exact one part: equal exact values whose
//! floats differ, and thresholds at and beside fifths.
use super::frames::{at_a_strength, at_an_end, least_side, likely};
use super::images::{self, noise, Board};
use super::{floats, Rng};
use crate::params::Params;
use crate::stream::Upload;

/// The least of some near grey levels, most often such that they lie about a power of two. Where all pixels lie between
/// the same two powers, the means of the crosses are rounded alike, and equal exact values are equal floats.
fn least_level(rng: &mut Rng, levels: usize) -> usize {
    if rng.once_in(4) {
        return rng.below(257 - levels);
    }
    let power = 1usize << rng.from_to(3, 7);
    power.saturating_sub(levels / 2) + rng.pick(&[0, 0, 0, 1])
}

/// A board whose squares are 1 to 9 grey levels apart, with little noise. About a corner the cross has two bright
/// pixels or three, which gives one exact value and, about a power of two, two floats.
fn faint_board(rng: &mut Rng, width: usize, height: usize, params: &Params) -> Vec<u8> {
    let reach = f64::from(params.ring << (params.levels.clamp(1, 3) - 1));
    let step = rng.from_to(1, 9);
    let dark = least_level(rng, step + 1) as f64;
    let board = Board {
        cell: if rng.once_in(2) { rng.from_to(6, 14) as f64 } else { reach * (1.0 + rng.unit() * 1.2) },
        turn: if rng.once_in(2) { 0.0 } else { rng.unit() },
        soft: rng.pick(&[0.0, 0.0, 0.0, 0.0, 1.0, 3.0]),
        noise: rng.pick(&[0, 0, 0, 0, 1, 2]),
        dark,
        bright: dark + step as f64,
    };
    board.image(rng, width, height, params.border())
}

/// A small tile of a few near grey levels, repeated. Most often every second one is a negative, some levels brighter,
/// as the squares of a board are: it has the same exact values, and often by other floats.
fn tile(rng: &mut Rng, width: usize, height: usize) -> Vec<u8> {
    let (w, h) = (rng.from_to(3, 12), rng.from_to(3, 12));
    let (spread, step) = (rng.pick(&[1, 1, 2, 2, 3, 5, 40]), rng.below(10));
    let least = least_level(rng, spread + step);
    let cells = noise(rng, w * h, least, spread);
    let ends = 2 * least + spread - 1 + step;
    let negative = !rng.once_in(4);
    let pixel = |i: usize| {
        let (x, y) = (i % width, i / width);
        let value = cells[y % h * w + x % w];
        if negative && (x / w + y / h) % 2 == 1 {
            (ends - usize::from(value)) as u8
        } else {
            value
        }
    };
    (0..width * height).map(pixel).collect()
}

/// The strongest corners that bytes give: half of the ring at 255, half at 0, and a cross about their mean.
fn strongest(rng: &mut Rng, width: usize, height: usize, ring: u32) -> Vec<u8> {
    let samples = std::array::from_fn(|k| if k % 8 < 4 { 255 } else { 0 });
    let cross = [0; 5].map(|_| 127 + rng.below(2) as u8);
    let (side, one) = (2 * ring as usize + 1, images::around_centre(&samples, &cross, ring));
    let (right, down) = (rng.below(side), rng.below(side));
    let place = |i: usize| (i / width + down) % side * side + (i % width + right) % side;
    (0..width * height).map(|i| one[place(i)]).collect()
}

/// A frame of these kinds that a stream can hold, whose parameters are all in range.
pub fn frame(rng: &mut Rng) -> Upload {
    sized(rng, |rng, params| (least_side(params) + 4 + rng.below(16) + rng.below(16)).min(72))
}

/// The same with sides that no stream holds.
pub fn large_frame(rng: &mut Rng) -> Upload {
    sized(rng, |rng, _| rng.from_to(97, 400))
}

fn sized(rng: &mut Rng, side: fn(&mut Rng, &Params) -> usize) -> Upload {
    let mut params = if rng.once_in(16) { at_an_end(rng) } else { likely(rng) };
    params.threshold = floats::threshold_beside_fifths(rng);
    if params.window < 3 && rng.once_in(2) {
        params.window = rng.from_to(1, 4) as u32;
    }
    if rng.once_in(2) {
        params.merge = 0.0; // a merge hides the weaker of two equals
    }
    let (width, height) = (side(rng, &params), side(rng, &params));
    let pixels = match rng.below(24) {
        0..=9 => faint_board(rng, width, height, &params),
        10..=15 => tile(rng, width, height),
        16..=20 => {
            let levels = rng.from_to(2, 8);
            let least = least_level(rng, levels);
            noise(rng, width * height, least, levels)
        }
        21 => {
            let strength = rng.pick(&[2028.8, 2032.0, 2035.2, 2038.4]);
            params.threshold = floats::beside(rng, strength);
            strongest(rng, width, height, params.ring)
        }
        _ => images::random(rng, width, height, &params),
    };
    let mut upload = Upload { width, height, params, pixels };
    if rng.once_in(4) {
        upload.params.threshold = at_a_strength(rng, &upload);
    }
    upload
}

#[cfg(test)]
mod tests {
    use super::*;
    use crate::buffers::same_list;
    use crate::exact::{has_whole_threshold, EXACT};
    use crate::frame::corners_of;
    use crate::pass::STEPS;

    /// By ties at whole thresholds, and by the threshold itself elsewhere.
    #[test]
    fn the_lists_part_in_both_ways() {
        let parted = |upload: &Upload| {
            let list = |steps| corners_of(upload.image(), &upload.params, steps);
            !same_list(&list(&STEPS), &list(&EXACT))
        };
        let frames = (0..2000).map(|case| frame(&mut Rng::of_case(1, 303, case)));
        let (whole, others): (Vec<_>, Vec<_>) =
            frames.filter(parted).partition(|upload| has_whole_threshold(&upload.params));
        assert!(whole.len() > 8 && others.len() > 40, "{} and {}", whole.len(), others.len());
    }
}
