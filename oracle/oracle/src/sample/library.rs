//! Frames of the library: buffers of every size, and what each holds afterwards.
use super::file::{kind, Body, File};
use crate::buffers::{Buffers, Sizes};
use crate::exact::EXACT;
use crate::frame::{find_corners, with_lists, Found};
use crate::generate::frames::{frame, Shape};
use crate::generate::refused_frames::{self, Case};
use crate::generate::{images, tipped, Rng};
use crate::image::Image;
use crate::params::{Params, PLAIN};
use crate::pass::{Steps, STEPS};
use crate::pyramid::{levels_of, pixels_above};
use crate::refusal::{number_of, LARGEST_SIDE};
use crate::stream::Upload;
use box_image_pyramid::PyramidBuffers;

const SUBJECT: u64 = 102;
const TIPPED: u64 = 103;
const RANDOM: u64 = 200;

/// What a call leaves: the number of the refusal, 0 for none, how many corners and ties there are, and every buffer.
pub struct Left {
    pub number: u32,
    pub count: usize,
    pub ties: u64,
    pub buffers: Buffers,
}

/// What the oracle leaves of a frame by some steps, in buffers that hold the sample's rule before.
pub fn due(case: &Case, steps: &Steps) -> Left {
    let mut buffers = Buffers::before(&case.sizes);
    let answer = find_corners(case.image(), &case.params, &mut buffers, LARGEST_SIDE, steps);
    let Found { count, ties } = answer.unwrap_or_default();
    Left { number: number_of(&answer), count, ties, buffers }
}

/// Writes a frame as given, and what is left of it.
pub fn put(file: &mut File, case: &Case, left: &Left) {
    let p = &case.params;
    let before = Buffers::before(&case.sizes);
    let after = &left.buffers;
    let mut body = Body::default();
    body.words(&[case.width, case.height, p.ring as usize]).float(p.threshold);
    body.words(&[p.window as usize, p.least as usize, p.centroid as usize]).float(p.merge);
    body.words(&[p.levels as usize, p.minimum as usize, p.search as usize]);
    body.bytes(&case.pixels);
    body.words(&[case.sizes.map, case.sizes.levels]);
    body.words(&case.sizes.seeds).words(&case.sizes.corners);
    body.words(&[left.number as usize, left.count]);
    body.float_buffer(&before.map, &after.map);
    body.byte_buffer(&before.levels, &after.levels);
    body.corner_buffer(&before.seeds, &after.seeds).corner_buffer(&before.corners, &after.corners);
    file.record(kind::LIBRARY_FRAME, left.number, &body);
}

/// The buffers that a frame just needs by some steps.
fn needed(image: Image, params: &Params, steps: &Steps) -> Sizes {
    let mut scratch = PyramidBuffers::new();
    let levels = pixels_above(&levels_of(image, params, &mut scratch)).len();
    with_lists(image, params, steps, |lists| Sizes {
        map: image.width * image.height,
        levels,
        seeds: [lists.seeds.len(); 4],
        corners: [lists.found.len(); 4],
    })
}

/// Just enough, too short in one buffer, or more than enough and unequal.
fn varied(rng: &mut Rng, needed: Sizes) -> Sizes {
    let mut sizes = needed;
    let slice = rng.below(4);
    let less = |n: usize| n.saturating_sub(1);
    match rng.below(8) {
        0 => sizes.map = less(needed.map),
        1 => sizes.levels = less(needed.levels),
        2 => sizes.seeds[slice] = less(needed.seeds[slice]),
        3 => sizes.corners[slice] = less(needed.corners[slice]),
        4 => sizes.corners = needed.corners.map(|n| n / 2),
        5 => {
            sizes.map += rng.below(9);
            sizes.levels += rng.below(9);
            sizes.seeds = needed.seeds.map(|n| n + rng.below(5));
            sizes.corners = needed.corners.map(|n| n + rng.below(5));
        }
        _ => {}
    }
    sizes
}

/// A frame in buffers about as long as it needs.
fn in_buffers(rng: &mut Rng, name: &'static str, upload: Upload, needed: Sizes) -> Case {
    Case {
        name,
        sizes: varied(rng, needed),
        width: upload.width,
        height: upload.height,
        params: upload.params,
        pixels: upload.pixels,
        number: 0,
    }
}

/// The random frame of a number.
pub fn random(seed: u64, case: u64) -> Case {
    let rng = &mut Rng::of_case(seed, SUBJECT, case);
    let shape = if rng.once_in(10) { Shape::Thin } else { Shape::Small };
    let upload = frame(rng, shape);
    let sizes = needed(upload.image(), &upload.params, &STEPS);
    in_buffers(rng, "random", upload, sizes)
}

/// The frame of a number for both choices. Most are of a kind on which rounding can tip a choice; the buffers are made
/// for either choice, or for both.
pub fn random_tipped(seed: u64, case: u64) -> Case {
    let rng = &mut Rng::of_case(seed, TIPPED, case);
    let upload = match rng.below(300) {
        0 => tipped::large_frame(rng),
        1..=25 => frame(rng, Shape::Thin),
        26..=50 => frame(rng, Shape::Small),
        _ => tipped::frame(rng),
    };
    let [exact, computed] = [&EXACT, &STEPS].map(|steps| needed(upload.image(), &upload.params, steps));
    let longer = |a: [usize; 4], b: [usize; 4]| if a[0] < b[0] { b } else { a };
    let both = Sizes {
        seeds: longer(exact.seeds, computed.seeds),
        corners: longer(exact.corners, computed.corners),
        ..exact
    };
    let sizes = rng.pick(&[exact, computed, both, both]);
    in_buffers(rng, "tipped", upload, sizes)
}

/// A long frame: sides that `corners` never sees.
fn long(rng: &mut Rng, width: usize, height: usize, levels: u32) -> Case {
    let pixels = images::stamped(rng, width, height, 5, 6);
    let params = Params { window: 1, merge: 3.0, levels, ..PLAIN };
    let sizes = needed(Image { pixels: &pixels, width, height }, &params, &STEPS);
    Case { name: "long", width, height, pixels, params, sizes, number: 0 }
}

pub fn file(seed: u64) -> File {
    let mut file = File::new("library.bin");
    let mut add = |case: Case| put(&mut file, &case, &due(&case, &STEPS));
    refused_frames::cases().into_iter().for_each(&mut add);
    (0..RANDOM).map(|case| random(seed, case)).for_each(&mut add);
    let mut rng = Rng::of_case(seed, SUBJECT, RANDOM);
    for (width, height, levels) in
        [(4096, 1, 3), (1, 4096, 3), (4096, 2, 2), (300, 13, 1), (13, 300, 1), (200, 28, 2)]
    {
        add(long(&mut rng, width, height, levels));
    }
    file
}
