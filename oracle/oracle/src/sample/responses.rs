//! Response maps of boxes.
use super::file::{kind, Body, File};
use crate::buffers::floats_before;
use crate::generate::images::{self, around_centre, whole_case};
use crate::generate::Rng;
use crate::image::{Area, Image};
use crate::params::{Params, PLAIN};
use crate::refusal::number_of;
use crate::response::response;

const SUBJECT: u64 = 103;
const RANDOM: usize = 220;
const CELLS: usize = 120;

/// An image, its claimed sides, a ring, a box and the map buffer's length.
struct Case {
    pixels: Vec<u8>,
    width: usize,
    height: usize,
    ring: u32,
    area: Area,
    map: usize,
}

fn put(file: &mut File, case: &Case) {
    let before = floats_before(case.map);
    let mut after = before.clone();
    let image = Image { pixels: &case.pixels, width: case.width, height: case.height };
    let answer = response(image, case.ring, case.area, &mut after);
    let (w, h) = answer.unwrap_or((0, 0));
    let Area { x0, y0, x1, y1 } = case.area;
    let mut body = Body::default();
    body.words(&[case.width, case.height, case.ring as usize, x0, y0, x1, y1]);
    body.bytes(&case.pixels).word(case.map);
    body.words(&[number_of(&answer) as usize, w, h]);
    body.float_buffer(&before, &after);
    file.record(kind::RESPONSE, number_of(&answer), &body);
}

/// The one cell that has a response in an image of 11 by 11, or of 21 by 21.
fn put_centre(file: &mut File, pixels: Vec<u8>, ring: u32) {
    let (side, c) = (2 * ring as usize + 1, ring as usize);
    let area = Area { x0: c, y0: c, x1: c + 1, y1: c + 1 };
    put(file, &Case { pixels, width: side, height: side, ring, area, map: 1 });
}

/// The cases of RULES 14 that are single responses.
fn put_named(file: &mut File) {
    let mut pair = [100u8; 16];
    (pair[0], pair[8], pair[4], pair[12]) = (102, 102, 98, 98);
    let mut low = [2u8; 16];
    (low[0], low[8], low[4], low[12]) = (4, 4, 0, 0);
    let mut brighter = whole_case();
    brighter[60] = 129;
    put_centre(file, vec![100; 121], 5);
    put_centre(file, whole_case(), 5);
    put_centre(file, brighter, 5);
    put_centre(file, around_centre(&pair, &[101, 100, 100, 100, 100], 5), 5);
    put_centre(file, around_centre(&low, &[3, 2, 2, 2, 2], 5), 5);
}

/// Single cells: samples of 0, 255 or anything.
fn put_cells(file: &mut File, rng: &mut Rng) {
    for case in 0..CELLS {
        let extreme = case % 3 == 0;
        let mut sample = || if extreme { rng.pick(&[0, 255]) } else { rng.byte() };
        let samples = std::array::from_fn(|_| sample());
        let cross = std::array::from_fn(|_| sample());
        let ring = if case % 8 == 7 { 10 } else { 5 };
        put_centre(file, around_centre(&samples, &cross, ring), ring);
    }
}

/// A bound of a box: inside, about the end, or far outside.
fn bound(rng: &mut Rng, side: usize) -> usize {
    match rng.below(8) {
        0 => 0,
        1 => side,
        2 => rng.pick(&[side + 1, 4097, u32::MAX as usize]),
        _ => rng.below(side + 2),
    }
}

fn random(rng: &mut Rng) -> Case {
    let ring = rng.pick(&[5, 5, 5, 10]);
    let reach = 2 * ring as usize;
    let mut side = || if rng.once_in(4) { rng.below(reach + 2) } else { rng.from_to(reach, reach + 14) };
    let (width, height) = (side(), side());
    let pixels = images::random(rng, width, height, &Params { ring, ..PLAIN });
    let area = if rng.once_in(5) {
        Area { x0: 0, y0: 0, x1: width, y1: height }
    } else {
        let (xs, ys) = ([bound(rng, width), bound(rng, width)], [bound(rng, height), bound(rng, height)]);
        let ordered = !rng.once_in(8);
        let order = |v: [usize; 2]| if ordered { (v[0].min(v[1]), v[0].max(v[1])) } else { (v[0], v[1]) };
        let ((x0, x1), (y0, y1)) = (order(xs), order(ys));
        Area { x0, y0, x1, y1 }
    };
    let (w, h) = area.clipped_sides(width, height);
    let map = w * h + if rng.once_in(3) { rng.below(6) } else { 0 };
    Case { pixels, width, height, ring, area, map }
}

/// Each refusal, alone and with higher ones.
fn put_refused(file: &mut File) {
    let whole = |width, height| Area { x0: 0, y0: 0, x1: width, y1: height };
    let sound =
        || Case { pixels: vec![7; 12 * 11], width: 12, height: 11, ring: 5, area: whole(12, 11), map: 132 };
    let cases = [
        Case { width: 4097, height: 0, pixels: vec![], ..sound() },
        Case { width: 0, height: 4097, pixels: vec![], ..sound() },
        Case { width: 4096, height: 0, pixels: vec![], ..sound() },
        Case { width: 4097, ring: 6, map: 0, ..sound() },
        Case { width: 13, ..sound() },
        Case { pixels: vec![7; 131], ring: 0, map: 0, ..sound() },
        Case { ring: 0, ..sound() },
        Case { ring: 6, map: 0, ..sound() },
        Case { ring: 266, ..sound() },
        Case { map: 131, ..sound() },
        Case { map: 0, ..sound() },
        Case { map: 0, area: Area { x0: 4, y0: 9, x1: 4, y1: 11 }, ..sound() },
        Case { map: 5, area: Area { x0: 4, y0: 9, x1: 7, y1: 99 }, ..sound() },
        Case { map: 6, area: Area { x0: 4, y0: 9, x1: 7, y1: 99 }, ..sound() },
    ];
    for case in cases {
        put(file, &case);
    }
}

pub fn file(seed: u64) -> File {
    let mut file = File::new("responses.bin");
    let mut rng = Rng::of_case(seed, SUBJECT, 0);
    put_named(&mut file);
    put_refused(&mut file);
    put_cells(&mut file, &mut rng);
    for _ in 0..RANDOM {
        let case = random(&mut rng);
        put(&mut file, &case);
    }
    file
}
