//! Listings of corner lists, coordinates from 0 to 4,096.
use super::file::{kind, Body, File};
use crate::generate::{floats, Rng};
use crate::listing::listing;
use crate::numbers::next_toward;
use crate::Corner;

const SUBJECT: u64 = 110;
const RANDOM: usize = 80;
/// The last is the float below half a 256th.
const EDGES: [f32; 6] =
    [0.0, -0.0, 4096.0, f32::from_bits(1), f32::MIN_POSITIVE, f32::from_bits(0x3aff_ffff)];

fn put(file: &mut File, list: &[Corner], neighbours: &[u32]) {
    let field = |f: fn(&Corner) -> f32| list.iter().map(f).collect::<Vec<f32>>();
    let mut body = Body::default();
    body.floats(&field(|c| c.x)).floats(&field(|c| c.y)).floats(&field(|c| c.strength)).numbers(neighbours);
    body.bytes(listing(list, neighbours).as_bytes());
    file.record(kind::LISTING, 0, &body);
}

fn half(rng: &mut Rng, between: f32) -> f32 {
    if rng.once_in(3) {
        next_toward(between)
    } else {
        between
    }
}

/// A coordinate at or beside a 256th, half way between two or beside that, or anywhere.
fn coordinate(rng: &mut Rng) -> f32 {
    let whole = rng.below(4096 * 256);
    match rng.below(5) {
        0 => whole as f32 / 256.0,
        1 => next_toward((whole + 1) as f32 / 256.0),
        2 => half(rng, (2 * (whole % 20000) + 1) as f32 / 512.0),
        3 => rng.pick(&EDGES),
        _ => (rng.unit() * 96.0) as f32,
    }
}

/// As many as a window has cells, or any number of 32 bits.
fn neighbours(rng: &mut Rng) -> u32 {
    match rng.below(4) {
        0 => rng.pick(&[0, 9, 10, 1088, u32::MAX]),
        1 => rng.below(1 << 32) as u32,
        _ => rng.below(25) as u32,
    }
}

pub fn file(seed: u64) -> File {
    let mut file = File::new("listings.bin");
    put(&mut file, &[], &[]);
    let mut rng = Rng::of_case(seed, SUBJECT, 0);
    for case in 0..RANDOM {
        let length = if case < 60 { rng.from_to(1, 3) } else { rng.from_to(8, 24) };
        let mut corner = || {
            let strength = if rng.once_in(4) { floats::odd(&mut rng) } else { (rng.unit() * 2040.0) as f32 };
            Corner::new(coordinate(&mut rng), coordinate(&mut rng), strength)
        };
        let list: Vec<Corner> = (0..length).map(|_| corner()).collect();
        let neighbours: Vec<u32> = list.iter().map(|_| neighbours(&mut rng)).collect();
        put(&mut file, &list, &neighbours);
    }
    file
}
